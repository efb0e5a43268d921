#!/bin/sh
# What the gate of this commit costs beside that of another: both from nothing, each alone, one after the other on this machine.
#
# usage: bench/two_gates.sh COMMIT FOLDER [PROCESSORS]
#
# Makes a clean clone of each below FOLDER, which must not be there, and runs gate_times.py of this commit in both, the new one first;
# under PROCESSORS, as 0,1, each is held to these. What each run says goes to FOLDER/NAME.log, its table to FOLDER/NAME.table. The last
# lines have the processor minutes and the minutes of the clock of both, and what the new one's are of the old one's. Nothing else is
# to run meanwhile: it takes some three hours on four processors.
set -e
[ $# -ge 2 ] || { sed -n '4p' "$0" >&2; exit 2; }
other=$1 folder=$2 processors=$3
here=$(cd "$(dirname "$0")/.." && pwd)
[ ! -e "$folder" ] || { echo "$folder is there already" >&2; exit 2; }
[ -z "$(git -C "$here" status --porcelain)" ] || { echo "what isn't committed isn't measured" >&2; exit 2; }
mkdir -p "$folder"
measured() { # NAME COMMIT
    git clone -q "$here" "$folder/$1"
    git -C "$folder/$1" checkout -q "$2"
    # (the same eyes for both: what an old commit counts itself may be less)
    cp "$here/bench/gate_times.py" "$folder/$1/bench/gate_times.py"
    (cd "$folder/$1" && ${processors:+taskset -c "$processors"} python3 bench/gate_times.py > "../$1.table" 2> "../$1.log") || echo "$1: $(tail -n 1 "$folder/$1.log")"
    rm -rf "$folder/$1"
}
numbers() { sed -n 's/.*\*\*\([0-9.]*\) processor minutes\*\*.* and \([0-9.]*\) minutes of the clock.*/\1 \2/p' "$folder/$1.table"; }
measured new "$(git -C "$here" rev-parse HEAD)"
measured old "$other"
for one in new old; do echo "$one: $(numbers $one | sed 's/ / processor minutes, /') of the clock; $(tail -n 1 "$folder/$one.log")"; done
echo "$(numbers new) $(numbers old)" | awk '{ printf "new to old: %.2f of the processor, %.2f of the clock\n", $1 / $3, $2 / $4 }'
