# Read by the scripts beside it, which measure the program on inputs that double. $program is the one that SAPIC names; without
# it the one of crates/sap_main is built. $work is a folder for what a script makes. A script ends where a command doesn't end as
# it is to.

program=${SAPIC:-}
if [ -z "$program" ]; then
    main=$(cd "$(dirname "$0")/../crates/sap_main" && pwd)
    program=$main/out/sap_main
    (cd "$main" && rt run -- sample 1) > /dev/null 2>&1 || {
        echo "crates/sap_main cannot be built" >&2
        exit 1
    }
fi
work=$(mktemp -d)
trap 'rm -rf "$work"' EXIT

# ends STATUS TEXT: with this status, and this line or none on standard error, the commands are to end from here on
ends() {
    wanted=$1 line=$2
}
ends 0 ''

# ended STATUS WORD..: ends the script where the call with these words, which had this status, is to end otherwise
ended() {
    status=$1
    shift
    [ "$status" = "$wanted" ] && [ "$(cat "$work/said")" = "$line" ] && return
    echo "status $status: $*" >&2
    head -c 300 "$work/said" >&2
    exit 1
}

# instructions WORD..: those of the call with these words
instructions() {
    status=0
    valgrind --tool=callgrind --callgrind-out-file=/dev/null --log-file="$work/log" "$program" "$@" \
        > /dev/null 2> "$work/said" || status=$?
    ended "$status" "$@"
    awk '/Collected/ { print $4 }' "$work/log"
}

# kilobytes WORD..: the most that the call with these words holds
kilobytes() {
    status=0
    /usr/bin/time -q -f %M -o "$work/most" "$program" "$@" > /dev/null 2> "$work/said" || status=$?
    ended "$status" "$@"
    cat "$work/most"
}

# milliseconds WORD..: the least of three calls with these words
milliseconds() {
    least=
    for _ in 1 2 3; do
        status=0
        start=$(date +%s%N)
        "$program" "$@" > /dev/null 2> "$work/said" || status=$?
        took=$((($(date +%s%N) - start) / 1000))
        ended "$status" "$@"
        if [ -z "$least" ] || [ "$took" -lt "$least" ]; then
            least=$took
        fi
    done
    awk "BEGIN { printf \"%.1f\", $least / 1000 }"
}

# family WHAT RATIO: the lines from here on tell of what, and which ratio is wanted
family() {
    echo "$1: the ratio is to be about $2"
    before=
}

# told SIZE UNIT COUNT FORM: a line with the size, the count in this form, and the ratio to the line before
told() {
    ratio=$([ -z "$before" ] && echo '-' || awk "BEGIN { printf \"%.2f\", $3 / $before }")
    printf "%8d %-8s $4  ratio %5s\n" "$1" "$2" "$3" "$ratio"
    before=$3
}

# whole SIZE UNIT WORD..: tells the instructions of a call
whole() {
    size=$1 unit=$2
    shift 2
    all=$(instructions "$@")
    told "$size" "$unit" "$all" '%12d instructions'
}

# held SIZE UNIT WORD..: tells the most kilobytes that a call holds
held() {
    size=$1 unit=$2
    shift 2
    now=$(kilobytes "$@")
    told "$size" "$unit" "$now" '%9d kB'
}

# timed SIZE UNIT WORD..: tells the milliseconds of a call's shortest run
timed() {
    size=$1 unit=$2
    shift 2
    now=$(milliseconds "$@")
    told "$size" "$unit" "$now" '%9s ms'
}
