#!/bin/sh
# Tries the wrong bodies that stand beside the gate, `crates/NAME/wrong/*.edit`: the prover has to refuse each.
#
# usage: bench/wrong.sh [CRATE..]
#
# Without names, those of all crates. It works on a copy of the repository, in which they stand where `rt must-fail` looks for
# edits. A line tells each edit with the goal at which it is refused, and the last line how many were let through. The status is 0
# where none was. The libraries that are built in this checkout are used, as a check of the crate leaves them; one that isn't built,
# or has changed since, is proved first.
set -eu
top=$(cd "$(dirname "$0")/.." && pwd)
copy=$(mktemp -d)
trap 'rm -rf "$copy"' EXIT
trap 'exit 1' HUP INT TERM

[ $# -gt 0 ] || set -- $(cd "$top/crates" && ls -d -- */wrong | sed 's|/wrong$||')
mkdir "$copy/.git" "$copy/crates"
cp "$top/crates.txt" "$top/HANDLES" "$copy"
for crate in "$top"/crates/*; do
    to=$copy/crates/$(basename "$crate")
    mkdir "$to"
    for part in src specs proofs; do
        [ ! -d "$crate/$part" ] || cp -R "$crate/$part" "$to"
    done
    [ ! -d "$crate/out/rlib" ] || {
        mkdir "$to/out"
        cp -Rl "$crate/out/rlib" "$to/out" 2> /dev/null || cp -R "$crate/out/rlib" "$to/out"
    }
done
wanted=0
for name in "$@"; do
    [ -d "$top/crates/$name/wrong" ] || {
        echo "$name has no folder wrong/" >&2
        exit 2
    }
    cp -R "$top/crates/$name/wrong" "$copy/crates/$name/must-fail"
    wanted=$((wanted + $(ls "$top/crates/$name/wrong" | wc -l)))
done

cd "$copy"
rt must-fail "$@" > tried 2>&1 || true
grep '^rt: must-fail' tried || cat tried
refused=$(grep -c ': refused, as it must be' tried || true)
echo "$wanted wrong bodies, $refused refused, $((wanted - refused)) let through or not tried"
[ "$wanted" -eq "$refused" ]
