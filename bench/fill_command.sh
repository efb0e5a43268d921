#!/bin/sh
# Counts what `fill` costs, by the program itself. A process makes a secret and puts out so many terms of 256 nodes, each a pair of a
# large term and one over the secret; in a short run of twice as many steps the adversary then shows pairs of the parts, each taken
# out of two of these. So each step's search knows all that was sent. Sizes double, up to the 500 steps that a short run may have:
#
#   steps    in instructions, by valgrind, less those of the same call on the short run without lines; the ratio is to be at most 2.2
#   clock    in milliseconds, whole
#
# and
#   chain    in instructions: so many keys, each put out under the one before, the first of all last; then the last one is shown
#
# usage: bench/fill_command.sh [FAMILY..]
set -eu
. "$(dirname "$0")/growth.sh"

# parts_of STEPS: a file and a short run of so many steps
parts_of() {
    awk -v n="$1" -v file="$work/file.spthy" -v run="$work/run" '
        function tuple(first, k,    t) { t = "<" first; while (k-- > 0) t = t ",\047a\047"; return t ">" }
        function inner(i, secret) { return "h(" tuple(secret ",\047" i "\047", 40) ")" }
        BEGIN {
            large = tuple("\047a\047", 42)
            outputs = int(n / 2) - 1
            printf "theory Bench begin builtins: hashing process: new ~s" > file
            print "short-run\nnew 0 ~0" > run
            for (i = 1; i <= outputs; i++) {
                printf "; out(<%s,%s,%s>)", large, large, inner(i, "~s") > file
                print "out 0" > run
            }
            print " end" > file
            for (i = 1; i <= n - 1 - outputs; i++) print "know <" inner((i - 1) % outputs + 1, "~0") "," inner(i % outputs + 1, "~0") ">" > run
        }'
}

# chain_of STEPS: a file and a short run of so many steps: of each two one makes a key, one puts it out
chain_of() {
    awk -v n="$1" -v file="$work/file.spthy" -v run="$work/run" '
        BEGIN {
            keys = int((n - 1) / 2)
            printf "theory Bench begin builtins: symmetric-encryption process: new ~k1" > file
            print "short-run\nnew 0 ~1" > run
            for (i = 2; i <= keys; i++) {
                printf "; new ~k%d; out(senc(~k%d,~k%d))", i, i, i - 1 > file
                printf "new 0 ~%d\nout 0\n", i > run
            }
            print "; out(~k1) end" > file
            printf "out 0\nknow ~%d\n", keys > run
        }'
}

# beyond SIZE: tells the instructions of a call on the short run that stands there, less those of one without lines
beyond() {
    all=$(instructions fill "$work/file.spthy" "$work/run")
    head -n 1 "$work/run" > "$work/none"
    told "$1" steps "$((all - $(instructions fill "$work/file.spthy" "$work/none")))" '%12d instructions'
}

steps() {
    family 'fill, steps' 2
    for count in 64 128 250 500; do
        parts_of "$count"
        beyond "$count"
    done
}

chain() {
    family 'fill, a chain of keys' 2
    for count in 31 61 121; do
        chain_of "$count"
        beyond "$count"
    done
}

clock() {
    family 'fill, milliseconds' 2
    for count in 125 250 500; do
        parts_of "$count"
        timed "$count" steps fill "$work/file.spthy" "$work/run"
    done
}

all='steps chain clock'
for name in ${*:-$all}; do
    "$name"
done
