#!/bin/sh
# Counts what `sapic compile-short` costs beside `compile`, by the program itself, on files whose places double:
#
#   scopes  64 names in scope, and outputs of them, up to 3,200 places: nearly all rules are silent
#   mixed   the same with an event behind each output: half of the rules are
#   sends   64 names in scope, and messages on channels: a right side stands in two rules
#   nodes   balanced parallels of outputs: one rule is left, which adds them all
#
# For each size it tells the instructions of both, by valgrind, their ratio, which is to be at most 1.3, what compile-short
# takes to the size before, at most 2.2, and the kilobytes that both hold, at most twice as many.
#
# usage: bench/short.sh [KIND..]
set -eu
. "$(dirname "$0")/growth.sh"

# under_names COUNT ACTION EACH: so many times the action under 64 names, with one of them in place of NAME, EACH of them in a thread
under_names() {
    awk -v n="$1" -v action="$2" -v each="$3" 'BEGIN {
        printf "theory Bench begin process: "
        for (k = 1; k <= 64; k++) printf "new ~n%d; ", k
        printf "("
        for (k = 1; k <= n / each; k++) {
            for (m = 0; m < each; m++) {
                one = action
                gsub(/NAME/, "~n" m % 64 + 1, one)
                printf "%s; ", one
            }
            printf "0 | "
        }
        print "0) end"
    }'
}

scopes() { under_names "$1" "out(NAME)" 200; }

mixed() { under_names "$(($1 / 2))" "out(NAME); event E(NAME)" 100; }

sends() { under_names "$1" "out(~n1, NAME)" 200; }

nodes() {
    awk -v leaves="$(($1 / 3))" '
        function tree(n,    half) {
            if (n == 1) { printf "out(\047m\047)"; return }
            half = int(n / 2)
            printf "("; tree(half); printf ") | ("; tree(n - half); printf ")"
        }
        BEGIN { printf "theory Bench begin process: "; tree(leaves); print " end" }'
}

wished=" $* "
printf '%-7s %7s %14s %14s %6s %7s %10s %10s\n' kind size compile compile-short ratio growth kB kB

# kind KIND SIZES..: a line for the file of each size, which the function of that name makes, where this kind is asked for
kind() {
    what=$1 old=0
    shift
    case $wished in *" $what "* | "  ") ;; *) return 0 ;; esac
    for size in "$@"; do
        "$what" "$size" > "$work/file.spthy"
        long=$(instructions compile "$work/file.spthy")
        short=$(instructions compile-short "$work/file.spthy")
        held=$(kilobytes compile "$work/file.spthy")
        short_held=$(kilobytes compile-short "$work/file.spthy")
        awk -v kind="$what" -v size="$size" -v long="$long" -v short="$short" -v old="$old" -v held="$held" -v short_held="$short_held" 'BEGIN {
            growth = old > 0 ? sprintf("%.2f", short / old) : "-"
            printf "%-7s %7d %14.0f %14.0f %6.2f %7s %10d %10d\n", kind, size, long, short, short / long, growth, held, short_held
        }'
        old=$short
    done
}

kind scopes 400 800 1600 3200
kind mixed 400 800 1600 3200
kind sends 400 800 1600 3200
kind nodes 480 960 1920 3840
