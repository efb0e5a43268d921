#!/bin/sh
# Counts what `sapic compile` and `compile-inline` cost on the largest files of each kind, with sizes that double, and prints for each
# the instructions, by valgrind, the bytes that are read and written, and the growth of both: that of the instructions is to be about
# that of the bytes.
#   nodes   balanced parallels of events, up to 4,000 nodes
#   events  a name that stands 1,000 times for an event with so many arguments
#   scopes  64 names in scope, and outputs of them, up to 4,000 nodes
#   sends   64 names in scope, and messages on channels, three rules each, up to 12,000 rules
#   locks   balanced parallels of a lock and its unlock, up to 4,000 nodes
#   terms   a name that stands so often for a message of 100 levels
#   rules   a name that stands 1,333 times for an embedded rule with so many occurrences of one variable
#   facts   a name that stands 1,333 times for an embedded rule of so many facts
#   vars    one embedded rule with so many occurrences of one variable
#   names   so many doubling `let` items, of which the process uses the last; counted, and refused
#   uses    so many definitions with a parameter, each of which uses the one before it twice, and a use of the last: the places double
#   chain   so many definitions with a parameter, each a mere use of the one before it, and a use of the last
#   twice   definitions as in `uses`, but too many places; counted, and refused
#           Of these three the instructions grow 2.2 times at most
#   items   so many functions that are declared, up to a file of 1 MiB
#   lemmas  so many lemmas, up to 12,000 in 0.9 MB
#   binders a lemma with so many variables of one quantifier, all in one guard
#   guards  a lemma with so many variables of one quantifier, and a guard for each
#   inline  one lemma and so many restrictions, which it carries, up to 40,000 in 0.9 MB
# usage: bench/compile.sh [KIND..]
set -eu
. "$(dirname "$0")/growth.sh"
ulimit -s 1024

# A balanced parallel of so many copies of a process, and what stands before it.
parallel() {
    awk -v leaves="$1" -v leaf="$2" -v before="$3" '
        function tree(n,    half) {
            if (n == 1) { printf "%s", leaf; return }
            half = int(n / 2)
            printf "("; tree(half); printf ") | ("; tree(n - half); printf ")"
        }
        BEGIN { printf "theory Bench begin %s process: ", before; tree(leaves); print " end" }'
}

nodes() { parallel "$1" "event Shown('value')" ""; }

events() {
    args=$(awk -v n="$1" 'BEGIN { for (k = 1; k < n; k++) printf "\047value%d\047,", k; printf "\047last\047" }')
    parallel 1000 A "let A = event Shown($args)"
}

# So many actions under 64 names, each the words with one of them in place of NAME.
under_names() {
    awk -v n="$1" -v action="$2" 'BEGIN {
        printf "theory Bench begin process: "
        for (k = 1; k <= 64; k++) printf "new ~n%d; ", k
        printf "("
        for (k = 1; k < n / 200; k++) {
            for (m = 0; m < 200; m++) {
                one = action
                sub(/NAME/, "~n" m % 64 + 1, one)
                printf "%s; ", one
            }
            printf "0 | "
        }
        print "0) end"
    }'
}

scopes() { under_names "$1" "out(NAME)"; }

sends() { under_names "$1" "out(~n1, NAME)"; }

locks() { parallel "$1" "(lock 's'; unlock 's')" ""; }

terms() {
    term=$(awk 'BEGIN { for (k = 1; k < 100; k++) printf "f("; printf "\047a\047"; for (k = 1; k < 100; k++) printf ")" }')
    parallel "$1" A "functions: f/1 let A = out($term)"
}

# An embedded rule that takes so many facts of so many arguments each.
rule() {
    awk -v facts="$1" -v args="$2" 'BEGIN {
        for (k = 1; k <= args; k++) list = list (k > 1 ? "," : "") "x"
        printf "[ "
        for (k = 1; k <= facts; k++) printf "%sF(%s)", (k > 1 ? ", " : ""), list
        printf " ] --> [ ]"
    }'
}

rules() { parallel 1333 A "let A = $(rule "$(($1 / 50))" 50)"; }

facts() { parallel 1333 A "let A = $(rule "$1" 0)"; }

vars() { echo "theory Bench begin process: $(rule "$(($1 / 500))" 500) end"; }

names() {
    awk -v n="$1" 'BEGIN {
        printf "theory Bench begin let N0 = 0 | 0 "
        for (k = 1; k <= n; k++) printf "let N%d = N%d | N%d ", k, k - 1, k - 1
        printf "process: N%d end", n
    }'
}

# So many definitions behind the first, each with this body, in which USE is a use of the one before it, and a use of the last.
definitions() {
    awk -v n="$1" -v body="$2" 'BEGIN {
        printf "theory Bench begin let A0(x) = new n; event Shown(x, n) "
        for (k = 1; k <= n; k++) {
            one = body
            gsub(/USE/, "A" k - 1 "(x)", one)
            printf "let A%d(x) = %s ", k, one
        }
        printf "process: A%d(\047a\047) end", n
    }'
}

uses() { definitions "$1" "USE | USE"; }

chain() { definitions "$1" "USE"; }

twice() { definitions "$1" "USE | USE"; }

items() {
    awk -v n="$1" 'BEGIN {
        printf "theory Bench begin functions: "
        for (k = 1; k < n; k++) printf "function%d/2, ", k
        print "last/1 process: 0 end"
    }'
}

lemmas() {
    awk -v n="$1" 'BEGIN {
        printf "theory Bench begin process: event Sent(\047a\047) "
        for (k = 1; k <= n; k++) printf "lemma l%d: \"All x #i. Sent(x)@i ==> (Ex #j. Seen(x)@j & #j < #i)\" ", k
        print "end"
    }'
}

binders() {
    awk -v n="$1" 'BEGIN {
        printf "theory Bench begin process: 0 lemma l: \"Ex"
        for (k = 1; k <= n; k++) printf " x%d", k
        printf " #i. Seen("
        for (k = 1; k < n; k++) printf "x%d, ", k
        printf "x%d)@i\" end", n
    }'
}

guards() {
    awk -v n="$1" '
        function tree(first, last,    half) {
            if (first == last) { printf "Seen(x%d)@i", first; return }
            half = int((first + last) / 2)
            printf "("; tree(first, half); printf ") & ("; tree(half + 1, last); printf ")"
        }
        BEGIN {
            printf "theory Bench begin process: 0 lemma l: \"Ex"
            for (k = 1; k <= n; k++) printf " x%d", k
            printf " #i. "; tree(1, n); printf "\" end"
        }'
}

inline() {
    awk -v n="$1" 'BEGIN {
        printf "theory Bench begin process: event Sent(\047a\047) "
        for (k = 1; k <= n; k++) printf "restriction r%d:\"T\" ", k
        print "lemma l: \"Ex #i. Sent(\047a\047)@i\" end"
    }'
}

wished=" $* "
printf '%-7s %7s %11s %14s %12s %6s\n' kind size bytes instructions instructions bytes

# kind KIND SIZES..: a line for the file of each size, which the function of that name makes, where this kind is asked for
kind() {
    what=$1 old_count=0 old_bytes=0
    shift
    case $wished in *" $what "* | "  ") ;; *) return 0 ;; esac
    for size in "$@"; do
        "$what" "$size" > "$work/file.spthy"
        count=$(instructions "$command" "$work/file.spthy")
        status=0
        "$program" "$command" "$work/file.spthy" > "$work/theory" 2> "$work/said" || status=$?
        ended "$status" "$command" "$work/file.spthy"
        bytes=$(cat "$work/file.spthy" "$work/theory" | wc -c)
        awk -v kind="$what" -v size="$size" -v bytes="$bytes" -v count="$count" -v old_count="$old_count" -v old_bytes="$old_bytes" 'BEGIN {
            printf "%-7s %7d %11d %14.0f", kind, size, bytes, count
            if (old_count > 0) printf " %12.2f %6.2f\n", count / old_count, bytes / old_bytes; else printf "            -      -\n"
        }'
        old_count=$count old_bytes=$bytes
    done
}

command=compile
kind nodes 80 160 320 640 1333
kind events 8 16 32 64 128 256 512
kind scopes 400 800 1600 3200
kind sends 400 800 1600 3200
kind locks 80 160 320 640 1000
kind terms 80 160 320 640 1333
kind rules 250 500 1000 2000
kind facts 250 500 1000 2000
kind vars 65000 130000 260000 520000
ends 1 'file refused: more than 4000 nodes'
kind names 500 1000 2000 4000 8000 16000
kind twice 500 1000 2000 4000 8000 16000
ends 0 ''
kind uses 5 6 7 8 9
kind chain 2500 5000 10000 20000
kind items 4000 8000 16000 32000
kind lemmas 1500 3000 6000 12000
kind binders 4000 8000 16000 32000
kind guards 2000 4000 8000 16000
command=compile-inline
kind inline 2500 5000 10000 20000 40000
