#!/bin/sh
# Counts what `sapic why` costs beside `compile`, by the program itself, on files that are refused, but for two kinds, and whose size doubles:
#
#   byte      so many definitions, and a byte that begins no token behind them
#   item      the same with an item that is in no grammar
#   line      the same without a line feed in the file
#   below     the same with a wrong word in a term below ninety-nine others
#   twice     the same with a definition more of the first name
#   unknown   the same with a process that isn't defined
#   clash     the same with a declaration that disagrees with one before them
#   unbound   the same with a variable that isn't bound, in a definition that the process uses behind all others
#   lock      the same with an unlock without lock
#   nodes     definitions that the process uses twice each, up to more nodes than there may be
#   facts     twelve such definitions, where the one action that they stand for has so many facts
#   names     so many definitions, each the one before it under another name, the last of which stands where `nodes` has an event
#   lemma     so many lemmas, of which the last has a variable that isn't guarded
#   binders   one lemma that binds one name so many times in one quantifier, and behind it once without a guard
#   deep      one lemma of so many conjuncts, which are more levels than a formula may have
#   nested    one lemma of so many facts below twenty quantifiers in one another that bind one name, and behind them one without a guard
#   notes     an accepted file with a note on each line: so many functions that no term has, definitions that nothing uses, and lemmas whose
#             facts nothing shows
#   row       the same in one line
#   events    an accepted file with a rule that shows so many facts of which no formula speaks
#   taken     an accepted file with so many uses of a definition, of which half bind a name in their argument, and half compare one
#
# For each size it tells the instructions of both, by valgrind, their ratio, which is to be at most 1.5, of `notes`, `row`, `events` and
# `taken` 2, and what `why` takes to the size before, at most 2.2. Both read the file once. Of a piece in no grammar `why` goes over the
# words once more up to the wrong one, and there tries some hundred words, however deep it stands.
# And of each file of examples/ it tells the instructions of `compile`, and of `why` on it with a lemma that is in no grammar, which are
# to be fewer.
#
# usage: bench/why.sh [KIND..]     `examples` is a kind too
set -eu
. "$(dirname "$0")/growth.sh"

# definitions COUNT FEED BEHIND: so many definitions, each with this behind it, and then these items
definitions() {
    awk -v n="$1" -v feed="$2" -v behind="$3" 'BEGIN {
        printf "theory Bench begin functions: f/1%s", feed
        for (k = 1; k <= n; k++) printf "let P%d = new ~k; in(<x, y>); event A(x, ~k); out(f(<x, ~k>))%s", k, feed
        print behind " end"
    }'
}

byte() { definitions "$1" '\n' 'process: 0 %'; }
item() { definitions "$1" '\n' 'process: new ~k; out(~k;'; }
line() { definitions "$1" ' ' 'process: new ~k; out(~k;'; }
below() { definitions "$1" '\n' "process: out($(printf 'f(%.0s' $(seq 99))'a' 'b'"; }
twice() { definitions "$1" '\n' 'let P1 = 0 process: 0'; }
unknown() { definitions "$1" '\n' 'process: Q'; }
clash() { definitions "$1" '\n' 'functions: f/2 process: 0'; }
unbound() { definitions "$1" '\n' 'let Q = in(x); out(y) process: P1 | Q'; }
lock() { definitions "$1" '\n' "process: lock 's'; if 'a' = 'b' then unlock 't'"; }

nodes() {
    awk -v n="$1" 'BEGIN {
        printf "theory Bench begin let P0 = event A()\n"
        for (k = 1; k <= n; k++) printf "let P%d = P%d | P%d\n", k, k - 1, k - 1
        printf "process: P%d end\n", n
    }'
}

facts() {
    awk -v n="$1" 'BEGIN {
        printf "theory Bench begin let P0 = [ ] --[ A(\x27a\x27)"
        for (k = 1; k <= n; k++) printf ", A(\x27a\x27)"
        printf " ]-> [ ]\n"
        for (k = 1; k <= 12; k++) printf "let P%d = P%d | P%d\n", k, k - 1, k - 1
        print "process: P12 end"
    }'
}

names() {
    awk -v n="$1" 'BEGIN {
        printf "theory Bench begin let P0 = event A()\n"
        for (k = 1; k <= n; k++) printf "let P%d = P%d\n", k, k - 1
        printf "let Q0 = P%d\n", n
        for (k = 1; k <= 12; k++) printf "let Q%d = Q%d | Q%d\n", k, k - 1, k - 1
        print "process: Q12 end"
    }'
}

lemma() {
    awk -v n="$1" 'BEGIN {
        printf "theory Bench begin process: 0\n"
        for (k = 1; k <= n; k++) printf "lemma l%d: \"All x y #i. A(x, y)@i ==> (Ex #j. B(x)@j & #j < #i)\"\n", k
        print "lemma last: \"All x #i. A()@i ==> B(x)@i\" end"
    }'
}

binders() {
    awk -v n="$1" 'BEGIN {
        printf "theory Bench begin process: event A(\x27a\x27)\nlemma last: \"(All"
        for (k = 1; k <= n; k++) printf " x"
        print " #i. A(x)@i ==> T) & (Ex x. T)\" end"
    }'
}

deep() {
    awk -v n="$1" 'BEGIN {
        printf "theory Bench begin process: event A(\x27a\x27)\nlemma last: \"All x #i. A(x)@i ==> T"
        for (k = 1; k <= n; k++) printf " & (Ex y #j. A(y)@j)"
        print "\" end"
    }'
}

nested() {
    awk -v n="$1" 'function joined(m) { return m == 1 ? "A(x)@i" : "(" joined(int(m / 2)) " & " joined(m - int(m / 2)) ")" }
        BEGIN {
        printf "theory Bench begin process: event A(\x27a\x27)\nlemma last: \""
        for (k = 1; k <= 20; k++) printf "(All x #i. A(x)@i ==> "
        printf "%s & (Ex x. T)", joined(n)
        for (k = 1; k <= 20; k++) printf ")"
        print "\" end"
    }'
}

# so many functions and definitions that are unused, and lemmas of facts that aren't shown, with this behind each
unused() {
    awk -v n="$1" -v feed="$2" 'BEGIN {
        printf "theory Bench begin%s", feed
        for (k = 1; k <= n; k++) printf "functions: f%d/1%slet P%d = event A()%slemma l%d: \"Ex #i. B%d()@i\"%s", k, feed, k, feed, k, k, feed
        print "process: 0 end"
    }'
}

events() {
    awk -v n="$1" 'BEGIN {
        printf "theory Bench begin process: [ ] --[ A0()\n"
        for (k = 1; k <= n; k++) printf ", A%d()\n", k
        print "]-> [ ] lemma l: \"T\" end"
    }'
}

taken() {
    awk -v n="$1" 'BEGIN {
        printf "theory Bench begin let P(x) = in(x)\nprocess: 0\n"
        for (k = 1; k <= n / 2; k++) printf "| P(w%d)\n| (new v%d; P(v%d))\n", k, k, k
        print "end"
    }'
}

notes() { unused "$1" '\n'; }
row() { unused "$1" ' '; }

wished=" $* "
printf '%-8s %7s %14s %14s %6s %7s\n' kind size compile why ratio growth

# kind KIND LINE SIZES..: a line for the file of each size, which the function of that name makes, and which is refused with this line,
# or accepted where that is empty, where this kind is asked for
kind() {
    what=$1 refused=$2 old=0
    shift 2
    case $wished in *" $what "* | "  ") ;; *) return 0 ;; esac
    for size in "$@"; do
        "$what" "$size" > "$work/file.spthy"
        at=$(($(wc -c < "$work/file.spthy") - 6))
        row=$(wc -l < "$work/file.spthy")
        line=$(echo "$refused" | sed "s/BYTE/$at/; s/LINE/$row/")
        if [ -n "$line" ]; then ends 1 "file refused: $line"; else ends 0 ''; fi
        long=$(instructions compile "$work/file.spthy")
        ends 0 ''
        told=$(instructions why "$work/file.spthy")
        awk -v kind="$what" -v size="$size" -v long="$long" -v told="$told" -v old="$old" 'BEGIN {
            growth = old > 0 ? sprintf("%.2f", told / old) : "-"
            printf "%-8s %7d %14.0f %14.0f %6.2f %7s\n", kind, size, long, told, told / long, growth
        }'
        old=$told
    done
}

kind byte 'byte BYTE begins no token' 1000 2000 4000 8000
kind item 'line LINE: not in the grammar' 1000 2000 4000 8000
kind line 'line 1: not in the grammar' 1000 2000 4000 8000
kind below 'line LINE: not in the grammar' 1000 2000 4000 8000
kind twice 'name P1 stands twice' 1000 2000 4000 8000
kind unknown 'process Q is not defined' 1000 2000 4000 8000
kind clash 'function f is declared otherwise' 1000 2000 4000 8000
kind unbound 'place 21: unbound' 1000 2000 4000 8000
kind lock 'place 11: unlock without lock' 1000 2000 4000 8000
kind nodes 'more than 4000 nodes' 12 24 48 96
kind facts 'more than 4000 nodes' 8000 16000 32000 64000
kind names 'more than 4000 nodes' 1000 2000 4000 8000
kind lemma 'last: variable x is not guarded' 1000 2000 4000 8000
kind binders 'last: variable x is not guarded' 8000 16000 32000 64000
kind deep 'line 2: not in the grammar' 1000 2000 4000 8000
kind nested 'last: variable x is not guarded' 1000 2000 4000 8000
kind notes '' 1000 2000 4000 8000
kind row '' 1000 2000 4000 8000
kind events '' 4000 8000 16000 32000
kind taken '' 70 140 280

case $wished in *" examples "* | "  ") ;; *) exit 0 ;; esac
for file in "$(dirname "$0")"/../examples/*.spthy; do
    ends 0 ''
    long=$(instructions compile "$file")
    sed '$s/end$/lemma broken: T end/' "$file" > "$work/file.spthy"
    told=$(instructions why "$work/file.spthy")
    awk -v kind="$(basename "$file" .spthy)" -v long="$long" -v told="$told" 'BEGIN {
        printf "%-16s %14.0f %14.0f %6.2f\n", kind, long, told, told / long
    }'
done
