#!/bin/sh
# Counts what the commands on runs cost, by the program itself. Each family doubles a size, up to what a run, a file or a theory
# may have, and makes one thing dear. In instructions, by valgrind, without those of the same command on a run of as many lines of
# which the first is illegal, so without what it takes to read the file or the theory and the run, and to begin:
#
#   forward      to-rules: sessions of nine lines, up to 5,000, of a process of some 3,900 places: lines of processes that are
#                replayed, and lines of rules that are written for them
#   back         to-process: sessions of twelve lines, up to 20,001, of its rules: lines of rules that are replayed, restrictions
#                that are looked at, and lines of the process that are written for them
#   keys, key    judge, without what check-rules takes for the same lines, of keys, each set, found, locked and unlocked in nine
#                lines; then of one key, again and again: what the restrictions remember of a run
#   judge        judge: a lemma with three guards on a run that shows events, up to a cost of 10,000,000, which doubles
#   steps        check-rules: lines, up to 20,001, of a theory of 12,001 rules, each used in turn: rules that are found and used
#   facts        check-rules: lines that put 32 facts each, as many that take them, up to 20,000 lines: facts of rules
#   embedded     judge: lines of embedded rules that put 128 facts each, as many that take them, up to 5,000 lines with those of the
#                threads: facts of processes
#   knowledge    check-rules: what the adversary draws, is sent, writes down, puts together and takes apart, up to 20,000 lines
#   nodes        check-rules: 20,000 lines whose entries have nodes that double, up to 255: each entry holds its term
#   redexes      check-rules: fifty lines of a rule whose right side is a term of up to 98,302 nodes with 32,767 redexes:
#                normal forms, whose terms have numbers
#   around       the same of a rule in whose left side a destructor stands: normal forms of trees
#
# and whole:
#   rules        check-rules: theories of up to 12,001 rules, on the run without lines
#   sample       sample: up to 500 sessions
#
# In these the ratio is to be about 2, at most 2.2. In the next it is to be about 1, at most 1.2: what doubles is to cost nothing.
#   forward_places, back_places   the runs of forward and back of most lines, where the process doubles
#   steps_rules                   a run of 12,001 lines, where the theory doubles
#   passed                        check-rules: 20,000 lines that pass a term on and leave it behind, whose nodes double
#
# In kilobytes, the most that a command holds:
#   held_lines   runs that double, as above: it grows with the lines, and not with the file or the theory
#   heap         the runs of passed: it grows with the lines, and not with the nodes of a term that stands in many facts
#
# What no command reaches: a fact, a key or an entry beyond those of a run's lines; a term of more than 256 nodes in a fact, so also
# the table of shared terms beyond these; a run of a process of more than 5,000 lines; a judgement beyond its cost.
#
# usage: bench/replays.sh [FAMILY..]
set -eu
. "$(dirname "$0")/growth.sh"

# places COUNT: a file whose process has about so many places: sessions of nine lines, beside a balanced parallel
places() {
    awk -v leaves="$(($1 / 3))" '
        function tree(n,    half) {
            if (n <= 1) { printf "event Shown(\047value\047)"; return }
            half = int(n / 2)
            printf "("; tree(half); printf ") | ("; tree(n - half); printf ")"
        }
        BEGIN {
            printf "theory Bench begin builtins: hashing process: ! (new ~k; lock \047r\047; insert ~k, h(~k); "
            printf "lookup ~k as x in unlock \047r\047; out(x); event Got(x)) | ("; tree(leaves); print ") end"
        }' > "$work/file.spthy"
}

# session COUNT: so many sessions of nine lines, behind the first
session() {
    awk -v n="$1" 'BEGIN {
        print "process-run"; print "par 0"
        for (i = 2; i < n + 2; i++) {
            print "rep 0"; printf "new %d ~%d\nlock %d\ninsert %d\nfound %d\nunlock %d\nout %d\nevent %d\nnil %d\n", i, i, i, i, i, i, i, i, i
        }
    }' > "$work/run"
}

# rule_session LINES: so many lines of rules: three, sessions of twelve, and public names for what is left
rule_session() {
    awk -v lines="$1" 'BEGIN {
        print "rule-run\nrule Init\nrule Par_ 0\nrule RepStart_1 1"
        for (at = 3; at + 12 <= lines; at += 12) {
            n = 4 + 11 * s; key = 2 * s; lock = key + 1; s++
            printf "rule RepCopy_1 3\nfresh ~%d\nrule New_11 %d %d\nfresh ~%d\nrule Lock_111 %d %d\n", key, n, n + 1, lock, n + 2, n + 3
            printf "rule Insert_1111 %d\nrule Found_11111 %d with x=h(~%d)\n", n + 4, n + 5, key
            printf "rule Unlock_111111 %d\nrule Out_1111111 %d\nlearn %d\n", n + 6, n + 7, n + 8
            printf "rule Event_11111111 %d\nrule Nil_111111111 %d\n", n + 9, n + 10
        }
        for (; at < lines; at++) print "pub \047a\047"
    }' > "$work/run"
}

# rule_chain COUNT: a theory of so many rules, each of which takes what the one before adds, and of one more
rule_chain() {
    awk -v n="$1" 'BEGIN {
        print "theory R\nbegin\nrule Init: [ ] --[ Init() ]-> [ S0() ]"
        for (k = 0; k < n; k++) printf "rule R%d: [ S%d() ] --[ A(\047a\047) ]-> [ S%d() ]\n", k, k, (k + 1) % n
        print "restriction one: \"All #i #j. Init()@i & Init()@j ==> #i = #j\"\nend"
    }' > "$work/theory.spthy"
}

# uses COUNT LINES: so many lines of so many rules, one after another, and one more
uses() {
    awk -v rules="$1" -v n="$2" 'BEGIN {
        print "rule-run\nrule Init"
        for (k = 0; k < n; k++) printf "rule R%d %d\n", k % rules, k
    }' > "$work/run"
}

# net COMMAND FILE: the instructions of the command on the run, without those on the same run with an illegal line in place of the
# first. In these all is read, and each state begins.
net() {
    sed '2s/.*/know 7/' "$work/run" > "$work/illegal"
    ends 2 'run refused: step 1: no entry 7'
    none=$(instructions "$1" "$2" "$work/illegal") || exit 1
    ends 0 ''
    all=$(instructions "$1" "$2" "$work/run") || exit 1
    echo $((all - none))
}

# replayed SIZE UNIT COMMAND FILE: tells them
replayed() {
    count=$(net "$3" "$4")
    told "$1" "$2" "$count" '%12d instructions'
}

echo rule-run > "$work/none"

forward() {
    family 'to-rules, lines' 2
    places 3900
    for count in 69 138 277 555; do
        session "$count"
        replayed $((count * 9 + 1)) lines to-rules "$work/file.spthy"
    done
}

forward_places() {
    family 'to-rules, places' 1
    session 555
    for count in 480 960 1920 3840; do
        places "$count"
        replayed "$count" places to-rules "$work/file.spthy"
    done
}

back() {
    family 'to-process, lines' 2
    places 3900
    for lines in 2501 5001 10001 20001; do
        rule_session "$lines"
        replayed "$lines" lines to-process "$work/file.spthy"
    done
}

back_places() {
    family 'to-process, places' 1
    rule_session 20001
    for count in 480 960 1920 3840; do
        places "$count"
        replayed "$count" places to-process "$work/file.spthy"
    done
}

# turns_on KEY: so many turns on the key, each of a fresh name ~k of its own, which is set at the key. Counted is what judge takes more
# than check-rules with the same rules and no restrictions
turns_on() {
    echo "theory Bench begin process: ! (new ~k; insert $1, ~k; lookup $1 as x in (lock $1; unlock $1)) end" > "$work/file.spthy"
    "$program" compile "$work/file.spthy" | awk '/^restriction/ { exit } { print } END { print "end" }' > "$work/theory.spthy"
    for count in 277 555 1111 2222; do
        awk -v turns="$count" 'BEGIN {
            print "rule-run\nrule Init\nrule RepStart_ 0"
            for (t = 0; t < turns; t++) {
                n = 2 + 8 * t; key = 2 * t
                printf "rule RepCopy_ 1\nfresh ~%d\nrule New_1 %d %d\nrule Insert_11 %d\n", key, n, n + 1, n + 2
                printf "rule Found_111 %d with x=~%d\nfresh ~%d\nrule Lock_1111 %d %d\n", n + 3, key, key + 1, n + 4, n + 5
                printf "rule Unlock_11111 %d\nrule Nil_111111 %d\n", n + 6, n + 7
            }
        }' > "$work/run"
        without=$(net check-rules "$work/theory.spthy")
        with=$(net judge "$work/file.spthy")
        told $((count * 9 + 2)) lines $((with - without)) '%12d instructions'
    done
}

keys() {
    family 'judge over check-rules, keys of their own' 2
    turns_on '~k'
}

key() {
    family 'judge over check-rules, one key' 2
    turns_on "'r'"
}

judge() {
    family 'judge, cost' 2
    echo "theory J begin process: ! event A() lemma c: \"All #i #j #k. A()@i & A()@j & A()@k ==> T\" end" > "$work/file.spthy"
    for events in 31 39 49 62 79 99 125; do
        awk -v n="$events" 'BEGIN { print "process-run"; for (i = 1; i <= n; i++) printf "rep 0\nevent %d\n", i }' > "$work/run"
        replayed "$events" events judge "$work/file.spthy"
    done
}

steps() {
    family 'check-rules, lines' 2
    rule_chain 12000
    for lines in 2500 5000 10000 20000; do
        uses 12000 "$lines"
        replayed $((lines + 1)) lines check-rules "$work/theory.spthy"
    done
}

steps_rules() {
    family 'check-rules, rules beside 12,001 lines' 1
    for count in 1500 3000 6000 12000; do
        rule_chain "$count"
        uses "$count" 12000
        replayed $((count + 1)) rules check-rules "$work/theory.spthy"
    done
}

rules() {
    family 'check-rules, rules' 2
    for count in 1500 3000 6000 12000; do
        rule_chain "$count"
        whole $((count + 1)) rules check-rules "$work/theory.spthy" "$work/none"
    done
}

# A quarter of the facts is persistent, and stays.
facts() {
    family 'check-rules, facts' 2
    awk 'BEGIN {
        for (k = 0; k < 32; k++) list = list (k ? ", " : "") (k % 4 ? "F(x)" : "!P(x)")
        printf "theory F begin rule Put: [ ] --> [ %s ] rule Take: [ %s ] --> [ ] end\n", list, list
    }' > "$work/theory.spthy"
    for count in 1250 2500 5000 10000; do
        awk -v n="$count" 'BEGIN {
            print "rule-run"
            for (k = 0; k < n; k++) printf "rule Put with x=\047%d\047\n", k
            for (k = 0; k < n; k++) { printf "rule Take"; for (f = 0; f < 32; f++) printf " %d", 32 * k + f; print "" }
        }' > "$work/run"
        replayed $((count * 32)) facts check-rules "$work/theory.spthy"
    done
}

embedded() {
    family 'judge, facts of embedded rules' 2
    awk 'BEGIN {
        for (k = 0; k < 128; k++) list = list (k ? ", " : "") (k % 4 ? "F(\047a\047)" : "!P(\047a\047)")
        printf "theory E begin process: (! [ ] --> [ %s ]) | (! [ %s ] --> [ ]) end\n", list, list
    }' > "$work/file.spthy"
    for count in 156 312 624 1248; do
        awk -v n="$count" 'BEGIN {
            print "process-run\npar 0"
            for (k = 0; k < n; k++) printf "rep 0\nrule %d\n", k + 2
            for (k = 0; k < n; k++) { printf "rep 1\nrule %d", k + n + 2; for (f = 0; f < 128; f++) printf " %d", 128 * k + f; print "" }
        }' > "$work/run"
        replayed $((count * 128)) facts judge "$work/file.spthy"
    done
}

# Five entries in eight lines: a name that the adversary draws, one that it is sent, 'a', the pair of the two names, its first part.
knowledge() {
    family 'check-rules, entries' 2
    echo "theory K begin rule Send: [ Fr(~n) ] --> [ Out(~n) ] end" > "$work/theory.spthy"
    for count in 312 625 1250 2500; do
        awk -v n="$count" 'BEGIN {
            print "rule-run"
            for (k = 0; k < n; k++) {
                f = 3 * k; e = 5 * k
                printf "fresh ~%d\nown %d\nfresh ~%d\nrule Send %d\nlearn %d\npub \047a\047\n", 2 * k, f, 2 * k + 1, f + 1, f + 2
                printf "app pair %d %d\napp fst %d\n", e, e + 1, e + 3
            }
        }' > "$work/run"
        replayed $((count * 5)) entries check-rules "$work/theory.spthy"
    done
}

nodes() {
    family 'check-rules, nodes of entries' '2 at most'
    echo "theory K begin rule Init: [ ] --> [ ] end" > "$work/theory.spthy"
    for levels in 4 5 6 7; do
        awk -v levels="$levels" 'BEGIN {
            print "rule-run\npub \047a\047"
            for (k = 0; k < levels; k++) printf "app pair %d %d\n", k, k
            for (k = levels + 1; k < 20000; k++) printf "app fst %d\n", levels
        }' > "$work/run"
        replayed $(((2 << levels) - 1)) nodes check-rules "$work/theory.spthy"
    done
}

# redexes_of LEFT REST: terms of redexes on the right side of a rule with this left side, used fifty times, each line ending so
redexes_of() {
    for levels in 12 13 14 15; do
        awk -v levels="$levels" -v left="$1" '
            function term(k) { if (k == 0) { printf "\047a\047"; return } printf "fst(<"; term(k - 1); printf ","; term(k - 1); printf ">)" }
            BEGIN {
                printf "theory N begin rule Init: [ ] --> [ S(\047a\047) ] rule R: [ S(%s) ] --> [ S(", left
                term(levels)
                print ") ] end"
            }' > "$work/theory.spthy"
        awk -v rest="$2" 'BEGIN {
            print "rule-run\nrule Init"
            for (k = 0; k < 50; k++) printf "rule R %d%s\n", k, rest
        }' > "$work/run"
        replayed $(((3 << levels) - 2)) nodes check-rules "$work/theory.spthy"
    done
}

redexes() {
    family 'check-rules, nodes with redexes' 2
    redexes_of x ''
}

around() {
    family 'check-rules, nodes with redexes, of rules with destructors on their left' 2
    redexes_of 'fst(x)' " with x=<'a','b'>"
}

# passing LEVELS LINES: a theory whose first rule makes a term of so many levels, of pairs, which the second passes on and leaves
# behind; and so many lines of it
passing() {
    awk -v levels="$1" '
        function term(k) { if (k == 0) { printf "\047a\047"; return } printf "<"; term(k - 1); printf ","; term(k - 1); printf ">" }
        BEGIN {
            printf "theory P begin rule Init: [ ] --> [ S("
            term(levels)
            print ") ] rule R: [ S(x) ] --> [ L(x), S(x) ] end"
        }' > "$work/theory.spthy"
    awk -v n="$2" 'BEGIN { print "rule-run\nrule Init"; for (k = 0; k < n; k++) printf "rule R %d\n", 2 * k }' > "$work/run"
}

passed() {
    family 'check-rules, nodes that are passed on' 1
    for levels in 4 5 6 7; do
        passing "$levels" 20000
        replayed $(((2 << levels) - 1)) nodes check-rules "$work/theory.spthy"
    done
}

sample() {
    family sample 2
    for sessions in 62 125 250 500; do
        whole "$sessions" sessions sample "$sessions"
    done
}

held_lines() {
    places 3900
    family 'to-rules, kilobytes' '2 for what comes beyond the file'
    for count in 138 277 555; do
        session "$count"
        held $((count * 9 + 1)) lines to-rules "$work/file.spthy" "$work/run"
    done
    for command in to-process judge; do
        family "$command, kilobytes" '2 for what comes beyond the file'
        for lines in 5001 10001 20001; do
            rule_session "$lines"
            held "$lines" lines "$command" "$work/file.spthy" "$work/run"
        done
    done
    rule_chain 12000
    family 'check-rules, kilobytes' '2 for what comes beyond the theory'
    for lines in 5000 10000 20000; do
        uses 12000 "$lines"
        held $((lines + 1)) lines check-rules "$work/theory.spthy" "$work/run"
    done
}

heap() {
    family 'check-rules, kilobytes, lines that leave 255 nodes behind' '2 for what comes beyond the program'
    for lines in 5000 10000 20000; do
        passing 7 "$lines"
        held $((lines + 1)) lines check-rules "$work/theory.spthy" "$work/run"
    done
    family 'check-rules, kilobytes, nodes that 20,001 lines leave behind' 1
    for levels in 4 5 6 7; do
        passing "$levels" 20000
        held $(((2 << levels) - 1)) nodes check-rules "$work/theory.spthy" "$work/run"
    done
}

all='forward back keys key judge steps facts embedded knowledge nodes redexes around rules sample
    forward_places back_places steps_rules passed held_lines heap'
for name in ${*:-$all}; do
    "$name"
done
