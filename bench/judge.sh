#!/bin/sh
# Counts what judging costs beside the cost that is stated of a formula, and what the check of a formula costs. Each family doubles a
# size, up to what a theory, a file or a run may have: in instructions, by valgrind, without those of the same command on the same
# theory or file and run without its formulas. So the ratio is to be about 2, at most 2.2. The last line of a family tells the
# milliseconds of the whole command at the greatest size, and, in brackets, those that a plain program without proofs took for the
# same. In terms nearly all of it is the run, whose rule is evaluated at each line; in names and spread it is making the trace
# ready, which the same command without formulas does too.
#
#   lemmas       up to 4,000 lemmas, each with a guard, on a run that shows 2,500 facts
#   terms        80 lemmas that look at nothing, on up to 2,000 facts of 255 nodes
#   names        a lemma on up to 40,000 facts of as many names at one time
#   spread       the same on 20,000 lines, of two names each
#   crowd        a guard with up to 20,000 facts of its name at one time
#   aside        the same, and an action atom that is no guard
#   absent       up to 16,000 guards whose fact is nowhere, behind one whose fact each of 20,000 lines shows
#   idle         up to 8,000 quantifiers of no cost, behind a guard with 2,500 facts
#   guards       up to 30,000 guards, each with one fact
#   nested       thirty quantifiers, of up to 1,000 variables each, one in another
#   wide         a quantifier of up to 16,000 variables
#   arguments    a guard with up to 800 arguments, on 500 facts
#   body         up to 2,000 variables, and an equation for each
#   checked      compile: a quantifier of up to 16,000 variables
#   occurring    compile: up to 8,000 atoms under one quantifier
#
# usage: bench/judge.sh [FAMILY..]
set -eu
. "$(dirname "$0")/growth.sh"

# Words of awk that write the text for each K from 1 to n: one behind another with a word between them, or bracketed in halves. K is
# written in five digits, so that twice as many names are twice as many bytes.
lists='function one(text, k,    at) {
    while ((at = index(text, "K")) > 0) { printf "%s%05d", substr(text, 1, at - 1), k; text = substr(text, at + 1) }
    printf "%s", text
}
function list(text, between, n,    k) {
    for (k = 1; k <= n; k++) { if (k > 1) printf "%s", between; one(text, k) }
}
function halves(text, between, from, to,    middle) {
    if (from == to) { one(text, from); return }
    middle = int((from + to) / 2)
    printf "("; halves(text, between, from, middle); printf "%s", between; halves(text, between, middle + 1, to); printf ")"
}
'

# theory RULE FORMULAS: a theory of a rule, and what these words of awk write; and one without this
theory() {
    awk "$lists BEGIN { print \"theory J begin\"; $1; $2; print \" end\" }" > "$work/theory"
    awk "$lists BEGIN { print \"theory J begin\"; $1; print \" end\" }" > "$work/none"
}

# lines COUNT: a run of so many lines of the rule
lines() {
    awk -v n="$1" 'BEGIN { print "rule-run"; for (k = 1; k <= n; k++) print "rule R" }' > "$work/run"
}

# measured SIZE UNIT COMMAND FILE [RUN]: tells the instructions beside those of the same without formulas
measured() {
    size=$1 unit=$2 command=$3
    shift 3
    all=$(instructions "$command" "$work/theory" "$@")
    few=$(instructions "$command" "$work/none" "$@")
    told "$size" "$unit" "$((all - few))" '%12d instructions'
}

# last COMMAND PLAIN [RUN]: tells the milliseconds of the whole command, and the plain program's
last() {
    command=$1 plain=$2
    shift 2
    printf '%26s ms (%s ms)\n' "$(milliseconds "$command" "$work/theory" "$@")" "$plain"
}

# judged NAME PLAIN LINES SIZE..: a family of judged formulas, made by the function of this name for each size, on so many lines
judged() {
    name=$1 plain=$2 lines=$3
    shift 3
    family "$name" 2
    for size in "$@"; do
        count=$lines
        [ "$lines" = each ] && count=$size
        lines "$count"
        "make_$name" "$size"
        measured "$size" '' check-rules "$work/run"
    done
    last check-rules "$plain" "$work/run"
}

make_lemmas() {
    theory 'print "rule R: [ ] --[ A() ]-> [ ]"' "list(\"lemma lK: \\\"All #i. A()@i ==> #i = #i\\\"\", \" \", $1)"
}
make_terms() {
    theory 'printf "rule R: [ ] --[ A("; pairs(128); print ") ]-> [ ]"' 'list("lemma lK: \"T\"", " ", 80)'
}
make_names() {
    theory "printf \"rule R: [ ] --[ \"; list(\"NK()\", \", \", $1); print \" ]-> [ ]\"" 'print "lemma l: \"All #i. N00001()@i ==> #i = #i\""'
}
make_spread() {
    theory "list(\"rule RK: [ ] --[ NK(), MK() ]-> [ ]\", \" \", $1)" 'print "lemma l: \"All #i. N00001()@i ==> #i = #i\""'
    awk -v n="$1" 'BEGIN { print "rule-run"; for (k = 1; k <= n; k++) printf "rule R%05d\n", k }' > "$work/run"
}
make_crowd() {
    theory "printf \"rule R: [ ] --[ \"; list(\"A(\\047K\\047)\", \", \", $1); print \" ]-> [ ]\"" \
        'print "lemma l: \"All x #i. A(x)@i ==> x = x\""'
}
make_aside() {
    theory "printf \"rule R: [ ] --[ \"; list(\"A(\\047K\\047)\", \", \", $1); print \" ]-> [ ]\"" \
        'print "lemma l: \"All x #i. A(x)@i ==> not B(x)@i\""'
}
make_absent() {
    theory 'print "rule R: [ ] --[ A() ]-> [ ]"' "printf \"lemma l: \\\"Ex #i. A()@i & \"; halves(\"N()@i\", \" & \", 1, $1); print \"\\\"\""
}
make_idle() {
    theory 'print "rule R: [ ] --[ A() ]-> [ ]"' "printf \"lemma l: \\\"All #i. A()@i ==> \"; halves(\"(Ex #j. N()@j)\", \" | \", 1, $1); print \"\\\"\""
}
make_guards() {
    theory 'print "rule R: [ ] --[ A() ]-> [ ]"' "printf \"lemma l: \\\"Ex #i. \"; halves(\"A()@i\", \" & \", 1, $1); print \"\\\"\""
}
make_nested() {
    theory "printf \"rule R: [ ] --[ A(\"; list(\"\\047a\\047\", \", \", $1); print \") ]-> [ ]\"" \
        "printf \"lemma l: \\\"\"; for (q = 1; q <= 30; q++) { printf \"Ex \"; list(\"xK\", \" \", $1); printf \" #i. A(\"; list(\"xK\", \", \", $1); printf \")@i & (\" }
         printf \"T\"; for (q = 1; q <= 30; q++) printf \")\"; print \"\\\"\""
}
make_wide() {
    theory "printf \"rule R: [ ] --[ A(\"; list(\"\\047a\\047\", \", \", $1); print \") ]-> [ ]\"" \
        "printf \"lemma l: \\\"Ex \"; list(\"xK\", \" \", $1); printf \" #i. A(\"; list(\"xK\", \", \", $1); print \")@i\\\"\""
}
make_arguments() {
    theory "printf \"rule R: [ ] --[ A(\"; list(\"\\047a\\047\", \", \", $1); print \") ]-> [ ]\"" \
        "printf \"lemma l: \\\"All \"; list(\"xK\", \" \", $1); printf \" #i. A(\"; list(\"xK\", \", \", $1); print \")@i ==> x00001 = x00001\\\"\""
}
make_body() {
    theory "printf \"rule R: [ ] --[ A(\"; list(\"\\047a\\047\", \", \", $1); print \") ]-> [ ]\"" \
        "printf \"lemma l: \\\"Ex \"; list(\"xK\", \" \", $1); printf \" #i. A(\"; list(\"xK\", \", \", $1); printf \")@i & \"
         halves(\"xK = xK\", \" & \", 1, $1); print \"\\\"\""
}

# compiled NAME PLAIN SIZE..: a family of formulas of files
compiled() {
    name=$1 plain=$2
    shift 2
    family "$name" 2
    for size in "$@"; do
        "make_$name" "$size"
        measured "$size" '' compile
    done
    last compile "$plain"
}

# file FORMULA: a file with a lemma of a formula that these words of awk write; and one without
file() {
    awk "$lists BEGIN { printf \"theory J begin process: event A() lemma l: \\\"\"; $1; print \"\\\" end\" }" > "$work/theory"
    echo 'theory J begin process: event A() end' > "$work/none"
}
make_checked() {
    file "printf \"Ex \"; list(\"xK\", \" \", $1); printf \" #i. A(\"; list(\"xK\", \", \", $1); printf \")@i\""
}
make_occurring() {
    file "printf \"Ex x #i. A(x)@i & \"; halves(\"A(x)@i\", \" & \", 1, $1)"
}

lists="$lists function pairs(n) { if (n == 1) { printf \"\\047a\\047\"; return } printf \"<\"; pairs(n / 2); printf \", \"; pairs(n / 2); printf \">\" }
"

lemmas() { judged lemmas 900 2500 1000 2000 4000; }
terms() { judged terms 19 each 500 1000 2000; }
names() { judged names 81 1 10000 20000 40000; }
spread() { judged spread 95 1 5000 10000 20000; }
crowd() { judged crowd 71 1 5000 10000 20000; }
aside() { judged aside - 1 5000 10000 20000; }
absent() { judged absent 83 20000 4000 8000 16000; }
idle() { judged idle - 2500 2000 4000 8000; }
guards() { judged guards - 1 7500 15000 30000; }
nested() { judged nested 300 1 250 500 1000; }
wide() { judged wide 1500 1 4000 8000 16000; }
arguments() { judged arguments 170 500 200 400 800; }
body() { judged body 80 1 500 1000 2000; }
checked() { compiled checked 500 4000 8000 16000; }
occurring() { compiled occurring 400 2000 4000 8000; }

[ $# -gt 0 ] || set -- lemmas terms names spread crowd aside absent idle guards nested wide arguments body checked occurring
for family in "$@"; do
    "$family"
done
