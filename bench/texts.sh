#!/bin/sh
# Times how texts are read, that double up to some 16 MiB, by the program itself: the shortest of three runs of a command, of which
# the reading takes nearly all. The ratio is to be about 2, on a machine that does nothing else.
#   identifiers, comments, symbols   check-rules: a text that has no header, which is told once it was cut into tokens
#   theory       check-rules: a theory of rules of four facts, and of restrictions, on the empty run
#   numbers      check-rules: a run of lines with many facts, of which the first line is illegal, which is told once all were read
#   bindings     the same with terms of 256 nodes
#
# Then the most kilobytes that each command holds on a run of numbers of nineteen digits, which take less as numbers than in the text.
# For each KiB more of these a command is to hold less than one more: so it doesn't hold the text.
#
# The program reads a run in pieces of 4,096 bytes. What other pieces cost is measured nowhere.
# usage: bench/texts.sh [FAMILY..]
set -eu
. "$(dirname "$0")/growth.sh"

# repeat TEXT KIB: the text over and over, KIB KiB of it
repeat() {
    yes "$1" | head -c "$(($2 * 1024))"
}

# tokens_of KIND KIB: a text of that size without a fault
tokens_of() {
    case "$1" in
        identifiers) repeat 'ab_1 c Delta e2e2e2 f' "$2" ;;
        comments)
            repeat '// to the end of its line, with * and / inside' "$(($2 / 2))"
            echo
            printf '/*'
            repeat 'of many lines * /' "$(($2 / 2))"
            printf '*/'
            ;;
        symbols) repeat '(<=>)--[]->-->|||==>&.,;:~$#@![]<>="' "$2" | tr -d '\n' ;;
    esac
}

# theory_of KIB: a theory of that size, but for its last item
theory_of() {
    awk -v most="$(($1 * 1024))" 'BEGIN {
        size = 13 + printed("theory T begin\n")
        while (size < most - 400) {
            k++
            size += printed(sprintf("rule R%d:\n  [ State_%d(~n,<x,\047a\047>), In(y) ] --[ Event(), A%d(x,y) ]-> [ State_%d(~n,y) ]\n", k, k, k, k + 1))
            if (k % 8 == 0) size += printed(sprintf("restriction r%d:\n  \"All x y #i #j. A%d(x,y)@i & A%d(x,y)@j ==> #i = #j\"\n", k, k, k))
        }
        printed("end\n")
    }
    function printed(text) { printf "%s", text; return length(text) }'
}

# lines_of HEAD LINE PART PARTS KIB: a run of that size, of such lines with so many such parts behind each
lines_of() {
    awk -v head="$1" -v line="$2" -v part="$3" -v parts="$4" -v size="$(($5 * 1024))" 'BEGIN {
        for (k = 0; k < parts; k++) line = line part
        print head
        for (at = length(head) + 1; at + length(line) < size; at += length(line) + 1) print line
    }'
}

echo rule-run > "$work/none.rrun"
echo 'theory N begin end' > "$work/none.spthy"
sizes='1000 2000 4000 8000 16000'

tokens() {
    family "tokens, $1" 2
    ends 1 'file refused: no theory header'
    for kib in $sizes; do
        tokens_of "$1" "$kib" > "$work/text"
        timed "$kib" KiB check-rules "$work/text" "$work/none.rrun"
    done
}

identifiers() {
    tokens identifiers
}

comments() {
    tokens comments
}

symbols() {
    tokens symbols
}

theory() {
    family theories 2
    ends 0 ''
    for kib in $sizes; do
        theory_of "$kib" > "$work/text"
        timed "$kib" KiB check-rules "$work/text" "$work/none.rrun"
    done
}

numbers() {
    family 'runs, lines of facts' 2
    ends 2 'run refused: step 1: no such rule'
    for kib in $sizes; do
        lines_of rule-run 'rule R' ' 1234567' 200 "$kib" > "$work/text"
        timed "$kib" KiB check-rules "$work/none.spthy" "$work/text"
    done
}

bindings() {
    family 'runs, lines of terms' 2
    ends 2 'run refused: step 1: no such rule'
    term=$(awk 'BEGIN { term = "c"; for (k = 0; k < 255; k++) term = (k % 2 ? "f(" : "g(") term ")"; print term }')
    for kib in $sizes; do
        lines_of rule-run 'rule R with' " x=$term" 2 "$kib" > "$work/text"
        timed "$kib" KiB check-rules "$work/none.spthy" "$work/text"
    done
}

# held_of COMMAND FILE HEAD LINE: what the command holds on runs that double, and how much more for each KiB more
held_of() {
    family "$1, kilobytes" 2
    for kib in 8000 16000; do
        lines_of "$3" "$4" ' 1844674407370955161' 200 "$kib" > "$work/text"
        less=$before
        held "$kib" KiB "$1" "$2" "$work/text"
    done
    awk -v more="$((now - less))" 'BEGIN { printf "%8s for each KiB more: %.2f kB\n", "", more / 8000 }'
}

text_held() {
    echo 'theory J begin process: 0 end' > "$work/file.spthy"
    ends 2 'run refused: step 1: thread 0 has another form'
    held_of to-rules "$work/file.spthy" process-run 'rule 0'
    held_of judge "$work/file.spthy" process-run 'rule 0'
    ends 2 'run refused: step 1: wrong number of facts'
    held_of to-process "$work/file.spthy" rule-run 'rule Init'
    ends 2 'run refused: step 1: no such rule'
    held_of check-rules "$work/none.spthy" rule-run 'rule R'
}

all='identifiers comments symbols theory numbers bindings text_held'
for name in ${*:-$all}; do
    "$name"
done
