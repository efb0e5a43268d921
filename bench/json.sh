#!/bin/sh
# Counts what the commands on JSON cost, by the program itself, on runs whose bytes double. In instructions, by valgrind:
#
#   numbers, from_numbers    to-json and from-json: steps of rules with a thousand numbers each, up to 8 MB
#   steps, from_steps        the same of steps with one number, up to 20,001: more arrays than numbers
#   strings, from_strings    the same of bindings to public names of 64 quotation marks, which are escaped, up to 8 MB
#
# In these the ratio is to be about 2, at most 2.2. Of numbers up to 16 MB
#   held                     kilobytes, the most that the commands hold: from-json holds the bytes and a value beside them
#   clock                    milliseconds
# are told, where the ratio is to be about 2 as well, for what comes beyond the program.
#
# usage: bench/json.sh [FAMILY..]
set -eu
. "$(dirname "$0")/growth.sh"

# numbers_of BYTES: a run of rules of about so many bytes, of a thousand numbers a step, and its JSON
numbers_of() {
    awk -v n="$(($1 / 4007))" -v text="$work/run" -v json="$work/json" 'BEGIN {
        for (k = 100; k < 1100; k++) { words = words " " k % 900 + 100; items = items (k > 100 ? "," : "") k % 900 + 100 }
        print "rule-run" > text
        printf "{\"kind\":\"rule-run\",\"steps\":[" > json
        for (k = 0; k < n; k++) {
            print "rule R" words > text
            printf "%s[\"rule\",\"R\",[%s],[]]", (k > 0 ? "," : ""), items > json
        }
        print "]}" > json
    }'
}

# steps_of COUNT: a run of so many steps of rules, and its JSON
steps_of() {
    awk -v n="$1" -v text="$work/run" -v json="$work/json" 'BEGIN {
        print "rule-run" > text
        printf "{\"kind\":\"rule-run\",\"steps\":[" > json
        for (k = 0; k < n; k++) {
            print "own " k > text
            printf "%s[\"own\",%d]", (k > 0 ? "," : ""), k > json
        }
        print "]}" > json
    }'
}

# strings_of BYTES: a run of rules of about so many bytes, of twenty bindings to quotation marks a step, and its JSON
strings_of() {
    awk -v n="$(($1 / 1400))" -v text="$work/run" -v json="$work/json" 'BEGIN {
        for (k = 0; k < 64; k++) { marks = marks "\""; escaped = escaped "\\\"" }
        for (k = 100; k < 120; k++) {
            words = words " x" k "=\047" marks "\047"
            items = items (k > 100 ? "," : "") "[\"x" k "\",\"\047" escaped "\047\"]"
        }
        print "rule-run" > text
        printf "{\"kind\":\"rule-run\",\"steps\":[" > json
        for (k = 0; k < n; k++) {
            print "rule R with" words > text
            printf "%s[\"rule\",\"R\",[],[%s]]", (k > 0 ? "," : ""), items > json
        }
        print "]}" > json
    }'
}

# bytes COMMAND FILE MAKER..: tells the instructions of the command on what the maker makes of a million bytes, and of twice as many
bytes() {
    for size in 1000000 2000000 4000000 8000000; do
        "$3" "$size"
        whole "$size" bytes "$1" "$work/$2"
    done
}

numbers() {
    family 'to-json, bytes of numbers' 2
    bytes to-json run numbers_of
}

from_numbers() {
    family 'from-json, bytes of numbers' 2
    bytes from-json json numbers_of
}

strings() {
    family 'to-json, bytes of strings' 2
    bytes to-json run strings_of
}

from_strings() {
    family 'from-json, bytes of strings' 2
    bytes from-json json strings_of
}

steps() {
    family 'to-json, steps' 2
    for count in 2500 5000 10000 20001; do
        steps_of "$count"
        whole "$count" steps to-json "$work/run"
    done
}

from_steps() {
    family 'from-json, steps' 2
    for count in 2500 5000 10000 20001; do
        steps_of "$count"
        whole "$count" steps from-json "$work/json"
    done
}

held() {
    for command in to-json from-json; do
        file=run
        [ "$command" = from-json ] && file=json
        family "$command, kilobytes" '2 for what comes beyond the program'
        for size in 2000000 4000000 8000000 16000000; do
            numbers_of "$size"
            now=$(kilobytes "$command" "$work/$file")
            told "$size" bytes "$now" '%9d kB'
        done
    done
}

clock() {
    for command in to-json from-json; do
        file=run
        [ "$command" = from-json ] && file=json
        family "$command, milliseconds" 2
        for size in 2000000 4000000 8000000 16000000; do
            numbers_of "$size"
            timed "$size" bytes "$command" "$work/$file"
        done
    done
}

all='numbers from_numbers steps from_steps strings from_strings held clock'
for name in ${*:-$all}; do
    "$name"
done
