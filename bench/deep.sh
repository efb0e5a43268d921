#!/bin/sh
# Tries every command on inputs that nest as deep, or are as long, as the limits have it and beyond, on a stack of 1 MiB and on one
# of 64 MiB, and compares how it ends and what it writes. A line tells an input with the status of each command, and those that
# differ; the last line how many calls there were, and how many differ. The status is 1 where one differs, or is a signal's.
#
#   processes   each construct nested in itself, in either branch; parentheses; all in turn; names that stand for one another, with arguments and without;
#               terms of 100 levels at the deepest place. Where a file is accepted, with a run that goes as deep as the process
#               does, with the run of its rules that is opposite, and with its theory
#   formulas    each connective nested in itself, on either side; quantifiers; terms: as a restriction, as a lemma, in a theory
#   terms       symbols and pairs, in processes and in rules, up to 100 levels
#   lists       lemmas of so many atoms bracketed in halves; nested quantifiers of 2,000 variables each; 40,000 restrictions; many
#               arguments, facts and names, up to a mebibyte
#   runs        chains of 256 nodes in each line that has terms, of short runs too, deep patterns, lines of 16 MiB
#   json        arrays and objects in one another, up to 127 levels and beyond; terms of 256 nodes in strings; 16 MiB of each part
#   repeated    a mebibyte of each opening word where a process, a term or a formula stands, closed or not; 16 MiB in a theory
#   sample      500 sessions
#
# usage: bench/deep.sh [KIND..]
set -eu
. "$(dirname "$0")/growth.sh"
small=1024 large=65536
calls=0 different=0
(ulimit -s $large) || exit 2

# call LIMIT WORD..: the status of the call with these words on such a stack, and a sum of what it writes
call() {
    code=0
    {
        (
            ulimit -s "$1"
            shift
            exec "$program" "$@" > "$work/written" 2> "$work/said"
        ) || code=$?
    } 2> /dev/null
    echo "$code $(cat "$work/written" "$work/said" | cksum)"
}

# begin NAME: the line that tells of this input
begin() {
    printf '%-60s' "$1"
}

# both COMMAND WORD..: tells how the command ends on both stacks
both() {
    little=$(call $small "$@")
    much=$(call $large "$@")
    calls=$((calls + 1))
    if [ "$little" = "$much" ] && [ "${much%% *}" -lt 128 ]; then
        printf ' %s %s' "$1" "${little%% *}"
    else
        different=$((different + 1))
        printf ' %s %s NOT %s' "$1" "${little%% *}" "${much%% *}"
    fi
}

# on_file FILE [RUN]: tells of every command on the file: with runs that have no lines; with this run of the process and the one
# of the rules that is opposite; with its theory
on_file() {
    both compile "$1"
    both compile-inline "$1"
    both compile-short "$1"
    both why "$1"
    for run in "$work/none.prun" ${2+"$2"}; do
        for command in to-rules judge tell chart; do
            both $command "$1" "$run"
        done
    done
    for command in to-process judge tell chart; do
        both $command "$1" "$work/none.rrun"
    done
    both fill "$1" "$work/none.srun"
    (ulimit -s $large && "$program" compile "$1" > "$work/theory" 2> /dev/null) || return 0
    both check-rules "$work/theory" "$work/none.rrun"
    if [ $# -gt 1 ] && (ulimit -s $large && "$program" to-rules "$1" "$2" > "$work/opposite" 2> /dev/null); then
        for command in to-process judge tell chart; do
            both $command "$1" "$work/opposite"
        done
        both check-rules "$work/theory" "$work/opposite"
    fi
}

# on_theory NAME THEORY RUN: a line of check-rules on the theory: on the run that has no lines, and on this one
on_theory() {
    begin "$1"
    both check-rules "$2" "$work/none.rrun"
    both check-rules "$2" "$3"
    echo
}

printf 'process-run\n' > "$work/none.prun"
printf 'rule-run\n' > "$work/none.rrun"
printf 'short-run\n' > "$work/none.srun"

# Words of awk that write a text with a number in place of each N.
numbered='function put(text, number,    at) {
    while ((at = index(text, "N")) > 0) { printf "%s%d", substr(text, 1, at - 1), number; text = substr(text, at + 1) }
    printf "%s", text
}'

# nested COUNT BEFORE INSIDE BEHIND: so often what stands before, what is inside, and so often what stands behind. N is the number of
# the level. %% parts what stands before in turn
nested() {
    awk -v n="$1" -v before="$2" -v inside="$3" -v behind="$4" "$numbered"'
        BEGIN {
            parts = split(before, each, "%%")
            for (k = 1; k <= n; k++) put(each[(k - 1) % parts + 1], k)
            put(inside)
            for (k = n; k >= 1; k--) put(behind, k)
        }'
}

# lines_of COUNT LINE..: a run of a process of so many lines, these in turn
lines_of() {
    awk -v n="$1" 'BEGIN {
        print "process-run"
        for (k = 0; k < n; k++) { line = ARGV[k % (ARGC - 2) + 2]; sub(/K/, k, line); print line }
    }' "$@"
}

# deepest MAKE WORD..: the greatest size up to 400 at which the command with these words, the first of them, takes what MAKE writes
deepest() {
    low=0 high=401 make=$1 command=$2
    shift 2
    while [ $((high - low)) -gt 1 ]; do
        middle=$(((low + high) / 2))
        $make $middle > "$work/file.spthy"
        if (ulimit -s $large && "$program" "$command" "$work/file.spthy" "$@" > /dev/null 2>&1); then
            low=$middle
        else
            high=$middle
        fi
    done
    echo $low
}

# process NAME BEFORE INSIDE BEHIND LINE..: a process that is nested so, where it is as deep as is accepted, one level deeper, and of
# 300 and of 301 levels, with a run of these lines in turn
process() {
    name=$1 before=$2 inside=$3 behind=$4
    shift 4
    as_process() { echo "theory D begin functions: h/1 process: $(nested "$1" "$before" "$inside" "$behind") end"; }
    most=$(deepest as_process compile)
    for size in $(printf '%s\n' $most $((most + 1)) 299 300 | sort -nu); do
        as_process $size > "$work/file.spthy"
        lines_of $size "$@" > "$work/run.prun"
        begin "$name, $size times"
        on_file "$work/file.spthy" "$work/run.prun"
        echo
    done
}

processes() {
    process 'replication' '! ' 0 '' 'rep K'
    process 'new' 'new xN; ' 0 '' 'new 0 ~K'
    process 'out' "out('a'); " 0 '' 'out 0'
    process 'out on a channel' "out('c', 'a'); " 0 '' 'send 0 0'
    process 'in' "in('a'); " 0 '' 'in 0 0'
    process 'in on a channel' "in('c', 'a'); " 0 '' 'in 0 0'
    process 'event' "event A('a'); " 0 '' 'event 0'
    process 'insert' "insert 'a', 'b'; " 0 '' 'insert 0'
    process 'delete' "delete 'a'; " 0 '' 'delete 0'
    process 'lock' "lock 'a'; " 0 '' 'lock 0'
    process 'unlock' "unlock 'a'; " 0 '' 'unlock 0'
    process 'lock and unlock' "lock 'a'; %%unlock 'a'; " 0 '' 'lock 0' 'unlock 0'
    process 'embedded rule' "[ ] --[ A('a') ]-> [ ]; " 0 '' 'rule 0'
    process 'parallel, first' '(' 0 ' | 0)' 'par 0'
    process 'parallel, second' '0 | ' 0 '' 'par K'
    process 'if, first' "if 'a' = 'a' then " 0 '' 'then 0'
    process 'if, first, with second ones' "if 'a' = 'a' then " 0 ' else 0' 'then 0'
    process 'if, second' "if 'a' = 'b' then 0 else " 0 '' 'else 0'
    process 'lookup, first' "lookup 'a' as xN in " 0 '' 'found 0'
    process 'lookup, second' "lookup 'a' as x in 0 else " 0 '' 'missing 0'
    process 'parentheses' '(' "event A('a')" ')' 'event 0'
    process 'parentheses in second parallels' '0 | (' 0 ')' 'par K'
    process 'all in turn' "event A('a'); %%if 'a' = 'a' then %%insert 'a', 'b'; %%if 'a' = 'b' then 0 else %%delete 'a'; %%[ ] --[ A('a') ]-> [ ]; %%lookup 'a' as x in 0 else %%out('a'); " 0 '' \
        'event 0' 'then 0' 'insert 0' 'else 0' 'delete 0' 'rule 0' 'missing 0' 'out 0'
    deep=$(nested 99 'h(' "'a'" ')')
    process 'actions, a deep term in the last' "event A('a'); " "in($deep)" '' 'event 0'
    process 'deep terms in all' "event A($deep); " 0 '' 'event 0'
    for size in 299 300 16000 40000; do
        awk -v n=$size 'BEGIN {
            printf "theory D begin let N0 = 0 "
            for (k = 1; k <= n; k++) printf "let N%d = ! N%d ", k, k - 1
            printf "process: N%d end", n
        }' > "$work/file.spthy"
        begin "names for one another, $size times"
        on_file "$work/file.spthy" "$work/none.prun"
        echo
    done
    deeper=$(nested 98 'h(' x ')')
    uses 'uses below replications' 'out(x)' '! USE(x)' 298 299 16000
    uses 'mere uses' 'out(x)' 'USE(x)' 300 20000
    uses 'uses with deeper arguments' "out($deeper)" 'USE(h(x))' 100 255 256 16000
}

# uses NAME FIRST BODY SIZE..: definitions with a parameter, the first with its body and so many with this one, in which USE is the one
# before, and a use of the last
uses() {
    name=$1 first=$2 body=$3
    shift 3
    for size in "$@"; do
        awk -v n=$size -v first="$first" -v body="$body" 'BEGIN {
            printf "theory D begin functions: h/1 let N0(x) = %s ", first
            for (k = 1; k <= n; k++) { one = body; sub(/USE/, "N" k - 1, one); printf "let N%d(x) = %s ", k, one }
            printf "process: N%d(\047a\047) end", n
        }' > "$work/file.spthy"
        begin "$name, $size times"
        on_file "$work/file.spthy" "$work/none.prun"
        echo
    done
}

# formula NAME BEFORE INSIDE BEHIND [FRONT BACK]: a formula that is nested so between front and back, as deep as is accepted, one level
# deeper, and 100 levels: as a restriction and two lemmas of a file, and of a theory
formula() {
    name=$1 before=$2 inside=$3 behind=$4 front=${5-} back=${6-}
    stated() {
        text=$front$(nested "$1" "$before" "$inside" "$behind")$back
        echo "restriction r: \"$text\" lemma l: \"$text\" lemma e: exists-trace \"$text\" end"
    }
    in_file() { echo "theory D begin functions: h/1, f/2 process: event A('a') $(stated "$1")"; }
    in_theory() { echo "theory D begin functions: h/1, f/2 rule R: [ ] --[ A('a') ]-> [ ] $(stated "$1")"; }
    most=$(deepest in_file compile)
    for size in $(printf '%s\n' $most $((most + 1)) 100 | sort -nu); do
        in_file $size > "$work/file.spthy"
        begin "$name, $size times"
        on_file "$work/file.spthy" "$work/shown.prun"
        echo
    done
    most=$(deepest in_theory check-rules "$work/none.rrun")
    for size in $(printf '%s\n' $most $((most + 1)) 100 | sort -nu); do
        in_theory $size > "$work/file.spthy"
        on_theory "$name, $size times, theory" "$work/file.spthy" "$work/shown.rrun"
    done
}

formulas() {
    for sign in '&' '|' '==>' '<=>'; do
        formula "$sign, first" '(' T " $sign T)"
        formula "$sign, second" "T $sign (" T ')'
        formula "$sign, no parentheses" "T $sign " T ''
    done
    formula 'not' 'not ' T ''
    formula 'not in parentheses' 'not (' T ')'
    formula 'parentheses' '(' T ')'
    formula 'All' 'All xN #iN. A(xN)@iN ==> ' T ''
    formula 'Ex' 'Ex xN #iN. A(xN)@iN & ' T ''
    formula 'Ex in parentheses' 'T & (Ex xN #iN. A(xN)@iN & (' T '))'
    formula 'not and quantifiers' 'not (All xN #iN. A(xN)@iN ==> ' T ')'
    formula 'all in turn' 'not (%%All xN #iN. A(xN)@iN ==> (%%T & (%%T <=> (' T ')'
    formula 'unguarded' 'All xN. ' T ''
    formula 'unbound' '(' "A(x)@i" ' & T)'
    formula 'term h' 'h(' x ')' 'All x #i. A(' ')@i ==> T'
    formula 'term f, first' 'f(' x ',x)' 'All x #i. A(x)@i ==> ' ' = x'
    formula 'term f, second' 'f(x,' x ')' 'All x #i. A(x)@i ==> ' ' = x'
    formula 'pair, first' '<' x ',x>' 'All x #i. A(' ')@i ==> T'
    formula 'pair, second' '<x,' x '>' 'All x #i. A(' ')@i ==> T'
    formula 'deep terms in the deepest place' 'T & (' "$(nested 99 'h(' x ')') = $(nested 99 '<x,' x '>')" ')' 'All x #i. A(x)@i ==> '
}

# term NAME BEFORE INSIDE BEHIND: a term that is nested so where a process and a rule may have one, as deep as is accepted, one level
# deeper, and 100 levels, with a run that goes through them all
term() {
    name=$1 before=$2 inside=$3 behind=$4
    declared='builtins: hashing, symmetric-encryption functions: g/1, f/2'
    in_process() {
        t=$(nested "$1" "$before" "$inside" "$behind") pattern=$(nested "$1" "$before" x "$behind")
        echo "theory D begin $declared process: out($t); event A($t); insert $t, $t; lookup $t as v in lock $t; unlock $t;"
        echo "if $t = v then [ ] --[ A($t) ]-> [ F($t) ]; [ F(u) ] --[ A($t) ]-> [ ]; in($t); delete $t; in($pattern); out($t, x) end"
    }
    in_rule() {
        t=$(nested "$1" "$before" "$inside" "$behind") pattern=$(nested "$1" "$before" x "$behind")
        echo "theory D begin $declared rule R: [ ] --[ A($t) ]-> [ F($t), Out($t) ] rule S: [ F($pattern) ] --[ A(x) ]-> [ F(x) ]"
        echo "rule T: [ F(x) ] --[ A($pattern) ]-> [ F($pattern), Out($pattern) ] end"
    }
    printf '%s\n' process-run 'out 0' 'event 0' 'insert 0' 'found 0' 'lock 0' 'unlock 0' 'then 0' 'rule 0' 'rule 0 0' 'know 0' 'in 0 0' \
        'delete 0' 'in 0 0' 'send 0 0' > "$work/run.prun"
    most=$(deepest in_process compile)
    for size in $(printf '%s\n' $most $((most + 1)) 100 | sort -nu); do
        in_process $size > "$work/file.spthy"
        begin "$name, $size times"
        on_file "$work/file.spthy" "$work/run.prun"
        echo
    done
    printf '%s\n' rule-run 'rule R' 'learn 1' 'know 0' 'rule S 0' 'rule T 3' 'learn 5' 'rule T 4' 'learn 7' 'rule T 6' > "$work/run.rrun"
    most=$(deepest in_rule check-rules "$work/none.rrun")
    for size in $(printf '%s\n' $most $((most + 1)) 100 | sort -nu); do
        in_rule $size > "$work/file.spthy"
        on_theory "$name, $size times, theory" "$work/file.spthy" "$work/run.rrun"
    done
}

# redex NAME BEFORE INSIDE BEHIND: the same where destructors may stand
redex() {
    name=$1 before=$2 inside=$3 behind=$4
    in_process() {
        t=$(nested "$1" "$before" "$inside" "$behind")
        echo "theory D begin builtins: symmetric-encryption process: if $t = $t then out($t); event A($t); insert $t, $t; lookup $t as v in"
        echo "lock $t; unlock $t; [ ] --[ A($t) ]-> [ F($t) ]; delete $t; out($t, $t) end"
    }
    in_rule() {
        t=$(nested "$1" "$before" "$inside" "$behind")
        echo "theory D begin builtins: symmetric-encryption rule R: [ ] --[ A($t) ]-> [ F($t), Out($t) ]"
        echo "rule S: [ F(x) ] --[ A(x) ]-> [ F(${t%\'a\'*}x${t##*\'a\'}) ] end"
    }
    printf '%s\n' process-run 'then 0' 'out 0' 'event 0' 'insert 0' 'found 0' 'lock 0' 'unlock 0' 'rule 0' 'know 0' 'delete 0' 'send 0 0' \
        > "$work/run.prun"
    most=$(deepest in_process compile)
    for size in $(printf '%s\n' $most $((most + 1)) 100 | sort -nu); do
        in_process $size > "$work/file.spthy"
        begin "$name, $size times"
        on_file "$work/file.spthy" "$work/run.prun"
        echo
    done
    printf '%s\n' rule-run 'rule R' 'learn 1' 'know 0' 'rule S 0' 'rule S 3' > "$work/run.rrun"
    most=$(deepest in_rule check-rules "$work/none.rrun")
    for size in $(printf '%s\n' $most $((most + 1)) 100 | sort -nu); do
        in_rule $size > "$work/file.spthy"
        on_theory "$name, $size times, theory" "$work/file.spthy" "$work/run.rrun"
    done
}

terms() {
    term 'h' 'h(' "'a'" ')'
    term 'f, first' 'f(' "'a'" ",'a')"
    term 'f, second' "f('a'," "'a'" ')'
    term 'pair, first' '<' "'a'" ",'a'>"
    term 'pair, second' "<'a'," "'a'" '>'
    redex 'fst' 'fst(' "'a'" ')'
    redex 'fst of a pair' 'fst(<' "'a'" ",'b'>)"
    redex 'snd of a pair' "snd(<'b'," "'a'" '>)'
    redex 'sdec of senc' 'sdec(senc(' "'a'" ",'k'),'k')"
}

# halves COUNT ATOM: so many atoms, bracketed in halves
halves() {
    awk -v n="$1" -v atom="$2" '
        function tree(n,    half) {
            if (n == 1) { printf "%s", atom; return }
            half = int(n / 2)
            printf "("; tree(half); printf " & "; tree(n - half); printf ")"
        }
        BEGIN { tree(n) }'
}

# quantifiers LEVELS COUNT: nested quantifiers of so many variables each, which an action guards
quantifiers() {
    awk -v levels="$1" -v n="$2" 'BEGIN {
        for (l = 1; l <= levels; l++) {
            printf "Ex"
            for (k = 1; k <= n; k++) printf " x%d", l * n + k
            printf " #i%d. Z(", l
            for (k = 1; k <= n; k++) printf "%sx%d", (k > 1 ? "," : ""), l * n + k
            printf ")@i%d & ", l
        }
        printf "T"
    }'
}

# list NAME: a file and a theory with the formula that stands there as a lemma
list() {
    for front in 'process: event B()' 'rule R: [ ] --[ B() ]-> [ ]'; do
        (
            printf 'theory D begin %s lemma l: "' "$front"
            cat "$work/formula"
            echo '" end'
        ) > "$work/file.spthy"
        case $front in
            process*) file "$1" "$work/shown.prun" ;;
            *) on_theory "$1, theory" "$work/file.spthy" "$work/shown.rrun" ;;
        esac
    done
}

# file NAME [RUN]: a file that stands there, with a run
file() {
    name=$1
    shift
    begin "$name, $(wc -c < "$work/file.spthy") bytes"
    on_file "$work/file.spthy" "$@"
    echo
}

# many COUNT FRONT PART BETWEEN BACK: so many parts with what stands between them; N is the number of a part
many() {
    awk -v n="$1" -v front="$2" -v part="$3" -v between="$4" -v back="$5" "$numbered"'
        BEGIN {
            printf "%s", front
            for (k = 1; k <= n; k++) put((k > 1 ? between : "") part, k)
            print back
        }'
}

lists() {
    for count in 30000 95000; do
        (printf 'Ex #i. ' && halves $count 'B()@i') > "$work/formula"
        list "$count atoms in halves"
        (printf 'not (Ex #i. ' && halves $count 'B()@i' && printf ')') > "$work/formula"
        list "not $count atoms in halves"
    done
    for count in 2000 2400; do
        quantifiers 30 $count > "$work/formula"
        list "30 quantifiers of $count variables"
    done
    quantifiers 1 65000 > "$work/formula"
    list 'one quantifier of 65000 variables'
    many 60000 'All #i ' '#kN' ' ' '. B()@i ==> T' > "$work/formula"
    list '60000 times that nothing guards'
    many 190000 'Ex #i. B()@i & ' 'T' ' & ' '' > "$work/formula"
    list '190000 parts without parentheses'
    many 40000 'theory D begin process: event B() ' 'restriction rN:"T"' ' ' ' lemma l: "Ex #i. B()@i" end' > "$work/file.spthy"
    file '40000 restrictions' "$work/shown.prun"
    many 20000 'theory D begin process: event B() ' 'lemma lN:"Ex #i. B()@i"' ' ' ' end' > "$work/file.spthy"
    file '20000 lemmas' "$work/shown.prun"
    many 45000 'theory D begin process: event B() ' 'restriction rN:"T"' ' ' ' lemma l: "Ex #i. B()@i" end' > "$work/file.spthy"
    file '45000 restrictions' "$work/shown.prun"
    many 250000 'theory D begin process: event B(' "'a'" ',' ') end' > "$work/file.spthy"
    file '250000 arguments' "$work/shown.prun"
    many 150000 'theory D begin process: [ ' 'F()' ', ' ' ] --> [ ] end' > "$work/file.spthy"
    file '150000 facts' "$work/shown.prun"
    many 250000 'theory D begin process: event B(<' "'a'" ',' '>) end' > "$work/file.spthy"
    file 'a tuple of 250000 parts' "$work/shown.prun"
    many 80000 'theory D begin functions: ' 'fN/1' ', ' ' process: 0 end' > "$work/file.spthy"
    file '80000 functions' "$work/shown.prun"
    many 60000 'theory D begin ' 'let XN = 0' ' ' ' process: 0 end' > "$work/file.spthy"
    file '60000 names' "$work/shown.prun"
    many 1999 'theory D begin process: ' "event B()" ' | ' ' end' > "$work/file.spthy"
    file '1999 parallels without parentheses' "$work/shown.prun"
}

# on_run NAME RUN: tells of every command on the run, over a file and a theory that stand there
on_run() {
    begin "$1"
    for command in to-rules to-process judge tell chart; do
        both $command "$work/some.spthy" "$2"
    done
    both check-rules "$work/some_theory" "$2"
    both fill "$work/some.spthy" "$2"
    both to-json "$2"
    echo
}

# chains HEAD LINE..: runs of this head, whose lines have terms of 127 and more levels in place of TERM
chains() {
    head=$1
    shift
    for size in 127 128 255 256 100000; do
        for shape in 'h(|)' "<'a',|>" "<|,'a'>" "f('a',|)"; do
            (
                echo "$head"
                for line in "$@"; do
                    case $line in
                        *TERM) echo "${line%TERM}$(nested $size "${shape%|*}" "'a'" "${shape#*|}")" ;;
                        *) echo "$line" ;;
                    esac
                done
            ) > "$work/run"
            on_run "$*, $size times $shape" "$work/run"
        done
    done
}

runs() {
    cat > "$work/some.spthy" << 'END'
theory D begin functions: h/1, f/2 process: [ ] --[ A('a') ]-> [ F('a') ]; [ F(y) ] --[ A(y) ]-> [ G(y) ]; out(y); in(z); event A(z);
insert z, z; lookup z as v in lock v; unlock v; if v = z then event A(<v,z>) restriction r: "All x #i. A(x)@i ==> (Ex #j. A(x)@j)" end
END
    cat > "$work/some_theory" << 'END'
theory D begin functions: h/1, f/2 rule R: [ ] --[ A(x) ]-> [ F(x), Out(x) ] rule S: [ F(x) ] --[ A(x) ]-> [ F(h(x)), Out(h(x)) ]
restriction r: "All x #i. A(x)@i ==> (Ex #j. A(x)@j)" end
END
    chains process-run 'rule 0 with x=TERM'
    chains rule-run 'rule R with x=TERM' 'learn 1' 'know 0'
    chains rule-run 'rule R with x=TERM' 'rule S 0'
    chains rule-run 'rule Init with x=TERM'
    chains short-run 'know TERM'
    chains short-run 'rule 0' 'rule 0 0' 'out 0' 'in 0 TERM' 'event 0' 'insert 0' 'found 0' 'lock 0' 'unlock 0' 'then 0'
    for size in 254 255 256; do
        awk -v n=$size 'BEGIN {
            print "process-run"
            print "pub \047a\047"
            for (k = 0; k < n; k++) printf "app h %d\n", k
            printf "know %d\n", n
            print "rule 0\nrule 0 0\nout 0"
            printf "in 0 %d\nevent 0\ninsert 0\nfound 0\nlock 0\nunlock 0\nthen 0\n", n
        }' > "$work/run"
        on_run "an entry of $size symbols" "$work/run"
        "$program" to-rules "$work/some.spthy" "$work/run" > "$work/opposite" 2> /dev/null || true
        on_run "its run of rules" "$work/opposite"
        awk -v n=$size 'BEGIN {
            print "rule-run\npub \047a\047"
            for (k = 0; k < n; k++) printf "app h %d\n", k
            printf "know %d\nrule R with x=\047a\047\n", n
            for (k = 0; k < n; k++) printf "rule S %d\n", 2 * k + 1
            for (k = 0; k < n; k++) printf "learn %d\n", 2 * k + 2
            print "app pair 1 1"
            for (k = 0; k < 120; k++) printf "app pair %d 0\n", 2 * n + 1 + k
        }' > "$work/run"
        on_run "facts of $size symbols" "$work/run"
    done
    for head in process-run rule-run short-run; do
        while IFS='^' read -r front part; do
            (
                echo $head
                printf '%s' "$front"
                awk -v part="$part" 'BEGIN { for (k = 0; k < 4000000; k++) printf "%s", part }' | head -c 16776000
                echo
            ) > "$work/run"
            on_run "$head, 16 MB of a line $front$part$part.." "$work/run"
        done << 'END'
know ^0000
rule R^ 0 0
rule R with x=^h(h(
rule R with x=^<<<<
rule 0 with x=^h(h(
rule 0 with x=^<<<<
rule 0 with x=f(^'a',
rule 0 with x=<^'a',
rule 0 with^ x='a'
app h^ 0 0
know ^h(h(
know ^<<<<
know f(^'a',
^((((
^    
^''''
END
    done
}

# on_json NAME: tells of from-json on the JSON that stands there, and of to-json on the run that it is
on_json() {
    begin "$1"
    both from-json "$work/json"
    if (ulimit -s $large && "$program" from-json "$work/json" > "$work/run" 2> /dev/null); then
        both to-json "$work/run"
    fi
    echo
}

json() {
    for shape in '[|]' '{"a":|}' '[0,|,0]'; do
        for size in 125 126 127 128 1000 100000; do
            (
                printf '{"kind":"process-run","steps":'
                nested $size "${shape%|*}" 0 "${shape#*|}"
                echo '}'
            ) > "$work/json"
            on_json "$size times $shape"
        done
    done
    for shape in 'h(|)' "<'a',|>" "<|,'a'>"; do
        for size in 127 128 255 256 100000; do
            (
                printf '{"kind":"process-run","steps":[["rule",0,[],[["x","'
                nested $size "${shape%|*}" "'a'" "${shape#*|}"
                echo '"]]]]}'
            ) > "$work/json"
            on_json "a term of $size times $shape"
        done
    done
    while IFS='^' read -r front part back; do
        (
            printf '%s' "$front"
            awk -v part="$part" 'BEGIN { for (k = 0; k < 16000000 / length(part); k++) printf "%s", part }'
            echo "$back"
        ) > "$work/json"
        on_json "16 MB of $front$part$part.."
    done << 'END'
[^[^
{"kind":"rule-run","steps":[["know",^0^]]}
{"kind":"rule-run","steps":[["rule","R",[^0,^0],[]]]}
{"kind":"rule-run","steps":[["rule","R",[],[^["x","'a'"],^["x","'a'"]]]]}
{"kind":"rule-run","steps":[^["own",0],^["own",0]]}
{"kind":"rule-run","steps":[["pub","'^a^'"]]}
{"kind":"rule-run","steps":[["rule","R",[],[["x","^h(^"]]]]}
^ ^
"^a^
{^"a":0,^"a":0}
END
}

# tower COUNT FRONT OPEN CLOSE BACK: a file in which something is opened so often and then, where CLOSE isn't empty, closed
tower() {
    awk -v n="$1" -v front="$2" -v open="$3" -v close_with="$4" -v back="$5" 'BEGIN {
        printf "theory D begin %s", front
        for (k = 0; k < n; k++) printf "%s", open
        if (close_with != "") {
            printf "x"
            for (k = 0; k < n; k++) printf "%s", close_with
        }
        print back, "end"
    }'
}

repeated() {
    while IFS='^' read -r front back; do
        while IFS='^' read -r open close; do
            for closing in $close ''; do
                tower $((1000000 / (${#open} + ${#closing}))) "$front" "$open" "$closing" "$back" > "$work/file.spthy"
                begin "$front$open$open..${closing:+ $closing$closing..}"
                on_file "$work/file.spthy"
                both check-rules "$work/file.spthy" "$work/none.rrun"
                echo
            done
        done << 'END'
(^)
<^>
h(^)
<'a',^>
not ^
not (^)
All x. ^
Ex x #i. A(x)@i & (^)
! ^
0 | ^
T & ^
T ==> ^
new x; ^
if x = x then ^
if x = x then 0 else ^
event A(); ^
END
    done << 'END'
process: ^
let A = ^ process: A
process: out(^)
process: 0 restriction r: "^"
process: 0 lemma l: "Ex #i. A(^)@i"
rule R: [ F(^) ] --> [ ]
END
    for open in '(' '<' 'h(' '[ F(' 'rule R: [ ] --> [ ] '; do
        tower $((16000000 / ${#open})) 'rule R: [ F(' "$open" '' '' > "$work/file.spthy"
        on_theory "16 MB of $open in a theory" "$work/file.spthy" "$work/shown.rrun"
    done
}

sample() {
    begin '500 sessions'
    both sample 500
    echo
}

printf 'process-run\nevent 0\n' > "$work/shown.prun"
printf 'rule-run\nrule R\n' > "$work/shown.rrun"
for kind in ${*:-processes formulas terms lists runs json repeated sample}; do
    "$kind"
done
echo "$calls calls, $different differ on $small and $large KiB of stack or end by a signal"
[ $different -eq 0 ]
