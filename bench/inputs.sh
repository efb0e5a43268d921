#!/bin/sh
# Times inputs that make one thing large, each beside the same input without it. Each family doubles a size, up to what a file, a
# theory or a run may have. A line tells the milliseconds that the processor takes for the shortest of three calls, their ratio to
# the line before, which is to be about 2, the most kilobytes that a call holds, the milliseconds of the same without what is large,
# and the ratio to these.
#
#   know-large       an entry of 255 nodes that the adversary shows again and again; beside an entry of one node
#   app-large        a symbol applied to entries, which makes an entry of 255 nodes each time; beside one of three nodes
#   in-large         inputs of a term of 255 nodes, of a process and, in four times as many lines, of rules; beside one node
#   look-up-large    look-ups of such a key, where such a term is stored; beside a key of 19 nodes that is written in as many bytes,
#                    since each line of rules shows the term that was found
#   insert-large     inserts of it; beside one node
#   act-large        events of it and, in four times as many lines, shown facts; beside one node
#   symbols          so many symbols with long names, each applied once; beside one of them, applied as often
#   wide-destructor  a rule that takes F(x) and G(fst(y)) and adds a fact of so many x of 255 nodes; beside G(y)
#   variables        a rule of so many variables that fifty lines use; beside a rule of ten, which as many variables in all use
#   embedded-wide    an embedded rule that takes so many x, then y, and adds as many y; beside x in its place
#   collide          names that one fixed hash sends to one place, found by a program that cc compiles; beside other names. They are
#                    those of symbols; of definitions; of the variables of an embedded rule, which is refused; of the facts that an
#                    embedded rule shows, which are judged in the second row; of the variables of a rule; of the facts that it
#                    shows; of rules; and of lemmas
#   alike            so many symbols whose names begin and end with the same eight bytes, which an order of names looks at first;
#                    beside as many names of that length that differ in these
#   words            a line of so many short words; beside the same words in lines of four hundred. Both are refused
#   line             a line of so many bytes of one word, which is refused; beside as many bytes in lines that are steps
#   behind-fault     so many lines behind one that is no step, which is refused; beside the same lines where it is one
#   builtins         all builtins, behind so many symbols; beside none
#   let-embedded     a name that stands 1,333 times for an embedded rule of so many variables; beside an event of as many, which an
#                    input binds
#   chain            so many definitions without parameters, each the one before it under another name, of which the last stands at 1,333
#                    places; beside the same definitions, where the first stands there
#   parentheses      so many parentheses with a byte at their end that begins no token; beside the same without it. Both are refused
#   unread           so many parentheses where a rule is to stand; beside as many tokens that are names. Both are refused
#
# usage: bench/inputs.sh [[--rows] FAMILY..]
set -eu
. "$(dirname "$0")/growth.sh"

cat > "$work/make.py" << 'END'
# make.py FOLDER FAMILY SIZE: writes the input of this family and size, and into plain/ the same without what is large. Each has
# "file", which is a file or a theory, "run", which is a run, and "lines", the same of rules.
import os
import sys

folder = sys.argv[1]


def write(plain, name, text):
    with open(os.path.join(folder, "plain" if plain else ".", name), "w") as out:
        out.write(text)


def theory(words):
    return "theory Bench begin " + words + " end\n"


def process(words, declared="", after=""):
    return theory(declared + "process: " + words + after)


def rule_run(lines):
    return "rule-run\n" + "".join(line + "\n" for line in lines)


def process_run(lines):
    return "process-run\n" + "".join(line + "\n" for line in lines)


# A lemma that is true of every run, so that there is one to judge.
HOLDS = " lemma l: \"T\""

# Lines that give the adversary entries 0 to 7, of which each is a pair of the one before: entry 7 has 255 nodes.
PAIRS = ["pub 'a'"] + ["app pair %d %d" % (k, k) for k in range(7)]


# As many lines, of which entry 4 has 19 nodes: ten names, so long that it is written in as many bytes as those 255 nodes.
NAMES = ["pub '%s'" % ("a" * 60)] + ["app pair %d %d" % (k, k) for k in range(3)] + ["app pair 3 1"] + ["app pair 0 0"] * 3


# The entry that a run speaks of: that of 255 nodes, or that of one.
def entry(plain):
    return 0 if plain else 7


def know_large(plain, n):
    write(plain, "file", process("0", after=HOLDS))
    write(plain, "theory", theory("rule R: [ ] --> [ ]" + HOLDS))
    write(plain, "run", rule_run(PAIRS + ["know %d" % entry(plain)] * (n - 8)))


def app_large(plain, n):
    write(plain, "theory", theory("rule R: [ ] --> [ ]"))
    k = 0 if plain else 6
    write(plain, "run", rule_run(PAIRS + ["app pair %d %d" % (k, k)] * (n - 8)))


def in_large(plain, n):
    write(plain, "file", process("! in(x)", after=HOLDS))
    lines = PAIRS[:]
    for k in range((n - 8) // 2):
        lines += ["rep 0", "in %d %d" % (k + 1, entry(plain))]
    write(plain, "run", process_run(lines))
    write(plain, "theory", theory("rule R: [ In(x) ] --> [ ]"))
    lines = PAIRS[:]
    for k in range(2 * n - 4):
        lines += ["know %d" % entry(plain), "rule R %d" % k]
    write(plain, "lines", rule_run(lines))


# A process that takes a term, does something first, and does the same again and again, by these lines each. Without what is large
# it takes the term that these lines give it.
def again(plain, n, first, body, begin, each, small=PAIRS + ["in 0 0"]):
    write(plain, "file", process("in(x); " + first + "! " + body, after=HOLDS))
    lines = (small if plain else PAIRS + ["in 0 7"]) + begin
    for k in range((n - len(lines)) // (len(each) + 1)):
        lines += ["rep 0"] + [line % (k + 1) for line in each]
    write(plain, "run", process_run(lines))


def look_up_large(plain, n):
    again(plain, n, "insert x, x; ", "lookup x as y in 0", ["insert 0"], ["found %d"], NAMES + ["in 0 4"])


def insert_large(plain, n):
    again(plain, n, "", "insert x, x", [], ["insert %d"])


def act_large(plain, n):
    again(plain, n, "", "event A(x)", [], ["event %d"])
    write(plain, "theory", theory("rule Take: [ In(x) ] --> [ !S(x) ] rule R: [ !S(x) ] --[ A(x) ]-> [ ]"))
    lines = PAIRS + ["know %d" % entry(plain), "rule Take 0"]
    write(plain, "lines", rule_run(lines + ["rule R 1"] * (4 * n - len(lines))))


def long_name(k):
    return "s%06d" % k + "_" * 370


def symbols(plain, n):
    write(plain, "theory", theory("functions: " + ", ".join(long_name(k) + "/1" for k in range(n)) + " rule R: [ ] --> [ ]"))
    write(plain, "run", rule_run(["pub 'a'"] + ["app %s 0" % long_name(0 if plain else k) for k in range(n)]))


def wide_destructor(plain, n):
    taken, behind = ("y", "") if plain else ("fst(y)", " with y=<'a','a'>")
    rules = "rule Give: [ In(x), In(y) ] --> [ F(x), G(y) ] rule R: [ F(x), G(%s) ] --> [ C(%s) ]" % (taken, ",".join(["x"] * n))
    write(plain, "theory", theory(rules))
    write(plain, "run", rule_run(PAIRS + ["know 7", "know 0", "rule Give 0 1", "rule R 2 3" + behind]))


def variables(plain, n):
    wide, uses = (10, 5 * n) if plain else (n, 50)
    names = ["x%d" % k for k in range(wide)]
    rules = "rule Give: [ ] --> [ !F(%s) ] " % ",".join(["'a'"] * wide)
    rules += "rule R: [ !F(%s) ] --> [ G(%s) ]" % (",".join(names), ",".join(names))
    write(plain, "theory", theory(rules))
    write(plain, "run", rule_run(["rule Give"] + ["rule R 0"] * uses))


def embedded_wide(plain, n):
    y = "x" if plain else "y"
    rule = "[ !F(%s,%s) ] --> [ G(%s) ]" % (",".join(["x"] * n), y, ",".join([y] * n))
    write(plain, "file", process("[ ] --> [ !F(%s) ]; ! %s" % (",".join(["'a'"] * (n + 1)), rule), after=HOLDS))
    lines = ["rule 0"]
    for k in range(4):
        lines += ["rep 0", "rule %d 0" % (k + 1)]
    write(plain, "run", process_run(lines))


# So many names that begin with this letter. Those that collide stand in the file that it names.
def named(letter, plain, n):
    with open(os.path.join(folder, letter)) as listed:
        return [letter + "%08d" % k if plain else next(listed).strip() for k in range(n)]


def collide_symbols(plain, n):
    functions = ", ".join(name + "/0" for name in named("n", plain, n))
    write(plain, "file", process("0", "functions: " + functions + " "))


def collide_lets(plain, n):
    write(plain, "file", process("0", "".join("let %s = 0 " % name for name in named("n", plain, n))))


def collide_bound(plain, n):
    write(plain, "file", process("[ F(%s) ] --> [ ]" % ",".join(named("n", plain, n))))


# Facts of these names, with one more that a lemma speaks of, and that lemma.
def shown(plain, n):
    return "[ ] --[ A(), %s ]-> [ ]" % ", ".join(name + "()" for name in named("N", plain, n)), ' lemma l: "All #i. A() @ #i ==> T"'


def collide_events(plain, n):
    rule, lemma = shown(plain, n)
    write(plain, "file", process(rule, after=lemma))
    write(plain, "run", process_run(["rule 0"]))


def collide_variables(plain, n):
    names = ",".join(named("n", plain, n))
    write(plain, "theory", theory("rule R: [ F(%s) ] --> [ G(%s) ]" % (names, names)))
    write(plain, "run", rule_run([]))


def collide_facts(plain, n):
    rule, lemma = shown(plain, n)
    write(plain, "theory", theory("rule R: " + rule + lemma))
    write(plain, "run", rule_run(["rule R"]))


def collide_rules(plain, n):
    write(plain, "theory", theory(" ".join("rule %s: [ ] --> [ ]" % name for name in named("n", plain, n))))
    write(plain, "run", rule_run([]))


def collide_lemmas(plain, n):
    write(plain, "file", process("0", after="".join(' lemma %s: "T"' % name for name in named("n", plain, n))))


def alike(plain, n):
    form = "n%07d" + "n" * 14 if plain else "n" * 8 + "%06d" + "n" * 8
    write(plain, "file", process("0", "functions: " + ", ".join(form % k + "/0" for k in range(n)) + " "))


def words(plain, n):
    write(plain, "theory", theory("rule R: [ ] --> [ ]"))
    wide = 400 if plain else n
    write(plain, "run", rule_run(["pub 'a'"] + ["app pair " + " ".join(["0"] * wide)] * (n // wide)))


def line(plain, n):
    write(plain, "theory", theory("rule R: [ ] --[ A(x) ]-> [ ]"))
    use = "rule R with x=<%s>" % ",".join(["'%s'" % ("a" * 63)] * 12)
    write(plain, "run", rule_run([use] * (n // len(use)) if plain else ["a" * n]))


def behind_fault(plain, n):
    write(plain, "theory", theory("rule %s: [ ] --> [ ]" % ("R" * 194)))
    use = "rule " + "R" * 194
    write(plain, "run", rule_run([use if plain else use + " "] + [use] * (n // 200)))


def builtins(plain, n):
    listed = "hashing, signing, symmetric-encryption, asymmetric-encryption, revealing-signing"
    functions = "functions: " + ", ".join("f%d/1" % k for k in range(n))
    write(plain, "theory", theory(functions + ("" if plain else " builtins: " + listed) + " rule R: [ ] --> [ ]"))
    write(plain, "run", rule_run([]))


# A balanced parallel of so many A.
def tree(leaves):
    half = leaves // 2
    return "A" if leaves == 1 else "(%s) | (%s)" % (tree(half), tree(leaves - half))


def let_embedded(plain, n):
    names = ",".join("x%d" % (k % 50) for k in range(n))
    action = "event F(%s)" % names if plain else "[ F(%s) ] --> [ ]" % names
    first = "in(<%s>); " % ",".join("x%d" % k for k in range(50)) if plain else ""
    write(plain, "file", process("%s(%s)" % (first, tree(1333)), "let A = " + action + " "))


def chain(plain, n):
    links = "".join("let N%d=N%d " % (k, k - 1) for k in range(1, n))
    last = tree(1333).replace("A", "N0" if plain else "N%d" % (n - 1))
    write(plain, "file", process(last, "let N0=event E() " + links))


def parentheses(plain, n):
    write(plain, "theory", "theory Bench begin " + "(" * n + ("" if plain else "%"))
    write(plain, "run", rule_run([]))


def unread(plain, n):
    write(plain, "theory", "theory Bench begin rule" + (" a" if plain else "(") * n)
    write(plain, "run", rule_run([]))


make = globals()[sys.argv[2].replace("-", "_")]
for plain in (False, True):
    make(plain, int(sys.argv[3]))
END

cat > "$work/took.py" << 'END'
# took.py SAID PROGRAM WORD..: the status of the program with these words, and the milliseconds of the processor that the shortest of
# three calls takes. What it writes to standard error stands in the file SAID.
import os
import sys


def call():
    said = os.open(sys.argv[1], os.O_WRONLY | os.O_CREAT | os.O_TRUNC)
    out = os.open(os.devnull, os.O_WRONLY)
    streams = [(os.POSIX_SPAWN_DUP2, out, 1), (os.POSIX_SPAWN_DUP2, said, 2)]
    child = os.posix_spawnp(sys.argv[2], sys.argv[2:], os.environ, file_actions=streams)
    _, status, usage = os.wait4(child, 0)
    os.close(said)
    os.close(out)
    return os.waitstatus_to_exitcode(status), 1000 * (usage.ru_utime + usage.ru_stime)


calls = [call() for _ in range(3)]
print(calls[-1][0], "%.1f" % min(took for _, took in calls))
END

cat > "$work/names.c" << 'END'
#include <stdint.h>
#include <stdio.h>
#include <stdlib.h>

// names LETTER COUNT: writes so many names of nine bytes, of which this letter is the first, that the hash of the toolchain's maps
// (FoldHasher, byte by byte behind the length) sends to one group with one tag, in a table of up to 2,048 groups.
static const char *digits = "0123456789abcdefghijklmnopqrstuvwxyz";
static const uint64_t multiplier = 0x9e3779b97f4a7c15;

static uint64_t multiplied(uint64_t a, uint64_t b) {
    unsigned __int128 product = (unsigned __int128)a * b;
    return (uint64_t)product ^ (uint64_t)(product >> 64);
}

static uint64_t behind(uint64_t state, char byte) {
    return multiplied(state ^ (uint64_t)byte * 0x10101, multiplier ^ 2);
}

int main(int argc, char **argv) {
    if (argc < 3) return 2;
    char letter = argv[1][0];
    long wanted = atol(argv[2]);
    uint64_t start = behind(multiplied(0x243f6a8885a308d3 ^ 9, multiplier ^ 16), letter);
    for (long prefix = 0; wanted > 0; prefix++) {
        char name[10] = {letter};
        uint64_t state = start;
        for (long at = 1, left = prefix; at <= 4; at++, left /= 36) state = behind(state, name[at] = digits[left % 36]);
        for (long suffix = 0; suffix < 36 * 36 * 36 && wanted > 0; suffix++) {
            uint64_t inner = state;
            for (long at = 5, left = suffix; at <= 7; at++, left /= 36) inner = behind(inner, name[at] = digits[left % 36]);
            for (int last = 0; last < 36; last++) {
                uint64_t hash = behind(inner, digits[last]);
                if (((hash ^ hash >> 32) & 0xff0007ff) != 0x55000123) continue;
                name[8] = digits[last];
                if (wanted-- > 0) puts(name);
            }
        }
    }
}
END

mkdir "$work/plain"

# beside STATUS TEXT: how the same without what is large is to end from here on
beside() {
    plain_status=$1 plain_line=$2
}

# took WORD..: the milliseconds of the processor that the call with these words takes
took() {
    answer=$(python3 "$work/took.py" "$work/said" "$program" "$@")
    ended "${answer% *}" "$@"
    echo "${answer#* }"
}

# row SIZE COMMAND NAME..: a line for this command on the files of these names
row() {
    size=$1 command=$2
    shift 2
    large='' plain=''
    for name in "$@"; do
        large="$large $work/$name" plain="$plain $work/plain/$name"
    done
    now=$(took "$command" $large)
    most=$(kilobytes "$command" $large)
    less=$(
        ends "$plain_status" "$plain_line"
        took "$command" $plain
    )
    growth=$([ -z "$before" ] && echo '-' || awk "BEGIN { printf \"%.2f\", $now / $before }")
    share=$(awk "BEGIN { printf \"%.2f\", $now / $less }")
    printf '%9d %9s ms  ratio %5s %9d kB  beside %9s ms  ratio %6s\n' "$size" "$now" "$growth" "$most" "$less" "$share"
    before=$now
}

# legal FAMILY SIZES COMMAND NAME..: a family whose inputs are all legal
legal() {
    what=$1 sizes=$2
    shift 2
    ends 0 ''
    beside 0 ''
    family "$what, $1" 2
    for size in $sizes; do
        python3 "$work/make.py" "$work" "$what" "$size"
        row "$size" "$@"
    done
}

# refused FAMILY SIZES TEXT PLAIN: a family whose inputs are refused by check-rules with these texts; a number of bytes is told as AT.
# Without a plain text the same without what is large is legal
refused() {
    what=$1 text=$3 plain_text=$4
    family "$what, check-rules" 2
    for size in $2; do
        python3 "$work/make.py" "$work" "$what" "$size"
        at=$(($(wc -c < "$work/theory") - 1))
        status=$([ "${text#run}" = "$text" ] && echo 1 || echo 2)
        ends "$status" "$(echo "$text" | sed "s/AT/$at/")"
        beside "$([ -z "$plain_text" ] && echo 0 || echo "$status")" "$plain_text"
        row "$size" check-rules theory run
    done
}

know_large() {
    legal know-large '5000 10000 20000' check-rules theory run
    legal know-large '5000 10000 20000' to-process file run
    legal know-large '5000 10000 20000' judge file run
}
app_large() { legal app-large '5000 10000 20000' check-rules theory run; }
in_large() {
    legal in-large '1250 2500 5000' to-rules file run
    legal in-large '1250 2500 5000' judge file run
    legal in-large '1250 2500 5000' check-rules theory lines
}
look_up_large() {
    legal look-up-large '1250 2500 5000' to-rules file run
    legal look-up-large '1250 2500 5000' judge file run
}
insert_large() {
    legal insert-large '1250 2500 5000' to-rules file run
    legal insert-large '1250 2500 5000' judge file run
}
act_large() {
    legal act-large '1250 2500 5000' to-rules file run
    legal act-large '1250 2500 5000' judge file run
    legal act-large '1250 2500 5000' check-rules theory lines
}
symbols() { legal symbols '5000 10000 20000' check-rules theory run; }
wide_destructor() { legal wide-destructor '16384 32768 65536' check-rules theory run; }
variables() { legal variables '1000 2000 4000' check-rules theory run; }
embedded_wide() {
    legal embedded-wide '5000 10000 20000' compile file
    legal embedded-wide '5000 10000 20000' to-rules file run
    legal embedded-wide '5000 10000 20000' judge file run
}
collide() {
    cc -O2 -o "$work/namer" "$work/names.c"
    for letter in n N; do
        "$work/namer" "$letter" 10000 > "$work/$letter"
    done
    legal collide-symbols '2500 5000 10000' compile file
    legal collide-lets '2500 5000 10000' compile file
    collide_bound
    legal collide-events '2500 5000 10000' compile file
    legal collide-events '2500 5000 10000' judge file run
    legal collide-variables '2500 5000 10000' check-rules theory run
    legal collide-facts '2500 5000 10000' check-rules theory run
    legal collide-rules '2500 5000 10000' check-rules theory run
    legal collide-lemmas '2500 5000 10000' compile file
}
collide_bound() {
    ends 1 'file refused: place 1: scope is full'
    beside 1 'file refused: place 1: scope is full'
    family 'collide-bound, compile' 2
    for size in 2500 5000 10000; do
        python3 "$work/make.py" "$work" collide-bound "$size"
        row "$size" compile file
    done
}
alike() { legal alike '2500 5000 10000' compile file; }
words() {
    refused words '2000000 4000000 8000000' 'run refused: step 2: function pair has another arity' \
        'run refused: step 2: function pair has another arity'
}
line() {
    refused line '4000000 8000000 16000000' 'run refused: line 2 is not a step' ''
}
behind_fault() {
    ends 2 'run refused: line 2 is not a step'
    beside 0 ''
    family 'behind-fault, check-rules' 2
    for size in 1000000 2000000 4000000; do
        python3 "$work/make.py" "$work" behind-fault "$size"
        row "$size" check-rules theory run
    done
}
builtins() { legal builtins '125000 250000 500000' check-rules theory run; }
let_embedded() { legal let-embedded '500 1000 2000' compile file; }
chain() { legal chain '14000 28000 56000' compile file; }
parentheses() {
    refused parentheses '4000000 8000000 16000000' 'file refused: byte AT begins no token' 'file refused: line 1: not in the grammar'
}
unread() {
    refused unread '2000000 4000000 8000000' 'file refused: line 1: not in the grammar' 'file refused: line 1: not in the grammar'
}

[ "${1:-}" = --rows ] && shift
[ $# -gt 0 ] || set -- know-large app-large in-large look-up-large insert-large act-large symbols wide-destructor variables \
    embedded-wide collide alike words line behind-fault builtins let-embedded chain parentheses unread
for name in "$@"; do
    "$(echo "$name" | tr - _)"
done
