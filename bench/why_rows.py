#!/usr/bin/env python3
"""Writes the table `why` of crates/sap_tables/data from marks that stand by hand.

usage: bench/why_rows.py

`bench/why-marks` has a row for each file, written as the rows of the tables are, with what refuses it behind `%`. `bench/why/` has
whole files, whose first line is `-- ` and what refuses them. In both `@@` stands before the word at which the mistake is, or behind
the last word; a file without `@@` has no place. Where one comes to that word through uses of a `let`, `&&` stands before the name of
the one use, or `&1&`, `&2&` and so on before the names of several, the innermost first. Where a cause has another place, `@2@` stands
before its word. What is expected in place of a word that is in no grammar is found by the grammar of docs/files.md (why_expected.py);
where levels have a say it stands by hand behind ` = `. Where a row of `sap_cures` fits at the mistake, its sentence stands by hand
behind that and ` => `. `bench/why-mutations` has mutations of the example files (why_mutations.py). In a file that is accepted
`@1@`, `@2@` and so on stands before each word at which a note of this kind is, the kinds as `NOTES` has them, and `@5@` before the first
word of each event of which no formula speaks, which are told in one. What is counted here from the marks is line, column, the bytes of
the word, and the lines of the uses, and N in a cause is the offset of the mark. Nothing is taken from what the program prints.
"""
import glob
import os
import re
import sys

top = os.path.dirname(os.path.dirname(os.path.abspath(__file__)))
sys.path.insert(0, os.path.join(top, "bench"))
from why_expected import expectation
from why_mutations import mutation

# What to change, by the beginning and the end of what refuses a file.
ADVICE = [
    (r"byte N begins no token", "Take this byte away: no word begins with it here, and quotes hold printable ASCII alone."),
    (r"comment at byte N is not closed", "Write the */ that closes this comment."),
    (r"quote at byte N is not closed", "Write the ' that closes this name, on the same line."),
    (r"name at byte N is longer than 64 bytes", "Shorten it: an identifier, a number or a name in quotes has 64 bytes at most."),
    (r"no theory header", "Begin the file with theory, a name and begin."),
    (r"line \d+: not in the grammar", "A word is missing, wrong or too many here or before it."),
    (r"no process", "Add an item process: and the process."),
    (r"line \d+: second process", "Make one of the two a let, or both one process with | between them."),
    (r"process \w+ is not defined", "Define the name by a let above this item, or write the action that was meant."),
    (r"name \w+ stands twice", "Give this one another name."),
    (r"function \w+ is declared otherwise", "Leave out this declaration or the one before it, or give your own symbol another name."),
    (r"parameter \w+ stands twice", "Give one of the two parameters another name."),
    (r"process \w+ has another number of arguments", "Write as many arguments as its let has parameters, or none where it has no parentheses."),
    (r"process \w+: argument is too large", "Hand over less: what stands in a parameter's place has 256 nodes at most in each term."),
    (r"more than 4000 nodes", "Use a let at fewer places: each use counts in full, with all that it uses itself."),
    (r"more than 300 levels", "Nest it less deep: each use of a let counts in full, with all that it uses itself."),
    (r"place \w+: bad function", "Add the builtin of this symbol, or declare it with as many arguments as here; new and lookup bind no constant."),
    (r"place \w+: reserved variable", "Begin no name of a variable with sapic_."),
    (r"place \w+: reserved fact", "Give the fact another name: rules use this one themselves."),
    (r"place \w+: fact clash", "Write a fact with as many arguments each time, and with ! always or never."),
    (r"place \w+: destructor in a pattern", "Write no destructor in a pattern: bind a variable there, and apply it behind."),
    (r"place \w+: unbound", "Bind the name above, on this side of each |, or put a public name in quotes, or declare a constant."),
    (r"process \w+: place \w+: unbound", "Make the name a parameter, or bind it in this definition, or put it in quotes, or declare a constant."),
    (r"(?:process \w+: )?place \w+: rebound", "Give one of the two another name."),
    (r"(?:process \w+: )?place \w+: sort clash", "Write the variable without its sign, or with that of its binder."),
    (r"place \w+: scope is full", "Bind fewer names above: 64 are in scope at most, and each lock above counts as one."),
    (r"place \w+: unlock without lock", "Lock this term above, written as here, and unlock each lock once on each way down."),
    (r"place \w+: lock over parallel or replication", "Unlock above it, or lock below it, in the thread that unlocks."),
    (r"\w+: bad function \w+", "Add the builtin of this symbol, or declare it with as many arguments as stand here."),
    (r"\w+: destructor \w+", "Let an event of the process show what it gives, and speak of that."),
    (r"\w+: fact \w+ is reserved", "Speak of an event of your own; of the reserved facts a formula has K alone."),
    (r"\w+: variable \w+ is not bound", "Bind it by All or Ex, a time with #, and sign it as its binder does or not at all."),
    (r"\w+: variable \w+ is not guarded", "Let an action have it: before ==> under All, joined by & under Ex."),
    (r"longer than 1048576 bytes", "Leave out comments, or write once, as a let, what stands twice."),
]

# What is told of a note, by its number: a symbol in place of that of a builtin, one that is in no term, a definition that isn't led to, a fact
# that isn't shown, events of which no formula speaks, a name in an argument that a pattern binds, a variable that is compared.
NOTES = {
    "1": "No equation speaks of this symbol, so nothing undoes it: name builtins: %s in place of this declaration.",
    "2": "No term has this symbol: use it, or leave its declaration out.",
    "3": "The process doesn't lead to this let: use it there, or leave it out.",
    "4": "No place of the process shows this fact with as many arguments: write a fact that an event shows, or show this one.",
    "5": "No restriction or lemma speaks of these events with as many arguments: %s. Speak of them there, or leave them out.",
    "6": "This name is new to the process: what comes in is bound to it, by a pattern of the definition. To hand down a value, bind the name in front of the use; to bind a name of the definition's own, leave the parameter out.",
    "7": "This variable is bound already: only a message that is equal to its value comes in. For any message, write a new name.",
}
MOST_EVENTS = 8
BUILTINS = {
    "senc": "symmetric-encryption",
    "sdec": "symmetric-encryption",
    "aenc": "asymmetric-encryption",
    "adec": "asymmetric-encryption",
    "pk": "asymmetric-encryption, signing or revealing-signing",
    "sign": "signing",
    "verify": "signing",
    "true": "signing or revealing-signing",
    "revealSign": "revealing-signing",
    "revealVerify": "revealing-signing",
    "getMessage": "revealing-signing",
}
NOTE = re.compile(r"@([1-9])@")

SKIP = re.compile(rb"(?:[ \t\r\n]|//[^\n]*|/\*.*?\*/)*", re.S)
MARK = re.compile(r"@@|@2@|&([0-9]*)&")
MOST_USES = 8
WORD = re.compile(rb"[A-Za-z][A-Za-z0-9_]*|[0-9]+|'[ -&(-~]*'|==>|<=>|--\[|\]->|-->|\|\||.", re.S)


def written(text):
    """The bytes of a part of a row: line feeds, bytes, and repetitions."""
    out = bytearray()
    i = 0
    while i < len(text):
        if text[i] == "^":
            out += b"\n"
            i += 1
        elif text[i] == "{":
            end = text.index("}", i)
            inside = text[i + 1 : end]
            if ":" in inside:
                times, again = inside.split(":", 1)
                for k in range(int(times)):
                    out += again.replace("#", str(k)).replace("?", str(k + 1)).replace("^", "\n").encode()
            elif inside:
                out += bytes([int(inside, 16)])
            i = end + 1
        else:
            out += text[i].encode()
            i += 1
    return bytes(out)


def shown(data):
    """Bytes as the last part of a row has them."""
    marks = {10: "^", 94: "{5e}", 37: "{25}", 123: "{7b}", 125: "{7d}"}
    return "".join(marks.get(b, chr(b)) for b in data)


def place(data, at, cause):
    """The stretch of the word at the mark: of a fault of bytes one byte, behind the last word none."""
    if " at byte N" in cause or cause.startswith("byte N"):
        return at, at + 1
    start = SKIP.match(data, at).end()
    if start == len(data):
        return at, at
    return start, WORD.match(data, start).end()


def picture(data, start, end):
    """Line and column, the line, and carets."""
    begin = data.rfind(b"\n", 0, start) + 1
    stop = data.find(b"\n", start)
    stop = len(data) if stop < 0 else stop
    left, right = begin, stop
    if stop - begin > 120:
        left, right = max(begin, start - 60), min(stop, start + 60)
    line = "".join(chr(b) if 32 <= b <= 126 else " " for b in data[left:right])
    carets = max(1, min(end, right) - start)
    text = "line %d, column %d\n" % (data.count(b"\n", 0, start) + 1, start - begin + 1)
    return text + line + "\n" + " " * (start - left) + "^" * carets + "\n"


def unmarked(text):
    """The text without its marks, where `@@` stood, where `@2@` did, and where the uses, the innermost first."""
    bare, at, other, uses, end = "", None, None, {}, 0
    if "@@" not in text:
        return text, None, None, []
    for mark in MARK.finditer(text):
        if mark.group() == "@@" and at is not None:
            continue
        bare += text[end : mark.start()]
        end = mark.end()
        if mark.group() == "@@":
            at = len(bare)
        elif mark.group() == "@2@":
            assert other is None, text
            other = len(bare)
        else:
            number = int(mark.group(1) or "1")
            assert number not in uses, text
            uses[number] = len(bare)
    assert sorted(uses) == list(range(1, len(uses) + 1)), text
    return bare + text[end:], at, other, [uses[number] for number in sorted(uses)]


def used(data, uses):
    """A line for each use, and how many more there are."""
    text = ""
    for use in uses[:MOST_USES]:
        text += "in %s, used at line %d\n" % (WORD.match(data, use).group().decode(), data.count(b"\n", 0, use) + 1)
    return text + ("and %d more\n" % (len(uses) - MOST_USES) if len(uses) > MOST_USES else "")


def noted(text):
    """The text without the marks of notes, and where they stood, each with its kind."""
    bare, notes, end = "", [], 0
    for mark in NOTE.finditer(text):
        bare += text[end : mark.start()]
        end = mark.end()
        notes.append((len(bare), mark.group(1)))
    return bare + text[end:], notes


def accepted(marked):
    """An accepted file, and all that is told of it."""
    bare, notes = noted(marked.decode("latin-1"))
    bare, told = bare.encode("latin-1"), "accepted\n"
    names = [bare[slice(*place(bare, at, ""))].decode() for at, _ in notes]
    events = [name for name, (_, kind) in zip(names, notes) if kind == "5"]
    more = " and %d more" % (len(events) - MOST_EVENTS) if len(events) > MOST_EVENTS else ""
    inside = {"1": BUILTINS, "5": {name: ", ".join(events[:MOST_EVENTS]) + more for name in events[:1]}}
    for name, (at, kind) in zip(names, notes):
        if kind == "5" and name not in inside["5"]:
            continue
        what = NOTES[kind] % inside[kind][name] if kind in inside else NOTES[kind]
        told += picture(bare, *place(bare, at, "")) + what + "\n"
    return bare, told


def expected(marked, cause):
    """The file, and all that is told of it."""
    if cause == "accepted":
        return accepted(marked)
    bare, at, other, uses = unmarked(marked.decode("latin-1"))
    return expected_at(bare.encode("latin-1"), at, uses, cause, other)


def expected_at(bare, at, uses, cause, other=None):
    """The same of a mistake at this offset, with these uses, and perhaps another place."""
    cause, _, cure = cause.partition(" => ")
    text, told = "", cause
    by_hand = None
    if " = " in cause:
        cause, by_hand = cause.split(" = ", 1)
        told = cause
    if at is not None:
        text = picture(bare, *place(bare, at, cause)) + used(bare, uses)
        if other is not None:
            text += "and " + picture(bare, *place(bare, other, cause))
        if re.fullmatch(r"no theory header|line \d+: not in the grammar", cause):
            text += expectation(bare, at, by_hand)
        told = cause.replace("byte N", "byte %d" % at)
    advice = [sentence for form, sentence in ADVICE if re.fullmatch(form, cause)]
    assert len(advice) == 1, cause
    return bare, "file refused: " + told + "\n" + text + (cure or advice[0]) + "\n"


def of_marks(row):
    """The row of a line of marks: the file as it is written there, and what is told of it."""
    file, cause = (part.strip() for part in row.rsplit("%", 1))
    bytes_ = written(file)
    whole = bytes_[1:] if file.startswith("=") else b"theory T begin " + bytes_ + b" end"
    _, told = expected(whole, written(cause).decode())
    bare = noted(file)[0] if cause == "accepted" else unmarked(file)[0]
    return bare + " % " + shown(told.encode("latin-1"))


def of_file(path):
    """The row of a whole file."""
    text = open(path, "rb").read()
    head, marked = text.split(b"\n", 1)
    bare, told = expected(marked, head[3:].decode())
    return whole(bare) + " % " + shown(told.encode("latin-1"))


def whole(bare):
    """The first part of a row of a whole file."""
    return "=" + "".join(shown(bytes([b])) if b < 127 else "{%02x}" % b for b in bare)


def of_mutation(row):
    """The row of a mutation of an example file."""
    bare, told = expected_at(*mutation(row))
    return whole(bare) + " % " + shown(told.encode("latin-1"))


with open(os.path.join(top, "crates/sap_tables/data/why"), "w") as table:
    table.write("-- a file % what `why` tells of it; both written by bench/why_rows.py from marks that stand by hand\n")
    table.write("-- whole files\n")
    for path in sorted(glob.glob(os.path.join(top, "bench/why/*"))):
        table.write(of_file(path) + "\n")
    for line in open(os.path.join(top, "bench/why-marks")):
        line = line.rstrip("\n")
        table.write(line + "\n" if not line or line.startswith("-- ") else of_marks(line) + "\n")
    for line in open(os.path.join(top, "bench/why-mutations")):
        line = line.rstrip("\n")
        table.write(line + "\n" if not line or line.startswith("-- ") else of_mutation(line) + "\n")
