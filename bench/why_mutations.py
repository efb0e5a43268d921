"""Mutations of the example files that are in no grammar, and what is told of them, for bench/why_rows.py.

`bench/why-mutations` has a row for each: an example file, what was done to one of its tokens, and the token's number, from 1. `drop` leaves
it out, `double` writes it twice, `exchange` writes it behind the next one, with a blank between words that would be others. Behind `%`
stands the line that refuses the file, which `some` below wrote and which has to be what `refused_line` says. Behind ` => ` stands by hand
the sentence of a row of `sap_cures`, where one fits. Of twenty rows the place and what is expected there stand by hand too, behind ` @ `
and ` = `, and have to be what is found here. Which word is wrong, what is expected in its place and the line come from the grammar of
docs/files.md (why_expected.py), and nothing is taken from what the program prints.

usage: bench/why_mutations.py COUNT     so many rows, evenly over the files, without what stands by hand
"""
import glob
import os
import re
import sys

from why_expected import RULES, fits, may_stand, kinds, tokens, wanted

top = os.path.dirname(os.path.dirname(os.path.abspath(__file__)))
WAYS = ("drop", "double", "exchange")
ITEM_WORDS = "builtins functions let process restriction lemma rule end".split()
ROW = re.compile(r"(\S+) (drop|double|exchange) (\d+) % (line \d+: not in the grammar)(?: @ (line \d+, column \d+) = (.*?))?(?: => (.*))?$")


def example(name):
    return open(os.path.join(top, "examples", name + ".spthy"), "rb").read()


def parted(*parts):
    """The parts in order, with a blank between two whose words would be others without it."""
    text = b""
    for part in parts:
        both = [word for word, _ in tokens(text)] + [word for word, _ in tokens(part)]
        text += part if [word for word, _ in tokens(text + part)] == both else b" " + part
    return text


def mutated(data, way, number):
    """The file with this done to the token of this number, from 1."""
    found = tokens(data)
    word, at = found[number - 1]
    end = at + len(word)
    if way == "drop":
        return parted(data[:at], data[end:])
    if way == "double":
        return parted(data[:end] + b" " + word.encode(), data[end:])
    other, start = found[number]
    return parted(data[:at], other.encode(), data[end:start], word.encode(), data[start + len(other) :])


def wrong(data):
    """Where the first word is with which no file goes on, or where the last ends; None where there is none."""
    found = tokens(data)
    low, high = 0, len(found)
    words = [word for word, _ in found]
    if wanted(words) == set():
        return None
    # how many words go on to a file
    while low < high:
        middle = (low + high + 1) // 2
        if wanted(words[:middle]) is not None:
            low = middle
        else:
            high = middle - 1
    return found[low][1] if low < len(found) else found[-1][1] + len(found[-1][0])


def is_item(words):
    """Whether these words are an item."""
    return ends_item(["theory", "T", "begin"] + words)


def ends_item(words):
    terminals = wanted(words)
    return terminals is not None and "'end'" in terminals


def refused_line(data):
    """The line of the first word of the first piece that is no item: a piece reaches from one word that begins items to the next."""
    found = tokens(data)[3:]
    pieces = []
    for word, at in found:
        if word in ITEM_WORDS or not pieces:
            pieces.append([])
        pieces[-1].append((word, at))
    for piece in pieces:
        words = [word for word, _ in piece]
        if words != ["end"] or piece is not pieces[-1]:
            if not is_item(words):
                return data.count(b"\n", 0, piece[0][1]) + 1
    at = found[-1][1]
    return data.count(b"\n", 0, at) + 1


def mutation(row):
    """The file of a row, where its wrong word is, no uses, and what refuses it."""
    match = ROW.fullmatch(row)
    assert match, row
    name, way, number, cause, place, expected, cure = match.groups()
    data = mutated(example(name), way, int(number))
    at = wrong(data)
    assert at is not None and cause == "line %d: not in the grammar" % refused_line(data), row
    if place:
        line = data.count(b"\n", 0, at) + 1
        assert place == "line %d, column %d" % (line, at - data.rfind(b"\n", 0, at)), (row, line, at - data.rfind(b"\n", 0, at))
        before = [word for word, start in tokens(data) if start < at]
        assert expected == may_stand(kinds(wanted(before))), row
    return data, at, [], cause + (" => " + cure if cure else "")


def some(count):
    """So many rows, evenly over all that there are."""
    all_there = []
    for path in sorted(glob.glob(os.path.join(top, "examples/*.spthy"))):
        name = os.path.basename(path)[:-6]
        size = len(tokens(example(name)))
        for number in range(4, size + 1):
            for way in WAYS:
                if way != "exchange" or number < size:
                    all_there.append((name, way, number))
    step, k, rows, seen = len(all_there) / (1.5 * count), 0.0, [], set()
    while len(rows) < count and k < len(all_there):
        name, way, number = all_there[int(k)]
        k += step
        data = mutated(example(name), way, number)
        at = wrong(data)
        if at is not None and data not in seen:
            seen.add(data)
            rows.append("%s %s %d %% line %d: not in the grammar" % (name, way, number, refused_line(data)))
    return rows


if __name__ == "__main__":
    for row in some(int(sys.argv[1])):
        print(row)
