#!/usr/bin/env python3
"""What stands twice: pairs of files of the crates that share lines to the letter.

usage: bench/repeated.py [--lines N] [FOLDER]

Compares `src/`, `specs/` and `proofs/` of all crates of this checkout, or of the one in FOLDER. Comments, imports and short lines
don't count, nor how far a line stands to the right. A pair is told where N lines in a row are the same (10 where nothing is said), with
how many lines it shares so and where the first of them stands, most first; those of one crate have a mark. What stands in more than
eight places isn't told: an empty form that the prover asks for.
"""
import collections
import os
import re
import sys

HERE = os.path.dirname(os.path.dirname(os.path.abspath(__file__)))
PASSED_OVER = ("--", "//", "use ", "ghost use", "pub mod", "mod ")
PARTS = ("src", "specs", "proofs")
MOST_PLACES = 8


def lines_of(path):
    """The lines that count, each with its number."""
    found = []
    with open(path, encoding="utf-8") as it:
        for number, line in enumerate(it, 1):
            text = re.sub(r"\s+", " ", line.strip())
            if len(text) > 3 and not text.startswith(PASSED_OVER):
                found.append((number, text))
    return found


def files_of(top):
    """The lines of each file of the crates, by its path below them."""
    found = {}
    for crate in sorted(os.listdir(f"{top}/crates")):
        for part in PARTS:
            for at, _, names in os.walk(f"{top}/crates/{crate}/{part}"):
                for name in names:
                    if name.endswith((".rt", ".antt")):
                        path = f"{at}/{name}"
                        found[os.path.relpath(path, f"{top}/crates")] = lines_of(path)
    return found


def shared(files, length):
    """For each pair of files where in both a run of so many lines begins that they share."""
    places = collections.defaultdict(list)
    for name, lines in files.items():
        for at in range(len(lines) - length + 1):
            places[tuple(text for _, text in lines[at : at + length])].append((name, at))
    pairs = collections.defaultdict(set)
    for those in places.values():
        if len(those) <= MOST_PLACES:
            for k, one in enumerate(those):
                for other in those[k + 1 :]:
                    (f, i), (g, j) = sorted((one, other))
                    if f != g:
                        pairs[f, g].add((i, j))
    return pairs


def main(words):
    length = 10
    if words[:1] == ["--lines"]:
        length, words = int(words[1]), words[2:]
    files = files_of(os.path.abspath(words[0]) if words else HERE)
    rows = []
    for (f, g), runs in shared(files, length).items():
        count = len({i + k for i, _ in runs for k in range(length)})
        i, j = min(runs)
        rows.append((count, f, files[f][i][0], g, files[g][j][0]))
    rows.sort(key=lambda it: (-it[0], it[1:]))
    for count, f, i, g, j in rows:
        mark = "*" if f.split("/")[0] == g.split("/")[0] else " "
        print(f"{count:4} {mark} {f}:{i} ~ {g}:{j}")
    print(f"{len(rows)} pairs share {length} lines or more in a row")


if __name__ == "__main__":
    main(sys.argv[1:])
