#!/usr/bin/env python3
"""Where the proofs of the crates take their time.

usage: bench/proof_times.py [--functions N] [CRATE..]
       bench/proof_times.py [--functions N] --folder FOLDER

Reads the times at which a check with one job wrote its checked modules, so run before, in each crate that is wanted,

    rm -rf out/incremental && rt check --jobs 1

with nothing else running, and no other checkout on the machine from whose kept work the check would begin. A module's time is the gap to the module written before it. For each crate there is a line with the
seconds in all, and how many of them went into walks through bodies (`Lts`), into joining walks with answers (`Proof`), into the
rest of what is made for a function, and into specs and lemmas; then the functions that took longest. --folder reads the modules of any folder that a check wrote.
"""
import collections
import os
import re
import sys

MADE = "Lts Proof Tie Reads Kinds Answers Named Layout Code Met Statement Key Carried Goals Given TheLink View".split()
PART = re.compile(r"\.(%s)(?=[-.]|$)" % "|".join(MADE))
HERE = os.path.dirname(os.path.dirname(os.path.abspath(__file__)))
# A gap as long as this is a pause between two checks, no module's time.
PAUSE = 400


def modules(folder):
    """Each checked module of the folder with the seconds that it took, in the order in which they were written."""
    found = []
    for at, _, names in os.walk(folder):
        for name in names:
            if name.endswith(".oantt"):
                found.append((os.lstat(f"{at}/{name}").st_mtime, name[: -len(".oantt")]))
    found.sort()
    times = []
    for (before, _), (now, name) in zip(found, found[1:]):
        if now - before < PAUSE:
            times.append((now - before, name))
    return times


def function_of(name):
    """The function, type or file that a module was made for."""
    name = re.sub(PART.pattern[: -len("(?=[-.]|$)")] + r"([-.].*|$)", "", name)
    return re.sub(r"^Rattle-|-proofs|-specs\.contracts|\.decls", "", name)


def show(crate, folder, most):
    times = modules(folder)
    if not times:
        print(f"{crate:20} no checked modules: run rt check --jobs 1 there")
        return 0.0
    kinds, functions = collections.Counter(), collections.Counter()
    for seconds, name in times:
        part = PART.search(name)
        kinds[part[1] if part else "text"] += seconds
        if part:
            functions[function_of(name)] += seconds
    total = sum(kinds.values())
    walks, joins, text = kinds["Lts"], kinds["Proof"], kinds["text"]
    rest = total - walks - joins - text
    share = lambda it: f"{it:7.0f} ({it / total * 100:3.0f} %)"
    print(f"{crate:20} {total:7.0f} s  walks {share(walks)}  joins {share(joins)}  rest {share(rest)}  specs and lemmas {share(text)}")
    for name, seconds in functions.most_common(most):
        print(f"{'':20} {seconds:7.1f} s  {name}")
    return total


def main(words):
    most = 5
    if words[:1] == ["--functions"]:
        most, words = int(words[1]), words[2:]
    if words[:1] == ["--folder"]:
        show(os.path.basename(words[1]), words[1], most)
        return
    kept = lambda crate: f"{HERE}/crates/{crate}/out/incremental"
    crates = words or [it for it in sorted(os.listdir(f"{HERE}/crates")) if os.path.isdir(kept(it))]
    total = sum(show(it, kept(it), most) for it in crates)
    print(f"{'all':20} {total:7.0f} s, {total / 60:.1f} minutes of one processor")


if __name__ == "__main__":
    main(sys.argv[1:])
