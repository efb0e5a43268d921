#!/bin/sh
# Runs the commands of the pages as they stand there, and compares what they write with what the page shows.
#
# In a page a block that is indented by four blanks may have a mark on the line before it, or before the empty line before it:
#   <!-- file NAME -->           the block is this file
#   <!-- run -->                 the block has commands, which end with status 0; with `, status N` behind `run` the last ends with N
#   <!-- run at the top -->      the same at the top of the repository, else in a folder of the page's own
#   <!-- writes -->              the block is what the commands before it wrote to standard output; with `among others` lines of it, in order
#   <!-- says -->                the same of standard error
#   <!-- files of PAGE -->       no block: the page goes on from the files that PAGE.md of docs/ leaves
#   <!-- not run: WHY -->        the block has commands that aren't run here
# A block with commands and no mark is a fault. A picture of the page that its commands make has to be the one that they make.
#
# usage: bench/pages.sh [PAGE..]     without names README.md, docs/*.md and crates/*/README.md
#
# `sapic` in the pages is the program that SAPIC names, without it ../sapic, which builds it where it isn't there yet. A line tells how many
# commands and texts there were, and the status is 0 where none differs.
set -eu
top=$(cd "$(dirname "$0")/.." && pwd)
work=$(mktemp -d)
trap 'rm -rf "$work"' EXIT
trap 'exit 1' HUP INT TERM
mkdir "$work/bin"
ln -s "${SAPIC:-$top/sapic}" "$work/bin/sapic"
"$work/bin/sapic" sample 1 > "$work/sample"
cat > "$work/pages.py" << 'END'
import glob
import os
import re
import shutil
import subprocess
import sys

TOP, WORK, *PAGES = sys.argv[1:]
PAGES = PAGES or ["README.md", *(os.path.relpath(it, TOP) for of in ("docs/*.md", "crates/*/README.md") for it in sorted(glob.glob(f"{TOP}/{of}")))]
MARK = re.compile(r"<!-- (files of|file|run|writes|says|not run:)(.*?) *-->")
IS_COMMAND = re.compile(r"\(?(\./|bench/)?(sapic|rt|cd|sed|grep|printf|sh|cmp|diff|for|python3|\./\S+|bench/\S+)( |$)")
counts = {"commands": 0, "texts": 0, "files": 0, "not run": 0}
faults = []
done = {}


def blocks(lines):
    """Yields the mark, if any, the number of its first line and the text of each indented block, and each mark that has none."""
    at, mark = 0, None
    while at < len(lines):
        found = MARK.fullmatch(lines[at])
        if found and found[1] == "files of":
            yield found, at + 1, None
        elif found:
            mark = found
        elif lines[at].startswith("    ") and (at == 0 or not lines[at - 1].strip() or MARK.fullmatch(lines[at - 1])):
            end = at
            while end < len(lines) and (lines[end].startswith("    ") or not lines[end].strip()):
                end += 1
            text = [it[4:] for it in lines[at:end]]
            while not text[-1].strip():
                text.pop()
            yield mark, at + 1, "\n".join(text) + "\n"
            at, mark = end - 1, None
        elif lines[at].strip():
            mark = None
        at += 1


def are_among(wanted, written):
    rest = iter(written.splitlines())
    return all(it in rest for it in wanted.splitlines())


def run(page):
    if page in done:
        return done[page]
    room = done[page] = os.path.join(WORK, page.replace("/", "-"))
    os.mkdir(room)
    fault = lambda line, text: faults.append(f"{page}:{line}: {text}")
    with open(os.path.join(TOP, page), encoding="utf-8") as it:
        lines = it.read().split("\n")
    wrote = {"writes": "", "says": ""}
    for mark, line, text in blocks(lines):
        kind, rest = (mark[1], mark[2].strip()) if mark else ("", "")
        if kind == "files of":
            shutil.copytree(run(f"docs/{rest}.md"), room, dirs_exist_ok=True)
        elif kind == "file":
            counts["files"] += 1
            with open(os.path.join(room, rest), "w", encoding="utf-8") as it:
                it.write(text)
        elif kind == "run":
            wanted = re.search(r"status (\d+)", rest)
            how = {"cwd": TOP if "at the top" in rest else room, "capture_output": True, "text": True, "stdin": subprocess.DEVNULL}
            ran = subprocess.run(["sh", "-e", "-c", text], env={**os.environ, "PATH": f"{WORK}/bin:{os.environ['PATH']}"}, **how)
            wrote = {"writes": ran.stdout, "says": ran.stderr}
            counts["commands"] += len(text.splitlines())
            if ran.returncode != int(wanted[1] if wanted else 0):
                fault(line, f"status {ran.returncode}: {text}{ran.stdout[-300:]}{ran.stderr[-300:]}")
        elif kind in ("writes", "says"):
            counts["texts"] += 1
            is_so = are_among(text, wrote[kind]) if "among others" in rest else text.rstrip() == wrote[kind].rstrip()
            if not is_so:
                fault(line, f"the page shows\n{text}and there came\n{wrote[kind]}")
        elif kind == "not run:":
            counts["not run"] += 1
        elif any(IS_COMMAND.match(it) for it in text.splitlines()):
            fault(line, f"a block with commands has no mark:\n{text}")
    for name in re.findall(r"!\[[^\]]*\]\(([^)]*)\)", "\n".join(lines)):
        made, shown = os.path.join(room, name), os.path.join(TOP, os.path.dirname(page), name)
        if os.path.isfile(made):
            counts["texts"] += 1
            with open(made, "rb") as one, open(shown, "rb") as other:
                if one.read() != other.read():
                    fault(0, f"{name} isn't the picture that is made")
    return room


for it in PAGES:
    run(it)
print(*faults, sep="\n", end="\n" if faults else "")
print(f"{counts['commands']} commands run, {counts['texts']} texts compared, {counts['files']} files, {counts['not run']} blocks not run; {len(faults)} differ")
sys.exit(1 if faults else 0)
END
python3 "$work/pages.py" "$top" "$work" "$@"
