#!/usr/bin/env python3
"""What the gate costs from nothing, crate by crate.

usage: bench/gate_times.py [--write] [COMMAND..]

Runs the command, which is the gate from nothing where none is given (`rt ci`, or `rt ci --anew` where `rt` keeps what passed), at the
top of the checkout, and looks ten times a second which checks run below it and how much of the processors each has used. To be run with nothing else on the machine, in a clean clone. It prints the
table of docs/GATE.md, and with --write puts it there; what the command says goes to standard error. The status is the command's.

Of each crate the table has the processor seconds of its proof, of the second proof that its edits begin with, and of the checks of
its edits, one for each and one of the unchanged crate. What ends between two looks loses a tenth of a second, so the columns may lack
a few seconds of the total, which is what `time` would say; so do the programs that are compiled and run.
"""
import collections
import os
import re
import resource
import subprocess
import sys
import time

HERE = os.path.dirname(os.path.dirname(os.path.abspath(__file__)))
DOCUMENT = os.path.join(HERE, "docs/GATE.md")
BEGIN, END = "<!-- the table -->", "<!-- the end of the table -->"
TICKS = os.sysconf("SC_CLK_TCK")


def text_of(path):
    try:
        with open(path, "rb") as it:
            return it.read().decode(errors="replace")
    except OSError:
        return ""


def processes():
    """Each process with its parent, its seconds of processor time, and when it began, by its number."""
    found = {}
    for name in os.listdir("/proc"):
        if name.isdigit():
            fields = text_of(f"/proc/{name}/stat").rpartition(")")[2].split()
            if len(fields) > 19:
                found[int(name)] = int(fields[1]), (int(fields[11]) + int(fields[12])) / TICKS, fields[19]
    return found


def below(top, found):
    """The processes that stand below one, and itself."""
    children = collections.defaultdict(list)
    for number, (parent, _, _) in found.items():
        children[parent].append(number)
    todo, those = [top], []
    while todo:
        at = todo.pop()
        those.append(at)
        todo += children[at]
    return those


def task_of(number):
    """The crate that a process checks and what for, or none: its proof, the seed of its edits, or an edit."""
    words = text_of(f"/proc/{number}/cmdline").split("\0")
    if "--crate-name" not in words or not os.path.basename(words[0]) == "rattle":
        return None
    crate = words[words.index("--crate-name") + 1]
    try:
        place = os.readlink(f"/proc/{number}/cwd")
    except OSError:
        return None
    if "/rt-edit-" not in place:
        return crate, "proof"
    kept = words[words.index("--incremental") + 1] if "--incremental" in words else ""
    return crate, "seed" if kept.endswith("/seed") else "edit"


def watched(command):
    """Runs the command, and gives its status, the processor seconds of all, those of each check by crate and kind, and the clock's."""
    began = time.time()
    run = subprocess.Popen(command, cwd=HERE, stdout=sys.stderr)
    tasks, times, order = {}, {}, []
    while run.poll() is None:
        found = processes()
        for number in below(run.pid, found):
            if number not in found:
                continue
            key = number, found[number][2]
            if tasks.get(key) is None:
                tasks[key] = task_of(number)
                if tasks[key] is not None:
                    order.append(key)
            times[key] = found[number][1]
        time.sleep(0.1)
    spent = resource.getrusage(resource.RUSAGE_CHILDREN)
    of_crate = collections.defaultdict(lambda: collections.defaultdict(list))
    for key in order:
        crate, kind = tasks[key]
        of_crate[crate][kind].append(times[key])
    return run.returncode, spent.ru_utime + spent.ru_stime, of_crate, time.time() - began


def crates():
    """The names of the crates, lowest first, as crates.txt has them."""
    lines = text_of(f"{HERE}/crates.txt").split("\n")
    return [line.split(":")[0].split()[0] for line in lines if ":" in line and not line.startswith("#")]


def edits(crate):
    folder = f"{HERE}/crates/{crate}/must-fail"
    return len([it for it in os.listdir(folder) if it.endswith(".edit")]) if os.path.isdir(folder) else 0


def row(cells):
    return "| " + " | ".join(cells) + " |"


def seconds(number):
    return f"{number:.0f}" if number else ""


def table(total, of_crate, clock):
    lines = [row(["crate", "proof", "second proof", "edits", "their checks", "together"]), "|---|---|---|---|---|---|"]
    sums = [0.0, 0.0, 0, 0.0]
    for crate in crates():
        kinds = of_crate[crate]
        # The first check over a seed makes it, a later one looks whether it still holds.
        made, tried = kinds["seed"][:1], kinds["edit"] + kinds["seed"][1:]
        cells = [sum(kinds["proof"]), sum(made), edits(crate), sum(tried)]
        sums = [a + b for a, b in zip(sums, cells)]
        lines.append(row([f"`{crate}`", seconds(cells[0]), seconds(cells[1]), str(cells[2] or ""), seconds(cells[3]), seconds(cells[0] + cells[1] + cells[3])]))
    lines.append(row(["all", seconds(sums[0]), seconds(sums[1]), str(sums[2]), seconds(sums[3]), seconds(sums[0] + sums[1] + sums[3])]))
    model = re.search(r"model name\s*: (.*)", text_of("/proc/cpuinfo"))
    machine = f"{len(os.sched_getaffinity(0))} processors ({model[1] if model else 'unknown'})"
    commit = subprocess.run(["git", "rev-parse", "--short", "HEAD"], cwd=HERE, stdout=subprocess.PIPE, text=True).stdout.strip()
    said = f"On {time.strftime('%d %B %Y').lstrip('0')}, {machine}, commit `{commit}`: **{total / 60:.1f} processor minutes** in all, by `time`, and {clock / 60:.1f} minutes of the clock."
    return "\n".join([said, "", *lines])


def from_nothing():
    """The gate, with nothing taken from a run before it."""
    told = subprocess.run(["rt", "help"], stdout=subprocess.PIPE, stderr=subprocess.STDOUT, text=True).stdout
    return ["rt", "ci", *(["--anew"] if "--anew" in told else [])]


def main():
    words = sys.argv[1:]
    writes = words[:1] == ["--write"]
    status, total, of_crate, clock = watched(words[writes:] or from_nothing())
    made = table(total, of_crate, clock)
    print(made)
    if writes:
        document = text_of(DOCUMENT)
        head, _, rest = document.partition(BEGIN)
        with open(DOCUMENT, "w", encoding="utf-8") as it:
            it.write(f"{head}{BEGIN}\n{made}\n{END}{rest.partition(END)[2]}")
    sys.exit(status)


main()
