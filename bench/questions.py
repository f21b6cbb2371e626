#!/usr/bin/env python3
"""Asks each question of each instruction of some descriptions, and solves it.

    bench/questions.py FOLDER|DESC BUDGET PG_DIMACS PG_SOLVE

`bench/questions` calls it, and says what it writes.
"""

import re
import resource
import subprocess
import sys
import tempfile
from pathlib import Path

KINDS = ("privileged", "control", "mode", "location", "bound")
ANSWERS = {10: "shown", 20: "refuted", 0: "open"}
LINE = "{:<24} {:<10} {:<10} {:>9} {:>9} {:<8} {:>9} {:>8} {:>8}"
INSTR = re.compile(r"^\s*instr\s+(\w+)", re.M)


def timed(words, **more):
    """Runs a program, and gives what it did and the seconds of the processor that it took."""
    before = resource.getrusage(resource.RUSAGE_CHILDREN)
    run = subprocess.run(words, **more)
    after = resource.getrusage(resource.RUSAGE_CHILDREN)
    return run, after.ru_utime - before.ru_utime + after.ru_stime - before.ru_stime


def questions(desc):
    """The instructions of a description, each with each of the kinds."""
    text = re.sub(r"#.*", "", desc.read_text())
    return [(name, kind) for name in INSTR.findall(text) for kind in KINDS]


def asked(desc, name, kind, budget, programs, path):
    """One question: its variables, clauses, answer and conflicts, and the seconds that both programs took."""
    dimacs, solve = programs
    with open(path, "wb") as file:
        run, asking = timed([dimacs, desc, name, kind], stdout=file)
    if run.returncode != 0:
        sys.exit(f"bench/questions: {dimacs} {desc} {name} {kind} ends with {run.returncode}")
    with open(path) as file:
        head = next(line for line in file if line.startswith("p cnf")).split()
    run, solving = timed([solve, path, str(budget)], stdout=subprocess.PIPE, text=True)
    if run.returncode not in ANSWERS:
        sys.exit(f"bench/questions: {solve} ends with {run.returncode} on {desc} {name} {kind}")
    count = int(re.search(r"^c conflicts (\d+)", run.stdout, re.M).group(1))
    return int(head[2]), int(head[3]), ANSWERS[run.returncode], count, asking, solving


def shown(row):
    *words, asking, solving = row
    print(LINE.format(*words, f"{asking:.3f}", f"{solving:.3f}"), flush=True)


def main():
    source, budget = Path(sys.argv[1]), int(sys.argv[2])
    descs = sorted(source.glob("*.isa")) if source.is_dir() else [source]
    head = ("description", "instr", "kind", "variables", "clauses", "answer", "conflicts", "asking", "solving")
    rows = []
    with tempfile.TemporaryDirectory() as work:
        print(LINE.format(*head))
        for desc in descs:
            for name, kind in questions(desc):
                row = asked(desc, name, kind, budget, sys.argv[3:5], f"{work}/question.cnf")
                rows.append((desc.stem, name, kind, *row))
                shown(rows[-1])
    print("\nin all")
    for desc in descs:
        own = [row for row in rows if row[0] == desc.stem]
        largest = [max((row[at] for row in own), default=0) for at in (3, 4)]
        still = f"{sum(row[5] == 'open' for row in own)} open"
        shown((desc.stem, "", len(own), *largest, still, *(sum(row[at] for row in own) for at in (6, 7, 8))))
    print("\nthe most conflicts")
    for row in sorted(rows, key=lambda row: (-row[6], -row[8]))[:10]:
        shown(row)
    return 0


if __name__ == "__main__":
    sys.exit(main())
