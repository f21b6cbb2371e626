#!/usr/bin/env python3
"""Times solvers on formulas.

    bench/solver.py FOLDER BUDGET ROUNDS PG_SOLVE

`bench/solver` calls it. A line for each formula and solver: the answer, conflicts, seconds of a processor, the
least of ROUNDS in which the solvers take turns, and millions of literals set a second. pg_solve has a second line, of one round
with its log checked. At the end the sums over the formulas that all of them settle, with how many times another's seconds
pg_solve takes, and over those again without the one that takes it longest.
"""

import math
import os
import re
import shutil
import subprocess
import sys
import tempfile
from pathlib import Path

LINE = "{:<18} {:<10} {:<6} {:>9} {:>9} {:>7}"
ANSWERS = {10: "yes", 20: "no", 0: "open"}
CONFLICTS = re.compile(r"^(?:c )?conflicts\s*:?\s+(\d+)", re.M)
SET = re.compile(r"^(?:c )?(?:conflicts \d+ )?propagations\s*:?\s+(\d+)", re.M)


def solvers(program, budget):
    """The words that start each solver there is."""
    found = {"pg_solve": [program, "{}", str(budget)]}
    for name in ("minisat", "cadical"):
        if shutil.which(name):
            found[name] = [name, "{}"]
    return found


def timed(words):
    """Runs a program, and gives its answer, what it wrote, and the seconds of the processor that it took."""
    with tempfile.TemporaryFile("w+") as said:
        child = subprocess.Popen(words, stdout=said, stderr=subprocess.DEVNULL)
        _, status, used = os.wait4(child.pid, 0)
        child.returncode = os.waitstatus_to_exitcode(status)
        said.seek(0)
        return ANSWERS.get(child.returncode, "?"), said.read(), used.ru_utime + used.ru_stime


def number(pattern, text):
    found = pattern.search(text)
    return int(found.group(1)) if found else 0


def solved(path, words):
    """What one solver does with a formula."""
    answer, text, seconds = timed([word.replace("{}", str(path)) for word in words])
    return answer, number(CONFLICTS, text), number(SET, text), seconds


def measured(path, known, rounds):
    """What each solver does with a formula: answer, conflicts, literals set, seconds."""
    best = {"checked": solved(path, [*known["pg_solve"], "--check"])}
    for _ in range(rounds):
        for name, words in known.items():
            best[name] = min(solved(path, words), best.get(name, (0, 0, 0, math.inf)), key=lambda row: row[3])
    return best


def sums(title, rows, known):
    """The seconds of each solver over some formulas, and how many times those pg_solve takes."""
    print(f"\n{title}: {len(rows)} formulas")
    own = sum(best["pg_solve"][3] for best in rows.values())
    for name in known:
        total = sum(best[name][3] for best in rows.values())
        print(f"{name:<10} {total:9.3f}   {own / total if total else 0:.2f}")


def main():
    folder, budget, rounds, program = Path(sys.argv[1]), int(sys.argv[2]), int(sys.argv[3]), sys.argv[4]
    known = solvers(program, budget)
    rows = {}
    print(LINE.format("formula", "solver", "answer", "conflicts", "seconds", "Mset/s"))
    for path in sorted(folder.glob("*.cnf")):
        rows[path.stem] = best = measured(path, known, rounds)
        for name, (answer, conflicts, literals, seconds) in best.items():
            rate = f"{literals / seconds / 1e6:.2f}" if seconds else "-"
            print(LINE.format(path.stem, name, answer, conflicts, f"{seconds:.3f}", rate), flush=True)
    settled = {name: best for name, best in rows.items() if all(row[0] in ("yes", "no") for row in best.values())}
    sums("settled by all", settled, known)
    dearest = max(settled, key=lambda name: settled[name]["pg_solve"][3], default="")
    sums(f"without {dearest}", {name: best for name, best in settled.items() if name != dearest}, known)
    return 0


if __name__ == "__main__":
    sys.exit(main())
