#!/usr/bin/env python3
"""Compares the answers of pg_solve with CaDiCaL's on a folder of formulas, such as `test/cnf` of CaDiCaL's sources
(Debian: `apt-get source cadical`). Each log is given to the checker.

  bench/agree.py SOLVE FOLDER [BUDGET]

SOLVE is the program, `./pg_solve`; at most BUDGET clauses are learned, 200,000 where none is given. A line for each
formula that is left open or answered otherwise, then how many agree. Ends with 1 where one is answered otherwise.
"""
import subprocess
import sys
from pathlib import Path

# What solvers' exit statuses say.
ANSWERS = {10: "can be true", 20: "cannot"}


def answer(*command):
    done = subprocess.run(command, stdout=subprocess.DEVNULL, stderr=subprocess.DEVNULL)
    return ANSWERS.get(done.returncode, "open")


def main():
    solve, folder, budget = (sys.argv[1:] + ["200000"])[:3]
    formulas = sorted(Path(folder).glob("*.cnf"))
    agree = wrong = 0
    for formula in formulas:
        own, other = answer(solve, formula, budget, "--check"), answer("cadical", "-q", formula)
        if own == other != "open":
            agree += 1
            continue
        wrong += own != "open"
        print(f"{formula.name}: {own}, CaDiCaL: {other}")
    print(f"{len(formulas)} formulas: {agree} agree")
    sys.exit(wrong > 0)


if __name__ == "__main__":
    if len(sys.argv) < 3:
        sys.exit(__doc__)
    main()
