#!/usr/bin/env python3
"""Runs pg_solve on 500 small formulas at random, and compares each answer with a table of truth.

    bench/truth.py PG_SOLVE

At most 12 variables and clauses of 1 to 4 literals, from a fixed seed. Where the answer is an assignment it has to make all
clauses true; where it is none, no row of the table may, and the checker has to take the log.
"""

import itertools
import random
import subprocess
import sys
import tempfile
from pathlib import Path


def formula(chance):
    """A count of variables, and clauses."""
    variables = chance.randint(1, 12)
    clauses = []
    for _ in range(chance.randint(0, 5 * variables)):
        size = min(variables, chance.choice((1, 2, 2, 3, 3, 3, 4)))
        chosen = chance.sample(range(1, variables + 1), size)
        clauses.append([v if chance.random() < 0.5 else -v for v in chosen])
    return variables, clauses


def is_true(values, clauses):
    return all(any(values[abs(z) - 1] == (z > 0) for z in clause) for clause in clauses)


def fault(solve, path, variables, clauses):
    """What is wrong with the answer, if anything is."""
    run = subprocess.run([solve, path, "--check"], capture_output=True, text=True)
    can = any(is_true(row, clauses) for row in itertools.product((False, True), repeat=variables))
    if run.returncode != (10 if can else 20):
        return f"status {run.returncode}"
    if can:
        literals = [int(w) for line in run.stdout.splitlines() if line.startswith("v") for w in line.split()[1:]]
        if [abs(z) for z in literals] != list(range(1, variables + 1)) + [0]:
            return "no assignment"
        if not is_true([z > 0 for z in literals], clauses):
            return "a clause that is false"
    elif "c checked" not in run.stdout:
        return "no checked log"
    return None


def main():
    solve = sys.argv[1]
    chance = random.Random(3)
    can = 0
    with tempfile.TemporaryDirectory() as folder:
        path = Path(folder) / "formula.cnf"
        for number in range(500):
            variables, clauses = formula(chance)
            lines = [f"p cnf {variables} {len(clauses)}"] + [" ".join(map(str, c)) + " 0" for c in clauses]
            path.write_text("\n".join(lines) + "\n")
            wrong = fault(solve, str(path), variables, clauses)
            if wrong:
                print(f"formula {number}: {wrong}")
                print(path.read_text())
                sys.exit(1)
            can += any(is_true(row, clauses) for row in itertools.product((False, True), repeat=variables))
    print(f"500 small formulas: {can} can be true, {500 - can} cannot, all as the table of truth has it")


if __name__ == "__main__":
    main()
