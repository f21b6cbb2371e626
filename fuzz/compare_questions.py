#!/usr/bin/env python3
"""Compares the clauses of questions, which `pg_dimacs` writes, with what the model decides, on random descriptions.

The clauses are to have a solution just where two states show the kind. A solver, z3, tries the clauses and decides the model's
own formula. Ends with 0 where no question differs, 1 where one does, and 2 where a program is missing.
"""

import argparse
import shutil
import subprocess
import sys
import tempfile
from collections import Counter
from collections.abc import Iterator
from pathlib import Path
from random import Random

sys.dont_write_bytecode = True  # before the modules of this folder are read, so that it holds sources only

from inputs.case import DESCRIPTION_FILE
from inputs.checks import any_bodies, as_for_certificates, hard, pieced
from judging import Judge
from pgvmodel.deciding import SECONDS, Answer, Solver
from pgvmodel.pairs import ALL_KINDS
from pgvmodel.questions import Questions, asking
from pgvmodel.reader import read

ASKED = Path(__file__).resolve().parent.parent / "crates" / "pg_side" / "out" / "pg_side"
MAKERS = (pieced, pieced, hard, any_bodies, as_for_certificates)

SAME, DIFFERENT, NO_PROGRAM = 0, 1, 2


def solved(solver: Path, clauses: bytes) -> Answer:
    """Whether a formula of clauses has a solution."""
    with tempfile.NamedTemporaryFile(suffix=".cnf") as file:
        file.write(clauses)
        file.flush()
        ended = subprocess.run([solver, f"-T:{SECONDS}", "-dimacs", file.name], capture_output=True, check=False)
    told = {b"s SATISFIABLE": Answer.SHOWN, b"s UNSATISFIABLE": Answer.NEVER}
    return told.get(ended.stdout.partition(b"\n")[0].strip(), Answer.UNDECIDED)


def differences(dimacs: Path, solver: Path, text: bytes, counts: Counter[str]) -> Iterator[str]:
    """The questions of a description that differ, each in a line."""
    description = read(text)
    judge = Judge(Solver(solver), Questions())
    with tempfile.NamedTemporaryFile(suffix=".isa") as file:
        file.write(text)
        file.flush()
        for number, instruction in enumerate(description.instructions):
            for kind in ALL_KINDS:
                words = [*asking(dimacs), file.name, instruction.name, kind]
                clauses = subprocess.run(words, capture_output=True, check=True).stdout
                by_clauses, by_model = solved(solver, clauses), judge.decided(description, number, kind).answer
                counts[by_model.value] += 1
                if Answer.UNDECIDED in (by_clauses, by_model):
                    counts["left"] += 1
                elif by_clauses is not by_model:
                    yield f"{instruction.name} {kind}: clauses {by_clauses.value}, model {by_model.value}"


def main() -> int:
    parser = argparse.ArgumentParser(description=__doc__, formatter_class=argparse.RawDescriptionHelpFormatter)
    parser.add_argument("--dimacs", type=Path, default=ASKED, help="the program that writes clauses (default: %(default)s)")
    parser.add_argument("--runs", type=int, default=100, metavar="N", help="descriptions (default: %(default)s)")
    parser.add_argument("--seed", type=int, default=1, metavar="N", help="a seed gives the same inputs (default: %(default)s)")
    asked = parser.parse_args()
    solver = shutil.which("z3")
    if solver is None or not asked.dimacs.is_file():
        print(f"compare_questions: no program z3, or none at {asked.dimacs}", file=sys.stderr)
        return NO_PROGRAM
    counts: Counter[str] = Counter()
    found = 0
    for i in range(asked.runs):
        rng = Random(f"{asked.seed} questions {i}")
        text = rng.choice(MAKERS)(rng).files[DESCRIPTION_FILE]
        for line in differences(asked.dimacs.resolve(), Path(solver), text, counts):
            found += 1
            print(f"{line}, of\n{text.decode()}", flush=True)
    print(f"{asked.runs} descriptions, {found} differences  {', '.join(f'{name}: {n}' for name, n in sorted(counts.items()))}")
    return DIFFERENT if found else SAME


if __name__ == "__main__":
    sys.exit(main())
