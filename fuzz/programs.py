"""The programs that a comparison runs, by the words of its command line: `pgv`, one that writes questions, and a solver."""

import argparse
import os
import shutil
from collections.abc import Iterator
from pathlib import Path
from typing import NamedTuple

CRATES = Path(__file__).resolve().parent.parent / "crates"
BUILT = CRATES / "pgv" / "out" / "pgv"
ASKED = CRATES / "pg_side" / "out" / "pg_side"

SAME, DIFFERENT, NO_PROGRAM = 0, 1, 2
"""How a comparison ends."""


class Programs(NamedTuple):
    """Those that are there."""

    program: Path
    questions: Path | None
    solver: Path | None


def add_programs(parser: argparse.ArgumentParser) -> None:
    """The options that name programs."""
    parser.add_argument("--program", type=Path, default=BUILT, help="the built program (default: %(default)s)")
    parser.add_argument(
        "--dimacs",
        type=Path,
        default=ASKED,
        help="the program that writes the clauses of questions; what rests on them is not compared without it "
        "(default: %(default)s)",
    )
    parser.add_argument(
        "--solver",
        type=Path,
        default=Path(shutil.which("z3") or "z3"),
        help="a program that solves SMT-LIB, as z3; without it answers are compared with pairs that are tried (default: z3)",
    )


def found_programs(asked: argparse.Namespace) -> Programs | None:
    """None where the program that is compared is missing."""
    if not is_program(asked.program):
        return None
    others = (path.resolve() if is_program(path) else None for path in (asked.dimacs, asked.solver))
    return Programs(asked.program.resolve(), *others)


def warnings(asked: argparse.Namespace) -> Iterator[str]:
    """What is compared less, for want of a program."""
    if not is_program(asked.dimacs):
        yield f"no program at {asked.dimacs}, so questions are not modelled"
    if not is_program(asked.solver):
        yield f"no program at {asked.solver}, so what is searched is compared with tried pairs"


def is_program(path: Path) -> bool:
    """Whether a file is there that can be run."""
    return os.access(path, os.X_OK) and not path.is_dir()
