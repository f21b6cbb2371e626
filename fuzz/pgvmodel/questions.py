"""The clauses of questions, which are not modelled: a program that writes them is asked.

Whether two states show a kind of an instruction is a question; its clauses can all be true exactly where some do.
"""

import subprocess
import tempfile
from functools import lru_cache
from pathlib import Path

from pgvmodel.clauses import Clause

SECONDS = 120
"""A question that takes longer to write is left."""

MOST_KEPT = 128
"""Questions that are kept; a case asks the same ones more than once."""

NO_MEMORY = 10
"""The status of a program that memory was refused."""


class NotModelled(Exception):
    """The answer rests on the clauses of a question, and they cannot be had."""


class Questions:
    """Asks a program that takes a description's file, an instruction's name and a kind, and writes DIMACS CNF."""

    def __init__(self, program: Path | None = None) -> None:
        self.program = program
        self._kept = lru_cache(MOST_KEPT)(self._ask)

    def clauses(self, description: bytes, name: str, kind: str) -> list[Clause]:
        """The clauses of a question, in order; raises NotModelled where there is no program, or it came to no end."""
        if self.program is None:
            raise NotModelled
        return self._kept(description, name, kind)

    def _ask(self, description: bytes, name: str, kind: str) -> list[Clause]:
        with tempfile.NamedTemporaryFile(suffix=".isa") as file:
            file.write(description)
            file.flush()
            words = [*asking(self.program), file.name, name, kind]
            try:
                ended = subprocess.run(words, capture_output=True, timeout=SECONDS, check=False)
            except subprocess.TimeoutExpired:
                raise NotModelled from None
        if ended.returncode == NO_MEMORY:
            raise NotModelled
        ended.check_returncode()
        return read_formula(ended.stdout)


def is_side(program: Path | None) -> bool:
    """Whether it is `pg_side`, which takes the name of the program that is meant as its first word."""
    return program is not None and program.name == "pg_side"


def asking(program: Path) -> list[str | Path]:
    """The words that begin a call."""
    return [program, "pg_dimacs"] if is_side(program) else [program]


def read_formula(text: bytes) -> list[Clause]:
    """The clauses of a formula: a line each that ends with 0; those of comments and the head are left out."""
    lines = [line.split() for line in text.splitlines() if line and line[:1] not in b"cp"]
    return [tuple(map(int, line[:-1])) for line in lines]
