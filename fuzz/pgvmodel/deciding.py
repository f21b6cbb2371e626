"""Whether a kind of an instruction can be shown at all: by a solver for formulas in SMT-LIB, where there is one.

What it finds is no more than a proposal: two states are made of it, which the model's machine then tries.
"""

import re
import subprocess
from enum import Enum
from pathlib import Path
from typing import NamedTuple

from pgvmodel.body import ProgramStatusWord
from pgvmodel.formula import Formula
from pgvmodel.machine import Machine, State
from pgvmodel.pairs import shows

SECONDS = 10
"""A question that takes the solver longer is left undecided."""

MORE_SECONDS = 5
"""What the solver has beyond that to stop by itself."""

_FOUND = re.compile(r"#x[0-9a-f]+|#b[01]+")

Pair = tuple[State, State]


class Answer(Enum):
    """Two states show the kind; or none do; or that is not known."""

    SHOWN = "shown"
    NEVER = "never"
    UNDECIDED = "undecided"


class Decision(NamedTuple):
    """An answer, and two states where they show the kind."""

    answer: Answer
    pair: Pair | None = None


class Solver:
    """A program that reads SMT-LIB from its standard input, as `z3 -in` does."""

    def __init__(self, program: Path, seconds: int = SECONDS) -> None:
        self.words = [program, f"-T:{seconds}", "-in"]
        self.seconds = seconds

    def decided(self, machine: Machine, number: int, kind: str) -> Decision:
        """Whether two states show the kind of the instruction of this number."""
        formula = Formula(machine, number, kind)
        found = self._solved(formula.text())
        if found is None:
            return Decision(Answer.UNDECIDED)
        if not found:
            return Decision(Answer.NEVER)
        pair = _states(found)
        if not shows(machine, number, kind, *pair):
            raise AssertionError(f"a solution for {kind} of instruction {number} does not show it: {pair}")
        return Decision(Answer.SHOWN, pair)

    def is_shown_by(self, machine: Machine, number: int, kind: str, pair: Pair) -> bool:
        """Whether the formula has a solution for these states, whose windows are equal."""
        return bool(self._solved(Formula(machine, number, kind).text_of(*pair), [1]))

    def _solved(self, text: str, unasked: list[int] | None = None) -> list[int] | None:
        """The numbers that the formula asks for, or `unasked` where it asks for none.

        None of them where it has no solution, and None where the solver does not know.
        """
        most = self.seconds + MORE_SECONDS
        try:
            ended = subprocess.run(self.words, input=text, capture_output=True, text=True, timeout=most, check=False)
        except subprocess.TimeoutExpired:
            return None
        answer, _, values = ended.stdout.partition("\n")
        if answer == "sat":
            return [int("0" + found[1:], 0) for found in _FOUND.findall(values)] or unasked
        if answer == "unsat":
            return []
        if answer in ("unknown", "timeout"):
            return None
        raise RuntimeError(f"the solver wrote {ended.stdout[:300]!r}")


def _states(found: list[int]) -> Pair:
    """The states of a solution, from the numbers that a formula asks for; cells that no run looked at are 0."""
    p, *rest = found
    registers, touched = [rest[0:4], rest[4:8]], list(zip(rest[8::2], rest[9::2], strict=True))
    return tuple(_state(ProgramStatusWord(mode, p, l, b), size, touched) for size, mode, l, b in registers)


def _state(psw: ProgramStatusWord, size: int, touched: list[tuple[int, int]]) -> State:
    cells = [0] * size
    length = min(psw.b, max(0, size - psw.l))
    for address, word in touched:
        if address < length:
            cells[psw.l + address] = word
    return State(cells, psw)
