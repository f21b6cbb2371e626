"""Saved guests: a guest's state and how many steps it has had, as a text that has one spelling."""

import re
from typing import NamedTuple

from pgvmodel import tree
from pgvmodel.body import ProgramStatusWord, mask
from pgvmodel.faults import Fault
from pgvmodel.machine import CELLS_A_LINE, SUPERVISOR, USER, State, state_text

MOST_BYTES = 33_554_432
"""Most bytes of a saved guest's file."""

MOST_STEPS = 1_000_000_000
"""Most steps that a saved guest may have had."""

LEAST_CELLS = 2

_FIRST_LINE = "pgguest 1"
_OTHER_VERSION = re.compile(r"pgguest (0|[1-9][0-9]*)")
_STEPS = re.compile(r"steps ([0-9]{1,10})")
_SIZE = re.compile(r"size ([0-9]{1,7})")
_PSW = re.compile(r"psw ([su]) ([0-9]{1,7}) ([0-9]{1,7}) ([0-9]{1,7})")
_CELLS = re.compile(r"([0-9]{1,7}): ([0-9a-f ]+)")
_STRANGE = re.compile(rb"[^\x20-\x7e]")


class Saved(NamedTuple):
    """A guest between two runs: the steps so far, and its state."""

    steps: int
    state: State


class _NoLine(Exception):
    """A line may not stand where it does."""


def saved_text(saved: Saved, word: int) -> bytes:
    """The one spelling of a saved guest of a machine with such words."""
    return f"{_FIRST_LINE}\nsteps {saved.steps}\n{state_text(saved.state, word)}end\n".encode()


def read_saved(text: bytes, shape: tree.Description) -> Saved:
    """A saved guest of a machine of this shape.

    Refuses `long`, before all else, or the first line at fault: one with a strange byte, or one that is not spelled as it has to
    be there; a text that ends before `end` is at fault in the line where that ought to stand.
    """
    if len(text) > MOST_BYTES:
        raise Fault("long")
    reader = _Reader(shape)
    *lines, rest = text.split(b"\n")
    for number, line in enumerate([*lines, rest] if rest else lines, 1):
        if _STRANGE.search(line):
            raise Fault(f"token {number}")
        try:
            reader.take(line.decode("ascii"), is_whole=number <= len(lines))
        except _NoLine:
            raise Fault(f"grammar {number}") from None
    if not reader.is_ended:
        raise Fault(f"grammar {len(lines) + 1}")
    return Saved(reader.steps, State(reader.cells, reader.psw))


class _Reader:
    """Takes the lines in order. A line is the right one where it is spelled as what it says is written."""

    def __init__(self, shape: tree.Description) -> None:
        self.shape = shape
        self.due = self.take_version
        self.steps = 0
        self.cells: list[int] = []
        self.psw = ProgramStatusWord(SUPERVISOR, 0, 0, 0)
        self.next_cell = 0
        self.is_ended = False

    def take(self, line: str, is_whole: bool) -> None:
        """A line without its line feed, which a whole one has behind it."""
        if not is_whole:
            raise _NoLine
        self.due(line)

    def take_version(self, line: str) -> None:
        if line != _FIRST_LINE:
            if _OTHER_VERSION.fullmatch(line):
                raise Fault("version 1")
            raise _NoLine
        self.due = self.take_steps

    def take_steps(self, line: str) -> None:
        (self.steps,) = _numbers(_STEPS, line)
        _ask(line == f"steps {self.steps}" and self.steps <= MOST_STEPS)
        self.due = self.take_size

    def take_size(self, line: str) -> None:
        (size,) = _numbers(_SIZE, line)
        _ask(line == f"size {size}" and LEAST_CELLS <= size <= self.shape.size)
        self.cells = [0] * size
        self.due = self.take_psw

    def take_psw(self, line: str) -> None:
        found = _PSW.fullmatch(line)
        _ask(found)
        p, l, b = (int(found[i]) for i in (2, 3, 4))
        _ask(line == f"psw {found[1]} {p} {l} {b}" and max(p, l, b) <= mask(self.shape.address))
        self.psw = ProgramStatusWord(USER if found[1] == "u" else SUPERVISOR, p, l, b)
        self.due = self.take_cells

    def take_cells(self, line: str) -> None:
        """A line of cells behind those before it, or the last line."""
        if line == "end":
            self.is_ended = True
            self.due = self.take_nothing
            return
        found = _CELLS.fullmatch(line)
        _ask(found)
        first = int(found[1])
        _ask(self.next_cell <= first < len(self.cells) and first % CELLS_A_LINE == 0)
        count = min(CELLS_A_LINE, len(self.cells) - first)
        digits = self.shape.word // 4
        words = [int(part, 16) for part in found[2].split()]
        _ask(any(words) and len(words) == count and max(words) <= mask(self.shape.word))
        _ask(line == f"{first}: " + " ".join(f"{word:0{digits}x}" for word in words))
        self.cells[first : first + count] = words
        self.next_cell = first + CELLS_A_LINE

    def take_nothing(self, _line: str) -> None:
        raise _NoLine


def _ask(fits: object) -> None:
    if not fits:
        raise _NoLine


def _numbers(form: re.Pattern[str], line: str) -> list[int]:
    """The numbers of a line, with any zeros before them."""
    found = form.fullmatch(line)
    _ask(found)
    return [int(number) for number in found.groups()]
