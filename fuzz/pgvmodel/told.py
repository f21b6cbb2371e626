"""The text of a verdict, read back: what it answers to each question, how it concludes, and the states that it shows."""

import re
from collections.abc import Sequence
from dataclasses import dataclass
from typing import NamedTuple

from pgvmodel import tree
from pgvmodel.body import ProgramStatusWord
from pgvmodel.machine import CELLS_A_LINE, SUPERVISOR, USER, State, state_text
from pgvmodel.pairs import KINDS, PRIVILEGED
from pgvmodel.verdict import ACCEPTED, REFUSED, UNSETTLED

YES, NO, OPEN = "yes", "no", "open"

_SIZE = re.compile(r"size ([0-9]+)")
_PSW = re.compile(r"psw ([su]) ([0-9]+) ([0-9]+) ([0-9]+)")
_CELLS = re.compile(r"([0-9]+): ([0-9a-f ]+)")

Answers = dict[str, dict[str, str]]
"""YES, NO or OPEN by the instruction's name and the kind, in the order of both."""


class Strange(Exception):
    """The text is no verdict of the description."""


class Shown(NamedTuple):
    """A kind, and two states that are to show it."""

    kind: str
    states: tuple[State, State]


@dataclass(frozen=True)
class Told:
    """A verdict: its answers, the words of its conclusion, and the pairs behind it."""

    answers: Answers
    conclusion: tuple[str, ...]
    shown: tuple[Shown, ...]

    @property
    def status(self) -> int:
        """The status that goes with the conclusion."""
        return {"accepted": ACCEPTED, "refused": REFUSED, "open": UNSETTLED}[self.conclusion[0]]


def is_shown(kind: str, answer: str) -> bool:
    """Whether an answer says that two states show the kind; an open one says nothing."""
    return answer == (NO if kind == PRIVILEGED else YES)


def concluded(answers: Answers) -> tuple[tuple[str, ...], tuple[str, ...]]:
    """What the answers come to: the words of the conclusion, and the kinds that are shown behind it."""
    for name, row in answers.items():
        sensitive = [kind for kind in row if kind != PRIVILEGED and row[kind] == YES]
        if row[PRIVILEGED] == NO and sensitive:
            return ("refused", name), (PRIVILEGED, sensitive[0])
    for name, row in answers.items():
        if row[PRIVILEGED] != YES and any(row[kind] != NO for kind in row if kind != PRIVILEGED):
            return ("open", name, next(kind for kind in row if row[kind] == OPEN)), ()
    return ("accepted",), ()


def read_verdict(text: bytes, description: tree.Description, kinds: Sequence[str] = KINDS) -> Told:
    """Reads a verdict over kinds of one family; raises Strange where it has not the one spelling of what it says."""
    try:
        lines = text.decode("ascii").splitlines()
    except UnicodeDecodeError:
        raise Strange("it has bytes that are none of ASCII") from None
    names = [instruction.name for instruction in description.instructions]
    answers = {name: _row(name, line, kinds) for name, line in zip(names, lines)}
    rest = lines[len(names) :]
    if len(answers) != len(names) or not rest:
        raise Strange("it ends before its conclusion")
    told = Told(answers, tuple(rest[0].split(" ")), tuple(_pairs(rest[1:], kinds)))
    if spelled(told, description.word).encode() != text:
        raise Strange("it is not the one spelling of what it says")
    if told.conclusion[0] not in ("accepted", "refused", "open"):
        raise Strange("it has another conclusion")
    return told


def spelled(told: Told, word: int) -> str:
    """The text of a verdict."""
    lines = [" ".join([name, *(f"{kind} {answer}" for kind, answer in row.items())]) for name, row in told.answers.items()]
    text = "".join(line + "\n" for line in (*lines, " ".join(told.conclusion)))
    return text + "".join(f"{kind}\n" + "".join(state_text(state, word) for state in states) for kind, states in told.shown)


def _row(name: str, line: str, kinds: Sequence[str]) -> dict[str, str]:
    """The answers of a line."""
    first, *words = line.split(" ")
    row = dict(zip(words[::2], words[1::2]))
    if first != name or tuple(row) != tuple(kinds) or any(answer not in (YES, NO, OPEN) for answer in row.values()):
        raise Strange(f"it has the line {line!r}")
    return row


def _pairs(lines: Sequence[str], kinds: Sequence[str]) -> list[Shown]:
    """Kinds, each with two states."""
    pairs = []
    rest = list(lines)
    while rest:
        kind = rest.pop(0)
        if kind not in kinds:
            raise Strange(f"it has the line {kind!r}")
        pairs.append(Shown(kind, (_state(rest), _state(rest))))
    return pairs


def _state(rest: list[str]) -> State:
    """The state whose lines come next, which are taken away."""
    size = _SIZE.fullmatch(rest.pop(0)) if rest else None
    psw = _PSW.fullmatch(rest.pop(0)) if rest else None
    if size is None or psw is None:
        raise Strange("it has no state where one is due")
    cells = [0] * int(size[1])
    while rest and (row := _CELLS.fullmatch(rest[0])):
        first, words = int(row[1]), [int(word, 16) for word in row[2].split()]
        if first % CELLS_A_LINE or first + len(words) > len(cells):
            raise Strange(f"it has the line {rest[0]!r}")
        cells[first : first + len(words)] = words
        rest.pop(0)
    mode = USER if psw[1] == "u" else SUPERVISOR
    return State(cells, ProgramStatusWord(mode, *(int(psw[i]) for i in (2, 3, 4))))
