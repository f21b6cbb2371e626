"""The lines of a certificate, each of which has one spelling.

One space stands between parts, and decimal numbers have no leading zeros.
"""

import re
from collections.abc import Sequence
from dataclasses import dataclass

from pgvmodel import tree
from pgvmodel.body import ProgramStatusWord
from pgvmodel.clauses import Step
from pgvmodel.families import PURE, Family
from pgvmodel.machine import CELLS_A_LINE, SUPERVISOR, USER

REFUTED, SHOWN, SPENT = "refuted", "shown", "spent"

MOST_SPENT = 1_000_000
"""Most steps that a finding may be open after."""

VARIABLES = 1 << 31
"""A variable of a literal is below this."""

CLAUSE_NUMBERS = 1 << 32
"""A clause's number is below this."""

LEAST_CELLS = 2

_TEN_DIGITS = r"[1-9][0-9]{0,9}"
_NUMBER = rf"0|{_TEN_DIGITS}"
_VERSION = re.compile(r"0|[1-9][0-9]*")
_HEADER = re.compile(
    rf"finding ([A-Za-z][A-Za-z0-9_]{{0,31}}) ([a-z]+) (?:({REFUTED}|{SHOWN})|{SPENT} ({_TEN_DIGITS}))"
)
_LITERAL = re.compile(rf"-?{_TEN_DIGITS}")
_POSITIVE = re.compile(_TEN_DIGITS)
_SIZE = re.compile(rf"size ({_TEN_DIGITS})")
_PSW = re.compile(rf"psw ([su]) ({_NUMBER}) ({_NUMBER}) ({_NUMBER})")
_PLACE = re.compile(rf"({_NUMBER}):")


@dataclass(frozen=True)
class Version:
    """The first line; the digits of a number of any length."""

    digits: str


@dataclass(frozen=True)
class Header:
    """What is found of a kind of an instruction, and after how many steps where it is spent."""

    name: str
    kind: str
    found: str
    budget: int = 0


@dataclass(frozen=True)
class Removal:
    """Clauses are taken away."""

    numbers: tuple[int, ...]


@dataclass(frozen=True)
class Size:
    """The cells of a state that begins here."""

    cells: int


@dataclass(frozen=True)
class Status:
    """The program status word of a state."""

    psw: ProgramStatusWord


@dataclass(frozen=True)
class Cells:
    """The words of a few cells of a state, from a first one on."""

    first: int
    words: tuple[int, ...]


@dataclass(frozen=True)
class End:
    """The last line."""


Line = Version | Header | Step | Removal | Size | Status | Cells | End


class NoForm(Exception):
    """A line has none of the forms, or a number out of range."""


def _ask(fits: object) -> None:
    if not fits:
        raise NoForm


def parsed(text: str, shape: tree.Description, family: Family = PURE) -> Line:
    """What a line says, which is handed in without its line feed; raises NoForm, also where it is one of the other family.

    How many words a line of cells has is not asked here: that rests on the state's size.
    """
    first, *parts = text.split(" ")
    if first == family.word:
        return _version(parts)
    match first:
        case "finding":
            return _header(text, family)
        case "s":
            return _step(parts)
        case "d":
            return _removal(parts)
        case "size":
            return _size(text, shape)
        case "psw":
            return _status(text, shape)
    if text == "end":
        return End()
    return _cells(first, parts, shape)


def _version(parts: list[str]) -> Version:
    """A number of any length."""
    _ask(len(parts) == 1 and _VERSION.fullmatch(parts[0]))
    return Version(parts[0])


def _header(text: str, family: Family) -> Header:
    found = _HEADER.fullmatch(text)
    _ask(found and found[2] in family.kinds)
    name, kind, plain, budget = found.groups()
    if plain:
        return Header(name, kind, plain)
    _ask(int(budget) <= MOST_SPENT)
    return Header(name, kind, SPENT, int(budget))


def _step(parts: list[str]) -> Step:
    """Literals by ascending variables, a 0, hints and another 0."""
    _ask("0" in parts)
    middle = parts.index("0")
    spelled, hints = parts[:middle], parts[middle + 1 :]
    _ask(all(map(_LITERAL.fullmatch, spelled)))
    literals = tuple(map(int, spelled))
    variables = [abs(literal) for literal in literals]
    _ask(_ascends(variables) and all(variable < VARIABLES for variable in variables))
    return Step(literals, _numbers(hints))


def _removal(parts: list[str]) -> Removal:
    """One or more ascending numbers and a 0."""
    numbers = _numbers(parts)
    _ask(numbers and _ascends(numbers))
    return Removal(numbers)


def _numbers(parts: list[str]) -> tuple[int, ...]:
    """Numbers of clauses, and a 0 behind them."""
    _ask(parts and parts[-1] == "0" and all(map(_POSITIVE.fullmatch, parts[:-1])))
    numbers = tuple(map(int, parts[:-1]))
    _ask(all(number < CLAUSE_NUMBERS for number in numbers))
    return numbers


def _ascends(numbers: Sequence[int]) -> bool:
    """Whether each number is greater than the one before it."""
    return all(before < after for before, after in zip(numbers, numbers[1:]))


def _size(text: str, shape: tree.Description) -> Size:
    """From two cells to the machine's greatest size."""
    found = _SIZE.fullmatch(text)
    _ask(found and LEAST_CELLS <= int(found[1]) <= shape.size)
    return Size(int(found[1]))


def _status(text: str, shape: tree.Description) -> Status:
    """P, l and b are addresses."""
    found = _PSW.fullmatch(text)
    _ask(found)
    p, l, b = (int(found[i]) for i in (2, 3, 4))
    _ask(max(p, l, b) < 1 << shape.address)
    return Status(ProgramStatusWord(USER if found[1] == "u" else SUPERVISOR, p, l, b))


def _cells(first: str, parts: list[str], shape: tree.Description) -> Cells:
    """The words of a line of a state text have lower-case digits, and are not all zero."""
    place = _PLACE.fullmatch(first)
    _ask(place and int(place[1]) % CELLS_A_LINE == 0)
    digits = shape.word // 4
    _ask(all(re.fullmatch(f"[0-9a-f]{{{digits}}}", part) for part in parts))
    words = tuple(int(part, 16) for part in parts)
    _ask(any(words))
    return Cells(int(place[1]), words)
