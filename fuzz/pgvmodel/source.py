"""Sources: an image in words that people write, by the names of a machine's instructions and fields; and an image as a source."""

import re
from collections.abc import Sequence
from dataclasses import dataclass
from functools import cache, partial
from typing import NamedTuple

from pgvmodel import tree
from pgvmodel.body import mask
from pgvmodel.faults import Fault
from pgvmodel.tokens import LONGEST_WORD, NUMBERS, RESERVED

MOST_BYTES = 1_048_576
"""Most bytes of a source's file."""

FIRST_PLACE = 2
"""Cells 0 and 1 belong to traps, so words go behind them where nothing else is said."""

FREE = "."
"""A place of a pattern that may be any bit."""

_STRANGE = re.compile(rb"[^A-Za-z0-9_=:@ \t\r]")
_PART = re.compile(r"[^ \t\r]+")
_NAME = re.compile(rf"[A-Za-z][A-Za-z0-9_]{{0,{LONGEST_WORD - 1}}}")
_MOVE = re.compile(r"@([0-9]{1,7})")
_FIELD = re.compile(r"([a-z])=(.*)")
_DECIMAL = re.compile(r"0*([0-9]{1,20})")


@dataclass(frozen=True)
class Move:
    """`@N`: the place of the next word."""

    place: int


@dataclass(frozen=True)
class Label:
    """`NAME:`, a name for the place that is reached."""

    name: str


@dataclass(frozen=True)
class Plain:
    """`word H`."""

    word: int


@dataclass(frozen=True)
class Code:
    """An instruction's name, and letters with a number or a label each."""

    name: str
    values: tuple[tuple[str, int | str], ...]


Form = Move | Label | Plain | Code


class Line(NamedTuple):
    """A line that is not blank, its number from 1, and the place that is reached before it."""

    number: int
    place: int
    form: Form


def assembled(description: tree.Description, text: bytes, size: int) -> list[int]:
    """The cells of a storage of `size` cells; 0 where the source gives none.

    Refuses `long`; else the first strange byte; else the first line that has none of the forms; else the first line at fault.
    """
    if len(text) > MOST_BYTES:
        raise Fault("long")
    lines = _placed([_form(number, line, description.word) for number, line in enumerate(_without_comments(text), 1)])
    labels: dict[str, Line] = {}
    for line in lines:
        if isinstance(line.form, Label):
            labels.setdefault(line.form.name, line)
    source = _Source(description, {name: line.place for name, line in labels.items()}, [0] * size)
    for line in lines:
        if isinstance(line.form, Label) and labels[line.form.name] is not line:
            raise Fault(f"label {line.number}")
        if isinstance(line.form, Plain | Code):
            source.give(line)
    return source.cells


def _without_comments(text: bytes) -> list[str]:
    """The lines, each up to its `#`; refuses a byte that may not stand there."""
    lines = []
    begin = 0
    for line in text.split(b"\n"):
        kept = line.partition(b"#")[0]
        if strange := _STRANGE.search(kept):
            raise Fault(f"token {begin + strange.start()}")
        lines.append(kept.decode("ascii"))
        begin += len(line) + 1
    return lines


def _form(number: int, line: str, word: int) -> Form | None:
    """What a line says, which may be nothing."""
    parts = _PART.findall(line)
    form = _form_of(parts, word // 4) if parts else None
    if parts and form is None:
        raise Fault(f"grammar {number}")
    return form


def _form_of(parts: Sequence[str], digits: int) -> Form | None:
    """None where the parts have none of the forms."""
    first, *rest = parts
    if first == "word":
        is_one = len(rest) == 1 and re.fullmatch(f"[0-9A-Fa-f]{{{digits}}}", rest[0])
        return Plain(int(rest[0], 16)) if is_one else None
    if _is_name(first):
        values = [_value(part) for part in rest]
        return None if None in values else Code(first, tuple(values))
    if rest:
        return None
    if move := _MOVE.fullmatch(first):
        return Move(int(move[1]))
    return Label(first[:-1]) if first.endswith(":") and _is_name(first[:-1]) else None


def _is_name(part: str) -> bool:
    """Whether a part may be the name of an instruction or of a label."""
    return _NAME.fullmatch(part) is not None and part not in RESERVED


def _value(part: str) -> tuple[str, int | str] | None:
    """A letter, and the number or label behind it."""
    found = _FIELD.fullmatch(part)
    if found is None:
        return None
    letter, spelled = found.groups()
    number = _DECIMAL.fullmatch(spelled)
    if number and int(number[1]) < NUMBERS:
        return letter, int(number[1])
    return (letter, spelled) if _is_name(spelled) else None


def _placed(forms: Sequence[Form | None]) -> list[Line]:
    """The lines that say something, with their places: each word moves the place on by one, whether it is a right one or not."""
    lines = []
    place = FIRST_PLACE
    for number, form in enumerate(forms, 1):
        if form is not None:
            lines.append(Line(number, place, form))
        if isinstance(form, Move):
            place = form.place
        elif isinstance(form, Plain | Code):
            place += 1
    return lines


@dataclass
class _Source:
    """What is known of a source's names, and the cells that its lines have given."""

    description: tree.Description
    labels: dict[str, int]
    cells: list[int]

    def __post_init__(self) -> None:
        self.instructions = {instruction.name: instruction for instruction in self.description.instructions}
        self.given: set[int] = set()

    def give(self, line: Line) -> None:
        """A line's word goes to its place, which no earlier line gave; of several faults the line's own are told first."""
        word = line.form.word if isinstance(line.form, Plain) else self.word(line.number, line.form)
        if line.place >= len(self.cells):
            raise Fault(f"place {line.number}")
        if line.place in self.given:
            raise Fault(f"overlap {line.number}")
        self.given.add(line.place)
        self.cells[line.place] = word

    def word(self, number: int, code: Code) -> int:
        """The word of an instruction. Tried are the name, the fields, the labels, and how large the values are."""
        instruction = self.instructions.get(code.name)
        if instruction is None:
            raise Fault(f"name {number}")
        fields = fields_of(instruction.pattern)
        if [letter for letter, _ in code.values] != fields:
            raise Fault(f"field {number}")
        if any(isinstance(value, str) and value not in self.labels for _, value in code.values):
            raise Fault(f"label {number}")
        values = {letter: self.labels[value] if isinstance(value, str) else value for letter, value in code.values}
        if any(value > mask(instruction.pattern.count(letter)) for letter, value in values.items()):
            raise Fault(f"range {number}")
        return word_of(instruction.pattern, values)


def fields_of(pattern: str) -> list[str]:
    """The letters of a pattern, from the highest."""
    return list(dict.fromkeys(filter(tree.is_field, pattern)))


def word_of(pattern: str, values: dict[str, int]) -> int:
    """The word that a pattern becomes with these values; what is free is 0."""
    bits = pattern.replace(FREE, "0")
    for letter, value in values.items():
        width = pattern.count(letter)
        bits = bits.replace(letter * width, f"{value:0{width}b}")
    return int(bits, 2)


def decoded(description: tree.Description, word: int) -> tuple[tree.Instruction, dict[str, int]] | None:
    """The instruction that a word means, and what its fields hold, from the highest."""
    bits = f"{word:0{description.word}b}"
    for instruction in description.instructions:
        pattern = instruction.pattern
        if all(place == bit for place, bit in zip(pattern, bits) if place in "01"):
            held = {letter: [bit for place, bit in zip(pattern, bits) if place == letter] for letter in fields_of(pattern)}
            return instruction, {letter: int("".join(digits), 2) for letter, digits in held.items()}
    return None


def disassembled(description: tree.Description, cells: Sequence[int]) -> str:
    """A source of these cells: for each that is not zero its place, and the instruction or the word that it has."""
    spelled = cache(partial(_spelled, description))
    return "".join(f"@{place}\n{spelled(word)}\n" for place, word in enumerate(cells) if word)


def _spelled(description: tree.Description, word: int) -> str:
    """A word as an instruction, where that says all of its bits, and else in digits."""
    meaning = decoded(description, word)
    if meaning is None or word_of(meaning[0].pattern, meaning[1]) != word:
        return f"word {word:0{description.word // 4}x}"
    instruction, values = meaning
    return " ".join([instruction.name, *(f"{letter}={value}" for letter, value in values.items())])


def listed(description: tree.Description, cells: Sequence[int]) -> str:
    """An image of these cells: a line for each that is not zero."""
    return "".join(f"{place}: {word:0{description.word // 4}x}\n" for place, word in enumerate(cells) if word)
