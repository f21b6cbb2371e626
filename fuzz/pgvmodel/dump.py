"""A value change dump, as IEEE 1364 has it: what is read from one, and what is wrong with one of a run.

Its head, the marks of its variables, how it breaks lines, and a `$dumpvars` around first values are free.
"""

import re
from collections.abc import Iterator
from typing import NamedTuple

Value = int | None
"""None is no value, an `x`."""


class Row(NamedTuple):
    """What stands at a time; the names are those of the variables."""

    mode: int
    P: int
    l: int
    b: int
    instr: Value
    cause: Value


class Dump(NamedTuple):
    """A row for each time, from 0 on. In the last one `cause` is of no step, and may be told as `x` or as 0."""

    rows: tuple[Row, ...]

    def complaints(self, text: bytes) -> Iterator[str]:
        """What is wrong with a text as the dump of these rows."""
        try:
            found = read_dump(text)
        except NoDump as why:
            yield f"no dump: {why}"
            return
        if sorted(found.widths) != sorted(Row._fields):
            yield f"variables {', '.join(sorted(found.widths))}"
            return
        values: dict[str, Value] = {}
        for time, row in enumerate(self.rows):
            for name, value in found.changes.pop(time, ()):
                if name in values and values[name] == value:
                    yield f"at {time} {name} is given, and is as before"
                values[name] = value
            is_last = time == len(self.rows) - 1
            for name, value in row._asdict().items():
                if values.get(name) != value and not (is_last and name == "cause" and values.get(name) == 0):
                    yield f"at {time} {name} is {values.get(name)}, and not {value}"
        if found.changes:
            yield f"times {', '.join(map(str, found.changes))} of {len(self.rows) - 1}"


class Found(NamedTuple):
    """What was read: the width of each variable, and of each time that stands there what is given, in order."""

    widths: dict[str, int]
    changes: dict[int, list[tuple[str, Value]]]


class NoDump(Exception):
    """The text is no value change dump of whole numbers."""


SKIPPED = ("$comment", "$date", "$version", "$timescale")

_VARIABLE = re.compile(r"(?:wire|reg|integer) ([1-9][0-9]*) ([!-~]+) (\S+?)(?: ?\[[0-9:]+\])?")


def read_dump(text: bytes) -> Found:
    """Reads a dump, of which no two variables have one name."""
    try:
        tokens = iter(text.decode("ascii").split())
    except UnicodeDecodeError:
        raise NoDump("a byte that is no ASCII") from None
    if not text.endswith(b"\n"):
        raise NoDump("the last line has no end")
    marks = _declared(tokens)
    widths = {name: width for name, width in marks.values()}
    if len(widths) != len(marks):
        raise NoDump("a name that stands twice")
    return Found(widths, dict(_changes(tokens, marks)))


def _declared(tokens: Iterator[str]) -> dict[str, tuple[str, int]]:
    """The variables by their marks, with their widths; up to the end of the definitions."""
    marks: dict[str, tuple[str, int]] = {}
    scopes = 0
    for token in tokens:
        parts = _to_end(tokens)
        if token == "$var":
            match = _VARIABLE.fullmatch(" ".join(parts))
            if match is None or match[2] in marks or not scopes:
                raise NoDump(f"variable {' '.join(parts)}")
            marks[match[2]] = match[3], int(match[1])
        elif token in ("$scope", "$upscope"):
            scopes += 1 if token == "$scope" else -1
            if scopes < 0 or len(parts) != (2 if token == "$scope" else 0):
                raise NoDump(f"{token} {' '.join(parts)}")
        elif token == "$enddefinitions":
            if parts or scopes:
                raise NoDump("the definitions end within a scope")
            return marks
        elif token not in SKIPPED:
            raise NoDump(f"definition {token}")
    raise NoDump("the definitions have no end")


def _to_end(tokens: Iterator[str]) -> list[str]:
    """The parts up to the next `$end`."""
    parts: list[str] = []
    for token in tokens:
        if token == "$end":
            return parts
        parts.append(token)
    raise NoDump("a part has no $end")


def _changes(tokens: Iterator[str], marks: dict[str, tuple[str, int]]) -> Iterator[tuple[int, list[tuple[str, Value]]]]:
    """Each time, which is later than those before it, and what is given behind it."""
    time, given = -1, []
    dumping = False
    for token in tokens:
        if re.fullmatch("#[0-9]+", token) and not dumping:
            if time >= 0:
                yield time, given
            if int(token[1:]) <= time:
                raise NoDump(f"time {token} behind {time}")
            time, given = int(token[1:]), []
        elif token == "$comment":
            _to_end(tokens)
        elif token in ("$dumpvars", "$end"):
            if dumping == (token == "$dumpvars"):
                raise NoDump(f"{token} that may not stand there")
            dumping = not dumping
        elif time < 0:
            raise NoDump(f"{token} before a time")
        else:
            bits, mark = (token[1:], next(tokens, "")) if token[0] in "bB" else (token[0], token[1:])
            if mark not in marks:
                raise NoDump(f"value {token} {mark}")
            given.append((marks[mark][0], _value(bits, marks[mark][1])))
    if dumping or time < 0:
        raise NoDump("no time, or $dumpvars without $end")
    yield time, given


def _value(bits: str, width: int) -> Value:
    """A number of so many bits; one `x` stands for all of them."""
    if bits in ("x", "X", "x" * width):
        return None
    if not re.fullmatch("[01]+", bits) or len(bits) > width:
        raise NoDump(f"value {bits} of {width} bits")
    return int(bits, 2)
