"""Images: the first content of a storage, as text."""

import re
from typing import NamedTuple

from pgvmodel.faults import Fault

MOST_BYTES = 33_554_432
"""Most bytes of an image's file."""

_STRANGE = re.compile(rb"[^0-9A-Fa-f: \t\r\n]")
_PART = re.compile(rb"[^ \t\r]+")
_AT = re.compile(rb"([0-9]{1,7}):")


class _Line(NamedTuple):
    """Words for the cells from `at` on; `number` counts the lines of the text from 1."""

    number: int
    at: int
    words: list[int]


def read_image(text: bytes, word: int, size: int) -> list[int]:
    """The cells of a storage of `size` cells of `word` bits; 0 where the image gives none.

    Refuses `long`; else the first strange byte; else the first line of another form; else the first line that reaches past
    the size or gives a cell again, and of one that does both it says the former.
    """
    if len(text) > MOST_BYTES:
        raise Fault("long")
    lines = [_parsed(number, line, word // 4) for number, line in enumerate(_without_comments(text), 1)]
    cells = [0] * size
    given: set[int] = set()
    for number, at, words in filter(None, lines):
        places = range(at, at + len(words))
        if places.stop > size:
            raise Fault(f"address {number}")
        if not given.isdisjoint(places):
            raise Fault(f"overlap {number}")
        given.update(places)
        cells[at : places.stop] = words
    return cells


def _without_comments(text: bytes) -> list[bytes]:
    """The lines, each up to its `#`; refuses a byte that may not stand there."""
    lines = []
    begin = 0
    for line in text.split(b"\n"):
        kept = line.partition(b"#")[0]
        if strange := _STRANGE.search(kept):
            raise Fault(f"token {begin + strange.start()}")
        lines.append(kept)
        begin += len(line) + 1
    return lines


def _parsed(number: int, line: bytes, digits: int) -> _Line | None:
    """What a line gives: nothing, or an address with a colon right behind it, and words of so many digits."""
    parts = _PART.findall(line)
    if not parts:
        return None
    at = _AT.fullmatch(parts[0])
    words = parts[1:]
    if at is None or not words or any(len(part) != digits or b":" in part for part in words):
        raise Fault(f"grammar {number}")
    return _Line(number, int(at[1]), [int(part, 16) for part in words])
