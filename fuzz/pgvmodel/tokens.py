"""A description's text, cut into tokens from the left, the longest token first."""

import re
from enum import Enum, auto
from typing import NamedTuple

from pgvmodel.faults import Fault

LONGEST_WORD = 32
"""Most bytes of a word."""

NUMBERS = 1 << 64
"""A number is below this."""

RESERVED = frozenset(
    "machine word address size causes instr let mem pc mode rel bound trap if else cat cut ext sext sel".split()
)
"""Words that are no names."""


class Kind(Enum):
    """What a token is; the end of a text is given a kind too, for the reader."""

    WORD = auto()
    NUMBER = auto()
    PATTERN = auto()
    SIGN = auto()
    END = auto()


class Token(NamedTuple):
    """A token and the bytes `place .. end` that it stands in.

    The value is the text of a word or sign, the number of a number, and the places `0 1 . a..z` of a pattern.
    """

    kind: Kind
    value: str | int
    place: int
    end: int


_SHAPES = re.compile(
    rb"(?P<BLANK>[ \t\r\n]+|\#[^\n]*)"
    rb"|(?P<WORD>[A-Za-z][A-Za-z0-9_]*)"
    rb"|(?P<NUMBER>[0-9][A-Za-z0-9_]*)"
    rb'|(?P<PATTERN>"[01._a-z]*")'
    rb"|(?P<SIGN>==|<<|>>|[{}()\[\];,:=~+*&|^<-])"
)
_DECIMAL = re.compile(rb"0*([0-9]{1,20})")
_HEXADECIMAL = re.compile(rb"0x([0-9A-Fa-f]{1,16})")


def _number(spelling: bytes) -> int | None:
    """The number that is spelt so: decimal with any zeros before it, or 0x and 1 to 16 digits; below 2^64."""
    if match := _DECIMAL.fullmatch(spelling):
        value = int(match[1])
    elif match := _HEXADECIMAL.fullmatch(spelling):
        value = int(match[1], 16)
    else:
        return None
    return value if value < NUMBERS else None


def _value(kind: Kind, spelling: bytes) -> str | int | None:
    """The value of a token that is spelt so, or None where it is no token."""
    if kind is Kind.NUMBER:
        return _number(spelling)
    if kind is Kind.PATTERN:
        return spelling[1:-1].replace(b"_", b"").decode()
    if kind is Kind.WORD and len(spelling) > LONGEST_WORD:
        return None
    return spelling.decode()


def tokens(text: bytes) -> list[Token]:
    """The tokens of a text; refuses `token PLACE` at the first byte that begins none."""
    found = []
    place = 0
    while place < len(text):
        match = _SHAPES.match(text, place)
        if match is None:
            raise Fault(f"token {place}")
        if match.lastgroup != "BLANK":
            kind = Kind[match.lastgroup]
            value = _value(kind, match[0])
            if value is None:
                raise Fault(f"token {place}")
            found.append(Token(kind, value, place, match.end()))
        place = match.end()
    return found
