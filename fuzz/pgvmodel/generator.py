"""What `gen` makes of a number: a machine, and four guests of it, with all that is chosen taken from a row of draws."""

from collections.abc import Iterator
from itertools import islice
from typing import NamedTuple

from pgvmodel import tree
from pgvmodel.machine import base_of, run_guest
from pgvmodel.reader import read
from pgvmodel.tokens import NUMBERS

HEAD = "machine { word 32; address 8; size 128; }"
FIELDS = "xxxxxxxxyyyyyyyyzzzzzzzz"
"""Three addresses of 8 bits, behind the 8 bits by which an instruction is told."""

BODIES = (
    "mem[x] = (mem[y] + mem[z]);",
    "mem[x] = (mem[y] ^ mem[z]);",
    "if (mem[y] == mem[z]) { pc = x; }",
    "trap;",
    "if mode { trap; } rel = x; bound = y;",
    "if mode { trap; } mem[x] = ext(rel, 32);",
)
"""The body that a draw chooses, by its rest."""

GUESTS, CELLS, TURNS = 4, 30, 1000
"""Guests, the cells of each, and how many turns each has. How many of them one after the other plays no part."""

ENTRY = 0x0002_001E
"""What a guest's traps load: supervisor mode, P 2, and all of its cells."""

ADDRESSES = 32
"""An address in an instruction is below this, so that a few are past the cells."""


class Generated(NamedTuple):
    """A machine, which of BODIES each of its instructions has, and the first cells of its guests."""

    description: tree.Description
    bodies: tuple[int, ...]
    images: tuple[tuple[int, ...], ...]


def draws(number: int) -> Iterator[int]:
    """Numbers of 32 bits without end: the upper halves of a row of 64 bits that begins behind `number`."""
    state = number
    while True:
        state = (state * 6364136223846793005 + 1442695040888963407) % NUMBERS
        yield state >> 32


def generated(number: int, size: int) -> Generated:
    """What is made of a number: bodies of `size` instructions are drawn first, then the cells of one guest after another."""
    drawn = draws(number)
    chosen = tuple(draw % len(BODIES) for draw in islice(drawn, size))
    instructions = (f' instr g{k} "{k + 1:08b}{FIELDS}" {{ {BODIES[body]} }}' for k, body in enumerate(chosen))
    description = read((HEAD + "".join(instructions)).encode())
    return Generated(description, chosen, tuple(_image(drawn, size) for _ in range(GUESTS)))


def _image(drawn: Iterator[int], size: int) -> tuple[int, ...]:
    """Cell 0 is empty, cell 1 has what traps load, and each other one is an instruction."""
    return 0, ENTRY, *(_word(*islice(drawn, 4), size) for _ in range(2, CELLS))


def _word(which: int, x: int, y: int, z: int, size: int) -> int:
    """The code of an instruction, which is one more than its number, and its addresses."""
    code = 1 + which % size
    return code << 24 | x % ADDRESSES << 16 | y % ADDRESSES << 8 | z % ADDRESSES


def run_text(made: Generated) -> str:
    """How many steps the guests took in all, and how many of them directly; then where each of them ended."""
    lines, all_direct = "", 0
    for number, image in enumerate(made.images):
        state, direct = run_guest(made.description, list(image), TURNS, base_of(number, CELLS))
        mode, p, l, b = state.psw
        lines += f"guest {number} psw {'su'[mode]} {p} {l} {b} sum {sum(state.cells) % (1 << 32):08x}\n"
        all_direct += direct
    return f"steps {GUESTS * TURNS} direct {all_direct}\n{lines}"
