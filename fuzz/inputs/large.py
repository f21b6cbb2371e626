"""Files at their most bytes, storages of the most cells, and runs of the most steps; the model is slow on them."""

from collections.abc import Iterator

from inputs.case import Case, printing, running_bare, running_guests
from inputs.checker import Means
from inputs.command_lines import SMALL
from inputs.depths import openers
from inputs.guests import checked
from inputs.snippets import HEAD, many, one, sums
from pgvmodel import image, reader
from pgvmodel.body import mask
from pgvmodel.words import RANGES

MOST_CELLS = RANGES["grant"][-1]
MOST_STEPS = RANGES["steps"][-1]
GRANT = 8
LINE = b"2: 02000002\n"
WIDE_HEAD = b"machine { word 64; address 20; size %d; }" % MOST_CELLS
SPREAD = 0x9E3779B97F4A7C15
"""An odd number whose multiples spread over words of 64 bits."""


def large_descriptions() -> list[Case]:
    """Descriptions near the most bytes, of each kind of token; long rows of openers; many statements and expressions."""
    cases = [printing(text) for text in (*_long_descriptions(), *_full_descriptions())]
    for count in (1000, 20_000, 1_000_000):
        cases += openers(count)
    return cases


def _long_descriptions() -> Iterator[bytes]:
    for length in range(reader.MOST_BYTES - 1, reader.MOST_BYTES + 3):
        yield from (byte * length for byte in (b"\x00", b"~", b"a", b"1"))
        yield b'"' + b"0" * (length - 1)
        yield from (HEAD + byte * (length - len(HEAD)) for byte in (b" ", b"#"))
        yield HEAD[:-2] + b" " * (length - len(HEAD) + 2)
        before, behind = HEAD + b'instr i "', b'0000000000000000" {}'
        yield from (before + byte * (length - len(before) - len(behind)) + behind for byte in (b"0", b"_"))


def _full_descriptions() -> Iterator[bytes]:
    sum_of_eight = b"if 0:1 { bound = " + sums(8) + b"; } else { } "
    yield many(256, dict.fromkeys(range(256), b"mode = 1:1; " * 100))
    yield many(256, dict.fromkeys(range(256), sum_of_eight * 40))
    yield HEAD + b"".join(b'instr n%d "%016d" {}\n' % (i, int(f"{i:b}")) for i in range(20_000))
    for statement in (b"trap;", b"let a=0:1;", b"if 0:1{}else{}", b"mode=" + b"~" * 31 + b"mode;"):
        yield one(statement * (1_048_000 // len(statement)))


def large_images() -> list[Case]:
    """Images near the most bytes, and with a fault at their ends; every cell given, in order and backwards."""
    cases = [running_bare(SMALL, text, GRANT, 0) for text in _long_images()]
    in_rows = b"".join(_row(first) for first in range(0, MOST_CELLS, 8))
    backwards = b"".join(b"%d: %016x\n" % (i, i + 1) for i in range(MOST_CELLS - 1, -1, -1))
    for grant, text in (
        (MOST_CELLS, in_rows),
        (MOST_CELLS - 1, in_rows),
        (MOST_CELLS, backwards),
        (MOST_CELLS, backwards + b"5: " + b"0" * 16),
    ):
        cases.append(running_bare(WIDE_HEAD, text, grant, 0))
    return cases


def _row(first: int) -> bytes:
    cells = range(first, min(first + 8, MOST_CELLS))
    return b"%d: " % first + b" ".join(b"%016x" % (i * SPREAD & mask(64)) for i in cells) + b"\n"


def _long_images() -> Iterator[bytes]:
    for length in range(image.MOST_BYTES - 1, image.MOST_BYTES + 2):
        yield from (LINE + byte * (length - len(LINE)) for byte in (b" ", b"#"))
        yield from (byte * length for byte in (b"!", b"\n", b"a"))
        yield b"\n" * (length - 1) + b"a"
        yield b"2: " + b"02000002 " * ((length - 3) // 9)
    count = image.MOST_BYTES // len(LINE)
    yield LINE * count
    yield from (LINE * (count - 1) + last for last in (b"2: 0200000", b"2: 0200000!"))


PROGRAM, NOTHING = b"1: 00000705\n7: 01000000\n", b""
"""An image of which most steps are done, and one of which all trap."""


def long_runs() -> list[Case]:
    """The most steps, of a program and of traps, on a bare machine."""
    return [running_bare(SMALL, text, grant, MOST_STEPS) for text, grant in ((PROGRAM, 62), (NOTHING, GRANT))]


def long_guest_runs(means: Means) -> list[Case]:
    """The most steps of a guest alone, and many of several, with slices that are left out, short, and as long as the run."""
    certificate = checked(means, SMALL)
    return [
        running_guests(SMALL, certificate, [PROGRAM], 62, MOST_STEPS, "", "1"),
        running_guests(SMALL, certificate, [NOTHING, PROGRAM], GRANT, MOST_STEPS // 4, "1000000", "7"),
        running_guests(SMALL, certificate, [PROGRAM, NOTHING] * 3, GRANT, MOST_STEPS // 10, "1", ""),
    ]
