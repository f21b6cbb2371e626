"""Saved guests as texts: of any states, with edits, broken off anywhere, and with odd lines."""

from random import Random

from inputs.case import Case, resuming
from inputs.images import GuestImageWriter
from inputs.snippets import NO_FINDINGS
from pgvmodel import tree
from pgvmodel.body import ProgramStatusWord, mask
from pgvmodel.image import read_image
from pgvmodel.machine import SUPERVISOR, USER, State
from pgvmodel.saved import MOST_STEPS, Saved, saved_text

BARE_MACHINE = b"machine { word 32; address 8; size 64; }"
"""One without instructions, which needs no certificate to be made: so a text that is read is written again."""


def random_state(rng: Random, description: tree.Description, size: int) -> State:
    """Any state of a machine with so many cells, or as many as it has; some have few cells that are not zero."""
    size = max(2, min(size, description.size))
    cells = read_image(GuestImageWriter(rng, description, size).image(), description.word, size)
    if rng.random() < 0.3:
        cells = [word if rng.random() < 0.15 else 0 for word in cells]
    top = mask(description.address)
    p, l, b = rng.choice([0, 2, 3, 4]), rng.choice([0, 0, 0, 1, 2, size - 1]), rng.choice([size, size, size - 1, top, 4])
    if rng.random() < 0.2:
        p, l, b = (rng.getrandbits(description.address) for _ in range(3))
    return State(cells, ProgramStatusWord(rng.choice([SUPERVISOR, USER]), p & top, l & top, b & top))


def spoiled_text(rng: Random, text: bytes, description: tree.Description) -> bytes:
    """A saved guest's text with one to three edits."""
    for _ in range(rng.choice([1, 1, 1, 2, 3])):
        edit = rng.choices([_line_edit, _byte_edit, _number_edit, _cut_off, _odd_line], [30, 25, 30, 5, 10])[0]
        text = edit(rng, text, description)
    return text


def _line_edit(rng: Random, text: bytes, _description: tree.Description) -> bytes:
    """A line is left out, doubled, exchanged with its neighbour, or moved."""
    lines = text.splitlines(keepends=True)
    if not lines:
        return text
    i = rng.randrange(len(lines))
    kind = rng.choice(["drop", "double", "exchange", "move"])
    if kind == "exchange":
        lines[i : i + 2] = lines[i : i + 2][::-1]
    elif kind == "double":
        lines.insert(i, lines[i])
    else:
        line = lines.pop(i)
        if kind == "move":
            lines.insert(rng.randint(0, len(lines)), line)
    return b"".join(lines)


USUAL = b"0123456789abcdefABCDEF :psuwizetndg\n\r\t"


def _byte_edit(rng: Random, text: bytes, _description: tree.Description) -> bytes:
    place = rng.randint(0, len(text))
    kind = rng.choices(["drop", "any", "usual"], [30, 25, 45])[0]
    if kind == "drop":
        return text[:place] + text[place + 1 :]
    byte = rng.choice(USUAL) if kind == "usual" else rng.choice([0, 9, 31, 32, 126, 127, 128, 255, rng.randint(0, 255)])
    return text[:place] + bytes([byte]) + text[place + rng.randint(0, 1) :]


def _cut_off(rng: Random, text: bytes, _description: tree.Description) -> bytes:
    return text[: rng.randint(0, len(text))]


def _number_edit(rng: Random, text: bytes, description: tree.Description) -> bytes:
    """A part of a line is another number, at an edge, or has zeros before it, or is in upper case."""
    lines = text.split(b"\n")
    i = rng.randrange(min(len(lines), rng.choice([4, 5, len(lines)])))
    parts = lines[i].split(b" ")
    k = rng.randrange(len(parts))
    top, size = mask(description.address), description.size
    edges = [0, 1, 2, 3, 7, 8, 16, size - 1, size, size + 1, top, top + 1, MOST_STEPS, MOST_STEPS + 1, 1 << 64]
    kind = rng.choices(["edge", "zero", "upper", "mode", "near"], [50, 15, 10, 5, 20])[0]
    if kind == "edge":
        parts[k] = b"%d" % rng.choice(edges) + b":" * parts[k].endswith(b":")
    elif kind == "zero":
        parts[k] = b"0" + parts[k]
    elif kind == "upper":
        parts[k] = parts[k].upper()
    elif kind == "mode":
        parts[k] = rng.choice([b"s", b"u", b"S", b"x"])
    elif parts[k].rstrip(b":").isdigit():
        parts[k] = b"%d" % max(0, int(parts[k].rstrip(b":")) + rng.choice([-8, -1, 1, 8])) + b":" * parts[k].endswith(b":")
    lines[i] = b" ".join(parts)
    return b"\n".join(lines)


def _odd_line(rng: Random, text: bytes, _description: tree.Description) -> bytes:
    lines = text.split(b"\n")
    lines.insert(rng.randint(0, len(lines)), rng.choice(ODD_LINES))
    return b"\n".join(lines)


ROW = b"00000001 " * 7 + b"00000001"
ZEROS = b"00000000 " * 7 + b"00000000"

ODD_BY_PLACE = (
    (
        *(b"", b" ", b"\r", b"\t", b"#", b"\x7f", b"\x80", b"pgguest 1\r", b"\x00", b"pgguest 1", b"pgguest 0", b"pgguest 2"),
        *(b"pgguest 01", b"pgguest 10", b"pgguest", b"pgguest ", b"pgguest  1", b"pgguest 1 ", b"pgguest -1", b"pgguest +1"),
        *(b"pgguest 1 2", b"pgguest x", b"pgguest " + b"9" * 40, b"Pgguest 1", b"pgcert 1", b"pgcert 2", b"pghybrid 1", b"guest 0"),
        *(b" pgguest 1", b"pgguest 2\x7f", b"pgguest 4294967297", b"pgguest 18446744073709551617"),
    ),
    (
        *(b"steps 0", b"steps 3", b"steps 1000000000", b"steps 1000000001", b"steps 00", b"steps 03", b"steps", b"steps ", b"steps -1"),
        *(b"steps +3", b"steps  3", b"steps 3 ", b"steps 3 direct 2", b"steps 0x3", b"steps 4294967296", b"steps 18446744073709551616"),
        *(b"steps 18446744073709551619", b"steps 9999999999", b"Steps 3", b"total 3"),
    ),
    (
        *(b"size 16", b"size 2", b"size 1", b"size 0", b"size 64", b"size 65", b"size 016", b"size", b"size 16 ", b"size  16"),
        *(b"size -16", b"size 12", b"size 63", b"size 255", b"size 256", b"size 4294967312", b"size 18446744073709551632"),
    ),
    (
        *(b"psw s 3 0 16", b"psw u 3 0 16", b"psw s 255 255 255", b"psw s 256 0 16", b"psw s 3 256 16", b"psw s 3 0 256", b"psw s 3 0"),
        *(b"psw s 3 0 16 0", b"psw x 3 0 16", b"psw S 3 0 16", b"psw 0 3 0 16", b"psw s 03 0 16", b"psw s 3 00 16", b"psw s 3 0 016"),
        *(b"psw s  3 0 16", b"psw s 3 0 16 ", b"psw", b"psw s 4294967299 0 16", b"psw s -3 0 16"),
    ),
    (
        *(b"0: " + ROW, b"8: " + ROW, b"16: " + ROW, b"4: " + ROW, b"1: " + ROW, b"00: " + ROW, b"08: " + ROW, b"0: " + ZEROS),
        *(b"8: " + ZEROS, b"0: " + ROW + b" 00000001", b"0: " + ROW[:-9], b"0: " + ROW + b" ", b"0:  " + ROW, b"0:" + ROW),
        *(b"0 : " + ROW, b"0: " + ROW.replace(b" ", b"  ", 1), b"0: " + ROW[:-1], b"0: " + ROW[:-1] + b"A", b"0: " + ROW[:-1] + b"a"),
        *(b"0: " + ROW + b"0", b"0: " + ROW[:-1] + b"g", b" 0: " + ROW, b"-0: " + ROW, b"0:", b"0: ", b"8:", b"24: " + ROW),
        *(b"4294967296: " + ROW, b"18446744073709551616: " + ROW, b"0: 00000001", b"8: 00000001 00000000", b"0: " + ROW + b"\n0: " + ROW),
        *(b"0: " + ROW + b"\n4: " + ROW, b"8: " + ROW + b"\n0: " + ROW),
    ),
    (b"8: " + ROW, b"8: " + ROW + b"\n8: " + ROW, b"8: " + ROW + b"\n16: " + ROW, b"0: " + ROW, b"16: " + ROW, b"12: " + ROW),
    (b"end", b"End", b"end ", b" end", b"ends", b"en", b"end end", b"end\nend", b"end\n", b"end\n\x80"),
)
"""For each line of FULL such as may stand in its place, and such as may not."""

ODD_LINES = tuple(line for lines in ODD_BY_PLACE for line in lines)

FULL = saved_text(
    Saved(3, State([6, 0, 0x01000404, 0x02000002, 3, 0, 0, 0, 0, 0, 0, 0, 0, 0, 0, 0xFF], ProgramStatusWord(SUPERVISOR, 3, 0, 16))),
    32,
)
"""A guest of BARE_MACHINE, with all lines that it may have."""


def _resumed(text: bytes) -> Case:
    return resuming(BARE_MACHINE, NO_FINDINGS, text, 0)


def fronts() -> list[Case]:
    """A text broken off at each byte, and what may stand behind it."""
    texts = [FULL[:end] for end in range(len(FULL) + 1)]
    return [_resumed(text) for text in (*texts, *(FULL + more for more in (b"\n", b" ", b"\r\n", b"end\n", b"end", b"\x80", FULL)))]


def odd_lines() -> list[Case]:
    """Lines that may stand in the place of a line, or nearly."""
    lines = FULL.split(b"\n")
    texts = [b"\n".join([*lines[:i], odd, *lines[i + 1 :]]) for i, odds in enumerate(ODD_BY_PLACE) for odd in odds]
    texts += [FULL.replace(b"size 16", b"size %d" % size) for size in (2, 3, 7, 8, 9, 12, 15, 17, 64)]
    return [_resumed(text) for text in texts]


def misplaced_lines() -> list[Case]:
    """Each odd line in place of each line and before it."""
    lines = FULL.split(b"\n")
    texts = [b"\n".join([*lines[:i], odd, *lines[i + more :]]) for i in range(len(lines)) for odd in ODD_LINES for more in (0, 1)]
    return [_resumed(text) for text in texts]


def tampered() -> list[Case]:
    """The text with each line left out, doubled and exchanged with its neighbour, and each byte changed in a few ways."""
    lines = FULL.splitlines(keepends=True)
    texts = []
    for i in range(len(lines)):
        texts += [b"".join(lines[:i] + lines[i + 1 :]), b"".join(lines[: i + 1] + lines[i:])]
        texts.append(b"".join([*lines[:i], *lines[i : i + 2][::-1], *lines[i + 2 :]]))
    for place in range(len(FULL)):
        for byte in (*b" 0159af:\n\r", FULL[place] ^ 1, FULL[place] ^ 32, FULL[place] ^ 128, 127):
            texts.append(FULL[:place] + bytes([byte]) + FULL[place + 1 :])
        texts += [FULL[:place] + FULL[place + 1 :], FULL[:place] + FULL[place : place + 1] + FULL[place:]]
    return [_resumed(text) for text in dict.fromkeys(texts)]


def largest() -> list[Case]:
    """Files of the most bytes there are, and one more; and the most cells, whose text is within them."""
    most = 33_554_432
    head = b"machine { word 64; address 20; size 1048575; }"
    cells = [mask(64)] * 1_048_573
    whole = saved_text(Saved(MOST_STEPS, State(cells, ProgramStatusWord(USER, mask(20), mask(20), mask(20)))), 64)
    texts = [b"\n" * most, b"\n" * (most + 1), FULL + b" " * (most - len(FULL)), FULL + b" " * (most + 1 - len(FULL)), whole]
    return [resuming(head, NO_FINDINGS, text, 0, skip) for text in texts for skip in (None, 1)]
