"""Images by lines: near a storage's size, with cells given twice, with several faults; and a list of odd lines."""

from collections.abc import Iterator
from itertools import product
from random import Random

from inputs.case import Case, running_bare, running_guests
from inputs.snippets import NO_FINDINGS
from pgvmodel.validity import WORD_WIDTHS

ODD_LINES = (
    b"2: 02000002", b"2:02000002", b"2 : 02000002", b": 02000002", b"2:", b"2: ", b"2", b"02000002", b"2: 2: 02000002",
    b"2: 02000002 3: 00000000", b"0000002: 02000002", b"00000002: 02000002", b"a: 02000002", b"0x2: 02000002", b"2: 0200000",
    b"2: 020000020", b"2: 0200 0002", b"2: ABCDEFab", b"2: 02000002#x", b"2: 02000002 # \x00\xff", b"2:\t02000002\r",
    b"\r2:\r02000002\r\r", b"\r", b"\t", b" ", b"", b"#", b"# 2: zz", b"2: 0200000g", b"-2: 02000002", b"+2: 02000002",
    b"7: 00000001", b"8: 00000001", b"7: 00000001 00000002", b"0: " + b"00000001 " * 8, b"0: " + b"00000001 " * 9,
    b"9999999: 00000001", b"1: 00000000", b"2: 00000000", b"3: 11111111", b"1: 00000001 00000002 00000003",
    b"2:2: 02000002", b"::", b":", b"2:: 02000002", b"\x0b2: 02000002", b"2: 02000002\x0c", b"2:#\n02000002",
    b"2: 02000002,", b"\xef\xbb\xbf2: 02000002", b"4294967298: 02000002", b"12345678: 00000001", b"f: 00000000",
    b"2: 02000002 \r 00000003", b"2\r: 02000002", b"2: :", b"2: 0:",
)
ODD_MACHINE = b"machine { word 32; address 8; size 64; }"
ODD_GRANT = 8


def odd_lines() -> list[Case]:
    """Each odd line alone, behind a comment, and with each other one."""
    texts = [*ODD_LINES, *(b"\n# c\n" + line + b"\n\n" for line in ODD_LINES)]
    texts += [first + b"\n" + second for first, second in product(ODD_LINES, repeat=2)]
    return [running_bare(ODD_MACHINE, text, ODD_GRANT, 0) for text in texts]


def edge_lines() -> list[Case]:
    """Words of each width with digits missing or left over; cells at each end of storages whose texts end a line."""
    return [*_digits(), *_single_cells()]


def _digits() -> Iterator[Case]:
    for word, more in product(WORD_WIDTHS, range(-2, 3)):
        head = b"machine { word %d; address 5; size 20; }" % word
        yield running_bare(head, b"2: " + b"f" * (word // 4 + more), ODD_GRANT, 0)


def _single_cells() -> Iterator[Case]:
    for grant in (2, 3, 7, 8, 9, 15, 16, 17, 63, 64):
        for at in sorted({0, 1, grant // 2, grant - 1}):
            yield running_bare(ODD_MACHINE, b"%d: 00000001" % at, grant, 0)


def storages_at_the_limit() -> list[Case]:
    """Storages of the most cells there are, and one cell over; bare, and the grants of one guest and of several."""
    most = 2**20 - 1
    zero, last = b"", b"%d: 0000000000000001"
    head = b"machine { word 64; address 20; size %d; }"
    alone = (
        (most, most, last % (most - 1)),
        (most, most, last % most),
        (most, most, last % (most - 1) + b" 0000000000000001"),
        (most, most, zero),
        (most - 1, most, zero),
    )
    free = most - 2
    third, eighth = free // 3, free // 8
    hosted = (
        (most, [zero]),
        (free, [zero]),
        (free, [last % (free - 1)]),
        (free, [last % free]),
        (third, [zero, zero, last % (third - 1)]),
        (third, [zero, last % third, zero]),
        (third + 1, [zero, zero, zero]),
        (eighth, [last % (eighth - 1 - i) for i in range(8)]),
        (eighth + 1, [zero] * 8),
        (most, [zero] * 8),
    )
    cases = [running_bare(head % size, image, grant, 3) for size, grant, image in alone]
    return cases + [running_guests(head % most, NO_FINDINGS, images, grant, 3) for grant, images in hosted]


def random_lines(rng: Random) -> Case:
    """One to five lines near the size of a small storage."""
    word = rng.choice(WORD_WIDTHS)
    grant = rng.choice([2, 3, 4, 8, 9, 15])
    lines = []
    for _ in range(rng.randint(1, 5)):
        lines.append(_random_line(rng, grant, word))
        lines += rng.choices([[], ["#"], ["\r"], [" \t"], [""]], [90, 3, 3, 3, 3])[0]
    head, image, steps = b"machine { word %d ; address 4 ; size 15 ; }" % word, "\n".join(lines).encode(), rng.choice([0, 1, 2])
    if rng.random() < 0.7:
        return running_bare(head, image, grant, steps)
    images = [b""] * rng.choice([1, 1, 2])
    images[rng.randrange(len(images))] = image
    return running_guests(head, NO_FINDINGS, images, grant, steps)


def _random_line(rng: Random, grant: int, word: int) -> str:
    if rng.random() < 0.05:
        return rng.choice(["2:", "x", "2: 0", "!", "# c !"])
    at = rng.choice([0, 1, grant - 1, grant, rng.randint(0, grant + 1), rng.randint(0, grant + 1), 9999999])
    count = rng.choice([1, 1, 1, 2, 3, grant])
    words = (f"{rng.choice([0, rng.getrandbits(word)]):0{word // 4}x}" for _ in range(count))
    return f"{at}: " + " ".join(words)
