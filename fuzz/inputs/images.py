"""Images for the machine of a description, and broken ones."""

from random import Random

from pgvmodel import tree
from pgvmodel.body import ProgramStatusWord, mask
from pgvmodel.machine import Decoder, Machine

FILLED = 24
"""Cells at the storage's begin that mostly get a word; behind them few do."""

FARTHEST = 5000
"""Cells from here on stay zero."""

INSERTS = (
    b"# \xff\x00 zz\n", b"#", b"\r\n", b"\n", b"00000000:", b"0000007: ", b"1048575: ", b"9999999: ", b"12:", b" : ", b"0x",
    b"3", b"0:", b"\x0b", b"\x0c", b"\xc2\xa0",
)
COLONS = (b"", b" :", b"::", b":#", b"#:", b"x:")


class ImageWriter:
    """Writes images of `grant` cells: words of instructions, of program status words, small numbers and any others."""

    def __init__(self, rng: Random, description: tree.Description, grant: int) -> None:
        self.rng = rng
        self.machine = Machine(description)
        self.word = description.word
        self.address = description.address
        self.grant = grant

    def image(self) -> bytes:
        """An image whose first program status word to load is mostly one that goes on."""
        filled = [i for i in range(min(self.grant, FARTHEST)) if self.rng.random() < (0.9 if i < FILLED else 0.05)]
        cells = {i: self.any_word() for i in filled}
        cells[1] = self.loaded_word() if self.rng.random() < 0.75 else self.any_word()
        return spelled_image(self.rng, cells, self.word)

    def small(self, width: int) -> int:
        """A number of a width: mostly an address within the grant."""
        top = mask(width)
        return self.rng.choices(
            [self.rng.randint(0, min(top, self.grant)), top - self.rng.randint(0, min(2, top)), self.rng.getrandbits(width)],
            [70, 10, 20],
        )[0]

    def any_word(self) -> int:
        """The word of a cell; most mean an instruction where there is one."""
        makers = [self.instruction_word, self.status_word, self.small_word, self.rough_word]
        weights = [72 if self.machine.decoders else 0, 13, 8, 7]
        return self.rng.choices(makers, weights)[0]()

    def instruction_word(self) -> int:
        """A word that means an instruction; its free places are any bits."""
        meaning: Decoder = self.rng.choice(self.machine.decoders)
        word = self.rng.getrandbits(self.word) if self.rng.random() < 0.5 else 0
        for low, width in meaning.fields.values():
            word = word & ~(mask(width) << low) | self.small(width) << low
        return word & ~meaning.fixed | meaning.ones

    def status_word(self) -> int:
        """A program status word near the begin and the end of the storage, some with bits above the mode."""
        width = self.address
        p = self.rng.choice([0, 2, 3, self.small(width)])
        l = self.rng.choice([0, 0, 1, self.small(width)])
        b = self.rng.choice([self.grant, self.grant, self.grant - 1, self.small(width), mask(width)]) & mask(width)
        above = self.rng.getrandbits(self.word) >> (3 * width + 1) << (3 * width + 1)
        word = self.machine.pack(ProgramStatusWord(self.rng.choice([0, 0, 1]), p, l, b))
        return word | (above if self.rng.random() < 0.3 else 0)

    def loaded_word(self) -> int:
        """A program status word that a trap may load and go on from."""
        top = mask(self.address)
        b = self.rng.choice([self.grant, self.grant, self.grant, self.grant - 1, top, 4]) & top
        p, l = self.rng.choice([2, 2, 3, 4, 0]), self.rng.choice([0, 0, 0, 1, 2])
        return self.machine.pack(ProgramStatusWord(self.rng.choice([0, 0, 1]), p, l, b))

    def small_word(self) -> int:
        return self.rng.randint(0, min(self.grant, mask(self.word)))

    def rough_word(self) -> int:
        return self.rng.getrandbits(self.word)


class GuestImageWriter(ImageWriter):
    """Writes images of which a trap mostly is not the last one, or leads to a window that ends past the grant."""

    def loaded_word(self) -> int:
        """What a trap loads: as on a bare machine, or one of a few that are near the edges."""
        makers = [super().loaded_word, self.past_word, self.nesting_word, self.instruction_word]
        return self.rng.choices(makers, [65, 12, 13, 10 if self.machine.decoders else 0])[0]()

    def past_word(self) -> int:
        """A program status word whose window begins or ends near the grant's end, or past it."""
        top, grant = mask(self.address), self.grant
        p = self.rng.choice([0, 1, 2, 3, grant - 1]) & top
        l = self.rng.choice([0, 1, 2, grant - 1, grant, grant + 1, top - 1, top]) & top
        b = self.rng.choice([grant - l, grant - l + 1, grant, grant + 1, 2 * grant, top, 0]) & top
        return self.machine.pack(ProgramStatusWord(self.rng.choice([0, 1]), p, l, b))

    def nesting_word(self) -> int:
        """One whose first step mostly traps too: what P finds is a program status word, or nothing."""
        top, grant = mask(self.address), self.grant
        p = self.rng.choice([0, 0, 1, 1, grant - 1, grant, top]) & top
        b = self.rng.choice([grant, grant, 2, 1]) & top
        return self.machine.pack(ProgramStatusWord(self.rng.choice([0, 1, 1]), p, 0, b))


def spelled_image(rng: Random, cells: dict[int, int], word: int) -> bytes:
    """An image with these cells, its lines in any order and spelling."""
    lines = []
    left = sorted(cells)
    while left:
        at = left[0]
        longest = rng.randint(1, 9)
        length = next((k for k in range(1, longest) if at + k not in cells), longest)
        words = [cells[at + k] for k in range(length)]
        left = left[length:]
        lines.append(_spelled_line(rng, at, words, word // 4))
    rng.shuffle(lines)
    lines = rng.choice([[], [], ["# comment"]]) + lines + rng.choice([[], [], [""]])
    return ("\n".join(lines) + rng.choice(["", "\n", "\n"])).encode()


def _spelled_line(rng: Random, at: int, words: list[int], digits: int) -> str:
    """A line that gives these words from cell `at` on."""
    begin = rng.choice(["", "", " "]) + rng.choice([f"{at}:", f"{at}:", f"{at:07}:"])
    form = rng.choice(["x", "X"])
    parts = [begin, *(f"{word:0{digits}{form}}" for word in words)]
    return rng.choice([" ", " ", "\t", "  "]).join(parts) + rng.choice(["", " ", "\r", " # c"])


def broken_image(rng: Random, image: bytes) -> bytes:
    """An image with one to three random edits."""
    for _ in range(rng.choice([1, 1, 2, 3])):
        edit = rng.choices([_without_byte, _with_byte, _with_insert, _cut_off, _with_line_edit], [20, 30, 20, 10, 20])[0]
        image = edit(rng, image)
    return image


def _without_byte(rng: Random, image: bytes) -> bytes:
    place = rng.randint(0, len(image))
    return image[:place] + image[place + 1 :]


def _with_byte(rng: Random, image: bytes) -> bytes:
    place = rng.randint(0, len(image))
    byte = rng.choice([rng.choice(b"0123456789abcdefABCDEF: \t\r\n#"), rng.randint(0, 255)])
    return image[:place] + bytes([byte]) + image[place + rng.randint(0, 1) :]


def _with_insert(rng: Random, image: bytes) -> bytes:
    place = rng.randint(0, len(image))
    return image[:place] + rng.choice(INSERTS) + image[place:]


def _cut_off(rng: Random, image: bytes) -> bytes:
    return image[: rng.randint(0, len(image))]


def _with_line_edit(rng: Random, image: bytes) -> bytes:
    lines = image.split(b"\n")
    i = rng.randrange(len(lines))
    kind = rng.randrange(4)
    if kind == 0:
        lines.insert(rng.randint(0, len(lines)), lines[i])
    elif kind == 1:
        del lines[i]
    elif kind == 2:
        lines[i] += b" " + rng.choice(lines)
    else:
        lines[i] = lines[i].replace(b":", rng.choice(COLONS))
    return b"\n".join(lines)
