"""Sources for `asm`: well-formed ones, spoiled ones, several faults at once, odd lines; images for `disasm`, and round trips."""

from collections.abc import Iterator, Sequence
from dataclasses import dataclass, field
from itertools import permutations, product
from random import Random
from string import ascii_lowercase

from inputs.bodies import random_name
from inputs.case import Case, assembling, disassembling, running_bare
from inputs.descriptions import ROUGH, any_description, random_description, random_shape
from inputs.guest_rows import MACHINE
from inputs.images import ImageWriter, broken_image
from inputs.programs import TAME
from pgvmodel import tree
from pgvmodel.body import mask
from pgvmodel.image import read_image
from pgvmodel.source import assembled, disassembled, listed

FIRST = 2
"""The place of the first word, where nothing else is said."""

SIZES = (2, 3, 5, 8, 12, 16, 16, 24, 40, 64, 300)
MOST_CELLS = 3000

MOST_WORDS = 40
FAR = (9_999_999, 1_048_575, 65_536, 256)


@dataclass
class _Word:
    """A cell that is given, by an instruction or in digits."""

    place: int
    spelled: str = ""


@dataclass
class _Label:
    """A name for a place."""

    name: str
    place: int


@dataclass
class _Move:
    """The place of what is next."""

    place: int


@dataclass
class SourceWriter:
    """Writes sources of at most `size` cells that have no fault, with all forms of lines, and places in any order."""

    rng: Random
    description: tree.Description
    size: int
    labels: list[_Label] = field(default_factory=list)

    def source(self) -> bytes:
        """A source, each line in any spelling, with comments and blank lines between."""
        items = self._with_labels(self._words())
        lines = []
        for item in items:
            lines += self._blank()
            match item:
                case _Word():
                    lines.append(self._spaced(self._word()))
                case _Label(name):
                    lines.append(self._spaced([f"{name}:"]))
                case _Move(place):
                    lines.append(self._spaced([f"@{self._zeros(str(place), 7)}"]))
        return ("\n".join(lines) + self.rng.choice(["", "\n", "\n", "\n\n"])).encode("latin-1")

    def _words(self) -> list[_Word | _Move]:
        """Runs of cells that are given once, in any order, with a move where the place is another, and some beside."""
        count = min(self.size, self.rng.choice([0, 1, 2, 4, 8, 16, MOST_WORDS]))
        if self.size > FIRST and self.rng.random() < 0.4:
            left = list(range(FIRST, min(self.size, FIRST + count)))
        else:
            near = min(self.size, 2 * MOST_WORDS)
            left = sorted(self.rng.sample(range(near), min(near, count)))
            left += [self.size - 1] if self.size - 1 not in left and self.rng.random() < 0.5 else []
        runs = _runs(left)
        self.rng.shuffle(runs)
        items: list[_Word | _Move] = []
        here = FIRST
        for run in runs:
            if self.rng.random() < 0.05:
                items.append(_Move(self.rng.choice([*FAR, 0, self.size])))
                here = items[-1].place
            if run[0] != here or self.rng.random() < 0.1:
                items.append(_Move(run[0]))
            items += map(_Word, run)
            here = run[-1] + 1
        if self.rng.random() < 0.1:
            items.append(_Move(self.rng.choice([*FAR, self.size])))
        return items

    def _with_labels(self, items: Sequence[_Word | _Move]) -> list[_Word | _Move | _Label]:
        """The same with labels between; each means the place that is reached there."""
        used: set[str] = set()
        after = {i: 0 for i in range(len(items) + 1)}
        for _ in range(self.rng.choice([0, 0, 1, 2, 3, 6])):
            after[self.rng.randint(0, len(items))] += 1
        placed: list[_Word | _Move | _Label] = []
        here = FIRST
        for i in range(len(items) + 1):
            for _ in range(after[i]):
                self.labels.append(_Label(self._name(used), here))
                placed.append(self.labels[-1])
            if i < len(items):
                placed.append(items[i])
                here = items[i].place + isinstance(items[i], _Word)
        return placed

    def _name(self, used: set[str]) -> str:
        """A label's name, which may be that of an instruction too."""
        names = [instruction.name for instruction in self.description.instructions if instruction.name not in used]
        if names and self.rng.random() < 0.2:
            used.add(names[0])
            return names[0]
        return random_name(self.rng, used)

    def _word(self) -> list[str]:
        """The parts of a line that gives a word."""
        if not self.description.instructions or self.rng.random() < 0.3:
            digits = f"{self.rng.choice([0, 1, self.rng.getrandbits(self.description.word)]):0{self.description.word // 4}x}"
            return ["word", self.rng.choice([digits, digits.upper(), _mixed(self.rng, digits)])]
        instruction = self.rng.choice(self.description.instructions)
        letters = dict.fromkeys(filter(tree.is_field, instruction.pattern))
        return [instruction.name, *(f"{letter}={self._value(instruction.pattern.count(letter))}" for letter in letters)]

    def _value(self, width: int) -> str:
        """A number of a width, at an edge, small or any, or a label whose place has that width."""
        top = mask(width)
        fitting = [label.name for label in self.labels if label.place <= top]
        if fitting and self.rng.random() < 0.4:
            return self.rng.choice(fitting)
        number = self.rng.choice([0, 1, top, top >> 1, self.rng.randint(0, min(top, 40)), self.rng.getrandbits(width)])
        return self._zeros(str(min(number, top)), 40)

    def _zeros(self, digits: str, most: int) -> str:
        """Digits, with zeros before them now and then; at most so many in all."""
        if self.rng.random() < 0.85:
            return digits
        return digits.rjust(self.rng.randint(len(digits), most), "0")

    def _spaced(self, parts: Sequence[str]) -> str:
        """The parts of a line, with anything that separates them."""
        between = self.rng.choice([" ", " ", " ", "  ", "\t", " \r", "\r"])
        begin = self.rng.choice(["", "", "", " ", "\t"])
        return begin + between.join(parts) + self.rng.choice(["", "", "", " ", "\r", "#", " # a: b=1", "#\xff\x00"])

    def _blank(self) -> list[str]:
        return [self.rng.choice(["", " ", "\r", "# @5", "#\xe9 =\x01"])] if self.rng.random() < 0.1 else []


def _runs(places: Sequence[int]) -> list[list[int]]:
    """Places that stand one behind the other, together."""
    runs: list[list[int]] = []
    for place in places:
        if runs and runs[-1][-1] + 1 == place:
            runs[-1].append(place)
        else:
            runs.append([place])
    return runs


def _mixed(rng: Random, digits: str) -> str:
    return "".join(rng.choice([digit, digit.upper()]) for digit in digits)


def _machine(rng: Random) -> tree.Description:
    """Any machine; half of those with instructions have many words that mean one."""
    if rng.random() < 0.3:
        return any_description(rng)
    return random_description(rng, random_shape(rng, small=True), rng.choice([1, 2, 3, 5, 8]), style=rng.choice([ROUGH, TAME]))


def _size(rng: Random, room: int) -> int:
    return max(2, min(room, rng.choice([*SIZES, room, room]), MOST_CELLS))


def _grant(rng: Random, room: int, size: int) -> int:
    """The size, or a few times one that is less, more, or over the room."""
    if rng.random() < 0.9:
        return size
    return max(2, rng.choice([size - 1, size - 2, size + 1, room, room + 1, room + 1000]))


def sources(rng: Random) -> Case:
    """Sources without a fault, but that a few grants are too small, or have no room."""
    description = _machine(rng)
    size = _size(rng, description.size)
    return assembling(description, SourceWriter(rng, description, size).source(), _grant(rng, description.size, size))


def spoiled_sources(rng: Random) -> Case:
    """Sources with a few edits of bytes, parts or lines."""
    description = _machine(rng)
    size = _size(rng, description.size)
    source = SourceWriter(rng, description, size).source()
    for _ in range(rng.choice([1, 1, 1, 2, 3])):
        source = rng.choices([_byte_edit, _part_edit, _line_edit], [25, 45, 30])[0](rng, description, source)
    return assembling(description, source, _grant(rng, description.size, size))


PARTS = (
    "word", "word:", "@2", "@0", "@", "@00000002", "@x", "a=1", "a=", "=1", "a==1", "a:", ":", "x:", "x", "1", "0x1", "a=0x1", "a=b",
    "b=a", "z=18446744073709551615", "z=18446744073709551616", "mem", "mem:", "a=mem", "a=causes", "on", "on:", "a=on", "A=1", "_x:",
    "00000000", "0000", "ffff", "FFFFFFFFFFFFFFFF", "a" * 32, "a" * 33, "a" * 32 + ":", "a" * 33 + ":", f"a={'b' * 33}", "a=1_0", "#",
    "trap", "instr", "machine:", "@9999999", "@10000000",
)
STRANGE = ("-", "+", ";", ",", "\"", "{", "\x0b", "\x0c", "\x00", "\x7f", "\x80", "\xe9", "~", "'", "/", "$", "<", ".", "#\xff", "?")
USUAL = "abcxyz=:@_#0123456789 \n\r\tABCF"


def _byte_edit(rng: Random, _description: tree.Description, source: bytes) -> bytes:
    place = rng.randint(0, len(source))
    kind = rng.choices(["drop", "strange", "usual", "cut"], [35, 15, 40, 10])[0]
    if kind == "drop":
        return source[:place] + source[place + 1 :]
    if kind == "cut":
        return source[:place]
    new = rng.choice(STRANGE if kind == "strange" else USUAL).encode("latin-1")
    return source[:place] + new + source[place + rng.randint(0, 1) :]


def _part_edit(rng: Random, description: tree.Description, source: bytes) -> bytes:
    """A part of a line is left out, put in, replaced, doubled or exchanged; of a value alone the number or the letter."""
    lines = source.split(b"\n")
    i = rng.randrange(len(lines))
    parts = lines[i].split()
    k = rng.randint(0, len(parts))
    kind = rng.choices(["drop", "insert", "replace", "double", "exchange", "value", "letter"], [12, 15, 15, 8, 10, 25, 15])[0]
    names = [instruction.name for instruction in description.instructions]
    new = rng.choice([*PARTS, *names, *(f"{name}:" for name in names)]).encode("latin-1")
    valued = [j for j, part in enumerate(parts) if b"=" in part]
    if kind in ("value", "letter") and not valued:
        kind = "replace"
    if kind == "drop":
        del parts[k : k + 1]
    elif kind == "insert":
        parts.insert(k, new)
    elif kind == "replace":
        parts[k : k + 1] = [new]
    elif kind == "double":
        parts[k:k] = parts[k : k + 1]
    elif kind == "exchange":
        parts[k : k + 2] = parts[k : k + 2][::-1]
    else:
        j = rng.choice(valued)
        letter, _, value = parts[j].partition(b"=")
        if kind == "letter":
            letter = bytes([rng.choice(b"abcxyzA")])
        else:
            value = rng.choice([b"%d" % (1 << rng.randint(0, 64)), b"%d" % ((1 << rng.randint(1, 64)) - 1), b"here", value + b"0"])
        parts[j] = letter + b"=" + value
    lines[i] = b" ".join(parts)
    return b"\n".join(lines)


def _line_edit(rng: Random, _description: tree.Description, source: bytes) -> bytes:
    """A line is left out, doubled, exchanged with its neighbour, moved, or put in."""
    lines = source.split(b"\n")
    i = rng.randrange(len(lines))
    kind = rng.choice(["drop", "double", "exchange", "move", "insert"])
    if kind == "drop":
        del lines[i]
    elif kind == "double":
        lines.insert(rng.randint(0, len(lines)), lines[i])
    elif kind == "exchange":
        lines[i : i + 2] = lines[i : i + 2][::-1]
    elif kind == "move":
        line = lines.pop(i)
        lines.insert(rng.randint(0, len(lines)), line)
    else:
        lines.insert(i, rng.choice([*ODD_LINES, *(b"@%d" % place for place in (0, 2, 3, 15, 16))]))
    return b"\n".join(lines)


ODD_LINES = tuple(
    line.encode("latin-1")
    for line in (
        "", " ", "\r", "\t \r", "#", "# \xff", "svc", "svc\r", " svc ", "svc#", "svc # a=1", "svc a=1", "svc:", "svc :", "jmp a=1",
        "jmp a=255", "jmp a=256", "jmp a=0255", f"jmp a={'0' * 60}7", "jmp a=18446744073709551615", "jmp a=18446744073709551616",
        "jmp a=top", "jmp a=nowhere", "jmp a=svc", "jmp a= 1", "jmp a =1", "jmp a = 1", "jmp a=", "jmp =1", "jmp a", "jmp a=a",
        "jmp a=1 a=1", "jmp a=1 a=2", "jmp b=1", "jmp A=1", "jmp ab=1", "jmp a=b=1", "jmp a==1", "jmp a=1:", "jmp a=@1", "jmp 1",
        "jmp", "jmp a=0x1", "jmp a=1a", "jmp a=1_0", "jmp a=_a", "jmp a=mode", "jmp a=word", "jmp a=causes", "jmp a=on", "jmp a=-1",
        f"jmp a={'n' * 32}", f"jmp a={'n' * 33}", "add x=1 y=2 z=3", "add x=1 y=2", "add x=1 z=3 y=2", "add z=1 y=2 x=3",
        "add x=1 y=2 z=3 z=3", "add x=256 y=nowhere z=1", "add x=nowhere y=256 z=1", "lr l=1 b=2", "lr b=2 l=1", "top:", "top :",
        "top::", ":top", ":", "@:", "on:", "word:", "mem:", "causes:", "x1_:", "_x:", "1x:", f"{'n' * 32}:", f"{'n' * 33}:", "top: svc",
        "top:svc", "@2", "@0", "@15", "@16", "@0000016", "@00000016", "@9999999", "@10000000", "@", "@ 2", "@-1", "@0x2", "@top", "@2:",
        "@2 svc", "2", "2:", "2: 03000000", "word 00000005", "word 0000000", "word 000000005", "word ABCDEFab", "word 0000000g",
        "word 0000000G", "word", "word 00000000", "word 00000000 00000000", "word 0x000005", "word h=5", "Word 00000005", "wordy",
        "nothing", "nothing a=1", "Svc", "SVC", "trap", "let", "n" * 32, "n" * 33, "=", "==", "a=1", "x", "svc svc", "svc @2", "svc top:",
    )
)


def odd_lines() -> list[Case]:
    """Each odd line alone, before others and behind them."""
    texts = [*ODD_LINES, *(line + b"\ntop:\n@4\nsvc\n" for line in ODD_LINES), *(b"top:\nsvc\n" + line for line in ODD_LINES)]
    return [assembling(MACHINE, text, 16) for text in texts]


def odd_pairs() -> list[Case]:
    """Each odd line with each other one behind it."""
    return [assembling(MACHINE, first + b"\n" + second, 16) for first, second in product(ODD_LINES, repeat=2)]


LETTERS = [f"{letter}=1" for letter in ascii_lowercase]
MANY_FIELDS = b'machine { word 32; address 8; size 64; } instr all "%s......" { }' % ascii_lowercase.encode()


def values() -> list[Case]:
    """The greatest value of fields of each width, one more, and a label's place; many fields, and more parts than letters."""
    cases = []
    for width in range(1, 65):
        machine = b'machine { word 64; address 8; size 64; } instr a "%s" { }' % (b"z" * width).ljust(64, b".")
        texts = [b"a z=%d" % ((1 << width) - 1), b"a z=%d" % (1 << width), b"a z=%d" % ((1 << width) + 1)]
        texts += [b"@%d\ntop:\n@3\na z=top" % place for place in ((1 << width) - 1, 1 << width) if place < 10_000_000]
        cases += [assembling(machine, text, 16) for text in texts]
        word = (1 << 64) - (1 << 64 - width)
        cases += [disassembling(machine, b"5: %016x" % changed, 16) for changed in (word, word ^ 1, word ^ 1 << 63)]
    lists = [LETTERS, LETTERS[:-1], [*LETTERS, "z=1"], [*LETTERS, "a=1"], [*LETTERS, "7"], [*LETTERS[:-1], "z=2"]]
    lists += [[*LETTERS[:i], *LETTERS[i : i + 2][::-1], *LETTERS[i + 2 :]] for i in (0, 12, 24)]
    lists += [["a=1"] * count for count in (26, 27, 32, 33, 64, 65, 256, 257)]
    lists += [[*["a=1"] * count, "7"] for count in (26, 27, 32, 33, 64, 65, 256, 257)]
    cases += [assembling(MANY_FIELDS, " ".join(["all", *parts]).encode(), 16) for parts in lists]
    images = (b"ffffffff", b"ffffffc0", b"80000000", b"00000040", b"aaaaaa80")
    return [*cases, *(disassembling(MANY_FIELDS, b"2: " + word, 16) for word in images)]


FAULTS = {
    "token": (b"svc ;", b"\x80", b"word 0000000-"),
    "grammar": (b"svc 7", b"top :", b"word 5"),
    "name": (b"nothing", b"top", b"nothing a=256"),
    "field": (b"jmp b=1", b"svc a=nowhere", b"add x=1 y=256"),
    "label": (b"jmp a=nowhere", b"add x=1 y=256 z=nowhere", b"top:"),
    "range": (b"jmp a=256", b"jmp a=far", b"add x=1 y=2 z=1000"),
    "place": (b"@16\nsvc", b"@999\nword 00000000", b"@16\njmp a=top"),
    "overlap": (b"@2\nsvc", b"@3\nword 00000000", b"@3\njmp a=top"),
}
"""Lines with a fault of a class, behind HEAD, in the order in which faults are told on one line; the last word is the one at fault."""

HEAD = b"top: # \xff\nsvc\nword 00000000\n@300\nfar:\n@5\n"
BETWEEN = b"\n@%d\n"
"""Each of two faults has a place of its own, where it has no other."""


def several_faults() -> list[Case]:
    """Two faults of any classes on two lines, either way about, and three."""
    texts = []
    for first, second in permutations(FAULTS, 2):
        for one, other in product(FAULTS[first], FAULTS[second]):
            texts.append(HEAD + one + BETWEEN % 9 + other + b"\n")
    for kinds in permutations(FAULTS, 3):
        texts.append(HEAD + (BETWEEN % 9).join(FAULTS[kind][0] for kind in kinds))
    return [assembling(MACHINE, text, 16) for text in texts]


def faults_of_a_line() -> list[Case]:
    """All faults that one line may have together."""
    return [assembling(MACHINE, HEAD + line, 16) for line in _lines_of_several()]


def _lines_of_several() -> Iterator[bytes]:
    """One word, at a place that is free, past the size or given, with each fault that it may have, or without."""
    names, lasts, labels, numbers = (b"add", b"nothing"), (b"", b" z=1"), (b"top", b"nowhere", b"far"), (b"255", b"256")
    for place, name, last, label, number in product((b"7", b"16", b"2", b"3"), names, lasts, labels, numbers):
        yield b"@%b\n%b x=%b y=%b z=1%b\n" % (place, name, number, label, last)
        yield b"@%b\n%b x=%b y=%b z=1%b\n" % (place, name, label, number, last)
    for place, name, strange in product((b"7", b"16", b"2"), (b"svc", *names), (b" 7", b" ;", b" 7 ;", b" a=nowhere", b" a=256")):
        yield b"@%b\n%b%b\n" % (place, name, strange)


WHOLE = b"# all forms\n@2\nlr l=4 b=8 # c\ntop:\n\n@7\n add\tx=0 y=top z=7\r\n@11\nword 0000000a\njmp a=end\nsvc\nend:\n"


def fronts() -> list[Case]:
    """A source with all forms, broken off at each byte."""
    return [assembling(MACHINE, WHOLE[:end], 16) for end in range(len(WHOLE) + 1)]


def images(rng: Random) -> Case:
    """Images as sources; a few are broken, or have a grant that is too small or has no room."""
    description = _machine(rng)
    size = _size(rng, description.size)
    image = ImageWriter(rng, description, size).image()
    if rng.random() < 0.08:
        image = broken_image(rng, image)
    return disassembling(description, image, _grant(rng, description.size, size))


def round_trips(rng: Random) -> Case:
    """What `disasm` writes of an image, as the source of `asm`; what `asm` writes, as the image of `disasm` or of `bare`."""
    description = _machine(rng)
    size = _size(rng, description.size)
    image = ImageWriter(rng, description, size).image()
    source = SourceWriter(rng, description, size).source()
    kind = rng.choice(["image", "image", "source", "both"])
    if kind == "source":
        written = listed(description, assembled(description, source, size)).encode()
        return rng.choice([disassembling(description, written, size), running_bare(description, written, size, 0)])
    cells = read_image(image, description.word, size) if kind == "image" else assembled(description, source, size)
    return assembling(description, disassembled(description, cells).encode(), size)


def words(rng: Random) -> Case:
    """Single words, as they are and with a bit or two changed: they mean an instruction, nearly one, or none."""
    description = _machine(rng)
    size = max(2, min(description.size, 64))
    writer = ImageWriter(rng, description, size)
    cells = [writer.any_word() for _ in range(size)]
    for i in range(size):
        for _ in range(rng.choice([0, 0, 1, 2])):
            cells[i] ^= 1 << rng.randrange(description.word)
    return disassembling(description, listed(description, cells).encode(), size)


def largest() -> list[Case]:
    """Files of the most bytes there are, and one more; storages of the most cells."""
    most = 1_048_576
    head = b'machine { word 64; address 20; size 1048575; } instr a "%b" { } instr b "0%b" { }' % (b"1" * 64, b"x" * 63)
    texts = [b"#" * most, b"#" * (most + 1), b"-" + b"#" * most, b" " * most, b"7" * (most + 1)]
    texts += [b"a\n" * (most // 2), b"a\n" * (most // 2) + b"#", b"b x=1\n" * (most // 6), b"@1048574\na\na\n", b"@1048574\na\n"]
    cases = [assembling(head, text, 1_048_575) for text in texts]
    filled = b"0: " + b"ffffffffffffffff 7fffffffffffffff " * 500_000
    return [*cases, *(disassembling(head, image, 1_048_575) for image in (b"", filled, b"1048574: 0000000000000001"))]
