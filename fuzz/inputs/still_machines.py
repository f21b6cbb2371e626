"""`pg_go --bare`: bare machines that become still, soon or late or never, and its command lines.

The instructions of the machine that is made here stay where they are in many ways: with a store that changes nothing, or does the
first time alone, in one mode and not in the other, by a trap. The model says when a run is still, so that steps are chosen around
that, and steps are left out only where it is soon.
"""

from collections.abc import Sequence
from itertools import product
from random import Random
from string import Template
from typing import NamedTuple

from inputs.case import Case, running_bare
from inputs.command_lines import FILES, NO_UTF_8, NUMBER_SPELLINGS, STRANGE_NAMES
from inputs.images import ImageWriter, broken_image, spelled_image
from inputs.still_guests import FEW_STEPS, FINE_CELLS, LARGE, LOOK, NO_CELLS, SMALL, Cells, pieces
from inputs.systems import LOAD_STATUS
from inputs.traces import with_file, with_name
from pgvmodel.answers import Refused, described
from pgvmodel.body import mask
from pgvmodel.faults import Fault
from pgvmodel.going import BARE, MOST_STEPS, NAME, Reached, reached
from pgvmodel.image import read_image
from pgvmodel.machine import SUPERVISOR, USER, Cause
from pgvmodel.reader import read

CODE_BITS = 4

MACHINES = ((16, 4, 15), (24, 5, 31), (24, 6, 20), (32, 8, 64), (40, 8, 255), (64, 6, 63), (64, 12, 300))
"""Bits of a word and of an address, and the greatest size; a cause has room in each."""

LEAST_CELLS = 14
"""Cells that the programs here use; a smaller storage has their begin."""

DATA, MORE = 12, 13


class _Row(NamedTuple):
    """The fields of an instruction, which have the width of an address, and its body; $A, $W and the like are numbers."""

    fields: str
    body: str


ROWS = {
    "add": _Row("xyz", "mem[x] = (mem[y] + mem[z]);"),
    "jmp": _Row("x", "pc = x;"),
    "svc": _Row("", "trap;"),
    "lpsw": _Row("x", f"if mode {{ trap; }} {LOAD_STATUS}"),
    "down": _Row("xy", "if (mem[x] == 0:$W) { pc = y; } else { mem[x] = (mem[x] - 1:$W); }"),
    "hold": _Row("", "pc = pc;"),
    "keep": _Row("xy", "mem[x] = mem[y]; pc = pc;"),
    "back": _Row("x", "mem[x] = (mem[x] + 1:$W); mem[x] = (mem[x] - 1:$W); pc = pc;"),
    "flip": _Row("xy", "mem[x] = (mem[x] ^ mem[y]); pc = pc;"),
    "past": _Row("xy", "mem[x] = (mem[x] + 1:$W); let t = mem[y]; trap;"),
    "user": _Row("", "if mode { trap; } mode = 1:1; pc = pc;"),
    "drop": _Row("", "mode = 1:1; pc = pc;"),
    "turn": _Row("", "mode = ~mode; pc = pc;"),
    "open": _Row("xy", "if mode { trap; } rel = x; bound = y; pc = pc;"),
    "move": _Row("xy", "rel = x; bound = y; pc = pc;"),
}
"""`hold` and those behind it go to themselves, if they do not trap; `drop`, `turn` and `move` have no guard. Codes begin at 1."""


class StillMachine:
    """A machine of most of these instructions, and how many cells its storage has."""

    def __init__(self, rng: Random) -> None:
        self.rng = rng
        self.word, self.address, self.size = rng.choice(MACHINES)
        self.top = mask(self.address)
        self.causes = rng.random() < 0.5
        left_out = rng.sample(list(ROWS), rng.choice([0, 0, 0, 1, 3]))
        self.names = [name for name in ROWS if name not in left_out]
        usual = [LEAST_CELLS, self.size, rng.randint(LEAST_CELLS, self.size), rng.randint(LEAST_CELLS, self.size)]
        self.grant = rng.choice(usual) if rng.random() < 0.93 else rng.randint(2, LEAST_CELLS)

    def description(self) -> bytes:
        causes = "causes on;" if self.causes else ""
        lines = [f"machine {{ word {self.word}; address {self.address}; size {self.size}; {causes} }}"]
        for code, (name, row) in enumerate(ROWS.items(), 1):
            if name in self.names:
                pattern = f"{code:0{CODE_BITS}b}" + "".join(letter * self.address for letter in row.fields)
                lines.append(f'instr {name} "{pattern:.<{self.word}}" {{ {self.filled(row.body)} }}')
        return "\n".join(lines).encode()

    def filled(self, body: str) -> str:
        """A body with the widths of this machine, and the places of the parts of a program status word."""
        a = self.address
        return Template(body).substitute(A=a, W=self.word, T=a - 1, R=2 * a - 1, B=2 * a, P=3 * a - 1, M=3 * a)

    def instruction(self, name: str, *fields: int) -> int:
        """The word of an instruction; its free places are 0."""
        word = list(ROWS).index(name) + 1
        for field in fields:
            word = word << self.address | field & self.top
        return word << self.word - CODE_BITS - self.address * len(fields)

    def status(self, mode: int, p: int, l: int = 0, b: int | None = None, above: int = 0) -> int:
        """The word of a program status word, whose window is all of the storage if not told; `above` are further bits."""
        word = above << 1 | mode
        for number in (p, l, self.grant if b is None else b):
            word = word << self.address | number & self.top
        return word & mask(self.word)

    def kept(self, cause: Cause, mode: int, p: int, l: int = 0, b: int | None = None) -> int:
        """The word that a trap stores of a program status word."""
        return self.status(mode, p, l, b, cause if self.causes else 0)

    def image(self) -> bytes:
        """One of the programs below, as far as it has room; now and then any words, or an image that is broken."""
        if self.rng.random() < 0.1:
            return ImageWriter(self.rng, read(self.description()), self.grant).image()
        scenes = [self.here, self.here, self.counted, self.trapped, self.trapped, self.trapped, self.chained, self.chained]
        scenes += [self.served, self.privileged, self.privileged, self.never]
        some = {DATA: self.small(), MORE: self.small()}
        cells = {**some, **self.rng.choice(scenes)()}
        image = spelled_image(self.rng, {at: word for at, word in cells.items() if at < self.grant}, self.word)
        return broken_image(self.rng, image) if self.rng.random() < 0.02 else image

    def small(self) -> int:
        return self.rng.choice([0, 0, 1, 1, 2, mask(self.word)])

    def mode(self) -> int:
        return self.rng.choice([SUPERVISOR, SUPERVISOR, USER])

    def staying(self, at: int) -> int:
        """The word at a place of a step that stays there, mostly: at once, behind the first time, or never as it was."""
        a, b = (self.rng.choice([0, 1, DATA, MORE]) for _ in "ab")
        rows = [("jmp", at), ("jmp", at), ("hold",), ("hold",), ("keep", a, b), ("keep", a, a), ("back", a), ("flip", a, b)]
        rows += [("drop",), ("drop",), ("turn",), ("user",), ("open", 0, self.grant), ("move", 0, self.grant)]
        rows += [("move", 0, self.rng.choice([self.grant - 1, self.top])), ("open", self.rng.choice([1, self.top]), self.grant)]
        return self.instruction(*self.rng.choice(rows))

    def trap(self) -> tuple[int, Cause]:
        """The word of a step that traps, and why: by `trap;`, by an address past the window, or by a word of no meaning.

        One whose instruction the machine has not is such a word too.
        """
        rows = [(("svc",), Cause.INSTRUCTION), (("svc",), Cause.INSTRUCTION), (("past", DATA, 0), Cause.INSTRUCTION)]
        rows += [(("past", DATA, self.top), Cause.MEMORY), (("add", self.top, 0, 0), Cause.MEMORY)]
        if self.rng.random() < 0.2:
            return self.rng.choice([0, 1]), Cause.NO_PATTERN
        row, cause = self.rng.choice(rows)
        return self.instruction(*row), cause

    def here(self) -> Cells:
        """Some steps, and one that stays."""
        last = 2 + self.rng.choice([0, 0, 0, 1, 2, 3])
        return {**{at: self.instruction("add", DATA, DATA, MORE) for at in range(2, last)}, last: self.staying(last)}

    def counted(self) -> Cells:
        """A loop, and behind it a step that stays, or a trap."""
        last = self.rng.choice([self.staying(4), self.staying(4), self.trap()[0]])
        loop = {2: self.instruction("down", DATA, 4), 3: self.instruction("jmp", 2)}
        return {**loop, 4: last, DATA: self.rng.choice(self.rng.choice([SMALL, SMALL, SMALL, LARGE]))}

    def trapped(self) -> Cells:
        """A trap at once, which leads to itself, to another one, out of its window, or to a step that stays.

        Cell 0 may have what that trap stores, or what a later one does, or nearly.
        """
        rng, grant = self.rng, self.grant
        word, cause = self.trap()
        loaded = (SUPERVISOR, 2, 0, grant)
        if rng.random() < 0.6:
            l, b = rng.choice([0, 0, 0, 0, 1, grant, self.top]), rng.choice([grant, grant, grant, self.top, 3, 2, 0])
            loaded = (self.mode(), rng.choice([2, 2, 2, 0, 1, 3, 4, grant, self.top]), l, b)
        above = rng.choice([0, 0, 0, rng.getrandbits(self.word)])
        cells = {1: self.status(*loaded, above), 2: word, 3: self.trap()[0], 4: self.staying(4)}
        if rng.random() < 0.7:
            first, later = self.kept(cause, SUPERVISOR, 2), self.kept(cause, *loaded)
            nearly = [first ^ 1 << rng.randrange(self.word), self.kept(Cause.MEMORY, *loaded), cells[1]]
            cells[0] = rng.choice([first, first, later, later, rng.choice(nearly)])
        return cells

    def chained(self) -> Cells:
        """Traps one behind the other, each with a handler that has the next one lead elsewhere; the last may lead back."""
        count = self.rng.choice([1, 1, 2, 3])
        places = [3 + 3 * number for number in range(count)]
        last = self.rng.choice([2, places[-1], places[-1] + 1, DATA, DATA])
        cells = {1: self.status(self.mode(), places[0]), 2: self.trap()[0], DATA: self.staying(DATA), MORE: 0}
        for at, to in zip(places, [*places[1:], last]):
            cells[at], cells[at + 1] = self.instruction("add", 1, at + 2, MORE), self.trap()[0]
            cells[at + 2] = self.status(self.mode(), to)
        return cells

    def served(self) -> Cells:
        """A user that traps again and again, and a supervisor that goes on until so many traps were counted, or for ever."""
        last = self.rng.choice([self.staying(7), self.staying(7), self.trap()[0], self.instruction("jmp", 5)])
        to_user = self.instruction("lpsw", 3)
        cells = {1: self.status(SUPERVISOR, 4), 2: to_user, 3: self.status(USER, 10, self.rng.choice([0, 0, 1]))}
        cells |= {4: self.instruction("down", DATA, 7), 5: to_user, 7: last}
        cells |= {at: self.rng.choice([self.trap()[0], self.instruction("user"), to_user]) for at in (10, 11)}
        return {**cells, DATA: self.rng.choice([*SMALL, 333])}

    def privileged(self) -> Cells:
        """A privileged step that goes to itself: it may be still in supervisor mode, or lead to user mode, where it traps."""
        at = self.rng.choice([2, 2, 3])
        rows = [("lpsw", 5), ("lpsw", 5), ("lpsw", 5), ("user",), ("open", 0, self.grant), ("open", 0, self.grant - 1)]
        to = self.rng.choice([at, at, at, 6])
        cells = {2: self.instruction("add", DATA, DATA, MORE), at: self.instruction(*self.rng.choice(rows))}
        cells |= {5: self.status(self.mode(), at, 0, self.rng.choice([self.grant, self.grant, self.top, self.grant - 1]))}
        return {**cells, 1: self.status(self.mode(), to), 6: self.staying(6)}

    def never(self) -> Cells:
        """Two or more states in turn: jumps, a sum that changes for ever or ends at 0, a trap whose handler leads back to it."""
        length = self.rng.choice([2, 2, 3, 5])
        ring = {2 + i: self.instruction("jmp", 2 + (i + 1) % length) for i in range(length)}
        adding = {2: self.instruction("add", DATA, DATA, self.rng.choice([DATA, MORE])), 3: self.instruction("jmp", 2)}
        trapping = {1: self.status(self.mode(), 4), 2: self.trap()[0], 4: self.instruction("jmp", 2)}
        return self.rng.choice([ring, adding, trapping])


def own(rng: Random) -> Case:
    """The machine of this file, and a storage of it."""
    machine = StillMachine(rng)
    return running_bare(machine.description(), machine.image(), machine.grant, 0)


MANY_STEPS = (1_000_000, 10**9, MOST_STEPS - 1, MOST_STEPS)
"""Told only where a run is still long before."""


def going_bare(rng: Random, case: Case) -> Case:
    """`pg_go --bare` in place of `bare`, with words in any order and steps of its own; some words or files have a fault."""
    while rng.random() < 0.06:
        case = rng.choice([with_name, with_file, with_file])(rng, case)
    files, grant = case.words[1:3], case.words[4]
    parts = [[name] for name in files]
    steps = _steps(rng, _end(case))
    counted = [] if steps is None else [["--steps", str(steps)]]
    for option in ([BARE], ["--grant", grant], *counted, *map(list, pieces(rng, int(grant)))):
        parts.insert(rng.randint(0, len(parts)), option)
    while rng.random() < 0.1:
        parts = _spoiled(rng, parts)
    words = [word for part in parts for word in part]
    return case._replace(words=(NAME, *words), is_full=rng.random() < 0.02)


def _end(case: Case) -> Reached | None:
    """Where a run gets to in some steps; None where it is refused."""
    description_name, image_name = case.words[1:3]
    grant = int(case.words[4])
    try:
        description = described(case.files.get(description_name, b""))
        if grant > description.size:
            return None
        return reached(description, read_image(case.files.get(image_name, b""), description.word, grant), LOOK)
    except (Refused, Fault):
        return None


def _steps(rng: Random, end: Reached | None) -> int | None:
    """Any few steps, or such as end where a run is still, or nearly; None where they are left out, since it is still soon."""
    if end is not None and not end.is_still:
        return rng.choice(FEW_STEPS)
    if rng.random() < 0.35:
        return None
    if end is None or rng.random() < 0.15:
        return rng.choice(FEW_STEPS)
    return max(0, rng.choice([*(end.steps + by for by in (-1, 0, 0, 1, 1, 1, 2, 9)), rng.choice(MANY_STEPS)]))


EXTRA = (
    *((BARE,), (BARE,), ("--bare=1",), ("--slice", "3"), ("--slice", "1000"), ("--slice",), ("--slice=3",), ("machine.cert",)),
    *(("storage.img",), ("none/x.img",), ("-",), ("--",), ("-x",), ("-h",), ("--help",), ("--version",), ("--cert", "c"), ("",)),
    *(("--until", "still"), ("--counts",), ("--grant", "8"), ("--steps", "3"), ("--Bare",), ("--bar",), ("-bare",), (NO_UTF_8,)),
    *(("--show",), ("--text",), ("--show=0..2",), ("--show", BARE), ("--json",), ("--budget", "5")),
)
"""Words that a line does not take, or not once more; `--help` and `-h` are taken as the first."""

NUMBERS = ("", "-1", "x", "0x8", " 8", "1.0", BARE, "4294967298", "18446744073709551618")


def _spoiled(rng: Random, parts: Sequence[list[str]]) -> list[list[str]]:
    """Something more, a part left out, half of one, or another number. Steps are not left out: they may be needed for an end."""
    i = rng.randrange(len(parts))
    kind = rng.choices(["more", "less", "half", "number"], [40, 25, 15, 20])[0]
    rest = [*parts[:i], *parts[i + 1 :]]
    option, *value = parts[i]
    if kind == "more":
        return [*parts[:i], list(rng.choice(EXTRA)), *parts[i:]]
    if kind == "less" and option != "--steps":
        return rest
    if kind == "half":
        return [*parts[:i], [rng.choice(parts[i])], *parts[i + 1 :]]
    if kind == "number" and option in ("--grant", "--steps") and value:
        edges = ["1", "0", "1048576"] if option == "--grant" else ["-0", str(MOST_STEPS + 1)]
        fine = f"{rng.choice(['+', '0', '+00', '000000000000000000000000'])}{value[0]}"
        return [*parts[:i], [option, rng.choice([*edges, *NUMBERS, fine, fine, fine])], *parts[i + 1 :]]
    return list(parts)


OPTIONS = {
    "B": [BARE],
    "G": ["--grant", "8"],
    "S": ["--steps", "2"],
    "L": ["--slice", "3"],
    "H": ["--show", "0..3"],
    "T": ["--text", "2..4:16"],
}

TAKEN = ("B", "d", "i", "G", "S", "H")
"""A line that is taken; a letter stands for a whole option."""

LINES = (
    "", "B", "B d", "B d i", "B d G", "B i G", "B G", "B d i G", "d B i G", "d i B G", "d i G B", "G B d i", "G d B i",
    "B i d G", "B d i z G", "B d v i G", "B n v i G", "n B v i G", "n v i G", "n v i G B", "n v i G L", "n v i G L B",
    "B n v i G L", "B d i G L", "L B d i G", "B d i L", "B d i S", "B B d i G", "B d B i G", "B d i G B",
    "B n v i z G B", "B d i G S", "S G d i B", "d G i S B", "B d i G S S", "B d i G G", "B d i --grant",
    "B d i --grant 8 9", "B d i --grant=8", "B d i --grant B", "B d i --grant B 8", "d i --grant B 8",
    "B d i G --steps", "B d i G --steps=2", "d i G --steps B", "d i G --steps B 2", "B d i G --slice", "d i G",
    "B d i G --slice 0", "B d i G --slice=3", "B 1 d i G", "B --bare=1 d i G", "--bare=1 d i G", "--bare= d i G",
    "--Bare d i G", "--bar d i G", "--bares d i G", "-bare d i G", "bare d i G", "B bare i G", "B -- d i G",
    "B d i G --", "-- B d i G", "B - i G", "B d - G", "B d i - G", "B -x i G", "--help", "-h", "--help B d i G",
    "-h B d i G", "B --help", "B -h d i G", "B d i G --help", "B --version d i G", "B d i G --cert v",
    "B d i G --until still", "B d i G --counts", "B d i G --only-traps", "B d i G --budget 5", "B d i G H",
    "H B d T i G", "B d i G T H T", "B d i H T", "B d i G --show", "B d i G --text", "B d i --show G 0..3",
    "B d i G --show B", "B d i G --show 0..3:8", "--show 0..3 B --text 0..3 d --show 3..8 i --text 7..8:64 G",
    "B t z --grant 2", "B open i G", "B d i --grant 7 --show 6..7", "B d i --grant 7 --show 6..8",
    "B d i --grant 64 --show 0..64", "B d i --grant 64 --text 0..64:32", "B d i --grant 65 --show 0..65",
    "B d i --grant 65 --show 0..66", "B n z --grant 64 S", "B d z --grant 2", "B d z --grant 2 S",
)
"""`n v` is a machine with its certificate, which the other form takes."""


def lines() -> list[Case]:
    """Lines with words missing, doubled, misspelt and in other orders; spellings of numbers and of cells; names of files."""
    filled = [_filled(line.split()) for line in LINES]
    for i, word in enumerate(TAKEN):
        before, behind = TAKEN[:i], TAKEN[i + 1 :]
        rests = ([], [word, word], ["none"], ["dir"], ["z"], ["-"], ["--"], ["-x"], ["L"], ["B", "B"], [""], [NO_UTF_8])
        filled += [_filled([*before, *rest, *behind]) for rest in rests]
        filled += [_filled([word, *before, *behind]), _filled([*before, *behind, word])]
    for spelling in (*NUMBER_SPELLINGS, str(MOST_STEPS - 1), str(MOST_STEPS), str(MOST_STEPS + 1)):
        filled += [_filled(["B", "d", "i", "--grant", spelling]), _filled(["B", "d", "i", "G", "--steps", spelling])]
    for option, form in product(("--show", "--text"), (*NO_CELLS, *FINE_CELLS)):
        filled.append(_filled(["B", "d", "i", "G", option, form.format(a=2, b=4, past=9)]))
    for counts in ((16, 0), (0, 16), (9, 7), (17, 0), (9, 8)):
        filled.append(_filled(["B", "d", *["H"] * counts[0], "i", *["T"] * counts[1], "G"]))
    filled += [_filled(["B", *names, "G"]) for name in STRANGE_NAMES for names in ((name, "i"), ("d", name))]
    return [_case(line) for line in filled]


def refusals() -> list[Case]:
    """Files that are fine, broken, absent or no files, with grants around the room: which is told first."""
    descriptions = ("d", "n", "bad", "none", "dir", "empty", "open", "shape", "d/", "d/x", "")
    images = ("i", "z", "badi", "none", "dir", "over", "twoi", "d", "i/", "")
    grants = ("2", "3", "7", "8", "62", "63", "64", "65", "1048575")
    return [_case([BARE, *files, "--grant", grant]) for *files, grant in product(descriptions, images, grants)]


def _filled(words: Sequence[str]) -> list[str]:
    return [part for word in words for part in OPTIONS.get(word, [word])]


def _case(words: Sequence[str]) -> Case:
    return Case((NAME, *words), FILES)
