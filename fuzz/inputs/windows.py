"""Windows and registers at their edges: fixed bodies on a machine of 64 bits, random registers and addresses."""

from random import Random
from string import Template
from typing import NamedTuple

from inputs.case import Case, running_bare
from pgvmodel.body import mask
from pgvmodel.machine import MONITOR_CELLS
from pgvmodel.validity import LEAST_SIZE
from pgvmodel.widths import MOST_BITS

CODE_BITS = 4

STEPS = (1, 2, 3, 5, 10, 30, 60)


class _Row(NamedTuple):
    """An instruction: its fields, of the width of an address but `m`, which has one bit, and its body.

    In a body $A stands for that width, $rest for what two addresses leave of a word, and $guard for the guard or nothing.
    """

    name: str
    fields: str
    body: str
    weight: int = 1


ROWS = (
    _Row("sum", "xyz", "mem[x] = (mem[y] + mem[z]);", 2),
    _Row("copy", "xyz", "mem[x] = mem[y]; mem[z] = mem[x];"),
    _Row("store", "xyz", "mem[x] = ext(y, 64); let t = mem[z]; mem[(x + 1:$A)] = t;"),
    _Row("count", "xy", "if (mem[x] == 0:64) { pc = y; } else { mem[x] = (mem[x] - 1:64); }"),
    _Row("itself", "x", "mem[pc] = mem[x]; mem[(pc + 1:$A)] = (mem[pc] + 1:64);"),
    _Row("call", "xy", "mem[x] = ext(y, 64); if (x == y) { trap; } mem[y] = 5:64;"),
    _Row("load", "lbpm", "$guard rel = l; bound = b; pc = p; mode = m; mem[0:$A] = (mem[0:$A] + 1:64);", 3),
    _Row(
        "move",
        "x",
        "$guard mem[x] = cat(cat(rel, bound), ext(cat(mode, pc), $rest)); rel = (rel + 1:$A); bound = (bound - 1:$A);",
    ),
    _Row("jump", "xy", "pc = (pc + x); pc = (pc - 1:$A); mem[y] = mem[pc];"),
)


LOADING = next(code for code, row in enumerate(ROWS) if row.name == "load")


class Edges:
    """One machine, the cells of a storage and the numbers near its edges; a storage is that of each of a few guests, or all.

    A machine that has guests has a few of ROWS, since it is checked.
    """

    def __init__(self, rng: Random, is_hosting: bool) -> None:
        self.rng = rng
        self.is_hosting = is_hosting
        self.is_guarded = is_hosting and rng.random() < 0.93
        self.address = rng.choice([4, 4, 5, 6, 8])
        self.top = mask(self.address)
        self.size = rng.choice([self.top, 15, 15, min(self.top, 20)])
        self.codes = range(len(ROWS))
        if is_hosting:
            self.codes = sorted({LOADING, *rng.sample(self.codes, 4)})
        self.share_out()

    def share_out(self) -> None:
        """Chooses how many guests there are, and how many cells a storage has."""
        rng, room = self.rng, self.size
        self.guests = 1
        if self.is_hosting:
            self.guests = min(rng.choice([1, 2, 2, 3, 4, 5, 6, 8]), (room - MONITOR_CELLS) // 2)
            room = (room - MONITOR_CELLS) // self.guests
        usual = [2, 3, LEAST_SIZE, room, room, room - 1, rng.randint(2, room), rng.randint(2, room)]
        self.grant = max(2, min(room, rng.choice(usual)))

    def description(self) -> bytes:
        causes = self.rng.choice(["", "causes on ; "])
        lines = [f"machine {{ word {MOST_BITS} ; address {self.address} ; size {self.size} ; {causes}}}"]
        for code in self.codes:
            row = ROWS[code]
            pattern = f"{code:0{CODE_BITS}b}" + "".join(letter * self.width(letter) for letter in row.fields)
            lines.append(f'instr {row.name} "{pattern:.<{MOST_BITS}}" {{ {self.filled(row.body)} }}')
        return "\n".join(lines).encode()

    def filled(self, body: str) -> str:
        """A body of ROWS for this machine; where it is guarded a monitor may run it."""
        guard = "if mode { trap; }" if self.is_guarded or self.rng.random() < 0.5 else ""
        return Template(body).substitute(A=self.address, rest=MOST_BITS - 2 * self.address, guard=guard)

    def width(self, letter: str) -> int:
        return 1 if letter == "m" else self.address

    def near(self) -> int:
        """An address: mostly a usable one, or one near an edge."""
        usable = self.rng.randint(0, min(self.grant - 1, self.top))
        edge = self.rng.choice([0, 1, self.grant, self.grant - 1, self.top, self.top - 1]) & self.top
        return self.rng.choices([usable, edge, self.rng.getrandbits(self.address)], [55, 25, 20])[0]

    def number(self, letter: str) -> int:
        """What a field holds."""
        grant = self.grant
        if letter == "m":
            return self.rng.choice([0, 1, 1])
        if letter == "l":
            return self.rng.choice([0, 0, 1, 2, 3, self.near()]) & self.top
        if letter == "b":
            return self.rng.choice([grant, grant, grant - 1, grant - 2, self.top, self.near()]) & self.top
        return self.near()

    def word(self) -> int:
        kind = self.rng.choices(["instruction", "any", "small", "status"], [78, 5, 9, 8])[0]
        if kind == "any":
            return self.rng.getrandbits(MOST_BITS)
        if kind == "small":
            return self.rng.randint(0, 3)
        if kind == "status":
            return self.status(self.rng.getrandbits(3), self.near(), self.near(), self.near())
        code = self.rng.choices(self.codes, [ROWS[code].weight for code in self.codes])[0]
        bits = f"{code:0{CODE_BITS}b}"
        bits += "".join(f"{self.number(letter):0{self.width(letter)}b}" for letter in ROWS[code].fields)
        left = MOST_BITS - len(bits)
        return int(bits, 2) << left | self.rng.getrandbits(left)

    def status(self, above: int, p: int, l: int, b: int) -> int:
        """The word of a program status word; the lowest bit of `above` is the mode."""
        return ((above << self.address | p) << self.address | l) << self.address | b

    def image(self) -> bytes:
        cells = [self.word() for _ in range(self.grant)]
        p, l = self.rng.choice([2, 0, 3, self.near()]), self.rng.choice([0, 0, 1, self.near()])
        cells[1] = self.status(self.rng.choice([0, 0, 1]), p, l, self.grant & self.top)
        return ("0: " + " ".join(f"{cell:016x}" for cell in cells)).encode()


def windows(rng: Random) -> Case:
    """A run of such a machine, bare."""
    edges = Edges(rng, is_hosting=False)
    return running_bare(edges.description(), edges.image(), edges.grant, rng.choice(STEPS))
