"""Guests that are small systems: a supervisor whose handler goes on behind each trap of a user's program.

So most steps are done, in either mode, and traps come all along the run.
"""

from random import Random
from string import Template
from typing import NamedTuple

from inputs.images import spelled_image
from pgvmodel.body import mask
from pgvmodel.machine import MONITOR_CELLS, SUPERVISOR, USER
from pgvmodel.words import MOST_IMAGES

CODE_BITS = 4


class _Row(NamedTuple):
    """The fields of an instruction, which have the width of an address, and its body; $A, $W and the like are numbers."""

    fields: str
    body: str


LOAD_STATUS = "let w = mem[x]; mode = cut(w, $M, $M); pc = cut(w, $P, $B); rel = cut(w, $R, $A); bound = cut(w, $T, 0);"

ROWS = {
    "add": _Row("xyz", "mem[x] = (mem[y] + mem[z]);"),
    "jmp": _Row("x", "pc = x;"),
    "svc": _Row("", "trap;"),
    "lpsw": _Row("x", f"if mode {{ trap; }} {LOAD_STATUS}"),
    "xor": _Row("xyz", "mem[x] = (mem[y] ^ mem[z]);"),
    "load": _Row("xy", "mem[x] = mem[cut(mem[y], $T, 0)];"),
    "store": _Row("xy", "mem[cut(mem[x], $T, 0)] = mem[y];"),
    "blt": _Row("xyz", "if (mem[x] < mem[y]) { pc = z; }"),
    "here": _Row("x", "mem[x] = ext(pc, $W);"),
    "look": _Row("x", "if mode { trap; } mem[x] = ext(cat(rel, bound), $W);"),
}
"""The first four make a system; a machine has a few of the others too."""

NEEDED = 4
OTHERS = (("xor", "blt"), ("load", "store"), ("here", "look"), ("blt", "look", "store"))

MACHINES = ((32, 6, 63), (32, 7, 127), (32, 8, 255), (64, 8, 200), (24, 6, 40))
"""Bits of a word and of an address, and the greatest size."""

HANDLER = 4
"""The cell at which the handler begins. What it works with is behind it."""
NEXT, COUNT, ONE, BEGIN = 9, 10, 11, 12
"""Cells of the supervisor: what makes P the next one, how many traps there were, 1; and where the user's program begins."""

LEAST_CELLS = 16


class System:
    """A machine for systems, and how many of them there are with how many cells each."""

    def __init__(self, rng: Random) -> None:
        self.rng = rng
        self.word, self.address, self.size = rng.choice(MACHINES)
        self.top = mask(self.address)
        self.causes = 3 * self.address + 3 <= self.word and rng.random() < 0.5
        self.names = [*list(ROWS)[:NEEDED], *rng.choice(OTHERS)]
        self.share_out()

    def share_out(self) -> None:
        """Chooses how many guests there are, and how many cells each has."""
        room = self.size - MONITOR_CELLS
        self.guests = self.rng.randint(1, min(MOST_IMAGES, room // LEAST_CELLS))
        self.grant = min(room // self.guests, self.rng.choice([LEAST_CELLS, 20, 31, room]))

    def description(self) -> bytes:
        causes = "causes on;" if self.causes else ""
        lines = [f"machine {{ word {self.word}; address {self.address}; size {self.size}; {causes} }}"]
        for code, (name, row) in enumerate(ROWS.items()):
            if name in self.names:
                pattern = f"{code:0{CODE_BITS}b}" + "".join(letter * self.address for letter in row.fields)
                lines.append(f'instr {name} "{pattern:.<{self.word}}" {{ {self.filled(row.body)} }}')
        return "\n".join(lines).encode()

    def filled(self, body: str) -> str:
        """A body with the widths of this machine, and the places of the parts of a program status word."""
        a = self.address
        return Template(body).substitute(A=a, W=self.word, T=a - 1, R=2 * a - 1, B=2 * a, P=3 * a - 1, M=3 * a)

    def instruction(self, name: str, *fields: int) -> int:
        """The word of an instruction; its free places are 0."""
        word = list(ROWS).index(name)
        for field in fields:
            word = word << self.address | field & self.top
        return word << self.word - CODE_BITS - self.address * len(fields)

    def status(self, mode: int, p: int, l: int, b: int) -> int:
        """The word of a program status word."""
        return ((mode << self.address | p) << self.address | l) << self.address | b

    def image(self) -> bytes:
        """The supervisor's cells, and the user's program behind them."""
        cells = {1: self.status(SUPERVISOR, HANDLER, 0, self.rng.choice([self.grant, self.grant, self.top]))}
        cells |= {2: self.instruction("lpsw", 3), 3: self.entry(), **self.handler()}
        cells |= {NEXT: 1 << 2 * self.address, ONE: 1}
        length = self.grant - BEGIN
        last = self.rng.randint(2, max(2, min(8, length - 2)))
        cells |= {BEGIN + i: self.of_user(length) for i in range(last)}
        cells[BEGIN + last] = self.instruction(*self.rng.choice([("jmp", 0), ("jmp", 0), ("svc",)]))
        cells |= {i: self.rng.randint(0, length) for i in range(BEGIN + last + 1, self.grant) if self.rng.random() < 0.6}
        return spelled_image(self.rng, cells, self.word)

    def entry(self) -> int:
        """The program status word of the user's program, whose window mostly is all cells behind the supervisor's, or more."""
        length = self.grant - BEGIN
        mode = self.rng.choice([USER, USER, USER, SUPERVISOR])
        l = self.rng.choice([BEGIN, BEGIN, BEGIN, BEGIN, self.grant - 2, self.grant])
        return self.status(mode, 0, l, self.rng.choice([length, length, length - 1, length + 1, self.grant, self.top]))

    def handler(self) -> dict[int, int]:
        """It makes P the one behind the trap, counts, does something else, and goes back."""
        something = [("add", COUNT, COUNT, COUNT), ("jmp", HANDLER + 3), ("add", 3, 3, COUNT), ("add", 1, 1, COUNT)]
        something += [("look", 8)] * ("look" in self.names) + [("svc",)] * (self.rng.random() < 0.1)
        lines = [("add", 3, 0, NEXT), ("add", COUNT, COUNT, ONE), self.rng.choice(something), ("lpsw", 3)]
        return {HANDLER + i: self.instruction(*line) for i, line in enumerate(lines)}

    def of_user(self, length: int) -> int:
        """An instruction of the user's program; most of its addresses are in the window."""
        name = self.rng.choice([*self.names, "add", "svc"])
        return self.instruction(name, *(self.near(length) for _ in ROWS[name].fields))

    def near(self, length: int) -> int:
        edge = self.rng.choice([length, length - 1, length + 1, self.top])
        return self.rng.choices([self.rng.randrange(length), edge], [85, 15])[0]
