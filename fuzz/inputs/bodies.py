"""Random bodies of valid instructions, over all forms of statements and expressions."""

from collections.abc import Callable
from dataclasses import dataclass
from random import Random
from string import ascii_letters, ascii_lowercase, digits

from pgvmodel import tree
from pgvmodel.body import ARITHMETIC, COMPARISONS, mask
from pgvmodel.reader import BLOCK_LEVELS, EXPRESSION_LEVELS
from pgvmodel.tokens import LONGEST_WORD, RESERVED
from pgvmodel.validity import MOST_ACCESSES, MOST_LETS
from pgvmodel.widths import MOST_BITS, SHIFTS

GUARD = tree.If(tree.Register("mode"), (tree.Trap(),), None)
"""`if mode { trap; }`, without an else: what begins with it traps in user mode."""

NEARLY_RESERVED = ("on", "Mem", "pcx", "trap_", "if_", "elseif", "PC", "lets", "word1", "machine_", "cause", "causes_")

Maker = Callable[[int, int], tree.Expression]
"""Makes an expression of a width, which goes down at most so many levels."""


@dataclass
class Budget:
    """What may still be used of each limit."""

    statements: int
    expressions: int
    accesses: int = MOST_ACCESSES
    lets: int = MOST_LETS


@dataclass(frozen=True)
class Manner:
    """How an instruction behaves: `guarded` ones begin with the guard and have no other trap, so they are privileged; pure ones
    do not use the control registers, so they are not sensitive. A machine of such ones is one that a monitor may run."""

    registers: bool
    traps: bool
    guarded: bool


PURE = Manner(registers=False, traps=True, guarded=False)
GUARDED = Manner(registers=True, traps=False, guarded=True)
FREE = Manner(registers=True, traps=True, guarded=False)


def random_name(rng: Random, used: set[str]) -> str:
    """A name that is not used yet, and is now."""
    while True:
        name = rng.choices((_short_name, _usual_name, _longest_name, _nearly_reserved), (50, 40, 5, 5))[0](rng)
        if name not in used and name not in RESERVED:
            used.add(name)
            return name


def _short_name(rng: Random) -> str:
    return rng.choice("abtvxyzQR") + rng.choice(["", "1", "_", "x"])


def _usual_name(rng: Random) -> str:
    return rng.choice(ascii_letters) + "".join(rng.choices(ascii_letters + digits + "_", k=rng.randint(0, 9)))


def _longest_name(rng: Random) -> str:
    return rng.choice(ascii_letters) + "".join(rng.choices(ascii_lowercase + "_9", k=LONGEST_WORD - 1))


def _nearly_reserved(rng: Random) -> str:
    return rng.choice(NEARLY_RESERVED)


def edge_literal(rng: Random, width: int) -> tree.Literal:
    """A number of a width, at an edge, small, or any."""
    top = mask(width)
    small = rng.randint(0, min(top, 9))
    return tree.Literal(rng.choice([0, 1, top, 1 << (width - 1), rng.getrandbits(width), small, small]), width)


class BodyWriter:
    """Writes one body; `names` has the widths of what is visible."""

    def __init__(self, rng: Random, shape: tree.Description, pattern: str, manner: Manner) -> None:
        self.rng = rng
        self.word = shape.word
        self.address = shape.address
        self.manner = manner
        self.names = {place: pattern.count(place) for place in pattern if tree.is_field(place)}
        self.used = set(self.names)
        self.budget = Budget(rng.choice([3, 6, 12, 40]), rng.choice([60, 200, 1000]))

    def body(self) -> tree.Block:
        """The whole body, guarded where the manner says so."""
        written = self.block(1, self.rng.choice([0, 1, 1, 2, 3, 4, 6]))
        return (GUARD, *written) if self.manner.guarded else written

    def block(self, level: int, count: int) -> tree.Block:
        """At most so many statements; its lets are not visible behind it."""
        outside = dict(self.names)
        written = []
        while len(written) < count and self.budget.statements > 0 and self.budget.expressions > 12:
            self.budget.statements -= 1
            written.append(self.statement(level))
        self.names = outside
        return tuple(written)

    def statement(self, level: int) -> tree.Statement:
        """A statement of a block of this level, of any form that the manner and the budget leave."""
        manner, budget = self.manner, self.budget
        weights = {
            self.let: 16 * (budget.lets > 0),
            self.store: 26 * (budget.accesses > 0),
            self.jump: 10,
            self.control: 16 * manner.registers,
            self.trap: 5 * manner.traps,
            self.conditional: 27 * (level < BLOCK_LEVELS),
        }
        return self.rng.choices(list(weights), list(weights.values()))[0](level)

    def let(self, _level: int) -> tree.Let:
        """A let with a name that is visible from now on."""
        self.budget.lets -= 1
        width = self.rng.choice([1, self.address, self.word, self.rng.randint(1, MOST_BITS), MOST_BITS])
        value = self.expression(width, self.depth())
        name = random_name(self.rng, self.used)
        self.names[name] = width
        return tree.Let(name, value)

    def store(self, _level: int) -> tree.Store:
        self.budget.accesses -= 1
        return tree.Store(self.place(self.depth()), self.expression(self.word, self.depth()))

    def jump(self, _level: int) -> tree.Assign:
        return tree.Assign("pc", self.place(self.depth()))

    def trap(self, _level: int) -> tree.Trap:
        return tree.Trap()

    def control(self, _level: int) -> tree.Assign:
        """An assignment of the mode or of the relocation-bounds register."""
        register = self.rng.choice(["mode", "rel", "bound"])
        if register == "mode":
            return tree.Assign(register, self.expression(1, self.depth()))
        if self.rng.random() < 0.5:
            return tree.Assign(register, self.expression(self.address, self.depth()))
        top = mask(self.address)
        number = self.rng.randint(0, min(top, 12)) if self.rng.random() < 0.7 else top - self.rng.randint(0, 3)
        return tree.Assign(register, tree.Literal(number, self.address))

    def conditional(self, level: int) -> tree.If:
        condition = self.expression(1, self.depth())
        body = self.block(level + 1, self.rng.choice([0, 1, 1, 2, 3]))
        if self.rng.random() < 0.5:
            return tree.If(condition, body)
        return tree.If(condition, body, self.block(level + 1, self.rng.choice([0, 1, 1, 2])))

    def depth(self) -> int:
        """How many levels the next expression may have."""
        usual = self.rng.random() < 0.97
        return self.rng.choice([1, 2, 2, 3, 3, 4, 5] if usual else [8, 12, EXPRESSION_LEVELS])

    def place(self, depth: int) -> tree.Expression:
        """An expression for an address."""
        return self.expression(self.address, depth)

    def expression(self, width: int, depth: int) -> tree.Expression:
        """An expression of this width, of any form, with at most so many levels as the budget allows."""
        self.budget.expressions -= 1
        if depth <= 1 or self.budget.expressions < 10 or self.rng.random() < 0.25:
            return self.leaf(width)
        weights: dict[Maker, int] = {
            self.inverted: 8,
            self.loaded: 35 * (width == self.word and self.budget.accesses > 0),
            self.compared: 35 * (width == 1),
            self.computed: 25,
            self.joined: 10 * (width > 1),
            self.cut: 15,
            self.extended: 10,
            self.selected: 5,
        }
        return self.rng.choices(list(weights), list(weights.values()))[0](width, depth - 1)

    def leaf(self, width: int) -> tree.Expression:
        """An expression without parts."""
        leaves: list[tree.Expression] = []
        visible = [name for name, its_width in self.names.items() if its_width == width]
        if visible:
            leaves += [tree.Name(self.rng.choice(visible))] * 6
        if width == self.address:
            leaves += map(tree.Register, ("pc", "rel", "bound") if self.manner.registers else ("pc",))
        if width == 1 and self.manner.registers:
            leaves += [tree.Register("mode")] * 2
        if not leaves or self.rng.random() < 0.35:
            return edge_literal(self.rng, width)
        return self.rng.choice(leaves)

    def inverted(self, width: int, depth: int) -> tree.Not:
        return tree.Not(self.expression(width, depth))

    def loaded(self, _width: int, depth: int) -> tree.Load:
        self.budget.accesses -= 1
        return tree.Load(self.place(depth))

    def compared(self, _width: int, depth: int) -> tree.Binary:
        sides = self.rng.choice([self.address, self.word, 1, self.rng.randint(1, MOST_BITS)])
        sign = self.rng.choice(list(COMPARISONS))
        return tree.Binary(sign, self.expression(sides, depth), self.expression(sides, depth))

    def computed(self, width: int, depth: int) -> tree.Binary:
        sign = self.rng.choice([*ARITHMETIC, *SHIFTS])
        any_width = [width, 1, 3, 6, 7, MOST_BITS, self.rng.randint(1, MOST_BITS)]
        right = self.rng.choice(any_width) if sign in SHIFTS else width
        return tree.Binary(sign, self.expression(width, depth), self.expression(right, depth))

    def joined(self, width: int, depth: int) -> tree.Cat:
        upper = self.rng.randint(1, width - 1)
        return tree.Cat(self.expression(upper, depth), self.expression(width - upper, depth))

    def cut(self, width: int, depth: int) -> tree.Cut:
        """Bits of a value that is at least as wide; values of the cells' width and of names are preferred."""
        wider = [width, min(MOST_BITS, width + 1), MOST_BITS, self.rng.randint(width, MOST_BITS)]
        wider += [known for known in (*[self.word] * 3, *self.names.values()) if known >= width]
        whole = self.rng.choice(wider)
        low = self.rng.choice([0, whole - width, self.rng.randint(0, whole - width)])
        return tree.Cut(self.expression(whole, depth), low + width - 1, low)

    def extended(self, width: int, depth: int) -> tree.Extend:
        narrower = [width, 1, self.rng.randint(1, width)]
        narrower += [known for known in (self.address, *self.names.values()) if known <= width]
        return tree.Extend(self.rng.random() < 0.5, self.expression(self.rng.choice(narrower), depth), width)

    def selected(self, width: int, depth: int) -> tree.Select:
        return tree.Select(self.expression(1, depth), self.expression(width, depth), self.expression(width, depth))
