"""Two states that show a kind of an instruction, found by trying small ones."""

from random import Random

from pgvmodel import tree
from pgvmodel.body import ProgramStatusWord, mask
from pgvmodel.machine import SUPERVISOR, USER, Machine, State, window
from pgvmodel.pairs import BOUND, CONTROL, IN_USER_MODE, LOCATION, shows

SIZES = (2, 3, 4, 4, 5, 6, 8, 9, 12, 16, 17)
MOST_CELLS = 600
"""A machine's greatest size is tried too, or this where it is above."""

FULL = 20
"""Larger storages are mostly zero."""

TRIES = 60

Pair = tuple[State, State]


class PairFinder:
    """Tries states of one machine."""

    def __init__(self, rng: Random, description: tree.Description) -> None:
        self.rng = rng
        self.machine = Machine(description)
        self.word = description.word
        self.top = mask(description.address)
        self.sizes = [size for size in (*SIZES, min(MOST_CELLS, description.size)) if size <= description.size]

    def found(self, number: int, kind: str) -> Pair | None:
        """A pair that shows the kind of the instruction of this number, or None where no try did."""
        for _ in range(TRIES):
            pair = self.pair(number, kind)
            if shows(self.machine, number, kind, *pair):
                return pair
        return None

    def near(self, pair: Pair) -> Pair:
        """A pair with one thing changed; if it showed a kind, it may not any more."""
        first, second = pair
        psw = second.psw
        changes = [
            (second, first),
            (first, State([*second.cells, 0][: self.sizes[-1]], psw)),
            (first, State(second.cells, psw._replace(mode=USER - psw.mode))),
            (State(first.cells, first.psw._replace(mode=USER)), State(second.cells, psw._replace(mode=USER))),
            (first, State(second.cells, psw._replace(p=min(self.top, psw.p + 1)))),
            (first, State(second.cells, psw._replace(b=max(0, psw.b - 1)))),
            (first, State([self.number(), *second.cells[1:]], psw)),
        ]
        return self.rng.choice(changes)

    def pair(self, number: int, kind: str) -> Pair:
        """Two states that are near to show the kind."""
        first = self.state(number)
        if kind in IN_USER_MODE:
            first.psw = first.psw._replace(mode=USER)
            kind = IN_USER_MODE[kind]
        if kind == CONTROL:
            return first, first
        if kind == LOCATION:
            return first, self.moved(first)
        if kind == BOUND:
            return first, self.bounded(first)
        first.psw = first.psw._replace(mode=SUPERVISOR)
        return first, State(first.cells, first.psw._replace(mode=USER))

    def state(self, number: int) -> State:
        """A small state with the instruction at P, its window mostly all of the storage."""
        size = self.rng.choice(self.sizes)
        l = self.rng.choice([0, 0, 1, size - 1, max(0, size - 3), self.rng.randrange(size)])
        b = self.rng.choice([size, size - l, self.rng.randint(1, size), self.top]) & self.top
        length = min(b, size - l)
        p = self.rng.randrange(max(1, length))
        cells = self.cells(size)
        cells[l + p] = self.instruction_word(number, size)
        return State(cells, ProgramStatusWord(self.rng.choice([SUPERVISOR, USER]), p, l, b))

    def cells(self, size: int) -> list[int]:
        """A storage of any content."""
        chance = 1 if size <= FULL else 0.05
        return [self.number() if self.rng.random() < chance else 0 for _ in range(size)]

    def number(self) -> int:
        """A word of a cell."""
        return self.rng.choice([0, 0, 1, self.rng.randint(0, 20), self.rng.getrandbits(self.word)]) & mask(self.word)

    def instruction_word(self, number: int, size: int) -> int:
        """A word that means the instruction, its fields mostly small."""
        meaning = self.machine.decoders[number]
        word = self.rng.choice([0, self.rng.getrandbits(self.word)])
        for low, width in meaning.fields.values():
            value = self.rng.choice([0, 1, self.rng.randrange(size), self.rng.getrandbits(width)]) & mask(width)
            word = word & ~(mask(width) << low) | value << low
        return word & ~meaning.fixed | meaning.ones

    def moved(self, first: State) -> State:
        """The same window at another place of a storage of the same size."""
        content = window(first)
        size = len(first.cells)
        l = self.rng.randint(0, size - len(content))
        cells = self.cells(size)
        cells[l : l + len(content)] = content
        return State(cells, first.psw._replace(l=l))

    def bounded(self, first: State) -> State:
        """The same window under another bound, at times clipped by the end of a storage of another size."""
        end = first.psw.l + len(window(first))
        size = self.rng.choice([end, end, len(first.cells), self.rng.choice(self.sizes)])
        cells = (first.cells + self.cells(size))[:size]
        b = self.rng.choice([len(window(first)), len(window(first)) + 1, self.top, self.rng.randint(0, self.top)])
        return State(cells, first.psw._replace(b=min(b, self.top))) if size >= 2 else first
