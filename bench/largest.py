#!/usr/bin/env python3
"""Writes a description at all limits of the language, in fewer bytes than a file may have: the most that can be made ready.

    bench/largest.py

256 instructions, each with 200 statements, 1,024 expressions, 32 lets and 8 accesses, one expression of 32 levels and blocks 16
deep. Every form of expression and of statement is there, and no two bodies are alike.
"""

import sys
from itertools import cycle
from string import ascii_uppercase

sys.dont_write_bytecode = True  # so that this folder holds sources only

from generated import draws

INSTRUCTIONS, STATEMENTS, EXPRESSIONS, LEVELS, BLOCKS, LOADS, STORES = 256, 200, 1024, 32, 16, 4, 4
FIELDS = "." * 16 + "a" * 20 + "b" * 20
LETS = ascii_uppercase + "uvwxyz"
LEAVES = ("a", "b", "pc", "rel", "bound", "7:20")
FORMS = {
    3: ("(X+Y)", "(X-Y)", "(X*Y)", "(X<<Y)", "(X>>Y)", "ext(cut(X,9,0),20)", "sext(cut(X,8,4),20)"),
    5: ("((X+Y)^Z)", "((X&Y)|Z)", "(X-(Y*Z))", "(X&(Y>>Z))", "cat(cut(X,9,0),cut(Y,19,10))"),
    6: ("sel((X<Y),Z,X)", "sel((X==Y),Z,Y)", "(~(X+Y)|Z)", "(X^~(Y<<Z))"),
}
"""Expressions of the width of an address, by how many expressions they are; each of X, Y and Z is a leaf."""
SIZES = (3, 5, 6, 5, 6, 6)
"""So that what is left for the last statement is an expression of 32 levels."""


class Body:
    """A body that is being written."""

    def __init__(self, number):
        self.text, self.statements, self.expressions, self.lets = "", 0, 0, 0
        self.draws, self.sizes = draws(number), cycle(SIZES)

    def one(self, several):
        return several[next(self.draws) % len(several)]

    def leaf(self):
        """Most often a let that is visible."""
        return self.one(LETS[: self.lets] + "ab") if next(self.draws) % 8 else self.one(LEAVES)

    def form(self, size):
        return "".join(self.leaf() if letter in "XYZ" else letter for letter in self.one(FORMS[size]))

    def put(self, text, expressions):
        """One more statement, of so many expressions."""
        self.text += text
        self.statements += 1
        self.expressions += expressions

    def let(self, value, expressions):
        self.put(f"let {LETS[self.lets]}={value};", expressions)
        self.lets += 1

    def assign(self):
        size = next(self.sizes)
        self.put(f"{self.one(('pc', 'pc', 'rel', 'bound'))}={self.form(size)};", size)

    def levels(self, size):
        """An expression of so many expressions, from 32 to 63, in 32 levels: each but the last a sum, or a complement."""
        text = self.leaf()
        for level in range(1, LEVELS):
            text = f"({self.leaf()}+{text})" if level <= size - LEVELS else f"~{text}"
        return text


def body(number):
    """The body of the instruction of this number."""
    made = Body(number)
    for _ in range(LOADS):
        made.let(f"cut(mem[{made.leaf()}],19,0)", 3)
    for _ in LETS[LOADS:]:
        size = next(made.sizes)
        made.let(made.form(size), size)
    for _ in range(STORES):
        made.put(f"mem[{made.leaf()}]=ext({made.form(3)},64);", 5)
    for _ in range(1, BLOCKS):
        made.put(f"if ({made.leaf()}<{made.leaf()}){{", 3)
        made.assign()
    made.put("trap;", 0)
    for _ in range(1, BLOCKS):
        made.text += "}else{"
        made.assign()
        made.text += "}"
    made.put("mode=~mode;", 2)
    while made.statements < STATEMENTS - 1:
        made.assign()
    left = EXPRESSIONS - made.expressions
    made.put(f"pc={made.levels(left)};", left)
    return made.text


def main():
    print("machine { word 64; address 20; size 1048575; }")
    for k in range(INSTRUCTIONS):
        print(f'instr i{k} "{k:08b}{FIELDS}" {{{body(k)}}}')


if __name__ == "__main__":
    main()
