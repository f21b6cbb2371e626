#!/usr/bin/env python3
"""Writes formulas in the format DIMACS CNF, the same at each run: `bench/solver` runs solvers on them.

    bench/formulas.py FOLDER

Pigeons that do not fit in holes, chains of exclusive ors that contradict each other, two orders of a multiplication that
cannot differ, and clauses of three literals at random, as many as are as often true as not.
"""

import random
import sys
from pathlib import Path


class Formula:
    """Clauses over variables from 1 on."""

    def __init__(self):
        self.variables = 0
        self.clauses = []

    def new(self):
        self.variables += 1
        return self.variables

    def add(self, *literals):
        self.clauses.append(literals)

    def xor(self, x, y):
        v = self.new()
        for clause in ((-v, x, y), (-v, -x, -y), (v, -x, y), (v, x, -y)):
            self.add(*clause)
        return v

    def both(self, x, y):
        v = self.new()
        for clause in ((-v, x), (-v, y), (v, -x, -y)):
            self.add(*clause)
        return v

    def either(self, x, y):
        return -self.both(-x, -y)

    def write(self, path):
        lines = [f"p cnf {self.variables} {len(self.clauses)}"]
        lines += [" ".join(map(str, clause)) + " 0" for clause in self.clauses]
        path.write_text("\n".join(lines) + "\n")


def pigeons(holes):
    """A pigeon more than there are holes."""
    f = Formula()
    sits = [[f.new() for _ in range(holes)] for _ in range(holes + 1)]
    for pigeon in sits:
        f.add(*pigeon)
    for hole in range(holes):
        for one in range(holes + 1):
            for other in range(one):
                f.add(-sits[one][hole], -sits[other][hole])
    return f


def parity(length, chance):
    """Two chains of exclusive ors over the same inputs, in another order, that are to differ."""
    f = Formula()
    inputs = [f.new() for _ in range(length)]
    order = list(inputs)
    chance.shuffle(order)
    ends = []
    for chain in (inputs, order):
        sum_of = chain[0]
        for each in chain[1:]:
            sum_of = f.xor(sum_of, each)
        ends.append(sum_of)
    f.add(ends[0], ends[1])
    f.add(-ends[0], -ends[1])
    return f


def product(f, xs, ys):
    """The bits of a product, the low half, by rows of full adders."""
    bits = len(xs)
    row = [f.both(x, ys[0]) for x in xs]
    for k in range(1, bits):
        carry = None
        for at in range(k, bits):
            part = f.both(xs[at - k], ys[k])
            low = f.xor(row[at], part)
            over = f.both(row[at], part)
            if carry is None:
                row[at], carry = low, over
            else:
                row[at], carry = f.xor(low, carry), f.either(over, f.both(low, carry))
    return row


def commuted(bits):
    """x times y and y times x, that are to differ."""
    f = Formula()
    xs = [f.new() for _ in range(bits)]
    ys = [f.new() for _ in range(bits)]
    one, other = product(f, xs, ys), product(f, ys, xs)
    f.add(*[f.xor(a, b) for a, b in zip(one, other)])
    return f


def threes(variables, chance):
    """Clauses of three literals at random, 4.26 a variable."""
    f = Formula()
    f.variables = variables
    for _ in range(round(4.26 * variables)):
        chosen = chance.sample(range(1, variables + 1), 3)
        f.add(*[v if chance.random() < 0.5 else -v for v in chosen])
    return f


def main():
    folder = Path(sys.argv[1])
    for holes in range(6, 10):
        pigeons(holes).write(folder / f"pigeons-{holes}.cnf")
    for length in (12, 16, 20):
        parity(length, random.Random(length)).write(folder / f"parity-{length}.cnf")
    for bits in range(4, 9):
        commuted(bits).write(folder / f"product-{bits}.cnf")
    for variables in (150, 200, 250):
        for seed in range(1, 4):
            chance = random.Random(1000 * variables + seed)
            threes(variables, chance).write(folder / f"random-{variables}-{seed}.cnf")


if __name__ == "__main__":
    main()
