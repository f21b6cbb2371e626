"""Machines whose instructions have one body for user mode, without control registers, and any other for supervisor mode.

So no user state shows them to be sensitive: a hybrid monitor may run them, and a monitor mostly may not.
"""

from random import Random

from inputs.bodies import FREE, PURE
from inputs.descriptions import Style, random_description, random_shape
from inputs.programs import TameWriter
from pgvmodel import tree

MODE = tree.Register("mode")


class SplitWriter(TameWriter):
    """Writes a body of two; a few have user mode alone, and then what goes on in supervisor mode is to do nothing."""

    def body(self) -> tree.Block:
        self.budget.statements, self.budget.expressions = 20, 300
        self.manner = PURE
        user = self.block(2, self.rng.choice([1, 2, 3]))
        self.manner = FREE
        supervisor = self.block(2, self.rng.choice([0, 1, 2, 3]))
        if self.rng.random() < 0.3:
            return (tree.If(tree.Not(MODE), supervisor, user),)
        return (tree.If(MODE, user, supervisor if supervisor or self.rng.random() < 0.5 else None),)


SPLIT = Style(SplitWriter, (0,), short_runs=True)


def split_description(rng: Random) -> tree.Description:
    """A machine that mostly has room for several guests."""
    shape = random_shape(rng, small=True)
    while shape.size < 31 and rng.random() < 0.9:
        shape = random_shape(rng, small=True)
    return random_description(rng, shape, rng.choice([1, 2, 2, 3, 5]), (PURE,), SPLIT)
