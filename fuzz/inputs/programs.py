"""Descriptions whose instructions mostly are done, bodies that are guarded or nearly, and operators on edge values."""

from dataclasses import replace
from random import Random

from inputs.bodies import GUARD, BodyWriter, random_name
from inputs.descriptions import Style
from inputs.tree_mutations import with_instruction
from pgvmodel import tree
from pgvmodel.body import ARITHMETIC, COMPARISONS, mask
from pgvmodel.widths import MOST_BITS, SHIFTS

LAST_USED = 9
"""The tame programs mostly use addresses from 0 up to this."""


class TameWriter(BodyWriter):
    """Writes short bodies whose addresses are small, so that most steps are done and a run goes on."""

    def body(self) -> tree.Block:
        self.budget.statements, self.budget.expressions = 20, 300
        written = self.block(1, self.rng.choice([1, 2, 3]))
        return (GUARD, *written) if self.manner.guarded else written

    def statement(self, level: int) -> tree.Statement:
        manner, budget = self.manner, self.budget
        weights = {
            self.store: 35 * (budget.accesses > 1),
            self.let: 15 * (budget.lets > 0),
            self.jump: 12,
            self.conditional: 18 * (level < 4),
            self.control: 15 * manner.registers,
            self.trap: 2 * manner.traps,
        }
        return self.rng.choices(list(weights), list(weights.values()))[0](level)

    def let(self, _level: int) -> tree.Let:
        self.budget.lets -= 1
        width = self.rng.choice([1, self.address, self.word, self.rng.randint(1, MOST_BITS)])
        value = self.worth(width, 3)
        name = random_name(self.rng, self.used)
        self.names[name] = width
        return tree.Let(name, value)

    def store(self, _level: int) -> tree.Store:
        self.budget.accesses -= 1
        return tree.Store(self.place(1), self.worth(self.word, 3))

    def conditional(self, level: int) -> tree.If:
        condition = self.worth(1, 3)
        body = self.block(level + 1, self.rng.choice([0, 1, 2]))
        if self.rng.random() < 0.5:
            return tree.If(condition, body)
        return tree.If(condition, body, self.block(level + 1, self.rng.choice([0, 1, 2])))

    def control(self, _level: int) -> tree.Assign:
        """Mostly a window that holds what the program uses."""
        top = mask(self.address)
        register = self.rng.choice(["mode", "rel", "bound", "bound"])
        if register == "mode":
            return tree.Assign(register, self.worth(1, 2))
        if register == "rel":
            begin = self.rng.choice([0, 0, 1, 2, 3, top, min(top, self.rng.randint(0, 40))])
            chosen = tree.Literal(begin, self.address) if self.rng.random() < 0.7 else self.place(1)
            return tree.Assign(register, chosen)
        length = self.rng.choice([top, min(top, self.rng.randint(3, 40)), min(top, 12)])
        chosen = tree.Literal(length, self.address) if self.rng.random() < 0.8 else self.worth(self.address, 2)
        return tree.Assign(register, chosen)

    def place(self, _depth: int) -> tree.Expression:
        """A small address."""
        short = [name for name, width in self.names.items() if width <= min(4, self.address)]
        kind = self.rng.random()
        if short and kind < 0.6:
            return self.near(self.rng.choice(short))
        number = tree.Literal(self.rng.randint(0, LAST_USED), self.address)
        if kind < 0.7 and self.budget.accesses > 1:
            self.budget.accesses -= 1
            return tree.Extend(False, tree.Cut(tree.Load(number), 2, 0), self.address)
        return number

    def near(self, name: str) -> tree.Expression:
        """The value of a short name as an address, or one near it."""
        wide = self.names[name] == self.address
        base = tree.Name(name) if wide else tree.Extend(False, tree.Name(name), self.address)
        if self.rng.random() < 0.7:
            return base
        return tree.Binary(self.rng.choice("+^&|"), base, tree.Literal(self.rng.randint(0, 7), self.address))

    def worth(self, width: int, depth: int) -> tree.Expression:
        """A value: cells that the program uses, computed with."""
        if depth > 1 and self.budget.accesses > 0 and width <= self.word and self.rng.random() < 0.3:
            return self.cell(width)
        if depth > 1 and width == 1 and self.rng.random() < 0.25:
            sign = self.rng.choice(list(COMPARISONS))
            return tree.Binary(sign, self.worth(self.word, depth - 1), self.worth(self.word, depth - 1))
        if depth > 1 and self.rng.random() < 0.5:
            sign = self.rng.choice([*ARITHMETIC, *SHIFTS])
            right = self.rng.choice([2, 3, 7, width]) if sign in SHIFTS else width
            return tree.Binary(sign, self.worth(width, depth - 1), self.worth(right, depth - 1))
        accesses, self.budget.accesses = self.budget.accesses, 0
        value = self.expression(width, self.rng.choice([1, 2, 3]))
        self.budget.accesses = accesses
        return value

    def cell(self, width: int) -> tree.Expression:
        """Some bits of a cell, or all of them."""
        self.budget.accesses -= 1
        load = tree.Load(self.place(1))
        low = self.rng.randint(0, self.word - width)
        return load if width == self.word else tree.Cut(load, low + width - 1, low)


TAME = Style(TameWriter, (0,), short_runs=True)
"""Nearly all words mean something, most steps are done."""


def nearly_guarded(word: int, address: int) -> list[tree.Block]:
    """Begins of bodies with a guard, with what is nearly one, and with uses of a control register that no guard covers.

    The machine has these widths. A monitor may run some of these, and others not.
    """
    trap, mode, pc, rel, bound = tree.Trap(), *map(tree.Register, ("mode", "pc", "rel", "bound"))
    yes, no, here = tree.Literal(1, 1), tree.Literal(0, 1), tree.Assign("pc", pc)
    guarded = (trap,)
    return [
        (tree.If(mode, guarded, ()),),
        (tree.If(mode, (trap, trap)),),
        (tree.If(mode, ()),),
        (tree.If(tree.Not(mode), guarded),),
        (GUARD, GUARD),
        (trap,),
        (trap, GUARD),
        (GUARD, trap),
        (tree.If(yes, guarded),),
        (GUARD, tree.If(yes, (), guarded)),
        (tree.If(mode, (trap, here)),),
        (tree.If(no, (tree.Assign("mode", yes),)),),
        (tree.If(no, (), (tree.Assign("rel", pc),)),),
        (tree.Assign("pc", bound),),
        (tree.Let("lt", rel),),
        (tree.Store(bound, tree.Literal(0, word)),),
        (tree.Store(tree.Literal(0, address), tree.Extend(False, mode, word)),),
        (tree.If(tree.Binary("==", mode, yes), guarded),),
        (GUARD, tree.If(mode, ()), tree.Assign("rel", bound)),
        (here, GUARD),
        (GUARD, tree.Assign("mode", yes)),
        (tree.Assign("pc", tree.Select(no, pc, rel)),),
        (tree.Let("lt", tree.Load(rel)),),
    ]


def with_near_miss(rng: Random, description: tree.Description) -> tree.Description:
    """One instruction gets a begin that is a guard or nearly, or that uses a control register."""
    i = rng.randrange(len(description.instructions))
    instruction = description.instructions[i]
    begin = rng.choice(nearly_guarded(description.word, description.address))
    body = begin if rng.random() < 0.5 else begin + instruction.body
    return with_instruction(description, i, replace(instruction, body=body))


OPERATOR_ADDRESS = 20
OPERATOR_CELLS = 16


def operator_description(rng: Random) -> tree.Description:
    """A machine of 64 bits whose one instruction stores eight results of operators on edge values in the cells 0 to 7."""
    stores = (tree.Store(tree.Literal(i, OPERATOR_ADDRESS), _result(rng)) for i in range(8))
    instruction = tree.Instruction("i", "." * MOST_BITS, tuple(stores))
    return tree.Description(MOST_BITS, OPERATOR_ADDRESS, OPERATOR_CELLS, False, (instruction,))


def _result(rng: Random) -> tree.Expression:
    """An operator's result, widened to 64 bits."""
    makers = [_binary_result, _shift_result, _inverse_result, _cat_result, _cut_result, _extend_result, _select_result]
    expression, width = rng.choices(makers, [8, 4, 1, 1, 2, 3, 1])[0](rng, _edge_width(rng))
    if width == MOST_BITS:
        return expression
    upper = _edge_value(rng, MOST_BITS - width)
    signed = rng.random() < 0.5
    return rng.choice([tree.Extend(signed, expression, MOST_BITS), tree.Cat(expression, upper)])


def _edge_width(rng: Random) -> int:
    return rng.choice([1, 2, 32, 33, 63, 64, rng.randint(1, MOST_BITS)])


def _edge_value(rng: Random, width: int) -> tree.Literal:
    """A number of a width: at its edges, or near the width itself or 64, where shifts end."""
    top = 1 << (width - 1)
    edges = [0, 1, -1, -2, top, top - 1, width - 1, width, width + 1, 63, 64, 65, rng.getrandbits(width)]
    return tree.Literal(rng.choice(edges) & mask(width), width)


def _binary_result(rng: Random, width: int) -> tuple[tree.Expression, int]:
    sign = rng.choice([*ARITHMETIC, *COMPARISONS])
    left = _edge_value(rng, width)
    return tree.Binary(sign, left, rng.choice([left, _edge_value(rng, width)])), 1 if sign in COMPARISONS else width


def _shift_result(rng: Random, width: int) -> tuple[tree.Expression, int]:
    right = rng.choice([width, 1, 3, 6, 7, 8, MOST_BITS, rng.randint(1, MOST_BITS)])
    distance = rng.choice([width - 1, width, width + 1, rng.randint(0, 70), _edge_value(rng, right).value])
    return tree.Binary(rng.choice(SHIFTS), _edge_value(rng, width), tree.Literal(distance & mask(right), right)), width


def _inverse_result(rng: Random, width: int) -> tuple[tree.Expression, int]:
    return tree.Not(_edge_value(rng, width)), width


def _cat_result(rng: Random, width: int) -> tuple[tree.Expression, int]:
    width = max(2, width)
    upper = rng.randint(1, width - 1)
    return tree.Cat(_edge_value(rng, upper), _edge_value(rng, width - upper)), width


def _cut_result(rng: Random, width: int) -> tuple[tree.Expression, int]:
    high = rng.choice([width - 1, rng.randrange(width)])
    low = rng.choice([0, high, rng.randint(0, high)])
    return tree.Cut(_edge_value(rng, width), high, low), high - low + 1


def _extend_result(rng: Random, width: int) -> tuple[tree.Expression, int]:
    wider = rng.choice([width, MOST_BITS, rng.randint(width, MOST_BITS)])
    return tree.Extend(rng.random() < 0.5, _edge_value(rng, width), wider), wider


def _select_result(rng: Random, width: int) -> tuple[tree.Expression, int]:
    return tree.Select(_edge_value(rng, 1), _edge_value(rng, width), _edge_value(rng, width)), width
