"""A description as a tree, and walks over it."""

from collections.abc import Iterator
from dataclasses import dataclass, replace
from typing import ClassVar, Self

Block = tuple["Statement", ...]

REGISTERS = ("pc", "mode", "rel", "bound")
"""What an expression may read and a statement may assign, beside cells."""


@dataclass(frozen=True)
class Node:
    """An expression or a statement; PARTS names the fields that hold its own expressions, in the order of the text."""

    PARTS: ClassVar[tuple[str, ...]] = ()

    @property
    def parts(self) -> tuple["Expression", ...]:
        """The expressions right below this one; those of a statement's inner blocks are left out."""
        return tuple(getattr(self, field) for field in self.PARTS)

    def with_parts(self, parts: tuple["Expression", ...]) -> Self:
        """The same with other parts."""
        return replace(self, **dict(zip(self.PARTS, parts))) if self.PARTS else self


class Expression(Node):
    """An expression."""


@dataclass(frozen=True)
class Literal(Expression):
    """`value:width`."""

    value: int
    width: int


@dataclass(frozen=True)
class Name(Expression):
    """A field of the pattern, or a let."""

    name: str


@dataclass(frozen=True)
class Register(Expression):
    """One of REGISTERS, as it was when the instruction began."""

    which: str


@dataclass(frozen=True)
class Load(Expression):
    """`mem[address]`."""

    address: Expression
    PARTS = ("address",)


@dataclass(frozen=True)
class Not(Expression):
    """`~operand`."""

    operand: Expression
    PARTS = ("operand",)


@dataclass(frozen=True)
class Binary(Expression):
    """`(left sign right)`."""

    sign: str
    left: Expression
    right: Expression
    PARTS = ("left", "right")


@dataclass(frozen=True)
class Cat(Expression):
    """`cat(upper, lower)`."""

    upper: Expression
    lower: Expression
    PARTS = ("upper", "lower")


@dataclass(frozen=True)
class Cut(Expression):
    """`cut(operand, high, low)`: the bits low to high."""

    operand: Expression
    high: int
    low: int
    PARTS = ("operand",)


@dataclass(frozen=True)
class Extend(Expression):
    """`ext(operand, width)`, or `sext(operand, width)` where signed."""

    signed: bool
    operand: Expression
    width: int
    PARTS = ("operand",)


@dataclass(frozen=True)
class Select(Expression):
    """`sel(condition, chosen, otherwise)`."""

    condition: Expression
    chosen: Expression
    otherwise: Expression
    PARTS = ("condition", "chosen", "otherwise")


class Statement(Node):
    """A statement."""

    @property
    def blocks(self) -> tuple[Block, ...]:
        """The blocks right inside it."""
        return ()


@dataclass(frozen=True)
class Let(Statement):
    """`let name = value;`"""

    name: str
    value: Expression
    PARTS = ("value",)


@dataclass(frozen=True)
class Store(Statement):
    """`mem[address] = value;`"""

    address: Expression
    value: Expression
    PARTS = ("address", "value")


@dataclass(frozen=True)
class Assign(Statement):
    """`pc = value;` or that of another register."""

    register: str
    value: Expression
    PARTS = ("value",)


@dataclass(frozen=True)
class Trap(Statement):
    """`trap;`"""


@dataclass(frozen=True)
class If(Statement):
    """`if condition { body }`, with `else { otherwise }` where otherwise is not None."""

    condition: Expression
    body: Block
    otherwise: Block | None = None
    PARTS = ("condition",)

    @property
    def blocks(self) -> tuple[Block, ...]:
        return (self.body,) if self.otherwise is None else (self.body, self.otherwise)


@dataclass(frozen=True)
class Instruction:
    """A name, the places of a pattern from the highest bit, and a body."""

    name: str
    pattern: str
    body: Block


@dataclass(frozen=True)
class Description:
    """Bits of a word, bits of an address, most cells, whether traps store a cause, and the instructions."""

    word: int
    address: int
    size: int
    causes: bool
    instructions: tuple[Instruction, ...]


def is_field(place: str) -> bool:
    """Whether a place of a pattern belongs to a field."""
    return "a" <= place <= "z"


def statements(block: Block) -> Iterator[Statement]:
    """The statements of a block in the order of the text, an if before those inside it."""
    for statement in block:
        yield statement
        for inner in statement.blocks:
            yield from statements(inner)


def with_below(expression: Expression) -> Iterator[Expression]:
    """An expression and all below it, in the order of the text."""
    yield expression
    for part in expression.parts:
        yield from with_below(part)


def expressions(block: Block) -> Iterator[Expression]:
    """All expressions of a block and of the blocks inside it."""
    for statement in statements(block):
        for part in statement.parts:
            yield from with_below(part)
