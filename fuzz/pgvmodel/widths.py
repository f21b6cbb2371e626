"""The widths of expressions, in bits, and what each statement asks of its own ones."""

from pgvmodel import tree
from pgvmodel.faults import Fault

MOST_BITS = 64
"""A value has 1 to 64 bits."""

SHIFTS = ("<<", ">>")
COMPARISONS = ("==", "<")


class _Misfit(Exception):
    """An expression's parts do not fit."""


def _ask(fits: bool) -> None:
    if not fits:
        raise _Misfit


def check_widths(number: int, instruction: tree.Instruction, description: tree.Description) -> None:
    """Refuses at the first statement whose own expressions misfit; statements are counted from 0 in the order of the text.

    Every name has to be visible and to be given once.
    """
    names = {place: instruction.pattern.count(place) for place in instruction.pattern if tree.is_field(place)}
    widths = _Widths(description, names)
    for place, statement in enumerate(tree.statements(instruction.body)):
        try:
            widths.check(statement)
        except _Misfit:
            raise Fault(f"width {number} {place}") from None


class _Widths:
    """Finds widths; `names` has those of the fields and of the lets that were met."""

    def __init__(self, description: tree.Description, names: dict[str, int]) -> None:
        self.word = description.word
        self.address = description.address
        self.names = names

    def check(self, statement: tree.Statement) -> None:
        """A let takes any width, and keeps it."""
        found = [self.of(part) for part in statement.parts]
        match statement:
            case tree.Let(name):
                self.names[name] = found[0]
            case tree.Store():
                _ask(found == [self.address, self.word])
            case tree.Assign(register):
                _ask(found == [1 if register == "mode" else self.address])
            case tree.If():
                _ask(found == [1])

    def of(self, expression: tree.Expression) -> int:
        """The width of an expression; raises _Misfit where it has none."""
        match expression:
            case tree.Literal(value, width):
                _ask(1 <= width <= MOST_BITS and value < 1 << width)
                return width
            case tree.Name(name):
                return self.names[name]
            case tree.Register(which):
                return 1 if which == "mode" else self.address
        return self.joined(expression, [self.of(part) for part in expression.parts])

    def joined(self, expression: tree.Expression, parts: list[int]) -> int:
        """The width of an expression whose parts have these widths."""
        match expression:
            case tree.Load():
                _ask(parts[0] == self.address)
                return self.word
            case tree.Binary(sign):
                _ask(sign in SHIFTS or parts[0] == parts[1])
                return 1 if sign in COMPARISONS else parts[0]
            case tree.Cat():
                _ask(sum(parts) <= MOST_BITS)
                return sum(parts)
            case tree.Cut(_, high, low):
                _ask(low <= high < parts[0])
                return high - low + 1
            case tree.Extend(_, _, width):
                _ask(parts[0] <= width <= MOST_BITS)
                return width
            case tree.Select():
                _ask(parts[0] == 1 and parts[1] == parts[2])
                return parts[1]
        return parts[0]
