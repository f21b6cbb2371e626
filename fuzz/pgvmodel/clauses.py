"""Clauses under numbers, and the steps by which a log adds to them.

A clause is a tuple of literals: a variable, 1 and up, or a negated one with a minus sign. A step states a clause and hints,
which are numbers of clauses. It is valid by reverse unit propagation: its literals are set false, and the hints, walked in
order, each leave one literal to be true, until the last one has none left.
"""

from collections.abc import Sequence
from enum import IntEnum
from typing import NamedTuple

Clause = tuple[int, ...]


class Step(NamedTuple):
    """A clause and the numbers of those that show it."""

    literals: Clause
    hints: tuple[int, ...]


class Wrong(IntEnum):
    """Why a step is not valid. The literals are tried first; then the first hint at fault tells."""

    UNKNOWN_LITERAL = 1
    UNKNOWN_HINT = 2
    NOT_UNIT = 3
    NO_CONFLICT = 4


class Clauses:
    """Those of a question, numbered from 1, and those of the valid steps so far, numbered on; some may be taken away."""

    def __init__(self, question: Sequence[Clause]) -> None:
        self.held: dict[int, Clause] = dict(enumerate(question, 1))
        self.last = len(question)
        self.variables = max((abs(literal) for clause in question for literal in clause), default=0)

    def add(self, step: Step) -> Wrong | None:
        """Adds the clause of a valid step under the next number; else says why it is not valid, and adds nothing."""
        wrong = self.fault(step)
        if wrong is None:
            self.last += 1
            self.held[self.last] = step.literals
        return wrong

    def fault(self, step: Step) -> Wrong | None:
        """Why a step is not valid. A literal has to be of a variable up to the greatest that stands in the question."""
        if any(abs(literal) > self.variables for literal in step.literals):
            return Wrong.UNKNOWN_LITERAL
        true = {-literal for literal in step.literals}
        for place, hint in enumerate(step.hints, 1):
            if hint not in self.held:
                return Wrong.UNKNOWN_HINT
            left = _left(self.held[hint], true)
            if left == [] and place == len(step.hints):
                return None
            if left is None or len(left) != 1:
                return Wrong.NOT_UNIT
            true.update(left)
        return Wrong.NO_CONFLICT

    def take_away(self, numbers: Sequence[int]) -> bool:
        """Takes clauses away that all are held; where one is not, none is taken, and the answer is no."""
        if any(number not in self.held for number in numbers):
            return False
        for number in numbers:
            del self.held[number]
        return True

    def covers(self, literals: Clause) -> bool:
        """Whether some clause has none but these literals."""
        wanted = set(literals)
        return any(wanted.issuperset(clause) for clause in self.held.values())

    def is_tight(self, step: Step) -> bool:
        """Whether a valid step is the resolvent of its hints, with nothing added.

        Each of its literals stands in a hint, and each literal that a hint makes true stands negated in a later one.
        """
        hints = [self.held[hint] for hint in step.hints]
        true = {-literal for literal in step.literals}
        for place, clause in enumerate(hints[:-1], 1):
            (made,) = _left(clause, true)
            true.add(made)
            if not any(-made in later for later in hints[place:]):
                return False
        return all(any(literal in clause for clause in hints) for literal in step.literals)


def _left(clause: Clause, true: set[int]) -> list[int] | None:
    """The literals of a clause that are not false; None where one of them is true already."""
    left = [literal for literal in clause if -literal not in true]
    return None if true.intersection(left) else left
