"""A small search for values that make all clauses true, which writes down as steps what it learns on the way.

What it learns at a conflict is the resolvent of the clauses that led to it from the last decision's side on. So each step is
tight, and contains no clause that is there.
"""

from collections import defaultdict
from collections.abc import Sequence
from random import Random

from pgvmodel.clauses import Clause, Step


class Search:
    """Clauses are numbered from 1, learned ones behind those of the question; `true` has the literals that are set."""

    def __init__(self, rng: Random, question: Sequence[Clause]) -> None:
        self.clauses: list[list[int]] = [[], *map(list, question)]
        self.variables = sorted({abs(literal) for clause in question for literal in clause})
        self.weight = {variable: rng.random() for variable in self.variables}
        self.signs = {variable: rng.choice([1, -1]) for variable in self.variables}
        self.true: set[int] = set()
        self.trail: list[int] = []
        self.reasons: dict[int, int] = {}
        self.levels: dict[int, int] = {}
        self.level = 0
        self.watched: dict[int, list[int]] = defaultdict(list)
        for number in range(1, len(self.clauses)):
            self.watch(number)

    def steps(self, most: int) -> tuple[list[Step], bool]:
        """At most so many steps, and whether the last one is the empty clause."""
        learned: list[Step] = []
        conflict = self.units()
        while len(learned) < most:
            if conflict is None:
                if not self.decide():
                    break
                conflict = self.spread(len(self.trail) - 1)
                continue
            step = self.resolved(conflict)
            learned.append(step)
            if not step.literals:
                return learned, True
            conflict = self.go_back(step)
        return learned, False

    def units(self) -> int | None:
        """Sets the literals of clauses that have one alone; the number of one that is false, or None."""
        for number in range(1, len(self.clauses)):
            if len(self.clauses[number]) == 1:
                literal = self.clauses[number][0]
                if -literal in self.true:
                    return number
                if literal not in self.true:
                    self.make_true(literal, number)
        return self.spread(0)

    def watch(self, number: int) -> None:
        """A clause is looked at where one of its first two literals became false."""
        for literal in self.clauses[number][:2]:
            self.watched[literal].append(number)

    def make_true(self, literal: int, reason: int) -> None:
        """Makes a literal true; the reason is a clause that has no other one left, or 0 for a decision."""
        self.true.add(literal)
        self.trail.append(literal)
        self.reasons[literal] = reason
        self.levels[abs(literal)] = self.level

    def spread(self, place: int) -> int | None:
        """Sets what follows from the trail from this place on; the number of a clause that is false then, or None."""
        while place < len(self.trail):
            conflict = self.follow(-self.trail[place])
            if conflict is not None:
                return conflict
            place += 1
        return None

    def follow(self, false: int) -> int | None:
        """Looks at the clauses that watch a literal which became false."""
        waiting, self.watched[false] = self.watched[false], []
        for i, number in enumerate(waiting):
            if self.moves_on(number, false):
                continue
            self.watched[false].append(number)
            first = self.clauses[number][0]
            if -first in self.true:
                self.watched[false] += waiting[i + 1 :]
                return number
            if first not in self.true:
                self.make_true(first, number)
        return None

    def moves_on(self, number: int, false: int) -> bool:
        """Puts the false literal second; where another one is not false, the clause watches that in its place."""
        clause = self.clauses[number]
        if len(clause) > 1 and clause[0] == false:
            clause[0], clause[1] = clause[1], clause[0]
        if clause[0] in self.true:
            return False
        for k in range(2, len(clause)):
            if -clause[k] not in self.true:
                clause[1], clause[k] = clause[k], clause[1]
                self.watched[clause[1]].append(number)
                return True
        return False

    def decide(self) -> bool:
        """Sets a variable that is not set; no where there is none."""
        left = [variable for variable in self.variables if variable not in self.levels]
        if not left:
            return False
        variable = max(left, key=self.weight.__getitem__)
        self.level += 1
        self.make_true(variable * self.signs[variable], 0)
        return True

    def resolved(self, conflict: int) -> Step:
        """What a false clause says with the reasons of its literals, back to where one literal of this level is left.

        Without a decision it is the empty clause.
        """
        open_now, kept, hints = set(), set(), [conflict]
        self.sort_out(self.clauses[conflict], open_now, kept)
        for literal in reversed(self.trail):
            if len(open_now) <= (1 if self.level else 0):
                break
            if -literal in open_now:
                open_now.remove(-literal)
                hints.append(self.reasons[literal])
                self.sort_out([part for part in self.clauses[hints[-1]] if part != literal], open_now, kept)
        for literal in kept | open_now:
            self.weight[abs(literal)] += 1
        return Step(tuple(sorted(kept | open_now, key=abs)), tuple(reversed(hints)))

    def sort_out(self, literals: Sequence[int], open_now: set[int], kept: set[int]) -> None:
        """False literals of this level are open, earlier ones are kept."""
        for literal in literals:
            (open_now if self.levels[abs(literal)] == self.level else kept).add(literal)

    def go_back(self, step: Step) -> int | None:
        """Adds a step's clause, goes back to where it first has one literal left, and sets that."""
        levels = sorted(self.levels[abs(literal)] for literal in step.literals)
        self.level = levels[-2] if len(levels) > 1 else 0
        while self.trail and self.levels[abs(self.trail[-1])] > self.level:
            literal = self.trail.pop()
            self.true.remove(literal)
            del self.levels[abs(literal)], self.reasons[literal]
        clause = sorted(step.literals, key=lambda literal: -self.levels.get(abs(literal), self.level + 1))
        self.clauses.append(clause)
        number = len(self.clauses) - 1
        self.watch(number)
        self.make_true(clause[0], number)
        return self.spread(len(self.trail) - 1)
