"""Refutations with steps in them on which their end does not rest: what a trimmed log leaves out."""

from collections.abc import Sequence
from random import Random

from inputs.near_steps import covered_resolvent
from pgvmodel.clauses import Clause, Clauses, Step


def padded(rng: Random, question: Sequence[Clause], steps: list[Step]) -> list[Step]:
    """A closed log of valid steps, the same with a few more put in; all are valid where no clause is taken away."""
    kinds = [_with_copy, _with_copy, _with_restated, _with_restated, _with_restated, _with_other, _behind_end]
    for _ in range(rng.choice([1, 2, 2, 3, 5])):
        steps = rng.choice(kinds)(rng, question, steps)
    return steps


def _with_copy(rng: Random, question: Sequence[Clause], steps: list[Step]) -> list[Step]:
    """A step once more behind itself; some later steps have the copy as a hint in its place."""
    i = rng.randrange(len(steps))
    place = rng.randint(i + 1, len(steps))
    moved = _put_in(question, steps, place, steps[i])
    return _taken_for(rng, moved, place, len(question) + 1 + i, len(question) + 1 + place)


def _with_restated(rng: Random, question: Sequence[Clause], steps: list[Step]) -> list[Step]:
    """A step that says what a clause of the question says; some later steps have it as a hint in that one's place."""
    hints = [hint for step in steps for hint in step.hints if hint <= len(question)]
    number = rng.choice([*hints, rng.randint(1, len(question))])
    literals = sorted(set(question[number - 1]), key=abs)
    if len({abs(literal) for literal in literals}) < len(literals):
        return steps
    place = rng.randrange(len(steps))
    moved = _put_in(question, steps, place, Step(tuple(literals), (number,)))
    return _taken_for(rng, moved, place, number, len(question) + 1 + place)


def _taken_for(rng: Random, steps: list[Step], place: int, number: int, other: int) -> list[Step]:
    """Behind a place none, some or all of the hints that name a clause name another one that says the same."""
    taken = rng.choice([0, 0.5, 1])
    named = [tuple(other if hint == number and rng.random() < taken else hint for hint in step.hints) for step in steps]
    return [step._replace(hints=named[k]) if k > place else step for k, step in enumerate(steps)]


def _with_other(rng: Random, question: Sequence[Clause], steps: list[Step]) -> list[Step]:
    """A step that nobody needs, where a try finds one."""
    place = rng.randint(0, len(steps))
    clauses = Clauses(question)
    for step in steps[:place]:
        clauses.add(step)
    found = covered_resolvent(rng, clauses)
    return _put_in(question, steps, place, found) if found else steps


def _behind_end(rng: Random, question: Sequence[Clause], steps: list[Step]) -> list[Step]:
    """Behind the empty clause that clause again, from itself, or any literal from it."""
    ends = [len(question) + 1 + i for i, step in enumerate(steps) if not step.literals]
    variables = Clauses(question).variables
    literals = rng.choice([(), (), (rng.randint(1, variables),), (-rng.randint(1, variables),)]) if variables else ()
    return [*steps, Step(literals, (rng.choice(ends),))]


def _put_in(question: Sequence[Clause], steps: list[Step], place: int, step: Step) -> list[Step]:
    """One more step at a place; the numbers of those behind it are larger by one."""
    first = len(question) + 1 + place
    later = [it._replace(hints=tuple(hint + (hint >= first) for hint in it.hints)) for it in steps[place:]]
    return [*steps[:place], step, *later]
