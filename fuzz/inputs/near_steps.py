"""Steps that are valid and yet not worth to be counted as spent: not tight, or with a clause inside that is there."""

from random import Random

from pgvmodel.clauses import Clauses, Step, Wrong

TRIES = 20


def loosened(rng: Random, clauses: Clauses, step: Step) -> Step:
    """A valid step with a literal or a hint that it does not need, or one with a variable behind the question's last."""
    kind = rng.choice(["hint", "hint", "any", "any", "last", "behind"])
    if kind == "hint":
        return _with_hint(rng, clauses, step)
    if kind == "behind":
        return _with_literal(step, clauses.variables + 1)
    for _ in range(TRIES):
        variable = clauses.variables if kind == "last" else rng.randint(1, clauses.variables)
        added = _with_literal(step, variable * rng.choice([1, -1]))
        if clauses.fault(added) is None:
            return added
    return step


def _with_literal(step: Step, literal: int) -> Step:
    literals = {abs(kept): kept for kept in (literal, *step.literals)}
    return Step(tuple(literals[variable] for variable in sorted(literals)), step.hints)


def _with_hint(rng: Random, clauses: Clauses, step: Step) -> Step:
    """A hint in front that makes a literal true which no later one may need."""
    units = [hint for hint in clauses.held if clauses.fault(Step(step.literals, (hint,))) is Wrong.NO_CONFLICT]
    rng.shuffle(units)
    candidates = [Step(step.literals, (hint, *step.hints)) for hint in units[:TRIES]]
    return next((added for added in candidates if clauses.fault(added) is None), step)


def covered_resolvent(rng: Random, clauses: Clauses) -> Step | None:
    """A tight step of two hints whose clause holds a literal that stands in a clause alone; None where no try made one."""
    alone = {clause[0] for clause in clauses.held.values() if len(clause) == 1}
    firsts = [number for number, clause in clauses.held.items() if len(clause) > 1 and alone.intersection(clause)]
    for _ in range(TRIES if firsts else 0):
        first = rng.choice(firsts)
        pivot = rng.choice([literal for literal in clauses.held[first] if literal not in alone] or [0])
        seconds = [number for number, clause in clauses.held.items() if -pivot in clause]
        if not seconds:
            continue
        second = rng.choice(seconds)
        literals = {*clauses.held[first], *clauses.held[second]} - {pivot, -pivot}
        step = Step(tuple(sorted(literals, key=abs)), (first, second))
        if not any(-literal in literals for literal in literals) and clauses.fault(step) is None:
            return step
    return None
