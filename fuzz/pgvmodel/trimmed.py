"""Whether the log of a refutation is an older one trimmed: of its steps those are kept on which the end rests."""

from collections.abc import Sequence

from pgvmodel.certificate_lines import Line
from pgvmodel.clauses import Step


def fault_of_trimming(older: Sequence[Line], log: Sequence[Line], last: int) -> str | None:
    """Why the log is not the older one trimmed, in words; None where it is.

    Both are valid logs of a question with the clauses 1 to `last`. The log ends with the empty clause, each other step of it
    is a hint of a later one, and its steps are steps of the older one, in order. Lines that take clauses away may stand
    anywhere before its end: what they may take is the verifier's to say.
    """
    if not log or not isinstance(log[-1], Step) or log[-1].literals:
        return "it does not end with the empty clause"
    steps, old_steps = _steps(log), _steps(older)
    hints = {hint for step in steps for hint in step.hints}
    spare = [number for number in range(last + 1, last + len(steps)) if number not in hints]
    if spare:
        return f"no later step has clause {spare[0]} as a hint"
    ends = [place for place, step in enumerate(old_steps) if not step.literals]
    if not any(_are_kept(old_steps, steps, last, end) for end in ends):
        return "its steps are not some of the old ones, in order"
    return None


def _steps(log: Sequence[Line]) -> list[Step]:
    return [line for line in log if isinstance(line, Step)]


def _are_kept(old_steps: Sequence[Step], steps: Sequence[Step], last: int, end: int) -> bool:
    """Whether the steps are some of the old ones, in order, the last one being that at the place `end`.

    Equal clauses may stand in the old log more than once. So the hints say which steps are meant, from the end on: each step
    is a hint of a later one, and a hint of an old step names the step that was kept for it.
    """
    meant = {last + len(steps): last + 1 + end}
    for number in range(last + len(steps), last, -1):
        step, old = steps[number - last - 1], old_steps[meant[number] - last - 1]
        if step.literals != old.literals or len(step.hints) != len(old.hints):
            return False
        for hint, old_hint in zip(step.hints, old.hints):
            if min(hint, old_hint) <= last:
                if hint != old_hint:
                    return False
            elif meant.setdefault(hint, old_hint) != old_hint:
                return False
    places = [meant[number] for number in sorted(meant)]
    return all(before < behind for before, behind in zip(places, places[1:]))
