"""What the marks of a certificate come to, and the text of it."""

from collections.abc import Sequence

from pgvmodel import tree
from pgvmodel.certificate import Mark, Marks
from pgvmodel.certificate_lines import REFUTED, SHOWN, SPENT
from pgvmodel.machine import state_text
from pgvmodel.pairs import KINDS, PRIVILEGED

ACCEPTED, REFUSED, UNSETTLED = 0, 1, 2
"""Statuses: a monitor may run the machine; it may not; it is open whether it may."""


def verdict(description: tree.Description, marks: Marks, kinds: Sequence[str] = KINDS) -> tuple[int, str]:
    """The status, and the text: a line for each instruction, then what all of them come to. The kinds are of one family."""
    names = [instruction.name for instruction in description.instructions]
    by_name = {name: {kind: marks[name, kind] for kind in kinds} for name in names}
    status, ending = _ending(by_name, description.word)
    return status, "".join(_line(name, row) for name, row in by_name.items()) + ending


def concluded(description: tree.Description, marks: Marks) -> tuple[int, str]:
    """The status, and what all marks come to in a line, without the states behind it."""
    names = [instruction.name for instruction in description.instructions]
    status, ending = _ending({name: {kind: marks[name, kind] for kind in KINDS} for name in names}, description.word)
    return status, ending.partition("\n")[0]


def _line(name: str, row: dict[str, Mark]) -> str:
    return " ".join([name, *(f"{kind} {_told(kind, mark.found)}" for kind, mark in row.items())]) + "\n"


def _told(kind: str, found: str) -> str:
    """Two states show that an instruction is not privileged, but that it is sensitive."""
    if found == SPENT:
        return "open"
    return "yes" if (found == REFUTED) == (kind == PRIVILEGED) else "no"


def _ending(by_name: dict[str, dict[str, Mark]], word: int) -> tuple[int, str]:
    """Refused by the first instruction that is not privileged, and sensitive.

    Else accepted, where each is privileged or not sensitive; else open by the first of which neither is known.
    """
    for name, row in by_name.items():
        sensitive = [kind for kind in row if kind != PRIVILEGED and row[kind].found == SHOWN]
        if row[PRIVILEGED].found == SHOWN and sensitive:
            pairs = "".join(_pair(kind, row[kind], word) for kind in (PRIVILEGED, sensitive[0]))
            return REFUSED, f"refused {name}\n{pairs}"
    for name, row in by_name.items():
        if row[PRIVILEGED].found != REFUTED and any(row[kind].found != REFUTED for kind in row if kind != PRIVILEGED):
            spent = next(kind for kind in row if row[kind].found == SPENT)
            return UNSETTLED, f"open {name} {spent}\n"
    return ACCEPTED, "accepted\n"


def _pair(kind: str, mark: Mark, word: int) -> str:
    """The kind as a line, and the two states that show it."""
    return f"{kind}\n" + "".join(state_text(state, word) for state in mark.states)
