"""Certificates: for each instruction and each kind a finding with its evidence, which is tried line by line.

The first line at fault refuses. On one line a strange byte comes first, then a form that it has not or that may not stand
there. A header and `end` then close the finding before, and are tried themselves last.
"""

import re
from collections.abc import Callable, Sequence
from dataclasses import dataclass, field

from pgvmodel import tree
from pgvmodel.certificate_lines import (
    REFUTED, SHOWN, Cells, End, Header, Line, NoForm, Removal, Size, Status, Version, parsed,
)
from pgvmodel.clauses import Clause, Clauses, Step
from pgvmodel.families import PURE, Family
from pgvmodel.faults import Fault
from pgvmodel.machine import CELLS_A_LINE, Machine, State
from pgvmodel.pairs import shows

MOST_BYTES = 268_435_456
"""Most bytes of a certificate's file."""

_STRANGE = re.compile(rb"[^\x20-\x7e]")

Question = Callable[[str, str], Sequence[Clause]]
"""The clauses of the question of an instruction's name and a kind."""


@dataclass(frozen=True)
class Mark:
    """What was found of a kind of an instruction; two states where they show it."""

    found: str
    states: tuple[State, ...] = ()


Marks = dict[tuple[str, str], Mark]
"""Marks by the instruction's name and the kind."""


class _Stray(Exception):
    """A line of this form may not stand here."""


@dataclass
class _Log:
    """The evidence of a finding that is refuted or spent: steps; `line` is its header's."""

    line: int
    header: Header
    may_take_away: bool
    question: Callable[[], Sequence[Clause]]
    steps: int = 0
    is_closed: bool = False
    _clauses: Clauses | None = None

    @property
    def clauses(self) -> Clauses:
        """The question is asked where a line needs its clauses, and not before."""
        if self._clauses is None:
            self._clauses = Clauses(self.question())
        return self._clauses

    @property
    def is_refutation(self) -> bool:
        return self.header.found == REFUTED

    def take(self, number: int, line: Line) -> None:
        """A step, or in a refutation of a version that has them a removal."""
        if isinstance(line, Step):
            self.take_step(number, line)
        elif isinstance(line, Removal) and self.is_refutation and self.may_take_away:
            if not self.clauses.take_away(line.numbers):
                raise Fault(f"delete {number}")
        else:
            raise _Stray

    def take_step(self, number: int, step: Step) -> None:
        """A step of a spent finding is not valid in the first place, or else is not worth to be counted."""
        wrong = self.clauses.fault(step)
        if wrong is not None:
            raise Fault(f"step {number} {int(wrong)}")
        if not self.is_refutation and not self.counts(step):
            raise Fault(f"spent {number}")
        self.clauses.add(step)
        self.steps += 1
        self.is_closed |= not step.literals

    def counts(self, step: Step) -> bool:
        """Whether a valid step is one that a search may have spent: not empty, tight, not covered, and not one too many."""
        clauses = self.clauses
        has_room = self.steps < self.header.budget
        return bool(step.literals) and has_room and clauses.is_tight(step) and not clauses.covers(step.literals)

    def close(self) -> Mark:
        """A refutation has the empty clause, a spent finding as many steps as it says."""
        if self.is_refutation and not self.is_closed:
            raise Fault(f"closed {self.line}")
        if not self.is_refutation and self.steps != self.header.budget:
            raise Fault(f"spent {self.line}")
        return Mark(self.header.found)


@dataclass
class _Pair:
    """The evidence of a shown finding: two states. A state is whole from its program status word on; cells may follow."""

    line: int
    is_shown: Callable[[State, State], bool]
    states: list[State] = field(default_factory=list)
    size: int | None = None
    next_cells: int = 0

    def take(self, number: int, line: Line) -> None:
        """A size where a state may begin, then a program status word, then lines of cells, ascending."""
        match line:
            case Size(cells) if self.size is None and len(self.states) < 2:
                self.size = cells
            case Status(psw) if self.size is not None:
                self.states.append(State([0] * self.size, psw))
                self.size, self.next_cells = None, 0
            case Cells(first, words) if self.states and self.size is None:
                self.take_cells(first, words)
            case _:
                raise _Stray

    def take_cells(self, first: int, words: Sequence[int]) -> None:
        """A line is full, but the last one of a storage, which goes up to its end."""
        cells = self.states[-1].cells
        if first < self.next_cells or len(words) != min(CELLS_A_LINE, len(cells) - first):
            raise _Stray
        cells[first : first + len(words)] = words
        self.next_cells = first + CELLS_A_LINE

    @property
    def is_whole(self) -> bool:
        return len(self.states) == 2

    def close(self) -> Mark:
        """The states have to show what is said."""
        if not self.is_shown(*self.states):
            raise Fault(f"pair {self.line}")
        return Mark(SHOWN, tuple(self.states))


class _Verifier:
    """Takes the lines of a certificate of a machine in order."""

    def __init__(self, machine: Machine, question: Question, family: Family) -> None:
        self.machine = machine
        self.question = question
        self.family = family
        self.names = [instruction.name for instruction in machine.description.instructions]
        self.due = [(name, kind) for name in self.names for kind in family.kinds]
        self.version: str | None = None
        self.open: _Log | _Pair | None = None
        self.marks: Marks = {}
        self.is_ended = False

    def line(self, number: int, text: bytes, is_whole: bool) -> None:
        """Takes a line without its line feed; a line that has none is not whole."""
        if _STRANGE.search(text):
            raise Fault(f"token {number}")
        try:
            if not is_whole:
                raise _Stray
            self.take(number, parsed(text.decode("ascii"), self.machine.description, self.family))
        except (NoForm, _Stray):
            raise Fault(f"grammar {number}") from None

    def take(self, number: int, line: Line) -> None:
        """A version on the first line, and there alone; nothing behind `end`."""
        if (number == 1) != isinstance(line, Version) or self.is_ended:
            raise _Stray
        match line:
            case Version(digits):
                if digits not in self.family.versions:
                    raise Fault("version 1")
                self.version = digits
            case Header() | End():
                self.close()
                self.begin(number, line)
            case _ if self.open is None:
                raise _Stray
            case _:
                self.open.take(number, line)

    def close(self) -> None:
        """Closes the finding before a header or `end`."""
        if isinstance(self.open, _Pair) and not self.open.is_whole:
            raise _Stray
        if self.open is not None:
            self.marks[self.due[len(self.marks)]] = self.open.close()
            self.open = None

    def begin(self, number: int, line: Header | End) -> None:
        """A header is that of an instruction, not given already, and the next that is due; at `end` none is due."""
        due = self.due[len(self.marks)] if len(self.marks) < len(self.due) else None
        if isinstance(line, End):
            if due is not None:
                raise Fault(f"missing {' '.join(due)}")
            self.is_ended = True
            return
        told = (line.name, line.kind)
        if line.name not in self.names:
            raise Fault(f"instr {number}")
        if told in self.marks:
            raise Fault(f"extra {number}")
        if told != due:
            raise Fault(f"missing {' '.join(due)}")
        self.open = self.evidence(number, line)

    def evidence(self, number: int, header: Header) -> _Log | _Pair:
        """Takes what belongs to a header."""
        if header.found == SHOWN:
            instruction = self.names.index(header.name)
            return _Pair(number, lambda *states: shows(self.machine, instruction, header.kind, *states))
        may_take_away = self.version == self.family.versions[-1]
        return _Log(number, header, may_take_away, lambda: self.question(header.name, header.kind))


def verified(description: tree.Description, text: bytes, question: Question, family: Family = PURE) -> Marks:
    """The marks of a certificate for a valid description, in the order of its instructions and of the family's kinds.

    Refuses `long`, before all else, or the first line at fault. A text that ends before `end` is read as if that stood behind
    it; where that is no fault, it is one of the grammar of the line where it ought to stand.
    """
    if len(text) > MOST_BYTES:
        raise Fault("long")
    verifier = _Verifier(Machine(description), question, family)
    *lines, rest = text.split(b"\n")
    for number, line in enumerate(lines, 1):
        verifier.line(number, line, is_whole=True)
    behind = len(lines) + 1
    if rest:
        verifier.line(behind, rest, is_whole=False)
    if not verifier.is_ended:
        verifier.line(behind, b"end", is_whole=True)
        raise Fault(f"grammar {behind}")
    return verifier.marks
