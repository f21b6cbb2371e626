"""Judges a run of `check` or `hcheck`, which may answer in more than one way: by what can be shown, and by what it says itself.

What other judges ask of a run too stands here as well.
"""

from collections import Counter
from collections.abc import Callable, Iterator, Mapping
from functools import lru_cache, partial
from os.path import normpath
from random import Random
from typing import NamedTuple, Protocol

from inputs.pairs import PairFinder
from pgvmodel import tree
from pgvmodel.answers import CERTIFICATE, verifying
from pgvmodel.command import Search
from pgvmodel.deciding import Answer, Decision, Solver
from pgvmodel.families import PURE, Family
from pgvmodel.machine import Machine, State
from pgvmodel.pairs import shows
from pgvmodel.questions import NotModelled, Questions
from pgvmodel.told import NO, OPEN, YES, Strange, Told, concluded, is_shown, read_verdict
from pgvmodel.verdict import ACCEPTED, REFUSED, UNSETTLED

ROUNDS_OF_TRIES = 30
"""How often pairs are tried where there is no solver."""

MOST_MODELLED_BYTES = 2_000_000
"""Longer certificates take the model of `verify` too long."""

MOST_MODELLED_SPENT = 2_000
"""So do findings that are open after more steps."""


class Ended(NamedTuple):
    """A run of the program: its status and standard output."""

    status: int | None
    output: bytes


OTHER_FAMILY = Ended(CERTIFICATE, b"certificate: grammar 1\n")
"""What `verify` answers to a certificate of the hybrid family."""

Files = Mapping[str, bytes | None]
"""Files by name, as they are found; None for a folder."""


class Again(Protocol):
    """Runs the program on a description's text and a certificate, in a folder of their own."""

    def verified(self, description: bytes, certificate: bytes) -> Ended:
        """How `verify` ends."""

    def migrated(self, description: bytes, certificate: bytes) -> tuple[Ended, bytes | None]:
        """How `migrate` ends, and what it saves."""


class Unsaved(Exception):
    """Nothing is saved, or something else is changed."""


def saved_file(name: str, before: Files, after: Files) -> bytes:
    """The file that a run saved under a name; raises Unsaved where it is not the one that changed."""
    place = normpath(name)
    saved = after.get(place)
    if saved is None:
        raise Unsaved("nothing is saved")
    if {**before, place: saved} != after:
        raise Unsaved(f"other files than the saved one were changed: {sorted(before)} to {sorted(after)}")
    return saved


MOST_KEPT = 256
"""Decisions that are kept; some lists ask of one description often."""


class Judge:
    """Decides questions for itself. `counts` has what was compared, over all runs that were judged."""

    def __init__(self, solver: Solver | None, questions: Questions) -> None:
        self.solver = solver
        self.questions = questions
        self.counts: Counter[str] = Counter()
        self.decided = lru_cache(MOST_KEPT)(self._decided)

    def complaints(self, search: Search, ended: Ended, before: Files, after: Files, again: Again) -> Iterator[str]:
        """What is wrong with a run, in words; nothing where it is one of those that may be."""
        if ended.status not in (ACCEPTED, REFUSED, UNSETTLED):
            yield f"status {ended.status} of a search that can save"
            return
        try:
            saved = saved_file(search.saved, before, after)
            told = read_verdict(ended.output, search.description, search.family.kinds)
        except Unsaved as unsaved:
            yield str(unsaved)
            return
        except Strange as strange:
            yield f"the text is no verdict: {strange}"
            return
        yield from self.of_verdict(search, told, ended.status)
        yield from self.of_certificate(search, ended, saved, again)

    def of_verdict(self, search: Search, told: Told, status: int) -> Iterator[str]:
        """The conclusion follows from the answers, the status from that, pairs show what they are to, no answer is wrong."""
        machine = Machine(search.description)
        conclusion, kinds = concluded(told.answers)
        if told.conclusion != conclusion or tuple(kind for kind, _ in told.shown) != kinds:
            yield f"the answers come to {' '.join(conclusion)}, with {len(kinds)} pairs"
        if told.status != status:
            yield f"status {status} beside the conclusion {told.conclusion[0]}"
        names = list(told.answers)
        for kind, states in told.shown:
            number = names.index(told.conclusion[1]) if told.conclusion[-1] in names else 0
            if not (all(map(machine_has(machine), states)) and shows(machine, number, kind, *states)):
                yield f"the states behind {kind} do not show it"
        for number, (name, row) in enumerate(told.answers.items()):
            for kind in search.family.kinds:
                yield from self.of_answer(machine, number, f"{name} {kind}", kind, row[kind])

    def of_answer(self, machine: Machine, number: int, question: str, kind: str, told: str) -> Iterator[str]:
        """An answer beside the model's own decision."""
        self.counts[told] += 1
        if told == OPEN:
            return
        decided = self.decided(machine.description, number, kind)
        self.counts["undecided" if decided.answer is Answer.UNDECIDED else "decided"] += 1
        if decided.answer is Answer.SHOWN and not is_shown(kind, told):
            yield f"{question} {told}, and these show it: {decided.pair}"
        if decided.answer is Answer.NEVER and is_shown(kind, told):
            yield f"{question} {told}, and nothing can show it"

    def _decided(self, description: tree.Description, number: int, kind: str) -> Decision:
        """By the solver; what it says can't be shown is tried all the same. By trying alone where there is none."""
        machine = Machine(description)
        decided = self.solver.decided(machine, number, kind) if self.solver else Decision(Answer.UNDECIDED)
        if decided.answer is Answer.SHOWN:
            return decided
        finder = PairFinder(Random(f"{number} {kind}"), description)
        pair = next(filter(None, (finder.found(number, kind) for _ in range(1 if self.solver else ROUNDS_OF_TRIES))), None)
        if pair is None:
            return decided
        if decided.answer is Answer.NEVER:
            raise AssertionError(f"the formula of {kind} of instruction {number} has no solution, and these show it: {pair}")
        return Decision(Answer.SHOWN, pair)

    def of_certificate(self, search: Search, ended: Ended, saved: bytes, again: Again) -> Iterator[str]:
        """It has its first line, its open findings have taken what the budget says, and its verifier says the same of it.

        The program's own `verify` has to say so too, but that it refuses the first line of the hybrid family.
        """
        yield from faults_of_lines(saved, search.family, search.budget)
        verified = again.verified(search.text, saved)
        if verified != (ended if search.family is PURE else OTHER_FAMILY):
            yield f"`verify` ends with {verified.status}, and writes {verified.output[:200]!r}"
        if len(saved) > MOST_MODELLED_BYTES or search.budget > MOST_MODELLED_SPENT and b" spent " in saved:
            self.counts["certificates too long"] += 1
            return
        try:
            question = partial(self.questions.clauses, search.text)
            modelled = verifying(search.description, saved, question, search.family)
        except NotModelled:
            self.counts["certificates not modelled"] += 1
            return
        self.counts["certificates"] += 1
        if (modelled.status, modelled.output) != ended:
            yield f"the model of `verify` answers {modelled.status}, {modelled.output[:200]!r}"


def faults_of_lines(saved: bytes, family: Family, budget: int) -> Iterator[str]:
    """What is wrong with a saved certificate's first line, and with the headers of what is left open by a budget."""
    lines = saved.split(b"\n")
    if lines[0] != family.first_line.encode():
        yield f"the certificate begins with {lines[0][:40]!r}"
    for line in lines:
        if line.startswith(b"finding ") and b" spent " in line and line.split()[-1] != b"%d" % budget:
            yield f"{line.decode()!r} with a budget of {budget}"


def machine_has(machine: Machine) -> Callable[[State], bool]:
    """Whether a state is one of the machine's: its size, and each number's width."""
    shape = machine.description

    def has(state: State) -> bool:
        numbers = max(state.psw.p, state.psw.l, state.psw.b) < 1 << shape.address
        return numbers and 2 <= len(state.cells) <= shape.size and max(state.cells) < 1 << shape.word

    return has


def counted(counts: Counter[str]) -> str:
    """What was compared, in a line."""
    answers = (YES, NO, OPEN)
    told = f"answers {', '.join(f'{counts[name]} {name}' for name in answers)}; " if any(map(counts.get, answers)) else ""
    return told + ", ".join(f"{count} {name}" for name, count in sorted(counts.items()) if name not in answers)
