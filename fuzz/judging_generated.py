"""Judges a run of `gen`: what is made of the number is one thing, but which certificate is found of it is free.

The certificate has to be a valid one, as of `check`, and the text is what follows from its marks. What two states can show of
each body that is drawn is known, and no mark may say otherwise.
"""

from collections import Counter
from collections.abc import Iterator
from dataclasses import replace
from functools import lru_cache, partial

from judging import Again, Ended, Files, Unsaved, faults_of_lines, saved_file
from pgvmodel import tree
from pgvmodel.answers import UNWRITABLE
from pgvmodel.certificate import Marks, verified
from pgvmodel.certificate_lines import SHOWN, SPENT
from pgvmodel.command import Generation
from pgvmodel.families import PURE
from pgvmodel.faults import Fault
from pgvmodel.generator import Generated, run_text
from pgvmodel.pairs import CONTROL, KINDS, LOCATION, PRIVILEGED
from pgvmodel.printer import printed
from pgvmodel.questions import NotModelled, Questions
from pgvmodel.verdict import ACCEPTED, concluded, verdict
from pgvmodel.words import BUDGET

CAN_BE_SHOWN = ({PRIVILEGED}, {PRIVILEGED}, {PRIVILEGED}, {PRIVILEGED}, {CONTROL}, {LOCATION})
"""Of each body that may be drawn the kinds that two states show, worked out by hand."""

MOST_KEPT = 4096
"""Instructions with their findings that are kept; there are six bodies under 60 codes, and each is searched alike each time."""

FRONT, END = PURE.first_line.encode() + b"\nfinding ", b"\nend\n"
"""How a certificate of an instruction or more begins, and how it ends."""


class GenerationJudge:
    """`counts` has what was compared, over all runs that were judged."""

    def __init__(self, questions: Questions) -> None:
        self.questions = questions
        self.counts: Counter[str] = Counter()
        self._alone = lru_cache(MOST_KEPT)(self._verified_alone)

    def complaints(self, asked: Generation, ended: Ended, before: Files, after: Files, again: Again) -> Iterator[str]:
        """What is wrong with a run, in words; nothing where it is one of those that may be."""
        description = asked.made.description
        try:
            saved = saved_file(asked.saved, before, after)
            yield from faults_of_lines(saved, PURE, BUDGET)
            marks = self.marks(description, saved)
        except Unsaved as unsaved:
            yield str(unsaved)
            return
        except Fault as fault:
            yield f"the model of `verify` refuses what is saved: {fault.line}"
            return
        except NotModelled:
            self.counts["certificates not modelled"] += 1
            return
        self.counts["certificates"] += 1
        yield from self.of_answers(asked.made, marks)
        due = Ended(UNWRITABLE, b"") if asked.is_full else due_of(asked.made, marks)
        if ended != due:
            yield f"the marks come to status {due.status}, and to {due.output!r}"
        status, text = verdict(description, marks)
        verified_again = again.verified(printed(description), saved)
        if verified_again != Ended(status, text.encode()):
            yield f"`verify` ends with {verified_again.status}, and writes {verified_again.output[:200]!r}"

    def of_answers(self, made: Generated, marks: Marks) -> Iterator[str]:
        """Each mark beside what can be shown."""
        for instruction, body in zip(made.description.instructions, made.bodies):
            for kind in KINDS:
                found = marks[instruction.name, kind].found
                self.counts[found] += 1
                if found != SPENT and (found == SHOWN) != (kind in CAN_BE_SHOWN[body]):
                    yield f"{instruction.name} {kind} is {found}"

    def marks(self, description: tree.Description, certificate: bytes) -> Marks:
        """Those of the model's verifier; raises Fault.

        A valid certificate is one of each instruction alone, one behind the other, so each of these is verified once for all
        runs. Where one is refused, the whole is asked why.
        """
        findings = certificate.removeprefix(FRONT).removesuffix(END).split(b"\nfinding ")
        is_whole = certificate.startswith(FRONT) and certificate.endswith(END)
        if is_whole and len(findings) == len(KINDS) * len(description.instructions):
            rows = (findings[i : i + len(KINDS)] for i in range(0, len(findings), len(KINDS)))
            try:
                alone = [self._alone(replace(description, instructions=(instruction,)), FRONT + b"\nfinding ".join(row) + END)
                         for instruction, row in zip(description.instructions, rows)]
                return {question: mark for marks in alone for question, mark in marks.items()}
            except Fault:
                pass
        return verified(description, certificate, partial(self.questions.clauses, printed(description)))

    def _verified_alone(self, description: tree.Description, certificate: bytes) -> Marks:
        return verified(description, certificate, partial(self.questions.clauses, printed(description)))


def due_of(made: Generated, marks: Marks) -> Ended:
    """What a run has to end with: the count of instructions, what the marks come to, and of an accepted machine the run."""
    status, conclusion = concluded(made.description, marks)
    text = f"instructions {len(made.description.instructions)}\n{conclusion}\n"
    return Ended(status, (text + run_text(made) if status == ACCEPTED else text).encode())
