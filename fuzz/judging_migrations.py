"""Judges a run of `migrate`: the verdict is one text, but how far a log is trimmed is free within what `trimmed.py` says.

What was saved is migrated once more. The text of that need not be the same: it has to be a migrated certificate of the first
one, by all that is asked here, and so again a valid one with the same marks.
"""

from collections import Counter
from collections.abc import Iterator, Sequence
from functools import partial
from typing import NamedTuple

from judging import MOST_MODELLED_BYTES, Again, Ended, Files, Unsaved, saved_file
from pgvmodel.certificate import verified
from pgvmodel.certificate_lines import REFUTED, Line, parsed
from pgvmodel.clauses import Step
from pgvmodel.command import Migration
from pgvmodel.families import PURE
from pgvmodel.faults import Fault
from pgvmodel.questions import NotModelled, Questions
from pgvmodel.trimmed import fault_of_trimming


class Finding(NamedTuple):
    """A finding of a certificate: the words of its header, and the lines below it."""

    header: tuple[str, ...]
    lines: tuple[str, ...]


def findings(certificate: bytes) -> list[Finding]:
    """Those of a valid certificate, in order."""
    _, *texts = certificate.decode().removesuffix("end\n").split("\nfinding ")
    return [Finding(tuple(header.split(" ")), tuple(lines)) for header, *lines in map(str.splitlines, texts)]


class MigrationJudge:
    """`counts` has what was compared, over all runs that were judged."""

    def __init__(self, questions: Questions) -> None:
        self.questions = questions
        self.counts: Counter[str] = Counter()

    def complaints(self, asked: Migration, ended: Ended, before: Files, after: Files, again: Again) -> Iterator[str]:
        """What is wrong with a run, in words; nothing where it is one of those that may be."""
        due = Ended(asked.answer.status, asked.answer.output)
        if ended != due:
            yield f"the verdict is {due.status}, {due.output[:200]!r}"
            return
        try:
            saved = saved_file(asked.saved, before, after)
        except Unsaved as unsaved:
            yield str(unsaved)
            return
        yield from self.of_certificate(asked, asked.certificate, saved, again)
        ended_again, twice = again.migrated(asked.text, saved)
        if ended_again != due:
            yield f"migrated once more it ends with {ended_again.status}, and writes {ended_again.output[:200]!r}"
        elif twice is None:
            yield "migrated once more it is not saved"
        else:
            self.counts["the same once more"] += twice == saved
            yield from (f"migrated once more: {line}" for line in self.of_certificate(asked, saved, twice, again))

    def of_certificate(self, asked: Migration, older: bytes, saved: bytes, again: Again) -> Iterator[str]:
        """It has its first line, and is valid with the same marks, by the program and by the model; then its findings."""
        first = saved.partition(b"\n")[0]
        if first != PURE.first_line.encode():
            yield f"the certificate begins with {first[:40]!r}"
        ended = again.verified(asked.text, saved)
        if ended != asked.answer[:2]:
            yield f"`verify` ends with {ended.status}, and writes {ended.output[:200]!r}"
        if len(saved) > MOST_MODELLED_BYTES:
            self.counts["certificates too long"] += 1
            return
        try:
            marks = verified(asked.description, saved, partial(self.questions.clauses, asked.text))
        except NotModelled:
            self.counts["certificates not modelled"] += 1
            return
        except Fault as fault:
            yield f"the model of `verify` refuses it: {fault.line}"
            return
        self.counts["certificates"] += 1
        if marks != asked.marks:
            yield "its marks are others"
        yield from self.of_findings(asked, findings(older), findings(saved))

    def of_findings(self, asked: Migration, older: Sequence[Finding], saved: Sequence[Finding]) -> Iterator[str]:
        """The same ones in the same order: line by line, but that a refutation is trimmed."""
        if [finding.header for finding in older] != [finding.header for finding in saved]:
            yield "its findings are others"
            return
        for old, new in zip(older, saved):
            if old.header[2] == REFUTED:
                fault = self.of_log(asked, old, new)
                if fault is not None:
                    yield f"{' '.join(new.header)}: {fault}"
            elif old.lines != new.lines:
                yield f"{' '.join(new.header)}: it is not kept line by line"
            else:
                self.counts["kept"] += 1

    def of_log(self, asked: Migration, old: Finding, new: Finding) -> str | None:
        """Why a refutation is not the old one trimmed, or None."""
        name, kind, _ = old.header
        clauses = self.questions.clauses(asked.text, name, kind)
        logs: list[list[Line]] = [[parsed(line, asked.description) for line in finding.lines] for finding in (old, new)]
        self.counts["refuted"] += 1
        self.counts["steps dropped"] += _steps(logs[0]) - _steps(logs[1])
        return fault_of_trimming(*logs, len(clauses))


def _steps(log: Sequence[Line]) -> int:
    return sum(isinstance(line, Step) for line in log)
