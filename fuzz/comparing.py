"""Runs a case by the program and by the model, and keeps what differs."""

import os
import shlex
import shutil
import subprocess
import traceback
from collections import Counter
from collections.abc import Collection, Iterable, Iterator, Mapping, Sequence
from dataclasses import dataclass, field
from os.path import normpath
from pathlib import Path
from typing import NamedTuple

from inputs.case import CERTIFICATE_FILE, DESCRIPTION_FILE, SAVED_FILE, Case
from judging import Ended, Files, Judge, counted
from judging_generated import GenerationJudge
from judging_migrations import MigrationJudge
from pgvmodel import going, tracing
from pgvmodel.answers import CERTIFICATE, DESCRIPTION, DONE, IMAGE, SAVED, SOURCE, UNWRITABLE, Answer
from pgvmodel.command import SAVING, Answered, Generation, Migration, Search, answer, on_full_output
from pgvmodel.deciding import Solver
from pgvmodel.dump import Dump
from pgvmodel.error_lines import NO_OUTPUT, fits_refusal, fits_side
from pgvmodel.questions import NotModelled, Questions, is_side
from pgvmodel.words import SWITCHED_ON

FULL = "/dev/full"
"""A file that takes nothing."""

SECONDS = 120
"""A run of the program that takes longer is stopped, and differs."""

REFUSED_FILES = (DESCRIPTION, IMAGE, CERTIFICATE, SOURCE, SAVED)
"""Statuses of which the class of the fault is told beside."""

SIDES = {going.NAME: going.answer, tracing.NAME: tracing.answer}
"""The side programs that are modelled."""

WATCHED = (*SAVING, "run", "hybrid", "nest", "asm", "disasm", "resume", *SIDES)
"""Commands whose files are looked at behind a run: some may change, or none of many."""

CHANGED = b"other files were changed, or saved"

MOST_KEPT = 20
"""Differences of a round that are kept; further ones are counted only."""


class Outcome(NamedTuple):
    """How a run ended: its status, standard output and standard error.

    The status is None where the program was stopped, and where the model failed; then the errors have its traceback.
    """

    status: int | None
    output: bytes
    errors: bytes

    def told(self) -> str:
        """The outcome in a line."""
        more = f", errors {_shortened(self.errors)}" if self.errors else ""
        return f"status {self.status}, {_shortened(self.output)}{more}"

    def label(self) -> str:
        """The status, and of a refused file the class of its fault."""
        words = self.output.partition(b": ")[2].split()
        return f"{self.status} {words[0].decode()}" if self.status in REFUSED_FILES and words else str(self.status)


def beside(model: Answer, program: Outcome, longest: int) -> Outcome:
    """The outcome of an answer. What stands on standard error is the program's, where that has the form that is due.

    The longest file has so many bytes.
    """
    if model.error is None:
        fits = fits_refusal(model.status, program.errors, longest, model.output)
        return Outcome(model.status, model.output, program.errors if fits else b"(the form that is due)")
    errors = program.errors if model.error.fits(program.errors) else model.error.spelled()
    return Outcome(model.status, model.output, errors)


def beside_side(model: Outcome, program: Outcome, longest: int) -> Outcome:
    """The outcome of a side program, with what the program says on standard error, where that has the form that is due."""
    if model.status is None:
        return model
    fits = fits_side(model.status, program.errors, longest, model.output)
    return model._replace(errors=program.errors if fits else b"(the form that is due)")


def with_saved(model: Answer, before: Files | None) -> Files | None:
    """The files that are there behind a run: those before it, and the one that it saves, if it does."""
    return before if model.saved is None else {**before, normpath(model.saved.name): model.saved.content}


def _is_of_side(words: Sequence[str]) -> bool:
    """Whether the words call a side program: its name is the first of them."""
    return bool(words) and words[0] in SIDES


def _failed() -> Outcome:
    """The outcome of a model that failed."""
    return Outcome(None, b"", traceback.format_exc().encode())


def _shortened(text: bytes) -> str:
    """A text's begin, or the end of a traceback."""
    if text.startswith(b"Traceback"):
        text = text.rstrip().rpartition(b"\n")[2]
    return repr(text[:120])[1:] + ("..." if len(text) > 120 else "")


class Difference(NamedTuple):
    """Two outcomes of one case, and the folder that keeps it."""

    folder: Path
    program: Outcome
    model: Outcome


@dataclass
class Tally:
    """What a round came to."""

    runs: int = 0
    differences: int = 0
    not_modelled: int = 0
    seen: Counter[str] = field(default_factory=Counter)
    judged: Counter[str] = field(default_factory=Counter)
    kept: list[Difference] = field(default_factory=list)


class Comparison:
    """Compares the program with the model, in a folder of its own."""

    def __init__(
        self,
        program: Path,
        folder: Path,
        questions: Questions,
        solver: Solver | None = None,
        on: Collection[str] = SWITCHED_ON,
    ) -> None:
        self.program = program
        self.on = on
        self.questions = questions
        self.judges = {
            Search: Judge(solver, questions),
            Migration: MigrationJudge(questions),
            Generation: GenerationJudge(questions),
        }
        self.folder = folder
        self.files = folder / "files"
        self.again = folder / "again"
        self.placed: Mapping[str, bytes] | None = None

    def round(self, name: str, cases: Iterable[Case]) -> Tally:
        """Runs all cases of a round, but those that are not modelled."""
        tally = Tally()
        for judge in self.judges.values():
            judge.counts = tally.judged
        for case in cases:
            self.place(case.files)
            model = self.by_model(case)
            if model is None:
                tally.not_modelled += 1
                continue
            before = self.found() if case.words[:1] and case.words[0] in WATCHED else None
            program = self.by_program(case.words, self.files, case.is_full)
            if case.other_words is not None:
                program = self.with_others(program, case.other_words, tally)
            model = self.compared(model, program, before)
            tally.runs += 1
            tally.seen[model.label()] += 1
            if model != program:
                tally.differences += 1
                if len(tally.kept) < MOST_KEPT:
                    folder = self.folder / f"{name}-{tally.runs}"
                    tally.kept.append(self.keep(folder, case, program, model))
        return tally

    def place(self, files: Mapping[str, bytes]) -> None:
        """Makes these the only files where the program runs."""
        if files is self.placed:
            return
        shutil.rmtree(self.files, ignore_errors=True)
        self.files.mkdir()
        for name, content in files.items():
            path = self.files / name
            path.mkdir() if name.endswith("/") else path.write_bytes(content)
        self.placed = files

    def found(self) -> dict[str, bytes | None]:
        """What stands where the program runs; None for a folder."""
        paths = sorted(self.files.rglob("*"))
        return {str(path.relative_to(self.files)): path.read_bytes() if path.is_file() else None for path in paths}

    def load(self, name: str) -> bytes:
        """The file of a name, as the program finds it; the empty name is that of none."""
        if not name:
            raise FileNotFoundError
        with open(os.path.join(self.files, name), "rb") as file:
            return file.read()

    def can_save(self, name: str) -> bool:
        """Whether a file can be written where the program runs; it is left as it is."""
        path = os.path.join(self.files, name)
        try:
            is_new = not os.path.lexists(path)
            with open(path, "ab"):
                pass
            if is_new:
                os.remove(path)
        except OSError:
            return False
        return bool(name)

    def by_model(self, case: Case) -> Answered | Outcome | Dump | None:
        """None where the model has no answer; an outcome where it failed, and of a side program."""
        try:
            if _is_of_side(case.words):
                return self.by_side_model(case)
            answered = answer(case.words, self.load, self.questions, self.can_save, self.on)
            return on_full_output(answered) if case.is_full else answered
        except NotModelled:
            return None
        except Exception:  # a fault of the model is a difference too, and its input is wanted
            return _failed()

    def by_side_model(self, case: Case) -> Outcome | Dump:
        """The outcome of a side program, but for standard error; or the dump that it has to write."""
        if not is_side(self.questions.program):
            raise NotModelled
        answered = SIDES[case.words[0]](case.words[1:], self.load, self.questions)
        if isinstance(answered, Dump):
            return Outcome(UNWRITABLE, b"", b"") if case.is_full else answered
        if case.is_full:
            answered = on_full_output(answered)
        return Outcome(answered.status, answered.output, b"")

    def compared(
        self, model: Answered | Outcome | Dump, program: Outcome, before: Mapping[str, bytes | None] | None
    ) -> Outcome:
        """What the model has to say of a run: the same outcome, where nothing is wrong with it.

        A run that is watched has the files `before` it; else nothing can have changed.
        """
        after = None
        if before is not None:
            after = self.found()
            if after != before:
                self.placed = None
        if isinstance(model, Dump):
            complaints = list(model.complaints(program.output))
            model = Outcome(None, b"", "\n".join(complaints).encode()) if complaints else Outcome(DONE, program.output, b"")
        if isinstance(model, Outcome):
            model = beside_side(model, program, self.longest())
            return model if after == before else model._replace(errors=CHANGED)
        if isinstance(model, Answer):
            outcome = beside(model, program, self.longest())
            return outcome if after == with_saved(model, before) else outcome._replace(errors=CHANGED)
        ended = Ended(program.status, program.output)
        try:
            complaints = list(self.judges[type(model)].complaints(model, ended, before, after, self))
        except Exception:
            return _failed()
        if complaints:
            return Outcome(None, b"", "\n".join(complaints).encode())
        is_full = isinstance(model, Generation) and model.is_full
        error = NO_OUTPUT if is_full else None
        return beside(Answer(program.status, program.output, error), program, self.longest())

    def longest(self) -> int:
        """How many bytes the longest file of the case has."""
        return max((path.stat().st_size for path in self.files.rglob("*") if path.is_file()), default=0)

    def with_others(self, program: Outcome, words: Sequence[str], tally: Tally) -> Outcome:
        """The outcome of a run, or a complaint where one with these other words ends otherwise."""
        other = self.by_program(words, self.files)
        tally.judged["runs with other words"] += 1
        if other == program:
            return program
        return Outcome(None, b"", f"{shlex.join(words)}: {other.told()}, and not {program.told()}".encode())

    def verified(self, description: bytes, certificate: bytes) -> Ended:
        """How the program's `verify` ends, on these texts in a folder of their own."""
        return self.run_again(("verify", DESCRIPTION_FILE, CERTIFICATE_FILE), description, certificate)

    def migrated(self, description: bytes, certificate: bytes) -> tuple[Ended, bytes | None]:
        """How the program's `migrate` ends on them, and what it saves."""
        saved = self.again / SAVED_FILE
        saved.unlink(missing_ok=True)
        ended = self.run_again(("migrate", DESCRIPTION_FILE, CERTIFICATE_FILE, SAVED_FILE), description, certificate)
        return ended, saved.read_bytes() if saved.is_file() else None

    def run_again(self, words: Sequence[str], description: bytes, certificate: bytes) -> Ended:
        """Runs the program on these texts; what is on standard error is counted as output, but for words behind a refusal."""
        self.again.mkdir(exist_ok=True)
        (self.again / DESCRIPTION_FILE).write_bytes(description)
        (self.again / CERTIFICATE_FILE).write_bytes(certificate)
        program = self.by_program(words, self.again)
        words = fits_refusal(program.status, program.errors, len(certificate), program.output)
        return Ended(program.status, program.output + (b"" if words else program.errors))

    def by_program(self, words: Sequence[str], folder: Path, is_full: bool = False) -> Outcome:
        of_side = _is_of_side(words)
        with open(FULL if is_full else os.devnull, "wb") as full:
            try:
                ended = subprocess.run(
                    [self.questions.program if of_side else self.program, *words],
                    cwd=folder,
                    stdin=subprocess.DEVNULL,
                    stdout=full if is_full else subprocess.PIPE,
                    stderr=subprocess.PIPE,
                    timeout=SECONDS,
                    check=False,
                )
            except subprocess.TimeoutExpired:
                return Outcome(None, b"", b"")
        return Outcome(ended.returncode, ended.stdout or b"", ended.stderr)

    def keep(self, folder: Path, case: Case, program: Outcome, model: Outcome) -> Difference:
        """Keeps the files, the words, and what either wrote."""
        folder.mkdir()
        shutil.copytree(self.files, folder / "files")
        (folder / "words").write_bytes(os.fsencode(shlex.join(case.words) + f" > {FULL}" * case.is_full + "\n"))
        for side, outcome in (("program", program), ("model", model)):
            (folder / f"{side}.out").write_bytes(outcome.output)
            (folder / f"{side}.err").write_bytes(outcome.errors)
        return Difference(folder, program, model)


def report(name: str, tally: Tally) -> Iterator[str]:
    """A line for a round, and some for each difference that was kept."""
    seen = ", ".join(f"{label}: {count}" for label, count in sorted(tally.seen.items()))
    if tally.not_modelled:
        seen += f"; not modelled: {tally.not_modelled}"
    yield f"{name:20} {tally.runs:6} runs {tally.differences:4} differences  {seen}"
    if tally.judged:
        yield f"{'':20} {counted(tally.judged)}"
    for difference in tally.kept:
        yield f"  {difference.folder}"
        yield f"    program: {difference.program.told()}"
        yield f"    model:   {difference.model.told()}"
