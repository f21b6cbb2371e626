"""Answers of the program, and the steps that several commands have, each of which may refuse."""

from collections.abc import Callable
from functools import lru_cache, partial
from typing import NamedTuple

from pgvmodel import tree
from pgvmodel.certificate import Marks, Question, verified
from pgvmodel.error_lines import ErrorLine, missing, unreadable, unwritable
from pgvmodel.families import PURE, Family
from pgvmodel.faults import Fault
from pgvmodel.image import read_image
from pgvmodel.questions import Questions
from pgvmodel.reader import read
from pgvmodel.validity import check
from pgvmodel.verdict import ACCEPTED, verdict

DONE = ACCEPTED
WORDS, DESCRIPTION, IMAGE, CERTIFICATE, ROOM, UNREADABLE, UNWRITABLE, MISSING, SOURCE, SAVED = 3, 4, 5, 6, 7, 8, 9, 11, 12, 13
"""The statuses that are compared; `verdict` has those of a machine that is refused, or left open."""

Load = Callable[[str], bytes]
"""The content of the file of a name; raises FileNotFoundError, or another OSError where it cannot be read."""

CanSave = Callable[[str], bool]
"""Whether a file of a name can be written; the empty name is that of none."""

MOST_KEPT = 16
"""Descriptions that are kept; most are named by several lines, one behind the other."""


class File(NamedTuple):
    """A file that is written: its name as the words give it, and its content."""

    name: str
    content: bytes


class Answer(NamedTuple):
    """The status that the program ends with, what stands on its standard output, and the line on standard error, if any.

    Where a file is written whose content is one alone, it is `saved`.
    """

    status: int
    output: bytes
    error: ErrorLine | None = None
    saved: File | None = None


class Refused(Exception):
    """A step refuses, with this answer."""

    def __init__(self, answer: Answer) -> None:
        super().__init__(answer)
        self.answer = answer


class World(NamedTuple):
    """What a command finds: files, where it may save, and the clauses of questions."""

    load: Load
    can_save: CanSave
    questions: Questions

    def loaded(self, name: str) -> bytes:
        """The content of a file that is read."""
        try:
            return self.load(name)
        except FileNotFoundError:
            raise Refused(Answer(MISSING, b"", missing(name))) from None
        except OSError:
            raise Refused(Answer(UNREADABLE, b"", unreadable(name))) from None

    def ask_to_save(self, name: str) -> None:
        """Refuses where nothing can be written under a name."""
        if not self.can_save(name):
            raise Refused(Answer(UNWRITABLE, b"", unwritable(name)))

    def question(self, text: bytes) -> Question:
        """The clauses of the questions of a description."""
        return partial(self.questions.clauses, text)


def told(status: int, text: str) -> Answer:
    """An answer that is a text alone."""
    return Answer(status, text.encode())


def described(text: bytes) -> tree.Description:
    """The valid description of a text."""
    try:
        return _valid(text)
    except Fault as fault:
        raise Refused(told(DESCRIPTION, f"description: {fault.line}\n")) from None


@lru_cache(MOST_KEPT)
def _valid(text: bytes) -> tree.Description:
    description = read(text)
    check(description)
    return description


def ask_for_room(wanted: int, free: int) -> None:
    """Refuses where more cells are wanted than there are."""
    if wanted > free:
        raise no_room(wanted, free)


def no_room(wanted: int, free: int) -> Refused:
    """Why there is no room."""
    return Refused(told(ROOM, f"room {wanted} {free}\n"))


def image(number: int, text: bytes, description: tree.Description, size: int) -> list[int]:
    """The cells of a storage, from the image of this number."""
    try:
        return read_image(text, description.word, size)
    except Fault as fault:
        raise Refused(told(IMAGE, f"image {number}: {fault.line}\n")) from None


def marked(description: tree.Description, certificate: bytes, question: Question, family: Family) -> Marks:
    """The marks of a certificate that is valid."""
    try:
        return verified(description, certificate, question, family)
    except Fault as fault:
        raise Refused(told(CERTIFICATE, f"certificate: {fault.line}\n")) from None


def verifying(description: tree.Description, certificate: bytes, question: Question, family: Family = PURE) -> Answer:
    """What `verify` answers to a certificate, or would to one of the hybrid family."""
    try:
        return told(*verdict(description, marked(description, certificate, question, family), family.kinds))
    except Refused as refused:
        return refused.answer


def ask_to_accept(description: tree.Description, certificate: bytes, question: Question, family: Family = PURE) -> None:
    """Refuses where a certificate is not valid, or the machine is not accepted by it; then it answers as `verify`."""
    ending = verifying(description, certificate, question, family)
    if ending.status != ACCEPTED:
        raise Refused(ending)
