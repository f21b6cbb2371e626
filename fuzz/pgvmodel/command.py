"""What the program answers to its words: the order in which it refuses, and the texts."""

from collections.abc import Collection, Sequence
from typing import NamedTuple

from pgvmodel import guests, tree
from pgvmodel.answers import (
    DONE, SOURCE, UNWRITABLE, WORDS, Answer, CanSave, Load, Refused, World, ask_for_room, described, image, marked, told,
)
from pgvmodel.certificate import Marks
from pgvmodel.error_lines import NO_OUTPUT
from pgvmodel.families import HYBRID, PURE, Family
from pgvmodel.faults import Fault
from pgvmodel.generator import Generated, generated
from pgvmodel.guests import Asked
from pgvmodel.machine import run_bare, state_text
from pgvmodel.printer import printed
from pgvmodel.questions import Questions
from pgvmodel.replayed import replayed
from pgvmodel.source import assembled, disassembled, listed
from pgvmodel.verdict import verdict
from pgvmodel.words import SWITCHED_ON, Request, request, usage

USAGE = usage()
"""What is told of words that are refused."""

SEARCHES = {"check": PURE, "hcheck": HYBRID}
"""Commands that ask questions, and of which kinds."""

RUNS = {"run": guests.run, "hybrid": guests.hybrid, "nest": guests.nest, "save": guests.save, "resume": guests.resume}
"""Commands that run guests."""

SAVING = (*SEARCHES, "migrate", "gen", "save")
"""Commands that save a file."""


class Search(NamedTuple):
    """What `check` or `hcheck` is asked: it may answer in more than one way, which `told.py` and `deciding.py` judge."""

    text: bytes
    description: tree.Description
    family: Family
    saved: str
    budget: int


class Migration(NamedTuple):
    """What `migrate` is asked: its answer is one, but what it saves may be trimmed more or less, which `trimmed.py` judges."""

    text: bytes
    description: tree.Description
    certificate: bytes
    marks: Marks
    saved: str
    answer: Answer


class Generation(NamedTuple):
    """What `gen` is asked: its text rests on what the certificate says that it saves, which `judging_generated.py` judges."""

    made: Generated
    saved: str
    is_full: bool = False


Answered = Answer | Search | Migration | Generation
"""An answer, or what one has to be that is not told to the last byte."""


def answer(
    words: Sequence[str], load: Load, questions: Questions, can_save: CanSave = bool, on: Collection[str] = SWITCHED_ON
) -> Answered:
    """What the program is to answer, where it has the commands that are on. The first step that refuses says so.

    Raises NotModelled where the answer rests on the clauses of a question, and there is no program to ask for them.
    """
    asked = request(words, on)
    if asked is None:
        return told(WORDS, usage(on))
    try:
        return _carried_out(asked, World(load, can_save, questions))
    except Refused as refused:
        return refused.answer


def on_full_output(answered: Answer | Generation) -> Answer | Generation:
    """The same where standard output takes nothing, which is seen where there is something to write."""
    if isinstance(answered, Generation):
        return answered._replace(is_full=True)
    return Answer(UNWRITABLE, b"", NO_OUTPUT, answered.saved) if answered.output else answered


def _carried_out(words: Request, world: World) -> Answered:
    """The description, then what the command does with it. `gen` reads no file."""
    if words.command == "gen":
        world.ask_to_save(words.saved)
        return Generation(generated(words.numbers["number"], words.numbers["size"]), words.saved)
    text = world.loaded(words.files[0])
    asked = Asked(words, text, described(text), world)
    match words.command:
        case "print":
            return Answer(DONE, printed(asked.description))
        case "check" | "hcheck" as command:
            world.ask_to_save(words.saved)
            return Search(text, asked.description, SEARCHES[command], words.saved, asked.number("budget"))
        case "verify" | "replay" | "migrate":
            return _with_certificate(asked)
        case "bare" | "asm" | "disasm":
            return _of_storage(asked)
    return RUNS[words.command](asked)


def _with_certificate(asked: Asked) -> Answer | Migration:
    """The certificate's marks, which are saved before the verdict, replayed, or come to the verdict alone."""
    description, certificate = asked.description, asked.file(1)
    marks = marked(description, certificate, asked.world.question(asked.text), PURE)
    if asked.words.command == "replay":
        return told(DONE, replayed(description, marks))
    ending = told(*verdict(description, marks))
    if asked.words.command == "verify":
        return ending
    asked.world.ask_to_save(asked.words.saved)
    return Migration(asked.text, description, certificate, marks, asked.words.saved, ending)


def _of_storage(asked: Asked) -> Answer:
    """The room, then what a storage of this size holds, then its run, or it in other words."""
    description, size = asked.description, asked.number("grant")
    ask_for_room(size, description.size)
    content = asked.file(1)
    if asked.words.command == "asm":
        return told(DONE, listed(description, _assembled(description, content, size)))
    cells = image(0, content, description, size)
    if asked.words.command == "disasm":
        return told(DONE, disassembled(description, cells))
    return told(DONE, state_text(run_bare(description, cells, asked.number("steps")), description.word))


def _assembled(description: tree.Description, source: bytes, size: int) -> list[int]:
    """The cells of a storage, from a source."""
    try:
        return assembled(description, source, size)
    except Fault as fault:
        raise Refused(told(SOURCE, f"source: {fault.line}\n")) from None
