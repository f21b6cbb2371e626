"""`pg_go`: guests that have turns until they are still, and how many turns those are; or one machine until it is still.

A machine is still where a step leaves its whole state as it is. As of `run`, no monitor stands here: the guest's states are those
of a bare machine, and how many turns it has follows from the first of them that is still, the steps and the slice. With `--bare`
that machine is all there is: no certificate, no turns and no slices.
"""

from collections.abc import Sequence
from dataclasses import dataclass
from typing import NamedTuple

from pgvmodel import tree
from pgvmodel.answers import (
    DONE, WORDS, Answer, Load, Refused, World, ask_for_room, ask_to_accept, described, image, told,
)
from pgvmodel.body import mask
from pgvmodel.guests import Asked, storages_of
from pgvmodel.machine import CELLS_A_LINE, Machine, State, base_of, power_on, run_on, state_text
from pgvmodel.questions import NotModelled, Questions
from pgvmodel.words import MOST_IMAGES, RANGES, SLICE, RefusedWords, Request, allowed_number, is_text

NAME = "pg_go"

USAGE = (
    f"usage: {NAME} DESC CERT IMAGE.. --grant G [--steps N] [--slice K] [--show A..B].. [--text A..B[:BITS]]..\n"
    f"       {NAME} --bare DESC IMAGE --grant G [--steps N] [--show A..B].. [--text A..B[:BITS]]..\n"
)

MOST_STEPS = 1 << 57
"""Steps of a guest or a machine at most, and where it is not told how many."""

_RANGES = {"grant": RANGES["grant"], "steps": range(MOST_STEPS + 1), "slice": RANGES["slice"]}
_LEFT_OUT = {"steps": MOST_STEPS, "slice": SLICE}

BARE = "--bare"
"""A word alone: it says that there is a machine, and no guests."""


class _Form(NamedTuple):
    """How many files there may be, and which numbers beside."""

    files: range
    numbers: Sequence[str]


_OF_GUESTS = _Form(range(3, 3 + MOST_IMAGES), ("grant", "steps", "slice"))
"""A description, a certificate and the images."""

_OF_MACHINE = _Form(range(2, 3), ("grant", "steps"))
"""A description and an image."""

SHOW, TEXT = "--show", "--text"

MOST_PIECES = 16
"""Of the two options above, how many may be given in all."""

BITS = 8
"""Bits of a cell that are told as a byte each eight, where it is not told how many."""

_BITS = range(8, 65, 8)
_PLACES = range(_RANGES["grant"].stop)

MOST_MODELLED = 100_000
"""A guest or a machine that makes more steps, and is not still before, is not modelled."""


class Piece(NamedTuple):
    """Cells that are told in place of each state: as words in lines, or so many low bits of each as bytes."""

    cells: range
    bits: int | None = None

    def told(self, state: State, word: int) -> bytes:
        """What is told of a state's cells; each line has the address of its first one, and none is left out."""
        cells = state.cells[self.cells.start : self.cells.stop]
        if self.bits is not None:
            return b"".join((cell & mask(self.bits)).to_bytes(self.bits // 8, "little") for cell in cells) + b"\n"
        lines = []
        for i in range(0, len(cells), CELLS_A_LINE):
            words = " ".join(f"{cell:0{word // 4}x}" for cell in cells[i : i + CELLS_A_LINE])
            lines.append(f"{self.cells.start + i}: {words}\n")
        return "".join(lines).encode()


def _piece(option: str, word: str) -> Piece:
    """What the word behind an option names: `A..B`, B not among them, and behind `--text` perhaps how many bits."""
    bits: int | None = None
    if option == TEXT:
        word, colon, spelled = word.partition(":")
        bits = allowed_number(spelled, _BITS) if colon else BITS
    first, dots, end = word.partition("..")
    if not dots:
        raise RefusedWords
    cells = range(allowed_number(first, _PLACES), allowed_number(end, _PLACES))
    if not cells:
        raise RefusedWords
    return Piece(cells, bits)


@dataclass(frozen=True)
class Reached:
    """Where a machine gets to: the state, behind how many steps, and whether it was found still there."""

    state: State
    steps: int
    is_still: bool

    def line(self) -> str:
        return f"{'still ' if self.is_still else ''}after {self.steps} steps\n"


@dataclass(frozen=True)
class Gone(Reached):
    """A guest at its end, beside it its turns, and the direct ones of them.

    One that is found still has more turns than steps are told: the rest of its slice.
    """

    turns: int
    direct: int


def reached(description: tree.Description, cells: list[int], steps: int) -> Reached:
    """Where a machine gets to from power-on: to its first still state, or behind all of the steps.

    It is found by the step that changes nothing, which is none of those told. So one whose first still state is that behind all
    steps is not told to be still.
    """
    machine, state = Machine(description), power_on(cells)
    for made in range(min(steps, MOST_MODELLED)):
        before = State(state.cells[:], state.psw)
        machine.step(state)
        if state == before:
            return Reached(state, made, is_still=True)
    if steps > MOST_MODELLED:
        raise NotModelled
    return Reached(state, steps, is_still=False)


def gone(description: tree.Description, cells: list[int], base: int, steps: int, slice_: int) -> Gone:
    """What a guest comes to whose grant begins at cell `base`.

    The step that changes nothing is a turn of its own, so one that becomes still with the last step of a slice has the next slice
    too. All turns from there on are as that one, direct or not.
    """
    end = reached(description, cells[:], steps)
    turns, direct = end.steps, run_on(description, power_on(cells), end.steps, base)
    if end.is_still:
        turns = min(steps, (end.steps // slice_ + 1) * slice_)
        direct += Machine(description).is_direct(end.state, base) * (turns - end.steps)
    return Gone(end.state, end.steps, end.is_still, turns, direct)


def answer(words: Sequence[str], load: Load, questions: Questions) -> Answer:
    """What `pg_go` is to answer to the words behind its name: refusals as of `run`, then each guest, then all turns.

    With `--bare` they are those of `bare`, and then there is the one machine. No line on standard error is told, and no text of a
    version.
    """
    if words and words[0] in ("--help", "-h"):
        return told(DONE, USAGE)
    if words and words[0] == "--version":
        raise NotModelled
    try:
        request, pieces = _request(words)
        world = World(load, bool, questions)
        text = world.loaded(request.files[0])
        run = _run_bare if BARE in words else _run_guests
        return run(Asked(request, text, described(text), world), pieces)
    except RefusedWords:
        return told(WORDS, USAGE)
    except Refused as refused:
        return refused.answer._replace(error=None)


def _run_guests(asked: Asked, pieces: Sequence[Piece]) -> Answer:
    storages = storages_of(asked)
    ask_to_accept(asked.description, asked.file(1), asked.world.question(asked.text))
    steps, slice_ = asked.number("steps"), asked.number("slice")
    ends = [gone(asked.description, cells, base_of(k, len(cells)), steps, slice_) for k, cells in enumerate(storages)]
    texts = [f"guest {k}\n".encode() + _told_end(end, asked.description.word, pieces) for k, end in enumerate(ends)]
    last = f"steps {sum(end.turns for end in ends)} direct {sum(end.direct for end in ends)}\n"
    return Answer(DONE, b"".join([*texts, last.encode()]))


def _run_bare(asked: Asked, pieces: Sequence[Piece]) -> Answer:
    """A storage may have all cells of the machine: there is no monitor that takes some."""
    size = asked.number("grant")
    ask_for_room(size, asked.description.size)
    cells = image(0, asked.file(1), asked.description, size)
    end = reached(asked.description, cells, asked.number("steps"))
    return Answer(DONE, _told_end(end, asked.description.word, pieces))


def _told_end(end: Reached, word: int, pieces: Sequence[Piece]) -> bytes:
    """How a run ended, and its state, or the pieces of that."""
    told_cells = [piece.told(end.state, word) for piece in pieces] or [state_text(end.state, word).encode()]
    return b"".join([end.line().encode(), *told_cells])


def _request(words: Sequence[str]) -> tuple[Request, list[Piece]]:
    """What the words ask for, and which cells are told. An option is two words, but for the one that tells which form this is.

    Any other word that begins with a dash is refused; and that one too, where a value has to stand.
    """
    form = _OF_MACHINE if BARE in words else _OF_GUESTS
    files: list[str] = []
    numbers: dict[str, int] = {}
    pieces: list[Piece] = []
    rest = iter(words)
    for word in rest:
        name = word.removeprefix("--")
        if word in (SHOW, TEXT):
            pieces.append(_piece(word, next(rest, "")))
        elif word.startswith("--") and name in form.numbers and name not in numbers:
            numbers[name] = allowed_number(next(rest, ""), _RANGES[name])
        elif not word.startswith("-"):
            files.append(word)
        elif word != BARE:
            raise RefusedWords
    if len(files) not in form.files or "grant" not in numbers or words.count(BARE) > 1 or not all(map(is_text, words)):
        raise RefusedWords
    if len(pieces) > MOST_PIECES or any(piece.cells.stop > numbers["grant"] for piece in pieces):
        raise RefusedWords
    return Request(NAME, tuple(files), {**_LEFT_OUT, **numbers}), pieces
