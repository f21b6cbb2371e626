"""The commands that run guests: under a monitor, a hybrid one or several, from power-on or from where they were saved.

No monitor stands here: a guest's state is that of a machine of its own, and a step of it is direct where the hardware, in user
mode, would make it in the guest's grant. How many turns a guest has at a time, and what other guests do, plays no part.
"""

from collections.abc import Callable, Sequence
from typing import NamedTuple

from pgvmodel import tree
from pgvmodel.answers import (
    DONE, SAVED, Answer, File, Refused, World, ask_for_room, ask_to_accept, image, no_room, told,
)
from pgvmodel.families import HYBRID
from pgvmodel.faults import Fault
from pgvmodel.hybrid import run_hybrid_guest
from pgvmodel.machine import MONITOR_CELLS, State, base_of, run_guest, run_on, state_text
from pgvmodel.saved import Saved, read_saved, saved_text
from pgvmodel.words import Request

Run = Callable[[tree.Description, list[int], int, int], tuple[State, int]]
"""Runs a guest: a machine, the guest's cells, its steps and its base; the state that it comes to, and its direct steps."""


class Asked(NamedTuple):
    """A command of a machine: its words, the text of the description and what that says, and what it finds."""

    words: Request
    text: bytes
    description: tree.Description
    world: World

    def file(self, number: int) -> bytes:
        """The content of the file of this number, by the order of the words."""
        return self.world.loaded(self.words.files[number])

    def number(self, name: str) -> int:
        """The number behind an option."""
        return self.words.numbers[name]


def run(asked: Asked) -> Answer:
    """The room for all guests, the images in order, the certificate and what it comes to, then the run."""
    storages = storages_of(asked)
    ask_to_accept(asked.description, asked.file(1), asked.world.question(asked.text))
    return _guests(asked, storages, run_guest)


def hybrid(asked: Asked) -> Answer:
    """The same, by a certificate of the hybrid family; the hardware makes the turns that begin in user mode alone."""
    storages = storages_of(asked)
    ask_to_accept(asked.description, asked.file(1), asked.world.question(asked.text), HYBRID)
    return _guests(asked, storages, run_hybrid_guest)


def storages_of(asked: Asked) -> list[list[int]]:
    """The cells of all guests, for which there has to be room."""
    names, grant = asked.words.files[2:], asked.number("grant")
    ask_for_room(len(names) * grant, asked.description.size - MONITOR_CELLS)
    return [image(number, asked.world.loaded(name), asked.description, grant) for number, name in enumerate(names)]


def _guests(asked: Asked, storages: Sequence[list[int]], run_one: Run) -> Answer:
    """The state of each guest after its steps, then all steps, and how many of them were direct."""
    steps = asked.number("steps")
    ends = [run_one(asked.description, cells, steps, base_of(k, len(cells))) for k, cells in enumerate(storages)]
    return told(DONE, _run_text([state for state, _ in ends], len(ends) * steps, sum(direct for _, direct in ends), asked))


def _run_text(states: Sequence[State], steps: int, direct: int, asked: Asked) -> str:
    texts = (f"guest {number}\n{state_text(state, asked.description.word)}" for number, state in enumerate(states))
    return "".join(texts) + f"steps {steps} direct {direct}\n"


def nest(asked: Asked) -> Answer:
    """Monitors one above the other, each of which takes two cells of the one below, and a guest of the uppermost.

    They come to what one monitor comes to. The guest's cells lie behind those of all monitors.
    """
    grant, room = asked.number("grant"), asked.description.size - MONITOR_CELLS * asked.number("depth")
    if grant > room:
        raise no_room(grant, max(0, room))
    cells = image(0, asked.file(2), asked.description, grant)
    ask_to_accept(asked.description, asked.file(1), asked.world.question(asked.text))
    state, direct = run_guest(asked.description, cells, asked.number("steps"), asked.description.size - room)
    return told(DONE, _run_text([state], asked.number("steps"), direct, asked))


def save(asked: Asked) -> Answer:
    """A run of one guest, that is saved before its text is written; nothing is saved of a machine that is not accepted."""
    grant, steps = asked.number("grant"), asked.number("steps")
    ask_for_room(grant, asked.description.size - MONITOR_CELLS)
    cells = image(0, asked.file(2), asked.description, grant)
    ask_to_accept(asked.description, asked.file(1), asked.world.question(asked.text))
    state, direct = run_guest(asked.description, cells, steps, base_of(0, grant))
    asked.world.ask_to_save(asked.words.saved)
    content = saved_text(Saved(steps, state), asked.description.word)
    return told(DONE, _run_text([state], steps, direct, asked))._replace(saved=File(asked.words.saved, content))


def resume(asked: Asked) -> Answer:
    """A run of one guest from where it was saved, which is read before the room is tried; and all of its steps so far."""
    begun = _saved(asked, asked.file(2))
    size, skip, steps = len(begun.state.cells), asked.number("skip"), asked.number("steps")
    ask_for_room(size + skip, asked.description.size - MONITOR_CELLS)
    ask_to_accept(asked.description, asked.file(1), asked.world.question(asked.text))
    direct = run_on(asked.description, begun.state, steps, MONITOR_CELLS + skip)
    return told(DONE, f"{_run_text([begun.state], steps, direct, asked)}total {begun.steps + steps}\n")


def _saved(asked: Asked, text: bytes) -> Saved:
    try:
        return read_saved(text, asked.description)
    except Fault as fault:
        raise Refused(told(SAVED, f"saved: {fault.line}\n")) from None
