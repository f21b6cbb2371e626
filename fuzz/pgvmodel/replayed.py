"""The text of `replay`: of each shown finding the two states, and where one step leads from either."""

from collections.abc import Iterator

from pgvmodel import tree
from pgvmodel.certificate import Marks
from pgvmodel.certificate_lines import SHOWN
from pgvmodel.machine import Cause, Machine, State, state_text, window


def replayed(description: tree.Description, marks: Marks) -> str:
    """A line for each shown finding in the order of the certificate, and below it both states with their steps."""
    machine = Machine(description)
    lines = []
    for (name, kind), mark in marks.items():
        if mark.found == SHOWN:
            lines.append(f"{name} {kind}\n")
            lines += [text for state in mark.states for text in _stepped(machine, state)]
    return "".join(lines)


def _stepped(machine: Machine, state: State) -> Iterator[str]:
    """A state, how a step from it ends, and the state behind the step; the one that is handed in stays as it is."""
    word = machine.description.word
    behind = State(list(state.cells), state.psw)
    machine.step(behind)
    yield state_text(state, word)
    yield f"step {_ending(machine, state)}\n"
    yield state_text(behind, word)


def _ending(machine: Machine, state: State) -> str:
    """Traps are told apart by whether memory was the cause."""
    ending = machine.attempt(window(state), state.psw)
    if not isinstance(ending, Cause):
        return "done"
    return "memtrap" if ending is Cause.MEMORY else "trap"
