#!/usr/bin/env python3
"""Guests of monitors one above the other beside what the model has to answer, and such monitors beside the model.

The model knows no monitor. Here stands one that has the hardware below it run its guest, and is itself a hardware for the next.
Ends with 0 where all is so.
"""

import argparse
import sys
from collections import Counter
from collections.abc import Sequence
from dataclasses import replace
from random import Random
from typing import Protocol

sys.dont_write_bytecode = True  # before the modules of this folder are read, so that it holds sources only

from check_runs import OPEN, REFUSED_TEXT, _Square, load, made_edges, made_system, made_tame, told
from pgvmodel import tree
from pgvmodel.answers import Answer
from pgvmodel.body import Done, ProgramStatusWord
from pgvmodel.command import answer
from pgvmodel.error_lines import missing, unreadable
from pgvmodel.machine import MONITOR_CELLS, SUPERVISOR, USER, Machine, State, composed, power_on, run_guest, window
from pgvmodel.words import FORMS, usage

ALL = frozenset(FORMS)

CLIPPED = b"1: 00000705\n7: 01000000\n"
"""The first step memory traps and enters (s, 0, (7, 5)), of which one cell is there; the second is an add of it to itself."""

CLIPPED_TEXT = (
    *("guest 0", "size 8", "psw s 0 7 5"),
    "0: 00010705 00000705 00000000 00000000 00000000 00000000 00000000 02000000",
    "steps 3 direct 1",
)

UNUSED = Answer(3, usage(ALL).encode())

LINES = (
    *((f"m c w --grant 8 --steps 3 --depth {depth}", told(0, *CLIPPED_TEXT)) for depth in (1, 2, 3, 4)),
    ("m c w --depth=+03 --steps=3 --grant=8", told(0, *CLIPPED_TEXT)),
    ("m c e --grant 2 --steps 0 --depth 4", told(0, "guest 0", "size 2", "psw s 2 0 2", "steps 0 direct 0")),
    # The words: three files, and depths of 1 to 4.
    ("m c w --grant 8 --steps 3 --depth 0", UNUSED),
    ("m c w --grant 8 --steps 3 --depth 5", UNUSED),
    ("m c w --grant 8 --steps 3", UNUSED),
    ("m c w w --grant 8 --steps 3 --depth 1", UNUSED),
    ("m c w --grant 8 --steps 3 --depth 1 --slice 3", UNUSED),
    # The room, of which each monitor takes two cells, and none is left of a small machine.
    ("m none none --grant 57 --steps 0 --depth 4", told(7, "room 57 56")),
    ("m none none --grant 56 --steps 0 --depth 4", Answer(11, b"", missing("none"))),
    ("m none none --grant 63 --steps 0 --depth 1", told(7, "room 63 62")),
    ("m none none --grant 1048575 --steps 0 --depth 2", told(7, "room 1048575 60")),
    ("five none none --grant 2 --steps 0 --depth 2", told(7, "room 2 1")),
    ("five none none --grant 2 --steps 0 --depth 3", told(7, "room 2 0")),
    ("five none none --grant 2 --steps 0 --depth 4", told(7, "room 2 0")),
    ("none none none --grant 63 --steps 0 --depth 4", Answer(11, b"", missing("none"))),
    ("bad none none --grant 63 --steps 0 --depth 4", told(4, "description: grammar 9")),
    # The image, then the certificate, then the verdict.
    ("m none dir --grant 56 --steps 0 --depth 4", Answer(8, b"", unreadable("dir"))),
    ("m none short --grant 56 --steps 0 --depth 4", told(5, "image 0: grammar 1")),
    ("m e i --grant 56 --steps 0 --depth 4", told(6, "certificate: grammar 1")),
    ("m o i --grant 6 --steps 9 --depth 2", OPEN),
    ("r rc e --grant 6 --steps 9 --depth 2", told(1, *REFUSED_TEXT)),
)
"""Words behind `nest`, and the answer."""


class Hardware(Protocol):
    """What a monitor runs on."""

    steps: int
    untrapped: int

    def install(self, size: int) -> None:
        """Begins anew with so many cells of zeros."""

    def step(self) -> None: ...
    def peek(self, at: int) -> int: ...
    def poke(self, at: int, word: int) -> None: ...
    def psw(self) -> ProgramStatusWord: ...
    def set_psw(self, psw: ProgramStatusWord) -> None: ...


class Rig:
    """A hardware in memory."""

    def __init__(self, machine: Machine) -> None:
        self.machine = machine
        self.state = State([], ProgramStatusWord(SUPERVISOR, 2, 0, 0))
        self.steps = self.untrapped = 0

    def install(self, size: int) -> None:
        self.state = power_on([0] * size)

    def step(self) -> None:
        is_done = isinstance(self.machine.attempt(window(self.state), self.state.psw), Done)
        self.untrapped += self.state.psw.mode == USER and is_done
        self.steps += 1
        self.machine.step(self.state)

    def peek(self, at: int) -> int:
        return self.state.cells[at]

    def poke(self, at: int, word: int) -> None:
        self.state.cells[at] = word

    def psw(self) -> ProgramStatusWord:
        return self.state.psw

    def set_psw(self, psw: ProgramStatusWord) -> None:
        self.state.psw = psw


class Level:
    """A monitor with one guest, which is a hardware for what stands above; `below` is the hardware under it."""

    def __init__(self, machine: Machine, below: Hardware) -> None:
        self.machine = machine
        self.below = below
        self.size = 0
        self.virtual = ProgramStatusWord(SUPERVISOR, 2, 0, 0)
        self.steps = self.untrapped = 0

    def install(self, size: int) -> None:
        """All cells of the machine below; the guest has those behind two."""
        whole = self.machine.description.size
        self.below.install(whole)
        self.below.poke(1, self.machine.pack(ProgramStatusWord(SUPERVISOR, 2, 0, whole)))
        self.size = size
        self.set_psw(ProgramStatusWord(SUPERVISOR, 2, 0, size))

    def guest(self) -> State:
        return State([self.peek(at) for at in range(self.size)], self.virtual)

    def step(self) -> None:
        """One step of the hardware below in user mode; where that trapped, one of the guest's own machine is interpreted."""
        guest = self.guest()
        self.steps += 1
        self.below.step()
        if self.below.psw().mode == USER:
            self.untrapped += self.virtual.mode == USER
            self.virtual = self.virtual._replace(p=self.below.psw().p)
            if self.below.psw() != composed(self.guest(), MONITOR_CELLS):
                raise AssertionError("a direct step changed the relocation-bounds register")
            return
        is_done = isinstance(self.machine.attempt(window(guest), guest.psw), Done)
        self.untrapped += guest.psw.mode == USER and is_done
        self.machine.step(guest)
        for at, word in enumerate(guest.cells):
            self.poke(at, word)
        self.set_psw(guest.psw)

    def peek(self, at: int) -> int:
        return self.below.peek(MONITOR_CELLS + at)

    def poke(self, at: int, word: int) -> None:
        self.below.poke(MONITOR_CELLS + at, word)

    def psw(self) -> ProgramStatusWord:
        return self.virtual

    def set_psw(self, psw: ProgramStatusWord) -> None:
        self.virtual = psw
        self.below.set_psw(composed(self.guest(), MONITOR_CELLS))


def wrong_lines() -> list[str]:
    """Lines that are answered otherwise."""
    wrong = []
    others = {"w": CLIPPED, "five": b"machine { word 32; address 8; size 5; }"}
    for words, due in LINES:
        found = answer(("nest", *words.split()), lambda name: others[name] if name in others else load(name), _Square(), on=ALL)
        if found != due:
            wrong.append(f"{words}: {found}, and not {due}")
    return wrong


def nested(description: tree.Description, cells: Sequence[int], depth: int) -> tuple[Rig, Level]:
    """A hardware with so many monitors, and the uppermost of them, whose guest was switched on."""
    rig = Rig(Machine(description))
    below: Hardware = rig
    for number in range(depth):
        size = description.size - MONITOR_CELLS * number
        below = level = Level(Machine(replace(description, size=size)), below)
    level.install(len(cells))
    for at, word in enumerate(cells):
        level.poke(at, word)
    level.set_psw(power_on(list(cells)).psw)
    return rig, level


def wrong_depths(count: int, counts: Counter[str]) -> list[str]:
    """Runs under monitors whose guest comes to another state than the model says, or whose hardware does something else."""
    wrong = []
    for i in range(count):
        rng = Random(f"nested monitors {i}")
        description, (cells, *_) = rng.choice([made_tame, made_edges, made_system])(rng)
        depth, steps = rng.randint(1, 4), rng.choice([1, 2, 5, 20, 60])
        if len(cells) + MONITOR_CELLS * depth > description.size:
            counts["no room"] += 1
            continue
        base = MONITOR_CELLS * depth
        state, direct = run_guest(description, list(cells), steps, base)
        if run_guest(description, list(cells), steps, MONITOR_CELLS)[1] != direct:
            wrong.append(f"nested {i}: under one monitor other steps are direct")
        rig, level = nested(description, cells, depth)
        for _ in range(steps):
            level.step()
        if level.guest() != state or rig.state.cells[base : base + len(cells)] != state.cells:
            wrong.append(f"nested {i}: the state is another")
        if (rig.steps, rig.untrapped, level.steps) != (steps, direct, steps):
            wrong.append(f"nested {i}: {rig.steps} steps, {rig.untrapped} direct, and not {steps} and {direct}")
        machine = Machine(description)
        for number in range(1, depth + 1):
            whole = description.size - MONITOR_CELLS * (number - 1)
            if rig.peek(2 * number - 1) != machine.pack(ProgramStatusWord(SUPERVISOR, 2, 0, whole)):
                wrong.append(f"nested {i}: monitor {number} has another cell 1")
        counts.update({"runs": 1, f"of depth {depth}": 1, "steps": steps, "direct": direct})
    return wrong


def main() -> int:
    parser = argparse.ArgumentParser(description=__doc__, formatter_class=argparse.RawDescriptionHelpFormatter)
    parser.add_argument("--tries", type=int, default=300, metavar="N", help="random runs (default: %(default)s)")
    tries = parser.parse_args().tries
    counts: Counter[str] = Counter()
    wrong = [*wrong_lines(), *wrong_depths(tries, counts)]
    told_counts = ", ".join(f"{number} {name}" for name, number in sorted(counts.items()))
    print("\n".join([*wrong, f"{len(LINES)} rows, {tries} tries with {told_counts}; {len(wrong)} wrong"]))
    return 1 if wrong else 0


if __name__ == "__main__":
    sys.exit(main())
