#!/usr/bin/env python3
"""Guests of a hybrid monitor beside what the model has to answer, worked out by hand; and a hardware under one beside the model.

The model knows no monitor: a guest's state is that of a bare machine, and only steps from its user mode can be direct. Here stands
one that interprets supervisor mode and has the hardware run user mode. Ends with 0 where all is so.
"""

import argparse
import sys
from collections import Counter
from collections.abc import Sequence
from dataclasses import dataclass
from random import Random

sys.dont_write_bytecode = True  # before the modules of this folder are read, so that it holds sources only

from check_runs import ONCE, _Square, as_text, made_edges, made_system, made_tame
from inputs.guest_rows import MACHINE
from inputs.images import GuestImageWriter
from inputs.split import split_description
from pgvmodel import tree
from pgvmodel.answers import Answer
from pgvmodel.body import ProgramStatusWord
from pgvmodel.command import USAGE, answer
from pgvmodel.families import HYBRID
from pgvmodel.hybrid import run_hybrid_guest
from pgvmodel.image import read_image
from pgvmodel.machine import SUPERVISOR, USER, Machine, State, base_of, composed, power_on
from pgvmodel.reader import read
from pgvmodel.words import MOST_IMAGES

WITH_RETURN = MACHINE + b'instr rtu "00000101_................_aaaaaaaa" { mode = 1:1; pc = a; }'
"""`rtu` changes the mode in supervisor mode alone, so only a hybrid monitor may run it."""

RETURNING = b"1: 00020008 05000003 01060506 03000000 00000002"
"""Cell 1 sends traps to 2 in supervisor mode; there is rtu 3, at 3 add 6 5 6, at 4 svc, and 5 holds 2.

    rtu 3 at 2        mode u, P 3                                            interpreted
    add 6 5 6 at 3    cell 6 becomes 2                                       direct
    svc at 4          stores (u, 4, (0, 8)) in cell 0, enters (s, 2, (0, 8)) trapped
    and so once more: cell 6 becomes 4.
"""

RETURNED = (
    *("guest 0", "size 8", "psw s 2 0 8"),
    "0: 01040008 00020008 05000003 01060506 03000000 00000002 00000004 00000000",
    "steps 6 direct 2",
)


BEGUN = (
    *("guest 0", "size 8", "psw s 2 0 8"),
    "0: 00000000 00020008 05000003 01060506 03000000 00000002 00000000 00000000",
)


def accepting(description: bytes) -> bytes:
    """A certificate of the hybrid family that refutes all kinds."""
    names = [instruction.name for instruction in read(description).instructions]
    headers = [f"finding {name} {kind} refuted" for name in names for kind in HYBRID.kinds]
    return as_text([HYBRID.first_line, *(line for header in headers for line in (header, *ONCE)), "end"])


FILES = {
    "r": WITH_RETURN,
    "c": accepting(WITH_RETURN),
    "i": RETURNING,
    "e": b"",
    "p": b"pgcert 2\nend\n",
    "m": b"machine { word 32; address 8; size 64; }",
    "h": b"pghybrid 1\nend\n",
    "v": b"pghybrid 2\nend\n",
    "short": b"2: 00\n",
}


def told(status: int, *lines: str) -> Answer:
    return Answer(status, as_text(lines))


LINES = (
    ("r c i --grant 8 --steps 6", told(0, *RETURNED)),
    ("r c i --grant 8 --steps 6 --slice 1", told(0, *RETURNED)),
    ("r c i e --grant 8 --steps 0", told(0, *BEGUN, "guest 1", "size 8", "psw s 2 0 8", "steps 0 direct 0")),
    ("r c i e --grant 32 --steps 0", told(7, "room 64 62")),
    ("r c short i --grant 31 --steps 0", told(5, "image 0: grammar 1")),
    # A certificate of its own family alone.
    ("m h e --grant 2 --steps 0", told(0, "guest 0", "size 2", "psw s 2 0 2", "steps 0 direct 0")),
    ("m p e --grant 2 --steps 0", told(6, "certificate: grammar 1")),
    ("m v e --grant 2 --steps 0", told(6, "certificate: version 1")),
    ("r h e --grant 2 --steps 0", told(6, "certificate: missing add privileged")),
    ("m h --grant 2 --steps 0", Answer(3, USAGE.encode())),
    (" ".join(["m h", *["e"] * MOST_IMAGES, "e --grant 2 --steps 0"]), Answer(3, USAGE.encode())),
)
"""Words behind `hybrid`, and the answer."""


@dataclass
class HybridMonitor:
    """A hardware of a machine's greatest size, guests with virtual program status words, and the one that is loaded, if any."""

    machine: Machine
    hardware: State
    grant: int
    virtual: list[ProgramStatusWord]
    loaded: int | None = None
    steps: int = 0
    untrapped: int = 0
    loads: int = 0

    def guest(self, number: int) -> State:
        """The state of a guest's own machine."""
        base = base_of(number, self.grant)
        return State(self.hardware.cells[base : base + self.grant], self.virtual[number])

    def turn(self, number: int) -> None:
        """One step of a guest."""
        if self.virtual[number].mode == SUPERVISOR:
            self.interpret(number)
            if self.loaded == number:
                self.loaded = None
            return
        entry = composed(self.guest(number), base_of(number, self.grant))
        if self.loaded != number:
            self.hardware.psw, self.loaded = entry, number
            self.loads += 1
        if self.hardware.psw != entry:
            raise AssertionError("what is loaded is not the guest's program status word")
        self.machine.step(self.hardware)
        self.steps += 1
        if self.hardware.psw.mode == USER:
            self.untrapped += 1
            self.virtual[number] = self.virtual[number]._replace(p=self.hardware.psw.p)
            if self.hardware.psw._replace(p=entry.p) != entry:
                raise AssertionError("a direct step changed the relocation-bounds register")
            return
        self.interpret(number)
        self.loaded = None

    def interpret(self, number: int) -> None:
        """One step of the guest's own machine, without the hardware's."""
        guest, base = self.guest(number), base_of(number, self.grant)
        self.machine.step(guest)
        self.hardware.cells[base : base + self.grant] = guest.cells
        self.virtual[number] = guest.psw

    def run(self, steps: int, slice_: int) -> None:
        """Slices of turns go round until each guest has had its steps."""
        left = [steps] * len(self.virtual)
        while any(left):
            for number in range(len(left)):
                turns = min(slice_, left[number])
                left[number] -= turns
                for _ in range(turns):
                    self.turn(number)


def hybrid_monitor(description: tree.Description, storages: Sequence[list[int]]) -> HybridMonitor:
    """One whose guests were switched on; all other cells of its hardware hold something too."""
    machine, grant = Machine(description), len(storages[0])
    cells = [(1 << description.word) - 1] * description.size
    cells[1] = machine.pack(ProgramStatusWord(SUPERVISOR, 2, 0, description.size))
    for number, storage in enumerate(storages):
        base = base_of(number, grant)
        cells[base : base + grant] = storage
    return HybridMonitor(machine, State(cells, power_on(cells).psw), grant, [power_on(storage).psw for storage in storages])


def wrong_lines() -> list[str]:
    """Lines that are answered otherwise, and what the hardware did in the run that is worked out."""
    wrong = []
    for words, due in LINES:
        found = answer(("hybrid", *words.split()), FILES.__getitem__, _Square())
        if found != due:
            wrong.append(f"{words}: {found}, and not {due}")
    monitor = hybrid_monitor(read(WITH_RETURN), [read_image(RETURNING, 32, 8)])
    monitor.run(6, 6)
    if (monitor.steps, monitor.loads, monitor.untrapped) != (4, 2, 2):
        wrong.append(f"the hardware did {monitor.steps} steps, and was loaded {monitor.loads} times")
    return wrong


def made_split(rng: Random) -> tuple[tree.Description, list[list[int]]]:
    description = split_description(rng)
    count = min(rng.randint(1, MOST_IMAGES), (description.size - 2) // 2)
    grant = rng.randint(2, (description.size - 2) // count)
    images = [GuestImageWriter(rng, description, grant).image() for _ in range(count)]
    return description, [read_image(image, description.word, grant) for image in images]


def wrong_monitors(count: int, counts: Counter[str]) -> list[str]:
    """Runs of a hybrid monitor whose guests come to other states than the model says, or take other steps directly."""
    wrong = []
    for i in range(count):
        rng = Random(f"hybrid monitors {i}")
        description, storages = rng.choice([made_split, made_split, made_tame, made_edges, made_system])(rng)
        steps, slice_ = rng.choice([1, 2, 5, 20, 60, 60]), rng.choice([1, 1, 2, 3, 7, 60])
        alone = [
            run_hybrid_guest(description, list(cells), steps, base_of(n, len(cells))) for n, cells in enumerate(storages)
        ]
        monitor = hybrid_monitor(description, storages)
        monitor.run(steps, slice_)
        if [monitor.guest(number) for number in range(len(storages))] != [state for state, _ in alone]:
            wrong.append(f"hybrid monitor {i}: the states of the guests are others")
        if monitor.untrapped != sum(direct for _, direct in alone):
            wrong.append(f"hybrid monitor {i}: {monitor.untrapped} direct steps, and not {sum(direct for _, direct in alone)}")
        counts.update(guests=len(storages), turns=len(storages) * steps, user=monitor.steps, direct=monitor.untrapped)
    return wrong


def main() -> int:
    parser = argparse.ArgumentParser(description=__doc__, formatter_class=argparse.RawDescriptionHelpFormatter)
    parser.add_argument("--tries", type=int, default=300, metavar="N", help="random runs of a monitor (default: %(default)s)")
    tries = parser.parse_args().tries
    counts: Counter[str] = Counter()
    wrong = [*wrong_lines(), *wrong_monitors(tries, counts)]
    told_counts = ", ".join(f"{number} {name}" for name, number in counts.items())
    print("\n".join([*wrong, f"{len(LINES)} rows, {tries} monitors with {told_counts}; {len(wrong)} wrong"]))
    return 1 if wrong else 0


if __name__ == "__main__":
    sys.exit(main())
