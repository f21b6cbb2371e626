#!/usr/bin/env python3
"""Runs of guests beside what the model has to answer, worked out by hand; and a hardware under a monitor beside the model.

The model of `run` knows no monitor: a guest's state is that of a bare machine. Here stands a monitor that gives slices on one
storage, as the theorem has it, and its guests have to come to the same. Ends with 0 where all is so.
"""

import argparse
import sys
from collections import Counter
from collections.abc import Sequence
from dataclasses import dataclass
from random import Random
from typing import NamedTuple

sys.dont_write_bytecode = True  # before the modules of this folder are read, so that it holds sources only

from inputs.descriptions import TRUSTED_MANNERS, random_description, random_shape
from inputs.guest_rows import DOUBLING, MACHINE, ROWS
from inputs.images import GuestImageWriter
from inputs.programs import TAME
from inputs.systems import System
from inputs.windows import Edges
from pgvmodel import tree
from pgvmodel.answers import Answer
from pgvmodel.body import Done, ProgramStatusWord
from pgvmodel.clauses import Clause
from pgvmodel.command import USAGE, answer
from pgvmodel.error_lines import missing, unreadable
from pgvmodel.image import read_image
from pgvmodel.machine import SUPERVISOR, Machine, State, base_of, composed, power_on, run_guest, window
from pgvmodel.pairs import KINDS
from pgvmodel.reader import read
from pgvmodel.words import MOST_IMAGES

SQUARE: list[Clause] = [(1, 2), (-1, 2), (1, -2), (-1, -2)]
"""The clauses of every question here; they cannot all be true."""

ONCE = ("s 2 0 1 2 0", "s 0 5 3 4 0")
"""A refutation of them."""


class _Square:
    """Answers every question with SQUARE."""

    def clauses(self, *_question: object) -> list[Clause]:
        return SQUARE


def as_text(lines: Sequence[str]) -> bytes:
    return "".join(line + "\n" for line in lines).encode()


def accepting(description: bytes, *, spent: str | None = None) -> bytes:
    """A certificate that refutes all kinds; or that leaves one open, and `privileged` beside it."""
    lines = ["pgcert 2"]
    for instruction in read(description).instructions:
        for kind in KINDS:
            is_spent = spent is not None and kind in ("privileged", spent)
            found, steps = ("spent 1", ONCE[:1]) if is_spent else ("refuted", ONCE)
            lines += [f"finding {instruction.name} {kind} {found}", *steps]
    return as_text([*lines, "end"])


RTU = b'machine { word 32; address 8; size 64; } instr rtu "00000101_................_aaaaaaaa" { mode = 1:1; pc = a; }'
AT_RTU = "0: 00000000 00000000 05000000 00000000"
SHOWN = (
    *("finding rtu privileged shown", "size 4", "psw s 2 0 4", AT_RTU, "size 4", "psw u 2 0 4", AT_RTU),
    *("finding rtu control shown", *("size 4", "psw s 2 0 4", AT_RTU) * 2),
)
REFUSED_TEXT = (
    *("rtu privileged no control yes mode no location no bound no", "refused rtu"),
    *("privileged", "size 4", "psw s 2 0 4", AT_RTU, "size 4", "psw u 2 0 4", AT_RTU),
    *("control", *("size 4", "psw s 2 0 4", AT_RTU) * 2),
)


def refusing() -> bytes:
    """A certificate of RTU that shows what it does."""
    rest = (line for kind in KINDS[2:] for line in (f"finding rtu {kind} refuted", *ONCE))
    return as_text(["pgcert 2", *SHOWN, *rest, "end"])


OPEN_LINE = "{} privileged open control no mode open location no bound no"

FILES = {
    "m": MACHINE,
    "c": accepting(MACHINE),
    "o": accepting(MACHINE, spent="mode"),
    "r": RTU,
    "rc": refusing(),
    "hybrid": b"pghybrid 1\nend\n",
    "bad": b"machine {",
    "i": DOUBLING,
    "e": b"",
    "far": b"60: 00000001\n",
    "twice": b"2: 00000001\n2: 00000001\n",
    "short": b"2: 00\n",
}
"""`dir` is a folder, and `none` is not there."""


def load(name: str) -> bytes:
    if name == "dir":
        raise IsADirectoryError
    if name not in FILES:
        raise FileNotFoundError
    return FILES[name]


class Line(NamedTuple):
    """Words behind `run`, and the answer."""

    words: str
    answer: Answer


def told(status: int, *lines: str) -> Answer:
    return Answer(status, as_text(lines))


EMPTY = ("size 2", "psw s 2 0 2")
USED = Answer(3, USAGE.encode())
OPEN = told(2, *(OPEN_LINE.format(name) for name in ("add", "jmp", "svc", "lr")), "open add privileged")

LINES = (
    Line("m c e --grant 2 --steps 0", told(0, "guest 0", *EMPTY, "steps 0 direct 0")),
    Line("m c e e --slice 1 --grant 2 --steps 0", told(0, "guest 0", *EMPTY, "guest 1", *EMPTY, "steps 0 direct 0")),
    # At 2 there is nothing to fetch, so (s, 2, (0, 2)) is stored; cell 1 has (s, 0, (0, 0)), which is stored by the next trap.
    Line("m c e --grant 2 --steps 1", told(0, "guest 0", "size 2", "psw s 0 0 0", "0: 00020002 00000000", "steps 1 direct 0")),
    Line("m c e --grant 2 --steps 2", told(0, "guest 0", "size 2", "psw s 0 0 0", "steps 2 direct 0")),
    # The words: three to ten files, and numbers in their ranges.
    Line("m c --grant 2 --steps 0", USED),
    Line(
        "m c e e e e e e e e --grant 2 --steps 0",
        told(0, *(line for i in range(8) for line in (f"guest {i}", *EMPTY)), "steps 0 direct 0"),
    ),
    Line("m c e e e e e e e e e --grant 2 --steps 0", USED),
    Line("none c e e e e e e e e e --grant 2 --steps 0", USED),
    Line("m c e --grant 2", USED),
    Line("m c e --grant 1 --steps 0", USED),
    Line("m c e --grant 2 --steps 1000001", USED),
    Line("m c e --grant 2 --steps 0 --slice 0", USED),
    Line("m c e --grant 2 --steps 0 --slice 1000001", USED),
    Line("m c e --grant 2 --steps 0 --slice 3 --slice 3", USED),
    Line("m c e --grant 2 --steps 0 --slice", USED),
    Line("m c e --grant 2 --steps 0 --budget 3", USED),
    # The description, then the room: 62 cells.
    Line("none none none --grant 63 --steps 0", Answer(11, b"", missing("none"))),
    Line("dir none none --grant 63 --steps 0", Answer(8, b"", unreadable("dir"))),
    Line("bad none none --grant 63 --steps 0", told(4, "description: grammar 9")),
    Line("m none none --grant 63 --steps 0", told(7, "room 63 62")),
    Line("m none none none --grant 32 --steps 0", told(7, "room 64 62")),
    Line("m none none e e e e e e e --grant 8 --steps 0", told(7, "room 64 62")),
    Line("m c e e e e e e e e --grant 1048575 --steps 0", told(7, "room 8388600 62")),
    # The images in order, then the certificate.
    Line("m none none --grant 62 --steps 0", Answer(11, b"", missing("none"))),
    Line("m none e dir --grant 31 --steps 0", Answer(8, b"", unreadable("dir"))),
    Line("m none far none --grant 31 --steps 0", told(5, "image 0: address 1")),
    Line("m none e i twice short --grant 8 --steps 0", told(5, "image 2: overlap 2")),
    Line("m none e e e e e e e short --grant 7 --steps 0", told(5, "image 7: grammar 1")),
    Line("m none i --grant 5 --steps 0", told(5, "image 0: address 2")),
    Line("m none i --grant 6 --steps 0", Answer(11, b"", missing("none"))),
    Line("m dir i i --grant 6 --steps 0", Answer(8, b"", unreadable("dir"))),
    Line("m e i i --grant 6 --steps 0", told(6, "certificate: grammar 1")),
    Line("m hybrid i --grant 6 --steps 0", told(6, "certificate: grammar 1")),
    Line("m rc i --grant 6 --steps 0", told(6, "certificate: instr 2")),
    Line("r c i --grant 6 --steps 0", told(6, "certificate: instr 2")),
    # The verdict, where it is not that the machine is accepted.
    Line("m o i --grant 6 --steps 9", OPEN),
    Line("r rc e e --grant 6 --steps 9", told(1, *REFUSED_TEXT)),
)


@dataclass
class Monitor:
    """A hardware of a machine's greatest size, and its guests, each with a virtual program status word of its own."""

    machine: Machine
    hardware: State
    grant: int
    virtual: list[ProgramStatusWord]
    direct: int = 0

    def guest(self, number: int) -> State:
        """The state of a guest's own machine."""
        base = base_of(number, self.grant)
        return State(self.hardware.cells[base : base + self.grant], self.virtual[number])

    def turn(self, number: int) -> None:
        """One step of the hardware in user mode; where that trapped, one of the guest's own machine is interpreted."""
        guest, base = self.guest(number), base_of(number, self.grant)
        entry = self.hardware.psw = composed(guest, base)
        is_direct = isinstance(self.machine.attempt(window(self.hardware), entry), Done)
        self.machine.step(self.hardware)
        if is_direct:
            if self.hardware.psw._replace(p=entry.p) != entry:
                raise AssertionError("a direct step changed the mode or the relocation-bounds register")
            self.direct += 1
            self.virtual[number] = guest.psw._replace(p=self.hardware.psw.p)
            return
        if self.hardware.psw != self.entered():
            raise AssertionError("a trap did not enter the monitor")
        self.machine.step(guest)
        self.hardware.cells[base : base + self.grant] = guest.cells
        self.virtual[number] = guest.psw

    def entered(self) -> ProgramStatusWord:
        """What cell 1 of the hardware holds: supervisor mode, P 2, all cells."""
        return ProgramStatusWord(SUPERVISOR, 2, 0, len(self.hardware.cells))

    def run(self, steps: int, slice_: int) -> None:
        """Slices of turns go round until each guest has had its steps."""
        left = [steps] * len(self.virtual)
        while any(left):
            for number in range(len(left)):
                turns = min(slice_, left[number])
                left[number] -= turns
                for _ in range(turns):
                    self.turn(number)


def monitor(description: tree.Description, storages: Sequence[list[int]]) -> Monitor:
    """One whose guests were switched on; all other cells of its hardware hold something too."""
    machine, grant = Machine(description), len(storages[0])
    cells = [(1 << description.word) - 1] * description.size
    for number, storage in enumerate(storages):
        base = base_of(number, grant)
        cells[base : base + grant] = storage
    made = Monitor(machine, State(cells, power_on(cells).psw), grant, [power_on(storage).psw for storage in storages])
    cells[1] = machine.pack(made.entered())
    return made


def wrong_rows() -> list[str]:
    """Rows and lines that are answered otherwise; each row also with another slice."""
    wrong = []
    for row in ROWS:
        names = [f"i{number}" for number in range(len(row.images))]
        files = {"d": row.description, "c": accepting(row.description), **dict(zip(names, row.images))}
        for slice_ in (row.slice, 1):
            words = ("run", "d", "c", *names, f"--grant={row.grant}", f"--steps={row.steps}", f"--slice={slice_}")
            found = answer(words, files.__getitem__, _Square())
            if found != Answer(0, as_text(row.text)):
                wrong.append(f"{' '.join(words)}: {found}, and not {row.text}")
    for line in LINES:
        found = answer(("run", *line.words.split()), load, _Square())
        if found != line.answer:
            wrong.append(f"{line.words}: {found}, and not {line.answer}")
    return wrong


Made = tuple[tree.Description, list[list[int]]]
"""A machine that a monitor may run, and the storages of its guests, all of one size."""


def made_tame(rng: Random) -> Made:
    shape = random_shape(rng, small=True)
    description = random_description(rng, shape, rng.choice([1, 2, 3, 5]), TRUSTED_MANNERS, TAME)
    count = min(rng.randint(1, MOST_IMAGES), (shape.size - 2) // 2)
    grant = rng.randint(2, (shape.size - 2) // count)
    return description, [
        read_image(GuestImageWriter(rng, description, grant).image(), description.word, grant) for _ in range(count)
    ]


def made_edges(rng: Random) -> Made:
    edges = Edges(rng, is_hosting=True)
    edges.is_guarded = True
    description = read(edges.description())
    return description, [read_image(edges.image(), description.word, edges.grant) for _ in range(edges.guests)]


def made_system(rng: Random) -> Made:
    system = System(rng)
    description = read(system.description())
    return description, [read_image(system.image(), description.word, system.grant) for _ in range(system.guests)]


def wrong_monitors(count: int, counts: Counter[str]) -> list[str]:
    """Runs of a monitor whose guests come to other states than the model says, or take other steps directly."""
    wrong = []
    for i in range(count):
        rng = Random(f"monitors {i}")
        description, storages = rng.choice([made_tame, made_edges, made_system])(rng)
        steps, slice_ = rng.choice([1, 2, 5, 20, 60, 60]), rng.choice([1, 1, 2, 3, 7, 60])
        grant = len(storages[0])
        alone = [run_guest(description, list(cells), steps, base_of(n, grant)) for n, cells in enumerate(storages)]
        run = monitor(description, storages)
        run.run(steps, slice_)
        if [run.guest(number) for number in range(len(storages))] != [state for state, _ in alone]:
            wrong.append(f"monitor {i}: the states of the guests are others")
        if run.direct != sum(direct for _, direct in alone):
            wrong.append(f"monitor {i}: {run.direct} direct steps, and not {sum(direct for _, direct in alone)}")
        elsewhere = rng.choice([2, description.size - grant])
        if [run_guest(description, list(cells), steps, elsewhere)[1] for cells in storages] != [direct for _, direct in alone]:
            wrong.append(f"monitor {i}: from cell {elsewhere} on other steps are direct")
        counts.update(guests=len(storages), turns=len(storages) * steps, direct=run.direct)
    return wrong


def main() -> int:
    parser = argparse.ArgumentParser(description=__doc__, formatter_class=argparse.RawDescriptionHelpFormatter)
    parser.add_argument("--tries", type=int, default=300, metavar="N", help="random runs of a monitor (default: %(default)s)")
    tries = parser.parse_args().tries
    counts: Counter[str] = Counter()
    wrong = [*wrong_rows(), *wrong_monitors(tries, counts)]
    told_counts = ", ".join(f"{number} {name}" for name, number in counts.items())
    print("\n".join([*wrong, f"{len(ROWS) + len(LINES)} rows, {tries} monitors with {told_counts}; {len(wrong)} wrong"]))
    return 1 if wrong else 0


if __name__ == "__main__":
    sys.exit(main())
