#!/usr/bin/env python3
"""Traces beside what the model has to answer, worked out by hand; and random ones, whose lines are made again on a storage.

What the lines of a trace tell has to lead from the first state to the last one, which is that of `bare`; its counts have to be
those of its lines. Dumps are written here, and read by the model, some of them with a fault. Ends with 0 where all is so.
"""

import argparse
import re
import sys
from collections import Counter
from collections.abc import Iterator
from random import Random
from typing import NamedTuple

sys.dont_write_bytecode = True  # before the modules of this folder are read, so that it holds sources only

from check_runs import as_text, load, told
from inputs import traces, windows
from inputs.case import DESCRIPTION_FILE, IMAGE_FILE
from inputs.guest_rows import CAUSES, MACHINE
from pgvmodel import tree
from pgvmodel.answers import Answer, described
from pgvmodel.dump import Dump, Row
from pgvmodel.faults import Fault
from pgvmodel.image import read_image
from pgvmodel.machine import State, power_on, run_bare, state_text
from pgvmodel.tracing import USAGE, answer, has_trapped, is_still, trace, until
from rounds import bare_runs, tame_bare_runs

OTHER = b"""machine { word 24; address 5; size 20; }
instr both "0001_bbbbb_....._aaaaa_....." { mem[a] = (mem[a] + 1:24); if (a == b) { trap; } mem[b] = mem[a]; mem[a] = 0:24; }
instr nop "0010...................." { }
instr down "0011_..............._lllll" { mode = 1:1; rel = l; bound = 9:5; pc = pc; }
"""
"""`both` stores three times, and traps behind the first one where its fields are equal; `down` leads to user mode."""


class Traced(NamedTuple):
    """A machine, its image, the words behind `--grant`, and the lines of the trace."""

    description: bytes
    image: bytes
    words: str
    lines: tuple[str, ...]


NO_TRAPS = ("trap (memory) 0", "trap (trap) 0", "trap (no pattern) 0")

HERE = b"2: 01050505 02000003 00000000 00000001\n"
HERE_LINES = (
    "      1 s     2 01050505 add x=5 y=5 z=5          [5]=00000002",
    "      2 s     3 02000003 jmp a=3                  P=3",
    "      3 s     3 02000003 jmp a=3                  P=3",
)
HERE_STATE = ("size 8", "psw s 3 0 8", "0: 00000000 00000000 01050505 02000003 00000000 00000002 00000000 00000000")

SYSTEM = b"1: 01020004 03000000 ffffffff\n"
"""A trap leads to user mode and a window of four cells, and there to itself."""

SYSTEM_LINES = (
    "      1 s     2 03000000 svc                      trap (trap) [0]=00020008 to u 2 R=0,4",
    "      2 u     2 03000000 svc                      trap (trap) [0]=01020004 to u 2",
)

ROWS = (
    Traced(MACHINE, HERE, "8 --steps 3", (*HERE_LINES, "instr add 1", "instr jmp 2", *NO_TRAPS, "steps 3", *HERE_STATE)),
    Traced(MACHINE, HERE, "8 --steps 3 --only-traps", ("instr add 1", "instr jmp 2", *NO_TRAPS, "steps 3", *HERE_STATE)),
    Traced(MACHINE, HERE, "8 --steps 3 --counts", ("instr add 1", "instr jmp 2", *NO_TRAPS, "steps 3")),
    Traced(MACHINE, HERE, "8 --steps 3 --counts --only-traps", ("instr add 1", "instr jmp 2", *NO_TRAPS, "steps 3")),
    # Still behind the first step; P is 3 there too, and 2 behind none.
    *(
        Traced(MACHINE, HERE, f"8 --steps {steps} --until {end}", (HERE_LINES[0], "instr add 1", *NO_TRAPS, "steps 1", *HERE_STATE))
        for steps, end in ((1, "still"), (2, "still"), (1_000_000, "still"), (9, "P=3"), (1, "trap"), (1, "P=7"))
    ),
    Traced(MACHINE, HERE, "8 --steps 9 --until P=2 --counts", (*NO_TRAPS, "steps 0")),
    Traced(MACHINE, HERE, "8 --steps 0 --until trap --counts", (*NO_TRAPS, "steps 0")),
    Traced(MACHINE, HERE, "8 --steps 4 --until trap --counts", ("instr add 1", "instr jmp 3", *NO_TRAPS, "steps 4")),
    # The second trap stores the status word of the user, and every later one does.
    Traced(
        MACHINE,
        SYSTEM,
        "8 --steps 9 --until still",
        (
            *(*SYSTEM_LINES, "instr svc 2", "trap (memory) 0", "trap (trap) 2", "trap (no pattern) 0", "steps 2"),
            *("size 8", "psw u 2 0 4", "0: 01020004 01020004 03000000 ffffffff 00000000 00000000 00000000 00000000"),
        ),
    ),
    Traced(
        *(MACHINE, SYSTEM, "8 --steps 9 --until trap --counts"),
        ("instr svc 1", "trap (memory) 0", "trap (trap) 1", "trap (no pattern) 0", "steps 1"),
    ),
    Traced(
        *(MACHINE, SYSTEM, "8 --steps 1 --only-traps"),
        (
            *(SYSTEM_LINES[0], "instr svc 1", "trap (memory) 0", "trap (trap) 1", "trap (no pattern) 0", "steps 1"),
            *("size 8", "psw u 2 0 4", "0: 00020008 01020004 03000000 ffffffff 00000000 00000000 00000000 00000000"),
        ),
    ),
    # A word without a pattern; then one whose address is not usable, and P outside the window. With causes.
    Traced(
        CAUSES,
        b"1: 01020003 00000000\n",
        "4 --steps 2",
        (
            "      1 s     2 00000000 -                        trap (no pattern) [0]=06020004 to u 2 R=0,3",
            "      2 u     2 00000000 -                        trap (no pattern) [0]=07020003 to u 2",
            *("no instr 2", "trap (memory) 0", "trap (trap) 0", "trap (no pattern) 2", "steps 2"),
            *("size 4", "psw u 2 0 3", "0: 07020003 01020003 00000000 00000000"),
        ),
    ),
    Traced(
        CAUSES,
        b"1: 01030003 05000004\n",
        "4 --steps 2",
        (
            "      1 s     2 05000004 look a=4                 trap (memory) [0]=02020004 to u 3 R=0,3",
            "      2 u     3 -        -                        trap (memory) [0]=03030003 to u 3",
            *("instr look 1", "no instr 1", "trap (memory) 2", "trap (trap) 0", "trap (no pattern) 0", "steps 2"),
            *("size 4", "psw u 3 0 3", "0: 03030003 01030003 05000004 00000000"),
        ),
    ),
    # Stores in their order, fields from the highest bit, a window that begins at cell 3; stores before a trap are none.
    #   both b=4 a=5 at 2: cell 5 becomes 1, cell 4 does, cell 5 becomes 0.   down l=3 at 3: P 3 is cell 6 then.
    #   At 6 both b=1 a=1: cell 4 would become 2, and it traps: cell 0 gets (u, 3, (3, 9)), and cell 1 has (s, 7, (0, 20)).
    Traced(
        OTHER,
        b"1: 001c14 1200a0 300003\n6: 108020 200000\n",
        "20 --steps 4",
        (
            "      1 s     2 1200a0 both b=4 a=5             [5]=000001 [4]=000001 [5]=000000",
            "      2 s     3 300003 down l=3                 P=3 mode=u R=3,9",
            "      3 u     3 108020 both b=1 a=1             trap (trap) [0]=008c69 to s 7 R=0,20",
            "      4 s     7 200000 nop                     ",
            *("instr both 2", "instr nop 1", "instr down 1", "trap (memory) 0", "trap (trap) 1", "trap (no pattern) 0", "steps 4"),
            *("size 20", "psw s 8 0 20", "0: 008c69 001c14 1200a0 300003 000001 000000 108020 200000"),
        ),
    ),
)

USED = Answer(3, USAGE.encode())
START = told(0, *NO_TRAPS, "steps 0", "size 2", "psw s 2 0 2")

LINES = (
    ("m e --grant 2 --steps 0", START),
    ("--steps 0 m --grant +02 e --only-traps", START),
    ("--counts m e --steps 0 --grant 2", told(0, *NO_TRAPS, "steps 0")),
    ("--help x", Answer(0, USAGE.encode())),
    # The words: two files; options once, those with a value as two words; and such as may not stand together.
    *((words, USED) for words in ("", "m --grant 2 --steps 0", "m e e --grant 2 --steps 0", "m e --grant 2", "m e --steps 2")),
    *((f"m e --grant 2 --steps 0 {more}", USED) for more in ("-", "--", "-h", "--help", "--steps 0", "--until", "--cert", "-x")),
    *((f"m e --grant 2 --steps 0 {more}", USED) for more in ("--cert -x", "--cert --counts", "--cert -")),
    *((f"m e --grant 2 --steps 0 {more}", USED) for more in ("--counts --counts", "--until=still", "--until still --until still")),
    *((f"m e --grant 2 --steps 0 --until {end}", USED) for end in ("x", "P", "P=", "P=1048576", "P=-1", "p=2", "--counts")),
    *((f"m e --grant 2 --steps 0 --vcd {more}", USED) for more in ("--only-traps", "--counts", "--json", "--vcd")),
    *((f"m e --grant 2 --steps 0 --json {more}", USED) for more in ("--only-traps", "--counts", "--json")),
    *((f"m e --steps 0 --grant {grant}", USED) for grant in ("1", "1048576", "-2", "x", "--steps")),
    *((f"m e --grant 2 --steps {steps}", USED) for steps in ("1000001", "-1", "0x1")),
    # The description, the room, the image.
    ("none none --grant 65 --steps 0", Answer(11, b"")),
    ("dir none --grant 65 --steps 0", Answer(8, b"")),
    ("bad none --grant 65 --steps 0", told(4, "description: grammar 9")),
    ("m none --grant 65 --steps 0 --json", told(7, "room 65 64")),
    ("m none --grant 64 --steps 0 --vcd", Answer(11, b"")),
    ("m dir --grant 64 --steps 0", Answer(8, b"")),
    ("m twice --grant 8 --steps 0 --vcd", told(5, "image 0: overlap 2")),
    ("e m --grant 8 --steps 0", told(4, "description: grammar 0")),
)

HEAD = (
    *("$date today $end", "$timescale 1ns $end", "$scope module pgv $end", "$var wire 1 ! mode $end", '$var wire 8 " P [7:0] $end'),
    *("$var wire 8 # l $end", "$var wire 8 $ b $end", "$var wire 2 % instr $end", "$var wire 2 & cause $end", "$upscope $end"),
    "$enddefinitions $end",
)
FIRST = ("0!", 'b10 "', "b0 #", "b1000 $", "b0 %", "b0 &")
HERE_DUMP = (*HEAD, "#0", *FIRST, "#1", 'b11 "', "b01 %", "#3", "bx %", "bx &")
"""The dump of three steps of HERE, of which the third one changes nothing."""

SPOILED_DUMPS = (
    (*HEAD, "#0", *FIRST, "#1", 'b11 "', "b1 %", "#2", "bx %", "bx &"),
    (*HEAD, "#0", *FIRST, "#1", 'b11 "', "b1 %", "#2", 'b11 "', "#3", "bx %", "bx &"),
    (*HEAD, "#0", *FIRST, "#1", "b1 %", "#3", "bx %", "bx &"),
    (*HEAD, "#0", *FIRST, "#1", 'b11 "', "b1 %", "#3", "bx &"),
    (*HEAD, "#0", *FIRST, "#1", 'b11 "', "b1 %", "#3", "bx %", "b1 &"),
    (*HEAD, "#0", *FIRST, "#1", 'b11 "', "b1 %", "#3", "bx %", "bx &", "#4", "1!"),
    (*HEAD, "#0", *FIRST, "#1", 'b11 "', "b101 %", "#3", "bx %", "bx &"),
    (*HEAD, "#0", *FIRST, "#1", "#1", 'b11 "', "b1 %", "#3", "bx %", "bx &"),
    (*HEAD[:-1], "#0", *FIRST, "#1", 'b11 "', "b1 %", "#3", "bx %", "bx &"),
    (*HEAD[:3], *HEAD[4:], "#0", *FIRST[1:], "#1", 'b11 "', "b1 %", "#3", "bx %", "bx &"),
    (*HEAD, *FIRST, "#1", 'b11 "', "b1 %", "#3", "bx %", "bx &"),
    HEAD,
    (),
)
"""The same with a fault: a time, a value as before, one missing or too many, a wide one, times or variables that are others."""


def wrong_rows() -> list[str]:
    """Rows, lines and dumps that are answered otherwise."""
    wrong = []
    for row in ROWS:
        files = {"d": row.description, "i": row.image}
        found = answer(("d", "i", "--grant", *row.words.split()), files.__getitem__, None)
        if found != told(0, *row.lines):
            wrong.append(f"{row.words}: {found}, and not {row.lines}")
    for words, due in LINES:
        found = answer(words.split(), load, None)
        if found != due:
            wrong.append(f"{words}: {found}, and not {due}")
    files = {"d": MACHINE, "i": HERE}
    dump = answer("d i --grant 8 --steps 3 --vcd".split(), files.__getitem__, None)
    wrong += (f"dump: {complaint}" for complaint in dump.complaints(as_text(HERE_DUMP)))
    wrong += (f"fine: {lines}" for lines in SPOILED_DUMPS if not list(dump.complaints(as_text(lines))))
    return wrong


class Again:
    """A storage on which the lines of a trace are made again, by what they say alone."""

    def __init__(self, state: State) -> None:
        self.cells = list(state.cells)
        self.psw = state.psw
        self.counts: Counter[str] = Counter()

    def make(self, instruction: str, changes: list[str]) -> None:
        """Makes a step; `changes` are what stands behind the instruction."""
        name = instruction.split()[0]
        self.counts["no instr" if name == "-" else f"instr {name}"] += 1
        p = self.psw.p + 1
        for change in changes:
            if stored := re.fullmatch(r"\[([0-9]+)\]=([0-9a-f]+)", change):
                self.cells[int(stored[1])] = int(stored[2], 16)
            elif jumped := re.fullmatch(r"P=([0-9]+)", change):
                p = int(jumped[1])
            elif window := re.fullmatch(r"R=([0-9]+),([0-9]+)", change):
                self.psw = self.psw._replace(l=int(window[1]), b=int(window[2]))
            elif mode := re.fullmatch(r"mode=([su])", change):
                self.psw = self.psw._replace(mode="su".index(mode[1]))
            elif cause := re.fullmatch(r"trap \((.*)\)", change):
                self.counts[f"trap ({cause[1]})"] += 1
            elif led := re.fullmatch(r"to ([su]) ([0-9]+)", change):
                self.psw, p = self.psw._replace(mode="su".index(led[1])), int(led[2])
        self.psw = self.psw._replace(p=p)

    def state(self) -> State:
        return State(self.cells, self.psw)


_CHANGE = r"(?:\[[0-9]+\]=[0-9a-f]+|P=[0-9]+|R=[0-9]+,[0-9]+|mode=[su]|trap \([a-z ]+\)|to [su] [0-9]+)"
_WHOLE = re.compile(rf" *([0-9]+) ([su]) +([0-9]+) (-|[0-9a-f]+) +(-|\w+(?: [a-z]=[0-9]+)*) *((?: ?{_CHANGE})*)")


def made_again(text: str, first: State, word: int) -> Iterator[str]:
    """What of a text is not so by its own lines."""
    lines = text.splitlines()
    begin = next(i for i, line in enumerate(lines) if re.match("instr |no instr |trap ", line))
    again = Again(first)
    for number, line in enumerate(lines[:begin], 1):
        match = _WHOLE.fullmatch(line)
        if match is None:
            yield f"no line: {line!r}"
            return
        psw = again.psw
        window = again.cells[psw.l : psw.l + psw.b]
        fetched = f"{window[psw.p]:0{word // 4}x}" if psw.p < len(window) else "-"
        if match.groups()[:4] != (str(number), "su"[psw.mode], str(psw.p), fetched):
            yield f"{line!r} behind {psw}"
        again.make(match[5], re.findall(_CHANGE, match[6]))
    end = next(i for i, line in enumerate(lines) if line.startswith("steps "))
    counted = dict(line.rsplit(" ", 1) for line in lines[begin:end])
    if {name: int(number) for name, number in counted.items() if number != "0"} != again.counts or lines[end] != f"steps {begin}":
        yield f"counts {lines[begin : end + 1]} of {begin} lines, {dict(again.counts)}"
    if state_text(again.state(), word) != "".join(line + "\n" for line in lines[end + 1 :]):
        yield f"the state {again.state()} behind the lines"


def dumped(rng: Random, dump: Dump) -> bytes:
    """A dump of these rows, as one may be written."""
    lines = list(HEAD[:3]) + [f"$var wire 20 {i} {name} $end" for i, name in enumerate(Row._fields)] + list(HEAD[-2:])
    before: dict[str, int | None] = {}
    for time, row in enumerate(dump.rows):
        given = [(i, name, value) for i, (name, value) in enumerate(row._asdict().items()) if before.get(name, -1) != value]
        rng.shuffle(given)
        if given or rng.random() < 0.5:
            lines.append(f"#{time}")
        lines += (f"b{'x' if value is None else format(value, 'b')} {i}" for i, _, value in given)
        before = row._asdict()
    return as_text(lines)


def wrong_traces(count: int, seed: int, counts: Counter[str]) -> list[str]:
    """Random runs whose traces are not so by their own lines, or end elsewhere than they have to, or whose dumps are not read."""
    wrong = []
    for i in range(count):
        rng = Random(f"{seed} traces {i}")
        case = rng.choice([bare_runs, tame_bare_runs, windows.windows, traces.own, traces.systems])(rng)
        description = described(case.files[DESCRIPTION_FILE])
        grant, steps = int(case.words[4]), int(case.words[6])
        try:
            cells = read_image(case.files[IMAGE_FILE], description.word, min(grant, description.size))
        except Fault:
            continue
        run = trace(description, cells[:], steps)
        text = run.text()
        complaints = list(made_again(text, power_on(cells), description.word))
        if not text.endswith(state_text(run_bare(description, cells[:], steps), description.word)):
            complaints.append("the state is not that of bare")
        complaints += run.dump().complaints(dumped(rng, run.dump()))
        complaints += _wrong_ends(description, cells, steps)
        wrong += (f"trace {i}: {complaint}" for complaint in complaints)
        counts.update(traces=1, steps=len(run.steps), traps=sum(step.cause is not None for step in run.steps))
    return wrong


def _wrong_ends(description: tree.Description, cells: list[int], steps: int) -> Iterator[str]:
    """Ends at which nothing holds, or before which something did; the states are made by `bare`."""
    states = [run_bare(description, cells[:], number) for number in range(min(steps, 30) + 2)]
    lines = trace(description, cells[:], min(steps, 30)).text().splitlines()
    p = states[len(states) // 2].psw.p
    holds = {
        is_still: [states[n] == states[n + 1] for n in range(len(states) - 1)],
        until(f"P={p}"): [state.psw.p == p for state in states[:-1]],
        has_trapped: [False, *(" trap (" in lines[n] for n in range(len(states) - 2))],
    }
    for ends, held in holds.items():
        due = next((number for number, holds_there in enumerate(held) if holds_there), len(held) - 1)
        if len(trace(description, cells[:], len(held) - 1, ends).steps) != due:
            yield f"another end than {due}"


def main() -> int:
    parser = argparse.ArgumentParser(description=__doc__, formatter_class=argparse.RawDescriptionHelpFormatter)
    parser.add_argument("--tries", type=int, default=300, metavar="N", help="random traces (default: %(default)s)")
    parser.add_argument("--seed", type=int, default=1, metavar="N", help="a seed gives the same traces (default: %(default)s)")
    asked = parser.parse_args()
    counts: Counter[str] = Counter()
    wrong = [*wrong_rows(), *wrong_traces(asked.tries, asked.seed, counts)]
    told_counts = ", ".join(f"{number} {name}" for name, number in counts.items())
    print("\n".join([*wrong, f"{len(ROWS) + len(LINES) + len(SPOILED_DUMPS) + 1} rows, {told_counts}; {len(wrong)} wrong"]))
    return 1 if wrong else 0


if __name__ == "__main__":
    sys.exit(main())
