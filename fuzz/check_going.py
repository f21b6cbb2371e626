#!/usr/bin/env python3
"""Runs of `pg_go` beside what the model has to answer, worked out by hand; and random ones beside what comes to the same.

The model finds how many turns a guest has by its first still state alone. Here the turns are made, on one storage, by the monitor
of `check_runs.py`. With `--bare` a run has to end where one of `pg_trace --until still` does, in the state that `bare` writes, and
to be refused as `bare` is. Ends with 0 where all is so.
"""

import argparse
import sys
from collections import Counter
from collections.abc import Sequence
from random import Random
from typing import NamedTuple

sys.dont_write_bytecode = True  # before the modules of this folder are read, so that it holds sources only

from check_runs import (
    EMPTY, OPEN, REFUSED_TEXT, Line, Monitor, _Square, accepting, as_text, load, made_edges, made_system, made_tame, monitor, told,
)
from inputs import still_machines, windows
from inputs.case import DESCRIPTION_FILE, IMAGE_FILE
from inputs.guest_rows import CAUSES, MACHINE
from pgvmodel import command, tracing
from pgvmodel.answers import DONE, Answer, Load
from pgvmodel.going import BARE, MOST_STEPS, USAGE, Gone, answer, gone
from pgvmodel.machine import base_of
from rounds import bare_runs, tame_bare_runs

HERE = b"2: 02000002\n"
SECOND = b"2: 01050505 02000003 00000000 00000001\n"
THIRD = b"2: 01050505 01050505 02000004 00000001\n"
PAIR = b"2: 02000003 02000002\n"
TRAPS = b"1: 00020008 03000000\n"
BACK = b"1: 00040008 03000000 00000000 02000002\n"
"""Jumps to themselves at once, after one sum and after two; two jumps; a trap into itself; and one whose handler leads back."""


class Row(NamedTuple):
    """A machine that is accepted, its guests, what is told of each behind its number, and how many steps and direct ones.

    Steps of None are left out.
    """

    description: bytes
    images: tuple[bytes, ...]
    grant: int
    steps: int | None
    slice: int
    told: tuple[str, ...]
    turns: int
    direct: int


ROWS = (
    # The first step changes nothing, and the rest of the slice is done; it ends with the steps where these are fewer.
    Row(MACHINE, (HERE,), 8, None, 1000, ("still after 0 steps",), 1000, 1000),
    Row(MACHINE, (HERE,), 8, 5, 1000, ("still after 0 steps",), 5, 5),
    Row(MACHINE, (HERE,), 8, 1, 1, ("still after 0 steps",), 1, 1),
    # No step was done that changes nothing.
    Row(MACHINE, (HERE,), 8, 0, 1, ("after 0 steps",), 0, 0),
    Row(MACHINE, (SECOND,), 8, 1, 1, ("after 1 steps",), 1, 1),
    Row(MACHINE, (THIRD,), 8, 2, 3, ("after 2 steps",), 2, 2),
    # Still behind the last step of a slice: the step that shows it is the first one of the next slice.
    Row(MACHINE, (SECOND,), 8, None, 1, ("still after 1 steps",), 2, 2),
    Row(MACHINE, (SECOND,), 8, None, 2, ("still after 1 steps",), 2, 2),
    Row(MACHINE, (THIRD,), 8, None, 2, ("still after 2 steps",), 4, 4),
    Row(MACHINE, (THIRD,), 8, 3, 2, ("still after 2 steps",), 3, 3),
    Row(MACHINE, (THIRD,), 8, None, 3, ("still after 2 steps",), 3, 3),
    # Two states in turn.
    Row(MACHINE, (PAIR,), 8, 5, 2, ("after 5 steps",), 5, 5),
    # svc at 2 stores (s, 2, (0, 8)), jmp 2 at 4 goes back; the sixth step is the third jump.
    Row(MACHINE, (BACK,), 8, 6, 4, ("after 6 steps",), 6, 3),
    # The first trap stores (s, 2, ..) and loads (s, 0, (0, 0)), which the second stores: a word of zeros, as all later ones.
    Row(MACHINE, (b"",), 2, None, 1, ("still after 2 steps",), 3, 0),
    # The first trap stores what all later ones store; or it stands there already.
    Row(MACHINE, (TRAPS,), 8, None, 1, ("still after 1 steps",), 2, 0),
    Row(MACHINE, (b"0: 00020008\n" + TRAPS,), 8, None, 1, ("still after 0 steps",), 1, 0),
    # The first trap stores supervisor mode, and all later ones user mode.
    Row(MACHINE, (b"1: 01020008 03000000\n",), 8, None, 1, ("still after 2 steps",), 3, 0),
    # With causes: a word that means nothing is 06, whether the cell held that or the same without a cause.
    Row(CAUSES, (b"0: 06020004 00020004\n",), 4, None, 2, ("still after 0 steps",), 2, 0),
    Row(CAUSES, (b"0: 00020004 00020004\n",), 4, None, 2, ("still after 1 steps",), 2, 0),
    # The handler of svc adds, and stops with a jump to itself.
    Row(MACHINE, (b"1: 00040008 03000000\n4: 01070700 02000005\n",), 8, None, 3, ("still after 2 steps",), 3, 2),
    # Turns of 2, of 2, 2 and 1, and of 2 and 2.
    Row(MACHINE, (HERE, PAIR, b""), 8, 5, 2, ("still after 0 steps", "after 5 steps", "still after 2 steps"), 11, 7),
)

USED = Answer(3, USAGE.encode())


def cells_of(image: str, words: str, *lines: bytes) -> Line:
    """A guest that is still at once, and its cells in place of its state."""
    text = b"".join(line + b"\n" for line in (b"guest 0", b"still after 0 steps", *lines, b"steps 1000 direct 1000"))
    return Line(f"m c {image} --grant 12 {words}", Answer(0, text))


SAID = b"2: 02000002 00000048 6fffff69 8000210a\n10: fffffffe 00000001\n"
"""A jump to itself, and cells of which some bytes are letters."""

EIGHT = b"0: 00000000 00000000 02000002 00000048 6fffff69 8000210a 00000000 00000000"
NEXT_EIGHT = b"1: 00000000 02000002 00000048 6fffff69 8000210a 00000000 00000000 00000000"

CELLS = (
    cells_of("said", "--show 2..3", b"2: 02000002"),
    cells_of("said", "--show 0..12", EIGHT, b"8: 00000000 00000000 fffffffe 00000001"),
    cells_of("said", "--show 1..9", NEXT_EIGHT),
    cells_of("said", "--show 1..10", NEXT_EIGHT, b"9: 00000000"),
    cells_of("said", "--show 6..10", b"6: 00000000 00000000 00000000 00000000"),
    # The low byte; then more of them, the low one first, and none above the word.
    cells_of("said", "--text 3..5", b"Hi"),
    cells_of("said", "--text 5..6:16", b"\n!"),
    cells_of("said", "--text 3..6:24", b"H\0\0i\xff\xff\n!\0"),
    cells_of("said", "--text 4..6:32", b"i\xff\xffo\n!\0\x80"),
    cells_of("said", "--text 5..6:40", b"\n!\0\x80\0"),
    cells_of("said", "--text 10..12:64", b"\xfe\xff\xff\xff\0\0\0\0\1\0\0\0\0\0\0\0"),
    cells_of("said", "--text 7..8", b"\0"),
    # In their order, and of each guest.
    cells_of("said", "--text 3..4 --show 3..4 --text 3..5:8 --show 2..3", b"H", b"3: 00000048", b"Hi", b"2: 02000002"),
    Line(
        "m --show 11..12 c said e --text 3..4 --grant 12 --steps 0",
        told(
            0, *("guest 0", "after 0 steps", "11: 00000001", "H", "guest 1", "after 0 steps", "11: 00000000", "\0"),
            "steps 0 direct 0",
        ),
    ),
    cells_of("said", "--show 2..3 " * 8 + "--text 3..4 " * 8, *[b"2: 02000002"] * 8, *[b"H"] * 8),
    # No cells, or not so many bits; and more than 16 words.
    Line("m c said --grant 12 " + "--show 2..3 " * 9 + "--text 3..4 " * 8, USED),
    *(Line(f"m c said --grant 12 {words}", USED) for words in ("--show", "--text", "--show=2..3")),
    *(
        Line(f"m c said --grant 12 {option} {cells}", USED)
        for option in ("--show", "--text")
        for cells in ("2", "2..", "..3", "2..2", "3..2", "2..13", "12..13", "2.3", "2...3", "x..3", "-1..3", "2..1048576", "2..3..")
    ),
    *(Line(f"m c said --grant 12 --text 2..3{bits}", USED) for bits in (":", ":0", ":4", ":12", ":72", ":x", ":8:8", ":-8", "8:")),
    Line("m c said --grant 12 --show 2..3:8", USED),
    Line(
        "m c said --show 9..13 --text 2..3 --grant 13",
        told(0, *("guest 0", "still after 0 steps", "9: 00000000 fffffffe 00000001 00000000", "\2"), "steps 1000 direct 1000"),
    ),
    Line("m none none --grant 63 --show 2..63", told(7, "room 63 62")),
    Line("none none none --grant 63 --show 2..64", USED),
)

LINES = (
    *CELLS,
    Line("m c e --grant 2 --steps 0", told(0, "guest 0", "after 0 steps", *EMPTY, "steps 0 direct 0")),
    Line("--slice 1 m --grant 2 c e", told(0, "guest 0", "still after 2 steps", "size 2", "psw s 0 0 0", "steps 3 direct 0")),
    Line(
        f"m c --steps {MOST_STEPS} e --grant +02",
        told(0, "guest 0", "still after 2 steps", "size 2", "psw s 0 0 0", "steps 1000 direct 0"),
    ),
    Line("--help m", Answer(0, USAGE.encode())),
    Line("-h", Answer(0, USAGE.encode())),
    # The words: options of two words, each once, and three to ten files.
    *(Line(words, USED) for words in ("", "m c --grant 2", "m c e", "m c e --grant", "m c e --grant=2", "m c e -- --grant 2")),
    *(Line(f"m c e --grant 2 {more}", USED) for more in ("-", "-x", "--help", "--budget 3", "--grant 2", "e e e e e e e e")),
    *(Line(f"m c e --grant {grant}", USED) for grant in ("1", "1048576", "-2", "x")),
    *(Line(f"m c e --grant 2 --steps {steps}", USED) for steps in (MOST_STEPS + 1, "--slice", "-1")),
    *(Line(f"m c e --grant 2 --slice {slice_}", USED) for slice_ in (0, 1_000_001)),
    # The description, the room, the images in order, the certificate and what it comes to.
    Line("none none none --grant 63", Answer(11, b"")),
    Line("dir none none --grant 63", Answer(8, b"")),
    Line("bad none none --grant 63", told(4, "description: grammar 9")),
    Line("m none none --grant 63", told(7, "room 63 62")),
    Line("m none none none --grant 32", told(7, "room 64 62")),
    Line("m none none --grant 62", Answer(11, b"")),
    Line("m none e i twice short --grant 8", told(5, "image 2: overlap 2")),
    Line("m none i --grant 6", Answer(11, b"")),
    Line("m dir i --grant 6", Answer(8, b"")),
    Line("m hybrid i --grant 6", told(6, "certificate: grammar 1")),
    Line("m o i --grant 6", OPEN),
    Line("r rc e e --grant 6", told(1, *REFUSED_TEXT)),
)


LONE = b"""machine { word 16; address 4; size 15; }
instr keep "0001_xxxx_yyyy_...." { mem[x] = mem[y]; pc = pc; }
instr back "0010_xxxx_........" { mem[x] = (mem[x] + 1:16); mem[x] = (mem[x] - 1:16); pc = pc; }
instr turn "0011_............" { mode = ~mode; pc = pc; }
instr drop "0100_............" { mode = 1:1; pc = pc; }
instr open "0101_llll_bbbb_...." { if mode { trap; } rel = l; bound = b; pc = pc; }
"""
"""All go to themselves; no monitor may run this machine. The word of a program status word is M, P, l, b, a digit each."""


class Alone(NamedTuple):
    """A machine that runs alone, its image, the words behind `--grant`, and the lines that are written."""

    description: bytes
    image: bytes
    words: str
    lines: tuple[str, ...]


HERE_STATE = ("size 3", "psw s 2 0 3", "0: 00000000 00000000 02000002")
SECOND_STATE = ("size 6", "psw s 3 0 6", "0: 00000000 00000000 01050505 02000003 00000000 00000002")

ALONE = (
    # The first step changes nothing; where none is asked for, nothing is said of one.
    *(Alone(MACHINE, HERE, f"3{steps}", ("still after 0 steps", *HERE_STATE)) for steps in ("", " --steps 1", " --steps 9")),
    Alone(MACHINE, HERE, "3 --steps 0", ("after 0 steps", *HERE_STATE)),
    # Still behind the first step, which the second one shows.
    Alone(MACHINE, SECOND, "6 --steps 1", ("after 1 steps", *SECOND_STATE)),
    *(Alone(MACHINE, SECOND, f"6{steps}", ("still after 1 steps", *SECOND_STATE)) for steps in ("", " --steps 2", " --steps +09")),
    # Two states in turn.
    Alone(
        *(MACHINE, PAIR, "4 --steps 5"),
        ("after 5 steps", "size 4", "psw s 3 0 4", "0: 00000000 00000000 02000003 02000002"),
    ),
    # svc at 2 stores (s, 2, (0, 8)), jmp 2 at 4 goes back: the cells are as they were from the first step on, and P never is.
    Alone(MACHINE, BACK, "8 --steps 7 --show 0..3", ("after 7 steps", "0: 00020008 00040008 03000000")),
    # The first trap stores (s, 2, (0, 2)) and loads (s, 0, (0, 0)), which the second stores.
    Alone(MACHINE, b"", "2", ("still after 2 steps", "size 2", "psw s 0 0 0")),
    Alone(MACHINE, b"", "2 --steps 2", ("after 2 steps", "size 2", "psw s 0 0 0")),
    Alone(MACHINE, b"", "2 --steps 1", ("after 1 steps", "size 2", "psw s 0 0 0", "0: 00020002 00000000")),
    # All cells of the machine.
    Alone(MACHINE, b"", f"64 --steps {MOST_STEPS}", ("still after 2 steps", "size 64", "psw s 0 0 0")),
    # What the first trap stores stands there already, or not; what the second stores stands there before the first.
    Alone(MACHINE, b"0: 00020008\n" + TRAPS, "8 --show 0..3", ("still after 0 steps", "0: 00020008 00020008 03000000")),
    Alone(MACHINE, TRAPS, "8 --show 0..3", ("still after 1 steps", "0: 00020008 00020008 03000000")),
    Alone(
        *(MACHINE, b"0: 01020003 01020003 03000000\n", "3"),
        ("still after 2 steps", "size 3", "psw u 2 0 3", "0: 01020003 01020003 03000000"),
    ),
    # What is loaded has another bound: the window is the same, and the word that the second trap stores is not.
    Alone(MACHINE, TRAPS, "3", ("still after 2 steps", "size 3", "psw s 2 0 8", "0: 00020008 00020008 03000000")),
    # lr 0 8 is done, and at 3 a word of zeros leads to user mode, where lr traps for ever.
    Alone(MACHINE, b"1: 01020008 04000008\n", "8 --show 0..3", ("still after 3 steps", "0: 01020008 01020008 04000008")),
    # With causes: a word of no meaning is 06, and look 4 a memory trap, 02. look 3 is done, and in user mode it is `trap;`, 04.
    Alone(CAUSES, b"0: 06020004 00020004\n", "4 --show 0..2", ("still after 0 steps", "0: 06020004 00020004")),
    Alone(CAUSES, b"0: 02020004 00020004\n", "4 --show 0..2", ("still after 1 steps", "0: 06020004 00020004")),
    Alone(CAUSES, b"0: 02020004 00020004 05000004\n", "4 --show 0..2", ("still after 0 steps", "0: 02020004 00020004")),
    Alone(
        *(CAUSES, b"1: 01020004 05000003\n", "4"),
        ("still after 3 steps", "size 4", "psw u 2 0 4", "0: 05020004 01020004 05000003 00000000"),
    ),
    # A store of another word, of the same one, of two one behind the other, and into the instruction itself.
    Alone(LONE, b"2: 1340 0000 0007", "5", ("still after 1 steps", "size 5", "psw s 2 0 5", "0: 0000 0000 1340 0007 0007")),
    Alone(LONE, b"2: 1330 0007", "4", ("still after 0 steps", "size 4", "psw s 2 0 4", "0: 0000 0000 1330 0007")),
    Alone(LONE, b"2: 2300 ffff", "4", ("still after 0 steps", "size 4", "psw s 2 0 4", "0: 0000 0000 2300 ffff")),
    Alone(LONE, b"2: 1230 2400", "5", ("still after 1 steps", "size 5", "psw s 2 0 5", "0: 0000 0000 2400 2400 0000")),
    # The mode alone changes, at each step or at the first one.
    Alone(LONE, b"2: 3000", "3 --steps 3", ("after 3 steps", "size 3", "psw u 2 0 3", "0: 0000 0000 3000")),
    Alone(LONE, b"2: 4000", "3", ("still after 1 steps", "size 3", "psw u 2 0 3", "0: 0000 0000 4000")),
    # open 0 3 is so already, open 0 15 behind the first step.
    Alone(LONE, b"2: 5030", "3", ("still after 0 steps", "size 3", "psw s 2 0 3", "0: 0000 0000 5030")),
    Alone(LONE, b"2: 50f0", "3", ("still after 1 steps", "size 3", "psw s 2 0 15", "0: 0000 0000 50f0")),
    # open 1 15 leaves two cells, so P is past them: it stores 021f. In user mode open traps, and stores 1203 twice.
    Alone(LONE, b"1: 1203 51f0", "3", ("still after 3 steps", "size 3", "psw u 2 0 3", "0: 1203 1203 51f0")),
    Alone(LONE, b"1: 1203 51f0", "3 --steps 2", ("after 2 steps", "size 3", "psw u 2 0 3", "0: 021f 1203 51f0")),
)

START = told(0, "after 0 steps", *EMPTY)
NAMED = told(0, "after 0 steps", "0: 00000000", "\0\0", "1: 00000000")

ALONE_LINES = (
    Line("--bare m e --grant 2 --steps 0", START),
    Line("m e --steps 0 --grant 2 --bare", START),
    Line("m --bare --grant 2 e --steps 00", START),
    Line("--show 0..1 --bare m --text 0..1:16 e --steps 0 --show 1..2 --grant 2", NAMED),
    Line("--bare m e --grant 2 " + "--show 0..1 " * 16, told(0, "still after 2 steps", *["0: 00000000"] * 16)),
    Line("--help --bare", Answer(0, USAGE.encode())),
    # The flag once, alone, and not in the place of a value; two files; no slice, and nothing that neither form takes.
    *(Line(words, USED) for words in ("--bare", "--bare m e", "--bare --grant 2", "--bare m --grant 2", "--bare m c e --grant 2")),
    *(Line(f"{words} m e --grant 2", USED) for words in ("", "--bare 1", "--bare=1", "--bare=", "-bare", "--Bare", "--bares")),
    *(Line(f"m e --grant {words}", USED) for words in ("--bare", "--bare 2", "2 --steps --bare", "2 --bare --steps --bare")),
    *(Line(f"--bare m e --grant 2 {more}", USED) for more in ("--bare", "--slice 3", "--slice", "--grant 2", "--steps", "e", "--")),
    *(Line(f"--bare m e --grant 2 {more}", USED) for more in ("-", "-h", "--help", "-x", "--cert c", "--steps 0 --steps 0")),
    *(Line(f"--bare m e --grant 2 {more}", USED) for more in ("--show 0..3", "--show 1..1", "--text 0..2:9", "--show --bare")),
    Line("--bare m e --grant 2 " + "--show 0..1 " * 9 + "--text 0..1 " * 8, USED),
    *(Line(f"--bare m e --grant {grant}", USED) for grant in ("1", "1048576", "-2", "x")),
    *(Line(f"--bare m e --grant 2 --steps {steps}", USED) for steps in (MOST_STEPS + 1, "-1", "x")),
    # The description, the room, the image.
    Line("--bare none none --grant 65", Answer(11, b"")),
    Line("--bare dir none --grant 65", Answer(8, b"")),
    Line("--bare bad none --grant 65", told(4, "description: grammar 9")),
    Line("--bare m none --grant 65", told(7, "room 65 64")),
    Line("--bare m none --grant 1048575", told(7, "room 1048575 64")),
    Line("--bare m none --grant 64", Answer(11, b"")),
    Line("--bare m dir --grant 64", Answer(8, b"")),
    Line("--bare m twice --grant 64", told(5, "image 0: overlap 2")),
    Line("--bare m far --grant 60", told(5, "image 0: address 1")),
    Line("--bare m m --grant 2", told(5, "image 0: token 0")),
    Line("--bare e e --grant 2", told(4, "description: grammar 0")),
    # A machine that no monitor may run.
    Line("--bare r e --grant 2", told(0, "still after 2 steps", "size 2", "psw s 0 0 0")),
)


def wrong_rows() -> list[str]:
    """Rows and lines that are answered otherwise. Of a row's text the lines of states are left out."""
    wrong = []
    for row in ROWS:
        names = [f"i{number}" for number in range(len(row.images))]
        files = {"d": row.description, "c": accepting(row.description), **dict(zip(names, row.images))}
        steps = () if row.steps is None else ("--steps", str(row.steps))
        words = ("d", "c", *names, "--grant", str(row.grant), *steps, "--slice", str(row.slice))
        found = answer(words, files.__getitem__, _Square())
        lines = [line for line in found.output.decode().splitlines() if line.startswith(("guest", "still", "after", "steps"))]
        due = [line for number, told_ in enumerate(row.told) for line in (f"guest {number}", told_)]
        if (found.status, lines) != (0, [*due, f"steps {row.turns} direct {row.direct}"]):
            wrong.append(f"{row}: {found}")
    for row in ALONE:
        files = {"d": row.description, "i": row.image}
        found = answer((BARE, "d", "i", "--grant", *row.words.split()), files.__getitem__, _Square())
        if found != told(0, *row.lines):
            wrong.append(f"{row.words}: {found}, and not {row.lines}")
    for line in (*LINES, *ALONE_LINES):
        found = answer(line.words.split(), lambda name: SAID if name == "said" else load(name), _Square())
        if found != line.answer:
            wrong.append(f"{line.words}: {found}, and not {line.answer}")
    return wrong


def by_rounds(run: Monitor, steps: int, slice_: int) -> list[tuple[int | None, int]]:
    """Slices of turns go round, until each guest was found still or had its steps: behind how many it is, and its turns."""
    guests = range(len(run.virtual))
    found: list[int | None] = [None for _ in guests]
    made = [0 for _ in guests]
    while any(found[number] is None and made[number] < steps for number in guests):
        for number in guests:
            if found[number] is not None:
                continue
            for _ in range(min(slice_, steps - made[number])):
                before = run.guest(number)
                run.turn(number)
                if found[number] is None and run.guest(number) == before:
                    found[number] = made[number]
                made[number] += 1
    return list(zip(found, made))


def wrong_monitors(count: int, counts: Counter[str]) -> list[str]:
    """Runs of a monitor whose guests come to other states than the model says, or by other turns."""
    wrong = []
    for i in range(count):
        rng = Random(f"rounds {i}")
        description, storages = rng.choice([made_tame, made_edges, made_system])(rng)
        steps, slice_ = rng.choice([0, 1, 2, 3, 5, 20, 60, 60]), rng.choice([1, 1, 2, 3, 7, 60])
        grant = len(storages[0])
        alone = [gone(description, list(cells), base_of(n, grant), steps, slice_) for n, cells in enumerate(storages)]
        run = monitor(description, storages)
        ends = by_rounds(run, steps, slice_)
        states = [run.guest(number) for number in range(len(storages))]
        direct = sum(end.direct for end in alone)
        if [_told(end) for end in alone] != ends or [end.state for end in alone] != states or direct != run.direct:
            wrong.append(f"monitor {i}: {ends}, {run.direct} direct, and not {[_told(end) for end in alone]}, {direct} direct")
        counts.update(guests=len(ends), still=sum(end.is_still for end in alone), turns=sum(end.turns for end in alone))
    return wrong


def wrong_machines(count: int, counts: Counter[str]) -> list[str]:
    """Runs of bare machines that end elsewhere, or otherwise, than those that come to the same."""
    wrong = []
    makers = [*[still_machines.own] * 3, bare_runs, tame_bare_runs, windows.windows]
    for i in range(count):
        rng = Random(f"machines {i}")
        case = rng.choice(makers)(rng)
        steps = str(rng.choice([0, 1, 2, 3, 5, 20, 60, 60]))
        words = (DESCRIPTION_FILE, IMAGE_FILE, "--grant", case.words[4])
        found = answer((BARE, *words, "--steps", steps), case.files.__getitem__, _Square())
        due = _due(words, steps, case.files.__getitem__)
        if found != due:
            wrong.append(f"machine {i}: {found}, and not {due}")
        counts.update({"machines": 1, "still machines": due.output.startswith(b"still")})
    return wrong


def _due(words: Sequence[str], steps: str, load_: Load) -> Answer:
    """What is due by `pg_trace`, which looks ahead for a state that is still, and by `bare`, which has the text of it."""
    traced = tracing.answer((*words, "--steps", steps, "--until", "still", "--counts"), load_, _Square())
    end = traced.output.split()[-1].decode() if traced.status == DONE else steps
    bare = command.answer(("bare", *words, "--steps", end), load_, _Square())
    if bare.status != DONE:
        return bare._replace(error=None)
    still = "still " if int(end) < int(steps) else ""
    return Answer(DONE, f"{still}after {end} steps\n".encode() + bare.output)


def _told(end: Gone) -> tuple[int | None, int]:
    return end.steps if end.is_still else None, end.turns


def main() -> int:
    parser = argparse.ArgumentParser(description=__doc__, formatter_class=argparse.RawDescriptionHelpFormatter)
    parser.add_argument(
        "--tries", type=int, default=300, metavar="N", help="random runs of a monitor, and of machines alone (default: %(default)s)"
    )
    tries = parser.parse_args().tries
    counts: Counter[str] = Counter()
    wrong = [*wrong_rows(), *wrong_monitors(tries, counts), *wrong_machines(tries, counts)]
    rows = len(ROWS) + len(ALONE) + len(LINES) + len(ALONE_LINES)
    told_counts = ", ".join(f"{number} {name}" for name, number in counts.items())
    print("\n".join([*wrong, f"{rows} rows, {tries} monitors with {told_counts}; {len(wrong)} wrong"]))
    return 1 if wrong else 0


if __name__ == "__main__":
    sys.exit(main())
