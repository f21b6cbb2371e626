#!/usr/bin/env python3
"""Small bodies beside the kinds that can be shown of them, worked out by hand; and verdicts that are not quite right.

Needs a solver, z3. Ends with 0 where the model decides all of them so. With `--tries N`, so many random pairs of states are
also put into the formulas of random bodies, which are to have a solution just where the model's machine finds a kind shown.
"""

import argparse
import shutil
import sys
from pathlib import Path
from random import Random
from typing import NamedTuple

sys.dont_write_bytecode = True  # before the modules of this folder are read, so that it holds sources only

from inputs.case import DESCRIPTION_FILE
from inputs.checks import any_bodies, hard, pieced
from inputs.pairs import PairFinder
from judging import OTHER_FAMILY, Ended, Judge
from judging_generated import CAN_BE_SHOWN
from pgvmodel.command import Search
from pgvmodel.deciding import Answer, Solver
from pgvmodel.families import HYBRID, PURE, Family
from pgvmodel.generator import BODIES, FIELDS, HEAD
from pgvmodel.machine import Machine
from pgvmodel.pairs import ALL_KINDS, BOUND, CONTROL, LOCATION, MODE, PRIVILEGED, USER_SENSITIVE, shows
from pgvmodel.questions import Questions
from pgvmodel.reader import read
from pgvmodel.validity import check

SHOWN, GOOD, WRONG = "shown", 0, 1
UCONTROL, ULOCATION, UBOUND = USER_SENSITIVE

WIDE = "machine { word 32; address 8; size 64; }", "00000001{}{}c......."
NARROW = "machine { word 16; address 4; size 8; }", "1{}{}c......"
FULL = "machine { word 16; address 4; size 15; }", "1{}{}c......"
CAUSES = "machine { word 16; address 4; size 8; causes on; }", "1{}{}c......"
ODD = "machine { word 16; address 5; size 31; }", "1{}{}c...."


class Row(NamedTuple):
    """A head with a pattern, a body, and the kinds of it that two states show. `privileged` shown is: it is not so.

    x and y are fields of the width of an address, c is one of a bit.
    """

    head: tuple[str, str]
    body: str
    shown: set[str]


ROWS = (
    # The examples of the documents.
    Row(WIDE, "mem[x] = ext(mode, 32);", {PRIVILEGED, MODE}),
    Row(WIDE, "mem[x] = ext(rel, 32);", {PRIVILEGED, LOCATION}),
    Row(WIDE, "mem[x] = ext(bound, 32);", {PRIVILEGED, BOUND}),
    Row(WIDE, "if ~mode { let t = mem[x]; }", {PRIVILEGED, MODE}),
    Row(WIDE, "mode = 1:1; pc = x;", {PRIVILEGED, CONTROL}),
    Row(WIDE, "trap;", {PRIVILEGED}),
    Row(WIDE, "if mode { trap; } rel = x; bound = y;", {CONTROL}),
    Row(WIDE, "mem[x] = (mem[x] + mem[y]);", {PRIVILEGED}),
    Row(WIDE, "pc = x;", {PRIVILEGED}),
    Row(WIDE, "if (mode & c) { trap; } mem[x] = mem[y];", {PRIVILEGED}),
    Row(WIDE, "if mode { trap; } mem[x] = ext(rel, 32);", {LOCATION}),
    Row(WIDE, "if mode { pc = x; } else { let t = mem[255:8]; }", {PRIVILEGED, MODE}),
    # An empty body is done everywhere; one that traps by memory everywhere is privileged and not sensitive.
    Row(NARROW, "", {PRIVILEGED}),
    Row(NARROW, "let t = mem[15:4];", set()),
    Row(NARROW, "trap; mode = ~mode;", {PRIVILEGED}),
    Row(NARROW, "mode = ~mode; trap;", {PRIVILEGED}),
    Row(NARROW, "mode = ~mode; let t = mem[15:4];", set()),
    # A trap in one mode alone.
    Row(NARROW, "if mode { trap; }", set()),
    Row(NARROW, "if ~mode { trap; }", {PRIVILEGED, MODE}),
    Row(NARROW, "if mode { let t = mem[15:4]; }", set()),
    Row(NARROW, "if mode { let t = mem[15:4]; } else { trap; }", set()),
    Row(NARROW, "if mode { trap; } else { let t = mem[15:4]; }", set()),
    Row(NARROW, "if mode { let t = mem[x]; }", {PRIVILEGED}),
    Row(NARROW, "let t = mem[x]; if mode { trap; }", set()),
    Row(NARROW, "if mode { trap; trap; } mode = 1:1;", {CONTROL}),
    Row(NARROW, "if mode { trap; } mode = 0:1;", set()),
    Row(NARROW, "if mode { trap; } else { trap; }", {PRIVILEGED}),
    # Assignments that are no change, and those that are undone.
    Row(NARROW, "mode = mode; rel = rel; bound = bound;", {PRIVILEGED}),
    Row(NARROW, "mode = ~mode; mode = mode;", {PRIVILEGED}),
    Row(NARROW, "rel = (rel + 1:4); rel = rel;", {PRIVILEGED}),
    Row(NARROW, "rel = (rel + 0:4);", {PRIVILEGED}),
    Row(NARROW, "if (rel == x) { rel = x; }", {PRIVILEGED}),
    Row(NARROW, "mode = 0:1;", {PRIVILEGED, CONTROL}),
    Row(NARROW, "if mode { mode = 1:1; }", {PRIVILEGED}),
    Row(NARROW, "mode = (mode & c);", {PRIVILEGED, CONTROL}),
    Row(NARROW, "bound = (bound << 0:1);", {PRIVILEGED}),
    Row(NARROW, "bound = (bound << 1:1);", {PRIVILEGED, CONTROL}),
    # P is used, so the bound is not 0 and the place is below the size.
    Row(NARROW, "if (bound == 0:4) { pc = x; mode = ~mode; }", {PRIVILEGED}),
    Row(NARROW, "if (bound == 0:4) { pc = bound; }", {PRIVILEGED}),
    Row(NARROW, "if (bound == 15:4) { pc = x; }", {PRIVILEGED, BOUND}),
    Row(NARROW, "if (rel == 8:4) { pc = x; }", {PRIVILEGED}),
    Row(NARROW, "if (rel == 7:4) { pc = x; }", {PRIVILEGED, LOCATION}),
    Row(NARROW, "if (pc < bound) { } else { rel = bound; pc = rel; mode = ~mode; }", {PRIVILEGED}),
    Row(NARROW, "if (pc == 8:4) { trap; } else { if (pc == 7:4) { pc = bound; } }", {PRIVILEGED, BOUND}),
    # Cell 7 of a window of 8 cells: it begins at cell 0, so there is no second place; the bound may still differ.
    Row(NARROW, "let t = mem[7:4]; pc = rel;", {PRIVILEGED}),
    Row(NARROW, "let t = mem[6:4]; pc = rel;", {PRIVILEGED, LOCATION}),
    Row(NARROW, "let t = mem[7:4]; pc = bound;", {PRIVILEGED, BOUND}),
    Row(FULL, "let t = mem[14:4]; pc = bound;", {PRIVILEGED}),
    Row(FULL, "let t = mem[13:4]; pc = bound;", {PRIVILEGED, BOUND}),
    Row(FULL, "let t = mem[14:4]; pc = rel;", {PRIVILEGED}),
    Row(ODD, "let t = mem[30:5]; pc = (bound + rel);", {PRIVILEGED}),
    Row(ODD, "let t = mem[29:5]; pc = (bound + rel);", {PRIVILEGED, LOCATION, BOUND}),
    # Through storages of 2 or 3 cells, or with one of the greatest size.
    Row(NARROW, "if ((rel == 0:4) & (bound == 3:4)) { pc = 0:4; }", {PRIVILEGED, LOCATION, BOUND}),
    # The place tells of the room above it only through the window, which is equal.
    Row(NARROW, "if (x < bound) { let t = mem[x]; }", {PRIVILEGED, BOUND}),
    Row(NARROW, "let t = mem[x]; if (x < bound) { } else { pc = rel; }", {PRIVILEGED}),
    Row(NARROW, "mem[x] = ext(cut(rel, 3, 3), 16);", {PRIVILEGED}),
    Row(NARROW, "mem[x] = ext(cut(rel, 2, 2), 16);", {PRIVILEGED, LOCATION}),
    Row(NARROW, "mem[x] = ext((rel - rel), 16);", {PRIVILEGED}),
    Row(NARROW, "mem[x] = (ext(rel, 16) >> 4:3);", {PRIVILEGED}),
    Row(NARROW, "mem[x] = (ext(rel, 16) >> 2:3);", {PRIVILEGED, LOCATION}),
    Row(NARROW, "mem[x] = (ext(bound, 16) << 16:5);", {PRIVILEGED}),
    Row(NARROW, "mem[x] = (ext(bound, 16) << 16:8); mem[x] = ext(mode, 16); mem[x] = mem[y];", {PRIVILEGED, MODE}),
    Row(NARROW, "mem[x] = ext(mode, 16); mem[x] = 0:16;", {PRIVILEGED}),
    Row(NARROW, "mem[x] = ext(mode, 16); trap;", {PRIVILEGED}),
    Row(NARROW, "mem[x] = ext(mode, 16); let t = mem[x]; mem[x] = 0:16; mem[y] = t;", {PRIVILEGED, MODE}),
    Row(NARROW, "let t = ext(mode, 16); if (t == 2:16) { mem[x] = ext(rel, 16); }", {PRIVILEGED}),
    # Addresses that a register gives: what is usable rests on it.
    Row(NARROW, "let t = mem[rel];", {PRIVILEGED, LOCATION}),
    Row(NARROW, "let t = mem[bound];", set()),
    Row(NARROW, "let t = mem[(bound - 1:4)];", {PRIVILEGED, BOUND}),
    Row(NARROW, "mem[rel] = mem[rel];", {PRIVILEGED, LOCATION}),
    Row(NARROW, "mem[pc] = mem[pc];", {PRIVILEGED}),
    # What is shifted by the width or more is 0, however wide the number of places is.
    Row(NARROW, "if ((mode << x) < mode) { pc = y; }", {PRIVILEGED, MODE}),
    Row(NARROW, "if ((mode << 16:8) == 1:1) { pc = y; }", {PRIVILEGED}),
    Row(NARROW, "if ((rel >> 256:16) == 1:4) { pc = y; }", {PRIVILEGED}),
    Row(NARROW, "if ((rel >> 2:16) == 1:4) { pc = y; }", {PRIVILEGED, LOCATION}),
    Row(NARROW, "if ((bound << 4:3) == 0:4) { pc = y; } else { pc = bound; }", {PRIVILEGED}),
    # Two traps of different causes are no two observations that count, and none is done.
    Row(NARROW, "if (rel < y) { trap; } else { let t = mem[15:4]; }", {PRIVILEGED}),
    Row(NARROW, "if mode { trap; } else { if c { trap; } else { let t = mem[15:4]; } }", {PRIVILEGED}),
    Row(CAUSES, "if (bound < y) { trap; } else { let t = mem[15:4]; }", {PRIVILEGED}),
    Row(CAUSES, "if (bound < y) { trap; }", {PRIVILEGED, BOUND}),
    Row(CAUSES, "if (rel < y) { let t = mem[15:4]; }", {PRIVILEGED, LOCATION}),
    # Every part of an expression is evaluated, and no block that is not taken.
    Row(NARROW, "pc = sel(mode, x, cut(mem[15:4], 3, 0));", set()),
    Row(NARROW, "let t = (0:16 & mem[15:4]); mode = ~mode;", set()),
    Row(NARROW, "if (x == (x + 1:4)) { mode = ~mode; }", {PRIVILEGED}),
    # Lets keep what was read, fields are those of the word that was fetched.
    Row(NARROW, "mem[pc] = 0:16; if (x == 0:4) { pc = y; } else { mode = ~mode; }", {PRIVILEGED, CONTROL}),
    Row(NARROW, "let t = mem[x]; mem[x] = ~t; if (mem[x] == t) { mode = ~mode; }", {PRIVILEGED}),
    Row(NARROW, "let t = mem[x]; mem[y] = ~t; if ~(mem[x] == t) { pc = rel; }", {PRIVILEGED, LOCATION}),
    Row(NARROW, "if (sext(mode, 4) == 15:4) { pc = x; }", {PRIVILEGED, MODE}),
    Row(NARROW, "if (cat(mode, mode) == 2:2) { pc = x; }", {PRIVILEGED}),
    Row(NARROW, "if (((rel + bound) == x) & ((x - bound) < rel)) { pc = y; }", {PRIVILEGED}),
    Row(NARROW, "pc = (rel ^ bound);", {PRIVILEGED, LOCATION, BOUND}),
    Row(NARROW, "pc = ((rel * bound) * ext(mode, 4)); mode = c;", {PRIVILEGED, CONTROL, MODE, LOCATION, BOUND}),
)

HYBRID_ROWS = (
    # The examples of the documents: a mode that is told is no matter, a place and a bound are.
    Row(WIDE, "mode = 1:1; pc = x;", {PRIVILEGED}),
    Row(WIDE, "mem[x] = ext(mode, 32);", {PRIVILEGED}),
    Row(WIDE, "mem[x] = ext(rel, 32);", {PRIVILEGED, ULOCATION}),
    Row(WIDE, "mem[x] = ext(bound, 32);", {PRIVILEGED, UBOUND}),
    Row(WIDE, "if mode { trap; } rel = x; bound = y;", set()),
    Row(WIDE, "if mode { trap; } mem[x] = ext(rel, 32);", set()),
    Row(WIDE, "if mode { pc = x; } else { let t = mem[255:8]; }", {PRIVILEGED}),
    Row(WIDE, "trap;", {PRIVILEGED}),
    Row(NARROW, "", {PRIVILEGED}),
    Row(NARROW, "let t = mem[15:4];", set()),
    # Changes: from user mode, not into it.
    Row(NARROW, "mode = 0:1;", {PRIVILEGED, UCONTROL}),
    Row(NARROW, "mode = ~mode;", {PRIVILEGED, UCONTROL}),
    Row(NARROW, "mode = (mode & c);", {PRIVILEGED, UCONTROL}),
    Row(NARROW, "mode = (mode | c);", {PRIVILEGED}),
    Row(NARROW, "if mode { mode = 1:1; }", {PRIVILEGED}),
    Row(NARROW, "if mode { mode = 0:1; trap; }", set()),
    Row(NARROW, "if ~mode { rel = y; bound = x; }", {PRIVILEGED}),
    Row(NARROW, "if mode { rel = y; }", {PRIVILEGED, UCONTROL}),
    Row(NARROW, "if mode { if (rel == x) { rel = x; } }", {PRIVILEGED}),
    Row(NARROW, "bound = (bound << 1:1);", {PRIVILEGED, UCONTROL}),
    Row(NARROW, "bound = (bound + ext(~mode, 4));", {PRIVILEGED}),
    # What is told in one mode alone.
    Row(NARROW, "if ~mode { pc = (rel ^ bound); }", {PRIVILEGED}),
    Row(NARROW, "if mode { pc = rel; }", {PRIVILEGED, ULOCATION}),
    Row(NARROW, "if mode { pc = (rel ^ bound); } else { mode = 1:1; }", {PRIVILEGED, ULOCATION, UBOUND}),
    Row(NARROW, "if mode { trap; } else { pc = bound; }", set()),
    Row(NARROW, "if ~mode { trap; } pc = bound;", {PRIVILEGED, UBOUND}),
    Row(NARROW, "if mode { let t = mem[15:4]; } else { mode = 1:1; pc = rel; }", set()),
    # In user mode 1 - 1 is a mask of none, and in supervisor mode one of all.
    Row(NARROW, "pc = (rel & (ext(mode, 4) - 1:4));", {PRIVILEGED}),
    Row(NARROW, "pc = (bound & sext(mode, 4)); rel = (rel ^ sext(~mode, 4));", {PRIVILEGED, UBOUND}),
    Row(NARROW, "mem[y] = (mem[y] + ext((rel & ext(mode, 4)), 16));", {PRIVILEGED, ULOCATION}),
    # A user state that traps and one that is done tell of the register; two that trap do not, whatever the causes.
    Row(NARROW, "if (bound < y) { if mode { trap; } }", {PRIVILEGED, UBOUND}),
    Row(NARROW, "if (bound < y) { if ~mode { trap; } }", {PRIVILEGED}),
    Row(NARROW, "if (rel < y) { if mode { trap; } } else { if mode { let t = mem[15:4]; } }", set()),
    Row(NARROW, "let t = mem[rel];", {PRIVILEGED, ULOCATION}),
    Row(NARROW, "if ~mode { let t = mem[rel]; }", {PRIVILEGED}),
    Row(NARROW, "let t = mem[bound];", set()),
    Row(CAUSES, "if (mode & (bound < y)) { trap; }", {PRIVILEGED, UBOUND}),
    Row(CAUSES, "if (mode & (rel < y)) { let t = mem[15:4]; }", {PRIVILEGED, ULOCATION}),
    # Places and bounds at their edges: P is used, so the place is below the size.
    Row(NARROW, "if (mode & (rel == 8:4)) { pc = x; }", {PRIVILEGED}),
    Row(NARROW, "if (mode & (rel == 7:4)) { pc = x; }", {PRIVILEGED, ULOCATION}),
    Row(NARROW, "if (mode & (bound == 0:4)) { pc = x; }", {PRIVILEGED}),
    Row(NARROW, "if (mode & (bound == 15:4)) { pc = x; }", {PRIVILEGED, UBOUND}),
    Row(NARROW, "let t = mem[7:4]; if mode { pc = (rel ^ bound); }", {PRIVILEGED, UBOUND}),
    Row(FULL, "let t = mem[14:4]; if mode { pc = bound; }", {PRIVILEGED}),
    Row(FULL, "let t = mem[13:4]; if mode { pc = bound; }", {PRIVILEGED, UBOUND}),
    Row(ODD, "let t = mem[29:5]; pc = ((bound + rel) & sext(mode, 5));", {PRIVILEGED, ULOCATION, UBOUND}),
)

STORE = "mem[x] = ext(mode, 32);"
LINE = "i privileged no control no mode yes location no bound no"
STATE = ("size 4", "psw {} 2 0 4", "0: 00000000 00000000 01000000 00000000")
LOG = b"finding i privileged refuted\ns 0 1 0\n"
SAVED = b"pgcert 2\n" + LOG
"""As much of a certificate as the model reads where it has no clauses."""
PLACE = "mem[x] = ext(rel, 32);"
HYBRID_LINE = "i privileged no ucontrol no ulocation {} ubound no"
HYBRID_SAVED = b"pghybrid 1\n" + LOG
HYBRID_TOLD = (
    *(HYBRID_LINE.format("yes"), "refused i", "privileged", *STATE, *STATE, "ulocation"),
    *("size 4", "psw u 0 0 2", "0: 01010000 00000000 00000000 00000000"),
    *("size 4", "psw u 0 1 2", "0: 00000000 01010000 00000000 00000000"),
)
"""The one instruction stores its place at address 1 of a window of two cells: cell 1 becomes 0, or cell 2 becomes 1."""
TOLD = (LINE, "refused i", "privileged", *STATE, *STATE, "mode", *STATE, *STATE)


def described(row: Row) -> bytes:
    """The description of a row."""
    head, pattern = row.head
    address = int(head.split()[5].rstrip(";"))
    return f'{head} instr i "{pattern.format("x" * address, "y" * address)}" {{ {row.body} }}'.encode()


def wrong_rows(solver: Solver) -> list[str]:
    """What the rows ask and the model does not say."""
    wrong = []
    for family, row in [*((PURE, row) for row in ROWS), *((HYBRID, row) for row in HYBRID_ROWS)]:
        description = read(described(row))
        check(description)
        judge = Judge(solver, Questions())
        found = {kind: judge.decided(description, 0, kind).answer for kind in family.kinds}
        told = {kind for kind, answer in found.items() if answer is Answer.SHOWN}
        if told != row.shown or Answer.UNDECIDED in found.values():
            wrong.append(f"{row.body}: {sorted(told)}, and not {sorted(row.shown)}")
    return wrong


class _Again:
    """A program whose `verify` ends so."""

    def __init__(self, ended: Ended) -> None:
        self.ended = ended

    def verified(self, *_texts: bytes) -> Ended:
        return self.ended


class Run(NamedTuple):
    """The body of the one instruction, the family that is asked, what is saved, and how `verify` of that ends.

    Where that is None it is taken to say the same. Certificates are not modelled.
    """

    body: str = STORE
    family: Family = PURE
    saved: bytes | None = SAVED
    verified: Ended | None = None


HYBRID_RUN = Run(STORE, HYBRID, HYBRID_SAVED, OTHER_FAMILY)
PLACE_RUN = HYBRID_RUN._replace(body=PLACE)


def complaints(solver: Solver | None, lines: tuple[str, ...], status: int, run: Run = Run()) -> list[str]:
    """What a judge has to say of a verdict."""
    text = described(Row(WIDE, run.body, set()))
    modes = iter("su" * 2)
    output = "".join(line.format(next(modes)) if "{}" in line else line for line in (f"{line}\n" for line in lines)).encode()
    ended = Ended(status, output)
    before, search = {"d": text}, Search(text, read(text), run.family, "c", 7)
    after = before if run.saved is None else {**before, "c": run.saved}
    again = _Again(run.verified or ended)
    return list(Judge(solver, Questions()).complaints(search, ended, before, after, again))


def wrong_verdicts(solver: Solver) -> list[str]:
    """Verdicts that a judge has to take or to refuse, and does not."""
    quiet = LINE.replace("mode yes", "mode no")
    unsure = LINE.replace("mode yes", "mode open")
    never = LINE.replace("bound no", "bound yes")
    turned = tuple(line.replace("{}", "s") if 3 <= i < 9 else line for i, line in enumerate(TOLD))
    checks = {
        "right": complaints(solver, TOLD, 1) == [],
        "status": any("status 0" in line for line in complaints(solver, TOLD, 0)),
        "quiet": any("mode no" in line for line in complaints(solver, (quiet, "accepted"), 0)),
        "quiet, by trying": any("mode no" in line for line in complaints(None, (quiet, "accepted"), 0)),
        "unsure": complaints(solver, (unsure, "open i mode"), 2) == [],
        "another question": len(complaints(solver, (unsure, "open i bound"), 2)) == 1,
        "conclusion": len(complaints(solver, (unsure, "accepted"), 0)) == 1,
        "no such kind": any("nothing can show" in line for line in complaints(solver, (never, *TOLD[1:]), 1)),
        "no pair": complaints(solver, turned, 1) == ["the states behind privileged do not show it"],
        "not the first kind": len(complaints(solver, (*TOLD[:9], "control", *TOLD[10:]), 1)) == 2,
        "spelling": len(complaints(solver, (f"{LINE} ", *TOLD[1:]), 1)) == 1,
        "half a state": len(complaints(solver, TOLD[:-2], 1)) == 1,
        "nothing saved": complaints(solver, TOLD, 1, Run(saved=None)) == ["nothing is saved"],
        "version": len(complaints(solver, TOLD, 1, Run(saved=b"pgcert 1\n" + LOG))) == 1,
        "budget": len(complaints(solver, TOLD, 1, Run(saved=SAVED + b"finding i bound spent 8\n"))) == 1,
        "refused": len(complaints(solver, (), 6)) == 1,
    }
    return [name for name, is_so in checks.items() if not is_so]


def wrong_hybrid_verdicts(solver: Solver) -> list[str]:
    """The same of `hcheck`: of a body that stores the mode, and of one that stores the place."""
    quiet, unsure = HYBRID_LINE.format("no"), HYBRID_LINE.format("open")
    in_supervisor_mode = tuple(line.replace("psw u", "psw s") for line in HYBRID_TOLD)
    as_pure = tuple(line.replace("ulocation", "location") if line == "ulocation" else line for line in HYBRID_TOLD)
    pure_quiet = LINE.replace("mode yes", "mode no")
    checks = {
        "hybrid, accepted": complaints(solver, (quiet, "accepted"), 0, HYBRID_RUN) == [],
        "hybrid, status": len(complaints(solver, (quiet, "accepted"), 1, HYBRID_RUN)) == 1,
        "hybrid, refused": complaints(solver, HYBRID_TOLD, 1, PLACE_RUN) == [],
        "hybrid, quiet": len(complaints(solver, (quiet, "accepted"), 0, PLACE_RUN)) == 1,
        "hybrid, quiet, by trying": len(complaints(None, (quiet, "accepted"), 0, PLACE_RUN)) == 1,
        "hybrid, unsure": complaints(solver, (unsure, "open i ulocation"), 2, PLACE_RUN) == [],
        "hybrid, another question": len(complaints(solver, (unsure, "open i location"), 2, PLACE_RUN)) == 1,
        "hybrid, no such kind": complaints(solver, HYBRID_TOLD, 1, HYBRID_RUN)
        == ["the states behind ulocation do not show it", "i ulocation yes, and nothing can show it"],
        "hybrid, supervisor states": complaints(solver, in_supervisor_mode, 1, PLACE_RUN)
        == ["the states behind ulocation do not show it"],
        "hybrid, another family's kind": len(complaints(solver, as_pure, 1, PLACE_RUN)) == 1,
        "hybrid, another family's line": len(complaints(solver, (pure_quiet, "accepted"), 0, HYBRID_RUN)) == 1,
        "hybrid, first line": len(complaints(solver, HYBRID_TOLD, 1, PLACE_RUN._replace(saved=SAVED))) == 2,
        "hybrid, verified": len(complaints(solver, HYBRID_TOLD, 1, PLACE_RUN._replace(verified=None))) == 1,
        "hybrid, nothing saved": complaints(solver, HYBRID_TOLD, 1, PLACE_RUN._replace(saved=None)) == ["nothing is saved"],
    }
    return [name for name, is_so in checks.items() if not is_so]


def wrong_generated(solver: Solver) -> list[str]:
    """Bodies that `gen` draws of which another kind can be shown than is said where its runs are judged."""
    wrong = []
    for body, shown in zip(BODIES, CAN_BE_SHOWN):
        machine = Machine(read(f'{HEAD} instr g0 "{1:08b}{FIELDS}" {{ {body} }}'.encode()))
        found = {kind for kind in PURE.kinds if solver.decided(machine, 0, kind).answer is not Answer.NEVER}
        if found != shown:
            wrong.append(f"{body}: {sorted(found)}, and not {sorted(shown)}")
    return wrong


def wrong_tries(solver: Solver, count: int) -> list[str]:
    """Random pairs of which a formula says another thing than the machine."""
    wrong = []
    shown = 0
    for i in range(count):
        rng = Random(f"tries {i}")
        description = read(rng.choice([any_bodies, any_bodies, pieced, hard])(rng).files[DESCRIPTION_FILE])
        machine = Machine(description)
        number, kind = rng.randrange(len(description.instructions)), rng.choice(ALL_KINDS)
        finder = PairFinder(rng, description)
        pair = rng.random() < 0.5 and finder.found(number, kind) or finder.pair(number, kind)
        is_shown = shows(machine, number, kind, *pair)
        shown += is_shown
        if solver.is_shown_by(machine, number, kind, pair) != is_shown:
            wrong.append(f"try {i}: {kind} of instruction {number} is {'' if is_shown else 'not '}shown by {pair}")
    return [*wrong, f"{count} tries, {shown} shown, {len(wrong)} wrong"] if count else wrong


def main() -> int:
    parser = argparse.ArgumentParser(description=__doc__, formatter_class=argparse.RawDescriptionHelpFormatter)
    parser.add_argument("--tries", type=int, default=0, metavar="N", help="random pairs (default: %(default)s)")
    count = parser.parse_args().tries
    program = shutil.which("z3")
    if program is None:
        print("check_decisions: no program z3", file=sys.stderr)
        return 2
    solver = Solver(Path(program))
    wrong = [*wrong_rows(solver), *wrong_generated(solver), *wrong_verdicts(solver), *wrong_hybrid_verdicts(solver)]
    tried = wrong_tries(solver, count)
    print("\n".join([*wrong, f"{len(ROWS) + len(HYBRID_ROWS)} rows, {len(wrong)} wrong", *tried]))
    return WRONG if wrong or len(tried) > 1 else GOOD


if __name__ == "__main__":
    sys.exit(main())
