#!/usr/bin/env python3
"""Small certificates beside what the model has to answer, worked out by hand.

Ends with 0 where it answers all of them so.
"""

import sys
from collections.abc import Sequence
from typing import NamedTuple

sys.dont_write_bytecode = True  # before the modules of this folder are read, so that it holds sources only

from judging import Ended, Files
from judging_migrations import MigrationJudge
from pgvmodel.answers import Answer, verifying
from pgvmodel.clauses import Clause, Clauses, Step, Wrong
from pgvmodel.command import Migration, answer, on_full_output
from pgvmodel.error_lines import NO_OUTPUT, ErrorLine, fits_refusal, fits_side, missing, unreadable, unwritable
from pgvmodel.families import HYBRID
from pgvmodel.questions import NotModelled, read_formula
from pgvmodel.reader import read

NOTHING = b"machine{word 16;address 4;size 8;}"
HEAD = b"machine { word 32; address 8; size 64; }\n"
PLAIN = HEAD + b"""instr add "00000001_xxxxxxxx_yyyyyyyy_zzzzzzzz" { mem[x] = (mem[y] + mem[z]); }
instr lr "00000100_........_llllllll_bbbbbbbb" { if mode { trap; } rel = l; bound = b; }
"""
RTU = HEAD + b'instr rtu "00000101_................_aaaaaaaa" { mode = 1:1; pc = a; }'
TELLING = HEAD + b"""instr t "00000110_................_aaaaaaaa" {
  mem[a] = cat(cat(rel, bound), ext(mode, 16)); rel = (rel + 1:8);
}"""
TRAPPING = HEAD + b'instr t "00000110_................_aaaaaaaa" { if (rel < a) { trap; } else { let x = mem[255:8]; } }'

SQUARE: list[Clause] = [(1, 2), (-1, 2), (1, -2), (-1, -2)]
"""The clauses of every question here; they cannot all be true."""

STATE = ("psw s 2 0 4", "0: 00000000 00000000 05000000 00000000")
USER = ("psw u 2 0 4", STATE[1])


def pair(kind: str, first: tuple[str, ...], second: tuple[str, ...], name: str = "rtu") -> tuple[str, ...]:
    """The lines of a shown finding with storages of four cells."""
    return (f"finding {name} {kind} shown", "size 4", *first, "size 4", *second)


def refuted(kind: str, *lines: str, name: str = "rtu") -> tuple[str, ...]:
    return (f"finding {name} {kind} refuted", *lines)


PRIVILEGED = ("pgcert 2", *pair("privileged", STATE, USER))
CONTROL = (*PRIVILEGED, *pair("control", STATE, STATE))
ONCE = ("s 2 0 1 2 0", "s 0 5 3 4 0")
"""A refutation of SQUARE."""
LAST = tuple(line for kind in ("mode", "location", "bound") for line in refuted(kind, *ONCE))
FIRST = ("pgcert 2", "finding rtu privileged")

CELLS = "0: 06000002 00000000 00000000 00000000"
HERE = ("size 4", "psw s 0 0 4", CELLS)
IN_USER_MODE = ("size 4", "psw u 0 0 4", CELLS)
THERE = ("size 4", "psw s 0 0 3", CELLS, "size 4", "psw s 0 1 3", "0: 00000007 06000002 00000000 00000000")
"""A window of three cells from cell 0, and the same from cell 1."""
TOLD = (
    "pgcert 1",
    *("finding t privileged shown", *HERE, *IN_USER_MODE),
    *("finding t control shown", *HERE, *HERE),
    *("finding t mode shown", *HERE, *IN_USER_MODE),
    *("finding t location shown", *THERE),
    *("finding t bound shown", *HERE, "size 4", "psw s 0 0 5", CELLS),
)
TRAP = "0: 06000001 00000000 00000000 00000000"
TRAPPED = (
    *("finding t privileged shown", "size 4", "psw s 0 0 4", TRAP, "size 4", "psw u 0 0 4", TRAP),
    *refuted("control", *ONCE, name="t"),
    *refuted("mode", *ONCE, name="t"),
    *("finding t location shown", "size 4", "psw s 0 0 3", TRAP),
    *("size 4", "psw s 0 1 3", "0: 00000000 06000001 00000000 00000000"),
)
"""Two traps of one kind show that an instruction is not privileged; a trap and a memory trap show nothing of places."""


class Row(NamedTuple):
    """A description, the lines of a certificate, and what is answered: a status and the last line, or for 1 some of it."""

    description: bytes
    lines: tuple[str, ...]
    status: int
    line: str


def spent(budget: str, *lines: str) -> tuple[str, ...]:
    """A certificate of RTU that begins with a spent finding, and ends behind it."""
    return (FIRST[0], f"{FIRST[1]} spent {budget}", *lines, "end")


def log(*lines: str, version: str = "2") -> tuple[str, ...]:
    """A certificate of RTU that begins with a refuted finding, and ends behind it."""
    return (f"pgcert {version}", f"{FIRST[1]} refuted", *lines, "end")


ROWS = (
    Row(NOTHING, ("pgcert 1", "end"), 0, "accepted"),
    Row(NOTHING, ("pgcert 2", "end"), 0, "accepted"),
    Row(NOTHING, (), 6, "certificate: grammar 1"),
    Row(NOTHING, ("pgcert 1",), 6, "certificate: grammar 2"),
    Row(NOTHING, ("pgcert 1", "end", ""), 6, "certificate: grammar 3"),
    Row(NOTHING, ("pgcert 1", "end", "\t"), 6, "certificate: token 3"),
    Row(NOTHING, ("pgcert 0", "end"), 6, "certificate: version 1"),
    Row(NOTHING, ("pgcert 01", "end"), 6, "certificate: grammar 1"),
    Row(NOTHING, ("pgcert " + "9" * 5000, "end"), 6, "certificate: version 1"),
    Row(NOTHING, ("pgcert 1", "pgcert 3", "end"), 6, "certificate: grammar 2"),
    Row(NOTHING, ("pghybrid 1", "end"), 6, "certificate: grammar 1"),
    Row(NOTHING, ("pgcert 1", "finding rtu privileged refuted"), 6, "certificate: instr 2"),
    Row(PLAIN, ("pgcert 1",), 6, "certificate: missing add privileged"),
    Row(PLAIN, ("pgcert 1", "end"), 6, "certificate: missing add privileged"),
    Row(PLAIN, ("pgcert 1", "finding rtu privileged shown"), 6, "certificate: instr 2"),
    Row(PLAIN, ("pgcert 1", "finding lr privileged refuted"), 6, "certificate: missing add privileged"),
    Row(PLAIN, ("pgcert 1", "finding trap privileged refuted"), 6, "certificate: instr 2"),
    Row(PLAIN, ("pgcert 1", f"finding {'a' * 32} privileged refuted"), 6, "certificate: instr 2"),
    Row(PLAIN, ("pgcert 1", f"finding {'a' * 33} privileged refuted"), 6, "certificate: grammar 2"),
    Row(PLAIN, ("pgcert 1", "finding add ucontrol refuted"), 6, "certificate: grammar 2"),
    Row(RTU, ("pgcert 1", *PRIVILEGED[1:], "end"), 6, "certificate: missing rtu control"),
    Row(RTU, ("pgcert 1", *pair("privileged", STATE, STATE), "end"), 6, "certificate: pair 2"),
    Row(RTU, ("pgcert 1", *pair("privileged", USER, STATE), "end"), 6, "certificate: pair 2"),
    Row(RTU, ("pgcert 3", *PRIVILEGED[1:], "end"), 6, "certificate: version 1"),
    Row(RTU, ("pgcert 1", "finding rtu privileged refuted", "end"), 6, "certificate: closed 2"),
    Row(RTU, PRIVILEGED[:5], 6, "certificate: grammar 6"),
    Row(RTU, (*PRIVILEGED[:5], "end"), 6, "certificate: grammar 6"),
    Row(RTU, (*PRIVILEGED[:7], "end"), 6, "certificate: pair 2"),
    Row(RTU, (*PRIVILEGED, STATE[1]), 6, "certificate: grammar 9"),
    Row(RTU, (*PRIVILEGED, "size 4"), 6, "certificate: grammar 9"),
    Row(RTU, (*PRIVILEGED, "s 0 0"), 6, "certificate: grammar 9"),
    Row(RTU, (*PRIVILEGED, "d 1 0"), 6, "certificate: grammar 9"),
    Row(RTU, (*PRIVILEGED, PRIVILEGED[1]), 6, "certificate: extra 9"),
    Row(RTU, (*PRIVILEGED, "finding rtu mode refuted"), 6, "certificate: missing rtu control"),
    Row(RTU, (*PRIVILEGED, *pair("control", USER, USER), "end"), 6, "certificate: pair 9"),
    Row(RTU, (*CONTROL, "end"), 6, "certificate: missing rtu mode"),
    Row(RTU, (*CONTROL, *LAST, "end"), 1, "refused rtu"),
    Row(RTU, (FIRST[0], *refuted("privileged", *ONCE), *CONTROL[8:], *LAST, "end"), 0, "accepted"),
    Row(RTU, (*PRIVILEGED, *refuted("control", *ONCE), *LAST, "end"), 0, "accepted"),
    Row(RTU, (*PRIVILEGED, "finding rtu control spent 1", "s 2 0 1 2 0", *LAST, "end"), 2, "open rtu control"),
    Row(RTU, ("pgcert 2", "size 1"), 6, "certificate: grammar 2"),
    Row(RTU, (*PRIVILEGED[:2], "size 1"), 6, "certificate: grammar 3"),
    Row(RTU, (*PRIVILEGED[:2], "size 65"), 6, "certificate: grammar 3"),
    Row(RTU, (*PRIVILEGED[:3], "psw s 256 0 4"), 6, "certificate: grammar 4"),
    Row(RTU, (*PRIVILEGED[:4], "0: 00000000 00000000 00000000 00000000"), 6, "certificate: grammar 5"),
    Row(RTU, (*PRIVILEGED[:4], "0: 00000000 00000000 0500000A 00000000"), 6, "certificate: grammar 5"),
    Row(RTU, (*PRIVILEGED[:4], "0: 00000001 00000000 05000000"), 6, "certificate: grammar 5"),
    Row(RTU, (*PRIVILEGED[:4], "8: 00000001"), 6, "certificate: grammar 5"),
    Row(RTU, log("s 3 0 1 0"), 6, "certificate: step 3 1"),
    Row(RTU, log("s 3 0 0"), 6, "certificate: step 3 1"),
    Row(RTU, log("s 2 0 0"), 6, "certificate: step 3 4"),
    Row(RTU, log("s 2 0 9 0"), 6, "certificate: step 3 2"),
    Row(RTU, log("s 2 0 3 2 0"), 6, "certificate: step 3 3"),
    Row(RTU, log("s 2 0 3 9 0"), 6, "certificate: step 3 3"),
    Row(RTU, log("s 2 0 1 0"), 6, "certificate: step 3 4"),
    Row(RTU, log("s 2 0 1 2 0"), 6, "certificate: closed 2"),
    Row(RTU, log(*ONCE), 6, "certificate: missing rtu control"),
    Row(RTU, log(*ONCE, "s 0 6 0"), 6, "certificate: missing rtu control"),
    Row(RTU, log(*ONCE, "s 0 6 3 0"), 6, "certificate: step 5 3"),
    Row(RTU, log("s 2 0 1 2 0", "d 5 0", "s 0 5 3 4 0"), 6, "certificate: step 5 2"),
    Row(RTU, log("s 2 0 1 2 0", "d 5 0", "d 5 0"), 6, "certificate: delete 5"),
    Row(RTU, log("s 2 0 1 2 0", "d 1 2 0", ONCE[1], "d 6 0"), 6, "certificate: missing rtu control"),
    Row(RTU, log("d 6 0"), 6, "certificate: delete 3"),
    Row(RTU, log("d 0"), 6, "certificate: grammar 3"),
    Row(RTU, log("d 2 1 0"), 6, "certificate: grammar 3"),
    Row(RTU, log("d 1 1 0"), 6, "certificate: grammar 3"),
    Row(RTU, log("d 4294967296 0"), 6, "certificate: grammar 3"),
    Row(RTU, log("d 1 0", version="1"), 6, "certificate: grammar 3"),
    Row(RTU, log("s 2 1 0 1 2 0"), 6, "certificate: grammar 3"),
    Row(RTU, log("s -2 2 0 1 2 0"), 6, "certificate: grammar 3"),
    Row(RTU, log("s 2147483648 0 1 2 0"), 6, "certificate: grammar 3"),
    Row(RTU, log("s 2147483647 0 1 2 0"), 6, "certificate: step 3 1"),
    Row(RTU, log("s 2 0 1 02 0"), 6, "certificate: grammar 3"),
    Row(RTU, log("s 2 0 1 2"), 6, "certificate: grammar 3"),
    Row(RTU, log("s 2 0 1 2 0 "), 6, "certificate: grammar 3"),
    Row(RTU, spent("0"), 6, "certificate: grammar 2"),
    Row(RTU, spent("1000001"), 6, "certificate: grammar 2"),
    Row(RTU, spent("1000000"), 6, "certificate: spent 2"),
    Row(RTU, spent("1", "s 2 0 1 2 0"), 6, "certificate: missing rtu control"),
    Row(RTU, spent("2", "s 2 0 1 2 0"), 6, "certificate: spent 2"),
    Row(RTU, spent("1", "s 2 0 1 2 0", "s 1 0 1 3 0"), 6, "certificate: spent 4"),
    Row(RTU, spent("1", "s 2 0 1 2 0", "s 1 0 1 0"), 6, "certificate: step 4 4"),
    Row(RTU, spent("2", "s 2 0 1 2 0", "s 2 0 5 0"), 6, "certificate: spent 4"),
    Row(RTU, spent("2", "s 2 0 1 2 0", "s 0 5 3 4 0"), 6, "certificate: spent 4"),
    Row(RTU, spent("1", "s 1 2 0 1 0"), 6, "certificate: spent 3"),
    Row(RTU, spent("1", "d 1 0"), 6, "certificate: grammar 3"),
    Row(TRAPPING, ("pgcert 2", *TRAPPED, "end"), 6, "certificate: pair 15"),
    Row(TELLING, (*TOLD, "end"), 1, "refused t"),
    Row(TELLING, (*TOLD[:23], *THERE[:3], "size 5", THERE[4], f"{THERE[5]} 00000000", "end"), 6, "certificate: pair 23"),
    Row(TELLING, (*TOLD[:23], *THERE[:4], "psw s 0 1 2", THERE[5], "end"), 6, "certificate: pair 23"),
    Row(TELLING, (*TOLD[:23], *THERE[:4], "psw u 0 1 3", THERE[5], "end"), 6, "certificate: pair 23"),
    Row(TELLING, (*TOLD[:23], *THERE[:4], "psw s 0 0 3", THERE[2], "end"), 6, "certificate: pair 23"),
    Row(TELLING, (*TOLD[:23], *THERE, "end"), 6, "certificate: missing t bound"),
    Row(TELLING, (*TOLD[:30], *HERE, "size 4", "psw s 0 0 4", CELLS, "end"), 6, "certificate: pair 30"),
    Row(TELLING, (*TOLD[:30], *HERE, "size 5", "psw s 0 0 5", CELLS), 6, "certificate: grammar 36"),
)


def whole(*lines: str, kind: str = "privileged") -> tuple[str, ...]:
    """A certificate of an instruction t, of which all kinds but one are refuted by SQUARE."""
    kinds = ("privileged", "control", "mode", "location", "bound")
    found = {other: refuted(other, *ONCE, name="t") for other in kinds} | {kind: lines}
    return ("pgcert 2", *(line for other in kinds for line in found[other]), "end")


class Replay(NamedTuple):
    """A description, the lines of a certificate, and what `replay` writes, with its status."""

    description: bytes
    lines: tuple[str, ...]
    text: tuple[str, ...]
    status: int = 0


BEHIND = ("size 4", "psw u 0 0 4", STATE[1])
"""Where RTU leads from STATE and from USER: it enters user mode and jumps to 0."""
RTU_STEPS = ("size 4", *STATE, "step done", *BEHIND)

LOADING = b'instr t "00000110........................" { let t = mem[rel]; }'
LOADED = ("size 4", "psw s 0 0 1", "0: 06000000 00000000 00000000 00000000")
NOT_LOADED = ("size 4", "psw s 0 1 1", "0: 00000000 06000000 00000000 00000000")
"""A window of one cell: address 0 is usable, and address 1 is not."""
CLEARING = HEAD + b'instr t "00000111........................" { mem[pc] = 0:32; mode = 1:1; }'
FULL = ("size 2", "psw s 0 0 2", "0: 07000000 00000000")
CALLING = b'instr t "00000110........................" { mem[1:8] = 0:32; trap; }'
CALL = ("size 4", "psw s 0 0 4", "0: 06000000 ff020304 00000000 00000000")
USER_CALL = ("size 4", "psw u 0 0 4", CALL[2])

REPLAYS = (
    # Nothing shown, nothing written; the verdict plays no part.
    Replay(NOTHING, ("pgcert 1", "end"), ()),
    Replay(RTU, (FIRST[0], *refuted("privileged", *ONCE), *refuted("control", *ONCE), *LAST, "end"), ()),
    Replay(
        RTU,
        (*PRIVILEGED, "finding rtu control spent 1", "s 2 0 1 2 0", *LAST, "end"),
        ("rtu privileged", *RTU_STEPS, "size 4", *USER, "step done", *BEHIND),
    ),
    # Shown findings in order, each with both states, also where they are the same.
    Replay(
        RTU,
        (*CONTROL, *LAST, "end"),
        ("rtu privileged", *RTU_STEPS, "size 4", *USER, "step done", *BEHIND, "rtu control", *RTU_STEPS, *RTU_STEPS),
    ),
    # The store goes to address 2 of the window, relocated by the R of entry; what is stored is that R and the mode.
    Replay(
        TELLING,
        (*TOLD, "end"),
        (
            *("t privileged", *HERE, "step done", "size 4", "psw s 1 1 4", "0: 06000002 00000000 00040000 00000000"),
            *(*IN_USER_MODE, "step done", "size 4", "psw u 1 1 4", "0: 06000002 00000000 00040001 00000000"),
            *("t control", *HERE, "step done", "size 4", "psw s 1 1 4", "0: 06000002 00000000 00040000 00000000"),
            *(*HERE, "step done", "size 4", "psw s 1 1 4", "0: 06000002 00000000 00040000 00000000"),
            *("t mode", *HERE, "step done", "size 4", "psw s 1 1 4", "0: 06000002 00000000 00040000 00000000"),
            *(*IN_USER_MODE, "step done", "size 4", "psw u 1 1 4", "0: 06000002 00000000 00040001 00000000"),
            *("t location", *THERE[:3], "step done", "size 4", "psw s 1 1 3", "0: 06000002 00000000 00030000 00000000"),
            *(*THERE[3:], "step done", "size 4", "psw s 1 2 3", "0: 00000007 06000002 00000000 01030000"),
            *("t bound", *HERE, "step done", "size 4", "psw s 1 1 4", "0: 06000002 00000000 00040000 00000000"),
            *("size 4", "psw s 0 0 5", CELLS, "step done", "size 4", "psw s 1 1 5", "0: 06000002 00000000 00050000 00000000"),
        ),
    ),
    # A storage that the step leaves empty has no line of cells.
    Replay(
        CLEARING,
        whole("finding t control shown", *FULL, *FULL, kind="control"),
        ("t control", *(*FULL, "step done", "size 2", "psw u 1 0 2") * 2),
    ),
    # A trap stores (s, 0, (0, 4)), then (u, 0, (0, 4)), and loads the zero word of cell 1.
    Replay(
        TRAPPING,
        whole(*TRAPPED[:7]),
        (
            *("t privileged", "size 4", "psw s 0 0 4", TRAP, "step trap"),
            *("size 4", "psw s 0 0 0", "0: 00000004 00000000 00000000 00000000"),
            *("size 4", "psw u 0 0 4", TRAP, "step trap", "size 4", "psw s 0 0 0", "0: 01000004 00000000 00000000 00000000"),
        ),
    ),
    # The word of cell 1 is that of entry, whatever was stored there; its bits above the mode mean nothing.
    Replay(
        HEAD + CALLING,
        whole("finding t privileged shown", *CALL, *USER_CALL),
        (
            *("t privileged", *CALL, "step trap", "size 4", "psw u 2 3 4", "0: 00000004 ff020304 00000000 00000000"),
            *(*USER_CALL, "step trap", "size 4", "psw u 2 3 4", "0: 01000004 ff020304 00000000 00000000"),
        ),
    ),
    # With causes on it stores 2 above the mode, and 1 for a memory trap.
    Replay(
        HEAD.replace(b"}", b"causes on; }") + CALLING,
        whole("finding t privileged shown", *CALL, *USER_CALL),
        (
            *("t privileged", *CALL, "step trap", "size 4", "psw u 2 3 4", "0: 04000004 ff020304 00000000 00000000"),
            *(*USER_CALL, "step trap", "size 4", "psw u 2 3 4", "0: 05000004 ff020304 00000000 00000000"),
        ),
    ),
    Replay(
        HEAD + LOADING,
        whole("finding t location shown", *LOADED, *NOT_LOADED, kind="location"),
        (
            *("t location", *LOADED, "step done", "size 4", "psw s 1 0 1", LOADED[2]),
            *(*NOT_LOADED, "step memtrap", "size 4", "psw s 0 0 0", "0: 00000101 06000000 00000000 00000000"),
        ),
    ),
    Replay(
        HEAD.replace(b"}", b"causes on; }") + LOADING,
        whole("finding t location shown", *LOADED, *NOT_LOADED, kind="location"),
        (
            *("t location", *LOADED, "step done", "size 4", "psw s 1 0 1", LOADED[2]),
            *(*NOT_LOADED, "step memtrap", "size 4", "psw s 0 0 0", "0: 02000101 06000000 00000000 00000000"),
        ),
    ),
    # Refusals are those of `verify`.
    Replay(NOTHING, ("pgcert 3", "end"), ("certificate: version 1",), 6),
    Replay(NOTHING, ("pghybrid 1", "end"), ("certificate: grammar 1",), 6),
    Replay(RTU, (*CONTROL, "end"), ("certificate: missing rtu mode",), 6),
    Replay(NOTHING[:-1], ("pgcert 3", "end"), ("description: grammar 33",), 4),
)


class Trimming(NamedTuple):
    """A log of SQUARE, one that `migrate` may save for it, and what is said of that: nothing, or words that stand in it."""

    old: tuple[str, ...]
    new: tuple[str, ...]
    said: str = ""


FIVE, OTHER = "s 2 0 1 2 0", "s 1 0 1 3 0"
"""Two steps; the second one is not needed where the first one is."""

TRIMMINGS = (
    Trimming(ONCE, ONCE),
    # What is not needed goes, and the numbers behind it change.
    Trimming((OTHER, FIVE, "s 0 6 3 4 0"), ONCE),
    Trimming((OTHER, FIVE, "d 5 0", "s 0 6 3 4 0"), ONCE),
    Trimming((OTHER, FIVE, "s 0 6 3 4 0"), (OTHER, FIVE, "s 0 6 3 4 0"), "no later step has clause 5"),
    Trimming((OTHER, FIVE, "s 0 6 3 4 0"), (FIVE, "s 0 6 3 4 0"), "refuses it: step 4 2"),
    Trimming((FIVE, OTHER, "s 0 5 3 4 0"), ONCE),
    Trimming((FIVE, OTHER, "s 0 5 3 4 0"), (FIVE, OTHER, "s 0 5 3 4 0"), "no later step has clause 6"),
    # What stands behind the empty clause goes too, but where the end is taken to be a later one that rests on it.
    Trimming((*ONCE, OTHER), ONCE),
    Trimming((*ONCE, OTHER), (*ONCE, OTHER), "does not end with the empty clause"),
    Trimming((*ONCE, "s 0 6 0"), ONCE),
    Trimming((*ONCE, "s 0 6 0"), (*ONCE, "s 0 6 0")),
    Trimming((*ONCE, "s 1 0 6 0", "s 0 7 2 4 0"), ONCE),
    # Clauses may be taken away between steps, and not behind the last one.
    Trimming(ONCE, (FIVE, "d 1 2 0", ONCE[1])),
    Trimming((FIVE, "d 1 2 0", ONCE[1]), ONCE),
    Trimming(ONCE, (*ONCE, "d 5 0"), "does not end with the empty clause"),
    Trimming(ONCE, (FIVE, "d 5 0", ONCE[1]), "refuses it: step 5 2"),
    # Steps that were not there, though they are valid: another clause, other hints, the same ones in another order.
    Trimming(ONCE, (OTHER, "s 0 5 2 4 0"), "not some of the old ones"),
    Trimming(ONCE, (FIVE, "s 0 5 4 3 0"), "not some of the old ones"),
    Trimming(ONCE, ("s 2 0 2 1 0", ONCE[1]), "not some of the old ones"),
    Trimming(ONCE, (FIVE, "s 1 0 1 3 0", "s 0 5 6 4 0"), "not some of the old ones"),
    Trimming((FIVE, OTHER, "s 0 5 6 4 0"), (FIVE, OTHER, "s 0 5 6 4 0")),
    Trimming((FIVE, OTHER, "s 0 5 6 4 0"), (OTHER, FIVE, "s 0 6 5 4 0"), "not some of the old ones"),
    # Of two equal steps that one is kept which is a hint, whichever it is.
    Trimming((FIVE, FIVE, "s 0 5 3 4 0"), ONCE),
    Trimming((FIVE, FIVE, "s 0 6 3 4 0"), ONCE),
    Trimming((FIVE, FIVE, "s 0 6 3 4 0"), (FIVE, FIVE, "s 0 6 3 4 0"), "no later step has clause 5"),
    # One step can't stand for two.
    Trimming((FIVE, "s 0 5 3 4 0"), (FIVE, FIVE, "s 0 6 3 4 0"), "no later step has clause 5"),
    Trimming(
        (FIVE, "s 1 2 0 5 0", "s 1 0 5 3 0", "s 0 5 7 4 0"),
        (FIVE, FIVE, "s 1 0 6 3 0", "s 0 5 7 4 0"),
        "not some of the old ones",
    ),
)


class _Square:
    """Answers every question with SQUARE."""

    def clauses(self, *_question: object) -> list[Clause]:
        return SQUARE


class _Nobody:
    """Has no clauses."""

    def clauses(self, *_question: object) -> list[Clause]:
        raise NotModelled


def answered(description: bytes, text: bytes, questions: object = _Square()) -> tuple[int, list[str]]:
    """The status and the lines that `verify` is to write."""
    files = {"d": description, "c": text}
    status, output, *_ = answer(("verify", "d", "c"), files.__getitem__, questions)
    return status, output.decode().splitlines()


def wrong_rows() -> list[str]:
    """What the rows ask and the model does not say."""
    wrong = []
    for row in ROWS:
        status, lines = answered(row.description, "".join(line + "\n" for line in row.lines).encode())
        told = lines[1] if status == 1 and len(lines) > 1 else lines[-1]
        if (status, told) != (row.status, row.line):
            wrong.append(f"{row.lines}: {status} {told}, and not {row.status} {row.line}")
    return wrong


def wrong_elsewhere() -> list[str]:
    """A last line without its line feed, a refused text whole, a checker, a formula, and no one to ask."""
    held = Clauses(SQUARE)
    steps = [((2,), (1,)), ((2,), (9,)), ((2,), (3, 2)), ((3,), (1,)), ((2,), (1, 2)), ((), (5, 3, 4))]
    found = [held.add(Step(*step)) for step in steps]
    refused = ["rtu privileged no control yes mode no location no bound no", "refused rtu", "privileged", "size 4", *STATE]
    refused += ["size 4", *USER, "control", "size 4", *STATE, "size 4", *STATE]
    whole = "".join(line + "\n" for line in (*CONTROL, *LAST, "end")).encode()
    checks = {
        "no line feed": answered(NOTHING, b"pgcert 1\nend") == (6, ["certificate: grammar 2"]),
        "no line feed, first line": answered(NOTHING, b"pgcert 3") == (6, ["certificate: grammar 1"]),
        "a strange byte before that": answered(NOTHING, b"pgcert 1\nend\r") == (6, ["certificate: token 2"]),
        "refused": answered(RTU, whole) == (1, refused),
        "checker": found == [Wrong.NO_CONFLICT, Wrong.UNKNOWN_HINT, Wrong.NOT_UNIT, Wrong.UNKNOWN_LITERAL, None, None],
        "covered": Clauses(SQUARE).covers((1, 2)) and not Clauses(SQUARE).covers((2,)),
        "formula": read_formula(b"c comment\np cnf 2 2\n1 -2 0\n2 0\n") == [(1, -2), (2,)],
        "nobody to ask": _is_not_modelled(whole),
    }
    return [name for name, is_so in checks.items() if not is_so]


def as_text(lines: Sequence[str]) -> bytes:
    return "".join(line + "\n" for line in lines).encode()


def wrong_replays() -> list[str]:
    """Texts of `replay` that are others."""
    wrong = []
    for row in REPLAYS:
        files = {"d": row.description, "c": as_text(row.lines)}
        told = answer(("replay", "d", "c"), files.__getitem__, _Square())
        if told != Answer(row.status, as_text(row.text)):
            wrong.append(f"replay of {row.lines}: {told}")
    return wrong


class _Again:
    """Runs of the program on what was saved: `verify` as the model has it, `migrate` that answers so and saves `lines`."""

    def __init__(self, lines: Sequence[str]) -> None:
        self.lines = lines

    def verified(self, description: bytes, certificate: bytes) -> Ended:
        return Ended(*verifying(read(description), certificate, _Square().clauses)[:2])

    def migrated(self, description: bytes, certificate: bytes) -> tuple[Ended, bytes | None]:
        return self.verified(description, certificate), as_text(self.lines)


def migrated(old: Sequence[str], saved: Sequence[str], again: Sequence[str] | None = None) -> list[str]:
    """What is said of a migration of RTU's certificate with these lines, which is saved with those, and again with others."""
    return said(old, {"x": as_text(saved)}, saved if again is None else again)


def said(old: Sequence[str], written: Files, again: Sequence[str], ended: Ended | None = None) -> list[str]:
    """The same, with the files that are written, and with how the run ended where that is not as it has to."""
    files = {"d": RTU, "c": as_text(old)}
    asked = answer(("migrate", "d", "c", "x"), files.__getitem__, _Square())
    assert isinstance(asked, Migration)
    ended = ended or Ended(*asked.answer[:2])
    return list(MigrationJudge(_Square()).complaints(asked, ended, files, {**files, **written}, _Again(again)))


def privileged(log_: Sequence[str]) -> tuple[str, ...]:
    """A certificate of RTU of which `privileged` is refuted by this log; it is accepted."""
    return (FIRST[0], *refuted("privileged", *log_), *CONTROL[8:], *LAST, "end")


def wrong_trimmings() -> list[str]:
    """Logs of which the judge says another thing; each is saved as it is when it is migrated again."""
    wrong = []
    for row in TRIMMINGS:
        told = migrated(privileged(row.old), privileged(row.new), privileged(row.new))
        is_so = any(row.said in line for line in told) if row.said else not told
        if not is_so:
            wrong.append(f"{row.old} trimmed to {row.new}: {told}, and not {row.said!r}")
    return wrong


def wrong_migrations() -> list[str]:
    """Migrations that a judge has to take or to refuse, and does not; and what is answered before anything is saved."""
    shown = (*CONTROL, *LAST, "end")
    first = ("pgcert 1", *shown[1:])
    spent_ = (*PRIVILEGED, "finding rtu control spent 1", FIVE, *LAST, "end")
    other_spent = (*PRIVILEGED, "finding rtu control spent 1", OTHER, *LAST, "end")
    other_pair = (*PRIVILEGED[:1], *pair("privileged", *(("psw s 2 0 5", STATE[1]), ("psw u 2 0 5", STATE[1]))), *shown[8:])
    longer, files = privileged((OTHER, FIVE, "s 0 6 3 4 0")), {"d": RTU, "c": as_text(shown), "bad": b"pgcert 3\n"}

    def asked(*words: str, can_save: bool = True) -> object:
        return answer(("migrate", *words), files.__getitem__, _Square(), lambda _: can_save)

    checks = {
        "shown": migrated(shown, shown) == [],
        "from version 1": migrated(first, shown) == [],
        "to version 1": any("begins with" in line for line in migrated(shown, first, shown)),
        "spent": migrated(spent_, spent_) == [],
        "other steps": any("line by line" in line for line in migrated(spent_, other_spent)),
        "another pair": any("marks are others" in line for line in migrated(shown, other_pair)),
        "another verdict": len(said(shown, {"x": as_text(shown)}, shown, Ended(0, b"accepted\n"))) == 1,
        "nothing saved": said(shown, {}, shown) == ["nothing is saved"],
        "another file": len(said(shown, {"x": as_text(shown), "y": b""}, shown)) == 1,
        "the description gone": len(said(shown, {"x": as_text(shown), "d": b""}, shown)) == 1,
        "cut off": any("refuses it: grammar" in line for line in migrated(shown, shown[:-1], shown)),
        "hybrid": any("refuses it: grammar 1" in line for line in migrated(shown, ("pghybrid 1", *shown[1:]), shown)),
        "again": migrated(longer, privileged(ONCE), privileged(ONCE)) == [],
        "again, longer": any("once more" in line for line in migrated(longer, privileged(ONCE), longer)),
        "again, refused": any("once more" in line for line in migrated(shown, shown, shown[:-1])),
        "refused": asked("d", "bad", "x") == Answer(6, b"certificate: version 1\n"),
        "refused before a place is asked for": asked("d", "bad", "x", can_save=False)[0] == 6,
        "no place": asked("d", "c", "x", can_save=False) == Answer(9, b"", unwritable("x")),
        "two files": asked("d", "c") == answer((), files.__getitem__, _Square()),
    }
    return [name for name, is_so in checks.items() if not is_so]


def wrong_error_lines() -> list[str]:
    """Lines on standard error that are taken or not, and should not or should."""
    folder, absent = unreadable("a/b"), missing("none")
    point, wide = b"f:3:6: `pc` takes 8 bits, and this has 1\npc = mode;\n     ^\n", b"description: width 0 0\n"
    stale = b"pgv: d may have changed since c was made: pgv check d --cert c makes it anew\n"
    room = b"pgv: no room: 65 cells wanted, 64 free: take a smaller --grant, or a greater size in the description\n"
    settled = b"pgv: a mode is open: a greater budget may settle it: pgv check d --cert c --budget K, K up to 1,000,000\n"
    solver = b"pgv: or another solver: pg_dimacs d a mode writes its clauses, and pg_import d c a mode PROOF FILE takes what it finds\n"
    long = b"pgv: c has 12,345,678 bytes: a smaller --budget makes it shorter\n"
    checks = {
        "missing": absent.fits(b"pgv: none: no such file\n"),
        "no line feed": not absent.fits(b"pgv: none: no such file"),
        "twice": not absent.fits(b"pgv: none: no such file\n" * 2),
        "nothing": not absent.fits(b""),
        "another name": not absent.fits(b"pgv: nine: no such file\n"),
        "a reason too many": not absent.fits(b"pgv: none: no such file: none\n"),
        "no name": missing("").fits(b"pgv: : no such file\n"),
        "reason": folder.fits(b"pgv: a/b: cannot be read: Is a directory\n"),
        "no reason": not folder.fits(b"pgv: a/b: cannot be read: \n"),
        "a number": not folder.fits(b"pgv: a/b: cannot be read: Is a directory (os error 21)\n"),
        "two lines": not folder.fits(b"pgv: a/b: cannot be read: Is\na directory\n"),
        "written": not folder.fits(b"pgv: a/b: cannot be written: Is a directory\n"),
        "to save": unwritable("a b").fits(b"pgv: a b: cannot be written: Input/output error\n"),
        "control characters": missing("a\n\x1f\x7f\u00e9").fits("pgv: a???\u00e9: no such file\n".encode()),
        "a long name": missing("n" * 4096).fits(b"pgv: " + b"n" * 4096 + b": no such file\n"),
        "a longer one": missing("n" * 4097).fits(b"pgv: " + b"n" * 4096 + b"...: no such file\n"),
        "cut in a character": missing("n" + "\u00e9" * 2048).fits(b"pgv: n" + b"\xc3\xa9" * 2047 + b"\xc3...: no such file\n"),
        "sink": NO_OUTPUT.fits(b"pgv: standard output: cannot be written: no space left on device\n"),
        "behind a verdict": unwritable("c").fits(b"pgv: warning: c: cannot be written: x\naccepted\npgv: c: cannot be written: is a directory\n"),
        "words": fits_refusal(3, b"pgv: unexpected argument 'x' found\n", 0),
        "version": fits_refusal(3, b"pgv 1.0.0 (rattle-kit-13f)\n", 0),
        "no words": not fits_refusal(3, b"", 0),
        "pointed": fits_refusal(4, b"a b:2:10: this cannot stand here\n\tlet x\n\t    ^\n", 0),
        "the whole file": fits_refusal(5, b"f: an image has at most 33,554,432 bytes\n", 0),
        "no caret": not fits_refusal(4, b"f:2:10: this cannot stand here\nlet x\n", 0),
        "a long file": fits_refusal(5, b"", 1 << 21) and not fits_refusal(5, b"", 9),
        "nothing else": fits_refusal(0, b"", 0) and not fits_refusal(0, b"f: x\n", 0),
        "statements": fits_refusal(4, point * 21, 0, wide) and not fits_refusal(4, point * 22, 0, wide),
        "statements left": fits_refusal(4, point * 21 + b"f: and 1 more statement whose widths do not fit\n", 0, wide),
        "few, and some left": not fits_refusal(4, point + b"f: and 2 more statements whose widths do not fit\n", 0, wide),
        "statements of no width": not fits_refusal(4, point * 2, 0, b"description: twice v\n"),
        "stale": fits_refusal(6, point + stale, 0, b"certificate: instr 2\n"),
        "stale, and nothing told": not fits_refusal(6, point, 0, b"certificate: instr 2\n"),
        "stale, and by no fault of it": not fits_refusal(6, point + stale, 0, b"certificate: grammar 2\n"),
        "stale, another name": not fits_refusal(6, point + stale.replace(b"--cert c", b"--cert b"), 0, b""),
        "stale, of a long file": fits_refusal(6, stale, 1 << 21, b"certificate: pair 2\n"),
        "room": fits_refusal(7, room, 0, b"room 65 64\n") and not fits_refusal(7, room, 0, b"room 66 64\n"),
        "much room": fits_refusal(7, room.replace(b"65", b"1,065"), 0, b"room 1065 64\n") and not fits_refusal(7, room.replace(b"65", b"1,65"), 0),
        "a side program": fits_side(11, b"pg_go: x: no such file\n", 0, b"") and not fits_side(11, b"", 0, b""),
        "a side program, behind a refusal": fits_side(9, point + b"pg_go: standard output: cannot be written: x\n", 0, b""),
        "no room told": not fits_refusal(7, b"", 0, b"room 65 64\n"),
        "room elsewhere": not fits_refusal(5, room[5:] + room, 0, b""),
        "mended": fits_refusal(1, b"pgv: pg_explain d 'my c' says why, and what mends the machine\n", 0, b"refused x\n"),
        "not mended": fits_refusal(1, b"", 0) and not fits_refusal(0, b"pgv: pg_explain d c says why, and what mends the machine\n", 0),
        "open": fits_refusal(2, settled, 0, b"open a mode\n") and fits_refusal(2, settled + solver, 0, b"open a mode\n"),
        "another is open": not fits_refusal(2, settled, 0, b"open b mode\n"),
        "a solver alone": not fits_refusal(2, solver, 0, b"open a mode\n"),
        "long": fits_refusal(2, settled + solver + long, 10_000_001) and not fits_refusal(2, settled + solver + long, 10_000_000),
    }
    return [name for name, is_so in checks.items() if not is_so]


def wrong_due_lines() -> list[str]:
    """Cases in which another line is due on standard error, or none."""

    def load(name: str) -> bytes:
        if name in ("none", ""):
            raise FileNotFoundError
        if name == "dir":
            raise IsADirectoryError
        return {"d": NOTHING, "c": b"pgcert 2\nend\n"}[name]

    def due(*words: str) -> tuple[int, ErrorLine | None]:
        ended = answer(words, load, _Square(), lambda name: name == "x")
        return ended.status, ended.error

    full = on_full_output(Answer(0, b"accepted\n"))
    checks = {
        "full": full == Answer(9, b"", NO_OUTPUT),
        "full, and nothing to write": on_full_output(answer(("replay", "d", "c"), load, _Square())) == Answer(0, b""),
        "full, and no file": on_full_output(answer(("print", "none"), load, _Square()))[0] == 11,
        "no description": due("replay", "none", "dir") == (11, missing("none")),
        "no readable one": due("migrate", "dir", "none", "x") == (8, unreadable("dir")),
        "no certificate": due("migrate", "d", "none", "dir") == (11, missing("none")),
        "no readable certificate": due("replay", "d", "dir") == (8, unreadable("dir")),
        "no place": due("migrate", "d", "c", "dir") == (9, unwritable("dir")),
        "no place for a search": due("hcheck", "d", "--cert", "none") == (9, unwritable("none")),
        "no name to save": due("hcheck", "d", "--cert", "") == (9, unwritable("")),
        "words": due("hcheck", "d") == (3, None),
        "all is well": due("replay", "d", "c") == (0, None),
    }
    return [name for name, is_so in checks.items() if not is_so]


def wrong_hybrids() -> list[str]:
    """Certificates of the hybrid family, as `hcheck` saves them, of which the model says another thing."""
    users, supervisors = pair("ucontrol", USER, USER), pair("ucontrol", STATE, STATE)
    open_ = ("finding rtu ucontrol spent 1", FIVE)
    quiet = tuple(line for kind in ("ucontrol", "ulocation", "ubound") for line in refuted(kind, *ONCE))

    def told(*lines: str) -> tuple[int, str]:
        status, output, *_ = verifying(read(RTU), as_text(lines), _Square().clauses, HYBRID)
        return status, output.decode().splitlines()[-1]

    checks = {
        "accepted": told("pghybrid 1", *PRIVILEGED[1:], *quiet, "end") == (0, "accepted"),
        "removals": told("pghybrid 1", *PRIVILEGED[1:], *refuted("ucontrol", "d 1 0", *ONCE)) == (6, "certificate: step 11 2"),
        # RTU in user mode changes nothing: so no state shows it.
        "user control": told("pghybrid 1", *PRIVILEGED[1:], *users, "end") == (6, "certificate: pair 9"),
        "supervisor states": told("pghybrid 1", *PRIVILEGED[1:], *supervisors, "end") == (6, "certificate: pair 9"),
        "open": told("pghybrid 1", *PRIVILEGED[1:], *open_, *quiet[3:], "end") == (2, "open rtu ucontrol"),
        "another kind": told("pghybrid 1", *CONTROL[1:]) == (6, "certificate: grammar 9"),
        "too few": told("pghybrid 1", *PRIVILEGED[1:], *quiet[:6], "end") == (6, "certificate: missing rtu ubound"),
        "another first line": told("pgcert 2", *PRIVILEGED[1:], *quiet, "end") == (6, "certificate: grammar 1"),
        "another version": told("pghybrid 2", "end") == (6, "certificate: version 1"),
    }
    return [name for name, is_so in checks.items() if not is_so]


def _is_not_modelled(text: bytes) -> bool:
    try:
        answered(RTU, text, _Nobody())
    except NotModelled:
        return True
    return False


def main() -> int:
    rest = [*wrong_replays(), *wrong_trimmings(), *wrong_migrations(), *wrong_error_lines(), *wrong_due_lines()]
    rest += wrong_hybrids()
    wrong = [*wrong_rows(), *wrong_elsewhere(), *rest]
    rows = sum(map(len, (ROWS, REPLAYS, TRIMMINGS)))
    print("\n".join([*wrong, f"{rows} rows, {len(wrong)} wrong"]))
    return 1 if wrong else 0


if __name__ == "__main__":
    sys.exit(main())
