#!/usr/bin/env python3
"""What `gen` makes of a few numbers, worked out by hand; and runs of it that are right, or not quite, beside the judge.

Ends with 0 where all is so. It needs no program.
"""

import sys
from collections.abc import Sequence
from typing import NamedTuple

sys.dont_write_bytecode = True  # before the modules of this folder are read, so that it holds sources only

from check_runs import Monitor, monitor
from judging import Ended
from judging_generated import GenerationJudge
from pgvmodel.answers import WORDS, Answer
from pgvmodel.clauses import Clause
from pgvmodel.command import USAGE, Generation, answer
from pgvmodel.generator import CELLS, GUESTS, TURNS, draws, generated, run_text
from pgvmodel.pairs import KINDS, PRIVILEGED
from pgvmodel.printer import printed
from pgvmodel.verdict import ACCEPTED

FIRST_DRAWS = {0: 335903614, 2: 3299435481}
"""The first draw of a number."""

SLICE = 7
"""Turns of a guest at a time, in the monitor beside the model."""

MONITORED = ((0, 1), (2, 1), (7, 20), (5, 60))
"""Numbers and sizes whose run is also that of a monitor."""

SQUARE: list[Clause] = [(1, 2), (-1, 2), (1, -2), (-1, -2)]
ONCE = ("s 2 0 1 2 0", "s 0 5 3 4 0")
SPENT = ("s 2 0 1 2 0",)

CODE = "0: 00000000 00000000 01000000 00000000"
"""Four cells with the first instruction in cell 2."""

SHOWN = ("size 4", "psw s 2 0 4", CODE, "size 4", "psw u 2 0 4", CODE)
"""Two states that show that `trap;` is not privileged."""

REFUSED_LINES = (
    "gen", "gen 2", "gen 2 1", "gen 2 --cert c", "gen --cert c", "gen 2 1 1 --cert c", "gen 2 0 --cert c",
    "gen 2 61 --cert c",
    "gen 18446744073709551616 1 --cert c", "gen -1 1 --cert c", "gen 2 -1 --cert c", "gen 0x2 1 --cert c",
    "gen 2 1 --cert", "gen 2 1 --cert c --cert c",
    "gen 2 1 --cert c --budget 5", "gen d 1 --cert c", "gen 2 1 --cert c --help", "gen 2 1 --cert -c",
)
TAKEN_LINES = ("gen 2 1 --cert c", "gen --cert=c +2 01", "gen 0002 --cert c 1", "gen --cert c -- 2 1")


class _Square:
    """Answers every question with SQUARE."""

    def clauses(self, *_question: object) -> list[Clause]:
        return SQUARE


class _Verify:
    """A program whose `verify` always ends in one way."""

    def __init__(self, ended: Ended) -> None:
        self.ended = ended

    def verified(self, _description: bytes, _certificate: bytes) -> Ended:
        return self.ended


class Run(NamedTuple):
    """A run of `gen 2 1`, whose one body is `trap;`: its status and text, and what is saved."""

    status: int
    text: str
    saved: bytes | None
    verified: Ended


def as_text(lines: Sequence[str]) -> bytes:
    return "".join(line + "\n" for line in lines).encode()


def certificate(first: Sequence[str] = ("shown", *SHOWN), others: Sequence[str] = ("refuted", *ONCE)) -> bytes:
    """What is found of `privileged`, and of each other kind."""
    lines = ["pgcert 2"]
    for kind in KINDS:
        found, *evidence = first if kind == PRIVILEGED else others
        lines += [f"finding g0 {kind} {found}", *evidence]
    return as_text([*lines, "end"])


def answers(privileged: str, others: str) -> str:
    return " ".join(["g0", *(f"{kind} {privileged if kind == PRIVILEGED else others}" for kind in KINDS)]) + "\n"


def complaints(run: Run, is_full: bool = False) -> list[str]:
    """What the judge says of a run."""
    before = {"other": b""}
    after = before if run.saved is None else {**before, "c": run.saved}
    asked = Generation(generated(2, 1), "c", is_full)
    ended = Ended(run.status, run.text.encode())
    return list(GenerationJudge(_Square()).complaints(asked, ended, before, after, _Verify(run.verified)))


def wrong_values() -> list[str]:
    """Draws, texts of machines, and lines of runs."""
    text = printed(generated(0, 1).description).decode()
    lines = run_text(generated(2, 1)).splitlines()
    checks = {
        "draws": all(next(draws(number)) == draw for number, draw in FIRST_DRAWS.items()),
        "rests": [FIRST_DRAWS[0] % 6, FIRST_DRAWS[2] % 6] == [4, 3],
        "head": text.startswith("machine {\n  word 32 ;\n  address 8 ;\n  size 128 ;\n}\n"),
        "pattern": 'instr g0 "00000001xxxxxxxxyyyyyyyyzzzzzzzz" {' in text,
        "body": "if mode {\n    trap ;\n  }\n  rel = x ;\n  bound = y ;" in text,
        "steps": lines[0] == "steps 4000 direct 0",
        "guests": [line[:-8] for line in lines[1:]] == [f"guest {k} psw s 2 0 30 sum " for k in range(GUESTS)],
        "first cells": all(image[:2] == (0, 0x2001E) for image in generated(7, 20).images),
        "codes": all(1 <= cell >> 24 <= 20 for image in generated(7, 20).images for cell in image[2:]),
        "addresses": all(cell & 0xE0E0E0 == 0 for image in generated(7, 20).images for cell in image[2:]),
        "last code": printed(generated(5, 60).description).count(b'instr g59 "00111100') == 1,
    }
    return [name for name, is_so in checks.items() if not is_so]


def wrong_lines() -> list[str]:
    """Lines that are taken otherwise."""
    found = {line: answer(tuple(line.split()), {}.__getitem__, _Square()) for line in (*REFUSED_LINES, *TAKEN_LINES)}
    wrong = [line for line in REFUSED_LINES if found[line] != Answer(WORDS, USAGE.encode())]
    return wrong + [line for line in TAKEN_LINES if found[line] != Generation(generated(2, 1), "c")]


def wrong_monitors() -> list[str]:
    """Runs that end otherwise under a monitor, which gives slices of turns on one storage."""
    wrong = []
    for number, size in MONITORED:
        made = generated(number, size)
        run: Monitor = monitor(made.description, [list(image) for image in made.images])
        run.run(TURNS, SLICE)
        lines = [f"steps {GUESTS * TURNS} direct {run.direct}"]
        for guest in range(GUESTS):
            mode, p, l, b = run.virtual[guest]
            base = 2 + guest * CELLS
            total = sum(run.hardware.cells[base : base + CELLS]) % (1 << 32)
            lines.append(f"guest {guest} psw {'su'[mode]} {p} {l} {b} sum {total:08x}")
        if as_text(lines).decode() != run_text(made):
            wrong.append(f"gen {number} {size}: {lines}, and not {run_text(made)}")
    return wrong


def wrong_verdicts() -> list[str]:
    """Runs of which the judge says another thing."""
    run_lines = run_text(generated(2, 1))
    accepted = f"instructions 1\naccepted\n{run_lines}"
    good = Run(ACCEPTED, accepted, certificate(), Ended(0, f"{answers('no', 'no')}accepted\n".encode()))
    spent = ("spent 1", *SPENT)
    open_text = "instructions 1\nopen g0 privileged\n"
    left_open = Ended(2, f"{answers('open', 'open')}open g0 privileged\n".encode())
    cut = good._replace(saved=certificate()[:-4])
    other_mark = good._replace(saved=certificate(("refuted", *ONCE)))
    checks = {
        "good": complaints(good) == [],
        "full": complaints(good._replace(status=9, text=""), is_full=True) == [],
        "not full": len(complaints(good, is_full=True)) == 1,
        "status": len(complaints(good._replace(status=1))) == 1,
        "count": len(complaints(good._replace(text=accepted.replace("instructions 1", "instructions 2")))) == 1,
        "sum": len(complaints(good._replace(text=accepted.replace("sum 1", "sum 2", 1)))) == 1,
        "direct": len(complaints(good._replace(text=accepted.replace("direct 0", "direct 1")))) == 1,
        "verify": len(complaints(good._replace(verified=Ended(0, b"accepted\n")))) == 1,
        "not saved": complaints(good._replace(saved=None)) == ["nothing is saved"],
        "cut": complaints(cut) == ["the model of `verify` refuses what is saved: grammar 21"],
        "no such mark": "g0 privileged is refuted" in complaints(other_mark),
        "budget": len(complaints(Run(2, open_text, certificate(spent, spent), left_open))) == len(KINDS),
    }
    return [name for name, is_so in checks.items() if not is_so]


def main() -> int:
    wrong = [*wrong_values(), *wrong_lines(), *wrong_verdicts(), *wrong_monitors()]
    lines = len(REFUSED_LINES) + len(TAKEN_LINES)
    print("\n".join([*wrong, f"{lines} lines, {len(MONITORED)} runs under a monitor; {len(wrong)} wrong"]))
    return 1 if wrong else 0


if __name__ == "__main__":
    sys.exit(main())
