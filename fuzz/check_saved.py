#!/usr/bin/env python3
"""Guests that are saved and go on, beside what the model has to answer to `save` and `resume`, worked out by hand.

With `--tries N`, so many random guests also go on again and again, and have to come to what one run comes to; and so many random
states are written and read again. Ends with 0 where all is so.
"""

import argparse
import sys
from collections import Counter
from random import Random

sys.dont_write_bytecode = True  # before the modules of this folder are read, so that it holds sources only

from check_runs import FILES, OPEN, REFUSED_TEXT, _Square, as_text, load, made_edges, made_system, made_tame, told
from inputs.descriptions import any_description
from inputs.saved_texts import FULL, random_state, spoiled_text
from pgvmodel.answers import Answer, File
from pgvmodel.command import answer, on_full_output
from pgvmodel.error_lines import NO_OUTPUT, missing, unreadable, unwritable
from pgvmodel.faults import Fault
from pgvmodel.machine import MONITOR_CELLS, power_on, run_guest, run_on
from pgvmodel.reader import read
from pgvmodel.saved import MOST_STEPS, Saved, read_saved, saved_text
from pgvmodel.words import FORMS, usage

ALL = frozenset(FORMS)

ADDING = b"2: 01000404 02000002 00000003\n"
"""add 0 4 4, and a jump back to it; cell 4 holds 3. Each step is direct."""

AT_CELLS = "0: 00000006 00000000 01000404 02000002 00000003 00000000 00000000 00000000"
AFTER_3 = ("size 16", "psw s 3 0 16", AT_CELLS)
AFTER_10 = ("size 16", "psw s 2 0 16", AT_CELLS)
SAVED = as_text(("pgguest 1", "steps 3", *AFTER_3, "end"))
RUN_3 = ("guest 0", *AFTER_3, "steps 3 direct 3")

OTHERS = {
    "a": ADDING,
    "s": SAVED,
    "e2": as_text(("pgguest 1", "steps 0", "size 2", "psw s 2 0 2", "end")),
    "most": as_text(("pgguest 1", f"steps {MOST_STEPS}", "size 2", "psw u 255 255 255", "end")),
    "no-end": SAVED.removesuffix(b"end\n"),
    "v2": SAVED.replace(b"pgguest 1", b"pgguest 2"),
    "65": SAVED.replace(b"size 16", b"size 65"),
    "empty": b"",
    "long": b"\x80" * 33_554_433,
}
SHAPE = read(FILES["m"])
UNUSED = Answer(3, usage(ALL).encode())


def saved(name: str, content: bytes, *lines: str) -> Answer:
    return told(0, *lines)._replace(saved=File(name, content))


SAVE_LINES = (
    ("m c a x --grant 16 --steps 3", saved("x", SAVED, *RUN_3)),
    ("--steps=3 m c --grant 16 -- a x", saved("x", SAVED, *RUN_3)),
    ("m c e x --grant 2 --steps 0", saved("x", OTHERS["e2"], "guest 0", "size 2", "psw s 2 0 2", "steps 0 direct 0")),
    # The words: four files, no slice.
    ("m c a --grant 16 --steps 3", UNUSED),
    ("m c a a x --grant 16 --steps 3", UNUSED),
    ("m c a x --grant 16", UNUSED),
    ("m c a x --grant 16 --steps 3 --slice 1", UNUSED),
    ("m c a x --grant 16 --steps 1000001", UNUSED),
    # The description, the room, the image, the certificate, the verdict, and then the place.
    ("none none none none/x --grant 63 --steps 0", Answer(11, b"", missing("none"))),
    ("m none none none/x --grant 63 --steps 0", told(7, "room 63 62")),
    ("m none none none/x --grant 62 --steps 0", Answer(11, b"", missing("none"))),
    ("m none dir none/x --grant 62 --steps 0", Answer(8, b"", unreadable("dir"))),
    ("m none short none/x --grant 62 --steps 0", told(5, "image 0: grammar 1")),
    ("m e a none/x --grant 62 --steps 0", told(6, "certificate: grammar 1")),
    ("m o a none/x --grant 6 --steps 9", OPEN),
    ("m o a x --grant 6 --steps 9", OPEN),
    ("r rc e none/x --grant 6 --steps 9", told(1, *REFUSED_TEXT)),
    ("m c a none/x --grant 16 --steps 3", Answer(9, b"", unwritable("none/x"))),
)
"""Words behind `save`, and the answer; what a file is to hold is in it."""

RESUME_LINES = (
    ("m c s --steps 7 --skip 20", told(0, "guest 0", *AFTER_10, "steps 7 direct 7", "total 10")),
    ("m c s --steps 7", told(0, "guest 0", *AFTER_10, "steps 7 direct 7", "total 10")),
    ("m c s --steps 0 --skip 46", told(0, "guest 0", *AFTER_3, "steps 0 direct 0", "total 3")),
    ("m c s --steps 0 --skip 47", told(7, "room 63 62")),
    ("m c s --steps 0 --skip 1048575", told(7, "room 1048591 62")),
    ("m c most --steps 0", told(0, "guest 0", "size 2", "psw u 255 255 255", "steps 0 direct 0", "total 1000000000")),
    # Nothing is at 255, so (u, 255, (255, 255)) is stored, and (s, 0, (0, 0)) loaded; then that is stored in turn.
    (
        "m c most --steps 1",
        told(0, "guest 0", "size 2", "psw s 0 0 0", "0: 01ffffff 00000000", "steps 1 direct 0", "total 1000000001"),
    ),
    ("m c most --steps 2", told(0, "guest 0", "size 2", "psw s 0 0 0", "steps 2 direct 0", "total 1000000002")),
    # The words: three files, no grant.
    ("m c --steps 7", UNUSED),
    ("m c s s --steps 7", UNUSED),
    ("m c s", UNUSED),
    ("m c s --steps 7 --grant 16", UNUSED),
    ("m c s --steps 7 --skip -1", UNUSED),
    ("m c s --steps 7 --skip 1048576", UNUSED),
    ("m c s --steps 1000001", UNUSED),
    ("m c s --steps 7 --skip 1 --skip 1", UNUSED),
    # The description, the saved guest, the room, the certificate, the verdict.
    ("none none none --steps 0 --skip 60", Answer(11, b"", missing("none"))),
    ("bad none none --steps 0 --skip 60", told(4, "description: grammar 9")),
    ("m none none --steps 0 --skip 60", Answer(11, b"", missing("none"))),
    ("m none dir --steps 0 --skip 60", Answer(8, b"", unreadable("dir"))),
    ("m none no-end --steps 0 --skip 60", told(13, "saved: grammar 6")),
    ("m none v2 --steps 0 --skip 60", told(13, "saved: version 1")),
    ("m none empty --steps 0 --skip 60", told(13, "saved: grammar 1")),
    ("m none long --steps 0 --skip 60", told(13, "saved: long")),
    ("m none 65 --steps 0 --skip 60", told(13, "saved: grammar 3")),
    ("m none s --steps 0 --skip 60", told(7, "room 76 62")),
    ("m none s --steps 0", Answer(11, b"", missing("none"))),
    ("m e s --steps 0", told(6, "certificate: grammar 1")),
    ("m o s --steps 0", OPEN),
    ("r rc s --steps 0", told(1, *REFUSED_TEXT)),
)
"""Words behind `resume`, and the answer."""

LAST = "8: 00000000 00000000 00000000 00000000 00000000 00000000 00000000 000000ff"
WHOLE = ("pgguest 1", "steps 3", "size 16", "psw s 3 0 16", AT_CELLS, LAST, "end")
"""The lines of FULL."""

REFUSED = (
    # What stands in place of a line, by its number, and how that is refused; nothing where it is none.
    (1, "pgguest 0", "version 1"),
    (1, "pgguest 10", "version 1"),
    (1, "pgguest 99999999999999999999999999", "version 1"),
    (1, "pgguest 01", "grammar 1"),
    (1, "pgguest", "grammar 1"),
    (1, "pgguest 1 ", "grammar 1"),
    (1, "pgguest 2\t", "token 1"),
    (1, "", "grammar 1"),
    (2, "steps 0", None),
    (2, "steps 1000000000", None),
    (2, "steps 1000000001", "grammar 2"),
    (2, "steps 03", "grammar 2"),
    (2, "pgguest 1", "grammar 2"),
    (2, "pgguest 2", "grammar 2"),
    (3, "size 1", "grammar 3"),
    (3, "size 64", None),
    (3, "size 65", "grammar 3"),
    (3, "size 15", "grammar 6"),
    (3, "size 2", "grammar 5"),
    (4, "psw u 255 255 255", None),
    (4, "psw s 256 0 16", "grammar 4"),
    (4, "psw s 3 0 256", "grammar 4"),
    (4, "psw s 3 00 16", "grammar 4"),
    (4, "psw v 3 0 16", "grammar 4"),
    (5, "0: " + " ".join(["00000000"] * 8), "grammar 5"),
    (5, "0: " + " ".join(["0000000A"] * 8), "grammar 5"),
    (5, "0: " + " ".join(["0000000a"] * 8), None),
    (5, "0: " + " ".join(["0000000a"] * 7), "grammar 5"),
    (5, "0: " + " ".join(["0000000a"] * 9), "grammar 5"),
    (5, "4: " + " ".join(["0000000a"] * 8), "grammar 5"),
    (5, LAST, "grammar 6"),
    (6, AT_CELLS, "grammar 6"),
    (6, "16: " + " ".join(["0000000a"] * 8), "grammar 6"),
    (6, "end", "grammar 7"),
    (7, "end ", "grammar 7"),
    (7, LAST, "grammar 7"),
    (7, "end\nend", "grammar 8"),
    (7, "end\n", "grammar 8"),
    (7, "end\n\x7f", "token 8"),
)


def found(command: str, words: str) -> Answer:
    """The answer to words behind a command; nothing can be saved in a folder that is not there."""
    return answer(
        (command, *words.split()),
        lambda name: OTHERS[name] if name in OTHERS else load(name),
        _Square(),
        lambda name: not name.startswith("none/"),
        ALL,
    )


def fault_of(text: bytes) -> str | None:
    """How a saved guest of the machine of `m` is refused."""
    try:
        guest = read_saved(text, SHAPE)
    except Fault as fault:
        return fault.line
    return None if saved_text(guest, 32) == text else "it is written otherwise"


def wrong_rows() -> list[str]:
    """Lines and texts that are answered otherwise."""
    wrong = []
    for command, lines in (("save", SAVE_LINES), ("resume", RESUME_LINES)):
        for words, due in lines:
            if found(command, words) != due:
                wrong.append(f"{command} {words}: {found(command, words)}, and not {due}")
    full = on_full_output(found("save", "m c a x --grant 16 --steps 3"))
    if full != Answer(9, b"", NO_OUTPUT, File("x", SAVED)):
        wrong.append(f"save, and full: {full}")
    if FULL != as_text(WHOLE):
        wrong.append("the whole text is another")
    for number, line, due in REFUSED:
        lines = [*WHOLE[: number - 1], line, *WHOLE[number:]]
        if fault_of(as_text(lines)) != due:
            wrong.append(f"{line!r} as line {number}: {fault_of(as_text(lines))}, and not {due}")
    for end in range(len(FULL)):
        due = f"grammar {FULL[:end].count(10) + 1}"
        if fault_of(FULL[:end]) != due:
            wrong.append(f"broken off at {end}: {fault_of(FULL[:end])}, and not {due}")
    return wrong


def wrong_chains(count: int, counts: Counter[str]) -> list[str]:
    """Guests that go on again and again, and come to another state than in one run; states that are not read as they were."""
    wrong = []
    for i in range(count):
        rng = Random(f"chains {i}")
        description, (cells, *_) = rng.choice([made_tame, made_edges, made_system])(rng)
        steps, room = rng.choice([1, 2, 5, 20, 60, 60]), description.size - MONITOR_CELLS - len(cells)
        state, direct = run_guest(description, list(cells), steps, MONITOR_CELLS)
        begun = Saved(0, power_on(list(cells)))
        directs = 0
        for end in sorted([*(rng.randint(0, steps) for _ in range(rng.randint(0, 6))), steps]):
            text = saved_text(begun, description.word)
            begun = read_saved(text, description)
            directs += run_on(description, begun.state, end - begun.steps, MONITOR_CELLS + rng.randint(0, room))
            begun = begun._replace(steps=end)
            counts.update(resumed=1)
        if (begun, directs) != (Saved(steps, state), direct):
            wrong.append(f"chain {i}: it ends otherwise")
        shape = any_description(rng)
        any_one = Saved(rng.randint(0, MOST_STEPS), random_state(rng, shape, rng.choice([2, 8, 9, 40])))
        text = saved_text(any_one, shape.word)
        if read_saved(text, shape) != any_one:
            wrong.append(f"state {i}: it is read otherwise")
        try:
            spoiled = spoiled_text(rng, text, shape)
            if saved_text(read_saved(spoiled, shape), shape.word) != spoiled:
                wrong.append(f"state {i}: {spoiled!r} has another spelling")
            counts.update(spoiled_and_read=1)
        except Fault as fault:
            counts.update({fault.line.split()[0]: 1})
    return wrong


def main() -> int:
    parser = argparse.ArgumentParser(description=__doc__, formatter_class=argparse.RawDescriptionHelpFormatter)
    parser.add_argument("--tries", type=int, default=300, metavar="N", help="random guests and states (default: %(default)s)")
    tries = parser.parse_args().tries
    counts: Counter[str] = Counter()
    wrong = [*wrong_rows(), *wrong_chains(tries, counts)]
    rows = len(SAVE_LINES) + len(RESUME_LINES) + len(REFUSED) + len(FULL) + 2
    told_counts = ", ".join(f"{number} {name}" for name, number in sorted(counts.items()))
    print("\n".join([*wrong, f"{rows} rows, {tries} tries with {told_counts}; {len(wrong)} wrong"]))
    return 1 if wrong else 0


if __name__ == "__main__":
    sys.exit(main())
