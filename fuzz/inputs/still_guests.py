"""`pg_go` of guests that become still, soon or late or never: of a machine for that, and of the machines of the rounds of guests.

The model's machine says when each guest becomes still, so that steps and slices are chosen around that, and steps are left out only
where all guests end.
"""

from collections.abc import Callable, Iterator, Sequence
from random import Random

from inputs import guests
from inputs.case import DESCRIPTION_FILE, Case, running_guests
from inputs.checker import Means
from inputs.guests import checked
from inputs.images import spelled_image
from pgvmodel.answers import Refused, described
from pgvmodel.faults import Fault
from pgvmodel.going import MOST_STEPS, NAME, gone
from pgvmodel.image import read_image
from pgvmodel.machine import MONITOR_CELLS, base_of
from pgvmodel.words import MOST_IMAGES, SLICE

MAKERS = (guests.rough, guests.tame, guests.tame, guests.windows, guests.systems, guests.certified)

MACHINE = """machine {{ word 32; address 8; size {size}; {causes}}}
instr add "00000001_xxxxxxxx_yyyyyyyy_zzzzzzzz" {{ mem[x] = (mem[y] + mem[z]); }}
instr jmp "00000010_................_aaaaaaaa" {{ pc = a; }}
instr svc "00000011_........................" {{ trap; }}
instr down "00000100_........_xxxxxxxx_aaaaaaaa" {{
  if (mem[x] == 0:32) {{ pc = a; }} else {{ mem[x] = (mem[x] - 1:32); }}
}}
instr lpsw "00000101_................_aaaaaaaa" {{
  if mode {{ trap; }}
  let w = mem[a]; mode = cut(w, 24, 24); pc = cut(w, 23, 16); rel = cut(w, 15, 8); bound = cut(w, 7, 0);
}}
"""
"""`down` counts a cell down, and jumps when it is 0."""

SIZES = ((64, ""), (64, "causes on; "), (200, ""), (200, "causes on; "))
LEAST_CELLS = 14

CODES = {"add": 1, "jmp": 2, "svc": 3, "down": 4, "lpsw": 5}

SMALL = (0, 1, 2, 3, 5, 6)
LARGE = (166, 333, 498, 499, 500)
"""Counts of a loop; two or three steps go with each of them."""

SLICES = (1, 1, 2, 2, 3, 3, 4, 7, 999, 1000, 1000)

FEW_STEPS = (0, 1, 2, 3, 4, 5, 6, 7, 12, 60, 999, 1000, 1001, 2000, 3000)

LOOK = 1100
"""Steps in which a guest is looked at; one that is still later is taken to be never."""

MOST_TURNS = 3000
"""A slice of more turns stands only where steps are told that are few."""

SPOILED = (
    *("--grant=8", "--grant", "--steps", "--slice", "-", "--", "-x", "--help", "--budget", "--json", "x.img", "\udcff", ""),
    *("-h", "--show", "--text", "--show=0..2", "--bare", "--bare"),
)


COUNTS = (0, 0, 0, 0, 1, 1, 1, 1, 2, 3, 4, 16, 17)
"""How many times cells are named in place of a state; once more than they may be, too."""

BITS = ("", "", ":8", ":16", ":24", ":32", ":40", ":48", ":56", ":64")

NO_CELLS = (
    *("{a}", "{a}..", "..{b}", "{a}.{b}", "{a}...{b}", "{a}-{b}", "{a}..{b}..{b}", "{a} ..{b}", "-1..{b}", "x..{b}", "{a}..0x8"),
    *("", "{a}..{a}", "{b}..{a}", "{a}..{past}", "{past}..{past}", "{a}..1048576", "{a}..18446744073709551617", "--text"),
    *("{a}..{b}:", "{a}..{b}:0", "{a}..{b}:12", "{a}..{b}:72", "{a}..{b}:x", "{a}..{b}:-8", "{a}..{b}:8:8", "{a}:8..{b}"),
)
"""Words behind `--show` and `--text` that name no cells of a guest, or not so many bits."""

FINE_CELLS = ("+{a}..{b}", "0{a}..00{b}", "{a}..+{b}", "{a}..{past}", "{a}..{b}:8", "{a}..{b}:+16", "{a}..{b}:08")
"""Odd words, some of which name cells."""


def word(name: str, *fields: int) -> int:
    """The word of an instruction, its fields from the right."""
    return CODES[name] << 24 | sum(field << 8 * i for i, field in enumerate(reversed(fields)))


def status(mode: int, p: int, l: int, b: int) -> int:
    """The word of a program status word."""
    return mode << 24 | p << 16 | l << 8 | b


Cells = dict[int, int]


def here(rng: Random, _grant: int) -> Cells:
    """A jump to itself, behind a few steps."""
    last = 2 + rng.choice([0, 0, 1, 2, 3, 4])
    return {**{i: word("add", 12, 12, 12) for i in range(2, last)}, last: word("jmp", last)}


def counted(rng: Random, _grant: int) -> Cells:
    """A jump to itself, or a trap, behind a loop."""
    last = rng.choice([word("jmp", 4), word("jmp", 4), word("svc"), 0])
    return {2: word("down", 12, 4), 3: word("jmp", 2), 4: last, 12: rng.choice(rng.choice([SMALL, LARGE]))}


def never(rng: Random, grant: int) -> Cells:
    """Two or more states in turn: jumps, a sum that changes for ever or ends at 0, a trap whose handler leads back to it."""
    length = rng.choice([2, 2, 3, 5])
    ring = {2 + i: word("jmp", 2 + (i + 1) % length) for i in range(length)}
    adding = {2: word("add", 12, 12, rng.choice([12, 13])), 3: word("jmp", 2), 12: rng.getrandbits(4), 13: rng.choice([0, 1])}
    trapping = {1: status(rng.choice([0, 1]), 4, 0, grant), 2: word("svc"), 4: word("jmp", 2)}
    return rng.choice([ring, adding, trapping])


def trapping(rng: Random, grant: int) -> Cells:
    """Traps, mostly for ever: what they load leads to one in either mode, by `trap;`, past memory, or by a word of no meaning."""
    mode, p = rng.choice([0, 0, 1]), rng.choice([0, 1, 2, 2, 3, 4, grant])
    loaded = status(mode, p, rng.choice([0, 0, 1, grant]), rng.choice([grant, 3, 0]))
    cells = {1: rng.choice([loaded, loaded, loaded, word("svc"), 0]), 2: rng.choice([word("svc"), word("add", 255, 2, 2), 0])}
    cells[3], cells[4] = rng.choice([word("svc"), word("lpsw", 1)]), rng.choice([word("jmp", 4), word("svc")])
    if rng.random() < 0.4:
        cells[0] = rng.choice([status(0, 2, 0, grant), status(0, 2, 0, grant) | 4 << 24, cells[1]])
    return cells


def supervised(rng: Random, grant: int) -> Cells:
    """A user that traps again and again, and a supervisor that goes on until so many traps were counted, or for ever."""
    user = status(1, 10, rng.choice([0, 0, 1]), grant)
    last = rng.choice([word("jmp", 7), word("jmp", 7), word("svc"), word("jmp", 5), word("add", 1, 3, 6)])
    cells = {1: status(0, 4, 0, grant), 2: word("lpsw", 3), 3: user, 4: word("down", 12, 7), 5: word("lpsw", 3), 7: last}
    return {**cells, 10: word("svc"), 11: rng.choice([word("svc"), word("jmp", 9), word("lpsw", 3)]), 12: rng.choice([*SMALL, 333])}


IMAGES: Sequence[Callable[[Random, int], Cells]] = (here, here, counted, counted, counted, never, trapping, trapping, supervised)


def still_guests(rng: Random, means: Means) -> Iterator[Case]:
    """Runs of the machine of this round, or of one of the rounds of guests."""
    runs = _own(rng, means) if rng.random() < 0.6 else rng.choice(MAKERS)(rng, means)
    for case in runs:
        yield _going(rng, case)


def _own(rng: Random, means: Means) -> Iterator[Case]:
    size, causes = rng.choice(SIZES)
    text = MACHINE.format(size=size, causes=causes).encode()
    certificate = checked(means, text)
    for _ in range(means.few):
        count = rng.randint(1, min(MOST_IMAGES, (size - MONITOR_CELLS) // LEAST_CELLS))
        grant = rng.randint(LEAST_CELLS, (size - MONITOR_CELLS) // count)
        images = [spelled_image(rng, rng.choice(IMAGES)(rng, grant), 32) for _ in range(count)]
        slice_ = rng.choice(["", *map(str, SLICES)])
        yield running_guests(text, certificate, images, grant, rng.choice(FEW_STEPS), slice_)


def _going(rng: Random, case: Case) -> Case:
    """`pg_go` in place of `run`, with words in any order; most with other steps and another slice than the run had."""
    begin = case.words.index("--grant")
    files, given = case.words[1:begin], case.words[begin:]
    options = dict(zip(given[::2], given[1::2]))
    ends = _ends(case, files, int(options["--grant"]))
    if rng.random() < 0.8:
        edges = [end + by for end in ends if end is not None for by in (0, 1, 2) if end + by]
        options["--slice"] = str(rng.choice([*SLICES, *edges]))
    spelled = options.get("--slice", "")
    slice_ = int(spelled) if spelled.isdigit() and int(spelled) else SLICE
    if rng.random() < 0.9:
        options["--steps"] = str(_steps(rng, ends, slice_ if slice_ <= MOST_TURNS else SLICE))
    if None not in ends and slice_ <= MOST_TURNS and rng.random() < 0.5:
        options["--steps"] = str(rng.choice([1_000_000, 10**9, MOST_STEPS - 1, MOST_STEPS]))
        if rng.random() < 0.7:
            del options["--steps"]
    parts = [[name] for name in files]
    for option in (*options.items(), *pieces(rng, int(options["--grant"]))):
        parts.insert(rng.randint(0, len(parts)), list(option))
    words = [part for both in parts for part in both]
    if rng.random() < 0.03:
        words.insert(rng.randint(0, len(words)), rng.choice(SPOILED))
    if rng.random() < 0.01:
        words[words.index("--grant") + 1] = rng.choice(["1", "0", "+8", "08", "1048576", str(MOST_STEPS + 1), ""])
    return case._replace(words=(NAME, *words), other_words=None, is_full=rng.random() < 0.02)


def pieces(rng: Random, grant: int) -> Iterator[tuple[str, str]]:
    """Options that name cells: mostly some of the guest, all, or those at its ends; a few name none."""
    for _ in range(rng.choice(COUNTS)):
        option = rng.choice(["--show", "--text"])
        a = rng.choice([0, rng.randrange(grant), rng.randrange(grant), grant - 1])
        b = rng.choice([a + 1, rng.randint(a + 1, grant), rng.randint(a + 1, grant), grant])
        form = "{a}..{b}" + (rng.choice(BITS) if option == "--text" else "")
        if rng.random() < 0.03:
            form = rng.choice(rng.choice([NO_CELLS, NO_CELLS, FINE_CELLS]))
        yield option, form.format(a=a, b=b, past=grant + 1)


def _ends(case: Case, names: Sequence[str], grant: int) -> list[int | None]:
    """When each guest is still, by the model; None for one that is not soon, and where there is none."""
    try:
        description = described(case.files[DESCRIPTION_FILE])
        images = names[2:]
        if len(images) * grant > description.size - MONITOR_CELLS:
            return [None]
        storages = [read_image(case.files[name], description.word, grant) for name in images]
    except (Refused, Fault):
        return [None]
    ends = [gone(description, cells, base_of(0, grant), LOOK, 1) for cells in storages]
    return [end.steps if end.is_still else None for end in ends]


def _steps(rng: Random, ends: Sequence[int | None], slice_: int) -> int:
    """Any few steps; or such as end just where a guest is still, or where the slice ends in which it is, or nearly."""
    end = rng.choice(ends)
    if end is None or rng.random() < 0.15:
        return rng.choice(FEW_STEPS)
    by = rng.choice([-2, -1, 0, 0, 1, 1, 2])
    at = rng.choice([end, end, (end // slice_ + rng.choice([0, 1, 1, 2])) * slice_])
    return max(0, at + by)
