"""`pg_trace` of runs of bare machines: of those of the rounds of `bare`, of systems, and of the guests of `still-guests`.

The model's trace says where each end of `--until` is, so that steps and addresses are chosen around it.
"""

from random import Random

from inputs.case import DESCRIPTION_FILE, IMAGE_FILE, Case, running_bare
from inputs.images import broken_image, spelled_image
from inputs.still_guests import IMAGES, LEAST_CELLS, MACHINE, SIZES
from inputs.systems import System
from inputs.text_mutations import mutated
from pgvmodel.answers import Refused, described
from pgvmodel.faults import Fault
from pgvmodel.image import read_image
from pgvmodel.questions import NotModelled
from pgvmodel.tracing import NAME, Trace, has_trapped, is_still, trace
from pgvmodel.words import RANGES

STEPS = (0, 1, 2, 3, 4, 5, 9, 20, 60, 60, 200)
MANY_STEPS = (1_000_000, 999_999, 500_000)
"""Told only where a run ends long before."""

LOOK = 150
"""Steps in which an end is looked for."""

WAYS = ((), (), (), ("--only-traps",), ("--counts",), ("--only-traps", "--counts"), ("--vcd",), ("--vcd",))

CLASHES = (
    *(("--vcd", "--only-traps"), ("--vcd", "--counts"), ("--json", "--only-traps"), ("--json", "--counts"), ("--json", "--vcd")),
    *(("--vcd", "--vcd"), ("--counts", "--counts"), ("--only-traps", "--counts", "--only-traps"), ("--json", "--json")),
)
"""Options that may not stand together, or not twice."""

NO_ENDS = (
    *("", "P", "P=", "P=x", "P=-1", "P=1048576", "p=2", "P =2", "P=2 ", "P==2", "P=0x2", "=2", "2", "Still", "still ", "traps"),
    *("--counts", "P=18446744073709551618"),
)

SPOILED = (
    *("--grant=8", "--grant", "--steps", "--steps=3", "--until", "--until=still", "--cert", "-", "--", "-x", "-h", "--help"),
    *("--version", "--slice", "--only-trap", "--counts=1", "--vcd=x", "--only-traps=", "x.img", "none/x.img", "\udcff", ""),
)

NUMBERS = ("", "-1", "+0", "x", "1.5", "0x4", " 4", "4294967298", "18446744073709551618", "1_0")


def own(rng: Random) -> Case:
    """The machine of `still-guests`, and a guest of it."""
    size, causes = rng.choice(SIZES)
    grant = rng.choice([LEAST_CELLS, rng.randint(LEAST_CELLS, size), size])
    image = spelled_image(rng, rng.choice(IMAGES)(rng, grant), 32)
    return running_bare(MACHINE.format(size=size, causes=causes).encode(), image, grant, rng.choice(STEPS))


def systems(rng: Random) -> Case:
    """A supervisor and a user's program."""
    system = System(rng)
    return running_bare(system.description(), system.image(), system.grant, rng.choice(STEPS))


def tracing(rng: Random, case: Case) -> Case:
    """`pg_trace` in place of `bare`, with words in any order; some of them, or of the files, are none that it takes."""
    _, *files = case.words[: case.words.index("--grant")]
    options = dict(zip(case.words[3::2], case.words[4::2]))
    if rng.random() < 0.6:
        _ending(rng, case, options)
    parts = [[name] for name in files]
    flags = rng.choice(WAYS if rng.random() < 0.97 else CLASHES)
    for option in [*map(list, options.items()), *([flag] for flag in flags)]:
        parts.insert(rng.randint(0, len(parts)), option)
    words = [word for part in parts for word in part]
    return _spoiled(rng, case._replace(words=(NAME, *words), is_full=rng.random() < 0.02))


def _ending(rng: Random, case: Case, options: dict[str, str]) -> None:
    """Gives a run an end, and mostly steps that reach it, just or not."""
    end = rng.choice(["still", "still", "trap", "P"])
    run = _looked(case, int(options["--grant"]))
    if run is None:
        options["--until"] = rng.choice(["still", "trap", "P=2"])
        return
    if end == "P":
        visited = [step.before.p for step in run.steps] + [run.state.psw.p]
        p = rng.choice([rng.choice(visited), rng.choice(visited[:20]), rng.randint(0, 20), RANGES["grant"].stop - 1])
        options["--until"] = f"P={rng.choice(['', '', '', '0', '+'])}{p}"
        at = visited.index(p) if p in visited else None
    else:
        options["--until"] = end
        at = _first(run, end)
    if rng.random() < 0.7:
        around = [at, at + 1, at + 5, max(0, at - 1), *MANY_STEPS] if at is not None else STEPS
        options["--steps"] = str(rng.choice(around))


def _looked(case: Case, grant: int) -> Trace | None:
    """The first steps of a run; None where it is refused."""
    try:
        description = described(case.files[DESCRIPTION_FILE])
        if grant > description.size:
            return None
        return trace(description, read_image(case.files[IMAGE_FILE], description.word, grant), LOOK, is_still)
    except (Refused, Fault, NotModelled):
        return None


def _first(run: Trace, end: str) -> int | None:
    """Behind how many steps the end is, if it is near."""
    if end == "still":
        return len(run.steps) if len(run.steps) < LOOK else None
    return next((number for number, step in enumerate(run.steps, 1) if step.cause is not None), None)


def _spoiled(rng: Random, case: Case) -> Case:
    """Mostly the case as it is; else with a fault of its words or of its files, or two."""
    while rng.random() < 0.12:
        case = rng.choice([_with_word, _without_word, _with_number, _with_end, with_name, with_file, with_file])(rng, case)
    return case


def _with_word(rng: Random, case: Case) -> Case:
    words = list(case.words)
    words.insert(rng.randint(1, len(words)), rng.choice(SPOILED))
    return case._replace(words=tuple(words))


def _without_word(rng: Random, case: Case) -> Case:
    i = rng.randrange(1, max(2, len(case.words)))
    return case._replace(words=case.words[:i] + case.words[i + 1 :])


def _with_number(rng: Random, case: Case) -> Case:
    """Another number behind an option, at an edge or none."""
    words = list(case.words)
    name = rng.choice(["grant", "steps"])
    if f"--{name}" not in words[:-1]:
        return case
    at = words.index(f"--{name}") + 1
    edges = [RANGES[name].start - 1, RANGES[name].stop]
    fine = f"{rng.choice(['+', '0', '+00', '000000000000000000000000'])}{words[at]}"
    words[at] = rng.choice([*map(str, edges), *NUMBERS, fine, fine, fine])
    return case._replace(words=tuple(words))


def _with_end(rng: Random, case: Case) -> Case:
    """An end that is none, or one more."""
    words = list(case.words)
    end = rng.choice([*NO_ENDS, "still", "trap", "P=3"])
    if "--until" in words[:-1] and rng.random() < 0.8:
        words[words.index("--until") + 1] = end
    else:
        words[1:1] = ["--until", end]
    return case._replace(words=tuple(words))


def with_name(rng: Random, case: Case) -> Case:
    """Another name of a file: of none, of a folder, or of the other one."""
    files = {**case.files, "folder/": b""}
    name = rng.choice([DESCRIPTION_FILE, IMAGE_FILE])
    other = rng.choice(["none", "", "folder", f"{IMAGE_FILE}/x", DESCRIPTION_FILE, IMAGE_FILE])
    return case._replace(words=tuple(other if word == name else word for word in case.words), files=files)


def with_file(rng: Random, case: Case) -> Case:
    """A description or an image with a few edits."""
    name, edit = rng.choice([(DESCRIPTION_FILE, mutated), (IMAGE_FILE, broken_image)])
    return case._replace(files={**case.files, name: edit(rng, case.files[name])})
