"""Runs of guests under a monitor: of machines that it may run and of others, with certificates, images and slices of all kinds.

Certificates are mostly those that the program's `check` saves. Where it saves none, or is not there, they are written as in the
rounds of `verify`. Each maker gives a few runs of one machine, since it takes longer to check it than to run it.
"""

from collections.abc import Iterator, Sequence
from random import Random

from inputs import certificates
from inputs.bodies import Manner
from inputs.case import CERTIFICATE_FILE, DESCRIPTION_FILE, Case, running_guests
from inputs.certificate_edits import spoiled
from inputs.checker import Means
from inputs.checks import described, listed_bodies, pieced_body, small_shape
from inputs.descriptions import MOSTLY_TRUSTED, ROUGH, TRUSTED_MANNERS, Style, random_description, random_shape
from inputs.guest_rows import ROWS
from inputs.images import GuestImageWriter, broken_image
from inputs.programs import TAME, with_near_miss
from inputs.split import split_description
from inputs.systems import System
from inputs.windows import Edges
from pgvmodel import tree
from pgvmodel.machine import MONITOR_CELLS
from pgvmodel.printer import printed
from pgvmodel.reader import read
from pgvmodel.validity import Fault, check
from pgvmodel.words import MOST_IMAGES

COUNTS = (1, 1, 1, 2, 2, 2, 2, 3, 3, 4, 5, 6, 7, MOST_IMAGES, MOST_IMAGES)
"""How many guests, mostly."""

GRANTS = (2, 3, 5, 7, 8, 9, 12, 16, 17, 24, 30, 40)
MOST_CELLS = 3000
"""Larger grants would be slow."""

STEPS = (0, 1, 2, 3, 4, 6, 9, 15, 30, 60)
MANY_STEPS = (999, 1000, 1001, 2000, 3000)
"""Turns of a guest: around as many as a slice has that is left out."""

BAD_SLICES = ("0", "1000001", "-1", "+0", "x", "1.5", "4294967297")

FIRST_LINES = (
    *(b"pghybrid 2\n", b"pghybrid 0\n", b"pghybrid 01\n", b"pghybrid 10\n", b"pghybrid\n", b"pghybrid 1 \n", b"pghybrid 1"),
    *(b"pgcert 1\n", b"pgcert 2\n", b"pgcert 3\n", b"pgguest 1\n", b"", b"\n", b"pghybrid 1\npghybrid 1\n"),
)
"""In place of that of a certificate of the hybrid family."""

BUDGET = 300
BUDGETS = (BUDGET, BUDGET, BUDGET, 1, 2, 10, 50, 1000)
"""Of a check: most settle what they ask, and some leave it open."""


def rough(rng: Random, means: Means) -> Iterator[Case]:
    """Bodies that mostly are guarded or use no control register, some of them nearly; a few images are broken."""
    return _runs_of(rng, means, _machine(rng, ROUGH, rng.choice([1, 2, 3, 4]), 0.25))


def tame(rng: Random, means: Means) -> Iterator[Case]:
    """The same, of bodies that mostly are done."""
    return _runs_of(rng, means, _machine(rng, TAME, rng.choice([1, 2, 2, 3, 4, 5]), 0.1))


def _machine(rng: Random, style: Style, count: int, near: float) -> tree.Description:
    """A machine that mostly has room for several guests; one instruction is nearly guarded with the chance `near`."""
    shape = random_shape(rng, small=rng.random() < 0.95)
    while shape.size < (12 if style is ROUGH else 31) and rng.random() < 0.9:
        shape = random_shape(rng, small=True)
    manners: Sequence[Manner] = TRUSTED_MANNERS if rng.random() < 0.85 else MOSTLY_TRUSTED
    description = random_description(rng, shape, count, manners, style)
    return with_near_miss(rng, description) if rng.random() < near else description


def windows(rng: Random, means: Means) -> Iterator[Case]:
    """Windows, registers, addresses and program status words at the edges of grants."""
    return _shared(rng, means, Edges(rng, is_hosting=True), STEPS)


def systems(rng: Random, means: Means) -> Iterator[Case]:
    """Systems of a supervisor and a user's program."""
    return _shared(rng, means, System(rng), (20, 30, 60, 60, 60, 200))


def _shared(rng: Random, means: Means, machine: Edges | System, steps: Sequence[int]) -> Iterator[Case]:
    """Runs of a machine that is shared out among guests, each time anew."""
    text = machine.description()
    certificate = checked(means, text)
    for _ in range(means.few):
        machine.share_out()
        images = [machine.image() for _ in range(machine.guests)]
        count = _steps(rng, steps)
        yield running_guests(text, certificate, images, machine.grant, count, *_slices(rng, count))


def certified(rng: Random, means: Means) -> Iterator[Case]:
    """Certificates of all kinds, of machines that are accepted, refused or left open."""
    makers = [certificates.telling, certificates.quiet, certificates.differing, certificates.searched, certificates.mixed]
    makers += [_pieced, _pieced, _pieced, _listed, _small_machine, _small_machine, _small_machine]
    description = rng.choice(makers)(rng)
    for _ in range(means.few):
        certificate = rng.choices([_own, _written, _of_another, _of_an_older, _damaged, _hybrid], [30, 12, 10, 20, 20, 8])[0]
        text = certificate(rng, means, description)
        yield _with_guests(rng, description, text, rng.choice([0, 1, 3, 9]))


def hybrids(rng: Random, means: Means) -> Iterator[Case]:
    """Runs of all other kinds under a hybrid monitor, and of machines for it alone, most by what `hcheck` saves of their machine."""
    for case in rng.choice([rough, tame, windows, systems, certified, split, split, split])(rng, means):
        files = dict(case.files)
        kind = rng.choices(["fine", "kept", "spoiled", "first line"], [78, 8, 10, 4])[0]
        if kind != "kept":
            files[CERTIFICATE_FILE] = checked(means, files[DESCRIPTION_FILE], command="hcheck")
        if kind == "spoiled":
            files[CERTIFICATE_FILE] = spoiled(rng, files[CERTIFICATE_FILE])
        if kind == "first line":
            files[CERTIFICATE_FILE] = rng.choice(FIRST_LINES) + files[CERTIFICATE_FILE].partition(b"\n")[2]
        other = case.other_words and ("hybrid", *case.other_words[1:])
        yield case._replace(words=("hybrid", *case.words[1:]), files=files, other_words=other)


def split(rng: Random, means: Means) -> Iterator[Case]:
    """Runs of machines whose bodies use control registers in supervisor mode alone."""
    return _runs_of(rng, means, split_description(rng))


def rows(means: Means) -> list[Case]:
    """The rows that are worked out by hand."""
    return [
        running_guests(row.description, checked(means, row.description), row.images, row.grant, row.steps, str(row.slice), "")
        for row in ROWS
    ]


def _pieced(rng: Random) -> tree.Description:
    return described(rng, small_shape(rng), [pieced_body(rng) for _ in range(rng.choice([1, 1, 2, 3]))])


def _listed(rng: Random) -> tree.Description:
    return described(rng, small_shape(rng), [rng.choice(listed_bodies())])


def _small_machine(rng: Random) -> tree.Description:
    return _machine(rng, TAME, rng.choice([1, 1, 2, 3]), 0.4)


def checked(means: Means, text: bytes, budget: int = BUDGET, command: str = "check") -> bytes:
    """What `check` or `hcheck` saves of a description, or else one that is written here."""
    saved = means.checker.certificate(text, budget, command)
    return _written(Random(text), means, read(text)) if saved is None else saved


def _own(rng: Random, means: Means, description: tree.Description) -> bytes:
    """That of the description itself, with any budget."""
    return checked(means, printed(description), rng.choice(BUDGETS))


def _written(rng: Random, means: Means, description: tree.Description) -> bytes:
    """One that has other logs and pairs than those of `check`, of either version; nothing of a description that is not valid."""
    return certificates.certificate_of(rng, description, means.questions) if _is_valid(description) else b""


def _of_another(rng: Random, means: Means, _description: tree.Description) -> bytes:
    """That of another machine, whose instructions may have the same names."""
    return checked(means, printed(rng.choice([certificates.telling, certificates.quiet, _pieced])(rng)))


def _is_valid(description: tree.Description) -> bool:
    try:
        check(description)
    except Fault:
        return False
    return True


def _of_an_older(rng: Random, means: Means, description: tree.Description) -> bytes:
    """That of the same machine, but that one body of it was another, where it is valid with that one too."""
    older = with_near_miss(rng, description) if description.instructions else description
    return checked(means, printed(older if _is_valid(older) else description))


def _damaged(rng: Random, means: Means, description: tree.Description) -> bytes:
    return spoiled(rng, checked(means, printed(description)))


def _hybrid(_rng: Random, means: Means, description: tree.Description) -> bytes:
    return checked(means, printed(description), command="hcheck")


def _runs_of(rng: Random, means: Means, description: tree.Description) -> Iterator[Case]:
    """Runs of guests with what `check` saves of their machine."""
    certificate = checked(means, printed(description))
    for _ in range(means.few):
        yield _with_guests(rng, description, certificate, _steps(rng, STEPS))


def _steps(rng: Random, usual: Sequence[int]) -> int:
    """Turns of a guest: a usual number of them, and now and then thousands."""
    return rng.choice(MANY_STEPS if rng.random() < 0.06 else usual)


def _with_guests(rng: Random, description: tree.Description, certificate: bytes, steps: int) -> Case:
    """A run with images for the machine; a few are broken, are for larger grants, or are too many, and a few have no room."""
    room = description.size - MONITOR_CELLS
    count = rng.choice(COUNTS)
    if rng.random() < 0.95:
        count = max(1, min(count, room // 2))
    share = room // count
    grant = max(2, min(share, rng.choice([*GRANTS, share, share, share]), MOST_CELLS))
    images = [GuestImageWriter(rng, description, grant).image() for _ in range(count)]
    kind = rng.choices(["fine", "broken", "large", "same", "over", "nine"], [82, 4, 4, 5, 3, 2])[0]
    i = rng.randrange(count)
    if kind == "broken":
        images[i] = broken_image(rng, images[i])
    if kind == "large":
        images[i] = GuestImageWriter(rng, description, grant + rng.choice([1, 2, 8])).image()
    if kind == "same":
        images[i] = rng.choice(images)
    if kind == "nine":
        images = (images * (MOST_IMAGES + 1))[: MOST_IMAGES + 1]
    if kind == "over":
        grant = max(2, share + rng.choice([1, 1, 2, 3, 1000]))
    return running_guests(description, certificate, images, grant, steps, *_slices(rng, steps))


def _slices(rng: Random, steps: int) -> tuple[str, str | None]:
    """A slice, and another with which all has to end just so; a few are none, and then there is no other."""
    if rng.random() < 0.03:
        return rng.choice(BAD_SLICES), None
    usual = ["", "1", "1", "2", "3", "5", str(max(1, steps)), str(max(1, steps - 1)), str(steps + 1), "999", "1000000"]
    first, other = rng.sample(usual, 2)
    return first, other
