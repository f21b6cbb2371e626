"""One guest under several monitors, saved, and gone on with: of the machines, images and certificates of the rounds of guests."""

from collections.abc import Iterator
from random import Random
from typing import NamedTuple

from inputs import guests
from inputs.case import CERTIFICATE_FILE, DESCRIPTION_FILE, GUEST_FILE, Case, nesting, resuming, running_guests, saving
from inputs.checker import Means
from inputs.guests import checked
from inputs.images import GuestImageWriter
from inputs.saved_texts import random_state, spoiled_text
from pgvmodel import tree
from pgvmodel.body import mask
from pgvmodel.faults import Fault
from pgvmodel.image import read_image
from pgvmodel.machine import MONITOR_CELLS, State, power_on, run_on
from pgvmodel.reader import read
from pgvmodel.saved import MOST_STEPS, Saved, saved_text
from pgvmodel.validity import check

MAKERS = (guests.rough, guests.tame, guests.tame, guests.windows, guests.systems, guests.systems, guests.certified)

MOST_DEPTH = 4
MOST_CELLS = 3000
"""Larger storages would be slow."""

CUTS = (1, 2, 2, 3, 4, 6)
"""Runs that a guest has one behind the other."""

ODD_PLACES = ("dir", "dir/x", "none/x", "", "./x", "dir/../x", "a b")


class One(NamedTuple):
    """A run of one guest."""

    text: bytes
    certificate: bytes
    image: bytes
    grant: int
    steps: int

    def case(self) -> Case:
        """It as a run under one monitor."""
        return running_guests(self.text, self.certificate, [self.image], self.grant, self.steps)

    def machine(self) -> tree.Description | None:
        """Its machine, where that is valid."""
        try:
            description = read(self.text)
            check(description)
        except Fault:
            return None
        return description

    def begun(self) -> State | None:
        """The guest when it was switched on, where it has a machine, an image and room."""
        description = self.machine()
        if description is None or self.grant > description.size - MONITOR_CELLS:
            return None
        try:
            return power_on(read_image(self.image, description.word, self.grant))
        except Fault:
            return None


def _ones(rng: Random, means: Means) -> Iterator[One]:
    """The first guest of each run of a round of guests."""
    for case in rng.choice(MAKERS)(rng, means):
        grant, steps = (int(case.words[case.words.index(option) + 1]) for option in ("--grant", "--steps"))
        yield One(case.files[DESCRIPTION_FILE], case.files[CERTIFICATE_FILE], case.files[case.words[3]], grant, steps)


def nests(rng: Random, means: Means) -> Iterator[Case]:
    """One guest under one to four monitors, many with a grant that just has room, or just none; some under one as well."""
    for one in _ones(rng, means):
        depth = rng.choice([1, 2, 2, 3, 3, 4, 4])
        description = one.machine()
        if description is not None and description.size <= MOST_CELLS and rng.random() < 0.4:
            room = description.size - MONITOR_CELLS * depth
            one = one._replace(grant=max(2, room - rng.choice([0, 0, 0, 1, 2]) + (rng.random() < 0.15) * rng.choice([1, 2, 3])))
            if rng.random() < 0.6:
                one = one._replace(image=GuestImageWriter(rng, description, one.grant).image())
        yield nesting(one.case(), depth)
        if rng.random() < 0.1:
            yield one.case()


def saves(rng: Random, means: Means) -> Iterator[Case]:
    """Runs of one guest that are saved: under a new name, mostly, or over a file that is read, or where nothing can be saved."""
    for one in _ones(rng, means):
        kind = rng.choices(["new", "read", "odd"], [70, 15, 15])[0]
        case = one.case()
        name = GUEST_FILE if kind == "new" else rng.choice(list(case.files) if kind == "read" else ODD_PLACES)
        case = saving(case, name)
        files = {**case.files, "dir/": b"", **({GUEST_FILE: b"what stood here"} if rng.random() < 0.5 else {})}
        yield case._replace(files=files, is_full=rng.random() < 0.04)


def resumes(rng: Random, means: Means) -> Iterator[Case]:
    """Guests of any states, that go on anywhere in the machine, a few where there is no room."""
    for one in _ones(rng, means):
        description = one.machine()
        if description is None:
            continue
        if rng.random() < 0.3 and (state := one.begun()):
            run_on(description, state, rng.choice([0, 1, one.steps]), MONITOR_CELLS)
        else:
            state = random_state(rng, description, one.grant)
        steps = rng.choice([0, 1, one.steps, one.steps, MOST_STEPS, rng.randint(0, MOST_STEPS)])
        text = saved_text(Saved(steps, state), description.word)
        yield resuming(one.text, one.certificate, text, one.steps, _skip(rng, description, len(state.cells)))


def _skip(rng: Random, description: tree.Description, size: int) -> int | None:
    """Cells before the guest, or None where that is left out: up to as many as there are, and a few more now and then."""
    room = description.size - MONITOR_CELLS - size
    kind = rng.choices(["none", "some", "all", "over", "bad"], [25, 40, 20, 12, 3])[0]
    if kind == "none":
        return None
    if kind == "bad":
        return rng.choice([-1, 1_048_576])
    most = max(0, room)
    return {"some": rng.randint(0, most), "all": most, "over": most + rng.choice([1, 1, 2, 1000, 1_048_575 - most])}[kind]


def spoiled_saves(rng: Random, means: Means) -> Iterator[Case]:
    """The same with a text that has a few edits."""
    for case in resumes(rng, means):
        files = dict(case.files)
        files[GUEST_FILE] = spoiled_text(rng, files[GUEST_FILE], read(files[DESCRIPTION_FILE]))
        yield case._replace(files=files)


def chains(rng: Random, means: Means) -> Iterator[Case]:
    """A guest that is saved, and goes on again and again, each time somewhere else; and the one run that comes to the same.

    What is saved in between is what the model says, since each run has to end just so.
    """
    for one in _ones(rng, means):
        description, state = one.machine(), one.begun()
        if description is None or state is None:
            continue
        if rng.random() < 0.5:
            one = one._replace(certificate=checked(means, one.text))
        cuts = sorted(rng.randint(0, one.steps) for _ in range(rng.choice(CUTS)))
        first, *ends = [*cuts, one.steps]
        yield saving(one._replace(steps=first).case())
        run_on(description, state, first, MONITOR_CELLS)
        for begin, end in zip([first, *ends], ends):
            text = saved_text(Saved(begin, state), description.word)
            room = description.size - MONITOR_CELLS - len(state.cells)
            yield resuming(one.text, one.certificate, text, end - begin, rng.choice([None, 0, room, rng.randint(0, room)]))
            run_on(description, state, end - begin, MONITOR_CELLS)
        yield one.case()


def edges(rng: Random, means: Means) -> Iterator[Case]:
    """Guests whose registers are at the edges of their storage, and which are moved to the edges of the machine."""
    for one in _ones(rng, means):
        description = one.machine()
        if description is None:
            continue
        top, size = mask(description.address), min(one.grant, description.size)
        state = random_state(rng, description, size)
        places = [0, 1, 2, size - 1, size, size + 1, top - 1, top]
        p, l, b = (min(top, max(0, rng.choice(places))) for _ in range(3))
        state.psw = state.psw._replace(p=p, l=l, b=b)
        text = saved_text(Saved(rng.choice([0, 1, MOST_STEPS]), state), description.word)
        yield resuming(one.text, one.certificate, text, rng.choice([0, 1, 1, 2, 3, 9]), _skip(rng, description, size))
