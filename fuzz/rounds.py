"""The rounds: named sources of cases."""

import itertools
from collections.abc import Callable, Collection, Iterable, Iterator
from dataclasses import dataclass
from functools import partial
from random import Random

from inputs import (
    certificates, checks, command_lines, depths, further_guests, further_lines, generations, guests, large, limits, lines, patterns,
    saved_texts, sources, still_guests, still_machines, tampered, traces, windows,
)
from inputs.case import DESCRIPTION_FILE, Case, printing, running_bare
from inputs.checker import Means
from inputs.descriptions import ANY_MANNER, any_description, random_description, random_shape
from inputs.images import ImageWriter, broken_image
from inputs.programs import TAME, operator_description
from inputs.spelling import any_spelling, spelled
from inputs.text_mutations import mutated
from inputs.tree_mutations import perturbed, with_limit_fault, with_other_names, with_other_widths
from pgvmodel import tree
from pgvmodel.printer import printed
from pgvmodel.questions import Questions

STEPS = (1, 2, 3, 4, 6, 9, 15, 30, 60)
GRANTS = (2, 3, 5, 7, 8, 9, 12, 16, 17, 24, 30, 40)
FEW_INSTRUCTIONS = (1, 2, 3, 4)

MANY = 12
"""Runs of one description where a campaign is made of them: it takes longer to make one than to run it."""

Seed = int | str
"""Equal ones give equal inputs."""

MOST_MODELLED_CELLS = 3000
"""Larger storages would be slow; `storages` and the large images have those."""


@dataclass(frozen=True)
class RandomRound:
    """Cases made one by one, each from a generator of its own; one where other rounds have `one_in`, if they take longer.

    Of this round, and of those below, `command` is one that has to be switched on; of most rounds all are.
    """

    name: str
    make: Callable[[Random], Case]
    one_in: int = 1
    command: str | None = None

    def cases(self, seed: Seed, count: int, _means: Means) -> Iterator[Case]:
        """So many cases, or their share."""
        for i in range(-(-count // self.one_in)):
            yield self.make(Random(f"{seed} {self.name} {i}"))


@dataclass(frozen=True)
class QuestionRound:
    """Cases made one by one, each from a generator of its own, with the clauses of questions where they can be had."""

    name: str
    make: Callable[[Random, Questions], Case]
    command: str | None = None

    def cases(self, seed: Seed, count: int, means: Means) -> Iterator[Case]:
        """So many cases."""
        for i in range(count):
            yield self.make(Random(f"{seed} {self.name} {i}"), means.questions)


@dataclass(frozen=True)
class CheckedRound:
    """Cases made a few at a time, also with certificates as the program makes them."""

    name: str
    make: Callable[[Random, Means], Iterator[Case]]
    command: str | None = None

    def cases(self, seed: Seed, count: int, means: Means) -> Iterator[Case]:
        """So many cases."""
        generators = (Random(f"{seed} {self.name} {i}") for i in itertools.count())
        yield from itertools.islice((case for rng in generators for case in self.make(rng, means)), count)


@dataclass(frozen=True)
class ListRound:
    """Cases from a list; where it is longer than the count, as many of it as that."""

    name: str
    cases_of: Callable[[], list[Case]]
    command: str | None = None

    def cases(self, seed: Seed, count: int, _means: Means) -> Iterator[Case]:
        """At most so many cases."""
        yield from _sampled(f"{seed} {self.name}", self.cases_of(), count)


@dataclass(frozen=True)
class CheckedListRound:
    """The same, with certificates as the program makes them."""

    name: str
    cases_of: Callable[[Means], list[Case]]
    command: str | None = None

    def cases(self, seed: Seed, count: int, means: Means) -> Iterator[Case]:
        """At most so many cases."""
        yield from _sampled(f"{seed} {self.name}", self.cases_of(means), count)


Round = RandomRound | QuestionRound | CheckedRound | ListRound | CheckedListRound


def _sampled(seed: str, listed: list[Case], count: int) -> list[Case]:
    return Random(seed).sample(listed, min(count, len(listed)))


def spelled_round(rng: Random) -> Case:
    """A valid description."""
    return printing(any_spelling(rng, any_description(rng)))


def edited_text(rng: Random) -> Case:
    """A description with a few bytes or tokens edited."""
    return printing(mutated(rng, any_spelling(rng, any_description(rng, FEW_INSTRUCTIONS))))


def edited_tree(rng: Random) -> Case:
    """A description with a few places of its tree edited."""
    return printing(spelled(rng, perturbed(rng, any_description(rng, FEW_INSTRUCTIONS))))


def several_faults(rng: Random) -> Case:
    """Several faults at once, mostly behind a valid head, some with a limit broken."""
    valid = any_description(rng, (2, 3, 4, 6))
    broken = perturbed(rng, valid, (4, 5, 6))
    if rng.random() < 0.9:
        broken = tree.Description(valid.word, valid.address, valid.size, valid.causes, broken.instructions)
    if rng.random() < 0.3:
        broken = with_limit_fault(rng, broken)
    return printing(any_spelling(rng, broken))


def other_names(rng: Random) -> Case:
    """A description with names where they may not be visible."""
    return printing(with_other_names(rng, any_description(rng, FEW_INSTRUCTIONS)))


def other_widths(rng: Random) -> Case:
    """A description with widths that may misfit."""
    return printing(with_other_widths(rng, any_description(rng, FEW_INSTRUCTIONS)))


def edited_image(rng: Random) -> Case:
    """The state at power-on with an image that mostly is broken."""
    shape = random_shape(rng, small=rng.random() < 0.8)
    description = random_description(rng, shape, rng.choice([0, 1, 3]))
    grant = _grant(rng, description.size)
    image = ImageWriter(rng, description, grant).image()
    return running_bare(description, broken_image(rng, image) if rng.random() < 0.85 else image, grant, 0)


def bare_runs(rng: Random) -> Case:
    """Any bodies, on a bare machine; a few grants are over the room."""
    return _run(rng, _rough(rng))


def tame_bare_runs(rng: Random) -> Case:
    """Bodies that mostly are done, on a bare machine; few storages are so small that the programs leave them."""
    return _run(rng, _tame(rng))


def _rough(rng: Random) -> tree.Description:
    return random_description(rng, random_shape(rng, small=rng.random() < 0.9), rng.choice(FEW_INSTRUCTIONS))


def _tame(rng: Random) -> tree.Description:
    shape = random_shape(rng, small=True)
    while shape.size < 12 and rng.random() < 0.9:
        shape = random_shape(rng, small=True)
    return random_description(rng, shape, rng.choice([1, 2, 2, 4, 4, 7, 8, 8]), ANY_MANNER, TAME)


def many_bare_runs(rng: Random, _means: Means) -> Iterator[Case]:
    """Runs of one machine of either kind, from images of all kinds."""
    description = rng.choice([_rough, _tame, _tame])(rng)
    text = printed(description)
    for _ in range(MANY):
        case = _run(rng, description)
        yield case._replace(files={**case.files, DESCRIPTION_FILE: text})


def many_spellings(rng: Random, _means: Means) -> Iterator[Case]:
    """One description in spellings of all kinds, most of them with edits of its text or of its tree."""
    valid = any_description(rng, FEW_INSTRUCTIONS)
    for _ in range(MANY):
        kind = rng.choices(["valid", "text", "tree", "names", "widths"], [20, 40, 20, 10, 10])[0]
        other = {"tree": perturbed, "names": with_other_names, "widths": with_other_widths}.get(kind)
        text = any_spelling(rng, valid) if other is None else spelled(rng, other(rng, valid))
        yield printing(mutated(rng, text) if kind == "text" else text)


def _run(rng: Random, description: tree.Description) -> Case:
    """A run from an image for the description; a few images are broken, and a few grants are over the room."""
    grant = _grant(rng, description.size)
    image = ImageWriter(rng, description, grant).image()
    if rng.random() < 0.03:
        image = broken_image(rng, image)
    if rng.random() < 0.02:
        grant = description.size + rng.choice([1, 2, 3, 1000])
    return running_bare(description, image, grant, rng.choice(STEPS))


def _grant(rng: Random, room: int) -> int:
    """Cells: few, or all that there are room for."""
    return max(2, min(room, rng.choice([*GRANTS, room, room]), MOST_MODELLED_CELLS))


def operators(rng: Random) -> Case:
    """One step that stores results of operators."""
    description = operator_description(rng)
    return running_bare(description, b"", description.size, 1)


def any_traces(rng: Random) -> Case:
    """Traces of any runs of bare machines."""
    makers = [bare_runs, tame_bare_runs, tame_bare_runs, windows.windows, windows.windows, traces.own, traces.own, traces.systems]
    return traces.tracing(rng, rng.choice(makers)(rng))


def still_runs(rng: Random) -> Case:
    """Runs of bare machines until they are still, most of a machine for that."""
    makers = [*[still_machines.own] * 7, traces.own, traces.systems, bare_runs, tame_bare_runs, windows.windows]
    return still_machines.going_bare(rng, rng.choice(makers)(rng))


def full_outputs(rng: Random, means: Means) -> Iterator[Case]:
    """Any of these where standard output takes nothing; some without their last word. None of them saves a file.

    Such runs of `gen`, which does, are in a round with its other ones.
    """
    makers = [spelled_round, edited_text, edited_image, tame_bare_runs]
    asking = [certificates.certificates, certificates.replays]
    checked = [guests.windows, guests.certified]
    make = rng.choice([*makers, *asking, *checked])
    case = next(make(rng, means)) if make in checked else make(rng, means.questions) if make in asking else make(rng)
    yield case._replace(words=case.words[: None if rng.random() < 0.9 else -1], is_full=True, other_words=None)


ASM, SAVE, NEST = ("asm", "disasm"), ("save", "resume"), ("nest",)
"""Commands that come together."""

ROUNDS = (
    RandomRound("spelled", spelled_round),
    RandomRound("edited-text", edited_text),
    RandomRound("edited-tree", edited_tree),
    RandomRound("several-faults", several_faults),
    RandomRound("other-names", other_names),
    RandomRound("other-widths", other_widths),
    RandomRound("patterns", patterns.random_patterns),
    RandomRound("random-levels", depths.random_levels),
    ListRound("levels", depths.levels),
    ListRound("heads", limits.heads),
    ListRound("counts", limits.counts),
    ListRound("widths", limits.widths),
    ListRound("odd-tokens", limits.odd_tokens),
    ListRound("replaced-tokens", limits.replaced_tokens),
    ListRound("fronts", limits.fronts),
    RandomRound("edited-image", edited_image),
    RandomRound("random-lines", lines.random_lines),
    ListRound("odd-lines", lines.odd_lines),
    ListRound("edge-lines", lines.edge_lines),
    RandomRound("bare-runs", bare_runs),
    RandomRound("tame-bare-runs", tame_bare_runs),
    RandomRound("windows", windows.windows),
    CheckedRound("guest-runs", guests.rough),
    CheckedRound("tame-guest-runs", guests.tame),
    CheckedRound("guest-windows", guests.windows),
    CheckedRound("guest-systems", guests.systems),
    CheckedRound("guest-hybrids", guests.hybrids),
    CheckedRound("guest-certificates", guests.certified),
    CheckedListRound("guest-rows", guests.rows),
    CheckedRound("still-guests", still_guests.still_guests),
    RandomRound("still-machines", still_runs),
    ListRound("still-machine-lines", still_machines.lines),
    ListRound("still-machine-refusals", still_machines.refusals),
    RandomRound("traces", any_traces),
    RandomRound("operators", operators),
    QuestionRound("certificates", certificates.certificates),
    QuestionRound("spoiled-certificates", certificates.spoiled_certificates),
    QuestionRound("logs", certificates.logs),
    QuestionRound("replays", certificates.replays),
    QuestionRound("migrations", certificates.migrations),
    CheckedRound("tampered-certificates", tampered.tampered),
    RandomRound("generated", generations.generations, one_in=10),
    CheckedRound("full-outputs", full_outputs),
    ListRound("certificate-lines", certificates.odd_lines),
    ListRound("log-lines", certificates.odd_logs),
    ListRound("certificate-fronts", certificates.fronts),
    ListRound("line-shapes", command_lines.shapes),
    ListRound("line-numbers", command_lines.numbers),
    ListRound("refusals", command_lines.refusals),
    RandomRound("random-words", command_lines.random_line),
    RandomRound("sources", sources.sources, command="asm"),
    RandomRound("spoiled-sources", sources.spoiled_sources, command="asm"),
    ListRound("source-lines", sources.odd_lines, command="asm"),
    ListRound("source-pairs", sources.odd_pairs, command="asm"),
    ListRound("source-faults", sources.several_faults, command="asm"),
    ListRound("source-line-faults", sources.faults_of_a_line, command="asm"),
    ListRound("source-fronts", sources.fronts, command="asm"),
    ListRound("source-values", sources.values, command="disasm"),
    RandomRound("source-images", sources.images, command="disasm"),
    RandomRound("source-words", sources.words, command="disasm"),
    RandomRound("source-trips", sources.round_trips, command="disasm"),
    ListRound("asm-shapes", partial(further_lines.shapes, ASM), command="asm"),
    ListRound("asm-numbers", partial(further_lines.numbers, ASM), command="asm"),
    ListRound("asm-refusals", further_lines.asm_refusals, command="asm"),
    RandomRound("asm-words", partial(further_lines.random_line, ASM), command="asm"),
    CheckedRound("saves", further_guests.saves, command="save"),
    CheckedRound("resumes", further_guests.resumes, command="resume"),
    CheckedRound("resume-edges", further_guests.edges, command="resume"),
    CheckedRound("resume-chains", further_guests.chains, command="resume"),
    CheckedRound("spoiled-saves", further_guests.spoiled_saves, command="resume"),
    ListRound("saved-lines", saved_texts.odd_lines, command="resume"),
    ListRound("saved-places", saved_texts.misplaced_lines, command="resume"),
    ListRound("saved-fronts", saved_texts.fronts, command="resume"),
    ListRound("tampered-saves", saved_texts.tampered, command="resume"),
    ListRound("save-shapes", partial(further_lines.shapes, SAVE), command="save"),
    ListRound("save-numbers", partial(further_lines.numbers, SAVE), command="save"),
    ListRound("save-refusals", further_lines.save_refusals, command="save"),
    RandomRound("save-words", partial(further_lines.random_line, SAVE), command="save"),
    CheckedRound("nests", further_guests.nests, command="nest"),
    ListRound("nest-shapes", partial(further_lines.shapes, NEST), command="nest"),
    ListRound("nest-numbers", partial(further_lines.numbers, NEST), command="nest"),
    ListRound("nest-refusals", further_lines.nest_refusals, command="nest"),
    RandomRound("nest-words", partial(further_lines.random_line, NEST), command="nest"),
)
"""Those of a command that is switched off are left out."""

SEARCH_ROUNDS = (
    ListRound("check-pieces", checks.listed),
    RandomRound("checks", checks.pieced),
    RandomRound("hard-checks", checks.hard),
    RandomRound("any-checks", checks.any_bodies),
    RandomRound("other-checks", checks.as_for_certificates),
    RandomRound("hybrid-checks", checks.hybrid),
)

LONG_ROUNDS = (
    ListRound("storages", lines.storages_at_the_limit),
    ListRound("large-descriptions", large.large_descriptions),
    ListRound("large-images", large.large_images),
    ListRound("long-runs", large.long_runs),
    CheckedListRound("long-guest-runs", large.long_guest_runs),
    ListRound("large-certificates", certificates.largest),
    ListRound("large-sources", sources.largest, command="asm"),
    ListRound("large-saves", saved_texts.largest, command="resume"),
)

CAMPAIGN_ROUNDS = (
    CheckedRound("many-bare-runs", many_bare_runs),
    CheckedRound("many-spellings", many_spellings),
)

BY_NAME = {source.name: source for source in (*ROUNDS, *SEARCH_ROUNDS, *LONG_ROUNDS, *CAMPAIGN_ROUNDS)}


def rounds_on(listed: Iterable[Round], on: Collection[str]) -> Iterator[Round]:
    """Those of which the command is switched on."""
    return (source for source in listed if source.command is None or source.command in on)
