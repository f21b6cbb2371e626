"""Random valid descriptions: shapes, patterns that do not overlap, and bodies."""

from collections.abc import Callable, Sequence
from dataclasses import dataclass
from random import Random
from string import ascii_lowercase

from inputs.bodies import FREE, GUARDED, PURE, BodyWriter, Manner, random_name
from pgvmodel import tree
from pgvmodel.validity import ADDRESS_WIDTHS, LEAST_SIZE, WORD_WIDTHS

ANY_MANNER = (PURE, GUARDED, FREE, FREE)
TRUSTED_MANNERS = (PURE, GUARDED)
"""Machines of these are ones that a monitor may run."""
MOSTLY_TRUSTED = (PURE, GUARDED, GUARDED, FREE)

Writer = Callable[[Random, tree.Description, str, Manner], BodyWriter]


@dataclass(frozen=True)
class Style:
    """Who writes bodies, how many bits codes may have that are not needed, and whether the runs of patterns are short."""

    writer: Writer
    spare_bits: tuple[int, ...]
    short_runs: bool


ROUGH = Style(BodyWriter, (0, 0, 1, 2), short_runs=False)
"""Many words mean nothing, many addresses are past the window."""


def random_shape(rng: Random, small: bool = False) -> tree.Description:
    """A valid description without instructions; where small, of at most 64 cells."""
    word = rng.choice(WORD_WIDTHS)
    causes = rng.random() < 0.4
    widest = min(ADDRESS_WIDTHS[-1], (word - (3 if causes else 1)) // 3)
    least = ADDRESS_WIDTHS[0]
    address = rng.choice([least, widest, rng.randint(least, widest), rng.randint(least, min(8, widest))])
    top = 2**address - 1
    if small:
        size = min(top, rng.choice([LEAST_SIZE, 5, 8, 15, 16, 31, 40, 64]))
    else:
        size = rng.choice([LEAST_SIZE, top, rng.randint(LEAST_SIZE, top)])
    return tree.Description(word, address, size, causes, ())


def random_description(
    rng: Random,
    shape: tree.Description,
    count: int,
    manners: Sequence[Manner] = ANY_MANNER,
    style: Style = ROUGH,
) -> tree.Description:
    """A valid description of a shape with so many instructions, told apart by codes at the same places of all patterns."""
    needed = max(0, count - 1).bit_length()
    bits = needed + rng.choice(style.spare_bits)
    places = range(bits) if rng.random() < 0.6 else sorted(rng.sample(range(shape.word), bits))
    names: set[str] = set()
    instructions = []
    for code in rng.sample(range(1 << bits), count):
        fixed = {place: str(code >> i & 1) for i, place in enumerate(places)}
        pattern = random_pattern(rng, shape, fixed, style.short_runs)
        body = style.writer(rng, shape, pattern, rng.choice(manners)).body()
        instructions.append(tree.Instruction(random_name(rng, names), pattern, body))
    return tree.Description(shape.word, shape.address, shape.size, shape.causes, tuple(instructions))


def random_pattern(rng: Random, shape: tree.Description, fixed: dict[int, str], short_runs: bool) -> str:
    """A pattern with the fixed places, and runs of fields, free places and digits between them."""
    letters = rng.sample(ascii_lowercase, len(ascii_lowercase))
    places: list[str] = []
    while len(places) < shape.word:
        if len(places) in fixed:
            places.append(fixed[len(places)])
            continue
        room = min((place for place in fixed if place > len(places)), default=shape.word) - len(places)
        if short_runs:
            length = min(room, rng.choice([1, 2, 3, 4, shape.address, 6]))
        else:
            length = shape.address if room >= shape.address and rng.random() < 0.6 else rng.randint(1, room)
        places += _run(rng, length, letters)
    return "".join(places)


def _run(rng: Random, length: int, letters: list[str]) -> str:
    """Places of a field, whose letter is taken from those that are left, or free ones, or one or two of any digits."""
    kind = rng.random()
    if kind < 0.67 and letters:
        return letters.pop() * length
    if kind < 0.95:
        return "." * length
    return "".join(rng.choices("01.", k=min(length, 2)))


def any_description(rng: Random, counts: Sequence[int] = (0, 1, 2, 3, 4, 6, 9)) -> tree.Description:
    """A valid description of any shape."""
    return random_description(rng, random_shape(rng), rng.choice(counts))
