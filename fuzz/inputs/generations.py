"""Command lines of `gen`: numbers and sizes in any spelling, mostly small; words that it does not take; odd places to save."""

from random import Random

from inputs.case import CERTIFICATE_FILE, Case
from pgvmodel.tokens import NUMBERS
from pgvmodel.words import RANGES

FILES = {CERTIFICATE_FILE: b"what stood here", "other": b"", "dir/": b""}
"""Files that are there; what is saved may stand in place of the first one, or of none."""

PLACES = ("new.cert", "new.cert", CERTIFICATE_FILE, "./new.cert", "dir/new.cert", "-", "8")
ODD_PLACES = ("dir", "dir/", "none/new.cert", "other/new.cert", "", ".", "new.cert/", "n" * 300)

EDGE_NUMBERS = (0, 1, 2, (1 << 32) - 1, 1 << 32, (1 << 63) - 1, 1 << 63, NUMBERS - 2, NUMBERS - 1)
MOST_INSTRUCTIONS = RANGES["size"][-1]

WRONG_NUMBERS = (
    str(NUMBERS), str(NUMBERS + 1), "9" * 32, "-1", "-0", "+-1", "++1", "+", "", " 1", "1 ", "0x1", "1_0", "1.0", "1e0", "x",
    "\u0661",
)
WRONG_SIZES = (
    "0", "00", "+0", "61", "061", "100", str((1 << 32) + 1), str((1 << 64) + 1), "-1", "", " 1", "1.", "0x1", "x", "--",
)
MORE_WORDS = (
    "3", "new.cert", "--", "--cert", "--cert=other", "--budget=5", "--grant=8", "--slice", "--help", "-h", "gen", "-n", "-1",
)
OTHER_COMMANDS = (
    "Gen", "gen ", "gene", "ge", "generate", "--gen", "check", "print", "verify", "bare", "run", "migrate", "hcheck",
)


def generations(rng: Random) -> Case:
    """A line that is taken, mostly; some are run in another spelling too, and some where standard output takes nothing."""
    number, size = _number(rng), _size(rng)
    place = rng.choice(ODD_PLACES if rng.random() < 0.06 else PLACES)
    words = _spelled(rng, number, size, place)
    if rng.random() < 0.15:
        return Case(tuple(_wrong(rng, words)), FILES)
    if rng.random() < 0.06:
        return Case(tuple(words), FILES, is_full=True)
    return Case(tuple(words), FILES, other_words=tuple(_spelled(rng, number, size, place)) if rng.random() < 0.15 else None)


def _number(rng: Random) -> int:
    kind = rng.random()
    if kind < 0.5:
        return rng.getrandbits(64)
    return rng.randrange(1000) if kind < 0.9 else rng.choice(EDGE_NUMBERS)


def _size(rng: Random) -> int:
    """Few instructions; now and then more, and seldom as many as there may be."""
    if rng.random() < 0.97:
        return rng.choice([1, 1, 1, 2, 2, 3, 3, 4, 5, 6, 7, 8])
    return rng.choice([rng.randint(9, 20), rng.randint(9, MOST_INSTRUCTIONS), MOST_INSTRUCTIONS])


def _spelled(rng: Random, number: int, size: int, place: str) -> list[str]:
    """The words of a line: the numbers in their order, and the place before, between or behind them."""
    words = [_digits(rng, number), _digits(rng, size)]
    option = [f"--cert={place}"] if rng.random() < 0.5 or place.startswith("-") and place != "-" else ["--cert", place]
    at = rng.choice([0, 1, 2, 2, 2])
    if rng.random() < 0.1:
        return ["gen", *option, "--", *words]
    return ["gen", *words[:at], *option, *words[at:]]


def _digits(rng: Random, number: int) -> str:
    if rng.random() < 0.8:
        return str(number)
    return rng.choice(["", "+"]) + "0" * rng.choice([0, 1, 2, 30]) + str(number)


def _wrong(rng: Random, words: list[str]) -> list[str]:
    """The same with a fault, mostly: a number that is none or out of range, a word too many or too few, another command."""
    places = [i for i, word in enumerate(words) if word.lstrip("+").isdigit()]
    i = rng.randint(1, len(words) - 1)
    kind = rng.choices(["number", "size", "more", "fewer", "moved", "command"], [25, 25, 20, 15, 10, 5])[0]
    if kind == "more":
        return [*words[:i], rng.choice(MORE_WORDS), *words[i:]]
    if kind == "fewer":
        return [*words[:i], *words[i + 1 :]]
    if kind == "moved":
        rest = [*words[1:i], *words[i + 1 :]]
        k = rng.randint(0, len(rest))
        return [words[0], *rest[:k], words[i], *rest[k:]]
    if kind == "command":
        return [rng.choice(OTHER_COMMANDS), *words[1:]]
    at, wrong = (places[0], WRONG_NUMBERS) if kind == "number" else (places[-1], WRONG_SIZES)
    return [rng.choice(wrong) if n == at else word for n, word in enumerate(words)]
