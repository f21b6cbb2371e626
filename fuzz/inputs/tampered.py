"""Certificates as `check` saves them, tampered with: lines, numbers, signs, and what is said to be found.

Other rounds spoil certificates that are written here. These are the program's own, of machines that are accepted, refused and
left open, and each edit is one that whoever wants another verdict would try.
"""

from collections.abc import Callable, Iterator
from random import Random

from inputs import certificates
from inputs.case import Case, verifying
from inputs.checker import Means
from inputs.checks import described, small_shape
from inputs.guests import checked
from pgvmodel import tree
from pgvmodel.generator import generated
from pgvmodel.printer import printed

FEW = 12
"""Certificates of a machine, beside its own."""

BUDGETS = (300, 300, 1, 2, 5, 20)
"""Of a check: small ones leave much open."""

FOUND = ("refuted", "shown", "spent 1", "spent 2", "spent 300")

UNSETTLED = (
    "let u = cut(mem[x], 7, 0); let v = cut(mem[y], 7, 0); if ~((u * v) == (v * u)) { mode = ~mode; }",
    "let u = cut(mem[x], 5, 0); if (mode & ~((u * u) == (((u + 1:6) * (u - 1:6)) + 1:6))) { pc = y; }",
)
"""Bodies of which a small budget settles not all."""

Lines = list[str]


def tampered(rng: Random, means: Means) -> Iterator[Case]:
    """The certificate of a machine, and some that are nearly it."""
    description = rng.choice([_accepted, _accepted, certificates.telling, certificates.differing, _open, _open])(rng)
    text = printed(description)
    saved = checked(means, text, rng.choice(BUDGETS))
    yield verifying(text, saved)
    for _ in range(FEW):
        lines = saved.decode("latin1").split("\n")
        for _ in range(rng.choice([1, 1, 1, 2, 3])):
            lines = rng.choice(EDITS)(rng, lines)
        yield verifying(text, "\n".join(lines).encode("latin1"))


def _accepted(rng: Random) -> tree.Description:
    """One that `gen` makes, or one of bodies that are quiet or searched."""
    if rng.random() < 0.4:
        return generated(rng.getrandbits(64), rng.choice([1, 2, 3])).description
    return rng.choice([certificates.quiet, certificates.searched])(rng)


def _open(rng: Random) -> tree.Description:
    return described(rng, small_shape(rng), [rng.choice(UNSETTLED)]) if rng.random() < 0.5 else certificates.searched(rng)


def _places(lines: Lines, fits: Callable[[str], bool]) -> list[int]:
    """Lines that fit; the last one of a text that ends with a line feed is none."""
    return [i for i, line in enumerate(lines) if line and fits(line)]


def _chosen(rng: Random, lines: Lines) -> int:
    """A line: as often a header, a step, or one of a state, where there are such."""
    kinds = [
        _places(lines, lambda line: line.startswith("finding ")),
        _places(lines, lambda line: line[:2] in ("s ", "d ")),
        _places(lines, lambda line: line[:1].isdigit() or line.startswith(("size ", "psw "))),
        _places(lines, lambda line: True),
    ]
    return rng.choice(rng.choice([kind for kind in kinds if kind] or [[0]]))


def _left_out(rng: Random, lines: Lines) -> Lines:
    i = _chosen(rng, lines)
    return [*lines[:i], *lines[i + 1 :]]


def _doubled(rng: Random, lines: Lines) -> Lines:
    i = _chosen(rng, lines)
    k = rng.choice([i, i, _chosen(rng, lines)])
    return [*lines[:k], lines[i], *lines[k:]]


def _exchanged(rng: Random, lines: Lines) -> Lines:
    i = _chosen(rng, lines)
    k = rng.choice([min(i + 1, len(lines) - 1), _chosen(rng, lines)])
    made = list(lines)
    made[i], made[k] = made[k], made[i]
    return made


def _with_other_number(rng: Random, lines: Lines) -> Lines:
    """A number of a line larger or smaller, mostly by one; of a step also with its sign turned."""
    i = _chosen(rng, lines)
    words = lines[i].split(" ")
    places = [k for k, word in enumerate(words) if k and word.lstrip("-").isdigit()]
    if not places:
        return lines
    k = rng.choice(places)
    digits = len(words[k])
    number = int(words[k][:30])
    other = rng.choice([number + 1, number - 1, number + 1, number - 1, -number, number * 2, number + 1000, 0])
    words[k] = f"{other:0{digits}d}" if words[k].startswith("0") and digits > 1 else str(other)
    return [*lines[:i], " ".join(words), *lines[i + 1 :]]


def _with_other_step(rng: Random, lines: Lines) -> Lines:
    """A step with a literal or a hint left out, two hints exchanged, or a literal turned; or, of a state, the mode turned."""
    places = _places(lines, lambda line: line.startswith(("s ", "psw ")))
    if not places:
        return lines
    i = rng.choice(places)
    words = lines[i].split(" ")
    if words[0] == "psw":
        words[1] = "u" if words[1] == "s" else "s"
        return [*lines[:i], " ".join(words), *lines[i + 1 :]]
    numbers = [k for k in range(1, len(words)) if words[k] != "0"]
    if not numbers:
        return lines
    k, other = rng.choice(numbers), rng.choice(numbers)
    kind = rng.choice(["leave out", "turn", "exchange"])
    if kind == "leave out":
        del words[k]
    elif kind == "turn":
        words[k] = words[k][1:] if words[k].startswith("-") else f"-{words[k]}"
    else:
        words[k], words[other] = words[other], words[k]
    return [*lines[:i], " ".join(words), *lines[i + 1 :]]


def _with_other_finding(rng: Random, lines: Lines) -> Lines:
    """Another thing is said to be found, of the same evidence."""
    headers = _places(lines, lambda line: line.startswith("finding "))
    if not headers:
        return lines
    i = rng.choice(headers)
    front = " ".join(lines[i].split(" ")[:3])
    return [*lines[:i], f"{front} {rng.choice(FOUND)}", *lines[i + 1 :]]


def _with_exchanged_evidence(rng: Random, lines: Lines) -> Lines:
    """Two findings have each other's evidence; what is said to be found goes with it, mostly."""
    headers = _places(lines, lambda line: line.startswith("finding "))
    if len(headers) < 2:
        return lines
    i, k = sorted(rng.sample(headers, 2))
    end = {at: behind for at, behind in zip(headers, [*headers[1:], len(lines) - 2])}
    first, second = lines[i + 1 : end[i]], lines[k + 1 : end[k]]
    heads = [lines[i].split(" ", 3), lines[k].split(" ", 3)]
    if rng.random() < 0.8 and all(len(head) == 4 for head in heads):
        heads[0][3], heads[1][3] = heads[1][3], heads[0][3]
    one, two = (" ".join(head) for head in heads)
    return [*lines[:i], one, *second, *lines[end[i] : k], two, *first, *lines[end[k] :]]


EDITS = (
    _left_out, _doubled, _exchanged, _with_other_number, _with_other_number, _with_other_number, _with_other_step,
    _with_other_step, _with_other_finding, _with_other_finding, _with_exchanged_evidence,
)
