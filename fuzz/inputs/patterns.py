"""Descriptions whose patterns are of any form: runs, overlaps, lengths, and letters that meet lets."""

from itertools import groupby
from random import Random

from inputs.case import Case, printing
from pgvmodel import tree
from pgvmodel.validity import WORD_WIDTHS

ALPHABETS = ("01.", "....01", "0011.ab", "01..abc")
BODIES = ("", "", "pc = a;", "let a = 0:1;", "let v = a;")


def random_patterns(rng: Random) -> Case:
    """Some instructions with patterns of digits and runs; most have codes on top that tell them apart."""
    word = rng.choice(WORD_WIDTHS)
    count = rng.choice([2, 3, 4, 8, 20])
    text = f"machine {{ word {word} ; address 4 ; size 8 ; }}\n"
    for i in range(count):
        pattern = _random_pattern(rng, word)
        if rng.random() < 0.7:
            code = f"{i:0{max(1, (count - 1).bit_length())}b}"
            pattern = code + pattern[len(code) :]
        text += f'instr n{i} "{pattern}" {{ {rng.choice(BODIES)} }}\n'
    return printing(text.encode())


def _random_pattern(rng: Random, word: int) -> str:
    """A pattern whose length and runs are mostly right."""
    length = word if rng.random() < 0.97 else word + rng.choice([-1, 1, -word])
    alphabet = rng.choice(ALPHABETS)
    pattern = ""
    while len(pattern) < length:
        pattern += rng.choice(alphabet) * (rng.choice([1, 1, 2, 3]) if rng.random() < 0.9 else 20)
    pattern = pattern[:length]
    return _with_single_runs(pattern) if rng.random() < 0.9 else pattern


def _with_single_runs(pattern: str) -> str:
    """The pattern with the second and later runs of a letter made free."""
    mended = ""
    for place, run in groupby(pattern):
        length = len(list(run))
        mended += ("." if tree.is_field(place) and place in mended else place) * length
    return mended
