"""Texts of descriptions with random edits of bytes and of tokens."""

from random import Random

from pgvmodel.faults import Fault
from pgvmodel.tokens import tokens

SIGNS = b"{ } ( ) [ ] ; , : = == ~ + - * & | ^ < << >> > >>>".split()
WORDS = (
    b"machine word address size instr let mem pc mode rel bound trap if else cat cut ext sext sel causes on off a x zz".split()
)
NUMBERS = (
    b"0 1 7 64 65 0x10 0X1 18446744073709551615 18446744073709551616 0xffffffffffffffff 0x10000000000000000 0x 1_0 12ab".split()
)
PATTERNS = (b'"01"', b'""', b'"_"', b'"A"', b'"')
STRANGE = (
    b"a" * 32, b"a" * 33, b"#", b"# c\n", b"\n", b"\r\n", b"\x00", b"\x0b", b"\x0c", b"\x80", b"\xff", b"!", b"'", b"@", b"$",
    b"_", b"_a",
)
PHRASES = (
    b"causes on ;", b"let t = 0:1 ;", b"if mode { trap; }", b"else { }", b"0:0", b"0:65", b"2:1", b"1:1", b"mem[0:4]",
    b"cut(1:4, 4, 0)", b"ext(0:64, 64)", b"ext(0:64,65)", b"cut(0:4,18446744073709551615,0)", b"cut(0:4,0,1)",
    b"cat(0:32,0:33)", b"cat(0:32,0:32)",
)
FRAGMENTS = (*SIGNS, *WORDS, *NUMBERS, *PATTERNS, *STRANGE, *PHRASES)
USUAL_BYTES = b"{}()[];,:=~+-*&|^<>\"#_0123456789abcxyz \n\r\t"


def mutated(rng: Random, text: bytes) -> bytes:
    """The text with one to three random edits."""
    for _ in range(rng.choice([1, 1, 1, 2, 3])):
        spans = token_spans(text)
        if spans and rng.random() < 0.7:
            text = _token_edit(rng, text, spans)
        else:
            text = _byte_edit(rng, text)
    return text


def token_spans(text: bytes) -> list[tuple[int, int]]:
    """Where each token begins and ends; none where the text is not all tokens."""
    try:
        return [(token.place, token.end) for token in tokens(text)]
    except Fault:
        return []


def _byte_edit(rng: Random, text: bytes) -> bytes:
    place = rng.randint(0, len(text))
    kind = rng.choices(["drop", "any", "usual", "cut", "fragment"], [30, 20, 20, 10, 20])[0]
    if kind == "drop":
        return text[:place] + text[place + 1 :]
    if kind == "cut":
        return text[:place]
    if kind == "any":
        return text[:place] + bytes([rng.randint(0, 255)]) + text[place:]
    if kind == "usual":
        return text[:place] + bytes([rng.choice(USUAL_BYTES)]) + text[place + rng.randint(0, 1) :]
    return text[:place] + rng.choice(FRAGMENTS) + text[place:]


def _token_edit(rng: Random, text: bytes, spans: list[tuple[int, int]]) -> bytes:
    i = rng.randrange(len(spans))
    begin, end = spans[i]
    other_begin, other_end = rng.choice(spans)
    behind = spans[min(len(spans) - 1, i + rng.randint(1, 12))][0]
    kind = rng.choices(["drop", "insert", "replace", "copy", "swap", "drop row", "repeat row"], [15, 15, 15, 10, 7, 4, 4])[0]
    if kind == "drop":
        return text[:begin] + text[end:]
    if kind == "insert":
        return text[:begin] + rng.choice(FRAGMENTS) + b" " + text[begin:]
    if kind == "replace":
        return text[:begin] + rng.choice(FRAGMENTS) + text[end:]
    if kind == "drop row":
        return text[:begin] + text[behind:]
    if kind == "repeat row":
        return text[:behind] + text[begin:behind] + text[behind:]
    if kind == "copy" or end > other_begin:
        return text[:begin] + text[other_begin:other_end] + text[end:]
    return text[:begin] + text[other_begin:other_end] + text[end:other_begin] + text[begin:end] + text[other_end:]
