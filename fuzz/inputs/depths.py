"""Descriptions near the most levels of expressions (32) and of blocks (16)."""

from collections.abc import Iterator
from itertools import product
from random import Random

from inputs.case import Case, printing
from inputs.snippets import one
from inputs.text_mutations import mutated
from pgvmodel.reader import BLOCK_LEVELS, EXPRESSION_LEVELS

AROUND = (
    (b"~", b""), (b"(", b" + 0:4)"), (b"(0:4 + ", b")"), (b"cat(", b", 0:1)"), (b"cat(0:1, ", b")"), (b"cut(", b", 3, 0)"),
    (b"ext(", b", 4)"), (b"sext(", b", 4)"), (b"sel(", b", 0:4, 0:4)"), (b"sel(0:1, ", b", 0:4)"), (b"sel(0:1, 0:4, ", b")"),
    (b"mem[", b"]"),
)
"""What may stand around an expression, one level more."""

PLACES = (
    (b"pc = ", b";"), (b"let t = ", b";"), (b"mem[", b"] = 0:16;"), (b"mem[0:4] = ", b";"), (b"if ", b" { }"),
    (b"mode = ", b";"), (b"rel = ", b";"), (b"bound = ", b";"), (b"if 0:1 { } else { if 0:1 { pc = ", b"; } }"),
)
"""Where an expression may stand in a body."""

INNERMOST = (
    b"0:4", b"pc", b"zz", b"mem[0:4]", b"~0:4", b"cut(0:4, 3, 0)", b"mem[]", b"sel(", b"cat 0:4", b"0 ;", b";", b")", b"trap",
    b"else", b"{", b'"01"', b"5", b"5;", b"=", b"word", b"causes", b"on", b"(0:4", b"mode", b"",
)
"""What stands innermost: expressions, and what is none."""

NARROW = (
    ("~", ""), ("(", " + 1:4)"), ("(1:4 & ", ")"), ("sel(mode, ", ", 2:4)"), ("sel(1:1, 3:4, ", ")"), ("ext(", ", 4)"),
    ("sext(", ", 4)"), ("cut(", ", 3, 0)"), ("(pc << ", ")"),
)
"""What may stand around an expression of width 4, and keeps the width."""

OPENERS = (b"~", b"(", b"mem[", b"cat(", b"if 0:1 {", b"if 0:1 { } else {", b"{", b"[", b"(0:4 + ")


def levels() -> list[Case]:
    """Expressions in each place and blocks, one level below the most, at it and over it."""
    return [printing(one(body)) for body in (*_expressions(), *_innermost(), *_blocks())]


def _expressions() -> Iterator[bytes]:
    counts = range(EXPRESSION_LEVELS - 2, EXPRESSION_LEVELS + 2)
    for (before, behind), (opened, closed), count in product(PLACES, AROUND, counts):
        yield before + opened * count + b"0:4" + closed * count + behind


def _innermost() -> Iterator[bytes]:
    counts = (EXPRESSION_LEVELS - 1, EXPRESSION_LEVELS)
    openers = (b"~", b"(", b"sel(0:1, 0:4, ", b"(0:4 + ", b"cat(0:1,", b"mem[")
    for inner, count in product(INNERMOST, counts):
        yield b"pc = " + b"~" * count + inner + b";"
        yield b"if " + b"~" * count + inner
        yield from (b"pc = " + opener * count + inner for opener in openers)


def _blocks() -> Iterator[bytes]:
    one_if = b"if 0:1 { "
    for count in range(BLOCK_LEVELS - 2, BLOCK_LEVELS + 3):
        outer = one_if * (count - 1)
        yield one_if * count + b"}" * count
        yield b"if 0:1 { } else { " * count + b"}" * count
        yield one_if * count + b"} else { }" * count
        yield one_if * count + b"trap; " + b"} else { trap; }" * count
        yield one_if * count
        yield from (outer + rest for rest in (b"if 0:1 ;", b"if 0:1 { } else ;", b"if 0:1"))
        yield outer + b"if 0:1 { } else { }" + b"}" * (count - 1)
        yield outer + b"if " + b"~" * EXPRESSION_LEVELS + b"0:1 { }"
    for count in (EXPRESSION_LEVELS - 1, EXPRESSION_LEVELS):
        inside = b"pc = " + b"~" * count + b"0:4;"
        yield one_if * (BLOCK_LEVELS - 1) + inside + b"}" * (BLOCK_LEVELS - 1)


def openers(count: int) -> list[Case]:
    """So many openers in a row, as far as a file may be long."""
    cases = []
    for opener in OPENERS:
        row = opener * min(count, 1_048_000 // len(opener))
        cases += [printing(one(b"pc = " + row)), printing(one(row))]
    return cases


def random_levels(rng: Random) -> Case:
    """Nested ifs and chains of expressions near the most levels; some with an edit."""
    bodies = [_nested(rng) for _ in range(rng.choice([1, 1, 2]))]
    rows = (f'instr i{i} "{i}..............." {{ {body} }}\n' for i, body in enumerate(bodies))
    text = ("machine { word 16 ; address 4 ; size 15 ; }\n" + "".join(rows)).encode()
    return printing(mutated(rng, text) if rng.random() < 0.4 else text)


def _nested(rng: Random) -> str:
    """Statements, most of them ifs that are closed at the end."""
    text = ""
    open_ifs: list[bool] = []
    for _ in range(rng.choice([14, 15, 16, 20, 40])):
        kind = rng.choices(["if", "close", "assign"], [62, 10, 28])[0]
        if kind == "if" and len(open_ifs) < rng.choice([14, 15, 15, 15, 16]):
            text += f"if {_condition(rng)} {{ "
            open_ifs.append(True)
        elif kind == "close" and open_ifs:
            may_go_on = open_ifs.pop()
            text += "} "
            if may_go_on and rng.random() < 0.6:
                text += "else { "
                open_ifs.append(False)
        else:
            rarely = rng.random() < 0.15
            depth = rng.choice([1, 5, 30, 31, 32, 32, 32, 33] if rarely else [1, 5, 31, 32])
            text += f"{rng.choice(['pc', 'rel', 'bound'])} = {_chain(rng, depth)} ; "
    return text + "} " * len(open_ifs)


def _condition(rng: Random) -> str:
    return "mode" if rng.random() < 0.8 else f"({_chain(rng, rng.choice([3, 30, 31, 32]))} == 0:4)"


def _chain(rng: Random, depth: int) -> str:
    """An expression of width 4 with so many levels."""
    text = rng.choice(["5:4", "pc", "rel"])
    for opened, closed in rng.choices(NARROW, k=depth - 1):
        text = opened + text + closed
    return text
