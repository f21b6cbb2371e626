"""Descriptions for `check`: of bodies that are put together from pieces, and of any."""

import re
from dataclasses import replace
from random import Random

from inputs import certificates
from inputs.bodies import FREE, GUARDED, PURE
from inputs.case import Case, checking
from inputs.descriptions import random_description
from inputs.programs import TAME, with_near_miss
from pgvmodel import tree
from pgvmodel.body import mask
from pgvmodel.reader import read
from pgvmodel.validity import LEAST_SIZE

GUARDS = (
    "", "", "", "if mode { trap; }", "if mode { trap; }", "if mode { trap; }", "if mode { trap; }",
    "if mode { trap; } else { }", "if ~mode { trap; }", "if (mode & c) { trap; }", "if (mode | c) { trap; }",
    "if (mode ^ c) { trap; }", "if c { trap; }", "if (mode == 1:1) { trap; }", "if mode { if c { trap; } }",
    "if mode { let g = mem[~0:$A]; }", "if mode { mem[~0:$A] = 0:$W; }", "if mode { let g = mem[x]; }",
    "if ~mode { let g = mem[x]; }", "if ~mode { let g = mem[~0:$A]; }", "if (x == y) { trap; }", "let g = mem[x];",
    "if (bound < x) { trap; }", "if (rel == 0:$A) { trap; }", "if (pc == 0:$A) { trap; }", "if mode { trap; trap; }",
    "if mode { mode = 0:1; trap; }", "trap;", "if (x < y) { if mode { trap; } }", "if sel(c, mode, ~mode) { trap; }",
    "if (mem[x] == 0:$W) { trap; }", "if (ext(mode, $W) < mem[pc]) { trap; }", "if mode { } else { trap; }",
    "if ((mode + 1:1) == 0:1) { trap; }",
)
"""Begins: guards, what is nearly one, and traps that rest on other things. c is a field of one bit, no ~0 is usable."""

MIDDLES = (
    "", "", "", "mem[x] = ext(mode, $W);", "mem[x] = ext(rel, $W);", "mem[x] = ext(bound, $W);",
    "mem[x] = ext(pc, $W);", "mem[x] = mem[y];", "mem[x] = (mem[x] + mem[y]);", "mem[x] = ext((rel - rel), $W);",
    "mem[x] = ext((bound & 0:$A), $W);", "mem[x] = (ext(rel, $W) >> $A:6);", "mem[x] = (ext(bound, $W) >> ($A - 1):6);",
    "mem[x] = ext(cut(bound, $T, $T), $W);", "mem[x] = ext(cut(rel, $T, $T), $W);",
    "mem[x] = ext(rel, $W); mem[x] = 0:$W;", "mem[x] = ext(mode, $W); mem[y] = 0:$W;", "mem[rel] = 0:$W;",
    "let t = mem[rel];", "let t = mem[bound];", "let t = mem[(bound - 1:$A)];", "mem[bound] = mem[x];",
    "let t = mem[(rel + bound)];", "if (bound == 3:$A) { pc = y; }", "if (rel == 2:$A) { pc = y; }", "let t = mem[pc];",
    "if ((rel == 0:$A) & (bound == 3:$A)) { pc = 0:$A; }", "if (rel < y) { let t = mem[~0:$A]; }",
    "if (bound < y) { let t = mem[~0:$A]; }", "if (rel < y) { trap; } else { let t = mem[~0:$A]; }",
    "if (mode & (x < y)) { trap; } else { let t = mem[~0:$A]; }", "mem[(x + ext(mode, $A))] = 0:$W;",
    "mem[(x ^ (rel & 1:$A))] = mem[y];", "if (mem[x] == ext(rel, $W)) { pc = y; }",
    "if (mem[x] == ext(mode, $W)) { pc = y; }", "if (mem[x] == ext(bound, $W)) { trap; }",
    "mem[x] = (ext(rel, $W) ^ ext(bound, $W));", "mem[x] = sext(mode, $W);",
    "mem[x] = (ext(rel, $W) + ext(bound, $W));", "if ((rel + bound) == x) { pc = y; }", "if (bound < rel) { pc = y; }",
    "if ((rel + bound) < rel) { pc = y; }", "if (x < bound) { let t = mem[x]; }",
    "if (x < bound) { mem[x] = 0:$W; } else { trap; }", "let t = mem[x]; if (x < bound) { } else { pc = y; }",
    "if (pc < bound) { } else { mode = ~mode; rel = x; pc = rel; }", "mem[pc] = ext(mode, $W);",
    "mem[pc] = (mem[pc] | ext(mode, $W));", "if (bound == 0:$A) { pc = y; mode = ~mode; }",
    "mem[x] = ext(sel(mode, rel, rel), $W);", "mem[x] = ext(sel(mode, y, y), $W);", "mem[x] = (ext(mode, $W) * 2:$W);",
    "mem[x] = ((ext(mode, $W) * 2:$W) & 1:$W);", "let t = cut(mem[x], $T, 0); mem[t] = ext(mode, $W);",
    "pc = cut(mem[x], $T, 0);",
    "let u = (mode == mode); if u { } else { pc = rel; }", "mem[x] = cat(rel, cut(mem[y], $R, 0));",
    "if (rel == $Q:$A) { pc = y; }", "if ((rel + 1:$A) == $Q:$A) { pc = y; }", "if (rel == ~0:$A) { pc = y; }",
    "if (bound == ~0:$A) { pc = y; }", "if (bound == 1:$A) { pc = y; }", "if (pc == ($Q - 1):$A) { pc = bound; }",
    "let t = mem[($Q - 1):$A]; pc = bound;", "let t = mem[($Q - 1):$A]; pc = rel;",
    "let t = mem[($Q - 2):$A]; pc = rel;", "let t = mem[1:$A]; if (rel < 2:$A) { } else { pc = y; }",
    "mem[x] = ext(rel, $W); if mode { trap; }",
)
"""Middles: what tells of the control registers or seems to, and what does not."""

ENDS = (
    "", "", "", "mode = 1:1;", "mode = 0:1;", "mode = mode;", "mode = ~mode;", "mode = (mode & c);",
    "mode = (mode | 1:1);", "rel = rel;", "rel = y;", "rel = (rel + 0:$A);", "bound = bound;",
    "bound = (bound - 1:$A);", "bound = y; bound = bound;", "mode = ~mode; mode = mode;", "pc = y;", "pc = rel;",
    "pc = bound;", "pc = (pc + rel);", "pc = (pc + ext(mode, $A));", "pc = (pc + 1:$A);", "if c { rel = y; }",
    "if (y < bound) { bound = y; }", "if mode { mode = 0:1; }", "if mode { mode = 1:1; }", "if ~mode { rel = x; }",
    "if mode { } else { pc = y; }", "trap;", "if mode { trap; }", "rel = y; trap;", "rel = y; let e = mem[~0:$A];",
    "rel = x; bound = y;", "if mode { trap; } rel = x; bound = y;", "mode = 1:1; pc = y;", "if (rel == x) { rel = x; }",
    "if (bound == x) { } else { bound = bound; }", "if (rel == x) { } else { rel = x; }", "bound = (bound | 0:$A);",
)
"""Ends, most of which assign a register."""

MODES = (
    ("if mode {", "}"), ("if ~mode {", "}"), ("if ~mode {", "}"), ("if mode { } else {", "}"), ("if (mode & c) {", "}"),
    ("if (mode | c) {", "}"), ("if (mode ^ c) {", "}"), ("if (mode == c) {", "}"), ("if mode { if c { trap; } }", ""),
    ("if ~mode { trap; }", ""), ("if ~mode { trap; } else {", "}"), ("if mode { trap; } else {", "}"), ("mode = 1:1;", ""),
    ("if ~mode { mode = 1:1; rel = y; } else {", "}"), ("if mode { let z = mem[~0:$A]; } else {", "}"),
)
"""What keeps a part of a body to one mode, or nearly, and what is done in the other one."""

HARD = (
    "let u = cut(mem[x], 6, 0); let v = cut(mem[y], 6, 0); if (mode & ~((u * v) == (v * u))) { pc = y; }",
    "let u = cut(mem[x], 4, 0); let v = cut(mem[y], 4, 0); if ~((u * (u + v)) == ((u * u) + (u * v))) { mode = ~mode; }",
    "let u = mem[x]; let v = mem[y]; if (((u * v) == 5:$W) & mode) { pc = x; }",
    "let u = mem[x]; let v = mem[y]; if (((u * v) == (v * u)) & (u < v)) { pc = (pc + rel); }",
    "let u = mem[x]; if ((u * u) == 2:$W) { pc = bound; }",
    "let u = mem[x]; if ((u * u) == 17:$W) { pc = bound; rel = y; }",
    "let u = (mem[x] ^ ext(rel, $W)); let v = (mem[x] ^ ext(bound, $W)); if ((u ^ v) == 0:$W) { pc = y; }",
    "let u = (ext(rel, $W) * ext(bound, $W)); mem[x] = u;", "mem[x] = ((mem[x] << x) >> rel);",
    "let u = cut(mem[x], 5, 0); if (mode & (((u + 1:6) < u) ^ (u == 63:6))) { pc = y; }",
)
"""Bodies of which some questions take a search, of which some are not settled by a small budget."""

SHAPES = ((16, 4), (16, 4), (16, 4), (16, 5), (16, 5), (24, 4), (24, 7), (32, 8), (64, 9))
"""Bits of a word and of an address, the small ones mostly."""

BUDGETS = (None, None, None, None, 1, 2, 10, 100, 500, 2000)


def small_shape(rng: Random) -> tree.Description:
    """A small machine without instructions."""
    word, address = rng.choice(SHAPES)
    top = mask(address)
    size = min(top, rng.choice([LEAST_SIZE, LEAST_SIZE, 5, 8, 9, top - 1, top, top, rng.randint(LEAST_SIZE, top)]))
    causes = 3 * address + 3 <= word and rng.random() < 0.3
    return tree.Description(word, address, size, causes, ())


def described(rng: Random, shape: tree.Description, bodies: list[str]) -> tree.Description:
    """A machine with these bodies; x and y are fields of the width of an address, and c is one of a bit."""
    causes = "causes on;" if shape.causes else ""
    text = f"machine {{ word {shape.word}; address {shape.address}; size {shape.size}; {causes} }}"
    for code, body in enumerate(bodies):
        fields = rng.sample(["x" * shape.address, "y" * shape.address, "c"], 3)
        pattern = "".join([f"{code:02b}", *fields])
        text += f' instr i{code} "{pattern:.<{shape.word}}" {{ {_filled(shape, body)} }}'
    return read(text.encode())


def _filled(shape: tree.Description, body: str) -> str:
    """A body with the machine's numbers: words, addresses, the top bit of an address, the greatest size."""
    word, address, size = shape.word, shape.address, shape.size
    rest = word - address - 1
    named = {
        "($A - 1)": address - 1, "($Q - 1)": size - 1, "($Q - 2)": size - 2,
        "$W": word, "$A": address, "$T": address - 1, "$R": rest, "$Q": size,
    }
    for name, number in named.items():
        body = body.replace(name, str(number))
    return body


def pieced_body(rng: Random) -> str:
    """A body of a begin, up to two middles and an end, at times inside a condition."""
    middles = [middle for middle in rng.sample(MIDDLES, rng.choice([0, 1, 1, 1, 2])) if middle]
    pieces = [rng.choice(GUARDS), *middles, rng.choice(ENDS)]
    if rng.random() < 0.1:
        rng.shuffle(pieces)
    if rng.random() < 0.15:
        i = rng.randrange(len(pieces))
        pieces[i] = rng.choice(["if c {{ {} }}", "if (x == 0:$A) {{ {} }}", "if c {{ }} else {{ {} }}"]).format(pieces[i])
    return with_new_lets(pieces)


def with_new_lets(pieces: list[str]) -> str:
    """A body of these pieces, whose lets get names of their own."""
    told_apart = []
    for i, piece in enumerate(pieces):
        for name in re.findall(r"let (\w+)", piece):
            piece = re.sub(rf"\b{name}\b", f"{name}{i}", piece)
        told_apart.append(piece)
    return " ".join(told_apart)


def pieced(rng: Random) -> Case:
    """Bodies that are put together from pieces."""
    shape = small_shape(rng)
    bodies = [pieced_body(rng) for _ in range(rng.choice([1, 1, 2, 3, 4]))]
    return checking(described(rng, shape, bodies), rng.choice(BUDGETS))


def listed_bodies() -> list[str]:
    """Each guard, middle and end alone, and each middle behind the guard."""
    alone = [body for body in (*GUARDS, *MIDDLES, *ENDS) if body]
    return list(dict.fromkeys([*alone, *(f"if mode {{ trap; }} {middle}" for middle in MIDDLES if middle)]))


def listed() -> list[Case]:
    """Each of these bodies, on a small machine."""
    shape = tree.Description(16, 4, 8, False, ())
    return [checking(described(Random(body), shape, [body]), None) for body in listed_bodies()]


def hard(rng: Random) -> Case:
    """Bodies of which some questions take a search."""
    shape = small_shape(rng)
    bodies = [rng.choice([rng.choice(HARD), pieced_body(rng)]) for _ in range(rng.choice([1, 1, 2]))]
    return checking(described(rng, shape, bodies), rng.choice([1, 3, 20, 100, 300, 1000, None]))


def any_bodies(rng: Random) -> Case:
    """Bodies of any statements and expressions, guarded or not, some with a begin that is a guard or nearly."""
    shape = small_shape(rng)
    manners = rng.choice([(FREE,), (FREE, GUARDED), (FREE, FREE, GUARDED, PURE)])
    count = rng.choice([1, 1, 2, 3, 4])
    if rng.random() < 0.6:
        description = random_description(rng, shape, count, manners, TAME)
    else:
        description = random_description(rng, shape, count, manners)
    if rng.random() < 0.4:
        description = with_near_miss(rng, description)
    return checking(with_tellers(rng, description), rng.choice([None, 1, 10, 100, 500, 2000]))


def with_tellers(rng: Random, description: tree.Description) -> tree.Description:
    """Half of the instructions end with a jump that tells of a control register, or with a change of one."""
    pc, mode, rel, bound = map(tree.Register, tree.REGISTERS)
    tellers = [
        tree.Assign("pc", bound),
        tree.Assign("pc", tree.Binary("+", pc, rel)),
        tree.Assign("pc", tree.Select(mode, pc, bound)),
        tree.If(mode, (tree.Assign("pc", pc),)),
        tree.If(tree.Binary("<", rel, pc), (tree.Assign("mode", tree.Not(mode)),)),
    ]
    told = (replace(it, body=(*it.body, rng.choice(tellers))) if rng.random() < 0.5 else it for it in description.instructions)
    return replace(description, instructions=tuple(told))


def in_one_mode(rng: Random) -> Case:
    """Bodies whose middle and end are kept to one mode, or nearly: then a hybrid monitor may have less to ask."""
    shape = small_shape(rng)
    bodies = [_kept_to_a_mode(rng) for _ in range(rng.choice([1, 1, 2]))]
    return checking(described(rng, shape, bodies), rng.choice(BUDGETS))


def _kept_to_a_mode(rng: Random) -> str:
    body = with_new_lets([rng.choice(MIDDLES), rng.choice(ENDS)])
    before, behind = rng.choice(MODES)
    return f"{rng.choice(['', '', 'mem[y] = 0:$W;', 'pc = x;'])} {before} {body} {behind}"


def hybrid(rng: Random) -> Case:
    """`hcheck` of the bodies of all rounds of `check`, and of such as are kept to one mode."""
    makers = [in_one_mode, pieced, hard, any_bodies, as_for_certificates, any_listed]
    case = rng.choices(makers, [35, 25, 8, 15, 7, 10])[0](rng)
    return case._replace(words=("hcheck", *case.words[1:]))


def any_listed(rng: Random) -> Case:
    """One of the listed bodies, on any small machine."""
    return checking(described(rng, small_shape(rng), [rng.choice(listed_bodies())]), None)


def as_for_certificates(rng: Random) -> Case:
    """The descriptions that certificates are made for, some of larger words and addresses, or without an instruction."""
    makers = [certificates.telling, certificates.quiet, certificates.differing, certificates.searched, certificates.mixed]
    return checking(rng.choice(makers)(rng), rng.choice(BUDGETS))
