"""Descriptions at each limit and over it: counts, heads, widths of literals and parts, names, spellings of tokens."""

from collections.abc import Iterator
from itertools import product

from inputs.case import Case, printing
from inputs.snippets import HEAD, many, one, sums
from inputs.text_mutations import FRAGMENTS, token_spans
from pgvmodel.tokens import NUMBERS
from pgvmodel.validity import WORD_WIDTHS

TOP = NUMBERS - 1
NINE_LOADS = b"pc = cut(mem[0:4], 3, 0); " * 9

EDGE_WIDTHS = (1, 2, 4, 63, 64)
ODD_WORDS = (0, 8, 12, 15, 17, 20, 28, 36, 44, 52, 60, 68, 72, 128, TOP)
ODD_ADDRESSES = (0, 3, *range(4, 23), 63, 64, 2**62, TOP, 2**64 // 3)

ODD_TOKENS = (
    *b"> >>> >> >= <> <<< <<= <= === ==== != && || 0x 0X0 0x0 0xg 0x00000000000000000 0xFFFFFFFFFFFFFFFF".split(),
    *b"18446744073709551615 18446744073709551616 1a 1_ _ _1 a_ A 0b1 1.5 . ' \\ / % ? @ $ `".split(),
    b"= =", b"< <", b"0" * 31 + b"18446744073709551615", b"9" * 41, b'"0"', b'"0 1"', b'"0\n1"', b'"A"', b'"0', b'"_"', b'""',
    b'"0#"', b"#\xff\n5", b"\x0b", b"\x0c", b"\x00", b"\xa0", b"\xc3\xa9", b"\xef\xbb\xbf", b"\r", b"\t", b"\x7f",
)

FULL = b"""machine { word 32 ; address 8 ; size 64 ; causes on ; }
instr aa "0000000._xxxxxxxx_yyyyyyyy_zzzzzzzz" {
 let v = mem [ x ] ; mem [ y ] = ( v + 1:32 ) ; pc = x ; mode = ~ mode ; rel = cut ( cat ( x , y ) , 7 , 0 ) ;
 bound = ext ( 1:1 , 8 ) ; if ( x == y ) { trap ; } else { } if sel ( mode , 1:1 , 0:1 ) { pc = bound ; if 1:1 { } }
 mem [ pc ] = sext ( rel , 32 ) ; }
instr b "1..............................." { }
"""
"""A description with every form of statement and nearly every form of expression."""


def heads() -> list[Case]:
    """Heads with each width of words and addresses, near and far, causes on and off, and sizes at their edges."""
    return [printing(text.encode()) for text in (*_shapes(), *_sizes())]


def _shapes() -> Iterator[str]:
    widths = (*product(WORD_WIDTHS, ODD_ADDRESSES), *product(ODD_WORDS, (4, 5)))
    for (word, address), causes, least in product(widths, ("", "causes on ;"), (True, False)):
        size = 4 if least else 2 ** min(address, 62) - 1
        yield f"machine{{word {word};address {address};size {size};{causes}}}"


def _sizes() -> Iterator[str]:
    for address in range(4, 21):
        addresses = 2**address
        for size in (0, 1, 2, 3, 4, addresses - 2, addresses - 1, addresses, addresses + 1, 2**32 + 8, TOP):
            yield f"machine{{word 64;address {address};size {size};}}"


def counts() -> list[Case]:
    """Instructions, accesses, lets, statements and expressions, one below their limits, at them and over them."""
    texts = [*_instructions(), *_accesses(), *_lets(), *_statements(), *_expressions()]
    texts += [one(NINE_LOADS + b"trap; " * 200), one(b"let t = 0:1; " * 33 + b"trap; " * 200)]
    return [printing(text) for text in texts]


def _instructions() -> Iterator[bytes]:
    yield from map(many, (255, 256, 257, 300))
    yield from (many(257, {256: NINE_LOADS}), many(257, {3: NINE_LOADS}), many(300, {299: NINE_LOADS, 256: NINE_LOADS}))
    yield from (many(256, {255: NINE_LOADS}), many(257, {0: b"pc = z;"}))
    yield many(256).replace(b"n255 ", b"n0 ")
    yield many(257).replace(b"n255 ", b"n0 ")
    yield many(256).replace(b"011111111.......", b"011111110.......")


def _accesses() -> Iterator[bytes]:
    for count in (7, 8, 9):
        pairs, rest = count // 2, b"let t = mem[0:4];" * (count % 2)
        yield one(b"mem[0:4] = 0:16; " * count)
        yield one(b"if (mem[0:4] == 0:16) {} else {} " * count)
        yield one(b"pc = " + b"cut(mem[" * count + b"0:4" + b"], 3, 0)" * count + b";")
        yield one(b"if 0:1 { mem[0:4] = 0:16; } else { mem[0:4] = 0:16; } " * pairs + rest)
        yield one(b"mem[cut(mem[0:4],3,0)] = 0:16; " * pairs + rest)


def _lets() -> Iterator[bytes]:
    for count in (31, 32, 33, 34):
        yield one(b"let t = 0:1; " * count)
        for form in (b"let t%d = 0:1;", b"if 0:1 { let t%d = 0:1; }", b"if 0:1 { } else { let t%d = 0:1; }"):
            yield one(b"".join(form % i for i in range(count)))


def _statements() -> Iterator[bytes]:
    for count in (199, 200, 201, 202):
        yield one(b"trap; " * count)
        yield one(b"if 0:1 { trap; } " * (count // 2) + b"trap;" * (count % 2))
        yield one(b"if 0:1 { trap; } else { trap; }" * (count // 3) + b"trap;" * (count % 3))
        yield one(b"pc = 0:5; " + b"trap; " * (count - 1))


def _expressions() -> Iterator[bytes]:
    for count in (1022, 1023, 1024, 1025, 1026):
        yield one(b"pc = " + sums(count) + b";")
        yield one(b"pc = " + sums(count - 300) + b"; if 0:1 { } else { rel = " + sums(299) + b"; }")
        yield one(b"mem[" + sums(500) + b"] = ext(" + sums(count - 501) + b", 16);")


def widths() -> list[Case]:
    """Literals, joined, cut and widened values at the edges of widths, and names at the longest."""
    return [printing(text) for text in (*_literals(), *_joined(), *_cuts(), *_extended(), *_names())]


def _literals() -> Iterator[bytes]:
    pairs = [(0, 0), (0, 1), (1, 1), (2, 1), (2**63, 63), (2**63, 64), (TOP, 64), (TOP, 63), (0, 64), (0, 65), (0, TOP)]
    for value, width in [*pairs, (1, 2**32 + 1), (0, 256), (0, 257)]:
        yield one(b"let t = %d:%d;" % (value, width))
        yield one(b"let t = cut(%d:%d, 0, 0);" % (value, width))


def _joined() -> Iterator[bytes]:
    for upper, lower in product((1, 2, 32, 63, 64), (1, 2, 31, 32, 33, 63, 64)):
        yield one(b"let t = cat(0:%d, 0:%d);" % (upper, lower))


def _cuts() -> Iterator[bytes]:
    for width in EDGE_WIDTHS:
        for high in (0, 1, width - 1, width, 63, 64, 2**32, TOP):
            lows = sorted({0, 1, high, min(high + 1, TOP), max(high - 1, 0), TOP})
            yield from (one(b"let t = cut(0:%d, %d, %d);" % (width, high, low)) for low in lows)


def _extended() -> Iterator[bytes]:
    for width in EDGE_WIDTHS:
        for wider in (0, 1, width - 1, width, width + 1, 63, 64, 65, 256 + width, 2**32 + width, TOP):
            yield one(b"let t = ext(0:%d, %d);" % (width, wider))
            yield one(b"let t = sext(0:%d, %d);" % (width, wider))


def _names() -> Iterator[bytes]:
    for length in (31, 32, 33, 64):
        name = b"v" * length
        yield HEAD + b"instr " + name + b' "................" { }'
        yield one(b"let " + name + b" = 0:1; if " + name + b" { }")
        yield one(b"pc = " + name + b";")


def odd_tokens() -> list[Case]:
    """Odd signs, numbers, patterns and bytes in ten places each; and texts that are nearly empty."""
    places = [
        one(b"pc = (0:4 @ 0:4);"), one(b"pc = @;"), one(b"pc = 5:@;"), b"@" + HEAD, HEAD + b"@",
        b"machine { word @; address 4; size 8; }", HEAD + b"instr @ {}", HEAD + b"instr i @ {}",
        b"machine { word 16; ! ; @", b"machine machine @",
    ]
    texts = [place.replace(b"@", token) for place, token in product(places, ODD_TOKENS)]
    texts += [b"", b" ", b"#", b"\n\n", b"# \n#", HEAD[:-2] + b" # x\n  "]
    return [printing(text) for text in texts]


def replaced_tokens() -> list[Case]:
    """A full description with each token left out, replaced by each fragment, or with a fragment before it."""
    texts = []
    for (begin, end), fragment in product(token_spans(FULL), (b"", *FRAGMENTS)):
        texts.append(FULL[:begin] + fragment + FULL[end:])
        texts.append(FULL[:begin] + fragment + b" " + FULL[begin:])
    return [printing(text) for text in texts]


def fronts() -> list[Case]:
    """A full description, broken off at each byte, without and with a comment behind."""
    return [printing(FULL[:place] + more) for place in range(len(FULL) + 1) for more in (b"", b"  # c")]
