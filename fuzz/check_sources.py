#!/usr/bin/env python3
"""Sources beside what the model has to answer to `asm`, worked out by hand, and images beside what it has to answer to `disasm`.

With `--tries N`, so many random images are also written as sources, which have to give them again, and so many random sources as
images. Ends with 0 where all is so.
"""

import argparse
import sys
from collections import Counter
from random import Random

sys.dont_write_bytecode = True  # before the modules of this folder are read, so that it holds sources only

from inputs.descriptions import any_description
from inputs.guest_rows import MACHINE
from inputs.images import ImageWriter
from inputs.sources import SourceWriter
from pgvmodel.answers import Answer
from pgvmodel.command import answer
from pgvmodel.error_lines import missing, unreadable
from pgvmodel.faults import Fault
from pgvmodel.image import read_image
from pgvmodel.machine import Machine
from pgvmodel.questions import Questions
from pgvmodel.source import assembled, decoded, disassembled, listed, word_of
from pgvmodel.words import FORMS, usage

ALL = frozenset(FORMS)
USAGE = """pgv bare DESC IMAGE --grant G --steps N
pgv check DESC --cert FILE [--budget K]
pgv verify DESC CERT
pgv replay DESC CERT
pgv run DESC CERT IMAGE.. --grant G --steps N [--slice K]
pgv print DESC
pgv gen NUMBER SIZE --cert FILE
pgv migrate DESC CERT FILE
pgv hcheck DESC --cert FILE [--budget K]
pgv hybrid DESC CERT IMAGE.. --grant G --steps N [--slice K]
pgv nest DESC CERT IMAGE --grant G --steps N --depth D
pgv asm DESC SOURCE --grant G
pgv disasm DESC IMAGE --grant G
pgv save DESC CERT IMAGE FILE --grant G --steps N
pgv resume DESC CERT SAVED --steps N [--skip P]
"""
"""What is told of refused words where all commands are switched on."""

SIX = "@2\nlr l=4 b=8\n@7\nadd x=0 y=7 z=7\n@11\nword 00000005\n"
THREE = "2: 04000408\n7: 01000707\n11: 00000005\n"

WIDE = b"""machine { word 64; address 20; size 1048575; }
instr all "zzzzzzzzzzzzzzzzzzzzzzzzzzzzzzzzzzzzzzzzzzzzzzzzzzzzzzzzzzzzzzzz" { }
"""
SMALL = b"""machine { word 16; address 4; size 15; }
instr on "0..1_bbb_aaaa_0000_1" { }
instr halt "1111_1111_1111_1111" { }
instr long_name_of_thirty_two_letters_ "0..0_cccccccccccc" { }
"""

GIVEN = (
    # A line of each form, and spaces, tabs and carriage returns between the parts; the first place is 2.
    (MACHINE, SIX, THREE),
    (MACHINE, "top:\njmp a=top\n", "2: 02000002\n"),
    (MACHINE, "", ""),
    (MACHINE, "\n \t\r\n# only a comment \xff\n", ""),
    (MACHINE, " \tjmp\r  a=1\t\n", "2: 02000001\n"),
    (MACHINE, "jmp a=1", "2: 02000001\n"),
    (MACHINE, "jmp a=1#2\n", "2: 02000001\n"),
    (MACHINE, "jmp a=1 # a=2\nword 0000000a\n", "2: 02000001\n3: 0000000a\n"),
    (MACHINE, "svc\nsvc\n", "2: 03000000\n3: 03000000\n"),
    (MACHINE, "word ABCDEF12\nword abcdef12\n", "2: abcdef12\n3: abcdef12\n"),
    (MACHINE, "word 00000000\nsvc\n", "3: 03000000\n"),
    # Places go up and down, and have up to seven digits.
    (MACHINE, "@15\nsvc\n@0\nsvc\n@0000003\nsvc\n", "0: 03000000\n3: 03000000\n15: 03000000\n"),
    (MACHINE, "@9999999\n", ""),
    (MACHINE, "@16\nend:\n@2\njmp a=end\n", "2: 02000010\n"),
    (MACHINE, "@255\nend:\n@2\njmp a=end\n", "2: 020000ff\n"),
    # Labels are given before or behind their use, several at one place; a word of zero has a place too.
    (MACHINE, "jmp a=on\nword 00000000\non:\nnext:\nadd x=on y=next z=4\n", "2: 02000004\n4: 01040404\n"),
    (MACHINE, "jmp:\njmp a=jmp\n", "2: 02000002\n"),
    (MACHINE, "a:\njmp a=a\n", "2: 02000002\n"),
    # Values have any zeros before them.
    (MACHINE, "jmp a=255\njmp a=0000000000000000000000000000000000255\njmp a=0\n", "2: 020000ff\n3: 020000ff\n4: 02000000\n"),
    (WIDE, "all z=18446744073709551615\n", "2: ffffffffffffffff\n"),
    (SMALL, "on b=7 a=1\nhalt\nlong_name_of_thirty_two_letters_ c=4095\n", "2: 1e21\n3: ffff\n4: 0fff\n"),
)
"""A machine, a source of 16 cells (of 15 where the machine has no more), and the image that it gives."""

REFUSED = (
    # A byte that may not stand there, also before lines of no form; in a comment any may.
    ("jmp a=1,\n", "token 7"),
    ("# \xff\nsvc\xff\n", "token 7"),
    ("jmp a=0x1 ; \n", "token 10"),
    ("no form here\n-", "token 13"),
    ("\x0bsvc\n", "token 0"),
    ("svc\x00", "token 3"),
    # Lines of no form.
    ("top :\n", "grammar 1"),
    ("jmp a= 1\n", "grammar 1"),
    ("jmp a =1\n", "grammar 1"),
    ("jmp a=\n", "grammar 1"),
    ("jmp a\n", "grammar 1"),
    ("jmp =1\n", "grammar 1"),
    ("jmp a==1\n", "grammar 1"),
    ("jmp A=1\n", "grammar 1"),
    ("jmp ab=1\n", "grammar 1"),
    ("jmp a=0x1\n", "grammar 1"),
    ("jmp a=1a\n", "grammar 1"),
    ("jmp a=_1\n", "grammar 1"),
    ("jmp a=18446744073709551616\n", "grammar 1"),
    ("jmp a=mem\n", "grammar 1"),
    ("jmp a=word\n", "grammar 1"),
    ("jmp a=causes\n", "grammar 1"),
    (f"jmp a={'a' * 33}\n", "grammar 1"),
    (f"{'a' * 33}:\n", "grammar 1"),
    (f"{'a' * 33}\n", "grammar 1"),
    ("mem:\n", "grammar 1"),
    ("trap\n", "grammar 1"),
    ("word:\n", "grammar 1"),
    ("1top:\n", "grammar 1"),
    ("_top:\n", "grammar 1"),
    (":\n", "grammar 1"),
    ("top::\n", "grammar 1"),
    ("top: svc\n", "grammar 1"),
    ("top:svc\n", "grammar 1"),
    ("@\n", "grammar 1"),
    ("@ 3\n", "grammar 1"),
    ("@00000003\n", "grammar 1"),
    ("@0x3\n", "grammar 1"),
    ("@top\n", "grammar 1"),
    ("@3 svc\n", "grammar 1"),
    ("@3:\n", "grammar 1"),
    ("3\n", "grammar 1"),
    ("word\n", "grammar 1"),
    ("word 0000005\n", "grammar 1"),
    ("word 000000005\n", "grammar 1"),
    ("word 0000000g\n", "grammar 1"),
    ("word 00000005 00000005\n", "grammar 1"),
    ("word h=00000005\n", "grammar 1"),
    ("=\n", "grammar 1"),
    ("nothing\n\n#\n7\n", "grammar 4"),
    # Names, also such as are labels; and upper-case letters are others.
    ("nothing\n", "name 1"),
    ("Jmp a=1\n", "name 1"),
    ("top:\ntop\n", "name 2"),
    ("nothing a=nowhere\n", "name 1"),
    # Fields: one missing, one too many, another, doubled, in another order.
    ("jmp\n", "field 1"),
    ("svc a=1\n", "field 1"),
    ("jmp b=1\n", "field 1"),
    ("jmp a=1 a=1\n", "field 1"),
    ("add x=1 y=2\n", "field 1"),
    ("add x=1 z=2 y=3\n", "field 1"),
    ("add y=1 x=2 z=3\n", "field 1"),
    ("add x=1 y=2 z=3 x=1\n", "field 1"),
    ("jmp b=nowhere\n", "field 1"),
    ("jmp b=256\n", "field 1"),
    # Labels: used and not given; given twice, where the later line is at fault.
    ("jmp a=nowhere\n", "label 1"),
    ("top:\ntop:\n", "label 2"),
    ("jmp a=top\n\ntop:\nsvc\ntop:\n", "label 5"),
    ("top:\njmp a=Top\n", "label 2"),
    ("add x=256 y=nowhere z=1\n", "label 1"),
    # Ranges: of a number, and of a label's place; the first place of a label counts.
    ("jmp a=256\n", "range 1"),
    ("jmp a=18446744073709551615\n", "range 1"),
    ("@256\ntop:\n@2\njmp a=top\n", "range 4"),
    ("@256\ntop:\n@2\njmp a=top\ntop:\n", "range 4"),
    ("@9999999\ntop:\n@2\njmp a=top\n", "range 4"),
    ("@16\njmp a=256\n", "range 2"),
    # Places: at the size and past it; only words have one.
    ("@16\nsvc\n", "place 2"),
    ("@9999999\nword 00000000\n", "place 2"),
    ("@15\nsvc\nsvc\n", "place 3"),
    ("@16\nsvc\nsvc\n", "place 2"),
    # Cells that are given twice, also of zeros, and by the same word.
    ("svc\n@2\nsvc\n", "overlap 3"),
    ("word 00000000\n@2\nword 00000000\n", "overlap 3"),
    ("@3\nsvc\n@2\nsvc\nsvc\n", "overlap 5"),
    # The first line at fault, where none is without a form.
    ("jmp a=256\nnothing\n", "range 1"),
    ("nothing\njmp a=256\n", "name 1"),
    ("top:\ntop:\nnothing\n", "label 2"),
    ("nothing\ntop:\ntop:\n", "name 1"),
    ("jmp a=256\ntop:\n7\n", "grammar 3"),
    ("@16\nsvc\n@2\nsvc\n@2\nsvc\n", "place 2"),
    ("svc\n@2\nsvc\n@16\nsvc\n", "overlap 3"),
)
"""Sources of MACHINE with 16 cells, and how they are refused."""

DISASSEMBLED = (
    (MACHINE, THREE, SIX),
    (MACHINE, "", ""),
    (MACHINE, "0: 00000000\n", ""),
    # A free bit, a word of no pattern.
    (MACHINE, "2: 0200ff02\n", "@2\nword 0200ff02\n"),
    (MACHINE, "2: 02000002\n", "@2\njmp a=2\n"),
    (MACHINE, "15: ABCDEF12\n0: 03000000\n", "@0\nsvc\n@15\nword abcdef12\n"),
    (MACHINE, "1: 00020008\n3: 01ff00ff\n", "@1\nword 00020008\n@3\nadd x=255 y=0 z=255\n"),
    (WIDE, "0: ffffffffffffffff\n1: 0000000000000000\n2: 0000000000000001\n",
     "@0\nall z=18446744073709551615\n@2\nall z=1\n"),
    (SMALL, "2: 1e21\n3: ffff\n4: 0fff\n5: 3e21\n6: 7fff\n7: 1e23\n",
     "@2\non b=7 a=1\n@3\nhalt\n@4\nlong_name_of_thirty_two_letters_ c=4095\n@5\nword 3e21\n@6\nword 7fff\n@7\nword 1e23\n"),
)
"""A machine, an image of 16 cells or 15, and the source that it is."""

FILES = {"m": MACHINE, "s": SIX.encode(), "i": THREE.encode(), "bad": b"machine {", "e": b"", "long": b"#" * 1_048_576 + b"#"}
USED = Answer(3, USAGE.encode())

ASM_LINES = (
    ("m s --grant 16", Answer(0, THREE.encode())),
    ("m s --grant 12", Answer(0, THREE.encode())),
    ("m s --grant 11", Answer(12, b"source: place 6\n")),
    ("--grant=16 m s", Answer(0, THREE.encode())),
    ("m e --grant 2", Answer(0, b"")),
    ("m s", USED),
    ("m --grant 16", USED),
    ("m s s --grant 16", USED),
    ("m s --grant 16 --steps 0", USED),
    ("m s --grant 1", USED),
    ("m s --grant 1048576", USED),
    ("none none --grant 65", Answer(11, b"", missing("none"))),
    ("bad none --grant 65", Answer(4, b"description: grammar 9\n")),
    ("m none --grant 65", Answer(7, b"room 65 64\n")),
    ("m none --grant 64", Answer(11, b"", missing("none"))),
    ("m dir --grant 64", Answer(8, b"", unreadable("dir"))),
    ("m long --grant 64", Answer(12, b"source: long\n")),
    ("m i --grant 64", Answer(12, b"source: grammar 1\n")),
)
"""Words behind `asm`, and the answer."""

DISASM_LINES = (
    ("m i --grant 16", Answer(0, SIX.encode())),
    ("m i --grant 11", Answer(5, b"image 0: address 3\n")),
    ("m i", USED),
    ("m i --grant 16 --steps 0", USED),
    ("m none --grant 65", Answer(7, b"room 65 64\n")),
    ("m none --grant 64", Answer(11, b"", missing("none"))),
    ("m s --grant 64", Answer(5, b"image 0: token 0\n")),
)


def load(name: str) -> bytes:
    if name == "dir":
        raise IsADirectoryError
    if name not in FILES:
        raise FileNotFoundError
    return FILES[name]


def found(command: str, description: bytes, content: str) -> Answer:
    """The answer of a command with 16 cells, or as many as there are."""
    files = {"d": description, "f": content.encode("latin-1")}
    return answer((command, "d", "f", f"--grant={15 if description is SMALL else 16}"), files.__getitem__, Questions(), on=ALL)


def wrong_rows() -> list[str]:
    """Rows and lines that are answered otherwise."""
    rows = [("asm", machine, source, Answer(0, image.encode())) for machine, source, image in GIVEN]
    rows += [("asm", MACHINE, source, Answer(12, f"source: {line}\n".encode())) for source, line in REFUSED]
    rows += [("disasm", machine, image, Answer(0, source.encode())) for machine, image, source in DISASSEMBLED]
    wrong = [
        f"{command} of {content!r}: {found(command, machine, content)}, and not {due}"
        for command, machine, content, due in rows
        if found(command, machine, content) != due
    ]
    for command, lines in (("asm", ASM_LINES), ("disasm", DISASM_LINES)):
        for words, due in lines:
            told = answer((command, *words.split()), load, Questions(), on=ALL)
            if told != due:
                wrong.append(f"{command} {words}: {told}, and not {due}")
    return wrong + [f"{command} is switched off, and answers" for command in FORMS if not _is_refused(command)]


def _is_refused(command: str) -> bool:
    """Whether a command that is switched off is none, and is not told; all others are."""
    others = "".join(line for line in USAGE.splitlines(keepends=True) if not line.startswith(f"pgv {command} "))
    on = ALL - {command}
    return answer((command, "m", "s", "--grant", "16"), load, Questions(), on=on) == Answer(3, others.encode()) and usage(on) == others


def wrong_round_trips(count: int, counts: Counter[str]) -> list[str]:
    """Images that their source does not give again, words that are other ones, and sources whose image does not."""
    wrong = []
    for i in range(count):
        rng = Random(f"sources {i}")
        description = any_description(rng)
        size = min(description.size, rng.choice([2, 9, 40, 300]))
        cells = read_image(ImageWriter(rng, description, size).image(), description.word, size)
        if assembled(description, disassembled(description, cells).encode(), size) != cells:
            wrong.append(f"image {i}: its source is that of another one")
        if read_image(listed(description, cells).encode(), description.word, size) != cells:
            wrong.append(f"image {i}: it is listed as another one")
        machine = Machine(description)
        for word in cells:
            meaning = decoded(description, word)
            decoders = [decoder for decoder in machine.decoders if word & decoder.fixed == decoder.ones]
            if ([meaning[0]] if meaning else []) != [decoder.instruction for decoder in decoders]:
                wrong.append(f"image {i}: {word:x} means another instruction")
            if meaning and decoded(description, word_of(meaning[0].pattern, meaning[1])) != meaning:
                wrong.append(f"image {i}: {word:x} has other values")
        try:
            given = assembled(description, SourceWriter(rng, description, size).source(), size)
        except Fault as fault:
            wrong.append(f"source {i}: {fault.line}")
            continue
        if assembled(description, disassembled(description, given).encode(), size) != given:
            wrong.append(f"source {i}: written again it is another one")
        counts.update(cells=len(cells) - cells.count(0), given=len(given) - given.count(0))
    return wrong


def main() -> int:
    parser = argparse.ArgumentParser(description=__doc__, formatter_class=argparse.RawDescriptionHelpFormatter)
    parser.add_argument("--tries", type=int, default=300, metavar="N", help="random images and sources (default: %(default)s)")
    tries = parser.parse_args().tries
    counts: Counter[str] = Counter()
    wrong = [*wrong_rows(), *wrong_round_trips(tries, counts)]
    rows = len(GIVEN) + len(REFUSED) + len(DISASSEMBLED) + len(ASM_LINES) + len(DISASM_LINES)
    told_counts = ", ".join(f"{number} {name}" for name, number in counts.items())
    print("\n".join([*wrong, f"{rows} rows, {tries} tries with {told_counts}; {len(wrong)} wrong"]))
    return 1 if wrong else 0


if __name__ == "__main__":
    sys.exit(main())
