"""Command lines over a few small files: shapes of lines, spellings of numbers, orders of refusals, random words."""

from itertools import product
from random import Random

from inputs.case import Case
from inputs.certificates import all_shown
from pgvmodel.tokens import NUMBERS
from pgvmodel.words import MOST_IMAGES

SMALL = b"""machine { word 32; address 8; size 64; }
instr add "00000001_xxxxxxxx_yyyyyyyy_zzzzzzzz" { mem[x] = (mem[y] + mem[z]); }
instr jmp "00000010_................_aaaaaaaa" { pc = a; }
instr svc "00000011_........................" { trap; }
instr lr  "00000100_........_llllllll_bbbbbbbb" { if mode { trap; } rel = l; bound = b; }
"""
OPEN = SMALL + b'instr sm "00000110_................_aaaaaaaa" { pc = rel; }'

TOLD, TOLD_CERTIFICATE = all_shown()
"""A machine that is refused, and a certificate that says so without a log."""

FILES = {
    "d": SMALL,
    "i": b"1: 00000705\n7: 01000000\n",
    "n": b"machine { word 32; address 8; size 64; }",
    "v": b"pgcert 1\nend\n",
    "t": TOLD,
    "tv": TOLD_CERTIFICATE,
    "z": b"",
    "badv": b"pgcert 3\nend\n",
    "bad": b"machine {",
    "badi": b"2: 00\n",
    "empty": b"",
    "open": OPEN,
    "shape": b"machine { word 16; address 6; size 8; }",
    "over": b"70: 00000001",
    "twoi": b"2: 00000001\n2: 00000001\n",
    "dir/": b"",
    **dict.fromkeys(("8", "bare", "print", "help", "-", "-x", "--", "a b"), SMALL),
}
"""Files that lines name; `none`, `x` and `c` are not there."""

GRANT, STEPS, SLICE = ["--grant", "8"], ["--steps", "2"], ["--slice", "3"]
BOTH = GRANT + STEPS
CERT, BUDGET = ["--cert", "x"], ["--budget", "5"]

NUMBER_SPELLINGS = (
    "0", "1", "2", "3", "8", "62", "63", "64", "65", "08", "0000000000000000000000000000000008", "+8", "+08", "++8",
    "+-8", "-8", "-0", "+0", "", " ", " 8", "8 ", "8.0", "8e0", "0x8", "1_0", "1,000", "a", "-", "--", "+", "1000000",
    "1000001", "01000000", "1048575", "1048576", "65535", "65536", "4294967295", "4294967296", "4294967304",
    str(NUMBERS - 1), str(NUMBERS), str(NUMBERS + 8), "9223372036854775807", "9223372036854775808", "9" * 32,
    "-9223372036854775808", "\u0668", "\uff18", "8\n", "\t8", "8=", "=8", "8 0", "\u221e", "NaN", "true",
)
TOO_LONG_TO_MODEL = ("1000000", "01000000", "65535", "65536")
"""Counts of steps that are taken, and that the model takes long for."""

STRANGE_NAMES = (
    "d\n", "\td", "\x01\x1f\x7f", "\x80", "n" * 4095, "n" * 4096, "n" * 4097, "\u00e9" * 2048, "n" + "\u00e9" * 2048,
)
"""Names of no file, with control characters, and near the length to which a name is told."""

PRINT_FILES = (
    "d", "bad", "empty", "shape", "none", "dir", "a b", "./d", "d/", "d/x", "none/x", "n" * 300, "n" * 5000, "", "-", "8",
    "print", "bare", "d\u00e9", "/dev/null", *STRANGE_NAMES,
)

NO_UTF_8 = "\udcff"
"""A byte that is no UTF-8, as Python has it in a word."""

SHORT_LINES = (
    "", "help", "--help", "-h", "-V", "--version", "bare", "run", "print", "bare --help", "bare -h", "help bare", "bare help",
    "print help", "print --help", "print -h", "print -V", "print d i", "print -- d", "print d --", "print -- --",
    "print -- -x", "print -x", "print -- -", "print d --grant 8", "print d --steps=3", "print --grant=8 d", "Print d",
    "PRINT d", "pri d", "b d", "bar d i --grant 8 --steps 0", "bares d i --grant 8 --steps 0", "check d", "-- print d",
    "--grant 8 bare d i --steps 0", "print=d", "d", "- d",
)

VERIFY_LINES = (
    "", "n", "n v", "n v v", "d v", "n badv", "v n", "-- n v", "n -- v", "n v --", "n v -- --", "-- -- n v", "n v --grant 8",
    "n v --grant=8 --steps=2", "n v --steps=2", "--steps=2 n v", "n v --cert v", "n --cert v", "n --cert=v", "n v --budget 1",
    "--help", "n v --help", "n v -h", "help", "help n v", "-x v", "-- -x v", "n -x", "n -", "- v", "n -v", "n v -V", "n v i",
    "verify v", "n verify", "n none", "none v", "none none", "n dir", "n ./v", "n v/", "n v/x", "n /dev/null", "n empty",
    "bad badv", "d none", "bad none", "n n", "n i", "8 v",
)
"""Lines behind `verify` and `replay`."""

MIGRATE_LINES = (
    "", "n", "n v", "n v x", "n v x y", "-- n v x", "n -- v x", "n v -- x", "n v x --", "n v x -- --", "-- -- n v x",
    "n v -x", "n v -- -x", "n v -", "n v --", "n v --cert x", "n v --cert=x", "n v x --cert y", "n v x --budget 5",
    "n v x --grant 8", "n v x --steps=2", "n v x --help", "--help n v x", "help n v x", "n v x -h", "n v dir", "n v dir/x",
    "n v dir/", "n v none/x", "n v d/x", "n v x/", "n v ./x", "n v dir/../x", "n v .", "n v ..", "n v v", "n v n", "n v i",
    "n badv x", "n badv dir", "n none x", "n none dir", "none v x", "none none dir", "none badv none/x", "bad v x",
    "bad badv dir", "bad none x", "n dir x", "n dir dir", "dir v x", "n empty x", "n i x", "n n x", "d v x", "d v dir",
    "v n x", "8 v x", "n v/ x", "n v/x x", "n v 8", "n /dev/null x", "migrate n v",
)
"""Lines behind `migrate`."""

BARE_LINES = (
    "d i", "d G S", "G S", "d i G", "d i S", "d i x G S", "d i G G S", "d i G S S", "d i --grant 8 --grant=8 S", "d G i S",
    "G d S i", "S G d i", "S d G i", "G S -- d i", "-- d i G S", "G -- S d i", "d -- i G S", "d G S -- i", "d i G S --",
    "d i G S -- --", "d G S -- --", "-- -- i G S", "G S -- -- i", "G S -- -x i", "G S -x i", "G S - i", "G S i -",
    "d i -grant 8 S", "d i --Grant 8 S", "d i --gran 8 S", "d i --grants 8 S", "d i -g 8 S", "d i -g8 S", "d i --grant:8 S",
    "d i --grant =8 S", "d i --grant= 8 S", "d i --grant --steps 3 8", "d i --grant S", "d i S --grant", "d i S --grant=",
    "d i --=8 G S", "d i -- --grant 8 S", "d i --- G S", "d i - G S", "help i G S", "bare i G S", "8 i G S", "d 8 G S",
    "d i --help G S", "d i -h G S", "d i --slice 1 G S", "d i i G S", "d i --grant=8 --steps=2", "d i --grant=+8 --steps=+2",
    "d i --grant +8 --steps +02", "--grant=8 d --steps=2 i", "--steps=2 d --grant=8 -- i", "d i --grant 8 9 S",
    "d --grant 8 9 --steps 1", 'd i --grant="8" S', "d i --grant=8,9 S",
)
"""Lines behind `bare`; G and S stand for a whole option of each kind. Behind `run` another file stands before the image i."""

RUN_LINES = (
    "n v G S", "n G S", "n i G S", "n i v G S", "v n i G S", "n v i v G S", "n v i i G S", "n v i z G S", "n v z i z G S",
    "n v G i S z", "G n S v i z", "i n v G S", "n v i -- z G S", "G S -- n v i z", "n v -- i z --grant 8 S", "n v i L G S",
    "L n v i G S", "n v G S L i z", "n v i G S L L", "n v i G S L --slice=3", "n v i G S --slice", "n v i G S --slice=",
    "n v i --slice G S", "n v i G S --slice 3 4", "n v i G S --slice=3 z", "n v i G S --slice= 3", "n v i G S --slice =3",
    "n v i G S --slices 3", "n v i G S --Slice 3", "n v i G S --slic 3", "n v i G S -s 3", "n v i G S -slice 3",
    "n v i G S --slice:3", "n v i G S --slice -1", "n v i G S --slice=-1", "n v i G S --slice 0", "n v i G S --slice=+3",
    "n v i G S --slice 1000000", "n v i G S --slice 1000001", "n v i G S --slice 2 --grant 8", "n v i G L", "n v i S L",
    "n v i L", "n v L G S", "n v i G S --budget 5", "n v i G S --cert v", "n --cert v i G S", "n --cert=v i G S", "t tv z G S",
    "t tv badi G S", "t v i G S", "n tv i G S", "t badv i G S", "d v i G S", "d v z --grant 2 --steps 0", "n v n G S",
    "n v v G S", "n v - G S", "n - i G S", "n v /dev/null G S", "n v ./i i G S", "n v i none G S", "n v none badi G S",
    "n v badi none G S", "n none i i G S", "n none badi G S", "n v dir none G S", "n v i --steps 0 G", "run n v i G S",
    "n v i G S --help", "help n v i G S", "n v i -x G S", "n v i G S -- -x", "n v z G --steps 60", "n v i i L S G",
)
"""Lines behind `run`; L stands for a whole option too."""

CHECK_LINES = (
    "d C", "C d", "d", "C", "", "d C C", "d d C", "d C K", "K d C", "C K d", "d K", "d C K K", "d --cert", "d --cert=",
    "d --cert x y", "d --cert=x", "d --cert --budget 5", "d --cert -- x", "-- d C", "C -- d", "C -- -x", "d -- C",
    "d C -- K", "d --cert -x", "d --cert=-x", "d --cert=--budget", "d --cert -", "d --cert=-", "d --cert --",
    "d --cert K", "d --cert=a=b", "d --cert==", "d --cert 5", "d --cert=x --budget=5", "d --budget 5 --cert x",
    "d --cert x --budget", "d --cert x --budget=", "d --cert x --budget x", "d C --budget -1", "d C --grant 8",
    "d C --steps 3", "d -cert x", "d --Cert x", "d --cer x", "d --certs x", "d -c x", "d -cx", "d --cert:x",
    "d C --budgets 5", "d C -b 5", "d C --help", "d C -h", "help C", "d C --slice 1", "none C", "dir C", "bad C",
    "empty C", "shape C", "d/ C", "d/x C", "none --cert dir", "bad --cert dir", "d --cert dir", "d --cert dir/x",
    "d --cert dir/", "d --cert none/x", "d --cert d/x", "d --cert x/", "d --cert ./x", "d --cert dir/../x",
    "d --cert ..", "d --cert .", "d --cert d", "n --cert n", "d --cert v", "n --cert v", "n C", "open C", "n C K",
    "bad --cert bad", "none --cert none", "none --cert d", "dir --cert d", "bad --cert d", "n --cert dir K",
    "n --cert=n K",
)
"""Lines behind `check` and `hcheck`; C and K stand for a whole option each."""

GEN_LINES = (
    "", "2", "2 1", "2 1 C", "C 2 1", "2 C 1", "2 C", "C", "1 2 3 C", "2 1 C C", "2 1 C K", "2 1 --cert", "2 1 --cert=",
    "2 1 --cert x y", "2 1 --cert=x", "2 --cert 1 x", "-- 2 1 C", "C -- 2 1", "2 C -- 1", "2 -- C 1", "-- C 2 1", "2 1 -- C",
    "2 -1 C", "-2 1 C", "C -- -2 1", "2 1 --cert -x", "2 1 --cert=-x", "2 1 --cert -", "2 1 --cert --", "2 - C", "- 1 C",
    "2 1 --Cert x", "2 1 --cer x", "2 1 -c x", "2 1 -cert x", "2 1 --cert:x", "2 1 C --help", "2 1 C -h", "help 2 1 C",
    "2 1 C --grant 8", "2 1 C --slice 1", "2 1 C --steps=3", "2 1 C --number 2", "2 --size 1 C", "--number=2 1 C", "gen 2 1 C",
    "2 d C", "d 1 C", "d C", "n v C", "2 1 --cert dir", "2 1 --cert dir/x", "2 1 --cert dir/", "2 1 --cert none/x",
    "2 1 --cert d/x", "2 1 --cert x/", "2 1 --cert ./x", "2 1 --cert dir/../x", "2 1 --cert ..", "2 1 --cert .",
    "2 1 --cert d", "2 1 --cert v", "2 61 --cert dir", "2 0 --cert none/x", "2 x --cert dir", "2 1 --cert 2", "0 1 C", "3 2 C",
)
"""Lines behind `gen`; C and K stand for a whole option each."""

POOL = (
    "bare", "run", "print", "verify", "d", "i", "n", "v", "badv", "none", "open", "--grant", "--steps", "8", "2", "--grant=8",
    "--steps=3", "--grant=+9", "--steps=0", "--", "-", "", "--help", "-h", "x", "--grant=65", "+1", "63", "-1", "--slice=1",
    "help", "bad", "badi", "dir", "check", "--cert", "--cert=x", "--budget", "--budget=5", "x", "replay", "migrate", "hcheck",
    "--slice", "--slice=5", "--slice=0", "z", "t", "tv", "gen", "1", "0",
)


def _case(words: list[str]) -> Case:
    return Case(tuple(words), FILES)


def shapes() -> list[Case]:
    """Lines with words missing, doubled, misspelt and in other orders."""
    lines = [[], [""], ["", "print", "d"], *(line.split() for line in SHORT_LINES)]
    lines += [["print", name] for name in PRINT_FILES]
    lines += [line for command in ("verify", "replay") for line in _verify_shapes(command)]
    lines += [line for command in ("check", "hcheck") for line in _check_shapes(command)]
    lines += [*_migrate_shapes(), *_gen_shapes()]
    lines += [[word, "n", *CERT] for word in ("Check", "chec", "checks", "CHECK", "check ", "--check", "bare", "print", "run")]
    lines += [[word, "n", *CERT] for word in ("Hcheck", "hchec", "hchecks", "h-check", "hcheck ", "--hcheck", "hybrid")]
    lines += [[word, "n", *CERT] for word in ("verify", "replay", "migrate")]
    lines += [[word, "n", "v"] for word in ("Verify", "verif", "verifys", "VERIFY", "verify ", "--verify", "check", "hcheck")]
    lines += [[word, "n", "v"] for word in ("Replay", "repla", "replays", "REPLAY", "replay ", "--replay")]
    lines += [[word, "2", "1", *CERT] for word in ("Gen", "ge", "gene", "generate", "gen ", "--gen", "check", "print", "run")]
    lines += [[word, "n", "v", "x"] for word in ("Migrate", "migrat", "migrates", "--migrate", "verify", "replay", "check")]
    lines += [*_bare_shapes(), *_run_shapes()]
    lines += [["print", f"d{NO_UTF_8}"], [NO_UTF_8, "d"], ["print", "--", NO_UTF_8]]
    return [_case(line) for line in lines]


def _bare_shapes() -> list[list[str]]:
    lines = [_filled(line) for line in BARE_LINES]
    lines += [[*files, *BOTH] for files in (["", ""], ["d", ""], ["", "i"], ["d", "/dev/null"])]
    lines += [["d", "i", f"--{option}", *STEPS] for option in (f"grant=8{NO_UTF_8}", f"{NO_UTF_8}=8")]
    return [["bare", *line] for line in lines]


def _run_shapes() -> list[list[str]]:
    """The lines of `run`, and those of `bare` with a certificate; and images of any number, around the most and the room."""
    lines = [_filled(line) for line in RUN_LINES]
    for more in ("v i", "i", "i z"):
        lines += [_filled(" ".join({"i": more, "d": "n"}.get(word, word) for word in line.split())) for line in BARE_LINES]
    lines += [[*files, *BOTH] for files in (["", "v", "i"], ["n", "", "i"], ["n", "v", ""], ["n", "v", "i", ""], ["", "", ""])]
    lines += [["n", "v", "i", *BOTH, f"--{option}"] for option in (f"slice=3{NO_UTF_8}", f"{NO_UTF_8}=3", f"slice{NO_UTF_8}=3")]
    lines += [["n", "v", f"i{NO_UTF_8}", *BOTH], ["n", f"v{NO_UTF_8}", "i", *BOTH], ["n", "v", "i", NO_UTF_8, *BOTH]]
    for name in STRANGE_NAMES:
        lines += [[name, "v", "i", *BOTH], ["n", name, "i", *BOTH], ["n", "v", "i", name, *BOTH]]
    for count, grant in product((0, 1, 2, 6, MOST_IMAGES - 1, MOST_IMAGES, MOST_IMAGES + 1, 20), ("7", "8", "9", "10")):
        lines += [["n", "v", *images, f"--grant={grant}", *STEPS] for images in (["z"] * count, ["z"] * (count - 1) + ["i"])]
    return [["run", *line] for line in lines]


def _verify_shapes(command: str) -> list[list[str]]:
    lines = [[command, *line.split()] for line in VERIFY_LINES]
    return lines + [[command, *files] for files in (["", ""], ["n", ""], ["", "v"], [f"n{NO_UTF_8}", "v"], ["n", NO_UTF_8])]


def _check_shapes(command: str) -> list[list[str]]:
    rests = [["", *CERT], ["n", "--cert", ""], ["n", "--cert", "n" * 300]]
    rests += [[f"n{NO_UTF_8}", *CERT], ["n", "--cert", NO_UTF_8], ["n", f"--cert=x{NO_UTF_8}"]]
    rests += [["n", "--cert", "d\u00e9"], ["n", "--cert", "a b c"], ["n", "--cert=", *BUDGET]]
    return [[command, *rest] for rest in (*map(_filled, CHECK_LINES), *rests)]


def _migrate_shapes() -> list[list[str]]:
    lines = [line.split() for line in MIGRATE_LINES]
    lines += [["n", "v", name] for name in ("", "n" * 300, "d\u00e9", "a b c", f"x{NO_UTF_8}", NO_UTF_8)]
    lines += [["n", "", "x"], ["", "v", "x"], ["", "", ""], [f"n{NO_UTF_8}", "v", "x"], ["n", f"v{NO_UTF_8}", "x"]]
    return [["migrate", *line] for line in lines]


def _gen_shapes() -> list[list[str]]:
    rests = [["", "1", *CERT], ["2", "", *CERT], ["2", "1", "--cert", ""], ["2", "1", "--cert", "n" * 300]]
    rests += [[f"2{NO_UTF_8}", "1", *CERT], ["2", f"1{NO_UTF_8}", *CERT], ["2", "1", f"--cert=x{NO_UTF_8}"]]
    rests += [["2", "1", "--cert", name] for name in ("d\u00e9", "a b c", "x\ny")]
    return [["gen", *rest] for rest in (*map(_filled, GEN_LINES), *rests)]


def _filled(line: str) -> list[str]:
    """The words of one of BARE_LINES, RUN_LINES, CHECK_LINES or GEN_LINES."""
    options = {"G": GRANT, "S": STEPS, "L": SLICE, "C": CERT, "K": BUDGET}
    return [part for word in line.split() for part in options.get(word, [word])]


def numbers() -> list[Case]:
    """Each spelling as each number of a command, as a word of its own and joined by `=`, behind the files and before."""
    lines = []
    for (command, *files), spelling in product((["bare", "d", "i"], ["run", "n", "v", "i"]), NUMBER_SPELLINGS):
        options = [["--grant", spelling, *STEPS], [f"--grant={spelling}", *STEPS]]
        if spelling not in TOO_LONG_TO_MODEL:
            options += [[*GRANT, "--steps", spelling], [*GRANT, f"--steps={spelling}"]]
        if command == "run":
            options += [[*BOTH, "--slice", spelling], [*BOTH, f"--slice={spelling}"]]
        for option in options:
            lines += [[command, *files, *option], [command, *option, *files]]
    for spelling in NUMBER_SPELLINGS:
        for command in ("check", "hcheck"):
            lines += [[command, "n", *CERT, "--budget", spelling], [command, f"--budget={spelling}", "n", *CERT]]
        lines += [["gen", *words, *CERT] for words in ([spelling, "1"], ["2", spelling], ["--", spelling, "1"])]
        lines += [["gen", *CERT, *words] for words in ([spelling, "1"], ["--", "2", spelling])]
    return [_case(line) for line in lines]


IMAGES_OF_GUESTS = ("i", "z", "none", "badi", "dir", "over", "z i", "i badi", "none badi", "badi none", "i z twoi", "i/ i z")


def refusals() -> list[Case]:
    """Files that are fine, broken, absent or no files, with grants around the room: which is told first."""
    descriptions = ("d", "bad", "none", "dir", "empty", "open", "shape", "-", "d/", "d/x", "")
    images = ("i", "badi", "none", "dir", "over", "empty", "twoi", "d", "i/", "")
    grants = (2, 3, 7, 8, 62, 63, 64, 65, 1048575)
    lines = []
    for description, image, grant, steps in product(descriptions, images, grants, (0, 3)):
        lines.append(["bare", "--grant", str(grant), "--steps", str(steps), "--", description, image])
    certificates = ("v", "badv", "none", "dir", "empty", "i", "d", "v/", "v/x", "")
    for description, certificate in product(("n", "t", *descriptions), (*certificates, "tv")):
        for images, grant in product(IMAGES_OF_GUESTS, (8, 31, 63)):
            lines.append(["run", "--steps=3", f"--grant={grant}", "--", description, certificate, *images.split()])
    lines += [[command, "--", *files] for command, *files in product(("verify", "replay"), ("n", *descriptions), certificates)]
    places = ("x", "none/x", "dir", "dir/x", "d/x", "d", "")
    for command, description, place in product(("check", "hcheck"), ("n", *descriptions), places):
        lines.append([command, f"--cert={place}", "--", description])
    lines += [["migrate", "--", *files] for files in product(("n", *descriptions), certificates, places)]
    lines += [["gen", f"--cert={place}", "2", size] for place, size in product(places, ("1", "0", "61", "d"))]
    return [_case(line) for line in lines]


FILES_ALONE = {"print": ["d"], "verify": ["n", "v"], "replay": ["n", "v"], "migrate": ["n", "v", "x"]}
"""What commands without an option take."""


def random_line(rng: Random) -> Case:
    """A line that is taken, with up to three edits."""
    command = rng.choice(["bare", "run", "hybrid", "print", "verify", "check", "replay", "migrate", "hcheck", "gen"])
    files = ["n", "v", "i", *["z"] * rng.choice([0, 0, 1, 6])] if command in ("run", "hybrid") else ["d", "i"]
    words = [*files, "--grant=8", "--steps=3"] if rng.random() < 0.5 else [*files, *BOTH]
    if command in ("run", "hybrid") and rng.random() < 0.5:
        words += rng.choice([SLICE, ["--slice=5"]])
    if command in FILES_ALONE and rng.random() < 0.7:
        words = FILES_ALONE[command]
    if command in ("check", "hcheck") and rng.random() < 0.9:
        words = ["n", *CERT, *rng.choice([[], BUDGET, ["--budget=7"]])]
    if command == "gen" and rng.random() < 0.9:
        words = [*rng.choice([["2", "1"], ["0", "+1"]]), *CERT]
    for _ in range(rng.choice([0, 1, 1, 2, 3])):
        words = _edited(rng, words)
    return _case([command, *words] if rng.random() < 0.95 else words)


def _edited(rng: Random, words: list[str]) -> list[str]:
    i, k = rng.randint(0, len(words)), rng.randint(0, len(words))
    kind = rng.choices(["insert", "drop", "replace", "move"], [40, 20, 20, 20])[0]
    if kind == "insert":
        return [*words[:i], rng.choice(POOL), *words[i:]]
    if kind == "drop":
        return [*words[:i], *words[i + 1 :]]
    if kind == "replace":
        return [*words[:i], rng.choice(POOL), *words[i + 1 :]]
    left = [*words[:i], *words[i + 1 :]]
    return [*left[:k], *words[i : i + 1], *left[k:]]
