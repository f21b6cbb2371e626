"""Command lines of `asm`, `disasm`, `save`, `resume` and `nest`: shapes, numbers, which refusal is told, and random words."""

from collections.abc import Sequence
from itertools import product
from random import Random

from inputs import command_lines
from inputs.case import Case
from inputs.command_lines import NO_UTF_8, NUMBER_SPELLINGS, STRANGE_NAMES, TOO_LONG_TO_MODEL

FILES = {
    **command_lines.FILES,
    "s": b"@2\nlr l=4 b=8\ntop: # c\n@7\nadd x=0 y=top z=7\n",
    "bads": b"@2\nnothing\n",
    "tokens": b"7\n;\n",
    "far": b"@70\nsvc\n",
    "g": b"pgguest 1\nsteps 3\nsize 8\npsw s 3 0 8\n0: 00000006 00000000 01000404 02000002 00000003 00000000 00000000 00000000\nend\n",
    "badg": b"pgguest 2\n",
    "cutg": b"pgguest 1\nsteps 3\nsize 8\npsw s 3 0 8\n",
    "wideg": b"pgguest 1\nsteps 0\nsize 64\npsw s 2 0 64\nend\n",
    "allg": b"pgguest 1\nsteps 1000000000\nsize 62\npsw u 2 0 62\nend\n",
}
"""Files that lines name; `none`, `x` and `c` are not there."""

OPTIONS = {
    "G": ["--grant", "8"],
    "S": ["--steps", "2"],
    "D": ["--depth", "2"],
    "P": ["--skip", "5"],
}

TAKEN = {
    "asm": ("d s G", "x"),
    "disasm": ("d i G", "x"),
    "save": ("n v i x G S", "D"),
    "resume": ("n v g S P", "G"),
    "nest": ("n v i G S D", "P"),
}
"""For each command a line that is taken, and a word or an option that it does not take; here a letter stands for a whole option."""


def _case(words: Sequence[str]) -> Case:
    return Case(tuple(words), FILES)


def _filled(line: str) -> list[str]:
    return [part for word in line.split() for part in OPTIONS.get(word, [word])]


def shapes(commands: Sequence[str]) -> list[Case]:
    """Lines of these commands with words missing, doubled, misspelt, in other orders, and with others in place of each."""
    return [_case(line) for command in commands for line in _shapes(command)]


def _shapes(command: str) -> list[list[str]]:
    line, other = TAKEN[command]
    words = line.split()
    filled = _filled(line)
    lines = [filled, filled[::-1], [*filled, "--"], ["--", *filled], [*filled, "--", "--"], [*filled, "--help"], ["--help"]]
    lines += [["-h", *filled], ["help", *filled], [command, *filled], [*filled, "-x"], [*filled, ""], [*filled, NO_UTF_8], []]
    lines += [_filled(" ".join([*words, other])), _filled(" ".join([other, *words]))]
    for i, word in enumerate(words):
        rests = [[], [word, word], [word, "-"], ["-"], [other], [NO_UTF_8], ["none"], ["dir"], ["-x"], ["--"], ["z"], ["n"]]
        lines += [_filled(" ".join([*words[:i], *rest, *words[i + 1 :]])) for rest in rests]
        lines += [_filled(" ".join([*words[:i], *words[i + 1 :], word])), _filled(" ".join([word, *words[:i], *words[i + 1 :]]))]
        if word in OPTIONS:
            name, value = OPTIONS[word]
            spelled = [[f"{name}={value}"], [f"{name}="], [name], [f"{name}:{value}"], [name, "=", value], [name[1:], value]]
            spelled += [[name.capitalize(), value], [name[:-1], value], [f"{name}s", value], [name, f"+{value}"], [name, value, "9"]]
            spelled += [[f"{name}={value}", f"{name}={value}"], [f"{name}={value}{NO_UTF_8}"], [name, "--", value]]
            lines += [[*_filled(" ".join(words[:i])), *one, *_filled(" ".join(words[i + 1 :]))] for one in spelled]
        else:
            files = ["", "./n", "n/", "n/x", "none/x", "dir/x", "/dev/null", "a b", *STRANGE_NAMES]
            if word == "x":
                files.remove("/dev/null")
            lines += [[*_filled(" ".join(words[:i])), file, *_filled(" ".join(words[i + 1 :]))] for file in files]
    spelled = (command.upper(), command.capitalize(), command[:-1], f"{command}s", f"{command} ", f"--{command}", f"{command}=")
    return [*([command, *one] for one in lines), *([word, *filled] for word in spelled)]


def numbers(commands: Sequence[str]) -> list[Case]:
    """Each spelling as each number of these commands, as a word of its own and joined by `=`."""
    lines = []
    for command in commands:
        words = TAKEN[command][0].split()
        for word, spelling in product(words, NUMBER_SPELLINGS):
            if word in OPTIONS and not (word == "S" and spelling in TOO_LONG_TO_MODEL):
                name = OPTIONS[word][0]
                rest = _filled(" ".join(other for other in words if other != word))
                lines += [[command, *rest, name, spelling], [command, f"{name}={spelling}", *rest]]
    return [_case(line) for line in lines]


DESCRIPTIONS = ("d", "n", "t", "bad", "none", "dir", "empty", "shape", "d/", "")
CERTIFICATES = ("v", "tv", "badv", "none", "dir", "empty", "")
IMAGES = ("i", "z", "badi", "over", "twoi", "none", "dir", "")
PLACES = ("x", "none/x", "dir", "dir/x", "n", "v", "i", "./x", "")


def asm_refusals() -> list[Case]:
    """Descriptions, rooms and sources or images that are fine or not."""
    sources = ("s", "bads", "tokens", "far", "i", "z", "none", "dir", "d/x", "")
    lines = [["asm", f"--grant={grant}", "--", *files] for *files, grant in product(DESCRIPTIONS, sources, (2, 8, 64, 65, 1048575))]
    lines += [["disasm", f"--grant={grant}", "--", *files] for *files, grant in product(DESCRIPTIONS, (*IMAGES, "s"), (2, 8, 64, 65))]
    return [_case(line) for line in lines]


def save_refusals() -> list[Case]:
    """Of `save` descriptions, rooms, images, certificates and places; of `resume` saved guests before rooms."""
    lines = []
    for *files, grant in product(("n", "t", "d", "bad", "none"), CERTIFICATES, ("i", "z", "badi", "none"), ("x", "none/x", "v"), (8, 63)):
        lines.append(["save", "--steps=2", f"--grant={grant}", "--", *files])
    for place, description in product(PLACES, (("n", "v"), ("t", "tv"), ("n", "badv"))):
        lines.append(["save", "--steps=2", "--grant=8", "--", *description, "i", place])
    guests = ("g", "badg", "cutg", "wideg", "allg", "z", "i", "none", "dir", "d/x", "")
    for *files, skip in product(DESCRIPTIONS, CERTIFICATES, guests, (0, 1, 54, 55)):
        lines.append(["resume", "--steps=2", f"--skip={skip}", "--", *files])
    return [_case(line) for line in lines]


def nest_refusals() -> list[Case]:
    """Descriptions, rooms at each depth, images and certificates."""
    lines = []
    for *files, grant, depth in product(DESCRIPTIONS, CERTIFICATES, IMAGES, (8, 57, 63), (1, 4)):
        lines.append(["nest", "--steps=2", f"--grant={grant}", f"--depth={depth}", "--", *files])
    for depth, grant in product((0, 1, 2, 3, 4, 5), range(54, 66)):
        lines.append(["nest", "n", "v", "z", "--steps=2", f"--grant={grant}", f"--depth={depth}"])
    lines += [["nest", "shape", "v", "z", "--steps=2", "--grant=2", f"--depth={depth}"] for depth in range(6)]
    return [_case(line) for line in lines]


POOL = (
    *("d", "n", "v", "i", "s", "g", "z", "t", "tv", "none", "dir", "bads", "badg", "x", "-", "--", "", "-x", "--help", "8", "2", "64", "65"),
    *("--grant", "--steps", "--depth", "--skip", "--slice", "--cert", "--budget", "--grant=8", "--steps=1", "--depth=3", "--skip=1"),
    *("--grant=63", "--depth=5", "--depth=0", "--skip=54", "--skip=-1", "--slice=1", "asm", "resume", "nest"),
)


def random_line(commands: Sequence[str], rng: Random) -> Case:
    """A line of one of these commands that is taken, with up to three edits."""
    command = rng.choice(commands)
    words = _filled(TAKEN[command][0])
    for _ in range(rng.choice([0, 1, 1, 2, 3])):
        i, k = rng.randint(0, len(words)), rng.randint(0, len(words))
        kind = rng.choices(["insert", "drop", "replace", "move"], [40, 20, 20, 20])[0]
        new = [rng.choice(POOL)] if kind in ("insert", "replace") else []
        moved = words[i : i + 1] if kind == "move" else []
        words = [*words[:i], *new, *words[i + (kind != "insert") :]]
        words = [*words[:k], *moved, *words[k:]] if moved else words
    return _case([command, *words])
