"""Reads the rows of pages: commands of a shell, each with what it writes and how it ends. `test` and `bench/tutorial` use it.

A row is a fenced block that begins with a line `$ COMMAND`. Below each command stand the lines of its standard output, then those of
its standard error behind `2> `, and then `[N]` where it ends with the status N. A block whose info string has two words, as
`isa m.isa`, is a file of that name with these lines. tests/README.md tells the form to people.
"""

import re
from typing import NamedTuple

FENCE = re.compile(r"^(```+)(.*)$")
STATUS = re.compile(r"\[(\d+)\]")
ERROR = "2>"

MARKS = ("slow", "unprivileged", "mount")
"""What a row's info string may say of it behind `console`."""


class Block(NamedTuple):
    """A fenced block of a page: the line of its fence, the words behind the fence, and what it holds."""

    line: int
    words: tuple
    lines: tuple

    def is_row(self):
        return bool(self.lines) and self.lines[0].startswith("$ ")


class Command(NamedTuple):
    """A command, the line that it stands in, and what is shown of it: standard output, standard error, and status, the last two
    None where nothing is shown of them."""

    line: int
    text: str
    out: tuple
    error: tuple | None
    status: int | None


class Row(NamedTuple):
    """A row of a page of tests: where it stands, the sentence above it, its marks, its files by name, and its commands."""

    page: str
    line: int
    sentence: str
    marks: frozenset
    files: dict
    commands: tuple


def paragraphs_and_blocks(path):
    """What a page holds, from above: a text for each paragraph and heading, and a Block for each fenced block."""
    fence, words, held, begun, said = None, (), [], 0, []
    for number, line in enumerate(path.read_text(encoding="utf-8").splitlines(), 1):
        found = FENCE.match(line)
        if fence and found and found[1] == fence and not found[2]:
            yield Block(begun, words, tuple(held))
            fence = None
        elif fence:
            held.append(line)
        elif found or not line.strip():
            yield from [" ".join(said)] if said else []
            said = []
            if found:
                fence, words, held, begun = found[1], tuple(found[2].split()), [], number
        else:
            said.append(line.strip())


def blocks(path):
    """The fenced blocks of a page."""
    return [it for it in paragraphs_and_blocks(path) if isinstance(it, Block)]


def command(line, text, shown):
    """A command with what is shown below it."""
    status = STATUS.fullmatch(shown[-1]) if shown else None
    shown = shown[:-1] if status else shown
    first = next((at for at, it in enumerate(shown) if is_error(it)), None)
    error = None if first is None else tuple(it[len(ERROR) + 1:] for it in shown[first:] if it != ERROR)
    return Command(line, text, tuple(shown[:first]), error, int(status[1]) if status else None)


def is_error(line):
    """Whether a line shows one of standard error's."""
    return line == ERROR or line.startswith(f"{ERROR} ")


def commands(block):
    """The commands of a block that is a row."""
    starts = [at for at, line in enumerate(block.lines) if line.startswith("$ ")]
    for at, end in zip(starts, [*starts[1:], len(block.lines)]):
        yield command(block.line + 1 + at, block.lines[at][2:], list(block.lines[at + 1:end]))


def rows(path):
    """The rows of a page of tests. A file stays for all rows below it, until another of its name."""
    files, sentence = {}, ""
    for it in paragraphs_and_blocks(path):
        if isinstance(it, str):
            sentence = it
        elif it.is_row():
            yield Row(path.stem, it.line, sentence, frozenset(it.words[1:]), dict(files), tuple(commands(it)))
        elif len(it.words) == 2:
            files[it.words[1]] = "".join(f"{line}\n" for line in it.lines)
