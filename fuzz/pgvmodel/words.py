"""The commands, which of them are switched on, and what the words of a command line ask for."""

import re
from collections.abc import Collection, Mapping, Sequence
from dataclasses import dataclass, field
from typing import NamedTuple

from pgvmodel.tokens import NUMBERS

RANGES = {
    "grant": range(2, 1_048_576),
    "steps": range(0, 1_000_001),
    "slice": range(1, 1_000_001),
    "depth": range(1, 5),
    "skip": range(0, 1_048_576),
    "budget": range(1, 1_000_001),
    "number": range(NUMBERS),
    "size": range(1, 61),
}
"""What each number may be: cells, steps of a machine, turns of a guest, monitors one above the other, cells before a guest, and
steps of a search, behind options of these names; and of `gen`, whose words they are, that from which all is made, and how many
instructions."""

BUDGET = 20_000
"""Steps of a search where `check` or `hcheck` is not told how many."""

SLICE = 1_000
"""Turns that a guest has before the next one where `run` is not told how many."""

MOST_IMAGES = 8
"""Guests that `run` takes."""

SKIP = 0
"""Cells before the guest of `resume` where it is not told how many."""


@dataclass(frozen=True)
class Form:
    """How many files a command names, the options that it wants, each once, and those that may be left out.

    So many more files may follow as `more_files` says. Where `saves_last` is true the last file is one that is written. Of a
    command that names no files, words may be numbers: `numbers` has their names, in order. `usage` has the words behind the
    command as they are told where a line is refused. One that the program has not yet is not switched on.
    """

    usage: str
    files: int
    options: tuple[str, ...] = ()
    others: Mapping[str, int] = field(default_factory=dict)
    saves_last: bool = False
    more_files: int = 0
    numbers: tuple[str, ...] = ()
    is_on: bool = True

    def takes(self, count: int) -> bool:
        """Whether so many words may stand beside the options."""
        least = self.files + len(self.numbers)
        return least <= count <= least + self.more_files


_OF_GUESTS = "DESC CERT IMAGE.. --grant G --steps N [--slice K]"

FORMS = {
    "bare": Form("DESC IMAGE --grant G --steps N", 2, ("grant", "steps")),
    "check": Form("DESC --cert FILE [--budget K]", 1, ("cert",), {"budget": BUDGET}),
    "verify": Form("DESC CERT", 2),
    "replay": Form("DESC CERT", 2),
    "run": Form(_OF_GUESTS, 3, ("grant", "steps"), {"slice": SLICE}, more_files=MOST_IMAGES - 1),
    "print": Form("DESC", 1),
    "gen": Form("NUMBER SIZE --cert FILE", 0, ("cert",), numbers=("number", "size")),
    "migrate": Form("DESC CERT FILE", 3, saves_last=True),
    "hcheck": Form("DESC --cert FILE [--budget K]", 1, ("cert",), {"budget": BUDGET}),
    "hybrid": Form(_OF_GUESTS, 3, ("grant", "steps"), {"slice": SLICE}, more_files=MOST_IMAGES - 1),
    "nest": Form("DESC CERT IMAGE --grant G --steps N --depth D", 3, ("grant", "steps", "depth")),
    "asm": Form("DESC SOURCE --grant G", 2, ("grant",)),
    "disasm": Form("DESC IMAGE --grant G", 2, ("grant",)),
    "save": Form("DESC CERT IMAGE FILE --grant G --steps N", 4, ("grant", "steps"), saves_last=True),
    "resume": Form("DESC CERT SAVED --steps N [--skip P]", 3, ("steps",), {"skip": SKIP}),
}
"""The one table of commands, in the order in which they are told. Here a command is switched on when the program has it.

Files are a description, then an image, a source or a certificate, and behind that of `run` and `hybrid` an image for each guest;
`cert` is the name of one that is written.
"""

SWITCHED_ON = frozenset(name for name, form in FORMS.items() if form.is_on)


def usage(on: Collection[str] = SWITCHED_ON) -> str:
    """The lines that are told where words are refused: one for each command that is on."""
    return "".join(f"pgv {name} {form.usage}\n" for name, form in FORMS.items() if name in on)


_DIGITS = re.compile(r"\+?0*([0-9]{1,20})")


class Request(NamedTuple):
    """A command, its files, its numbers by the options' names, and the name under which it saves, if it does."""

    command: str
    files: tuple[str, ...]
    numbers: dict[str, int]
    saved: str | None = None


class RefusedWords(Exception):
    """The words are none that the program takes."""


def request(words: Sequence[str], on: Collection[str] = SWITCHED_ON) -> Request | None:
    """What the words ask for of a command that is on, or None where they are refused. Bytes that are no UTF-8 are surrogates."""
    if not words or words[0] not in FORMS or words[0] not in on or not all(map(is_text, words)):
        return None
    form = FORMS[words[0]]
    try:
        files, given = _sorted_out(words[1:], (*form.options, *form.others))
        spelled = {**given, **dict(zip(form.numbers, files))}
        numbers = {name: allowed_number(text, RANGES[name]) for name, text in spelled.items() if name in RANGES}
    except RefusedWords:
        return None
    if not form.takes(len(files)) or any(name not in given for name in form.options):
        return None
    files = files[len(form.numbers) :]
    saved = files[-1] if form.saves_last else given.get("cert")
    return Request(words[0], tuple(files), {**form.others, **numbers}, saved)


def _sorted_out(words: Sequence[str], wanted: Sequence[str]) -> tuple[list[str], dict[str, str]]:
    """The files and the options' values. Behind a lone `--` all are files; `-` alone is one too."""
    files: list[str] = []
    given: dict[str, str] = {}
    rest = iter(words)
    for word in rest:
        if word == "--":
            files += rest
        elif word.startswith("--"):
            name, joined, value = word[2:].partition("=")
            if name not in wanted or name in given:
                raise RefusedWords
            given[name] = value if joined else _behind(next(rest, "--"))
        elif _is_dashed(word):
            raise RefusedWords
        else:
            files.append(word)
    return files, given


def _behind(word: str) -> str:
    """A word behind an option is its value, where it does not look like an option itself."""
    if _is_dashed(word):
        raise RefusedWords
    return word


def _is_dashed(word: str) -> bool:
    """Whether a word begins as options do; `-` alone does not."""
    return word.startswith("-") and word != "-"


def is_text(word: str) -> bool:
    """Whether the word came from UTF-8."""
    return not any("\ud800" <= character <= "\udfff" for character in word)


def allowed_number(text: str, allowed: range) -> int:
    """A number that is allowed; a plus sign and leading zeros may stand before it."""
    match = _DIGITS.fullmatch(text)
    if match is None or int(match[1]) not in allowed:
        raise RefusedWords
    return int(match[1])
