"""A command line and the files that it may name."""

from collections.abc import Mapping, Sequence
from typing import NamedTuple

from pgvmodel import tree
from pgvmodel.printer import printed

DESCRIPTION_FILE = "machine.isa"
IMAGE_FILE = "storage.img"
CERTIFICATE_FILE = "machine.cert"
SAVED_FILE = "saved.cert"
SOURCE_FILE = "storage.asm"
GUEST_FILE = "guest.saved"


class Case(NamedTuple):
    """The words behind the program's name, and files by name; a name that ends with `/` is that of an empty folder.

    Where `is_full` is true, standard output takes nothing. Where there are other words, a run of them has to end just so too.
    """

    words: tuple[str, ...]
    files: Mapping[str, bytes]
    is_full: bool = False
    other_words: tuple[str, ...] | None = None


def printing(description: bytes | tree.Description) -> Case:
    """`print` of a description."""
    return Case(("print", DESCRIPTION_FILE), {DESCRIPTION_FILE: _text(description)})


def running_bare(description: bytes | tree.Description, image: bytes, grant: int, steps: int) -> Case:
    """`bare` of a description and an image."""
    words = ("bare", DESCRIPTION_FILE, IMAGE_FILE, "--grant", str(grant), "--steps", str(steps))
    return Case(words, {DESCRIPTION_FILE: _text(description), IMAGE_FILE: image})


def running_guests(
    description: bytes | tree.Description,
    certificate: bytes,
    images: Sequence[bytes],
    grant: int,
    steps: int,
    slice_: str = "",
    other_slice: str | None = None,
) -> Case:
    """`run` of a description, a certificate and images, of which equal ones are one file.

    A slice is the word behind its option, or the empty one where that is left out. With the other one all has to end just so.
    """
    names = [f"guest{images.index(image)}.img" for image in images]
    files = {DESCRIPTION_FILE: _text(description), CERTIFICATE_FILE: certificate, **dict(zip(names, images))}
    words = ("run", DESCRIPTION_FILE, CERTIFICATE_FILE, *names, "--grant", str(grant), "--steps", str(steps))
    first, other = (words + (("--slice", word) if word else ()) for word in (slice_, other_slice))
    return Case(first, files, other_words=None if other_slice is None else other)


def verifying(description: bytes | tree.Description, certificate: bytes) -> Case:
    """`verify` of a description and a certificate."""
    words = ("verify", DESCRIPTION_FILE, CERTIFICATE_FILE)
    return Case(words, {DESCRIPTION_FILE: _text(description), CERTIFICATE_FILE: certificate})


def replaying(case: Case) -> Case:
    """`replay` in place of `verify`."""
    return case._replace(words=("replay", *case.words[1:]))


def migrating(case: Case, saved: str = SAVED_FILE) -> Case:
    """`migrate` in place of `verify`, which saves under this name."""
    return case._replace(words=("migrate", *case.words[1:], saved))


def checking(description: bytes | tree.Description, budget: int | None, command: str = "check") -> Case:
    """`check` or `hcheck` of a description, which saves a certificate; with a budget, or with that of itself."""
    words = (command, DESCRIPTION_FILE, "--cert", CERTIFICATE_FILE)
    more = () if budget is None else ("--budget", str(budget))
    return Case((*words, *more), {DESCRIPTION_FILE: _text(description)})


def assembling(description: bytes | tree.Description, source: bytes, grant: int) -> Case:
    """`asm` of a description and a source."""
    words = ("asm", DESCRIPTION_FILE, SOURCE_FILE, "--grant", str(grant))
    return Case(words, {DESCRIPTION_FILE: _text(description), SOURCE_FILE: source})


def disassembling(description: bytes | tree.Description, image: bytes, grant: int) -> Case:
    """`disasm` of a description and an image."""
    words = ("disasm", DESCRIPTION_FILE, IMAGE_FILE, "--grant", str(grant))
    return Case(words, {DESCRIPTION_FILE: _text(description), IMAGE_FILE: image})


def nesting(case: Case, depth: int) -> Case:
    """`nest` in place of `run`, of the first image of one."""
    numbers = _without_slice(case.words)
    return case._replace(words=("nest", *case.words[1:4], *numbers, "--depth", str(depth)), other_words=None)


def saving(case: Case, saved: str = GUEST_FILE) -> Case:
    """`save` in place of `run`, of the first image of one, under this name."""
    return case._replace(words=("save", *case.words[1:4], saved, *_without_slice(case.words)), other_words=None)


def _without_slice(words: Sequence[str]) -> tuple[str, ...]:
    """The grant and the steps that `running_guests` gives."""
    begin = words.index("--grant")
    return tuple(words[begin : begin + 4])


def resuming(
    description: bytes | tree.Description, certificate: bytes, saved: bytes, steps: int, skip: int | None = None
) -> Case:
    """`resume` of a description, a certificate and a saved guest, with cells before it, or as many as where that is left out."""
    words = ("resume", DESCRIPTION_FILE, CERTIFICATE_FILE, GUEST_FILE, "--steps", str(steps))
    more = () if skip is None else ("--skip", str(skip))
    return Case((*words, *more), {DESCRIPTION_FILE: _text(description), CERTIFICATE_FILE: certificate, GUEST_FILE: saved})


def _text(description: bytes | tree.Description) -> bytes:
    return description if isinstance(description, bytes) else printed(description)
