"""What stands on standard error: one line where a file or standard output failed, words for people where words or a file are refused, and what is to be done."""

import re
from typing import NamedTuple

_REASON = re.compile(rb"[A-Za-z /]+")
"""Why, in the system's words, which are free."""

_CONTROL = re.compile(rb"[\x00-\x1f\x7f]")

MOST_NAMED = 4096
"""Bytes of a name that are told; no file has a longer one."""


class ErrorLine(NamedTuple):
    """A line without its line feed. Behind some a reason stands; before some a warning, a verdict, or where a file is at fault."""

    text: str
    has_reason: bool = False
    is_last: bool = False

    def fits(self, errors: bytes) -> bool:
        """Whether standard error has this line and no more, or as its last one."""
        text = self.bytes_of_text()
        if self.is_last and errors.endswith(b"\n"):
            errors = errors[:-1].rpartition(b"\n")[2] + b"\n"
        if not (errors.startswith(text) and errors.endswith(b"\n")):
            return False
        rest = errors[len(text) : -1]
        return bool(_REASON.fullmatch(rest)) if self.has_reason else not rest

    def spelled(self) -> bytes:
        """The line, for a reader."""
        return self.bytes_of_text() + b"(a reason)\n" if self.has_reason else self.bytes_of_text() + b"\n"

    def bytes_of_text(self) -> bytes:
        """A name may have been cut within a character."""
        return self.text.encode(errors="surrogateescape")


def _named(name: str) -> str:
    """A name as it is told: on one line, and not without an end."""
    whole = name.encode()
    cut = whole[:MOST_NAMED] + b"..." if len(whole) > MOST_NAMED else whole
    return _CONTROL.sub(b"?", cut).decode(errors="surrogateescape")


NO_OUTPUT = ErrorLine("pgv: standard output: cannot be written: ", has_reason=True, is_last=True)

_NAMED_FIRST = rb"(?:pgv|pg_[a-z]+): "
"""The program that says a line: `pgv`, or a side program."""

_NUMBER = rb"(?:[0-9]+|[1-9][0-9]{0,2}(?:,[0-9]{3})+)"
"""A count: no document tells whether a comma stands before each three digits."""

_COMPLAINT = re.compile(_NAMED_FIRST + rb"[^\x00-\x1f\x7f]+\n")
"""What is wrong with words."""

_VERSION = re.compile(rb"pgv [0-9]+\.[0-9]+\.[0-9]+ \([^\x00-\x1f\x7f]+\)\n")
"""The answer to a word that asks for the version."""

_POINTED = rb"[^\n]*?(?:: |:[1-9][0-9]*:[1-9][0-9]*: )[^\n]+\n(?:[^\n]*\n[\t ]*\^\n)?"
"""Where a file is at fault, and what is wrong: with its line and a mark, or without."""

_MOST_STATEMENTS = 21

_ONE = re.compile(_POINTED)
_STATEMENT = rb"[^\n]*?:[1-9][0-9]*:[1-9][0-9]*: [^\n]+\n[^\n]*\n[\t ]*\^\n"
_STATEMENTS = re.compile(
    rb"(?:%b){1,%d}|(?:%b){%d}[^\n]*: and (?:1 more statement|(?!1 )%b more statements) whose widths do not fit\n"
    % (_STATEMENT, _MOST_STATEMENTS, _STATEMENT, _MOST_STATEMENTS, _NUMBER)
)
"""Each statement whose widths do not fit, and how many are left."""

_STALE = re.compile(
    _NAMED_FIRST + rb"(?P<d>[^\n]+) may have changed since (?P<c>[^\n]+) was made: pgv h?check (?P=d) --cert (?P=c) makes it anew\n"
)
"""What makes a certificate anew."""

_OF_ANOTHER = {b"instr", b"missing", b"extra", b"pair", b"closed", b"step"}
"""Classes of a certificate that may be of another description, or of an older one."""

_NO_ROOM = re.compile(
    _NAMED_FIRST
    + rb"no room: (?P<wanted>%b) cells wanted, (?P<free>%b) free: take " % (_NUMBER, _NUMBER)
    + rb"a smaller (?:--skip|--grant(?:, fewer images|, a smaller --depth)?), or a greater size in the description\n"
)
"""How many cells are wanted and free, and what makes them fit."""

_MENDED = re.compile(_NAMED_FIRST + rb"pg_explain [^\n]+ [^\n]+ says why, and what mends the machine\n")
"""Behind a refused machine."""

_SETTLED = re.compile(
    rb"(?P<who>"
    + _NAMED_FIRST
    + rb")(?P<q>[A-Za-z_0-9]+ [a-z]+) is open: a greater budget may settle it: "
    + rb"pgv h?check (?P<d>[^\n]+) --cert (?P<c>[^\n]+) --budget K, K up to 1,000,000\n"
    + rb"(?:(?P=who)or another solver: pg_dimacs (?P=d) (?P=q) writes its clauses, "
    + rb"and pg_import (?P=d) (?P=c) (?P=q) PROOF FILE takes what it finds\n)?"
)
"""Behind an open question."""

_LONG = re.compile(_NAMED_FIRST + rb"[^\n]+ has [1-9][0-9]{1,2}(?:,[0-9]{3}){2,} bytes: a smaller --budget makes it shorter\n$")

MOST_HELD = 1 << 20
"""Bytes of a file that the program holds; of a longer one it may say nothing."""

_MOST_SHORT = 10_000_000
"""Bytes of a certificate of which nothing is said."""

_DONE, _REFUSED, _OPEN, _WORDS, _DESCRIPTION, _CERTIFICATE, _ROOM = 0, 1, 2, 3, 4, 6, 7
_FILES = (_DESCRIPTION, 5, _CERTIFICATE, 12, 13)
"""The statuses of refused files."""

_UNWRITABLE = 9
_FAILED = (8, _UNWRITABLE, 11)
"""The statuses of files that failed, and of standard output."""


def fits_refusal(status: int, errors: bytes, longest: int, output: bytes = b"") -> bool:
    """Whether this may stand on standard error behind a status, where no file failed and the longest file has so many bytes.

    Of standard output the last line is asked: which class a refused file is of, how many cells are wanted, which question is open.
    """
    last = output.rstrip(b"\n").rpartition(b"\n")[2].split(b" ")
    if longest > _MOST_SHORT and status in (_DONE, _REFUSED, _OPEN):
        errors = _LONG.sub(b"", errors)
    if status == _WORDS:
        return bool(_COMPLAINT.fullmatch(errors) or _VERSION.fullmatch(errors))
    if status in _FILES:
        return _fits_file(status, errors, longest, last[1] if len(last) > 1 else b"")
    if status == _ROOM:
        told = _NO_ROOM.fullmatch(errors)
        return bool(told) and last in ([b""], [b"room", *(told[count].replace(b",", b"") for count in ("wanted", "free"))])
    if status == _REFUSED:
        return not errors or bool(_MENDED.fullmatch(errors))
    if status == _OPEN:
        settled = _SETTLED.fullmatch(errors)
        return not errors or bool(settled) and last in ([b""], [b"open", *settled["q"].split()])
    return not errors


def fits_side(status: int, errors: bytes, longest: int, output: bytes) -> bool:
    """Whether a side program may say this: of why it failed the form alone is asked, and of 9 the last line alone, as of `pgv`."""
    if status == _UNWRITABLE:
        errors = b"".join(errors.splitlines(keepends=True)[-1:])
    return bool(_COMPLAINT.fullmatch(errors)) if status in _FAILED else fits_refusal(status, errors, longest, output)


def _fits_file(status: int, errors: bytes, longest: int, class_: bytes) -> bool:
    """Whether this may stand there behind a refused file, whose fault is of this class; of an unknown one more may."""
    if status == _CERTIFICATE:
        first, advice = errors, _STALE.search(errors)
        if advice and advice.end() == len(errors):
            first = errors[: advice.start()]
        is_told = first != errors
        if class_ and is_told != (class_ in _OF_ANOTHER):
            return False
        errors = first
    if status == _DESCRIPTION and class_ in (b"", b"width") and _STATEMENTS.fullmatch(errors):
        return True
    return bool(_ONE.fullmatch(errors)) or (not errors and longest > MOST_HELD)


def missing(name: str) -> ErrorLine:
    """No file has this name."""
    return ErrorLine(f"pgv: {_named(name)}: no such file")


def unreadable(name: str) -> ErrorLine:
    """There is something of this name, and it cannot be read."""
    return ErrorLine(f"pgv: {_named(name)}: cannot be read: ", has_reason=True)


def unwritable(name: str) -> ErrorLine:
    """Nothing can be saved under this name."""
    return ErrorLine(f"pgv: {_named(name)}: cannot be written: ", has_reason=True, is_last=True)
