"""Texts of small descriptions: one head, and instructions around given bodies."""

from collections.abc import Mapping

HEAD = b"machine { word 16; address 4; size 8; }\n"
"""A machine with words of 16 bits and addresses of 4."""

NO_FINDINGS = b"pgcert 2\nend\n"
"""The certificate of a machine without instructions, which is accepted."""

FREE_PATTERN = b"................"


def one(body: bytes) -> bytes:
    """A description whose one instruction has this body."""
    return HEAD + b'instr i "' + FREE_PATTERN + b'" {' + body + b"}"


def many(count: int, bodies: Mapping[int, bytes] | None = None) -> bytes:
    """A description of so many instructions, at most 512, with the bodies given by number and empty ones else."""
    bodies = bodies or {}
    rows = (b'instr n%d "%s......." {%s}\n' % (i, b"%09d" % int(f"{i:b}"), bodies.get(i, b"")) for i in range(count))
    return HEAD + b"".join(rows)


def sums(count: int) -> bytes:
    """An expression of width 4 with exactly so many expressions in it, itself among them."""
    if count == 1:
        return b"0:4"
    if count == 2:
        return b"~0:4"
    left = (count - 1) // 2
    return b"(" + sums(left) + b" + " + sums(count - 1 - left) + b")"
