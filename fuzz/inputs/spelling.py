"""A description's tokens in a random spelling: blanks, comments, zeros, hexadecimal digits, `_` in patterns."""

from random import Random

from pgvmodel import tree
from pgvmodel.printer import printed, tokens_of

BLANKS = {" ": 70, "\n": 10, "\r\n": 5, "\t": 5, "  \n\n": 5, "#": 5}
"""Weights; `#` stands for a comment."""

SIGNS_THAT_JOIN = "=<>"


def spelled(rng: Random, description: tree.Description) -> bytes:
    """A text that reads as the description."""
    text = ""
    for token in tokens_of(description):
        spelling = _spelling(rng, token)
        if text and (_joins(text[-1], spelling[0]) or rng.random() < 0.5):
            text += _blank(rng)
        text += spelling
    return (text + rng.choice(["", _blank(rng), "# end"])).encode("latin1")


def any_spelling(rng: Random, description: tree.Description) -> bytes:
    """Either a random spelling, or the layout of `print`."""
    return spelled(rng, description) if rng.random() < 0.5 else printed(description)


def _joins(last: str, first: str) -> bool:
    """Whether two tokens could be read as one where nothing stands between them."""
    if last in SIGNS_THAT_JOIN:
        return first in SIGNS_THAT_JOIN
    return (last.isalnum() or last == "_") and first.isalnum()


def _blank(rng: Random) -> str:
    blank = rng.choices(list(BLANKS), list(BLANKS.values()))[0]
    if blank != "#":
        return blank
    comment = "".join(chr(rng.randint(0, 255)) for _ in range(rng.randint(0, 6)))
    return " # " + comment.replace("\n", "") + "\n"


def _spelling(rng: Random, token: str) -> str:
    if token[0] == '"':
        places = [place + ("_" if rng.random() < 0.1 else "") for place in token[1:-1]]
        return '"' + rng.choice(["", "", "", "_"]) + "".join(places) + '"'
    if not token[0].isdigit() or rng.random() < 0.7:
        return token
    number = int(token)
    zeros = rng.randint(1, 16)
    return rng.choice([f"0x{number:x}", f"0x{number:X}", f"0x{number:0{zeros}x}", "0" * rng.randint(1, 30) + token])
