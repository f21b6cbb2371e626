"""Edits of certificates: of their bytes, their lines, the words of a line, and the numbers of steps."""

from collections.abc import Callable
from random import Random

ODD_LINES = (
    "", " ", "end", "end ", " end", "END", "end 0", "pgcert", "pgcert 0", "pgcert 1", "pgcert 2", "pgcert 3",
    "pgcert 02", "pgcert 2 ", "pgcert  2", "pgcert -1", "pgcert +1", "pgcert 1x", "pgcert 18446744073709551617",
    "pghybrid 1", "pghybrid 2", "pgguest 1", "pgcert\t1", "# c", "finding", "finding i0", "finding i0 privileged",
    "finding i0 privileged refuted", "finding i0 privileged shown", "finding i0 privileged spent 1",
    "finding i0 control refuted", "finding i0 control shown", "finding i0 control spent 1000000",
    "finding i0 mode refuted", "finding i0 location shown", "finding i0 bound shown", "finding i0 bound spent 1",
    "finding i1 privileged refuted", "finding i1 bound shown", "finding nobody control refuted",
    "finding mem control shown", "finding 0i control shown", "finding _i control shown", "finding i-0 control shown",
    "finding  control shown", "finding i0 ucontrol shown", "finding i0 Control shown", "finding i0 control Shown",
    "finding i0 control spent", "finding i0 control spent 0", "finding i0 control spent 1000001",
    "finding i0 control spent 01", "finding i0 control spent +1", "finding i0 control spent 4294967297",
    "finding i0 control refuted 1", "finding i0 control shown ", "finding i0 control  shown",
    "finding i0 control proved", f"finding {'n' * 32} mode shown", f"finding {'n' * 33} mode shown", "size", "size 0",
    "size 1", "size 2", "size 3", "size 4", "size 04", "size 4 4", "size +4", "size 65535", "size 1048575",
    "size 1048576", "size 4294967300", "size 18446744073709551620", "psw", "psw s 0 0 4", "psw u 0 0 4", "psw s 0 0",
    "psw s 0 0 4 0", "psw S 0 0 4", "psw x 0 0 4", "psw s 00 0 4", "psw s 0 0 1048576", "psw s 15 15 15",
    "psw s 16 0 4", "psw s 4294967296 0 4", "psw s -1 0 4", "psw s  0 0 4", "0:", "0: ", "0: 0", "0: 0000", "0: 0001",
    "0: 0000 0000 0000 0000", "0: 0001 0000 0000 0000", "0: 000A 0000 0000 0000", "0:0001 0000 0000 0000",
    "0: 0001 0000 0000", "0: 0001 0000 0000 0000 0000", "0: 0001 0000 0000 0000 0000 0000 0000 0000",
    "0: 0001 0000 0000 0000 0000 0000 0000 0000 0000", "00: 0001 0000 0000 0000", "1: 0001", "4: 0001", "8: 0001",
    "8: 0001 0000 0000 0000 0000 0000 0000 0000", "16: 0001", "9999999: 0001", "4294967296: 0001",
    "18446744073709551616: 0001", "s", "s 0", "s 0 0", "s 0 0 0", "s 0 0 ", "s  0 0", "s 1 0 0", "s 1 0 1 0",
    "s -1 0 1 0", "s 0 1 0", "s 0 1 2 0", "s 0 2 1 0", "s -0 0 1 0", "s 1 1 0 1 0", "s 1 -1 0 1 0", "s 2 1 0 1 0",
    "s 1 -2 0 1 0", "s 01 0 1 0", "s +1 0 1 0", "s 0 01 0", "s 0 -1 0", "s 0 1", "s 1 2", "s 0 1 0 0",
    "s 2147483647 0 1 0", "s 2147483648 0 1 0", "s -2147483647 0 1 0", "s -2147483648 0 1 0", "s 4294967297 0 1 0",
    "s 0 4294967295 0", "s 0 4294967296 0", "s 0 18446744073709551617 0", "S 0 1 0", "s 0 x 0", "s\t0 1 0", "d",
    "d 0", "d 1", "d 1 0", "d 1 2 0", "d 1 1 0", "d 2 1 0", "d 0 0", "d 01 0", "d -1 0", "d 1  0", "d 1 0 ",
    "d 1 0 0", "d 4294967295 0", "d 4294967296 0", "D 1 0", "\x7f", "\x1f", "end\r", "e\x00nd", "\u00e9",
)
"""Lines that may stand somewhere, and lines that may not."""

OTHER_WORDS = {
    "refuted": ("shown", "spent 1", "Refuted"),
    "shown": ("refuted", "spent 1", "spent 1000000"),
    "spent": ("refuted", "shown", "spent 1"),
    "s": ("u", "d", "S", ""),
    "u": ("s", "U"),
    "privileged": ("control", "mode", "bound"),
    "control": ("privileged", "mode", "ucontrol"),
    "mode": ("location", "control"),
    "location": ("bound", "ulocation"),
    "bound": ("privileged", "location"),
    "end": ("end end", "finding"),
    "i0": ("i1", "nobody", "mem"),
    "i1": ("i0", "i", "i11"),
}
"""What a word may become; any other gets larger, or is one of ODD_WORDS."""

ODD_WORDS = ("0", "1", "-1", "00", "2147483647", "2147483648", "4294967295", "4294967296", "ffff", "0000", "x", "", " ")

Lines = list[bytes]


def spoiled(rng: Random, text: bytes) -> bytes:
    """A certificate with one edit, or a few."""
    for _ in range(rng.choice([1, 1, 1, 1, 2, 3])):
        edits = [_edited_bytes, _edited_lines, _edited_word, _larger_number, _edited_findings, _edited_state]
        text = rng.choices(edits, [10, 15, 15, 20, 20, 20])[0](rng, text)
    return text


def _edited_bytes(rng: Random, text: bytes) -> bytes:
    """A byte changed, put in or left out, or the rest cut off."""
    place = rng.randint(0, len(text))
    kind = rng.choice(["change", "change", "insert", "leave out", "cut"])
    if kind == "cut":
        return text[:place]
    byte = b"" if kind == "leave out" else bytes([rng.choice([*b"0123456789abcdefsu :-\n\n\r\t", rng.randint(0, 255)])])
    return text[:place] + byte + text[place + (kind != "insert") :]


def _edited_lines(rng: Random, text: bytes) -> bytes:
    """A line left out, doubled, moved, exchanged with another, or an odd one put in; or a few of them left out."""
    lines = text.split(b"\n")
    i, k = (rng.randrange(len(lines)) for _ in range(2))
    edits: dict[str, Callable[[], Lines]] = {
        "leave out": lambda: [*lines[:i], *lines[i + 1 :]],
        "leave out a few": lambda: [*lines[:i], *lines[i + rng.randint(1, 12) :]],
        "double": lambda: [*lines[:i], lines[i], *lines[i:]],
        "copy": lambda: [*lines[:k], lines[i], *lines[k:]],
        "put in": lambda: [*lines[:i], rng.choice(ODD_LINES).encode(), *lines[i:]],
        "exchange": lambda: _exchanged(lines, i, k),
        "exchange neighbours": lambda: _exchanged(lines, i, min(i + 1, len(lines) - 1)),
    }
    return b"\n".join(edits[rng.choice(list(edits))]())


def _exchanged(lines: Lines, i: int, k: int) -> Lines:
    made = list(lines)
    made[i], made[k] = made[k], made[i]
    return made


def _edited_word(rng: Random, text: bytes) -> bytes:
    """Another word in place of one."""
    lines = text.split(b"\n")
    i = rng.randrange(len(lines))
    words = lines[i].decode("latin1").split(" ")
    k = rng.randrange(len(words))
    words[k] = rng.choice(OTHER_WORDS.get(words[k], ODD_WORDS))
    lines[i] = " ".join(words).encode("latin1")
    return b"\n".join(lines)


def _larger_number(rng: Random, text: bytes) -> bytes:
    """A number, or a word of a cell, made larger."""
    words = text.split(b" ")
    places = [i for i, word in enumerate(words) if word.isalnum() and any(byte in b"0123456789" for byte in word)]
    if not places:
        return text
    i = rng.choice(places)
    if words[i].isdigit() and not words[i].startswith(b"0"):
        words[i] = str(int(words[i][:30]) + rng.choice([1, 1, 2, 1000])).encode()
    else:
        words[i] = words[i][:-1] + rng.choice([b"1", b"7", b"f"])
    return b" ".join(words)


def _edited_findings(rng: Random, text: bytes) -> bytes:
    """A whole finding left out, doubled, moved or exchanged with another, or with its header alone exchanged."""
    front, *findings = text.split(b"\nfinding ")
    if not findings:
        return text
    i, k = (rng.randrange(len(findings)) for _ in range(2))
    edits: dict[str, Callable[[], Lines]] = {
        "leave out": lambda: [*findings[:i], *findings[i + 1 :]],
        "double": lambda: [*findings[:i], findings[i], *findings[i:]],
        "copy": lambda: [*findings[:k], findings[i], *findings[k:]],
        "exchange": lambda: _exchanged(findings, i, k),
        "exchange headers": lambda: _with_exchanged_headers(findings, i, k),
    }
    return b"\nfinding ".join([front, *edits[rng.choice(list(edits))]()])


def _with_exchanged_headers(findings: Lines, i: int, k: int) -> Lines:
    headers, evidence = zip(*(finding.partition(b"\n")[::2] for finding in findings))
    return [b"\n".join(pair) for pair in zip(_exchanged(list(headers), i, k), evidence)]


def _edited_state(rng: Random, text: bytes) -> bytes:
    """Another mode or number in a program status word; or a line of cells with two exchanged, all zero, or in capitals."""
    lines = text.split(b"\n")
    places = [i for i, line in enumerate(lines) if b" " in line and (line.startswith(b"psw") or line[:1].isdigit())]
    if not places:
        return text
    i = rng.choice(places)
    words = lines[i].split(b" ")
    k = rng.randrange(1, len(words))
    if words[0] != b"psw":
        words[1:] = _edited_cells(rng, words[1:])
    elif words[k].isdigit():
        words[k] = str(max(0, int(words[k][:9]) + rng.choice([-1, 1]))).encode()
    else:
        words[k] = b"u" if words[k] == b"s" else b"s"
    lines[i] = b" ".join(words)
    return b"\n".join(lines)


def _edited_cells(rng: Random, cells: Lines) -> Lines:
    kind = rng.choice(["exchange", "exchange", "zeros", "capitals"])
    if kind == "zeros":
        return [b"0" * len(cell) for cell in cells]
    if kind == "capitals":
        return [cell.upper() for cell in cells]
    return _exchanged(cells, rng.randrange(len(cells)), rng.randrange(len(cells)))


def with_edited_log(rng: Random, lines: list[str]) -> list[str]:
    """Lines of which a step or a line that takes clauses away is edited; where there is none, one is put in."""
    places = [i for i, line in enumerate(lines) if line[:2] in ("s ", "d ")]
    if not places:
        i = rng.randint(1, len(lines))
        return [*lines[:i], rng.choice(["s 0 1 2 0", "s 0 2 1 0", "s 0 0", "d 1 0"]), *lines[i:]]
    i = rng.choice(places)
    kind = rng.choice(["parts", "parts", "parts", "leave out", "double", "exchange", "take away", "budget"])
    if kind == "leave out":
        return [*lines[:i], *lines[i + 1 :]]
    if kind == "double":
        return [*lines[:i], lines[i], *lines[i:]]
    if kind == "exchange":
        k = rng.choice(places)
        return [lines[k] if n == i else lines[i] if n == k else line for n, line in enumerate(lines)]
    if kind == "take away":
        gone = sorted(rng.sample(range(1, 12), rng.randint(1, 3)))
        return [*lines[:i], " ".join(map(str, ["d", *gone, 0])), *lines[i:]]
    if kind == "budget":
        return [_other_budget(rng, line) for line in lines]
    return [*lines[:i], _edited_parts(rng, lines[i]), *lines[i + 1 :]]


def _other_budget(rng: Random, line: str) -> str:
    """A header of a spent finding with a few steps more or fewer, or refuted in its place."""
    front, is_spent, budget = line.partition(" spent ")
    if not is_spent:
        return line
    return rng.choice([f"{front} refuted", f"{front} spent {max(1, int(budget) + rng.choice([-1, 1, 2]))}"])


def _edited_parts(rng: Random, line: str) -> str:
    """A step, or a line that takes clauses away, with one number left out, put in, changed or moved; the form mostly stays."""
    first, *parts = line.split(" ")
    numbers = [int(part) for part in parts]
    in_form = rng.random() < 0.9
    if first == "d":
        named = _edited_numbers(rng, numbers[:-1])
        return _joined(first, sorted({max(1, number) for number in named}) if in_form else named)
    middle = numbers.index(0)
    literals, hints = numbers[:middle], numbers[middle + 1 : -1]
    if rng.random() < 0.35:
        literals = _edited_numbers(rng, literals)
        if in_form:
            by_variable = {abs(literal): literal for literal in literals if literal}
            literals = [by_variable[variable] for variable in sorted(by_variable)]
    else:
        hints = _edited_numbers(rng, hints)
        if in_form:
            hints = [max(1, hint) for hint in hints]
    return _joined(first, [*literals, 0, *hints])


def _edited_numbers(rng: Random, numbers: list[int]) -> list[int]:
    made = list(numbers)
    place = rng.randint(0, len(made))
    other = rng.choice([1, 2, *made]) * rng.choice([1, 1, 1, -1]) + rng.choice([-1, 0, 0, 1, 1, 100000])
    kind = rng.choice(["leave out", "put in", "change", "exchange"])
    if kind == "put in" or place == len(made):
        made.insert(place, other)
    elif kind == "leave out":
        del made[place]
    elif kind == "change":
        made[place] = rng.choice([other, -made[place], made[place] + 1])
    else:
        k = rng.randrange(len(made))
        made[place], made[k] = made[k], made[place]
    return made


def _joined(first: str, numbers: list[int]) -> str:
    return " ".join(map(str, [first, *numbers, 0]))
