"""The wrong bodies of the crates as their files have them, and a sum over what they try.

An edit is a file `crates/NAME/must-fail/X.edit` or `crates/NAME/must-fail/more/X.md`. Each of its lines begins with a word:

    # shows: what the edit shows, for a reader
    named: the name of the wrong body, for those that have one
    goal: FUNCTION GOAL, which the prover has to leave open; or none, WHY, of an edit that shows nothing
    file: the path of a source in the crate
    old: a text of one line that stands in that file once
    new: the text that it becomes
    twin: a text that may stand there in place of `new` and means what `old` means; or none, WHY

`old` and `new` come in pairs, and `twin` below the `new` that it stands for.
"""

import hashlib
import re
from pathlib import Path

TOP = Path(__file__).resolve().parent.parent
SUMS = TOP / "bench/wrong.sums"
FUNCTION = re.compile(r"( *)(?:pub(?:\([^)]*\))? )?(?:const )?(?:unsafe )?(?:extern \"C\" )?fn (\w+)")
OWNER = re.compile(r"(?:pub(?:\([^)]*\))? )?(?:unsafe )?(impl|trait)\b(?:<[^{]*?>)? *(.*)")
TRIED = ("file:", "old:", "new:", "goal:")
CLAUSE = re.compile(r" *(?:requires|ensures|ghost (?!use\b))")


class Unfit(Exception):
    """Why an edit cannot be applied, as a sentence."""


class Change:
    """A text of a file and what it becomes: `new`, and `twin` where it has one."""

    def __init__(self, path, old, new):
        self.path, self.old, self.new, self.twin = path, old, new, None

    def span(self, folder):
        """Where the old text begins and ends in its file."""
        text = text_of(folder, self.path)
        if text.count(self.old) != 1:
            raise Unfit(f"its old text stands in {self.path} {text.count(self.old)} times, and not once")
        at = text.index(self.old)
        return at, at + len(self.old)


class Edit:
    """A wrong body of a crate."""

    def __init__(self, file):
        self.file, self.name, self.crate = file, file.stem, file.relative_to(TOP / "crates").parts[0]
        self.folder = TOP / "crates" / self.crate
        self.shows = self.named = self.goal = self.no_twin = self.no_goal = ""
        self.changes, path, old = [], "", ""
        for line in file.read_text().splitlines():
            word, _, text = line.partition(":")
            text = text.removeprefix(" ")
            if word == "file":
                path = text
            elif word == "old":
                old = text
            elif word == "new":
                self.changes.append(Change(path, old, text))
            else:
                self.take(word, text)
        self.is_in_gate = file.suffix == ".edit"

    def take(self, word, text):
        """Takes a line that is none of `file`, `old` and `new`."""
        if word == "twin" and text.startswith("none,"):
            self.no_twin = text
        elif word == "twin" and self.changes:
            self.changes[-1].twin = text
        elif word == "goal" and text.startswith("none,"):
            self.no_goal = text
        elif word in ("# shows", "named", "goal"):
            setattr(self, word.removeprefix("# "), text)

    def __str__(self):
        return f"{self.crate}/{self.name}"

    def function(self):
        """The function whose goal is to stay open; none where no line says it."""
        return self.goal.partition(" ")[0]

    def has_twin(self):
        return any(change.twin is not None for change in self.changes)

    def put_goal(self, goal):
        """Writes the line of the goal into the file, below the other lines of its head."""
        lines = [line for line in self.file.read_text().splitlines() if not line.startswith("goal: ")]
        head = next(place for place, line in enumerate(lines) if line.startswith("file: "))
        self.file.write_text("\n".join([*lines[:head], f"goal: {goal}", *lines[head:], ""]))
        self.goal = goal


def text_of(folder, path):
    try:
        return (folder / path).read_text()
    except OSError as error:
        raise Unfit(f"there is no file {path}") from error


def edits_of(crate):
    """The edits of a crate, by their names."""
    folder = TOP / "crates" / crate / "must-fail"
    return sorted(map(Edit, [*folder.glob("*.edit"), *folder.glob("more/*.md")]), key=str)


def crates_with_edits():
    return sorted({file.relative_to(TOP / "crates").parts[0] for file in (TOP / "crates").glob("*/must-fail/**/*.*")})


def apply(edits, twins=False):
    """The texts of the files that these edits of one crate change, by their paths, with all of the edits or all of their twins in them."""
    spans, texts = {}, {}
    for edit in edits:
        for change in edit.changes:
            wanted = change.twin if twins else change.new
            if wanted is not None:
                spans.setdefault(change.path, []).append((*change.span(edit.folder), wanted))
    for path, found in spans.items():
        texts[path] = text_of(edits[0].folder, path)
        for begin, end, wanted in sorted(found, reverse=True):
            texts[path] = texts[path][:begin] + wanted + texts[path][end:]
    return texts


def places(edit):
    """The functions that an edit stands in: file, line and path in the crate, which is empty for a change that stands in none."""
    found = set()
    for change in edit.changes:
        text = text_of(edit.folder, change.path)
        begin, _ = change.span(edit.folder)
        begin += len(change.old) - len(change.old.lstrip())
        found.add(enclosing(change.path, text.split("\n"), text.count("\n", 0, begin)))
    return found


def enclosing(path, lines, line):
    """The function that a line of a source stands in: the file, the function's own line, and its path in the crate."""
    at = next((k for k in range(line, -1, -1) if path.endswith(".rt") and FUNCTION.match(lines[k])), None)
    if at is None:
        return path, None, ""
    indent, name = FUNCTION.match(lines[at]).groups()
    end = next((k for k in range(at, len(lines)) if lines[k].rstrip(";") in (f"{indent}}}", f"{indent}{{}}")), at)
    if not at <= line <= end:
        return path, None, ""
    parts = [part for part in Path(path).with_suffix("").parts[1:] if part not in ("lib", "main", "mod")]
    return path, at, "::".join([*parts, *owner(lines, at, indent), name])


def owner(lines, at, indent):
    """The type or trait that a function belongs to, as the prover calls it."""
    head = next((lines[k] for k in range(at, -1, -1) if indent and lines[k][:1].strip(" }{/#") and OWNER.match(lines[k])), "")
    if not head:
        return []
    kind, rest = OWNER.match(head).groups()
    names = re.findall(r"(?:\w+::)*(\w+)(?:<[^{]*?>)?", rest.split("{")[0].split(" where ")[0])
    first, _, second = rest.split("{")[0].partition(" for ")
    if kind == "impl" and second:
        return [re.match(r"(?:\w+::)*(\w+)", second)[1] + re.match(r"(?:\w+::)*(\w+)", first)[1]]
    return names[:1]


def clauses(file):
    """The lines of the clauses of a source, with the names of the functions that they stand at, or else stand behind."""
    name, left_open = "", 0
    for line in file.read_text().splitlines():
        found = FUNCTION.match(line)
        name = found[2] if found else name
        if left_open > 0 or CLAUSE.match(line):
            yield f"{name} {line.strip()}"
            left_open += line.count("{") - line.count("}")


def contracts(crate):
    """What a crate promises and what its edits try: clauses, definitions without comments, and edits without comments and twins."""
    folder = TOP / "crates" / crate
    for file in sorted((folder / "src").glob("**/*.rt")):
        yield from (f"{file.relative_to(folder)} {clause}" for clause in clauses(file))
    for file in sorted((folder / "specs").glob("**/*.antt")):
        yield str(file.relative_to(folder))
        yield from (line for line in file.read_text().splitlines() if line.strip() and not line.lstrip().startswith("--"))
    for edit in edits_of(crate):
        yield from (f"{edit.name} {line}" for line in edit.file.read_text().splitlines() if line.startswith(TRIED))


def sum_of(crate):
    return hashlib.sha256("\n".join(contracts(crate)).encode()).hexdigest()[:32]


def kept_sums():
    """The sums of when the edits of each crate were last all shown, by crate."""
    lines = SUMS.read_text().splitlines() if SUMS.is_file() else []
    return dict(line.split() for line in lines if line and not line.startswith("#"))


def keep_sum(crate):
    """Writes that the edits of a crate are all shown as it stands."""
    sums = {**kept_sums(), crate: sum_of(crate)}
    head = "# The sum of each crate's clauses, definitions and edits when bench/wrong last passed for it; bench/wrong writes it.\n"
    SUMS.write_text(head + "".join(f"{name} {sums[name]}\n" for name in sorted(sums)))


def faults():
    """A line for each edit that no longer applies, and for each crate whose contracts or edits changed since its edits were tried. A crate
    without a sum was not tried yet."""
    sums, crates = kept_sums(), crates_with_edits()
    for crate in crates:
        for edit in edits_of(crate):
            try:
                apply([edit])
                apply([edit], twins=True)
            except Unfit as why:
                yield f"{edit}: {why}"
        if crate in sums and sums[crate] != sum_of(crate):
            yield f"{crate}: its clauses, definitions or edits are others than when bench/wrong last passed: run bench/wrong {crate}"
    for crate in sorted({*sums} - {*crates}):
        yield f"{SUMS.relative_to(TOP)} has {crate}, which has no edits"
