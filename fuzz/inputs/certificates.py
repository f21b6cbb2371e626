"""Certificates of random small descriptions: pairs that were found by trying, logs of a small search, and spoiled ones.

Where there is no program to ask for the clauses of questions, what needs them is written without: such a finding is a guess,
and the certificate is told by a fault before it, or not modelled.
"""

from collections.abc import Sequence
from random import Random

from inputs.bodies import FREE, GUARDED, PURE
from inputs.case import CERTIFICATE_FILE, DESCRIPTION_FILE, SAVED_FILE, Case, migrating, replaying, verifying
from inputs.certificate_edits import ODD_LINES, spoiled, with_edited_log
from inputs.descriptions import random_description, random_shape
from inputs.near_steps import covered_resolvent, loosened
from inputs.padded_logs import padded
from inputs.pairs import Pair, PairFinder
from inputs.programs import TAME
from inputs.search import Search
from pgvmodel import tree
from pgvmodel.certificate import MOST_BYTES
from pgvmodel.clauses import Clause, Clauses, Step
from pgvmodel.machine import state_text
from pgvmodel.pairs import KINDS
from pgvmodel.printer import printed
from pgvmodel.questions import NotModelled, Questions
from pgvmodel.reader import read

MOST_STEPS = 40
"""Most steps that a search may take."""

STORING = (
    "mem[x] = ext(cat(cat(rel, bound), mode), $W);",
    "mem[x] = ext(rel, $W); mem[y] = (ext(bound, $W) ^ ext(mode, $W));",
    "pc = ((pc + rel) + (bound + ext(mode, $A)));",
)
"""Bodies that store the control registers, or jump by them."""

TELLING = (
    "rel = (rel + 1:$A);", "bound = y;", "mode = ~mode;", "mode = ~mode; pc = y;", "if ~mode { rel = y; } else { bound = y; }",
    "bound = (bound - 1:$A); rel = (rel ^ 1:$A);",
)
"""Ends of such bodies, which change one."""

QUIET = (
    "", "trap;", "pc = y;", "mem[x] = mem[y];", "if mode { trap; }", "if mode { trap; } rel = x; bound = y;", "mode = mode;",
)
"""Bodies of which many questions have clauses that contradict each other soon."""

DIFFERING = (
    "if mode { pc = y; }", "pc = (pc + rel);", "pc = bound;", "if ~mode { trap; }", "if mode { trap; }",
    "if (rel < y) { trap; } else { let t = mem[~0:$A]; }",
    "if (bound < y) { trap; } else { let t = mem[~0:$A]; }",
    "if mode { trap; } else { let t = mem[~0:$A]; }",
    "if ~mode { trap; } else { let t = mem[~0:$A]; }",
)
"""Bodies whose endings differ in P alone, or in how they trap: no address is usable whose bits are all one."""

ENDINGS = (
    "trap;", "if (rel < y) { trap; }", "if (bound < y) { trap; } mem[x] = ext(bound, $W);", "if ~mode { trap; } mode = ~mode;",
    "if ~mode { let t = mem[~0:$A]; }", "if (rel < y) { let t = mem[~0:$A]; } pc = y;", "mem[0:$A] = ext(y, $W); trap;",
    "if (bound < y) { mem[~0:$A] = 0:$W; } rel = y;", "let t = mem[rel];", "mem[(bound - 1:$A)] = ext(rel, $W);",
    "mem[1:$A] = 0:$W; if (rel < y) { trap; }", "if (x < y) { trap; } mem[y] = ext(rel, $W); bound = x;",
)
"""Bodies of which pairs show steps that trap, of either kind, beside such that are done, with stores before and behind."""

SEARCHED = (
    "let u = cut(mem[x], 2, 0); let v = cut(mem[y], 2, 0); if ~((u + v) == (v + u)) { mode = ~mode; }",
    "let u = cut(mem[x], 1, 0); let v = cut(mem[y], 1, 0); if ~((u * (u + v)) == ((u * u) + (u * v))) { rel = y; bound = x; }",
    "let u = cut(mem[x], 3, 0); if (mode & (((u + 1:4) < u) ^ (u == 15:4))) { pc = y; }",
)
"""Bodies of which some questions are refuted by a search of several steps."""

GUESSES = (["refuted"], ["refuted", "s 0 1 2 0"], ["refuted", "s 0 0"], ["spent 1"], ["spent 2", "s 2 0 1 2 0"], ["shown"])
"""Findings as they may look; the first word belongs to the header."""


def _described(rng: Random, bodies: Sequence[str]) -> tree.Description:
    """A small machine with one or two instructions of these bodies; x and y are fields of the width of an address."""
    word = rng.choice([16, 16, 24, 32, 64])
    width = rng.randint(4, min(9, (word - 3) // 3))
    causes = rng.choice(["", "causes on;"])
    text = f"machine {{ word {word}; address {width}; size {rng.choice([4, 5, 8, 15, 2**width - 1])}; {causes} }}"
    for code in range(rng.choice([1, 1, 2])):
        pattern = f"{code}{'x' * width}{'y' * width}"
        body = rng.choice(bodies).replace("$A", str(width)).replace("$W", str(word))
        text += f' instr i{code} "{pattern:.<{word}}" {{ {body} }}'
    return read(text.encode())


def telling(rng: Random) -> tree.Description:
    """Instructions of which every kind can be shown."""
    return _described(rng, [f"{stored} {ending}" for stored in STORING for ending in TELLING])


def quiet(rng: Random) -> tree.Description:
    """Instructions of which most questions are refuted."""
    return _described(rng, QUIET)


def differing(rng: Random) -> tree.Description:
    """Instructions that end in ways which are nearly the same, but where x is 0: there every kind can be shown."""
    tells = f"{STORING[2]} {TELLING[0]}"
    return _described(rng, [f"if (x == 0:$A) {{ {tells} }} else {{ {body} }}" for body in DIFFERING])


def ending(rng: Random) -> tree.Description:
    """Instructions whose shown pairs end in all ways."""
    return _described(rng, ENDINGS)


def searched(rng: Random) -> tree.Description:
    """Instructions of which some questions take a search."""
    return _described(rng, SEARCHED)


def mixed(rng: Random) -> tree.Description:
    """Instructions of any bodies, most of them short."""
    shape = random_shape(rng, small=True)
    manners = rng.choice([(FREE,), (FREE, FREE, GUARDED, PURE)])
    if rng.random() < 0.7:
        return random_description(rng, shape, rng.choice([1, 1, 2, 3]), manners, TAME)
    return random_description(rng, shape, rng.choice([0, 1, 1, 2]), manners)


class CertificateWriter:
    """Writes the lines of a certificate for a description.

    Findings that could be shown or refuted are spent with the chance `spent`. Pairs and logs are not quite right with chances
    of their own, and refutations have steps that nobody needs with the chance `padding`.
    """

    def __init__(
        self,
        rng: Random,
        description: tree.Description,
        questions: Questions,
        spent: float = 0.1,
        near_pairs: float = 0,
        near_logs: float = 0,
        padding: float = 0,
    ) -> None:
        self.rng = rng
        self.description = description
        self.text = printed(description)
        self.questions = questions
        self.pairs = PairFinder(rng, description)
        self.version = rng.choice("1222")
        self.spent = spent
        self.near_pairs = near_pairs
        self.near_logs = near_logs
        self.padding = padding

    def lines(self) -> list[str]:
        """A whole certificate."""
        lines = [f"pgcert {self.version}"]
        for number, instruction in enumerate(self.description.instructions):
            for kind in KINDS:
                lines += self.finding(number, instruction.name, kind)
        return [*lines, "end"]

    def finding(self, number: int, name: str, kind: str) -> list[str]:
        """Two states where there are some, else a log where there is a question, else a guess."""
        pair = self.pairs.found(number, kind)
        if self.rng.random() < self.near_pairs:
            untried = self.pairs.pair(number, kind)
            pair = self.rng.choice([untried, self.pairs.near(pair or untried)])
        is_spent = self.rng.random() < self.spent
        evidence = self.log(name, kind, is_spent) if pair is None or is_spent else []
        if not evidence:
            evidence = self.guess() if pair is None else ["shown", *self.states(pair)]
        return [f"finding {name} {kind} {evidence[0]}", *evidence[1:]]

    def log(self, name: str, kind: str, is_spent: bool) -> list[str]:
        """How a header ends, and steps; nothing where there is no question, or a search ended without a step."""
        try:
            question = self.questions.clauses(self.text, name, kind)
        except NotModelled:
            return []
        steps, is_closed = Search(self.rng, question).steps(self.rng.choice([1, 3, MOST_STEPS]))
        if self.rng.random() < self.near_logs:
            steps = self.near_steps(question, steps)
        kept = [step for step in steps if step.literals]
        if is_closed and not (is_spent and kept):
            if self.padding and self.rng.random() < self.padding:
                steps = padded(self.rng, question, steps)
            return ["refuted", *self.refutation(len(question), steps)]
        budget = max(1, len(kept) - (self.rng.random() < self.near_logs))
        return [f"spent {budget}", *map(step_line, kept)] if kept else []

    def near_steps(self, question: Sequence[Clause], steps: list[Step]) -> list[Step]:
        """The steps with one of them loosened, or with one behind them that says nothing new."""
        clauses = Clauses(question)
        chosen = self.rng.randint(0, len(steps))
        for step in steps[:chosen]:
            clauses.add(step)
        if chosen < len(steps):
            return [*steps[:chosen], loosened(self.rng, clauses, steps[chosen]), *steps[chosen + 1 :]]
        step = covered_resolvent(self.rng, clauses)
        return [*steps, step] if step else steps

    def states(self, pair: Pair) -> list[str]:
        return [line for state in pair for line in state_text(state, self.description.word).splitlines()]

    def guess(self) -> list[str]:
        """How a header ends, and steps, by whoever has not seen the question."""
        return self.rng.choice(GUESSES)

    def refutation(self, last: int, steps: list[Step]) -> list[str]:
        """The steps, and in version 2 lines that take away what no later step needs."""
        lines = []
        held = set(range(1, last + 1))
        for place, step in enumerate(steps, 1):
            lines.append(step_line(step))
            held.add(last + place)
            if self.version == "2" and self.rng.random() < 0.3:
                needed = {hint for later in steps[place:] for hint in later.hints}
                spare = sorted(held - needed)
                gone = sorted(self.rng.sample(spare, min(len(spare), self.rng.randint(1, 4))))
                held -= set(gone)
                lines += [" ".join(map(str, ["d", *gone, 0]))] if gone else []
        return lines


def step_line(step: Step) -> str:
    return " ".join(map(str, ["s", *step.literals, 0, *step.hints, 0]))


def _text(lines: Sequence[str]) -> bytes:
    return "".join(line + "\n" for line in lines).encode()


def certificate_of(rng: Random, description: tree.Description, questions: Questions) -> bytes:
    """A mostly valid certificate of a description."""
    return _text(CertificateWriter(rng, description, questions).lines())


def certificates(rng: Random, questions: Questions) -> Case:
    """Mostly valid ones."""
    description = rng.choice([telling, telling, quiet, mixed, differing])(rng)
    return verifying(description, certificate_of(rng, description, questions))


def spoiled_certificates(rng: Random, questions: Questions) -> Case:
    """Edited ones, or with evidence that is not quite right; a few are for a description with other instructions."""
    description = rng.choice([telling, telling, telling, quiet, mixed, differing])(rng)
    near = rng.random() < 0.25
    text = _text(CertificateWriter(rng, description, questions, near_pairs=0.2 * near).lines())
    if rng.random() < 0.05:
        description = telling(rng)
    return verifying(description, text if near else spoiled(rng, text))


def logs(rng: Random, questions: Questions) -> Case:
    """Ones that are mostly logs, some with steps that are not quite right, and half of them with an edit of one."""
    description = rng.choice([quiet, searched, searched, mixed, telling])(rng)
    lines = CertificateWriter(rng, description, questions, spent=0.4, near_logs=0.2).lines()
    return verifying(description, _text(with_edited_log(rng, lines) if rng.random() < 0.5 else lines))


def padded_logs(rng: Random, questions: Questions) -> Case:
    """Valid ones of which most refutations have steps that nobody needs."""
    description = rng.choice([quiet, searched, searched, differing])(rng)
    return verifying(description, _text(CertificateWriter(rng, description, questions, padding=0.8).lines()))


SAVED_NAMES = (SAVED_FILE, CERTIFICATE_FILE, f"./{SAVED_FILE}", DESCRIPTION_FILE, "dir", f"dir/{SAVED_FILE}", "none/x", "")
"""Names to save under: none that is there, those of the files that are read, a folder, a place in it, and no place."""


def trapping(rng: Random, questions: Questions) -> Case:
    """Valid ones whose pairs show traps."""
    description = ending(rng)
    return verifying(description, _text(CertificateWriter(rng, description, questions, spent=0.05).lines()))


def replays(rng: Random, questions: Questions) -> Case:
    """`replay` of mostly valid ones, half of which show traps, of spoiled ones, and of such that are mostly logs."""
    make = rng.choices([trapping, certificates, spoiled_certificates, logs], [45, 30, 15, 10])[0]
    return replaying(make(rng, questions))


def migrations(rng: Random, questions: Questions) -> Case:
    """`migrate` of all of these, and of such with steps that nobody needs; a few to odd places."""
    make = rng.choices([certificates, spoiled_certificates, logs, padded_logs], [20, 15, 15, 50])[0]
    case = make(rng, questions)
    case = case._replace(files={**case.files, "dir/": b""})
    return migrating(case, SAVED_FILE if rng.random() < 0.8 else rng.choice(SAVED_NAMES))


def _fixed() -> tuple[tree.Description, list[str]]:
    """One description, and a certificate of it that has shown pairs alone."""
    rng = Random("a machine that tells all")
    text = """machine { word 16; address 4; size 15; }
    instr i0 "0xxxxyyyy......." { mem[x] = ext(cat(cat(rel, bound), mode), 16); rel = y; }"""
    description = read(text.encode())
    return description, CertificateWriter(rng, description, Questions()).lines()


def all_shown() -> tuple[bytes, bytes]:
    """A description, and a certificate of it that has shown pairs alone, so that it is refused."""
    description, lines = _fixed()
    return printed(description), _text(lines)


def odd_lines() -> list[Case]:
    """Each odd line in place of each line, and before it; and each line twice, and left out."""
    description, lines = _fixed()
    cases = []
    for i, line in enumerate(lines):
        cases += [[*lines[:i], *lines[i + 1 :]], [*lines[:i], line, *lines[i:]]]
        for odd in ODD_LINES:
            cases += [[*lines[:i], odd, *lines[i + 1 :]], [*lines[:i], odd, *lines[i:]]]
    cases += [[*lines, odd] for odd in ODD_LINES]
    return [verifying(description, _text(case)) for case in cases]


def odd_logs() -> list[Case]:
    """Each odd line as a line of a refuted and of a spent finding, alone and behind a step that is not needed."""
    description, lines = _fixed()
    end = next(i for i, line in enumerate(lines) if " control " in line)
    cases = []
    for version in "12":
        for found in ("refuted", "spent 1", "spent 2"):
            header = lines[end].replace("shown", found)
            for odd in ODD_LINES:
                cases += [[f"pgcert {version}", *lines[1:end], header, *more, "end"] for more in ([odd], [odd, odd])]
    return [verifying(description, _text(case)) for case in cases]


def fronts() -> list[Case]:
    """A certificate broken off at each byte."""
    description, lines = _fixed()
    whole = _text(lines)
    return [verifying(description, whole[:length]) for length in range(len(whole) + 1)]


def largest() -> list[Case]:
    """As many bytes as a file may have, and one more; the first line is at fault too."""
    description, _ = _fixed()
    return [verifying(description, b"x" * length) for length in (MOST_BYTES, MOST_BYTES + 1)]
