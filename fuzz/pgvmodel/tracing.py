"""`pg_trace`: what each step of a bare machine does, the counts of them, and the state that is reached.

What it makes of a certificate, and JSON, are not modelled.
"""

from collections import Counter
from collections.abc import Callable, Iterator, Sequence
from dataclasses import dataclass
from typing import NamedTuple

from pgvmodel import tree
from pgvmodel.answers import DONE, WORDS, Answer, Load, Refused, World, ask_for_room, described, image, told
from pgvmodel.body import Done, Execution, ProgramStatusWord
from pgvmodel.dump import Dump, Row
from pgvmodel.machine import Cause, Decoder, Machine, State, power_on, state_text, window
from pgvmodel.questions import NotModelled, Questions
from pgvmodel.words import RANGES, RefusedWords, allowed_number, is_text

NAME = "pg_trace"

USAGE = (
    f"usage: {NAME} DESC IMAGE --grant G --steps N [--until E] [--cert CERT] [--only-traps] [--counts] [--json | --vcd]\n"
)

FILES = 2
"""A description and an image."""

VALUES = ("--grant", "--steps", "--until", "--cert")
FLAGS = ("--only-traps", "--counts", "--json", "--vcd")
"""Options with a value behind them, and those that are one word."""

APART = (("--json", ("--only-traps", "--counts")), ("--vcd", ("--only-traps", "--counts", "--json")))
"""Options that have others which may not stand beside them."""

PLACES = range(1_048_576)
"""What P may be compared with, also where no P of the machine is so large."""

CAUSES = {Cause.MEMORY: "memory", Cause.INSTRUCTION: "trap", Cause.NO_PATTERN: "no pattern"}
"""How each is told, in the order in which they are counted."""

NUMBER_COLUMNS, P_COLUMNS, INSTRUCTION_COLUMNS = 7, 5, 24

MOST_MODELLED = 20_000
"""A run that makes more steps is not modelled."""


class Step(NamedTuple):
    """A step: the status words before and behind it, what was fetched and what that means, and how it ended.

    `stores` has the cell and the word of each store of one that was done, in order; `kept` the word that a trap stored in cell 0.
    """

    before: ProgramStatusWord
    after: ProgramStatusWord
    word: int | None
    meaning: Decoder | None
    cause: Cause | None
    stores: Sequence[tuple[int, int]] = ()
    kept: int | None = None


class _Noting(Execution):
    """An execution that notes its stores, each with its address in the window."""

    def __init__(self, *entry: object) -> None:
        super().__init__(*entry)
        self.stores: list[tuple[int, int]] = []

    def statement(self, statement: tree.Statement) -> None:
        if not isinstance(statement, tree.Store):
            super().statement(statement)
            return
        at = self.value(statement.address).bits
        super().statement(statement)
        self.stores.append((at, self.window[at]))


def traced(machine: Machine, state: State) -> Step:
    """Makes a step, and says what it did."""
    before, seen = state.psw, window(state)
    word = seen[before.p] if before.p < len(seen) else None
    meaning = None if word is None else machine.meaning_of(word)
    ending = machine.attempt(seen, before)
    machine.step(state)
    if isinstance(ending, Done):
        noting = _Noting(machine.description, seen, before, meaning.values(word))
        noting.block(meaning.instruction.body)
        stores = [(before.l + at, new) for at, new in noting.stores]
        return Step(before, state.psw, word, meaning, None, stores)
    return Step(before, state.psw, word, meaning, ending, kept=state.cells[0])


Until = Callable[[Machine, State, Step | None], bool]
"""Whether a run ends at a state, which the step behind it led to, if there was one."""


def is_still(machine: Machine, state: State, _last: Step | None) -> bool:
    """Whether the next step changes nothing."""
    next_ = State(state.cells[:], state.psw)
    machine.step(next_)
    return next_ == state


def has_trapped(_machine: Machine, _state: State, last: Step | None) -> bool:
    """Whether the last step trapped."""
    return last is not None and last.cause is not None


def is_never(_machine: Machine, _state: State, _last: Step | None) -> bool:
    """No end but that of all steps."""
    return False


def until(text: str) -> Until:
    """The end that a word names."""
    if text in ("still", "trap"):
        return is_still if text == "still" else has_trapped
    name, equals, number = text.partition("=")
    if (name, equals) != ("P", "="):
        raise RefusedWords
    p = allowed_number(number, PLACES)
    return lambda _machine, state, _last: state.psw.p == p


@dataclass
class Trace:
    """A run that has been made: its steps, and the state behind them."""

    description: tree.Description
    steps: list[Step]
    state: State

    def lines(self, only_traps: bool = False) -> Iterator[str]:
        """The lines of all steps, or of those that trap; they are numbered from 1."""
        for number, step in enumerate(self.steps, 1):
            if step.cause is not None or not only_traps:
                yield self.line(number, step)

    def line(self, number: int, step: Step) -> str:
        """The columns of a step, then what it changed."""
        digits = self.description.word // 4
        word = "-" if step.word is None else f"{step.word:0{digits}x}"
        mode, p, *_ = step.before
        columns = (
            f"{number:{NUMBER_COLUMNS}} {'su'[mode]} {p:{P_COLUMNS}} {word:{digits}} {instruction_text(step):{INSTRUCTION_COLUMNS}}"
        )
        return " ".join([columns, *self.changes(step)])

    def changes(self, step: Step) -> Iterator[str]:
        """What a step changed; of a trap, where it leads."""
        digits, before, after = self.description.word // 4, step.before, step.after
        if step.cause is not None:
            yield f"trap ({CAUSES[step.cause]})"
            yield f"[0]={step.kept:0{digits}x}"
            yield f"to {'su'[after.mode]} {after.p}"
        else:
            for cell, new in step.stores:
                yield f"[{cell}]={new:0{digits}x}"
            if after.p != before.p + 1:
                yield f"P={after.p}"
            if after.mode != before.mode:
                yield f"mode={'su'[after.mode]}"
        if (after.l, after.b) != (before.l, before.b):
            yield f"R={after.l},{after.b}"

    def counts(self) -> Iterator[str]:
        """The steps of each instruction in the order of the description, those without one, the traps of each cause, all."""
        met = Counter(step.meaning and step.meaning.instruction.name for step in self.steps)
        for instruction in self.description.instructions:
            if met[instruction.name]:
                yield f"instr {instruction.name} {met[instruction.name]}"
        if met[None]:
            yield f"no instr {met[None]}"
        trapped = Counter(step.cause for step in self.steps)
        for cause, name in CAUSES.items():
            yield f"trap ({name}) {trapped[cause]}"
        yield f"steps {len(self.steps)}"

    def text(self, only_traps: bool = False, counts_alone: bool = False) -> str:
        """Lines, counts and the state; or the counts alone."""
        lines = [*([] if counts_alone else self.lines(only_traps)), *self.counts()]
        state = "" if counts_alone else state_text(self.state, self.description.word)
        return "".join(line + "\n" for line in lines) + state

    def dump(self) -> Dump:
        """What stands in a dump at each time. Behind the last step there is none of which anything could be told."""
        numbers = {instruction.name: number for number, instruction in enumerate(self.description.instructions)}
        rows = [
            Row(*step.before, step.meaning and numbers[step.meaning.instruction.name], step.cause or 0) for step in self.steps
        ]
        return Dump((*rows, Row(*self.state.psw, None, None)))


def instruction_text(step: Step) -> str:
    """The instruction and its fields, from the highest bit of its pattern down."""
    if step.meaning is None:
        return "-"
    fields = (f" {letter}={value.bits}" for letter, value in step.meaning.values(step.word).items())
    return step.meaning.instruction.name + "".join(fields)


def trace(description: tree.Description, cells: list[int], steps: int, ends: Until = is_never) -> Trace:
    """Runs a machine from power-on, so many steps at most."""
    machine, state = Machine(description), power_on(cells)
    made: list[Step] = []
    while len(made) < steps and not ends(machine, state, made[-1] if made else None):
        if len(made) == MOST_MODELLED:
            raise NotModelled
        made.append(traced(machine, state))
    return Trace(description, made, state)


class _Request(NamedTuple):
    """What the words ask for."""

    files: tuple[str, ...]
    values: dict[str, str]
    flags: frozenset[str]
    grant: int
    steps: int
    until: Until


def answer(words: Sequence[str], load: Load, questions: Questions) -> Answer | Dump:
    """What `pg_trace` is to answer to the words behind its name: refusals as of `bare`, then the run.

    No line on standard error is told, and no text of a version; nor whether `-h` asks for help, which only `pg_go.1` says.
    """
    if words and words[0] == "--help":
        return told(DONE, USAGE)
    if words and words[0] in ("--version", "-h"):
        raise NotModelled
    try:
        return _run(_request(words), World(load, bool, questions))
    except RefusedWords:
        return told(WORDS, USAGE)
    except Refused as refused:
        return refused.answer._replace(error=None)


def _run(asked: _Request, world: World) -> Answer | Dump:
    if "--cert" in asked.values:
        raise NotModelled
    description = described(world.loaded(asked.files[0]))
    ask_for_room(asked.grant, description.size)
    cells = image(0, world.loaded(asked.files[1]), description, asked.grant)
    if "--json" in asked.flags:
        raise NotModelled
    run = trace(description, cells, asked.steps, asked.until)
    if "--vcd" in asked.flags:
        return run.dump()
    return told(DONE, run.text("--only-traps" in asked.flags, "--counts" in asked.flags))


def _request(words: Sequence[str]) -> _Request:
    """Each option once; any other word that begins with a dash is refused."""
    files: list[str] = []
    values: dict[str, str] = {}
    flags: set[str] = set()
    rest = iter(words)
    for word in rest:
        if word in VALUES and word not in values:
            values[word] = next(rest, "-")
        elif word in FLAGS and word not in flags:
            flags.add(word)
        elif word.startswith("-"):
            raise RefusedWords
        else:
            files.append(word)
    if len(files) != FILES or "--grant" not in values or "--steps" not in values or not all(map(is_text, words)):
        raise RefusedWords
    if values.get("--cert", "").startswith("-") or any(flag in flags and not flags.isdisjoint(others) for flag, others in APART):
        raise RefusedWords
    grant, steps = (allowed_number(values[f"--{name}"], RANGES[name]) for name in ("grant", "steps"))
    ends = until(values["--until"]) if "--until" in values else is_never
    return _Request(tuple(files), values, frozenset(flags), grant, steps, ends)
