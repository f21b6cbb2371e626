"""Whether two states show a kind of an instruction, as a formula in SMT-LIB over words of bits.

A body knows a window alone. So the formula has one function from addresses to words, which both states see as their windows,
the registers and the sizes of both, and a run of the body for each. A store is no new function: a later read looks through
the stores before it.
"""

from collections.abc import Sequence
from typing import NamedTuple

from pgvmodel import tree
from pgvmodel.machine import SUPERVISOR, USER, Machine, State, window
from pgvmodel.pairs import BOUND, CONTROL, IN_USER_MODE, LOCATION, MODE, PRIVILEGED

LEAST_CELLS = 2
"""A storage has two cells or more."""

TRUE, FALSE = "true", "false"

SIGNS = {"+": "bvadd", "-": "bvsub", "*": "bvmul", "&": "bvand", "|": "bvor", "^": "bvxor"}
COMPARED = {"==": "=", "<": "bvult"}
SHIFTED = {"<<": "bvshl", ">>": "bvlshr"}


class Term(NamedTuple):
    """A word of `width` bits."""

    text: str
    width: int


class Store(NamedTuple):
    """A store that happens where `reached` is true."""

    reached: str
    address: Term
    value: Term


class Registers(NamedTuple):
    """A mode, and the relocation-bounds register."""

    mode: Term
    l: Term
    b: Term


class Side(NamedTuple):
    """One of the two states: the cells of its storage, and its registers."""

    size: Term
    registers: Registers


def number(value: int, width: int) -> Term:
    return Term(f"(_ bv{value} {width})", width)


def both(*conditions: str) -> str:
    """All of the conditions."""
    kept = [condition for condition in conditions if condition != TRUE]
    return f"(and {' '.join(kept)})" if len(kept) > 1 else (kept or [TRUE])[0]


def either(*conditions: str) -> str:
    """One of the conditions at least."""
    kept = [condition for condition in conditions if condition != FALSE]
    return f"(or {' '.join(kept)})" if len(kept) > 1 else (kept or [FALSE])[0]


def neither(condition: str) -> str:
    return f"(not {condition})"


def differ(left: Term, right: Term) -> str:
    return f"(not (= {left.text} {right.text}))"


class Script:
    """The lines of a formula. `touched` has each address at which the window was looked at, and the word there."""

    def __init__(self, word: int, address: int) -> None:
        self.word = word
        self.lines = ["(set-logic QF_UFBV)", f"(declare-fun cell ((_ BitVec {address})) (_ BitVec {word}))"]
        self.touched: list[tuple[Term, Term]] = []
        self.names = 0

    def unknown(self, name: str, width: int) -> Term:
        self.lines.append(f"(declare-const {name} (_ BitVec {width}))")
        return Term(name, width)

    def named(self, text: str, width: int) -> Term:
        """A name for a term, so that the text does not grow where the term is used again."""
        return Term(self._name(text, f"(_ BitVec {width})"), width)

    def condition(self, text: str) -> str:
        """A name for a condition."""
        return text if text in (TRUE, FALSE) else self._name(text, "Bool")

    def _name(self, text: str, sort: str) -> str:
        self.names += 1
        self.lines.append(f"(define-fun t{self.names} () {sort} {text})")
        return f"t{self.names}"

    def cell(self, address: Term) -> Term:
        """The word that the window holds at an address when the run begins."""
        word = self.named(f"(cell {address.text})", self.word)
        self.touched.append((self.named(*address), word))
        return word

    def ask(self, condition: str) -> None:
        self.lines.append(f"(assert {condition})")


class Run:
    """A run of a body: how it ends, and what it leaves. `length` is that of the window."""

    def __init__(self, script: Script, length: Term, p: Term, registers: Registers, fields: dict[str, Term]) -> None:
        self.script = script
        self.length = length
        self.names = dict(fields)
        self.entry = {"pc": p, "mode": registers.mode, "rel": registers.l, "bound": registers.b}
        following = script.named(f"(bvadd {p.text} {number(1, p.width).text})", p.width)
        self.after = {**self.entry, "pc": following}
        self.stores: list[Store] = []
        self.is_done, self.traps, self.memory_traps = TRUE, FALSE, FALSE

    def block(self, block: tree.Block, reached: str = TRUE) -> None:
        """Runs the statements where `reached` is true, and where none before has trapped."""
        for statement in block:
            self.statement(statement, reached)

    def statement(self, statement: tree.Statement, reached: str) -> None:
        match statement:
            case tree.Let(name, value):
                self.names[name] = self.value(value, reached)
            case tree.Store(address, value):
                at, new = self.value(address, reached), self.value(value, reached)
                self.use(at, reached)
                self.stores.append(Store(reached, at, new))
            case tree.Assign(register, value):
                before, new = self.after[register], self.value(value, reached)
                self.after[register] = self.script.named(f"(ite {reached} {new.text} {before.text})", new.width)
            case tree.If(condition, body, otherwise):
                holds = f"(= {self.value(condition, reached).text} {number(1, 1).text})"
                self.block(body, self.script.condition(both(reached, holds)))
                self.block(otherwise or (), self.script.condition(both(reached, neither(holds))))
            case tree.Trap():
                self.traps = self.script.condition(either(self.traps, both(self.is_done, reached)))
                self.is_done = self.script.condition(both(self.is_done, neither(reached)))

    def use(self, address: Term, reached: str) -> None:
        """An address that is not usable is a memory trap."""
        fails = self.script.condition(both(reached, f"(bvuge {address.text} {self.length.text})"))
        self.memory_traps = self.script.condition(either(self.memory_traps, both(self.is_done, fails)))
        self.is_done = self.script.condition(both(self.is_done, neither(fails)))

    def cell(self, address: Term) -> Term:
        """The word at an address, behind the stores so far."""
        found = self.script.cell(address)
        for reached, at, new in self.stores:
            is_here = both(reached, f"(= {at.text} {address.text})")
            found = self.script.named(f"(ite {is_here} {new.text} {found.text})", new.width)
        return found

    def value(self, expression: tree.Expression, reached: str) -> Term:
        match expression:
            case tree.Literal(value, width):
                return number(value, width)
            case tree.Name(name):
                return self.names[name]
            case tree.Register(which):
                return self.entry[which]
        parts = [self.value(part, reached) for part in expression.parts]
        if isinstance(expression, tree.Load):
            self.use(parts[0], reached)
            return self.cell(parts[0])
        return self.script.named(*_joined(expression, parts))


def _joined(expression: tree.Expression, parts: Sequence[Term]) -> Term:
    """An expression whose parts are these words."""
    text, width = parts[0]
    match expression:
        case tree.Not():
            return Term(f"(bvnot {text})", width)
        case tree.Binary(sign):
            return _binary(sign, *parts)
        case tree.Cat():
            return Term(f"(concat {text} {parts[1].text})", width + parts[1].width)
        case tree.Cut(_, high, low):
            return Term(f"((_ extract {high} {low}) {text})", high - low + 1)
        case tree.Extend(signed, _, wider):
            return Term(f"((_ {'sign' if signed else 'zero'}_extend {wider - width}) {text})", wider)
        case tree.Select():
            return Term(f"(ite (= {text} {number(1, 1).text}) {parts[1].text} {parts[2].text})", parts[1].width)
    raise TypeError(expression)


def _binary(sign: str, left: Term, right: Term) -> Term:
    """A shift is done in the width of the wider side, and what it moves past its own side is cut away."""
    if sign in SIGNS:
        return Term(f"({SIGNS[sign]} {left.text} {right.text})", left.width)
    if sign in COMPARED:
        return Term(f"(ite ({COMPARED[sign]} {left.text} {right.text}) {number(1, 1).text} {number(0, 1).text})", 1)
    wide = max(left.width, right.width)
    sides = [f"((_ zero_extend {wide - side.width}) {side.text})" for side in (left, right)]
    return Term(f"((_ extract {left.width - 1} 0) ({SHIFTED[sign]} {sides[0]} {sides[1]}))", left.width)


class Formula:
    """The formula of a kind of an instruction; `sides` are its states."""

    def __init__(self, machine: Machine, number_: int, kind: str) -> None:
        self.description = machine.description
        self.meaning = machine.decoders[number_]
        self.kind = IN_USER_MODE.get(kind, kind)
        self.is_of_users = kind in IN_USER_MODE
        self.script = Script(self.description.word, self.description.address)
        self.p = self.script.unknown("p", self.description.address)
        self.sides = self._two_sides()
        lengths = [self._length(side) for side in self.sides]
        self.script.ask(f"(= {lengths[0].text} {lengths[1].text})")
        self.length = lengths[0]
        fields = self._fetched()
        runs = [self._run(side.registers, fields) for side in self.sides]
        self.script.ask(self._is_shown(*runs))

    def text(self) -> str:
        """The formula, and what is asked of its solution: the numbers of `asked`, in that order."""
        asked = " ".join(term.text for term in self.asked())
        return "\n".join([*self.script.lines, "(check-sat)", f"(get-value ({asked}))"]) + "\n"

    def text_of(self, first: State, second: State) -> str:
        """The formula with these states put in, whose windows are equal: it has a solution where they show the kind."""
        given = [f"(= {self.p.text} {number(first.psw.p, self.p.width).text})"]
        for side, (cells, psw) in zip(self.sides, ((state.cells, state.psw) for state in (first, second))):
            numbers = zip((side.size, *side.registers), (len(cells), psw.mode, psw.l, psw.b))
            given += [f"(= {term.text} {number(value, term.width).text})" for term, value in numbers]
        for address, word in enumerate(window(first)):
            given.append(f"(= (cell {number(address, self.p.width).text}) {number(word, self.description.word).text})")
        return "\n".join([*self.script.lines, *(f"(assert {condition})" for condition in given), "(check-sat)"]) + "\n"

    def asked(self) -> list[Term]:
        """P, of either side the size, the mode, l and b, and each touched address with its word."""
        sides = [term for side in self.sides for term in (side.size, *side.registers)]
        return [self.p, *sides, *(term for place in self.script.touched for term in place)]

    def _two_sides(self) -> tuple[Side, Side]:
        """What a kind lets differ are two unknowns, and all else is one, but a mode that is asked for."""
        script, width = self.script, self.description.address
        sizes = script.unknown("size", width), script.unknown("size_", width) if self.kind == BOUND else None
        l, b = script.unknown("l", width), script.unknown("b", width)
        mode = script.named(*number(USER, 1)) if self.is_of_users else script.unknown("mode", 1)
        first = Side(sizes[0], Registers(mode, l, b))
        if self.kind in (PRIVILEGED, MODE):
            modes = (script.named(*number(mode, 1)) for mode in (SUPERVISOR, USER))
            return tuple(first._replace(registers=Registers(mode, l, b)) for mode in modes)
        if self.kind == LOCATION:
            moved = script.unknown("l_", width)
            script.ask(differ(l, moved))
            return first, first._replace(registers=Registers(mode, moved, b))
        if self.kind == BOUND:
            other = script.unknown("b_", width)
            script.ask(differ(b, other))
            return first, Side(sizes[1], Registers(mode, l, other))
        return first, first

    def _length(self, side: Side) -> Term:
        """How many cells the window of a side has; its size is one that a storage may have."""
        size, (_, l, b) = side.size, side.registers
        width = size.width
        self.script.ask(f"(bvuge {size.text} {number(LEAST_CELLS, width).text})")
        self.script.ask(f"(bvule {size.text} {number(self.description.size, width).text})")
        room = self.script.named(f"(bvsub {size.text} {l.text})", width).text
        clipped = f"(ite (bvult {b.text} {room}) {b.text} {room})"
        return self.script.named(f"(ite (bvult {l.text} {size.text}) {clipped} {number(0, width).text})", width)

    def _fetched(self) -> dict[str, Term]:
        """The fields of the word at P, which is usable, and means the instruction."""
        word = self.script.cell(self.p)
        meaning = self.meaning
        self.script.ask(f"(bvult {self.p.text} {self.length.text})")
        fixed, ones = number(meaning.fixed, word.width), number(meaning.ones, word.width)
        self.script.ask(f"(= (bvand {word.text} {fixed.text}) {ones.text})")
        return {
            name: self.script.named(f"((_ extract {low + width - 1} {low}) {word.text})", width)
            for name, (low, width) in meaning.fields.items()
        }

    def _run(self, registers: Registers, fields: dict[str, Term]) -> Run:
        run = Run(self.script, self.length, self.p, registers, fields)
        run.block(self.meaning.instruction.body)
        return run

    def _is_shown(self, first: Run, second: Run) -> str:
        """What the endings have to be."""
        if self.kind == PRIVILEGED:
            return either(second.is_done, both(first.traps, second.traps))
        if self.kind == CONTROL:
            return both(first.is_done, either(*(differ(first.entry[it], first.after[it]) for it in ("mode", "rel", "bound"))))
        looked = self.script.unknown("looked", self.description.address)
        left, right = first.cell(looked), second.cell(looked)
        seen = both(f"(bvult {looked.text} {self.length.text})", differ(left, right))
        unlike = either(neither(both(first.is_done, second.is_done)), seen, differ(first.after["pc"], second.after["pc"]))
        done = second.is_done if self.kind == MODE else either(first.is_done, second.is_done)
        return both(done, unlike)
