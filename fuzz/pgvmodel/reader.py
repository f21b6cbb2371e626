"""The tree of a description's text, or the first place where its tokens go wrong or too deep.

A token that cannot go on with what stands before it is a fault of grammar. One that could, but begins an expression or a
block too many levels down, is too deep. Grammar is judged first, so no place is both.
"""

from pgvmodel import tree
from pgvmodel.faults import Fault
from pgvmodel.tokens import RESERVED, Kind, Token, tokens

MOST_BYTES = 1_048_576
"""Most bytes of a description's file."""

EXPRESSION_LEVELS = 32
"""A statement's expression has level 1, a part of an expression one level more."""

BLOCK_LEVELS = 16
"""A body has level 1, a block inside a block one level more."""

OPERATORS = ("+", "-", "*", "&", "|", "^", "==", "<", "<<", ">>")

_CALLS = ("cat", "cut", "ext", "sext", "sel")
_FIRST_WORDS = frozenset((*tree.REGISTERS, "mem", *_CALLS))
"""Reserved words that begin an expression."""


def read(text: bytes) -> tree.Description:
    """The description of a text; refuses `long`, `token PLACE`, `grammar PLACE` or `deep PLACE`."""
    if len(text) > MOST_BYTES:
        raise Fault("long")
    end = Token(Kind.END, "", len(text), len(text))
    return _Reader([*tokens(text), end]).description()


class _Reader:
    """Takes tokens from the left; `next` is the number of the one that is looked at."""

    def __init__(self, row: list[Token]) -> None:
        self.row = row
        self.next = 0

    @property
    def token(self) -> Token:
        return self.row[self.next]

    def wrong(self) -> Fault:
        return Fault(f"grammar {self.token.place}")

    def too_deep(self) -> Fault:
        return Fault(f"deep {self.token.place}")

    def at(self, kind: Kind, value: str) -> bool:
        """Whether this token stands here."""
        return self.token.kind is kind and self.token.value == value

    def take(self, kind: Kind) -> str | int:
        """The value of a token that has to be of this kind."""
        if self.token.kind is not kind:
            raise self.wrong()
        self.next += 1
        return self.row[self.next - 1].value

    def signs(self, *values: str) -> None:
        """Goes over these signs, which have to stand here."""
        for value in values:
            if not self.at(Kind.SIGN, value):
                raise self.wrong()
            self.next += 1

    def word(self, value: str) -> None:
        """Goes over this word, which has to stand here."""
        if not self.at(Kind.WORD, value):
            raise self.wrong()
        self.next += 1

    def name(self) -> str:
        if self.token.value in RESERVED:
            raise self.wrong()
        return self.take(Kind.WORD)

    def description(self) -> tree.Description:
        self.word("machine")
        self.signs("{")
        numbers = [self.head_number(word) for word in ("word", "address", "size")]
        causes = self.at(Kind.WORD, "causes")
        if causes:
            self.next += 1
            self.word("on")
            self.signs(";")
        self.signs("}")
        instructions = []
        while self.token.kind is not Kind.END:
            instructions.append(self.instruction())
        return tree.Description(*numbers, causes, tuple(instructions))

    def head_number(self, word: str) -> int:
        self.word(word)
        number = self.take(Kind.NUMBER)
        self.signs(";")
        return number

    def instruction(self) -> tree.Instruction:
        self.word("instr")
        name = self.name()
        pattern = self.take(Kind.PATTERN)
        return tree.Instruction(name, pattern, self.block(1))

    def block(self, level: int) -> tree.Block:
        if not self.at(Kind.SIGN, "{"):
            raise self.wrong()
        if level > BLOCK_LEVELS:
            raise self.too_deep()
        self.signs("{")
        body = []
        while not self.at(Kind.SIGN, "}"):
            body.append(self.statement(level))
        self.signs("}")
        return tuple(body)

    def statement(self, level: int) -> tree.Statement:
        """A statement of a block of this level."""
        first = self.take(Kind.WORD)
        if first == "if":
            return self.conditional(level)
        if first == "trap":
            made = tree.Trap()
        elif first == "let":
            name = self.name()
            made = tree.Let(name, self.assigned())
        elif first == "mem":
            made = tree.Store(self.bracketed(1), self.assigned())
        elif first in tree.REGISTERS:
            made = tree.Assign(first, self.assigned())
        else:
            self.next -= 1
            raise self.wrong()
        self.signs(";")
        return made

    def assigned(self) -> tree.Expression:
        self.signs("=")
        return self.expression(1)

    def conditional(self, level: int) -> tree.If:
        condition = self.expression(1)
        body = self.block(level + 1)
        if not self.at(Kind.WORD, "else"):
            return tree.If(condition, body)
        self.next += 1
        return tree.If(condition, body, self.block(level + 1))

    def bracketed(self, level: int) -> tree.Expression:
        self.signs("[")
        address = self.expression(level)
        self.signs("]")
        return address

    def begins_expression(self) -> bool:
        kind, value = self.token.kind, self.token.value
        if kind is Kind.WORD:
            return value not in RESERVED or value in _FIRST_WORDS
        return kind is Kind.NUMBER or kind is Kind.SIGN and value in ("~", "(")

    def expression(self, level: int) -> tree.Expression:
        if not self.begins_expression():
            raise self.wrong()
        if level > EXPRESSION_LEVELS:
            raise self.too_deep()
        kind, value = self.token.kind, self.token.value
        self.next += 1
        if kind is Kind.NUMBER:
            self.signs(":")
            return tree.Literal(value, self.take(Kind.NUMBER))
        if value == "~":
            return tree.Not(self.expression(level + 1))
        if value == "(":
            return self.binary(level + 1)
        if value == "mem":
            return tree.Load(self.bracketed(level + 1))
        if value in tree.REGISTERS:
            return tree.Register(value)
        return self.call(value, level + 1) if value in _CALLS else tree.Name(value)

    def binary(self, level: int) -> tree.Binary:
        left = self.expression(level)
        if self.token.kind is not Kind.SIGN or self.token.value not in OPERATORS:
            raise self.wrong()
        sign = self.take(Kind.SIGN)
        right = self.expression(level)
        self.signs(")")
        return tree.Binary(sign, left, right)

    def call(self, which: str, level: int) -> tree.Expression:
        """The rest of one of _CALLS, whose parts have this level."""
        self.signs("(")
        first = self.expression(level)
        if which == "cat":
            made = tree.Cat(first, self.further(level))
        elif which == "sel":
            chosen = self.further(level)
            made = tree.Select(first, chosen, self.further(level))
        elif which == "cut":
            high = self.further_number()
            made = tree.Cut(first, high, self.further_number())
        else:
            made = tree.Extend(which == "sext", first, self.further_number())
        self.signs(")")
        return made

    def further(self, level: int) -> tree.Expression:
        self.signs(",")
        return self.expression(level)

    def further_number(self) -> int:
        self.signs(",")
        return self.take(Kind.NUMBER)
