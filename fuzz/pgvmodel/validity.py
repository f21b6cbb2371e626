"""Which descriptions are valid: seven classes, each tried over the whole description before the next."""

from collections.abc import Iterator

from pgvmodel import tree
from pgvmodel.faults import Fault
from pgvmodel.widths import check_widths

WORD_WIDTHS = (16, 24, 32, 40, 48, 56, 64)
ADDRESS_WIDTHS = range(4, 21)
LEAST_SIZE = 4

MOST_INSTRUCTIONS = 256
MOST_ACCESSES = 8
MOST_LETS = 32
MOST_STATEMENTS = 200
MOST_EXPRESSIONS = 1024


def check(description: tree.Description) -> None:
    """Refuses with the first class that fails, and with what is at fault in it."""
    _check_shape(description)
    _check_limits(description)
    _check_twice(description)
    _check_patterns(description)
    _check_overlaps(description)
    for number, instruction in enumerate(description.instructions):
        _check_names(number, instruction)
    for number, instruction in enumerate(description.instructions):
        check_widths(number, instruction, description)


def _check_shape(description: tree.Description) -> None:
    """A word holds a mode, three addresses and, where causes are on, a cause of two bits; a size is an address."""
    address = description.address
    if description.word not in WORD_WIDTHS or address not in ADDRESS_WIDTHS:
        raise Fault("shape")
    status = 3 * address + (3 if description.causes else 1)
    if status > description.word or not LEAST_SIZE <= description.size <= 2**address - 1:
        raise Fault("shape")


def _check_limits(description: tree.Description) -> None:
    """The first instruction over a limit, and its least limit; the first one too many is over limit 1."""
    for number, instruction in enumerate(description.instructions):
        if number == MOST_INSTRUCTIONS:
            raise Fault(f"limit 1 {number}")
        for which, (count, most) in enumerate(_counts(instruction.body), 2):
            if count > most:
                raise Fault(f"limit {which} {number}")


def _counts(body: tree.Block) -> Iterator[tuple[int, int]]:
    """How many accesses, lets, statements and expressions there are, each beside how many there may be."""
    rows = list(tree.statements(body))
    below = list(tree.expressions(body))
    stores = sum(isinstance(row, tree.Store) for row in rows)
    loads = sum(isinstance(expression, tree.Load) for expression in below)
    yield stores + loads, MOST_ACCESSES
    yield sum(isinstance(row, tree.Let) for row in rows), MOST_LETS
    yield len(rows), MOST_STATEMENTS
    yield len(below), MOST_EXPRESSIONS


def fields(pattern: str) -> set[str]:
    """The letters of a pattern."""
    return {place for place in pattern if tree.is_field(place)}


def let_names(body: tree.Block) -> list[str]:
    """The names of all lets of a body, in the order of the text."""
    return [row.name for row in tree.statements(body) if isinstance(row, tree.Let)]


def _check_twice(description: tree.Description) -> None:
    """First the names of instructions; then, of each instruction, the lets among its fields and earlier lets."""
    _check_all_new([instruction.name for instruction in description.instructions], set())
    for instruction in description.instructions:
        _check_all_new(let_names(instruction.body), fields(instruction.pattern))


def _check_all_new(names: list[str], seen: set[str]) -> None:
    for name in names:
        if name in seen:
            raise Fault(f"twice {name}")
        seen.add(name)


def _check_patterns(description: tree.Description) -> None:
    """A pattern has a place for each bit of a word, and each of its letters stands in one run."""
    for number, instruction in enumerate(description.instructions):
        pattern = instruction.pattern
        if len(pattern) != description.word:
            raise Fault(f"pattern {number}")
        if any(letter * pattern.count(letter) not in pattern for letter in fields(pattern)):
            raise Fault(f"pattern {number}")


def _check_overlaps(description: tree.Description) -> None:
    """Two patterns overlap where some word matches both: at no place one has 0 and the other 1."""
    fixed = [_zeros_and_ones(instruction.pattern) for instruction in description.instructions]
    for i, (zeros, ones) in enumerate(fixed):
        for k in range(i + 1, len(fixed)):
            if not zeros & fixed[k][1] and not ones & fixed[k][0]:
                raise Fault(f"overlap {i} {k}")


def _zeros_and_ones(pattern: str) -> tuple[int, int]:
    """The places of 0 and those of 1, as words."""
    return tuple(sum(1 << i for i, place in enumerate(reversed(pattern)) if place == digit) for digit in "01")


def _check_names(number: int, instruction: tree.Instruction) -> None:
    """A name is a field, or a let that stands before it in its block or in a block around it."""

    def check_block(block: tree.Block, visible: set[str]) -> None:
        seen = set(visible)
        for statement in block:
            _check_visible(number, statement, seen)
            if isinstance(statement, tree.Let):
                seen.add(statement.name)
            for inner in statement.blocks:
                check_block(inner, seen)

    check_block(instruction.body, fields(instruction.pattern))


def _check_visible(number: int, statement: tree.Statement, visible: set[str]) -> None:
    for part in statement.parts:
        for expression in tree.with_below(part):
            if isinstance(expression, tree.Name) and expression.name not in visible:
                raise Fault(f"name {number} {expression.name}")
