"""Descriptions with random edits of their trees: mostly readable ones that are not valid."""

from collections.abc import Callable, Sequence
from dataclasses import replace
from random import Random

from pgvmodel import tree
from pgvmodel.reader import OPERATORS
from pgvmodel.tokens import NUMBERS
from pgvmodel.validity import fields, let_names

TOP = NUMBERS - 1
HEAD_NUMBERS = (
    0, 1, 3, 4, 5, 7, 8, 15, 16, 17, 20, 21, 24, 31, 32, 33, 63, 64, 65, 255, 256, 1048575, 1048576, 2**63, TOP,
)
NAMES = (*"abcxyzt", "tt", "Q")

Rewriter = Callable[[tree.Expression], tree.Expression]


def perturbed(rng: Random, description: tree.Description, edits: Sequence[int] = (1, 1, 2, 3)) -> tree.Description:
    """The description with some random edits of its head, names, patterns and bodies."""
    for _ in range(rng.choice(edits)):
        if rng.random() < 0.15 or not description.instructions:
            description = _with_other_head(rng, description)
        else:
            i = rng.randrange(len(description.instructions))
            edited = _edited_instruction(rng, description.instructions[i], rng.choice(description.instructions))
            description = with_instruction(description, i, edited)
    return description


def with_instruction(description: tree.Description, i: int, instruction: tree.Instruction) -> tree.Description:
    """The description with another instruction i."""
    rest = description.instructions
    return replace(description, instructions=(*rest[:i], instruction, *rest[i + 1 :]))


def _with_other_head(rng: Random, description: tree.Description) -> tree.Description:
    if rng.random() < 0.2:
        return replace(description, causes=not description.causes)
    return replace(description, **{rng.choice(["word", "address", "size"]): rng.choice(HEAD_NUMBERS)})


def _edited_instruction(rng: Random, instruction: tree.Instruction, other: tree.Instruction) -> tree.Instruction:
    kind = rng.choices(["name", "place", "pattern", "body"], [10, 15, 7, 53])[0]
    if kind == "name":
        return replace(instruction, name=other.name)
    if kind == "place":
        return replace(instruction, pattern=_edited_pattern(rng, instruction.pattern))
    if kind == "pattern":
        return replace(instruction, pattern=other.pattern)
    return replace(instruction, body=_edited_block(rng, instruction.body))


def _edited_pattern(rng: Random, pattern: str) -> str:
    i = rng.randrange(max(1, len(pattern)))
    kind = rng.choices(["insert", "drop", "replace"], [20, 20, 60])[0]
    put = rng.choice("01..abcxyz") if kind != "drop" else ""
    return pattern[:i] + put + pattern[i + (kind != "insert") :]


def _edited_block(rng: Random, block: tree.Block) -> tree.Block:
    """The block with one place edited, or a statement more."""
    if not block or rng.random() < 0.1:
        i = rng.randint(0, len(block))
        return (*block[:i], _new_statement(rng), *block[i:])
    i = rng.randrange(len(block))
    kind = rng.choices(["repeat", "drop", "swap", "edit"], [10, 10, 10, 70])[0]
    if kind == "repeat":
        return (*block[:i], block[i], *block[i:])
    if kind == "drop":
        return (*block[:i], *block[i + 1 :])
    if kind == "swap":
        swapped = list(block)
        k = rng.randrange(len(block))
        swapped[i], swapped[k] = swapped[k], swapped[i]
        return tuple(swapped)
    return (*block[:i], _edited_statement(rng, block[i]), *block[i + 1 :])


def _new_statement(rng: Random) -> tree.Statement:
    name = rng.choice(NAMES)
    read = tree.Name(name)
    mode = tree.Register("mode")
    inside = tree.If(mode, (tree.Let(name, read),), (tree.Let(name, mode),))
    let = tree.Let(name, tree.Literal(1, 1))
    return rng.choice([let, tree.Assign("pc", read), tree.Trap(), tree.Assign("mode", read), inside])


def _edited_statement(rng: Random, statement: tree.Statement) -> tree.Statement:
    if isinstance(statement, tree.If) and rng.random() < 0.6:
        if statement.otherwise is not None and rng.random() < 0.5:
            return replace(statement, otherwise=_edited_block(rng, statement.otherwise))
        return replace(statement, body=_edited_block(rng, statement.body))
    if isinstance(statement, tree.Let) and rng.random() < 0.3:
        return replace(statement, name=rng.choice(NAMES))
    if not statement.parts:
        return statement
    return statement.with_parts(_one_edited(rng, statement.parts))


def _one_edited(rng: Random, parts: tuple[tree.Expression, ...]) -> tuple[tree.Expression, ...]:
    i = rng.randrange(len(parts))
    return (*parts[:i], edited_expression(rng, parts[i]), *parts[i + 1 :])


def edited_expression(rng: Random, expression: tree.Expression) -> tree.Expression:
    """The expression with one place edited."""
    if expression.parts and rng.random() < 0.6:
        return expression.with_parts(_one_edited(rng, expression.parts))
    if rng.random() < 0.7:
        return _with_other_numbers(rng, expression)
    return _other_expression(rng, expression)


def _with_other_numbers(rng: Random, expression: tree.Expression) -> tree.Expression:
    """The numbers of a literal, a cut or an extension moved by one, to an edge, or by a power of two."""
    match expression:
        case tree.Literal(value, width):
            values = [0, 1, value, min(value + 1, TOP), TOP]
            return tree.Literal(rng.choice(values), rng.choice([0, 1, width, width + 1, 63, 64, 65, 128, TOP]))
        case tree.Cut(operand, high, low):
            highs = [high, high + 1, 63, 64, 2**32, TOP]
            return tree.Cut(operand, rng.choice(highs), rng.choice([low, low + 1, high, high + 1, 0, 64, 2**32, TOP]))
        case tree.Extend(signed, operand, width):
            widths = [0, width, width + 1, max(width - 1, 0), 64, 65, 256 + width, 2**32 + width, TOP]
            return tree.Extend(signed, operand, rng.choice(widths))
    return _other_expression(rng, expression)


def _other_expression(rng: Random, expression: tree.Expression) -> tree.Expression:
    """Another expression in the place of one, or around it."""
    mode = tree.Register("mode")
    others = [
        tree.Name(rng.choice(NAMES)),
        mode,
        tree.Register("pc"),
        tree.Literal(0, 1),
        tree.Not(expression),
        tree.Load(expression),
        tree.Binary(rng.choice(OPERATORS), expression, expression),
        tree.Cat(expression, expression),
        tree.Cut(expression, 0, 0),
        tree.Extend(True, expression, 64),
        tree.Select(mode, expression, expression),
        tree.Select(expression, expression, expression),
    ]
    return rng.choice(others)


def rewritten(description: tree.Description, rewrite: Rewriter) -> tree.Description:
    """The description with each expression, from below, rewritten."""
    instructions = (replace(row, body=_rewritten_block(row.body, rewrite)) for row in description.instructions)
    return replace(description, instructions=tuple(instructions))


def _rewritten_block(block: tree.Block, rewrite: Rewriter) -> tree.Block:
    def below(expression: tree.Expression) -> tree.Expression:
        return rewrite(expression.with_parts(tuple(map(below, expression.parts))))

    written = []
    for statement in block:
        statement = statement.with_parts(tuple(map(below, statement.parts)))
        if isinstance(statement, tree.If):
            inner = [_rewritten_block(part, rewrite) for part in statement.blocks]
            statement = tree.If(statement.condition, *inner)
        written.append(statement)
    return tuple(written)


def with_other_names(rng: Random, description: tree.Description) -> tree.Description:
    """Some leaves become names, of lets that may not be visible there, of fields, or of nothing."""
    often = rng.choice([0.02, 0.05, 0.2])
    instructions = (_renamed(rng, instruction, often) for instruction in description.instructions)
    return replace(description, instructions=tuple(instructions))


def _renamed(rng: Random, instruction: tree.Instruction, often: float) -> tree.Instruction:
    pool = [*let_names(instruction.body), *sorted(fields(instruction.pattern)), *rng.choice([[], [], [], ["zq"]])]

    def rewrite(expression: tree.Expression) -> tree.Expression:
        leaf = isinstance(expression, tree.Name | tree.Literal) or expression == tree.Register("pc")
        return tree.Name(rng.choice(pool)) if leaf and pool and rng.random() < often else expression

    return replace(instruction, body=_rewritten_block(instruction.body, rewrite))


def with_other_widths(rng: Random, description: tree.Description) -> tree.Description:
    """Some numbers, signs, parts and targets change, so that widths may misfit; names stay."""
    often = rng.choice([0.003, 0.01, 0.03])

    def rewrite(expression: tree.Expression) -> tree.Expression:
        return _with_other_width(rng, expression) if rng.random() < often else expression

    description = rewritten(description, rewrite)
    instructions = (replace(row, body=_retargeted(rng, row.body, often * 3)) for row in description.instructions)
    return replace(description, instructions=tuple(instructions))


def _with_other_width(rng: Random, expression: tree.Expression) -> tree.Expression:
    near = rng.choice([-1, 0, 1])
    match expression:
        case tree.Literal(value, width):
            over = min(1 << width, TOP)
            return tree.Literal(rng.choice([value, value, over, over - 1]), max(0, width + near))
        case tree.Cut(operand, high, low):
            return tree.Cut(operand, high + rng.choice([0, 1, 1]), low + rng.choice([0, 1, 1]))
        case tree.Extend(signed, operand, width):
            return tree.Extend(signed, operand, width + near)
        case tree.Binary(_, left, right):
            return tree.Binary(rng.choice(OPERATORS), left, right)
        case tree.Select(condition, chosen, otherwise):
            first = rng.choice([condition, chosen])
            return tree.Select(first, otherwise, chosen)
        case tree.Cat(upper, lower):
            return tree.Cat(lower, upper)
    mode = tree.Register("mode")
    return rng.choice([mode, tree.Register("pc"), tree.Not(expression), tree.Load(expression), tree.Cat(expression, mode)])


def _retargeted(rng: Random, block: tree.Block, often: float) -> tree.Block:
    """The block with other registers assigned here and there."""
    written = []
    for statement in block:
        if isinstance(statement, tree.Assign) and rng.random() < often:
            statement = replace(statement, register=rng.choice(tree.REGISTERS))
        elif isinstance(statement, tree.If):
            statement = tree.If(statement.condition, *(_retargeted(rng, part, often) for part in statement.blocks))
        written.append(statement)
    return tuple(written)


def with_limit_fault(rng: Random, description: tree.Description) -> tree.Description:
    """One instruction gets statements that bring it near a limit, or over it."""
    i = rng.randrange(len(description.instructions))
    instruction = description.instructions[i]
    zero = tree.Literal(0, description.address)
    deep = tree.Not(tree.Not(tree.Not(tree.Register("mode"))))
    more = rng.choice(
        [
            (tree.Store(zero, tree.Literal(0, description.word)),) * rng.choice([8, 9]),
            (tree.Trap(),) * rng.choice([190, 200, 201]),
            tuple(tree.Let(f"l{k}", tree.Literal(0, 1)) for k in range(rng.choice([30, 32, 33]))),
            (tree.Assign("mode", deep),) * rng.choice([150, 190]),
        ]
    )
    body = instruction.body + more if rng.random() < 0.5 else more + instruction.body
    return with_instruction(description, i, replace(instruction, body=body))
