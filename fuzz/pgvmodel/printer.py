"""A description's tokens, and its text in the layout of `print`."""

from pgvmodel import tree


def printed(description: tree.Description) -> bytes:
    """The text that `print` writes."""
    return laid_out(tokens_of(description))


def tokens_of(description: tree.Description) -> list[str]:
    """The tokens of a description; numbers are decimal, patterns stand in quotes."""
    head = f"machine {{ word {description.word} ; address {description.address} ; size {description.size} ;".split()
    if description.causes:
        head += ["causes", "on", ";"]
    row = [*head, "}"]
    for instruction in description.instructions:
        row += ["instr", instruction.name, f'"{instruction.pattern}"', *_block(instruction.body)]
    return row


def _block(block: tree.Block) -> list[str]:
    row = ["{"]
    for statement in block:
        row += _statement(statement)
    return [*row, "}"]


def _statement(statement: tree.Statement) -> list[str]:
    match statement:
        case tree.Let(name, value):
            return ["let", name, "=", *_expression(value), ";"]
        case tree.Store(address, value):
            return ["mem", "[", *_expression(address), "]", "=", *_expression(value), ";"]
        case tree.Assign(register, value):
            return [register, "=", *_expression(value), ";"]
        case tree.If(condition, body, None):
            return ["if", *_expression(condition), *_block(body)]
        case tree.If(condition, body, otherwise):
            return ["if", *_expression(condition), *_block(body), "else", *_block(otherwise)]
    return ["trap", ";"]


def _expression(expression: tree.Expression) -> list[str]:
    match expression:
        case tree.Literal(value, width):
            return [str(value), ":", str(width)]
        case tree.Name(word) | tree.Register(word):
            return [word]
        case tree.Load(address):
            return ["mem", "[", *_expression(address), "]"]
        case tree.Not(operand):
            return ["~", *_expression(operand)]
        case tree.Binary(sign, left, right):
            return ["(", *_expression(left), sign, *_expression(right), ")"]
        case tree.Cat(upper, lower):
            return _call("cat", _expression(upper), _expression(lower))
        case tree.Cut(operand, high, low):
            return _call("cut", _expression(operand), [str(high)], [str(low)])
        case tree.Extend(signed, operand, width):
            return _call("sext" if signed else "ext", _expression(operand), [str(width)])
        case tree.Select():
            return _call("sel", *map(_expression, expression.parts))
    raise TypeError(expression)


def _call(word: str, first: list[str], *further: list[str]) -> list[str]:
    row = [word, "(", *first]
    for part in further:
        row += [",", *part]
    return [*row, ")"]


def laid_out(row: list[str]) -> bytes:
    """Tokens as lines: one ends after `;`, `{` and `}`, and is indented by two spaces for each brace that is open there."""
    lines = []
    line: list[str] = []
    depth = 0
    for token in row:
        depth -= token == "}"
        if not line:
            indent = "  " * depth
        line.append(token)
        depth += token == "{"
        if token in ("{", "}", ";"):
            lines.append(indent + " ".join(line) + "\n")
            line = []
    return "".join(lines).encode()
