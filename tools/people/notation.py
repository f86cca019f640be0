"""Texts as trees of operations, for scripts that read or change them; those of dialects of kinds, that of `Bench` among them. Modules of MLIR are
trees of the same form: `generic` reads them."""
import re
from dataclasses import dataclass, field

TOKEN = re.compile(r"\s*(?:([A-Za-z][A-Za-z0-9_]*|-?\d+)|([{}(),:;=]))")


@dataclass
class Operation:
    kind: str
    results: list = field(default_factory=list)
    operands: list = field(default_factory=list)
    number: int = None
    # pairs of a block's name and the values that it gets; a `fork` passes none
    edges: list = field(default_factory=list)
    # of each region its blocks
    regions: list = field(default_factory=list)


@dataclass
class Block:
    name: str
    arguments: list
    operations: list


def without_comments(text):
    return re.sub(r"//[^\n]*", lambda found: " " * len(found.group()), text.removeprefix("\ufeff"))


def tokens_of(text):
    tokens, at = [], 0
    text = without_comments(text).rstrip()
    while at < len(text):
        found = TOKEN.match(text, at)
        if not found:
            raise ValueError(f"no token at {at}")
        tokens.append(found.group(1) or found.group(2))
        at = found.end()
    return tokens


class Reader:
    """Reads what programs read; of other texts it says so or reads something."""

    def __init__(self, text):
        self.tokens, self.at = tokens_of(text), 0

    def peek(self, ahead=0):
        place = self.at + ahead
        return self.tokens[place] if place < len(self.tokens) else ""

    def take(self, wanted=None):
        token = self.peek()
        if not token or wanted and token != wanted:
            raise ValueError(f"expected {wanted or 'more'}")
        self.at += 1
        return token

    def is_name(self, ahead=0):
        return self.peek(ahead)[:1].isalpha()

    def names(self):
        found = []
        self.take("(")
        while self.peek() != ")":
            found.append(self.take())
            if self.peek() == ",":
                self.take()
        self.take(")")
        return found

    def operation(self):
        results = []
        if self.peek(1) in (",", "="):
            results.append(self.take())
            while self.take() == ",":
                results.append(self.take())
        op = Operation(self.take(), results)
        if self.peek().lstrip("-").isdigit():
            op.number = int(self.take())
        while self.is_name():
            name = self.take()
            if self.peek() == "(":
                op.edges.append([name, self.names()])
            else:
                op.operands.append(name)
        if op.kind == "fork":
            op.edges, op.operands = [[name, []] for name in op.operands[1:]], op.operands[:1]
        while self.peek() == "{":
            op.regions.append(self.blocks())
        return op

    def blocks(self):
        found = []
        self.take("{")
        while self.peek() != "}":
            if self.peek() == ";":
                self.take()
            elif self.is_name() and self.peek(1) == "(":
                name = self.take()
                found.append(Block(name, self.names(), []))
                self.take(":")
            elif found:
                found[-1].operations.append(self.operation())
            else:
                raise ValueError("expected a block")
        self.take("}")
        return found


def read(text):
    """The operation of a text."""
    reader = Reader(text)
    op = reader.operation()
    if reader.at != len(reader.tokens):
        raise ValueError("more than one operation")
    return op


def edge_text(edge):
    return f"{edge[0]}({', '.join(edge[1])})"


def head(op):
    """An operation without its regions."""
    words = [f"{', '.join(op.results)} ="] if op.results else []
    words.append(op.kind)
    if op.number is not None:
        words.append(str(op.number))
    words += op.operands
    words += [edge[0] if op.kind == "fork" else edge_text(edge) for edge in op.edges]
    return " ".join(words)


def lines_of_region(blocks, indent):
    lines = []
    for at, block in enumerate(blocks):
        lines.append(f"{indent}{block.name}({', '.join(block.arguments)}):")
        for place, inner in enumerate(block.operations):
            text = lines_of(inner, indent + "  ")
            is_last = place + 1 == len(block.operations) and at + 1 == len(blocks)
            lines += text[:-1] + [text[-1] + ("" if is_last else ";")]
        if not block.operations and at + 1 < len(blocks):
            lines[-1] += ";"
    return lines


def lines_of(op, indent=""):
    lines = [indent + head(op)]
    for at, blocks in enumerate(op.regions):
        lines[-1] += " {"
        lines += lines_of_region(blocks, indent) + [indent + "}"]
    return lines


def written(op):
    return "\n".join(lines_of(op)) + "\n"


def copied(op):
    """The same operation with parts of its own."""
    new = object.__new__(type(op))
    new.__dict__.update(op.__dict__)
    new.results, new.operands = list(op.results), list(op.operands)
    new.edges = [[name, list(values)] for name, values in op.edges]
    new.regions = [[copied_block(block) for block in blocks] for blocks in op.regions]
    return new


def copied_block(block):
    return Block(block.name, list(block.arguments), [copied(it) for it in block.operations])


def walk(op):
    """The operation and all inside it."""
    yield op
    for blocks in op.regions:
        for block in blocks:
            for inner in block.operations:
                yield from walk(inner)


def regions(op):
    """All lists of blocks."""
    return [blocks for inner in walk(op) for blocks in inner.regions]


def blocks_of(op):
    """All blocks."""
    return [block for blocks in regions(op) for block in blocks]


def values_of(op):
    """The operands and what the edges pass, as places that can be written."""
    for values in (op.operands, *(edge[1] for edge in op.edges)):
        for at in range(len(values)):
            yield values, at


def made_in(op):
    """The names of the values that are defined in it, those of arguments first."""
    made = [name for it in walk(op) for blocks in it.regions for block in blocks for name in block.arguments]
    return made + [name for it in walk(op) for name in it.results]


def scopes(op):
    """The operations inside which names of values are unique."""
    return [inner for inner in walk(op) if inner.kind == "func"] or [op]


def is_readable(op):
    """Whether each name is defined once and used where it may be."""
    for scope in scopes(op):
        made = made_in(scope)
        known = set(made)
        if len(known) < len(made) or any(values[at] not in known for it in walk(scope) for values, at in values_of(it)):
            return False
    for it in walk(op):
        for blocks in it.regions:
            names = {block.name for block in blocks}
            if it.kind in ("func", "scope") and not blocks:
                return False
            if any(edge[0] not in names for block in blocks for inner in block.operations for edge in inner.edges):
                return False
    return True


def mend(op):
    """Puts a value that is left for each that went, where a function has one, and takes others from what needs none."""
    loose = kinds_of_any_operands(op)
    for scope in scopes(op):
        made = made_in(scope)
        known = set(made)
        for it in walk(scope):
            if it.kind in loose and not made:
                it.operands = []
            for values, at in values_of(it):
                if values[at] not in known and made:
                    own = [name for name in made if name not in it.results]
                    values[at] = (own or made)[0]
    return op


def lasts(blocks):
    return [block.operations[-1] for block in blocks if block.operations]


def leaving(blocks):
    """The kinds of what leaves these blocks."""
    return [it.kind for it in lasts(blocks) if not (it.edges or it.results or it.regions)]


def kinds_of_any_operands(op):
    """Kinds that take any number of operands: two of `Bench`, and what leaves a region."""
    return {"sink", "scope", *leaving(blocks_of(op))}


def loose_operands(op):
    """Operands that can go by themselves."""
    kinds = kinds_of_any_operands(op)
    return [(it, at) for it in walk(op) if it.kind in kinds for at in range(len(it.operands))]


def ending(blocks):
    """What leaves a region of these blocks."""
    kinds = leaving(blocks)
    return Operation(kinds[0] if kinds else "ret")


def jump(op, edge, root):
    """What takes this edge of the operation alone, of a kind that the text has, if it is a branch."""
    if op.kind == "fork":
        return None
    kinds = [it.kind for it in lasts(blocks_of(root)) if len(it.edges) == 1 and not it.operands]
    return Operation(kinds[0] if kinds else "br", edges=[edge])


def simpler_forms(op):
    """What may stand for the operation, beside an ending and a jump: one with a smaller number."""
    if op.number is not None:
        for number in smaller(op.number):
            yield Operation(op.kind, list(op.results), number=number)


def smaller(number):
    """Numbers nearer to 0, the nearest first."""
    sign, size = (-1, -number) if number < 0 else (1, number)
    found = [0, 1, sign]
    found += [sign * (size // part) for part in (16, 4, 2)] + [number - sign]
    kept = []
    for it in found:
        if abs(it) < size and it not in kept:
            kept.append(it)
    return kept


def loose_entries(_):
    """Entries of lists of properties, which these texts have none of."""
    return []


def is_fixed(_block, _blocks):
    """Whether the arguments of the block have to stay."""
    return False
