"""Modules of MLIR in the generic form as trees of operations, for scripts that read or change them."""
import re
from dataclasses import dataclass, field

import notation
from notation import Block, blocks_of, made_in, regions, smaller, values_of, walk

# what a text without comments is made of: strings, arrows, comparisons, brackets, commas and ends of lines
PIECE = re.compile(r'"(?:[^"\\]|\\.)*"|->|[<>]=|[()\[\]{}<>,\n]')
# a bracket without others in it, and what has none
FLAT = re.compile(r'[(\[{<][^()\[\]{}<>"]*[)\]}>]')
PLAIN = re.compile(r'[^()\[\]{}<>"]*')
COMMENT = re.compile(r'"(?:[^"\\]|\\.)*"|(//[^\n]*)')
DEPTH = {"(": 1, "[": 1, "{": 1, "<": 1, ")": -1, "]": -1, "}": -1, ">": -1}
BLANK = re.compile(r"\s*")
RESULTS = re.compile(r"%[\w$.-]+(?::\d+)?(?:\s*,\s*%[\w$.-]+(?::\d+)?)*(?=\s*=)")
NAME = re.compile(r'"((?:[^"\\]|\\.)*)"')
ARGUMENT = re.compile(r"%[\w$.-]+")
LABEL = re.compile(r"\^[\w$.-]+")
WORD = re.compile(r"[\w$.#!@-]+")
ALIAS = re.compile(r"[#!][\w$.-]+(?=\s*=)")
BRANCH = re.compile(r"(llvm|cf)\.(br|cond_br|switch)")
NUMBER = re.compile(r"value = (-?\d+) : (i\d+|index)")
# properties that count the operands of edges
SEGMENTS, CASES = "operandSegmentSizes", "case_operand_segments"
# entries that operations do without; so they do without attributes of other dialects, which have a dot in their names
LOOSE = re.compile(
    r"[\w$]+\.[\w$.]+|arg_attrs|res_attrs|passthrough|target_cpu|target_features|tune_cpu|uwtable_kind|memory_effects|no_unwind|will_return|dso_local"
    r"|inline_hint|unnamed_addr|frame_pointer|tbaa|alias_scopes|noalias_scopes|access_groups|loop_annotation|branch_weights|alignment|personality"
)


class Value(str):
    """The name of a value, with its type, and with the location of an argument."""

    location = ""

    def __new__(cls, name, kind):
        value = super().__new__(cls, name)
        value.type = kind
        return value


@dataclass
class Operation(notation.Operation):
    # the entries of both lists, as they are written
    properties: list = field(default_factory=list)
    attributes: list = field(default_factory=list)
    location: str = ""
    # what is around the operation of a whole text, and the kinds that end blocks in it, with None where a block was empty
    aliases: list = field(default_factory=list)
    resources: str = ""
    ends: set = field(default_factory=set)


def without_comments(text):
    """The text with blanks for its comments."""
    return COMMENT.sub(lambda found: " " * len(found.group()) if found.group(1) else found.group(), text.removeprefix("\ufeff"))


def closing(text, at):
    """The place behind the bracket that closes the one that is opened there."""
    if flat := FLAT.match(text, at):
        return flat.end()
    depth = 0
    for found in PIECE.finditer(text, at):
        depth += DEPTH.get(found.group(), 0)
        if not depth:
            return found.end()
    raise ValueError(f"a bracket isn't closed at {at}")


def parts(text):
    """What stands between the commas that are in no bracket."""
    if PLAIN.fullmatch(text):
        return [part for part in map(str.strip, text.split(",")) if part]
    found, start, depth = [], 0, 0
    for piece in PIECE.finditer(text):
        depth += DEPTH.get(piece.group(), 0)
        if piece.group() == "," and not depth:
            found.append(text[start : piece.start()].strip())
            start = piece.end()
    return [part for part in [*found, text[start:].strip()] if part]


class Reader:
    """Reads what `plir` reads; of other texts it says so or reads something."""

    def __init__(self, text):
        self.text, self.at = without_comments(text), 0
        self.skip()

    def skip(self):
        self.at = BLANK.match(self.text, self.at).end()

    def sees(self, word):
        return self.text.startswith(word, self.at)

    def accept(self, word):
        if not self.sees(word):
            return False
        self.at += len(word)
        self.skip()
        return True

    def expect(self, word):
        if not self.accept(word):
            raise ValueError(f"expected {word} at {self.at}")

    def take(self, pattern):
        found = pattern.match(self.text, self.at)
        if not found:
            raise ValueError(f"expected {pattern.pattern} at {self.at}")
        self.at = found.end()
        self.skip()
        return found.group(found.lastindex or 0)

    def bracket(self):
        """What is in the bracket that is opened here."""
        start, self.at = self.at + 1, closing(self.text, self.at)
        inside = self.text[start : self.at - 1]
        self.skip()
        return inside

    def type(self):
        start = self.at
        if self.sees("("):
            self.bracket()
            if self.accept("->"):
                self.type()
        else:
            self.take(WORD)
            if self.sees("<"):
                self.bracket()
        return self.text[start : self.at].strip()

    def location(self):
        start = self.at
        if self.accept("loc"):
            self.bracket()
        return self.text[start : self.at].strip()

    def values(self, names):
        """These names, with the types that stand here."""
        return [Value(name, kind) for name, kind in zip(names, parts(self.bracket()), strict=True)]

    def results(self, names):
        """The results that have these names, with the types that stand here."""
        types = parts(self.bracket()) if self.sees("(") else [self.type()]
        each = []
        for name in names:
            word, _, count = name.partition(":")
            each += [f"{word}#{at}" for at in range(int(count))] if count else [word]
        return [Value(name, kind) for name, kind in zip(each or [""] * len(types), types, strict=True)]

    def operation(self):
        names = parts(self.take(RESULTS)) if self.sees("%") else []
        self.accept("=")
        op = Operation(self.take(NAME))
        operands = parts(self.bracket())
        labels = parts(self.bracket()) if self.sees("[") else []
        if self.sees("<"):
            op.properties = parts(self.bracket().strip()[1:-1])
        if self.accept("("):
            while not self.accept(")"):
                op.regions.append(self.region())
                self.accept(",")
        if self.sees("{"):
            op.attributes = parts(self.bracket())
        self.expect(":")
        operands = self.values(operands)
        self.expect("->")
        op.results = self.results(names)
        op.location = self.location()
        op.operands, op.edges = split(op, operands, labels)
        return op

    def region(self):
        self.expect("{")
        blocks = []
        while not self.accept("}"):
            if self.sees("^"):
                blocks.append(self.block())
                continue
            if not blocks:
                blocks.append(Block("", [], []))
            blocks[-1].operations.append(self.operation())
        return blocks

    def block(self):
        block = Block(self.take(LABEL), [], [])
        if self.accept("("):
            while not self.accept(")"):
                name = self.take(ARGUMENT)
                self.expect(":")
                value = Value(name, self.type())
                value.location = self.location()
                block.arguments.append(value)
                self.accept(",")
        self.expect(":")
        return block

    def alias(self):
        """A line that names an attribute or a type."""
        start, depth = self.at, 0
        self.take(ALIAS)
        for found in PIECE.finditer(self.text, self.at):
            depth += DEPTH.get(found.group(), 0)
            if found.group() == "\n" and not depth:
                self.at = found.end()
                break
        line = self.text[start : self.at].strip()
        self.skip()
        return line


def numbers_in(entries, name):
    """The numbers of the array that is called so."""
    found = [entry.partition(":")[2] for entry in entries if entry.startswith(f"{name} =")]
    return [int(number) for number in re.findall(r"\d+", "".join(found))]


def split(op, operands, labels):
    """The operands that are the operation's own, and the edges with those that they pass; of what is no known branch all are its own."""
    branch = BRANCH.fullmatch(op.kind)
    if not branch:
        return operands, [[label, []] for label in labels]
    own, counts = 0, [len(operands)]
    if branch.group(2) != "br":
        entries = op.properties + op.attributes
        own, counts = 1, numbers_in(entries, SEGMENTS)[1:]
        if branch.group(2) == "switch":
            counts = counts[:1] + numbers_in(entries, CASES)
    if own + sum(counts) != len(operands) or len(counts) != len(labels):
        raise ValueError(f"the edges of a {op.kind} pass another number of operands")
    ends = [own + sum(counts[: at + 1]) for at in range(len(counts))]
    return operands[:own], [[label, operands[end - count : end]] for label, count, end in zip(labels, counts, ends)]


def read(text):
    """The operation of a text, with what is around it."""
    reader = Reader(text)
    aliases = []
    while reader.sees("#") or reader.sees("!"):
        aliases.append(reader.alias())
    op = reader.operation()
    while reader.sees("#") or reader.sees("!"):
        aliases.append(reader.alias())
    op.aliases, op.resources = aliases, reader.text[reader.at :].strip()
    op.ends = {*map(last_kind, blocks_of(op)), "llvm.unreachable", "llvm.br", "cf.br"}
    if op.resources and not op.resources.startswith("{-#"):
        raise ValueError("more than one operation")
    return op


def last_kind(block):
    return block.operations[-1].kind if block.operations else None


def names_of_results(op):
    """The results as an operation names them: those of one name together."""
    counts = {}
    for name in op.results:
        word, _, number = name.partition("#")
        counts[word] = int(number) + 1 if number else 0
    return ", ".join(f"{word}:{count}" if count else word for word, count in counts.items() if word)


def with_counts(op, entries):
    """The entries, with the counts of operands that the operation's edges pass."""
    if not BRANCH.fullmatch(op.kind):
        return entries
    counts = [len(passed) for _, passed in op.edges]
    segments = [1, counts[0], sum(counts[1:])] if op.kind.endswith("switch") else [1, *counts]
    new = {SEGMENTS: segments, CASES: counts[1:]}

    def entry(text):
        name = text.partition(" =")[0]
        numbers = ", ".join(map(str, new.get(name, [])))
        return f"{name} = array<i32{f': {numbers}' if numbers else ''}>" if name in new else text

    return [entry(text) for text in entries]


def lines_of_region(blocks, indent):
    lines = []
    for block in blocks:
        arguments = ", ".join(f"{it}: {it.type} {it.location}".rstrip() for it in block.arguments)
        if block.name:
            lines.append(f"{indent}{block.name}{f'({arguments})' if arguments else ''}:")
        for it in block.operations:
            lines += lines_of(it, indent + "  ")
    return lines


def lines_of(op, indent=""):
    passed = [values[at] for values, at in values_of(op)]
    named = names_of_results(op)
    line = f'{indent}{f"{named} = " if named else ""}"{op.kind}"({", ".join(passed)})'
    if op.edges:
        line += f"[{', '.join(label for label, _ in op.edges)}]"
    if op.properties:
        line += f" <{{{', '.join(with_counts(op, op.properties))}}}>"
    lines = [line]
    for at, blocks in enumerate(op.regions):
        lines[-1] += ", {" if at else " ({"
        lines += lines_of_region(blocks, indent) + [indent + "}"]
    lines[-1] += ")" if op.regions else ""
    if op.attributes:
        lines[-1] += f" {{{', '.join(with_counts(op, op.attributes))}}}"
    types = [it.type for it in op.results]
    made = types[0] if len(types) == 1 and not types[0].startswith("(") else f"({', '.join(types)})"
    lines[-1] += f" : ({', '.join(it.type for it in passed)}) -> {made} {op.location}".rstrip()
    return lines


def aliases_for(text, aliases):
    """Those of the aliases that the text uses, or one of these."""
    lines = {line.partition(" ")[0]: line for line in aliases}
    used, left = set(), [text]
    while left:
        new = {name for name in re.findall(r"[#!][\w$.-]+", left.pop()) if name in lines and name not in used}
        used |= new
        left += [lines[name].partition("=")[2] for name in new]
    return [line for name, line in lines.items() if name in used]


def written(op):
    lines = lines_of(op) + ([op.resources] if op.resources else [])
    return "\n".join(aliases_for("\n".join(lines), op.aliases) + lines) + "\n"


def scopes(op):
    """The operations inside which names of values are unique: those directly in modules."""
    if not op.kind.endswith(".module"):
        return [op]
    return [scope for blocks in op.regions for block in blocks for it in block.operations for scope in scopes(it)]


def is_readable(op):
    """Whether blocks end as they did, and each name of a block is one of its region's; `mend` has seen to names of values."""
    if any(last_kind(block) not in op.ends for scope in scopes(op) for block in blocks_of(scope)):
        return False
    for blocks in regions(op):
        names = {block.name for block in blocks}
        if any(label not in names for block in blocks for it in block.operations for label, _ in it.edges):
            return False
    return True


def mend(op):
    """Puts a value of the same type, from before in the block or from the entry, for each that went; None where none is there."""
    for scope in scopes(op):
        known = set(made_in(scope))
        for blocks in regions(scope):
            there = {}
            for block in blocks:
                here = there if block is blocks[0] else dict(there)
                here.update((value.type, value) for value in block.arguments)
                if not all(replace_lost(it, known, here) for it in block.operations):
                    return None
    return op


def replace_lost(op, known, last):
    """Whether the last value of its type could be put for each operand that isn't known. The operation's own results come last then."""
    for values, at in values_of(op):
        if values[at] not in known:
            if values[at].type not in last:
                return False
            values[at] = last[values[at].type]
    last.update((value.type, value) for value in op.results if value)
    return True


def loose_operands(_):
    """Operands that can go by themselves: the type of each operation asks for all."""
    return []


def loose_entries(op):
    """Entries that can go by themselves: where they are."""
    lists = [(it, name) for it in walk(op) for name in ("properties", "attributes")]
    return [(it, name, entry) for it, name in lists for entry in getattr(it, name) if LOOSE.fullmatch(entry.partition(" =")[0])]


def is_fixed(block, blocks):
    """Whether the arguments of the block have to stay: those of a function, which has a type, and those that get values of unknown edges."""
    users = (it for other in blocks for it in other.operations if any(label == block.name for label, _ in it.edges))
    return block is blocks[0] or not all(BRANCH.fullmatch(it.kind) for it in users)


def ending(blocks):
    """What leaves a region of these blocks."""
    leaving = [block.operations[-1] for block in blocks if block.operations and not block.operations[-1].edges]
    if not leaving or leaving[0].kind.startswith("llvm."):
        return Operation("llvm.unreachable")
    return notation.copied(leaving[0])


def jump(op, edge, _):
    """What takes this edge of the operation alone, if it is a known branch."""
    branch = BRANCH.fullmatch(op.kind)
    return Operation(f"{branch.group(1)}.br", edges=[edge]) if branch else None


def simpler_forms(op):
    """What may stand for the operation, beside an ending and a jump: a declaration for a function, a smaller number, a zero."""
    if any(op.regions) and any(entry.startswith("sym_name =") for entry in op.properties + op.attributes):
        yield with_parts(op, regions=[[] for _ in op.regions])
    value = next(filter(None, map(NUMBER.fullmatch, op.properties)), None)
    if value and op.kind.endswith(".constant"):
        for number in smaller(int(value.group(1))):
            yield with_parts(op, properties=[f"value = {number} : {value.group(2)}"])
    elif len(op.results) == 1 and not op.kind.startswith(("llvm.mlir.", "arith.constant")):
        yield from zeros(op)


def zeros(op):
    """A zero for the operation's one result."""
    kind = op.results[0].type
    if op.kind.startswith("llvm."):
        yield Operation("llvm.mlir.zero", list(op.results))
    elif re.fullmatch(r"i\d+|index", kind):
        yield Operation("arith.constant", list(op.results), properties=[f"value = 0 : {kind}"])


def with_parts(op, **new):
    found = notation.copied(op)
    found.__dict__.update(new)
    return found
