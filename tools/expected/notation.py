"""The texts of `Bench` as plain objects, linked, walked and printed; `tools/people/notation.py` reads them. Nothing is shared with the crates."""
import sys
from importlib.machinery import SourceFileLoader
from importlib.util import module_from_spec, spec_from_loader
from pathlib import Path

READER = SourceFileLoader("texts", str(Path(__file__).resolve().parent.parent / "people/notation.py"))
texts = module_from_spec(spec_from_loader("texts", READER))
sys.modules["texts"] = texts
READER.exec_module(texts)

# the folds, and what has no side effects, may lose arguments of any block, or of any block but the entry
FOLDS = ("const", "add", "mul", "div")
PURE = ("const", "add", "mul", "pair", "sink", "box")
LOSES_ANY, LOSES_INNER = ("box",), ("func", "scope")
BRANCHES, TERMINATORS = ("br", "cbr"), ("br", "cbr", "ret", "fork")
SPAN = 1 << 64


class Value:
    """A value; `maker` is the operation or the block that defines it."""

    def __init__(self):
        self.maker = None


class Block:
    def __init__(self):
        self.args, self.ops, self.region = [], [], None


class Region:
    def __init__(self, holder):
        self.holder, self.blocks = holder, []


class Op:
    def __init__(self):
        self.kind, self.attr, self.block = None, None, None
        self.results, self.operands, self.regions, self.successors, self.counts = [], [], [], [], []

    def edge(self, i):
        """The places of the operands that the edge forwards."""
        first = (0 if self.kind == "br" else 1) + sum(self.counts[:i])
        return range(first, first + self.counts[i])


class Linker:
    """Makes these objects of the tree of a text: names become values and blocks."""

    def __init__(self):
        self.values = {}

    def value(self, name, maker=None):
        """The value of this name; `maker` defines it."""
        value = self.values.setdefault(name, Value())
        value.maker = maker or value.maker
        return value

    def block(self, tree, region):
        block = Block()
        block.args, block.region = [self.value(name, block) for name in tree.arguments], region
        for inner in tree.operations:
            op = self.operation(inner)
            op.block = block
            block.ops.append(op)
        return block

    def region(self, holder, trees):
        region, labels = Region(holder), {}
        for tree in trees:
            labels[tree.name] = self.block(tree, region)
            region.blocks.append(labels[tree.name])
        for block in region.blocks:
            for op in block.ops:
                op.successors = [labels[name] for name in op.successors]
        return region

    def operation(self, tree):
        op = Op()
        op.kind, op.attr = tree.kind, tree.number
        op.results = [self.value(name, op) for name in tree.results]
        op.operands = [self.value(name) for name in tree.operands]
        for target, passed in tree.edges:
            op.successors.append(target)
            op.operands += [self.value(name) for name in passed]
            op.counts.append(len(passed))
        outer = self.values
        if op.kind == "func":
            self.values = {}
        op.regions = [self.region(op, blocks) for blocks in tree.regions]
        self.values = outer
        return op


def read(text):
    return Linker().operation(texts.read(text))


def inside(op):
    """What is inside the operation, in pre-order."""
    for region in op.regions:
        for block in region.blocks:
            for inner in block.ops:
                yield inner
                yield from inside(inner)


def within(op):
    return [op, *inside(op)]


def blocks_inside(op):
    return [block for inner in within(op) for region in inner.regions for block in region.blocks]


def made_inside(op):
    """The values that are defined inside it."""
    return [value for block in blocks_inside(op) for part in (block, *block.ops) for value in (part.args if part is block else part.results)]


def uses(root):
    """Of each value its uses: users and places."""
    found = {}
    for op in within(root):
        for place, value in enumerate(op.operands):
            found.setdefault(value, []).append((op, place))
    return found


def replace(root, old, new):
    for op in within(root):
        op.operands = [new if value is old else value for value in op.operands]


def constant(number):
    op, value = Op(), Value()
    op.kind, op.attr, op.results, value.maker = "const", number, [value], op
    return op


def known(value):
    """The number of a constant, or none."""
    return value.maker.attr if isinstance(value.maker, Op) and value.maker.kind == "const" else None


def wrapped(number):
    number %= SPAN
    return number - SPAN if number >= SPAN // 2 else number


def quotient(a, b):
    if a is None or b is None or b == 0:
        return None
    found = abs(a) // abs(b) * (1 if (a < 0) == (b < 0) else -1)
    return None if found >= SPAN // 2 else found


def fold(op, numbers):
    """The constant that the one result is by these numbers of the operands, or none."""
    if op.kind == "const":
        return op.attr
    if op.kind not in FOLDS:
        return None
    a, b = numbers
    if op.kind == "div":
        return quotient(a, b)
    if op.kind == "mul" and 0 in (a, b):
        return 0
    if a is None or b is None:
        return None
    return wrapped(a + b if op.kind == "add" else a * b)


class Printer:
    """Numbers the values of each `func` in pre-order and the blocks of each region, and prints."""

    def __init__(self, root):
        self.names, self.next = {}, 0
        self.number(root)
        self.text = self.operation(root, {})

    def number(self, op):
        if op.kind == "func":
            self.next = 0
        self.add(op.results)
        for region in op.regions:
            for block in region.blocks:
                self.add(block.args)
                for inner in block.ops:
                    self.number(inner)

    def add(self, values):
        for value in values:
            self.names[value] = f"v{self.next}"
            self.next += 1

    def listed(self, values, between):
        return between.join(self.names[value] for value in values)

    def target(self, op, i, labels):
        values = self.listed([op.operands[place] for place in op.edge(i)], ", ")
        return f"{labels[op.successors[i]]}({values})"

    def operation(self, op, labels):
        words = [self.listed(op.results, ", ") + " ="] if op.results else []
        words.append(op.kind)
        if op.kind == "const":
            words.append(str(op.attr))
        elif op.kind == "fork":
            words += [self.names[op.operands[0]], *(labels[block] for block in op.successors)]
        elif op.kind in BRANCHES:
            words += [self.names[op.operands[0]]] if op.kind == "cbr" else []
            words += [self.target(op, i, labels) for i in range(len(op.successors))]
        else:
            words += [self.names[value] for value in op.operands]
        return " ".join(words + [self.region(region) for region in op.regions])

    def region(self, region):
        labels = {block: f"b{i}" for i, block in enumerate(region.blocks)}
        texts = []
        for block in region.blocks:
            body = "; ".join(self.operation(op, labels) for op in block.ops)
            texts.append(f"{labels[block]}({self.listed(block.args, ', ')}):" + (f" {body}" if body else ""))
        return "{ " + "; ".join(texts) + " }" if texts else "{ }"


def printed(root):
    return Printer(root).text
