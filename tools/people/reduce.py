#!/usr/bin/env python3
"""plir reduce FILE -- COMMAND: the smallest text that keeps what a text does.

A text is made smaller as long as it keeps what was asked for: operations, blocks, arguments, operands and regions go, branches
become jumps and ends, and numbers go towards 0; in a module of MLIR functions become declarations, results zeros, and attributes go that
operations do without. Each text that is tried reads, and is fit to run where the first one is.
"""
import argparse
import sys
from pathlib import Path

sys.path.insert(0, str(Path(__file__).resolve().parent))
import program
from notation import blocks_of, copied, regions, walk

KINDS = {
    "dominance": "isn't defined on each way",
    "visible": "isn't visible",
    "edge": "another number of values",
    "outside": "defined outside",
    "last": "isn't its last one",
}


class Reduction:
    """The best text up to now, as its operation and written."""

    def __init__(self, op, texts, keeps):
        self.best, self.texts, self.keeps = op, texts, keeps
        self.text = texts.written(op)
        self.tries, self.seen, self.progress = 0, {self.text}, program.Progress()

    def attempt(self, op):
        """Whether the text of the operation keeps what was asked for; then it is the best. The operation may be changed."""
        op = op and self.texts.mend(op)
        if op is None or not self.texts.is_readable(op):
            return False
        text = self.texts.written(op)
        if text in self.seen:
            return False
        self.seen.add(text)
        self.tries += 1
        self.progress.tell(f"{self.tries} tries, {count(self.best)} operations are left")
        if not self.keeps(text):
            return False
        self.best, self.text = op, text
        return True

    def take_out(self, places, without):
        """Leaves out places of the best text, in long rows first and then one by one."""
        changed, size = False, max(1, len(places(self.best)) // 2)
        while True:
            at = 0
            while at < len(places(self.best)):
                op = copied(self.best)
                if self.attempt(without(op, places(op)[at : at + size], self.texts)):
                    changed = True
                else:
                    at += size
            if size == 1:
                return changed
            size = max(1, size // 2)


def count(op):
    return sum(1 for _ in walk(op))


def outer_operations(op):
    """What is directly in the text's operation."""
    return [(block, it) for blocks in op.regions for block in blocks for it in block.operations]


def operations(op):
    """What can go: all but the text's own."""
    return [(block, it) for block in blocks_of(op) for it in block.operations]


def without_operations(op, places, _):
    gone = {id(it) for _, it in places}
    for block in blocks_of(op):
        block.operations = [it for it in block.operations if id(it) not in gone]
    return op


def blocks(op):
    return [(each, block) for each in regions(op) for block in each]


def without_blocks(op, places, texts):
    gone = {id(block) for _, block in places}
    for each in regions(op):
        names = {block.name for block in each if id(block) in gone}
        each[:] = [block for block in each if id(block) not in gone]
        for block in each:
            block.operations = [without_edges(it, names, each, op, texts) for it in block.operations]
    return op


def without_edges(it, names, each, op, texts):
    """What stands for the operation without its edges to these blocks, in a region of those."""
    left = [edge for edge in it.edges if edge[0] not in names]
    if len(left) == len(it.edges):
        return it
    return left and texts.jump(it, left[0], op) or texts.ending(each)


def arguments(op):
    return [(each, block, at) for each in regions(op) for block in each for at in range(len(block.arguments))]


def without_arguments(op, places, texts):
    for each, block, at in reversed(places):
        if texts.is_fixed(block, each):
            continue
        del block.arguments[at]
        for edge in (edge for other in each for it in other.operations for edge in it.edges):
            if edge[0] == block.name:
                del edge[1][at : at + 1]
    return op


def without_operands(op, places, _):
    for it, at in reversed(places):
        del it.operands[at]
    return op


def without_entries(op, places, _):
    for it, name, entry in places:
        setattr(it, name, [other for other in getattr(it, name) if other != entry])
    return op


def simpler(op, texts):
    """Each way in which one operation becomes a simpler one: its block's number, its place in it, and what stands there then."""
    number = 0
    for each in regions(op):
        for block in each:
            for at, it in enumerate(block.operations):
                if it.edges:
                    yield number, at, texts.ending(each)
                if len(it.edges) > 1:
                    yield from ((number, at, texts.jump(it, edge, op)) for edge in it.edges)
                yield from ((number, at, new) for new in texts.simpler_forms(it))
            number += 1


def with_simpler(op, number, at, new):
    """The operation with this in that place of the block of that number."""
    if new is None:
        return None
    op = copied(op)
    blocks_of(op)[number].operations[at] = copied(new)
    return op


def simplify(reduction):
    """Makes single operations simpler, each as far as it goes."""
    changed, at = False, 0
    ways = list(simpler(reduction.best, reduction.texts))
    while at < len(ways):
        if reduction.attempt(with_simpler(reduction.best, *ways[at])):
            changed, ways = True, list(simpler(reduction.best, reduction.texts))
        else:
            at += 1
    return changed


def unwrapped(reduction):
    """Takes one operation of a `mod` for the whole text."""
    if reduction.best.kind != "mod":
        return False
    return any(reduction.attempt(copied(it)) for _, it in outer_operations(reduction.best))


def reduce(op, texts, keeps):
    reduction = Reduction(op, texts, keeps)
    steps = [
        unwrapped,
        lambda it: it.take_out(outer_operations, without_operations),
        lambda it: it.take_out(blocks, without_blocks),
        lambda it: it.take_out(operations, without_operations),
        lambda it: it.take_out(arguments, without_arguments),
        lambda it: it.take_out(texts.loose_operands, without_operands),
        lambda it: it.take_out(texts.loose_entries, without_entries),
        simplify,
    ]
    while any([step(reduction) for step in steps]):
        pass
    return reduction


def condition(asked, plir, text, fitness):
    """What a text is to keep, as a function from texts to truth: what is asked for, as far as this text does it, which is so fit to run."""
    wanted = program.status_of(asked.command, text, asked.file) if asked.command else None
    run = []
    for name in ("input", "world"):
        for value in getattr(asked, name):
            run += [f"--{name}", str(value)]
    run += ["--steps", str(asked.steps)]
    if asked.trap:
        return lambda text: plir.run("run", *run, text=text)[1].splitlines()[-1:] == ["trapped"]
    if asked.unfit:
        words = KINDS.get(asked.unfit, asked.unfit)
        return lambda text: words in plir.ask("check", text=text)[2]
    if asked.differs:
        return lambda text: plir.run("run", *run, "--compare", asked.differs, text=text)[1].endswith("not the same\n")
    return lambda text: plir.check(text)[0] in (0, fitness) and program.status_of(asked.command, text, asked.file) == wanted


def words():
    about = argparse.ArgumentParser(prog="plir reduce", description=__doc__.split("\n\n")[1])
    about.add_argument("file", metavar="FILE", help="the text")
    about.add_argument("-o", "--output", metavar="FILE", help="where to write; standard output, if left out")
    about.add_argument("--trap", action="store_true", help="keep that the run traps")
    about.add_argument("--unfit", metavar="KIND", help=f"keep what `plir check` says: {', '.join(KINDS)}, or words of it")
    about.add_argument("--differs", metavar="PIPELINE", help="keep that `plir run --compare` says `not the same`")
    about.add_argument("--input", metavar="N", type=int, action="append", default=[], help="as for `plir run`")
    about.add_argument("--world", metavar="N", type=int, action="append", default=[], help="as for `plir run`")
    about.add_argument("--steps", metavar="N", type=int, default=100000, help="as for `plir run`")
    program.add_words(about)
    about.add_argument(
        "command",
        metavar="-- COMMAND",
        nargs="*",
        help="keep the status of this command, which gets the text's file as its last word, or for `{}`",
    )
    return about


def main():
    given = sys.argv[1:]
    command = given[given.index("--") + 1 :] if "--" in given else []
    about = words()
    asked = about.parse_args(given[: given.index("--")] if "--" in given else given)
    asked.command = command
    if sum(map(bool, (asked.trap, asked.unfit, asked.differs, command))) != 1:
        about.error("say one of --trap, --unfit KIND, --differs PIPELINE and -- COMMAND")
    plir = program.asked_for(asked, asked.file)
    if (asked.trap or asked.differs) and not plir.can_run:
        about.error("texts of this dialect don't run: say --unfit KIND or -- COMMAND")
    if asked.unfit and not plir.has_commands:
        about.error(f"{asked.program} has no command `check`: say -- COMMAND")
    text = program.read(asked.file)
    fitness, told = plir.check(text)
    if fitness not in (0, 3):
        sys.stderr.write(told.replace("standard input", asked.file))
        return 2
    keeps = condition(asked, plir, text, fitness)
    op = plir.read(text)
    if not keeps(plir.texts.written(op)):
        print("error: the text doesn't do what is to be kept", file=sys.stderr)
        return 3
    was = count(op)
    reduction = reduce(op, plir.texts, keeps)
    program.write(asked.output, reduction.text)
    print(f"{was} operations, of which {count(reduction.best)} are left, in {reduction.tries} tries", file=sys.stderr)
    return 0


if __name__ == "__main__":
    sys.exit(main())
