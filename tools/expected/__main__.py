#!/usr/bin/env python3
"""Makes the tables of expected values of the tests again, by plain models that share nothing with the crates.

  python3 tools/expected               says of each table how many of its lines the models make alike; the status is 0 if all are
  python3 tools/expected TABLE         prints the lines of a table as the models make them of its texts, one unbroken line a case

A table is named by its file and its name, as `pliron_optimisation_tests/src/dead_code/cases.rt:DEFINED`. Its names, and its texts to the left of
` => `, are kept as they are: texts made at random, or written by hand.
"""
import re
import sys
from pathlib import Path

import graphs
import models
from notation import printed, read
from worklists import Search

CRATES = Path(__file__).resolve().parent.parent.parent / "crates"
CALLS = {"simplify": models.simplify_cfg, "remove": models.remove_blocks, "merge": models.merge_blocks, "fold": models.fold_branches}


def lines_of(table):
    """The lines of a table, unbroken."""
    path, name = table.split(":")
    text = (CRATES / path).read_text()
    text = text[text.index(f"static {name}: &str") :]
    text = text[text.index('"') + 1 :]
    text = re.sub(r"\\\n\s*", "", text[: text.index('";')])
    return [line for line in text.split("\n") if line.strip()]


def letter(changed):
    return "R" if changed is None else "C" if changed else "U"


def by_call(call, text):
    root = read(text)
    return f"{letter(call(root))} {text} => {printed(root)}"


def fields(line, words):
    """The name of a case, the words behind its answer, and its text."""
    name, case = line.split(" -- ", 1)
    _, *said, text = case.split(" => ")[0].split(" ", words + 1)
    return name, said, text


def named(call):
    def again(line):
        name, _, text = fields(line, 0)
        return f"{name} -- {by_call(call, text)}"
    return again


def called(line):
    """A line with the name of its call; a call on a block or a region alone is worked out by hand."""
    name, (call,), text = fields(line, 1)
    root = read(text)
    if call not in CALLS:
        return line
    return f"{name} -- {letter(CALLS[call](root))} {call} {text} => {printed(root)}"


def propagated(line):
    name, _, text = fields(line, 3)
    root = read(text)
    changed, counts = models.sccp(root)
    said = " ".join(f"{label}={count}" for label, count in zip(("blocks", "constants", "others"), counts))
    return f"{name} -- {letter(changed)} {said} {text} => {printed(root)}"


def propagated_uncounted(root):
    return models.sccp(root)[0]


SCCP, DCE, CFG, CSE, CANONICALIZE = (
    f"pliron_optimisation_tests/src/{module}/"
    for module in ("propagation", "dead_code", "control_flow", "common_subexpressions", "canonicalization")
)
BY_LINE = {
    SCCP + "cases.rt:ROWS": propagated,
    SCCP + "cases.rt:DEFERRED": propagated,
    SCCP + "cases.rt:HOSTILE": named(propagated_uncounted),
    SCCP + "cases.rt:ENTERED": propagated,
    SCCP + "random_cases.rt:MADE": propagated,
    DCE + "cases.rt:ROWS": named(models.dce),
    DCE + "cases.rt:DEFINED": named(models.dce),
    DCE + "hostile.rt:HOSTILE": named(models.dce),
    DCE + "short.rt:SHORT": named(models.dce),
    DCE + "boxes.rt:BOXES": named(models.dce),
    CFG + "cases.rt:ROWS": called,
    CFG + "cases.rt:ORDERS": called,
    CFG + "cases.rt:DEFINED": named(models.simplify_cfg),
    CFG + "cases.rt:HOSTILE": named(models.simplify_cfg),
    CSE + "cases.rt:ROWS": named(models.cse),
    CSE + "random.rt:RANDOM": named(models.cse),
    CANONICALIZE + "cases.rt:ROWS": named(models.canonicalize),
    CANONICALIZE + "random.rt:RANDOM": named(models.canonicalize),
    "pliron_core_tests/src/removals.rt:REMOVALS": graphs.removals,
    "pliron_core_tests/src/arguments.rt:REMOVALS": graphs.removals,
    "pliron_core_tests/src/insertions.rt:INSERTIONS": graphs.removals,
    "pliron_core_tests/src/insertions.rt:PUSHES": graphs.removals,
}
# tables of counts, with the texts that they count
COUNTS = {
    SCCP + "counts.rt:COUNTS": SCCP + "random_cases.rt:MADE",
    SCCP + "counts.rt:DEFERRED_COUNTS": SCCP + "cases.rt:DEFERRED",
    SCCP + "counts.rt:ENTERED_COUNTS": SCCP + "cases.rt:ENTERED",
}
WHOLE = {
    "pliron_graph_tests/src/numbering_table.rt:NUMBERINGS": graphs.numbering,
    "pliron_graph_tests/src/component_table.rt:COMPONENTS": graphs.components,
}


def made_again(table):
    """The lines of the table as the models make them."""
    if table in WHOLE:
        return graphs.of_three_nodes(WHOLE[table])
    if table in COUNTS:
        return [" ".join(str(Search(read(fields(line, 3)[2])).pops) for line in lines_of(COUNTS[table]))]
    return [BY_LINE[table](line) for line in lines_of(table)]


def main():
    if len(sys.argv) == 2:
        print("\n".join(made_again(sys.argv[1])))
        return 0
    faults = 0
    for table in [*BY_LINE, *COUNTS, *WHOLE]:
        wanted, made = lines_of(table), made_again(table)
        others = len([pair for pair in zip(wanted, made) if pair[0] != pair[1]]) + abs(len(wanted) - len(made))
        faults += others
        print(f"{table}: {len(made)} lines, {others} otherwise")
    return 1 if faults else 0


if __name__ == "__main__":
    sys.exit(main())
