#!/usr/bin/env python3
"""plir bisect PIPELINE FILE [-- COMMAND]: the first run of a pass after which something is another.

After the run that is told, the run of the text, or the status of a command on it, is another than before all passes, and after the one
before it isn't; it is found by halving. Under `nested(..)` each operation directly inside is looked at by itself, but in a module of MLIR
and in texts of other programs, which don't run: there it takes `-- COMMAND`.
"""
import argparse
import difflib
import re
import sys
from pathlib import Path

sys.path.insert(0, str(Path(__file__).resolve().parent))
import program

HEAD = re.compile(r"--- run (\d+), after (\S+?)(?: at \S+)?: (?:un)?changed\n")


def words():
    about = argparse.ArgumentParser(prog="plir bisect", description=__doc__.split("\n\n")[1])
    about.add_argument("pipeline", metavar="PIPELINE", help="the passes, as for `plir opt`")
    about.add_argument("file", metavar="FILE", help="the text")
    about.add_argument("--input", metavar="N", action="append", default=[], help="as for `plir run`")
    about.add_argument("--world", metavar="N", action="append", default=[], help="as for `plir run`")
    about.add_argument("--steps", metavar="N", default="100000", help="as for `plir run`")
    program.add_words(about)
    about.add_argument(
        "command",
        metavar="-- COMMAND",
        nargs="*",
        help="look at the status of this command, which gets the text's file as its last word, or for `{}`",
    )
    return about


def seen(asked, plir, text):
    """What is compared: the command's status, or what is seen of the run of the text."""
    if asked.command:
        return program.status_of(asked.command, text, asked.file)
    given = [f"--{name}={value}" for name in ("input", "world") for value in getattr(asked, name)]
    status, told, _ = plir.run("run", *given, "--steps", asked.steps, text=text)
    return status, told


def first_bad(texts, differs):
    """The place of the first text that differs, found by halving, if the last one does."""
    if not texts or not differs(texts[-1]):
        return None
    good, bad, progress = -1, len(texts) - 1, program.Progress()
    while bad - good > 1:
        progress.tell(f"it is after run {good + 1}, and not after run {bad + 1}")
        middle = (good + bad) // 2
        good, bad = (good, middle) if differs(texts[middle]) else (middle, bad)
    return bad


def refuse(asked, told):
    """Ends where the text or the pipeline can't be used."""
    sys.stderr.write(told.replace("standard input", asked.file))
    raise SystemExit(2)


def passes_of(pipeline):
    """The passes of a pipeline in the order of their runs, as many as it has at most, and what they stand in."""
    names = [word for word in re.findall(r"[a-z-]+", pipeline) if word not in ("repeat", "nested")]
    most = re.search(r"repeat\s*[<:]\s*(\d+)", pipeline)
    return names * (int(most.group(1)) if most else 1), "nested:" if "nested" in pipeline else ""


class Prefixes:
    """The texts after the first run, the first two, .., each made when it is asked for."""

    def __init__(self, asked, plir, text):
        self.asked, self.plir, self.text, self.made = asked, plir, text, {}
        self.names, self.around = passes_of(asked.pipeline)

    def __len__(self):
        return len(self.names)

    def __getitem__(self, at):
        count = len(self) if at == -1 else at + 1
        if count not in self.made:
            passes = self.asked.pipeline if count == len(self) else self.around + ",".join(self.names[:count])
            status, answer, told = self.plir.optimised(passes, self.text)
            if status:
                refuse(self.asked, told)
            self.made[count] = answer
        return self.made[count]


def runs_of(asked, plir, text):
    """The number and the pass of each run, and the texts after them, for each operation that the passes run on, with its path and text."""
    if not plir.can_run:
        texts = Prefixes(asked, plir, text)
        return 0, [("", text, list(enumerate(texts.names, 1)), texts)]
    status, _, told = plir.run("opt", "--print-after-all", "--one-line", asked.pipeline, text=text)
    if status == 2:
        refuse(asked, told)
    parts = HEAD.split(told)
    runs = [(int(number), name, after.split("\n")[0] + "\n") for number, name, after in zip(parts[1::3], parts[2::3], parts[3::3])]
    op = plir.read(text)
    if "nested" not in asked.pipeline:
        return status, [subject("", op, runs, plir)]
    inner = [it for blocks in op.regions for block in blocks for it in block.operations]
    count = asked.pipeline.count(",") + 1
    rows = [[run for run in runs if (run[0] - 1) // count % len(inner) == at] for at in range(len(inner))]
    return status, [subject(f" at 0.{at}", it, own, plir) for at, (it, own) in enumerate(zip(inner, rows))]


def subject(path, op, runs, plir):
    return path, plir.texts.written(op), [run[:2] for run in runs], [after for _, _, after in runs]


def write_change(before, after, plir):
    """The lines of the text that went and came, where its values are numbered anew."""
    old, new = (plir.laid_out(it).splitlines() for it in (before, after))
    for line in list(difflib.unified_diff(old, new, n=2, lineterm=""))[2:]:
        print(line)


def main():
    given = sys.argv[1:]
    cut = given.index("--") if "--" in given else len(given)
    about = words()
    asked = about.parse_args(given[:cut])
    asked.command = given[cut + 1 :]
    plir = program.asked_for(asked, asked.file)
    if not (plir.can_run or asked.command):
        about.error("texts of this dialect don't run: say -- COMMAND")
    status, subjects = runs_of(asked, plir, program.read(asked.file))
    found = []
    for path, text, runs, texts in subjects:
        before = seen(asked, plir, text)
        at = first_bad(texts, lambda after: seen(asked, plir, after) != before)
        if at is not None:
            found.append((*runs[at], path, texts[at - 1] if at else text, texts[at]))
    if not found:
        count = sum(len(runs) for _, _, runs, _ in subjects)
        print(f"the same before and after all {count} runs of passes" + (", the last of which was refused" if status == 1 else ""))
        return 0
    number, name, path, before, after = min(found)
    print(f"run {number}, {name}{path}, is the first after which something is another")
    write_change(before, after, plir)
    return 3


if __name__ == "__main__":
    sys.exit(main())
