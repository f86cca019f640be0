#!/usr/bin/env python3
"""Times of `plir_opt` beside LLVM's `opt` and `mlir-opt` on the programs of shapes.py, and tables of them.

  times.py PLIR_OPT LIST OPT_PASSES..         milliseconds of the whole process
  times.py PLIR_OPT LIST count OPT_PASSES..   counted instructions (needs valgrind)
  times.py table TIMES COUNTS                 both as a table of Markdown
  times.py growth COUNTS..                    the counts of several lists as one table of Markdown
  times.py exponents PLIR_OPT LIST..          counted instructions at 1 MiB and how they grow to it, as a table of Markdown

PLIR_OPT is the program, or `"PLIR opt"`, since `plir_opt` has no `cse`. LIST is what it is given, as
`sccp,dce,simplify-cfg`, and each of OPT_PASSES what `opt -passes=` is, or behind `mlir:` what `mlir-opt` is, as `mlir:sccp,canonicalize`. The first two write one line for each shape, which `table` reads from files:

  times.py ../../crates/plir_opt/out/plir_opt dce dce adce > dce.times
  times.py ../../crates/plir_opt/out/plir_opt dce count > dce.counts
  times.py table dce.times dce.counts

LLVM's programs are OPT and MLIR_OPT, and one that hasn't ended after LIMIT seconds has no count and no time.

Times are user and system time, the least of several runs (RUNS), with the output to /dev/null, at each of
the numbers of operations in SIZES, and of `opt` at the last. Instructions are those of the whole process
at the first and the last, and growth is the exponent between the two. SHAPES names the shapes, if not all.
Of `exponents` the texts are the longest of a shape that have at most a quarter, a half and all of 1 MiB, and the
exponent is the greater one of the two steps, by the lengths of the texts.
"""
import math
import os
import re
import resource
import signal
import subprocess
import sys
import tempfile

import shapes

SIZES = tuple(map(int, os.environ.get("SIZES", "1000 10000 50000").split()))
RUNS = int(os.environ.get("RUNS", "5"))
LIMIT = int(os.environ.get("LIMIT", "600"))


def limited():
    resource.setrlimit(resource.RLIMIT_CPU, (LIMIT, LIMIT))


def once(command, path):
    """The processor time of a run, or None if it hadn't ended after LIMIT seconds."""
    with open(path, "rb") as text, open(os.devnull, "wb") as nothing:
        child = subprocess.Popen(command, stdin=text, stdout=nothing, stderr=nothing, preexec_fn=limited)
        _, status, usage = os.wait4(child.pid, 0)
    if os.WIFSIGNALED(status) and os.WTERMSIG(status) in (signal.SIGXCPU, signal.SIGKILL):
        return None
    if status != 0:
        raise SystemExit(f"{command} failed on {path}")
    return usage.ru_utime + usage.ru_stime


def least(command, path):
    """The least of several runs in milliseconds, or None if the first one hadn't ended."""
    first = once(command, path)
    return first and 1000 * min([first, *(once(command, path) or first for _ in range(1, RUNS))])


def counted(program, path):
    """The instructions of the whole process."""
    command = ["valgrind", "--tool=cachegrind", "--cache-sim=no", "--cachegrind-out-file=/dev/null", *program]
    with open(path, "rb") as text:
        said = subprocess.run(command, stdin=text, capture_output=True, check=True, timeout=LIMIT).stderr
    return int(re.search(rb"I\s+refs:\s+([\d,]+)", said)[1].replace(b",", b""))


def longest(shape, most):
    """The longest text of a shape that has at most so many bytes, but for a thousandth, or where n steps further for a hundredth."""
    n, found = 1000, ""
    for _ in range(30):
        text = shapes.text_of(shape, n, "bench")
        if len(found) < len(text) <= most:
            found = text
        if 0.999 * most <= len(found):
            break
        n = max(1, int(n * 0.9995 * most / len(text)))
    assert 0.99 * most <= len(found), shape
    return found


def words_of(program):
    """The program's path, and the words behind it."""
    path, *words = program.split()
    return [os.path.abspath(path), *words]


def exponents(program, lists):
    titles = (title for name in lists for title in (f"`{name}`", "Exponent"))
    head = ["Shape", *titles]
    print("| " + " | ".join(head) + " |\n" + "|---" * len(head) + "|")
    with tempfile.TemporaryDirectory() as folder:
        for shape in os.environ.get("SHAPES", "").split() or [*shapes.SHAPES, *shapes.BENCH_ONLY]:
            print("| " + " | ".join([shape, *grown_to(program, lists, shape, folder)]) + " |", flush=True)


def grown_to(program, lists, shape, folder):
    """The cells of a shape: for each list millions of instructions at 1 MiB, and the exponent."""
    texts = [longest(shape, 2 ** power) for power in (18, 19, 20)]
    cells = []
    for name in lists:
        counts = []
        for text in texts:
            path = os.path.join(folder, "text")
            with open(path, "w") as out:
                out.write(text)
            counts.append(counted([*program, name], path))
        cells += [f"{counts[-1] / 1e6:,.0f}", f"{steepest([len(text) for text in texts], counts):.2f}"]
    return cells


def steepest(sizes, counts):
    """The greatest exponent from one size to the next."""
    steps = zip(zip(sizes, counts), zip(sizes[1:], counts[1:]))
    return max(math.log(more / count) / math.log(larger / size) for (size, count), (larger, more) in steps)


def theirs(passes):
    """The command and its notation."""
    if passes.startswith("mlir:"):
        words = [f"--{name}" for name in passes[len("mlir:"):].split(",")]
        return [os.environ.get("MLIR_OPT", "mlir-opt"), "--mlir-disable-threading", *words, "-o", "/dev/null"], "mlir"
    return [os.environ.get("OPT", "opt"), f"-passes={passes}", "-S", "-o", "/dev/null"], "llvm"


def write(shape, n, notation, folder):
    path = os.path.join(folder, "text")
    with open(path, "w") as text:
        text.write(shapes.text_of(shape, n, notation))
    return path


def timed(shape, program, passes, folder):
    """The cells `NAME=MILLISECONDS`, ours by the number of operations and LLVM's by its passes."""
    ours = [(n, least(program, write(shape, n, "bench", folder))) for n in SIZES]
    others = []
    for name in passes:
        command, notation = theirs(name)
        others.append((name, least(command, write(shape, SIZES[-1], notation, folder))))
    return [f"{name}={time:.1f}" for name, time in ours + others if time is not None]


def counts(shape, program, folder):
    """The cells `NUMBER OF OPERATIONS=INSTRUCTIONS`."""
    return [f"{n}={counted(program, write(shape, n, 'bench', folder))}" for n in (SIZES[0], SIZES[-1])]


def counts_of_opt(shape, passes, folder):
    """The cells `PASSES=INSTRUCTIONS` of `opt` or `mlir-opt` at the most operations."""
    cells = []
    for name in passes:
        command, notation = theirs(name)
        try:
            cells.append(f"{name}={counted(command, write(shape, SIZES[-1], notation, folder))}")
        except subprocess.TimeoutExpired:
            pass
    return cells


def rows_of(path):
    with open(path) as lines:
        return {words[0]: dict(cell.split("=") for cell in words[1:]) for words in map(str.split, lines)}


def grown(cells):
    """Instructions at the most operations, and the exponent by which they grow."""
    sizes = sorted(int(n) for n in cells if n.isdigit())
    small, large = (int(cells[str(n)]) for n in (sizes[0], sizes[-1]))
    return large, math.log(large / small) / math.log(sizes[-1] / sizes[0])


def shares_of(cells, ours):
    """Ours as a share of what each of LLVM's passes takes."""
    return [ours / float(cell) for name, cell in cells.items() if not name.isdigit()]


def growth(paths):
    tables = {os.path.basename(path).removesuffix(".counts"): rows_of(path) for path in paths}
    head = ["Shape", *(title for name in tables for title in (f"`{name}`", "of `opt`", "Growth"))]
    print("| " + " | ".join(head) + " |\n" + "|---" * len(head) + "|")
    for shape in dict.fromkeys(shape for rows in tables.values() for shape in rows):
        row = [shape]
        for cells in (rows.get(shape, {}) for rows in tables.values()):
            large, exponent = grown(cells) if cells else (0, 0)
            shares = ", ".join(f"{share:.2f}" for share in shares_of(cells, large))
            row += [f"{large / 1e6:,.0f}", shares, f"{exponent:.2f}"] if cells else [""] * 3
        print("| " + " | ".join(row) + " |")


def goals(growth, shares):
    """What is met: growth of at most 1.1, and half the time of each of LLVM's passes."""
    said = ["met" if growth <= 1.1 else "missed"]
    return ", ".join(said + ["met" if share <= 0.5 else "missed" for share in shares])


def table(times, counts):
    times, counts = rows_of(times), rows_of(counts)
    sizes = [str(n) for n in SIZES]
    passes = [name for name in next(iter(times.values())) if name not in sizes]
    head = ["Shape", *(f"{n:,}" for n in SIZES), *(f"`opt` `{p}`" for p in passes), "Shares",
            "Growth", "Goals"]
    print("| " + " | ".join(head) + " |\n" + "|---" * len(head) + "|")
    for shape, cells in times.items():
        ours = float(cells[sizes[-1]])
        shares = shares_of(cells, ours)
        _, growth = grown(counts[shape])
        row = [shape, *(cells[n] for n in sizes), *(f"{float(cells[p]):.0f}" if p in cells else "–" for p in passes),
               ", ".join(f"{share:.2f}" for share in shares), f"{growth:.2f}", goals(growth, shares)]
        print("| " + " | ".join(row) + " |")


def main():
    if sys.argv[1] == "exponents":
        return exponents(words_of(sys.argv[2]), sys.argv[3:])
    if sys.argv[1] in ("table", "growth"):
        return table(*sys.argv[2:]) if sys.argv[1] == "table" else growth(sys.argv[2:])
    program, passes = [*words_of(sys.argv[1]), sys.argv[2]], sys.argv[3:]
    with tempfile.TemporaryDirectory() as folder:
        for shape in os.environ.get("SHAPES", "").split() or shapes.SHAPES:
            if passes[:1] == ["count"]:
                cells = counts(shape, program, folder) + counts_of_opt(shape, passes[1:], folder)
            else:
                cells = timed(shape, program, passes, folder)
            print(shape, *cells, flush=True)


if __name__ == "__main__":
    main()
