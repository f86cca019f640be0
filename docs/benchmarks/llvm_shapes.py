#!/usr/bin/env python3
"""Modules of LLVM's textual IR, made large, each on a shape that could cost a square: how what plir_llvm executes grows.

    llvm_shapes.py SHAPE N              writes the module
    llvm_shapes.py growth PROGRAM [SHAPE..]   counted instructions (valgrind's cachegrind) at two sizes, the second four times the
                                        first, and the exponent of growth between them; a line of CSV for each shape

The passes are $PIPELINE, or repeat:8:sccp,cse,canonicalize,simplify-cfg,dce. The status is 1 if an exponent is above $MOST, or 1.1, and where the
program answers otherwise than with 0.
"""
import math
import os
import re
import subprocess
import sys
import tempfile

HEAD = "define i32 @f(i1 %c, i32 %a, ptr %p) personality ptr @h {\n"
END = "  ret i32 %a\n}\n"
DECLARED = "declare void @g(i32)\ndeclare i32 @k()\ndeclare i32 @h(...)\n"


def lines(pattern, n):
    """The pattern for each number below n, with the number and the next one."""
    return "".join(pattern.format(i=i, j=i + 1) for i in range(n))


def switch(n):
    """A switch with n cases to one block."""
    return HEAD + "  switch i32 %a, label %d [\n" + lines("    i32 {i}, label %d\n", n) + "  ]\nd:\n" + END


def passing_switch(n):
    """The same to a block with a phi."""
    return (HEAD + "e:\n  switch i32 %a, label %d [\n" + lines("    i32 {i}, label %d\n", n) + "  ]\nd:\n  %q = phi i32 "
            + ", ".join(["[ %a, %e ]"] * (n + 1)) + "\n  call void @g(i32 %q)\n" + END)


def spread_switch(n):
    """A switch with n cases to n blocks."""
    return HEAD + "  switch i32 %a, label %d [\n" + lines("    i32 {i}, label %b{i}\n", n) + "  ]\n" + lines("b{i}:\n  call void @g(i32 {i})\n  br label %d\n", n) + "d:\n" + END


def row(n):
    """n blocks in a row, each with a phi of the one before."""
    text = [HEAD, "b0:\n  br label %b1\n"]
    for i in range(1, n + 1):
        before = "%a" if i == 1 else f"%x{i - 1}"
        text.append(f"b{i}:\n  %x{i} = phi i32 [ {before}, %b{i - 1} ]\n  br label %b{i + 1}\n")
    return "".join(text) + f"b{n + 1}:\n" + END


def predecessors(n):
    """n blocks that lead to one, which has a phi of n entries."""
    text = [HEAD, "b0:\n  br i1 %c, label %b1, label %d\n"]
    for i in range(1, n + 1):
        text.append(f"b{i}:\n  %k{i} = call i1 @k()\n  br i1 %k{i}, label %b{i + 1}, label %d\n")
    text.append(f"b{n + 1}:\n  br label %d\nd:\n  %q = phi i32 " + ", ".join(f"[ {i}, %b{i} ]" for i in range(n + 2)) + "\n  call void @g(i32 %q)\n")
    return "".join(text) + END


def phis(n):
    """n phis in a block with two edges."""
    return HEAD + "e:\n  br i1 %c, label %b, label %d\nb:\n  br label %d\nd:\n" + lines("  %q{i} = phi i32 [ %a, %e ], [ {i}, %b ]\n", n) + lines("  call void @g(i32 %q{i})\n", n) + END


def uses(n):
    """A value with n uses."""
    return HEAD + "  call void @g(i32 %a)\n" * n + END


def late(n):
    """A value that is defined behind its n uses."""
    return HEAD + "  br label %z\nu:\n" + "  call void @g(i32 %v)\n" * n + "  ret i32 %v\nz:\n  %v = call i32 @k()\n  br label %u\n}\n"


def brackets(n):
    """Metadata with n brackets in one another."""
    return "!0 = " + "!{" * n + "}" * n + "\n" + HEAD + END


def types(n):
    """A type with n brackets in one another."""
    return HEAD + "  %x = alloca " + "[1 x " * n + "i8" + "]" * n + "\n" + END


def string(n):
    """A string of n bytes."""
    return 'source_filename = "' + "x" * n + '"\n' + HEAD + END


def name(n):
    """A name of n bytes, used often."""
    word = "%" + "x" * n
    return HEAD + f"  {word} = call i32 @k()\n" + f"  call void @g(i32 {word})\n" * 4 + END


def names(n):
    """n values with names."""
    return HEAD + lines("  %name{i} = call i32 @k()\n", n) + END


def sums(n):
    """n sums of constants, each of the one before."""
    return HEAD + "  %s0 = add i32 1, 1\n" + lines("  %s{j} = add i32 %s{i}, {i}\n", n) + f"  ret i32 %s{n}\n}}\n"


def constants(n):
    """n constants."""
    return HEAD + lines("  %s{i} = add i32 %a, {j}\n  call void @g(i32 %s{i})\n", n) + END


def metadata(n):
    """n lines of metadata."""
    return HEAD + END + lines("!{i} = !{{!{j}, i32 {i}}}\n", n) + f"!{n} = !{{}}\n"


def functions(n):
    """n functions."""
    return lines("define i32 @f{i}(i32 %x) {{\n  %y = add i32 %x, 0\n  ret i32 %y\n}}\n", n)


def declarations(n):
    """n declarations."""
    return lines("declare i32 @f{i}(i32)\n", n) + HEAD + END


def invokes(n):
    """n invokes that lead to one pad."""
    return (HEAD + lines("  invoke void @g(i32 {i})\n          to label %b{i} unwind label %u\nb{i}:\n", n) + END[:-2]
            + "u:\n  %l = landingpad { ptr, i32 }\n          cleanup\n  resume { ptr, i32 } %l\n}\n")


def given(n):
    """n invokes that give a value."""
    return (HEAD + lines("  %r{i} = invoke i32 @k()\n          to label %b{i} unwind label %u\nb{i}:\n  call void @g(i32 %r{i})\n", n) + END[:-2]
            + "u:\n  %l = landingpad { ptr, i32 }\n          cleanup\n  resume { ptr, i32 } %l\n}\n")


def numbers(n):
    """n blocks without names."""
    return "define i32 @f(i1 %0, i32 %1) {\n  br label %3\n" + "".join(f"\n{i}:\n  br i1 %0, label %{i + 1}, label %{n + 3}\n" for i in range(3, n + 3)) + f"\n{n + 3}:\n  ret i32 %1\n}}\n"


def comments(n):
    """n comments."""
    return HEAD + "  ; a comment\n" * n + END


def texts(n):
    """n statements of which none is the text of another."""
    return HEAD + lines("  store i32 {i}, ptr %p, align 4\n", n) + END


def undefs(n):
    """n operands that are undef."""
    return HEAD + lines("  %s{i} = add i32 undef, %a\n  call void @g(i32 %s{i})\n", n) + END


def indirect(n):
    """An indirect branch to n blocks."""
    return HEAD + "  indirectbr ptr %p, [" + ", ".join(f"label %b{i}" for i in range(n)) + "]\n" + lines("b{i}:\n  call void @g(i32 {i})\n  ret i32 %a\n", n) + "}\n"


def equal(n):
    """n equal statements."""
    return HEAD + lines("  %s{i} = mul i32 %a, %a\n  call void @g(i32 %s{i})\n", n) + END


def rings(n):
    """n loops in one another."""
    text = [HEAD, "h0:\n  br label %h1\n"]
    for i in range(1, n + 1):
        text.append(f"h{i}:\n  %k{i} = call i1 @k()\n  br label %h{i + 1}\n")
    text.append(f"h{n + 1}:\n  br label %t{n}\n")
    for i in range(n, 0, -1):
        text.append(f"t{i}:\n  br i1 %k{i}, label %h{i}, label %t{i - 1}\n")
    return "".join(text) + "t0:\n" + END


SHAPES = {
    "switch": (switch, 5_000), "passing_switch": (passing_switch, 250), "spread_switch": (spread_switch, 3_000), "row": (row, 4_000),
    "predecessors": (predecessors, 3_000), "phis": (phis, 3_000), "uses": (uses, 10_000), "late": (late, 10_000), "brackets": (brackets, 20_000),
    "types": (types, 20_000), "string": (string, 1_000_000), "name": (name, 200_000), "names": (names, 10_000), "sums": (sums, 5_000), "constants": (constants, 4_000),
    "metadata": (metadata, 20_000), "functions": (functions, 3_000), "declarations": (declarations, 20_000), "invokes": (invokes, 4_000), "given": (given, 3_000),
    "numbers": (numbers, 5_000), "comments": (comments, 20_000), "texts": (texts, 8_000), "undefs": (undefs, 4_000), "indirect": (indirect, 3_000), "equal": (equal, 5_000),
    "rings": (rings, 2_000),
}


def counted(program, passes, text):
    """The instructions that the program executes on the text, in millions."""
    with tempfile.NamedTemporaryFile("w", suffix=".ll") as file:
        file.write(text + DECLARED)
        file.flush()
        words = ["valgrind", "--tool=cachegrind", "--cache-sim=no", "--cachegrind-out-file=/dev/null", program, passes, file.name]
        ran = subprocess.run(words, capture_output=True, text=True, errors="replace")
    found = re.search(r"I\s+refs:\s+([\d,]+)", ran.stderr)
    if ran.returncode or not found:
        sys.exit(f"status {ran.returncode}: {ran.stderr.strip()[-300:]}")
    return int(found[1].replace(",", "")) / 1e6


def growth(program, chosen):
    """Writes how each shape grows, and answers whether one grows too fast."""
    passes, most = os.environ.get("PIPELINE", "repeat:8:sccp,cse,canonicalize,simplify-cfg,dce"), float(os.environ.get("MOST", "1.1"))
    empty, bad = counted(program, passes, ""), False
    print("shape,n,millions,4n,millions,exponent")
    for shape in chosen or SHAPES:
        make, n = SHAPES[shape]
        small, large = (counted(program, passes, make(size)) - empty for size in (n, 4 * n))
        exponent = math.log(large / small, 4)
        bad = bad or exponent > most
        print(f"{shape},{n},{small:.1f},{4 * n},{large:.1f},{exponent:.2f}", flush=True)
    return bad


def main():
    words = sys.argv[1:]
    if len(words) == 2 and words[0] in SHAPES and words[1].isdigit():
        sys.stdout.write(SHAPES[words[0]][0](int(words[1])) + DECLARED)
    elif len(words) >= 2 and words[0] == "growth" and all(it in SHAPES for it in words[2:]):
        sys.exit(1 if growth(words[1], words[2:]) else 0)
    else:
        sys.exit(__doc__)


if __name__ == "__main__":
    main()
