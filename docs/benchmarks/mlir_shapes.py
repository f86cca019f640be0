#!/usr/bin/env python3
"""Modules in MLIR's generic form, made large, for times and memory of plir_mlir.

    mlir_shapes.py SHAPE N          writes the module
    mlir_shapes.py times PROGRAM    runs PROGRAM on each shape at rising sizes: seconds, memory, bytes
"""
import os, resource, subprocess, sys, tempfile

FUNC = '"func.func"() <{function_type = (i1, i32) -> i32, sym_name = "f"}> ({\n^bb0(%c: i1, %a: i32):\n'
END = '}) : () -> ()\n'


def switch(n):
    """A switch with n edges to one block, whose argument nobody uses."""
    edges = ', '.join(['^bb1'] * (n + 1))
    cases = ', '.join(str(i) for i in range(n))
    ones = ', '.join(['1'] * n)
    values = ', '.join(['%a'] * (n + 2))
    types = ', '.join(['i32'] * (n + 2))
    return (FUNC + f'  "cf.switch"({values})[{edges}] <{{case_operand_segments = array<i32: {ones}>, '
            f'case_values = dense<[{cases}]> : vector<{n}xi32>, operandSegmentSizes = array<i32: 1, 1, {n}>}}> : ({types}) -> ()\n'
            '^bb1(%b: i32):\n  "func.return"(%a) : (i32) -> ()\n' + END)


def blocks(n):
    """n blocks in a row, each with an argument."""
    lines = [FUNC, '  "cf.br"(%a)[^b0] : (i32) -> ()\n']
    for i in range(n):
        lines.append(f'^b{i}(%x{i}: i32):\n')
        lines.append(f'  "cf.br"(%x{i})[^b{i + 1}] : (i32) -> ()\n')
    lines.append(f'^b{n}(%x{n}: i32):\n  "func.return"(%x{n}) : (i32) -> ()\n')
    return ''.join(lines) + END


def uses(n):
    """One value with n uses."""
    return FUNC + '  "t.use"(%a) : (i32) -> ()\n' * n + '  "func.return"(%a) : (i32) -> ()\n' + END


def late(n):
    """A value that is defined behind n uses, in blocks that come later."""
    use = '  "t.use"(%z) : (i32) -> ()\n' * n
    return (FUNC + '  "cf.br"()[^b2] : () -> ()\n^b1:\n' + use + '  "func.return"(%z) : (i32) -> ()\n'
            '^b2:\n  %z = "t.make"() : () -> i32\n  "cf.br"()[^b1] : () -> ()\n' + END)


def brackets(n):
    """An attribute with n brackets in one another."""
    return FUNC + f'  "t.use"(%a) {{v = {"[" * n}{"]" * n}}} : (i32) -> ()\n  "func.return"(%a) : (i32) -> ()\n' + END


def string(n):
    """A string of n bytes."""
    return FUNC + f'  "t.use"(%a) {{v = "{"x" * n}"}} : (i32) -> ()\n  "func.return"(%a) : (i32) -> ()\n' + END


def sums(n):
    """n sums of constants, each of the one before."""
    lines = [FUNC, '  %s0 = "arith.constant"() <{value = 1 : i32}> : () -> i32\n']
    for i in range(n):
        lines.append(f'  %s{i + 1} = "arith.addi"(%s{i}, %s{i}) : (i32, i32) -> i32\n')
    lines.append(f'  "func.return"(%s{n}) : (i32) -> ()\n')
    return ''.join(lines) + END


SHAPES = {
    'switch': (switch, [12_500, 50_000, 200_000]),
    'blocks': (blocks, [25_000, 100_000, 400_000]),
    'uses': (uses, [250_000, 1_000_000, 2_000_000]),
    'late': (late, [250_000, 1_000_000, 2_000_000]),
    'brackets': (brackets, [10_000, 100_000, 1_000_000]),
    'string': (string, [10_000_000, 20_000_000, 60_000_000]),
    'sums': (sums, [100_000, 400_000, 1_000_000]),
}


def times(program):
    passes = os.environ.get('PIPELINE', 'repeat:8:sccp,simplify-cfg,dce')
    for name, (_, sizes) in SHAPES.items():
        for n in sizes:
            # Another process makes the text, since what this one holds would count as memory of the program.
            with tempfile.NamedTemporaryFile('w', suffix='.mlir', delete=False) as file:
                subprocess.run([sys.executable, __file__, name, str(n)], stdout=file, check=True)
            size = os.path.getsize(file.name)
            child = subprocess.Popen([program, passes, file.name, '-o', '/dev/null'], stderr=subprocess.PIPE)
            said = child.stderr.read().decode().strip().splitlines()
            _, status, used = os.wait4(child.pid, 0)
            os.unlink(file.name)
            print(f'{name:9} {n:>9} {size / 1e6:8.1f} MB {used.ru_utime + used.ru_stime:8.2f} s {used.ru_maxrss / 1024:8.0f} MiB  '
                  f'status {os.waitstatus_to_exitcode(status)}, {said[-1] if said else ""}', flush=True)


if __name__ == '__main__':
    if len(sys.argv) == 3 and sys.argv[1] == 'times':
        times(sys.argv[2])
    elif len(sys.argv) == 3 and sys.argv[1] in SHAPES:
        sys.stdout.write(SHAPES[sys.argv[1]][0](int(sys.argv[2])))
    else:
        sys.exit(__doc__)
