#!/usr/bin/env python3
"""Looks for texts on which an optimisation costs more than their length.

  hunt.py PLIR_OPT SEED COUNT [LIST..]

Each seed makes a template: parts that are repeated n times, with references among them by index: the next one, the one before, the other end, both
ends in turn, places far apart, half of it, one fixed. Values stand in a row, in boxes or scopes around all of them or around each, as arguments of one
wide block or of n small ones; others that use them go or fall one after the other. Texts may be well defined or not.

The text of 320 KB goes through each LIST (sccp, dce, simplify-cfg and the three in a row, where none is named). Where processor time grows with an
exponent above 1.3 from a text an eighth as long it is taken again at a quarter, a half and the whole, and a line says so if the exponent is above 1.3
at both steps. The last line counts templates and answers, and says for each list which template took longest for its length.
"""
import math
import os
import random
import subprocess
import sys
import tempfile

LISTS = ["sccp", "dce", "simplify-cfg", "sccp,dce,simplify-cfg"]
LENGTH = 320_000
SECONDS = 60


def far(i, n):
    """A permutation whose neighbours lie far apart."""
    step = max(1, int(n * 0.618)) | 1
    while math.gcd(n, step) != 1:
        step += 1
    return i * step % n


PLACES = {
    "same": lambda i, n: i,
    "next": lambda i, n: min(i + 1, n - 1),
    "before": lambda i, n: max(i - 1, 0),
    "mirrored": lambda i, n: n - 1 - i,
    "ends": lambda i, n: i // 2 if i % 2 == 0 else n - 1 - i // 2,
    "far": far,
    "half": lambda i, n: i // 2,
    "first": lambda i, n: 0,
    "last": lambda i, n: n - 1,
}


class Template:
    def __init__(self, seed):
        self.random = random.Random(seed)
        self.groups = []    # the first letters of values, of which there are n
        self.straight = []  # parts of the first block: from n to text
        self.blocks = []    # parts of blocks: from n to text, and from n to an edge that leads there
        self.says = []
        for letter in "pqs"[:self.random.randint(1, 3)]:
            self.choose(letter, [self.row, self.boxes, self.inner_arguments, self.one_value, self.wide, self.small])
        for letter in "cd"[:self.random.randint(1, 2)]:
            self.choose(letter, [self.box_chain, self.box_chain, self.sum_chain, self.small, self.wide_sums, self.forks])
        self.is_turned = self.random.random() < 0.5

    def choose(self, letter, makers):
        maker = self.random.choice(makers)
        self.says.append(maker.__name__)
        maker(letter)

    def reference(self):
        """From i and n to the name of a value."""
        if not self.groups or self.random.random() < 0.15:
            fixed = self.random.choice("or")
            return lambda i, n: fixed
        group, place = self.random.choice(self.groups), PLACES[self.random.choice(list(PLACES))]
        return lambda i, n: f"{group}{place(i, n)}"

    def around(self, text):
        """The text inside boxes or scopes that hold one another."""
        depth, kind = self.random.choice([0, 0, 1, 1, 3, 60]), self.random.choice(["box", "scope"])
        self.says.append(f"in {depth} {kind}")
        self.straight.append(lambda n: f"{kind}{{z():" * depth + text(n) + "}" * depth)

    def order(self):
        is_falling = self.random.random() < 0.5
        return lambda n: range(n - 1, -1, -1) if is_falling else range(n)

    # What is used.

    def row(self, letter):
        kind, use = self.random.choice(["read", "const 1", "const {i}"]), self.random.choice(["", ";print {x}"])
        self.around(lambda n: ";".join(f"{letter}{i}=" + kind.format(i=i) + use.format(x=f"{letter}{far(i, n) if i else 0}") for i in range(n)))
        self.groups.append(letter)

    def boxes(self, letter):
        uses = [self.reference() for _ in range(self.random.randint(0, 2))]
        self.around(lambda n: ";".join(f"box{{z():{letter}{i}=read" + "".join(f";print {use(i, n)}" for use in uses) + "}" for i in range(n)))
        self.groups.append(letter)

    def inner_arguments(self, letter):
        is_loop = self.random.random() < 0.5

        def text(n):
            names = [f"{letter}{i}" for i in range(n)]
            end = f"br z({','.join([names[-1], *names[:-1]])})" if is_loop else "ret"
            return f"box{{y():br z({','.join('o' * n)});z({','.join(names)}):{end}}}"
        self.around(text)
        self.groups.append(letter)

    def one_value(self, letter):
        use = self.random.choice([f"print {letter}0", f"box{{z():ret {letter}0}}", f"scope{{z():ret {letter}0}}", f"sink {letter}0 {letter}0"])
        self.around(lambda n: f"{letter}0=read;" + ";".join([use] * n))

    def wide(self, letter):
        place, other = PLACES[self.random.choice(["same", "next", "before", "ends"])], self.random.choice("or")
        is_double = self.random.random() < 0.3

        def text(n):
            names = [f"{letter}{i}" for i in range(n)]
            edge = f"W{letter}({','.join([other, *(names[place(i, n)] for i in range(1, n))])})"
            return f"W{letter}({','.join(names)}):cbr r {edge} " + (edge if is_double else "X()")
        self.blocks.append((text, lambda n: f"W{letter}({','.join('o' * n)})"))
        self.groups.append(letter)

    def small(self, letter):
        value, place, order = self.reference(), PLACES[self.random.choice(["next", "before", "ends", "far"])], self.order()

        def block(i, n):
            end = f"G{letter}{place(i, n)}({letter}y{i}) G{letter}{min(i + 1, n - 1)}({letter}{i})"
            return f"G{letter}{i}({letter}{i}):{letter}y{i}=add {letter}{i} {value(i, n)};cbr r {end}"
        self.blocks.append((lambda n: ";".join(block(i, n) for i in order(n)), lambda n: f"G{letter}0(o)"))
        self.groups.append(letter)

    # What uses it, and goes or falls one after the other.

    def box_chain(self, letter):
        uses, order = [self.reference() for _ in range(self.random.randint(1, 3))], self.order()
        self.around(lambda n: ";".join(f"box{{z():{letter}{i}=read;ret {letter}{min(i + 1, n - 1)} {' '.join(use(i, n) for use in uses)}}}" for i in order(n)))

    def sum_chain(self, letter):
        use, order = self.reference(), self.order()
        self.around(lambda n: ";".join(f"{letter}{i}=add {letter}{min(i + 1, n - 1)} {use(i, n)}" for i in order(n)))

    def wide_sums(self, letter):
        use = self.reference()

        def text(n):
            names = [f"{letter}{i}" for i in range(n)]
            sums = ";".join(f"{letter}y{i}=add {letter}{i} {use(i, n)}" for i in range(n))
            return f"K{letter}({','.join(names)}):{sums};cbr r K{letter}({','.join(['r', *(f'{letter}y{i}' for i in range(n - 1))])}) X()"
        self.blocks.append((text, lambda n: f"K{letter}({','.join('o' * n)})"))

    def forks(self, letter):
        use = self.reference()

        def text(n):
            names = ",".join(f"{letter}{i}" for i in range(n))
            return f"V{letter}({names}):ret;" + ";".join(f"F{letter}{i}():fork {use(i, n)} V{letter} F{letter}{min(i + 1, n - 1)}" for i in range(n))
        self.blocks.append((text, lambda n: f"F{letter}0()"))

    def text(self, n):
        straight = [part(n) for part in self.straight]
        parts = ["o=const 1", "r=read", *(reversed(straight) if self.is_turned else straight)]
        hubs = [f"H{j}():cbr r {edge(n)} " + (f"H{j + 1}()" if j + 1 < len(self.blocks) else "X()") for j, (_, edge) in enumerate(self.blocks)]
        blocks = [text(n) for text, _ in self.blocks]
        return "func{Z():" + ";".join([*parts, "br H0()" if hubs else "br X()", *blocks, *hubs, "X():ret"]) + "}\n"

    def number(self, length):
        """The n of the longest text of at most this length, about."""
        n = max(2, int(length / ((len(self.text(256)) - len(self.text(128))) / 128 + 1)))
        while len(self.text(n)) > length:
            n = n * 9 // 10
        return n


def run(program, name, text):
    """The status and the seconds of processor time."""
    with tempfile.TemporaryFile("w+") as source:
        source.write(text)
        source.seek(0)
        child = subprocess.Popen(["timeout", str(SECONDS), program, name], stdin=source, stdout=subprocess.DEVNULL, stderr=subprocess.DEVNULL)
        _, status, usage = os.wait4(child.pid, 0)
    return os.waitstatus_to_exitcode(status), max(usage.ru_utime + usage.ru_stime, 0.002)


def exponent(one, other):
    return math.log(other[1] / one[1]) / math.log(other[0] / one[0])


def points(program, name, template, numbers):
    texts = [template.text(n) for n in numbers]
    return [(len(text), min(run(program, name, text)[1] for _ in range(2))) for text in texts]


def main(program, seed, count, lists):
    worst, answers = {}, {}
    for seed in range(seed, seed + count):
        template = Template(seed)
        n = template.number(LENGTH)
        text, short = template.text(n), template.text(n // 8)
        for name in lists:
            status, seconds = run(program, name, text)
            answers[status] = answers.get(status, 0) + 1
            cost = seconds / len(text) * 1e6
            worst[name] = max(worst.get(name, (0, 0)), (round(cost, 2), seed))
            if seconds > 0.1 and exponent((len(short), run(program, name, short)[1]), (len(text), seconds)) > 1.3:
                seen = points(program, name, template, [n // 4, n // 2, n])
                steps = [exponent(*pair) for pair in zip(seen, seen[1:])]
                if min(steps) > 1.3:
                    print(f"{name} {seed} {' '.join(template.says)}: seconds {[x for _, x in seen]}, exponents {[round(x, 2) for x in steps]}", flush=True)
    print(f"{count} templates, answers by status {answers}, seconds for 1 MB at most, and the seed: {worst}")


if __name__ == "__main__":
    main(sys.argv[1], int(sys.argv[2]), int(sys.argv[3]), sys.argv[4:] or LISTS)
