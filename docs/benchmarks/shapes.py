#!/usr/bin/env python3
"""Programs of known shapes, to measure optimisations.

  shapes.py SHAPE N bench|llvm|mlir  a text of about N operations
  shapes.py SHAPE N graph            a graph of N nodes for `plir_opt graph`: chain, random, dense, nest,
                                     loops, star, isolated
  shapes.py list                     the names of the shapes, but those that bench alone can write:
                                     boxed, fiftyboxes, boxes, deepboxes, boxargs,
                                     boxconsts, boxuses, boxuseslast, shortedges, scopeargs,
                                     twoedges, forks, longbranches, lastuses, deeplastuses,
                                     manyaround, deepuses, deepvalues, deepchain,
                                     nestedvalues;
                                     and of those for `cse`: repeats, beneath, sides, shared, moveduses,
                                     and in bench alone scopes, deepscopes, pairs, longrepeats;
                                     and of those for `canonicalize`: sameargs, ownargs, absorbed

One program is built and printed in three notations, so that all optimisers see the same control flow: in
that of this repository, with the shortest names and no blanks; in LLVM's, where an argument of a block is
a phi and a constant stands where it is used, so that there are fewer operations; and in that of MLIR 22
(dialects `builtin`, `func`, `cf` and `arith`), which compares a condition with zero before it branches.
"""
import random
import sys

FIRST = "abcdefghijklmnopqrstuvwxyzABCDEFGHIJKLMNOPQRSTUVWXYZ"
REST = FIRST + "0123456789_"
KINDS = {"mod", "func", "const", "add", "mul", "div", "read", "print", "pair",
         "sink", "scope", "box", "br", "cbr", "ret", "fork"}


def short_names():
    """a, b, .., Z, aa, ab, ..: the shortest names of the bench notation."""
    length = 1
    while True:
        idx = [0] * length
        total = len(FIRST) * len(REST) ** (length - 1)
        for n in range(total):
            k, out = n, []
            for _ in range(length - 1):
                out.append(REST[k % len(REST)])
                k //= len(REST)
            name = FIRST[k] + "".join(out)
            if name not in KINDS:
                yield name
        length += 1


class Block:
    __slots__ = ("id", "args", "ops", "term")

    def __init__(self, id, nargs, fn):
        self.id = id
        self.args = [fn.value() for _ in range(nargs)]
        self.ops = []        # (kind, result | None, operands | number)
        self.term = None     # ('br', edge) | ('cbr', cond, edge, edge) | ('ret', [values])


class Fn:
    """One function over 64-bit integers; `params` are the entry's arguments."""

    def __init__(self, params=0):
        self.nvals = 0
        self.blocks = []
        self.entry = self.block(params)

    def value(self):
        self.nvals += 1
        return self.nvals - 1

    def block(self, nargs=0):
        b = Block(len(self.blocks), nargs, self)
        self.blocks.append(b)
        return b

    def const(self, b, n):
        r = self.value()
        b.ops.append(("const", r, n))
        return r

    def bin(self, b, kind, x, y):
        r = self.value()
        b.ops.append((kind, r, (x, y)))
        return r

    def read(self, b):
        r = self.value()
        b.ops.append(("read", r, ()))
        return r

    def print(self, b, x):
        b.ops.append(("print", None, (x,)))

    def sink(self, b, *vals):
        b.ops.append(("sink", None, vals))

    def br(self, b, to, *vals):
        b.term = ("br", (to, vals))

    def cbr(self, b, c, to1, v1, to2, v2):
        b.term = ("cbr", c, (to1, tuple(v1)), (to2, tuple(v2)))

    def ret(self, b, *vals):
        b.term = ("ret", vals)

    def count(self):
        return sum(len(b.ops) + 1 for b in self.blocks)


def chain(n, rng):
    """straight line, every add folds: x(i+1) = x(i) + 1."""
    f = Fn()
    b = f.entry
    one = f.const(b, 1)
    x = one
    for _ in range(max(1, n - 2)):
        x = f.bin(b, "add", x, one)
    f.ret(b, x)
    return [f]


def diamonds(n, rng):
    """diamonds with known conditions; the constant goes through the taken side."""
    f = Fn()
    one = f.const(f.entry, 1)
    two = f.const(f.entry, 2)
    cur = f.block(1)
    f.br(f.entry, cur, one)
    for _ in range(max(1, n // 6)):
        q = cur.args[0]
        c = f.bin(cur, "add", q, one)
        left, right, nxt = f.block(1), f.block(1), f.block(1)
        f.cbr(cur, c, left, [q], right, [q])
        f.br(left, nxt, f.bin(left, "add", left.args[0], two))
        f.br(right, nxt, f.bin(right, "mul", right.args[0], two))
        cur = nxt
    f.ret(cur, cur.args[0])
    return [f]


def merges(n, rng):
    """unknown conditions; both sides forward one equal and one differing constant."""
    f = Fn()
    one = f.const(f.entry, 1)
    two = f.const(f.entry, 2)
    cur = f.block(2)
    f.br(f.entry, cur, one, two)
    for _ in range(max(1, n // 6)):
        q, w = cur.args
        r = f.read(cur)
        left, right, nxt = f.block(0), f.block(0), f.block(2)
        f.cbr(cur, r, left, [], right, [])
        f.br(left, nxt, f.bin(left, "mul", q, one), one)
        f.br(right, nxt, f.bin(right, "mul", q, one), two)
        cur = nxt
    f.ret(cur, *cur.args)
    return [f]


def loops(n, rng):
    """loops one after the other; one carried value stays constant (needs optimism), one varies."""
    f = Fn()
    one = f.const(f.entry, 1)
    zero = f.const(f.entry, 0)
    cur = f.block(2)
    f.br(f.entry, cur, zero, one)
    for _ in range(max(1, n // 4)):
        i, k = cur.args
        ni = f.bin(cur, "add", i, one)
        nk = f.bin(cur, "mul", k, one)
        r = f.read(cur)
        nxt = f.block(2)
        f.cbr(cur, r, cur, [ni, nk], nxt, [zero, nk])
        cur = nxt
    f.ret(cur, *cur.args)
    return [f]


def nest(n, rng):
    """loops nested to depth n/8: header(i, k) of depth d jumps in, latch goes back or out."""
    f = Fn()
    one = f.const(f.entry, 1)
    zero = f.const(f.entry, 0)
    depth = max(1, n // 7)
    headers, prev, k = [], f.entry, one
    for _ in range(depth):
        h = f.block(2)
        f.br(prev, h, zero, k)
        headers.append(h)
        k = f.bin(h, "mul", h.args[1], one)
        prev = h
    latches = [f.block(0) for _ in range(depth)]
    f.br(prev, latches[-1])
    out = f.block(0)
    for d in reversed(range(depth)):
        la, h = latches[d], headers[d]
        ni = f.bin(la, "add", h.args[0], one)
        nk = f.bin(la, "mul", h.args[1], one)
        r = f.read(la)
        to = latches[d - 1] if d else out
        f.cbr(la, r, h, [ni, nk], to, [])
    f.ret(out, headers[0].args[1])
    return [f]


def brchain(n, rng):
    """a long chain of blocks that all merge into one, in text order."""
    f = Fn(1)
    one = f.const(f.entry, 1)
    cur, x = f.entry, f.entry.args[0]
    for _ in range(max(1, n // 2)):
        nxt = f.block(1)
        f.br(cur, nxt, x)
        x = f.bin(nxt, "add", nxt.args[0], one)
        cur = nxt
    f.ret(cur, x)
    return [f]


def brchain_rev(n, rng):
    """the same chain with its blocks written last to first: bad for a merge in text order."""
    fs = brchain(n, rng)
    f = fs[0]
    f.blocks = [f.blocks[0]] + f.blocks[:0:-1]
    return fs


def unreach(n, rng):
    """half the operations stand in blocks that nothing reaches (a long chain with a ring)."""
    f = Fn(1)
    one = f.const(f.entry, 1)
    half = max(2, n // 4)
    live, x = f.entry, f.entry.args[0]
    for _ in range(half):
        x = f.bin(live, "add", x, one)
        x = f.bin(live, "mul", x, one)
    f.ret(live, x)
    first = cur = f.block(1)
    for _ in range(half - 1):
        y = f.bin(cur, "add", cur.args[0], one)
        nxt = f.block(1)
        f.br(cur, nxt, y)
        cur = nxt
    f.br(cur, first, f.bin(cur, "add", cur.args[0], one))
    return [f]


def dead(n, rng):
    """a dead value goes through every block's argument; only the last use is missing."""
    f = Fn(1)
    one = f.const(f.entry, 1)
    cur, x = f.entry, f.entry.args[0]
    for _ in range(max(1, n // 3)):
        nxt = f.block(1)
        f.br(cur, nxt, x)
        x = f.bin(nxt, "add", nxt.args[0], one)
        x = f.bin(nxt, "mul", x, x)
        cur = nxt
    f.ret(cur, f.entry.args[0])
    return [f]


def deadring(n, rng):
    """loops that carry a value used by nothing else: `adce` takes it, `dce` leaves it."""
    f = Fn(1)
    one = f.const(f.entry, 1)
    cur, x = f.entry, f.entry.args[0]
    for _ in range(max(1, n // 4)):
        h, nxt = f.block(1), f.block(0)
        f.br(cur, h, x)
        y = f.bin(h, "add", h.args[0], one)
        r = f.read(h)
        f.cbr(h, r, h, [y], nxt, [])
        cur = nxt
    f.ret(cur, x)
    return [f]


def fan(n, rng):
    """n/2 blocks branch to one join: many predecessors, one argument, equal constants."""
    f = Fn()
    one = f.const(f.entry, 1)
    two = f.const(f.entry, 2)
    join = f.block(2)
    cur = f.entry
    for _ in range(max(1, n // 3)):
        r = f.read(cur)
        side, nxt = f.block(0), f.block(0)
        f.cbr(cur, r, side, [], nxt, [])
        f.br(side, join, one, two)
        cur = nxt
    f.br(cur, join, one, one)
    f.ret(join, *join.args)
    return [f]


def wide_join(m):
    """a block with m arguments and no end yet, and an edge pair that forwards m constants to it."""
    f = Fn()
    vals = [f.const(f.entry, i % 7) for i in range(m)]
    r = f.read(f.entry)
    left, join = f.block(0), f.block(m)
    f.cbr(f.entry, r, left, [], join, vals)
    f.br(left, join, *vals)
    return f, join


def manyargs(n, rng):
    """one edge pair with n/3 operands into a block of n/3 dead arguments."""
    f, join = wide_join(max(1, n // 3))
    f.ret(join)
    return [f]


def liveargs(n, rng):
    """as manyargs, but every second argument is returned."""
    f, join = wide_join(max(1, n // 3))
    f.ret(join, *join.args[::2])
    return [f]


def lateargs(n, rng):
    """as manyargs, but each argument has one dead use, the last argument first."""
    f, join = wide_join(max(1, n // 3))
    for x in reversed(join.args):
        f.bin(join, "add", x, x)
    f.ret(join)
    return [f]


def shiftargs(n, rng):
    """a loop whose arguments move on by one place each time; the first is used by nothing."""
    f = Fn()
    m = max(2, n // 3)
    vals = [f.const(f.entry, i % 7) for i in range(m)]
    loop, end = f.block(m), f.block(0)
    f.br(f.entry, loop, *vals)
    r = f.read(loop)
    f.cbr(loop, r, loop, loop.args[1:] + [vals[0]], end, [])
    f.ret(end)
    return [f]


def farargs(n, rng):
    """as shiftargs, but each argument moves to the other end, so that they go from both ends in turn, one at a time."""
    f = Fn()
    count = max(2, n // 3)
    loop, end = f.block(count), f.block(0)
    zero = f.const(f.entry, 0)
    f.br(f.entry, loop, *[zero] * count)
    ends = [i // 2 if i % 2 == 0 else count - 1 - i // 2 for i in range(count)]
    vals = [zero] * count
    for one, other in zip(ends, ends[1:]):
        vals[one] = loop.args[other]
    r = f.read(loop)
    f.cbr(loop, r, loop, vals, end, [])
    f.ret(end)
    return [f]


def alternating(n, rng):
    """two blocks of n/2 arguments; those of the second are freed from both ends in turn."""
    f = Fn(1)
    count = max(2, n // 2)
    last, first = f.block(count), f.block(count)
    f.br(f.entry, first, *[f.entry.args[0]] * count)
    ends = [i // 2 if i % 2 == 0 else count - 1 - i // 2 for i in range(count)]
    f.br(first, last, *[first.args[i] for i in reversed(ends)])
    f.ret(last)
    return [f]


def sum_loop(f, m):
    """a loop of m sums, each of the one before, of which one more falls each time round; its end."""
    one = f.const(f.entry, 1)
    loop, end = f.block(1), f.block(0)
    f.br(f.entry, loop, one)
    sums = []
    for _ in range(m):
        sums.append(f.bin(loop, "add", sums[-1] if sums else loop.args[0], one))
    r = f.read(loop)
    f.cbr(loop, r, loop, [sums[-1]], end, [])
    return loop, end, sums


def sumsink(n, rng):
    """a loop of n sums that all go into one operation."""
    f = Fn()
    loop, end, sums = sum_loop(f, max(2, n - 6))
    f.sink(loop, *sums)
    f.ret(end)
    return [f]


def sumbr(n, rng):
    """a loop of n sums that one branch behind it forwards to a block."""
    f = Fn()
    loop, end, sums = sum_loop(f, max(2, n - 6))
    last = f.block(len(sums))
    f.br(end, last, *sums)
    f.ret(last)
    return [f]


def sumcbr(n, rng):
    """as sumbr, but the branch behind the loop is conditional."""
    f = Fn()
    loop, end, sums = sum_loop(f, max(2, n - 6))
    last, other = f.block(len(sums)), f.block(0)
    f.cbr(end, f.read(end), last, sums, other, [])
    f.ret(last)
    f.ret(other)
    return [f]


def shiftbr(n, rng):
    """a loop without an end whose n arguments move on by one place each time, and a number is read for the first."""
    f = Fn()
    one = f.const(f.entry, 1)
    loop = f.block(max(2, n))
    f.br(f.entry, loop, *[one] * len(loop.args))
    r = f.read(loop)
    f.br(loop, loop, r, *loop.args[:-1])
    return [f]


def shiftcbr(n, rng):
    """as shiftbr, but the branch of the loop is conditional."""
    f = Fn()
    one = f.const(f.entry, 1)
    loop, end = f.block(max(2, n)), f.block(0)
    f.br(f.entry, loop, *[one] * len(loop.args))
    r = f.read(loop)
    f.cbr(loop, f.read(loop), loop, [r, *loop.args[:-1]], end, [])
    f.ret(end)
    return [f]


def turncbr(n, rng):
    """as shiftcbr, but the loop has two such branches, which make each other's operands fall in turn."""
    f = Fn()
    one = f.const(f.entry, 1)
    count = max(2, n // 2)
    loop, back, end = f.block(count), f.block(count), f.block(0)
    f.br(f.entry, loop, *[one] * count)
    r = f.read(loop)
    f.cbr(loop, f.read(loop), back, [r, *loop.args[:-1]], end, [])
    f.cbr(back, f.read(back), loop, back.args, end, [])
    f.ret(end)
    return [f]


def funcs(n, rng):
    """n/10 small functions in one module, each a known diamond."""
    out = []
    for _ in range(max(1, n // 10)):
        out += diamonds(6, rng)
    return out


def mixed(n, rng):
    """random reducible program: a sequence of pieces of all of the above, one third dead."""
    f = Fn(1)
    one = f.const(f.entry, 1)
    two = f.const(f.entry, 2)
    cur, unk, known = f.entry, f.entry.args[0], one
    while f.count() + 1 < n:
        k = rng.randrange(6)
        if k == 0:
            for _ in range(rng.randrange(1, 8)):
                known = f.bin(cur, rng.choice(["add", "mul"]), known, rng.choice([one, two]))
        elif k == 1:
            for _ in range(rng.randrange(1, 8)):
                unk = f.bin(cur, rng.choice(["add", "mul"]), unk, rng.choice([known, unk]))
        elif k == 2:
            a, b, j = f.block(1), f.block(1), f.block(2)
            f.cbr(cur, f.bin(cur, "mul", known, two), a, [known], b, [unk])
            f.br(a, j, a.args[0], unk)
            f.br(b, j, b.args[0], unk)
            cur, known, unk = j, j.args[0], j.args[1]
        elif k == 3:
            h, o = f.block(2), f.block(0)
            f.br(cur, h, unk, known)
            nu = f.bin(h, "add", h.args[0], one)
            nk = f.bin(h, "mul", h.args[1], one)
            f.cbr(h, f.read(h), h, [nu, nk], o, [])
            cur, unk, known = o, h.args[0], h.args[1]
        elif k == 4:
            nxt = f.block(1)
            f.br(cur, nxt, unk)
            cur, unk = nxt, nxt.args[0]
        else:
            d = unk
            for _ in range(rng.randrange(1, 10)):
                d = f.bin(cur, "add", d, unk)
    f.print(cur, known)
    f.ret(cur, unk)
    return [f]


def repeats(n, rng):
    """straight line, each sum and each product written twice."""
    f = Fn(2)
    x, y = f.entry.args
    for _ in range(max(1, n // 4)):
        one, other = (f.bin(f.entry, "add", x, y) for _ in range(2))
        x, y = (f.bin(f.entry, "mul", one, other) for _ in range(2))
    f.ret(f.entry, x, y)
    return [f]


def beneath(n, rng):
    """blocks one behind the other, and beside each another one; each computes what the entry did."""
    f = Fn(1)
    p = f.entry.args[0]
    f.print(f.entry, f.bin(f.entry, "add", p, p))
    cur = f.entry
    for _ in range(max(1, n // 7)):
        side, nxt = f.block(0), f.block(0)
        f.cbr(cur, f.read(cur), side, [], nxt, [])
        for b in (side, nxt):
            f.print(b, f.bin(b, "add", p, p))
        f.br(side, nxt)
        cur = nxt
    f.ret(cur, p)
    return [f]


def sides(n, rng):
    """as beneath, but only the blocks beside compute, so that none dominates another: each displaces the leader before it."""
    f = Fn(1)
    p = f.entry.args[0]
    cur = f.entry
    for _ in range(max(1, n // 5)):
        side, nxt = f.block(0), f.block(0)
        f.cbr(cur, f.read(cur), side, [], nxt, [])
        f.print(side, f.bin(side, "add", p, p))
        f.br(side, nxt)
        cur = nxt
    f.ret(cur, p)
    return [f]


def shared(n, rng):
    """n/2 sums that are one, each printed."""
    f = Fn(1)
    p = f.entry.args[0]
    for _ in range(max(1, n // 2)):
        f.print(f.entry, f.bin(f.entry, "add", p, p))
    f.ret(f.entry, p)
    return [f]


def moveduses(n, rng):
    """two sums that are one, of which the second is printed n times."""
    f = Fn(1)
    p = f.entry.args[0]
    one, other = (f.bin(f.entry, "add", p, p) for _ in range(2))
    for _ in range(max(1, n)):
        f.print(f.entry, other)
    f.ret(f.entry, one)
    return [f]


def sameargs(n, rng):
    """diamonds with unknown conditions; both sides forward one value, which the first block has."""
    f = Fn(1)
    cur, p = f.entry, f.entry.args[0]
    for _ in range(max(1, n // 5)):
        left, right, nxt = f.block(0), f.block(0), f.block(1)
        f.cbr(cur, f.read(cur), left, [], right, [])
        f.br(left, nxt, p)
        f.br(right, nxt, p)
        f.print(nxt, nxt.args[0])
        cur, p = nxt, nxt.args[0]
    f.ret(cur, p)
    return [f]


def ownargs(n, rng):
    """loops one after the other, with unknown conditions; each carries two values that stay as they are."""
    f = Fn(2)
    cur, own = f.entry, f.entry.args
    for _ in range(max(1, n // 4)):
        nxt, end = f.block(2), f.block(0)
        f.br(cur, nxt, *own)
        f.print(nxt, nxt.args[0])
        f.cbr(nxt, f.read(nxt), nxt, nxt.args, end, [])
        cur, own = end, nxt.args
    f.ret(cur, *own)
    return [f]


def absorbed(n, rng):
    """straight line; what is read is multiplied by 0, and that is printed."""
    f = Fn()
    zero = f.const(f.entry, 0)
    for _ in range(max(1, n // 3)):
        f.print(f.entry, f.bin(f.entry, "mul", f.read(f.entry), zero))
    f.ret(f.entry, zero)
    return [f]


SHAPES = {"chain": chain, "diamonds": diamonds, "merges": merges, "loops": loops,
          "nest": nest, "brchain": brchain, "brchain_rev": brchain_rev,
          "unreach": unreach, "dead": dead, "deadring": deadring, "fan": fan,
          "manyargs": manyargs, "liveargs": liveargs,
          "lateargs": lateargs, "shiftargs": shiftargs, "farargs": farargs, "alternating": alternating,
          "sumsink": sumsink, "sumbr": sumbr, "sumcbr": sumcbr, "shiftbr": shiftbr, "shiftcbr": shiftcbr, "turncbr": turncbr,
          "funcs": funcs, "mixed": mixed}

# with operations that an equivalent one dominates, or displaces, for `cse`
REDUNDANT = {"repeats": repeats, "beneath": beneath, "sides": sides, "shared": shared, "moveduses": moveduses}

# with arguments that are one value, or results that one operand decides, for `canonicalize`
FOLDING = {"sameargs": sameargs, "ownargs": ownargs, "absorbed": absorbed}


def boxed_sums(n, depth):
    """n/2 values inside boxes that hold one another, used outside by a chain of n/2 sums, the first sum free."""
    names = short_names()
    count = max(1, n // 2)
    read = [next(names) for _ in range(count)]
    total = [next(names) for _ in range(count)]
    inside = ";".join(f"{r}=read" for r in read)
    sums = ";".join(f"{total[i]}=add {read[i]} {total[i + 1] if i + 1 < count else read[i]}" for i in range(count))
    return "func{z():" + "box{z():" * depth + inside + "}" * depth + ";" + sums + ";ret}\n"


def box_chain(names, used):
    """Boxes, each of which uses one of these values and the value of the next box; so each is free once the one before has gone."""
    own = [next(names) for _ in used]
    return ";".join(f"box{{z():{own[i]}=read;print {used[i]};print {own[min(i + 1, len(own) - 1)]}}}" for i in range(len(own)))


def boxes(n, depth):
    """n/5 values inside boxes that hold one another, used outside by a chain of n/5 boxes."""
    names = short_names()
    read = [next(names) for _ in range(max(2, n // 5))]
    inside = ";".join(f"{r}=read" for r in read)
    return "func{z():" + "box{z():" * depth + inside + "}" * depth + ";" + box_chain(names, read) + ";ret}\n"


def boxargs(n):
    """As boxes, with the arguments of the box's block for values."""
    names = short_names()
    args = [next(names) for _ in range(max(2, n // 4))]
    return "func{z():box{z(" + ",".join(args) + "):ret};" + box_chain(names, args) + ";ret}\n"


def boxconsts(n):
    """As boxes, with constants behind as many reads that nothing uses; so what the last look found goes itself."""
    names = short_names()
    count = max(2, n // 6)
    reads = ";".join(f"{next(names)}=read" for _ in range(count))
    known = [next(names) for _ in range(count)]
    return "func{z():box{z():" + reads + ";" + ";".join(f"{k}=const 1" for k in known) + "};" + box_chain(names, known) + ";ret}\n"


def boxuses(n, last):
    """One value inside a box, used there by n/2 operands and outside by a chain of n/8 boxes before the box, or behind it."""
    names = short_names()
    x = next(names)
    box = f"box{{z():{x}=read;ret" + f" {x}" * max(2, n // 2) + "}"
    chain = box_chain(names, [x] * max(2, n // 8))
    return "func{z():" + (f"{chain};{box}" if last else f"{box};{chain}") + ";ret}\n"


def shortedges(n):
    """A block of n/2 arguments to which n/2 edges forward nothing; not well formed in the other notations."""
    values, blocks = short_names(), short_names()
    args = ",".join(next(values) for _ in range(max(1, n // 2)))
    entry, last = next(blocks), next(blocks)
    edges = ";".join(f"{next(blocks)}():br {last}()" for _ in range(max(1, n // 2)))
    return f"func{{{entry}():ret;{last}({args}):ret;{edges}}}\n"


def twoedges(n):
    """A loop of n/3 arguments, each forwarded to the next one along both edges of one branch; not well formed in LLVM's notation."""
    names = short_names()
    one, first, condition = next(names), next(names), next(names)
    args = [next(names) for _ in range(max(2, n // 3))]
    edges = " ".join(f"y({','.join([head, *args[:-1]])})" for head in (first, one))
    return f"func{{z():{one}=const 1;br y({','.join([one] * len(args))});y({','.join(args)}):{first}=read;{condition}=read;cbr {condition} {edges}}}\n"


def forks(n):
    """A block of n/4 arguments, to which n/4 operations go that are no branches."""
    values, blocks = short_names(), short_names()
    args = ",".join(next(values) for _ in range(max(1, n // 4)))
    last, wide = next(blocks), next(blocks)
    chain = [next(blocks) for _ in range(max(1, n // 4))]
    x = next(values)
    forks = ";".join(f"{block}():fork {x} {wide} {after}" for block, after in zip(chain, [*chain[1:], last]))
    return f"func{{{next(blocks)}():{x}=read;br {chain[0]}();{forks};{wide}({args}):ret;{last}():ret}}\n"


def scopeargs(n):
    """A scope that names n operands for its arguments, which a loop around it forwards to the next operand each; not well defined."""
    names = short_names()
    one, first, condition = next(names), next(names), next(names)
    outer = [next(names) for _ in range(max(2, n))]
    inner = [next(names) for _ in outer]
    loop = f"{first}=read;{condition}=read;scope {' '.join(outer)}{{z({','.join(inner)}):ret}}"
    edge = ",".join([first, *inner[:-1]])
    return f"func{{z():{one}=const 1;br y({','.join([one] * len(outer))});y({','.join(outer)}):{loop};cbr {condition} y({edge})x();x():ret}}\n"


def lastuses(n, depth):
    """A value inside boxes that hold one another, with 5n/6 uses there that stay and others outside that go one by one. Before each of these goes as many
    go inside as are left outside, so that the last uses, those outside, take the indices of these."""
    names = short_names()
    rounds = max(3, int((n / 3) ** 0.5))
    value = next(names)
    gone = [next(names) for _ in range(rounds + 2)]
    user = [next(names) for _ in range(rounds + 2)]
    inside = ";".join(f"box{{z():{gone[i]}=read;ret{f' {value}' * (rounds - i)}}}" for i in range(rounds, 1, -1))
    outside = ";".join(f"box{{z():{user[i]}=read;ret {value}{f' {user[i + 1]} {gone[i + 1]}' if i < rounds else ''}}}" for i in range(1, rounds + 1))
    stay = f"scope{{z():ret{f' {value}' * max(1, n - rounds * rounds // 2)}}}"
    return "func{z():" + "box{z():" * depth + f"{value}=read;{stay};{inside}" + "}" * depth + f";{outside};ret}}\n"


def manyaround(n):
    """n/6 boxes lose a use at once, and as many others go one by one after that."""
    names = short_names()
    once = [next(names) for _ in range(max(2, n // 6))]
    chain = [next(names) for _ in once]
    boxes = ";".join(f"box{{z():{x}=read}}" for x in once)
    links = ";".join(f"box{{z():{x}=read;ret {y}}}" for x, y in zip(chain, [*chain[1:], chain[-1]]))
    return f"func{{z():{boxes};sink {' '.join(once)};{links};ret}}\n"


def held_boxes(inside, names, depth):
    """Boxes around it, each held by a value of its own that is printed outside it."""
    for _ in range(depth):
        held = next(names)
        inside = f"box{{z():{inside};{held}=read}};print {held}"
    return "func{z():" + inside + ";ret}\n"


def deepuses(n):
    """50 values, each used in n/50 scopes, inside 61 boxes that are all held."""
    names = short_names()
    values = [next(names) for _ in range(50)]
    scopes = [f"scope{{z():ret {' '.join(values)}}}"] * max(1, n // 50)
    return held_boxes(";".join([f"{x}=read" for x in values] + scopes), names, 61)


def deepvalues(n):
    """n values, each used once, inside 60 boxes that are all held."""
    names = short_names()
    values = [next(names) for _ in range(max(2, n))]
    return held_boxes(f"scope{{z({','.join(values)}):ret {' '.join(values)}}}", names, 60)


def deepchain(n):
    """n/5 values inside 60 boxes, used outside, inside 60 others that are held, by boxes that go one by one."""
    names = short_names()
    values = [next(names) for _ in range(max(2, n // 5))]
    chain = [next(names) for _ in values]
    inside = "box{z():" * 60 + ";".join(f"{x}=read" for x in values) + "}" * 60
    links = ";".join(f"box{{z():{x}=read;ret {v} {y}}}" for v, x, y in zip(values, chain, [*chain[1:], chain[-1]]))
    return held_boxes(links, names, 60).replace("func{z():", f"func{{z():{inside};", 1)


def nestedvalues(n):
    """50 values, each inside 60 boxes, all used outside, inside 60 others that are held, by each of n/54 boxes that go one by one."""
    names = short_names()
    values = [next(names) for _ in range(50)]
    chain = [next(names) for _ in range(max(2, n // 54))]
    inside = ";".join("box{z():" * 60 + f"{x}=read" + "}" * 60 for x in values)
    links = ";".join(f"box{{z():{x}=read;ret {' '.join(values)} {y}}}" for x, y in zip(chain, [*chain[1:], chain[-1]]))
    return held_boxes(links, names, 60).replace("func{z():", f"func{{z():{inside};", 1)


def longbranches(n):
    """k branches that each make one of k values fall, and about k others that forward all of these, with k^2 near n/4."""
    values, blocks = short_names(), short_names()
    count = max(2, int((n / 4) ** 0.5))
    one, unknown, condition, again = (next(values) for _ in range(4))
    fall = [next(values) for _ in range(count)]
    opened = [next(values) for _ in range(count)]
    first, second = next(values), next(values)
    header, end, stop, *sides = (next(blocks) for _ in range(3 + 4 * count))
    left, known, open_, joined = (sides[i * count:(i + 1) * count] for i in range(4))
    right = [(next(blocks), next(blocks)) for _ in range(max(1, n // (2 * count) - count))]
    parts = [f"{next(blocks)}():{one}=const 1;{unknown}=read;br {header}({one})", f"{header}({condition}):br {left[0]}()"]
    for i in range(count):
        after = left[i + 1] if i + 1 < count else right[0][0]
        parts += [f"{left[i]}():cbr {condition} {known[i]}() {open_[i]}({','.join([unknown, *[one] * (2 * count)])})",
                  f"{known[i]}():br {joined[i]}({one})", f"{open_[i]}({opened[i]}):br {joined[i]}({opened[i]})", f"{joined[i]}({fall[i]}):br {after}()"]
    for i, (head, taken) in enumerate(right):
        after = right[i + 1][0] if i + 1 < len(right) else end
        args = f"{first}__{i},{second}__{i}"
        parts += [f"{head}():cbr {unknown} {taken}({','.join(fall)}) {after}()", f"{taken}({args}):br {after}()"]
    parts += [f"{end}():{again}=read;cbr {unknown} {header}({again}) {stop}()", f"{stop}():ret"]
    return "func{" + ";".join(parts) + "}\n"


def scopes(n, depth):
    """Scopes in chains of so many that hold one another, each with two sums of the same value outside all."""
    values = short_names()
    x = next(values)
    chains = []
    for _ in range(max(1, n // (5 * depth))):
        names = [(next(values), next(values)) for _ in range(depth)]
        opened = (f"scope{{z():{one}=add {x} {x};{other}=add {x} {x};print {other};" for one, other in names)
        chains.append("".join(opened) + "ret" + "};ret" * (depth - 1) + "}")
    return f"func{{z({x}):" + ";".join(chains) + ";ret}\n"


def pairs(n):
    """n/3 operations of two results that are one, with a use of each result."""
    values = short_names()
    parts = [(next(values), next(values)) for _ in range(max(1, n // 3))]
    return "func{z():" + ";".join(f"{one},{other}=pair;print {one};print {other}" for one, other in parts) + ";ret}\n"


def longrepeats(n):
    """k operations that are one, of k operands each, with k^2 near n."""
    values = short_names()
    args = [next(values) for _ in range(max(2, int(n ** 0.5)))]
    return f"func{{z({','.join(args)}):" + ";".join([f"sink {' '.join(args)}"] * len(args)) + ";ret}\n"


# in the bench notation alone, since the others have nothing like a box; a text holds 64 levels at most
BENCH_ONLY = {"boxed": lambda n: boxed_sums(n, 1), "fiftyboxes": lambda n: boxed_sums(n, 50),
         "boxes": lambda n: boxes(n, 1), "deepboxes": lambda n: boxes(n, 50), "boxargs": boxargs,
         "boxconsts": boxconsts, "boxuses": lambda n: boxuses(n, False), "boxuseslast": lambda n: boxuses(n, True),
         "shortedges": shortedges, "scopeargs": scopeargs, "twoedges": twoedges, "forks": forks,
         "longbranches": longbranches, "lastuses": lambda n: lastuses(n, 1), "deeplastuses": lambda n: lastuses(n, 60),
         "manyaround": manyaround, "deepuses": deepuses, "deepvalues": deepvalues, "deepchain": deepchain,
         "nestedvalues": nestedvalues}

# of these, the ones for `cse`
REDUNDANT_BENCH_ONLY = {"scopes": lambda n: scopes(n, 1), "deepscopes": lambda n: scopes(n, 50), "pairs": pairs, "longrepeats": longrepeats}


def bench(fns, w):
    if len(fns) > 1:
        w("mod{z():")
    for i, f in enumerate(fns):
        if i:
            w(";")
        bench_fn(f, w)
    if len(fns) > 1:
        w("}")
    w("\n")


def bench_fn(f, w):
    # values and blocks have separate name spaces; both get the shortest names
    gv, gb = short_names(), short_names()
    v = [next(gv) for _ in range(f.nvals)]
    bn = {b.id: next(gb) for b in f.blocks}

    def edge(e):
        return bn[e[0].id] + "(" + ",".join(v[x] for x in e[1]) + ")"

    w("func{")
    for i, b in enumerate(f.blocks):
        if i:
            w(";")
        w(bn[b.id] + "(" + ",".join(v[x] for x in b.args) + "):")
        for kind, r, a in b.ops:
            if kind == "const":
                w(f"{v[r]}=const {a};")
            elif r is None:
                w(kind + " " + " ".join(v[x] for x in a) + ";")
            else:
                w(f"{v[r]}={kind}" + "".join(" " + v[x] for x in a) + ";")
        t = b.term
        if t[0] == "br":
            w("br " + edge(t[1]))
        elif t[0] == "cbr":
            w(f"cbr {v[t[1]]} {edge(t[2])}{edge(t[3])}")
        else:
            w("ret" + "".join(" " + v[x] for x in t[1]))
    w("}")


def llvm(fns, w):
    w(f"; ops {sum(f.count() for f in fns)} blocks {sum(len(f.blocks) for f in fns)} funcs {len(fns)}\n")
    w("declare i64 @read()\ndeclare void @print(i64)\ndeclare void @sink(...)\n")
    for n, f in enumerate(fns):
        llvm_fn(n, f, w)


def llvm_fn(n, f, w):
    consts = {r: a for b in f.blocks for kind, r, a in b.ops if kind == "const"}

    def val(x):
        return str(consts[x]) if x in consts else f"%v{x}"

    incoming = {b.id: [[] for _ in b.args] for b in f.blocks}
    for b in f.blocks:
        for e in b.term[1:] if b.term[0] == "br" else b.term[2:] if b.term[0] == "cbr" else []:
            for i, x in enumerate(e[1]):
                incoming[e[0].id][i].append((val(x), b.id))
    nret = max((len(b.term[1]) for b in f.blocks if b.term[0] == "ret"), default=0)
    rt = "void" if nret == 0 else "i64" if nret == 1 else "{" + ", ".join(["i64"] * nret) + "}"
    w(f"define {rt} @f{n}(" + ", ".join(f"i64 %v{x}" for x in f.entry.args) + ") {\n")
    for b in f.blocks:
        w(f"b{b.id}:\n")
        if b is not f.entry:
            for i, x in enumerate(b.args):
                inc = incoming[b.id][i]
                if inc:
                    w(f"  %v{x} = phi i64 " + ", ".join(f"[{y}, %b{p}]" for y, p in inc) + "\n")
                else:                       # unreachable head of a chain without a predecessor
                    w(f"  %v{x} = add i64 0, 0\n")
        for kind, r, a in b.ops:
            if kind == "read":
                w(f"  %v{r} = call i64 @read()\n")
            elif kind == "print":
                w(f"  call void @print(i64 {val(a[0])})\n")
            elif kind == "sink":
                w("  call void (...) @sink(" + ", ".join(f"i64 {val(x)}" for x in a) + ")\n")
            elif kind != "const":
                w(f"  %v{r} = {'sdiv' if kind == 'div' else kind} i64 {val(a[0])}, {val(a[1])}\n")
        t = b.term
        if t[0] == "br":
            w(f"  br label %b{t[1][0].id}\n")
        elif t[0] == "cbr":
            w(f"  %c{b.id} = icmp ne i64 {val(t[1])}, 0\n")
            w(f"  br i1 %c{b.id}, label %b{t[2][0].id}, label %b{t[3][0].id}\n")
        elif nret == 0:
            w("  ret void\n")
        elif nret == 1:
            w(f"  ret i64 {val(t[1][0])}\n")
        else:
            agg = "undef"
            for i, x in enumerate(t[1]):
                w(f"  %r{b.id}_{i} = insertvalue {rt} {agg}, i64 {val(x)}, {i}\n")
                agg = f"%r{b.id}_{i}"
            w(f"  ret {rt} {agg}\n")
    w("}\n")


def mlir(fns, w):
    w("module {\nfunc.func private @read() -> i64\nfunc.func private @print(i64)\n")
    for n, f in enumerate(fns):
        mlir_fn(n, f, w)
    w("}\n")


def mlir_fn(n, f, w):
    def values(xs):
        return ", ".join(f"%v{x}" for x in xs)

    def typed(xs):
        return f"({values(xs)} : {types(len(xs))})" if xs else ""

    def types(count):
        return ", ".join(["i64"] * count)

    def edge(e):
        return f"^b{e[0].id}" + typed(list(e[1]))

    nret = max(len(b.term[1]) for b in f.blocks if b.term[0] == "ret")
    w(f"func.func @f{n}(" + ", ".join(f"%v{x}: i64" for x in f.entry.args) + f") -> ({types(nret)}) {{\n")
    w("  %zero = arith.constant 0 : i64\n")
    for b in f.blocks:
        if b is not f.entry:
            w(f"^b{b.id}" + (f"({', '.join(f'%v{x}: i64' for x in b.args)})" if b.args else "") + ":\n")
        for kind, r, a in b.ops:
            if kind == "const":
                w(f"  %v{r} = arith.constant {a} : i64\n")
            elif kind == "read":
                w(f"  %v{r} = func.call @read() : () -> i64\n")
            elif kind == "print":
                w(f"  func.call @print(%v{a[0]}) : (i64) -> ()\n")
            else:
                name = {"add": "addi", "mul": "muli", "div": "divsi"}[kind]
                w(f"  %v{r} = arith.{name} {values(a)} : i64\n")
        t = b.term
        if t[0] == "br":
            w(f"  cf.br {edge(t[1])}\n")
        elif t[0] == "cbr":
            w(f"  %c{b.id} = arith.cmpi ne, %v{t[1]}, %zero : i64\n")
            w(f"  cf.cond_br %c{b.id}, {edge(t[2])}, {edge(t[3])}\n")
        else:
            w("  func.return" + (f" {values(t[1])} : {types(len(t[1]))}" if t[1] else "") + "\n")
    w("}\n")


PRINT = {"bench": bench, "llvm": llvm, "mlir": mlir}


# The nodes that follow node i in a graph of n nodes.
GRAPHS = {
    "chain": lambda i, n, r: [i + 1],
    "random": lambda i, n, r: dict.fromkeys(r.randrange(n) for _ in range(4)),
    "dense": lambda i, n, r: [j for j in range(n) if j != i],
    "nest": lambda i, n, r: [i + 1] if i < n // 2 else [min(n - 1 - i, n // 2 - 1), i + 1],
    "loops": lambda i, n, r: [i + 1] + ([i - 3] if i % 4 == 3 else []),
    "star": lambda i, n, r: [0] if i else range(1, n),
    "isolated": lambda i, n, r: [],
}


def graph_text(shape, n):
    """A line for each node: its name, and the names of those that follow it."""
    r = random.Random(1)
    return "".join(f"{i}:" + "".join(f" {j}" for j in GRAPHS[shape](i, n, r) if j < n) + "\n" for i in range(n))


def text_of(shape, n, notation):
    if notation == "graph":
        return graph_text(shape, n)
    in_bench = BENCH_ONLY | REDUNDANT_BENCH_ONLY
    if shape in in_bench:
        return in_bench[shape](n)
    parts = []
    PRINT[notation]((SHAPES | REDUNDANT | FOLDING)[shape](n, random.Random(1)), parts.append)
    return "".join(parts)


if __name__ == "__main__":
    if len(sys.argv) == 2 and sys.argv[1] == "list":
        print(*SHAPES)
    else:
        sys.stdout.write(text_of(sys.argv[1], int(sys.argv[2]), sys.argv[3]))
