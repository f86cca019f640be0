"""How often propagation pops something off a worklist: a plain search by the order of work that the head of `pliron_opt_sccp`'s `search` names,
last in, first out. Facts stand in a dictionary; nothing is shared with the crate."""
from notation import FOLDS, fold, inside, uses, within
from models import UNKNOWN, VARYING

FEW_OPERANDS, FEW_VISITS = 8, 4


class Search:
    def __init__(self, root):
        self.visits, self.feasible, self.deferred = {}, {}, []
        self.uses, self.marks, self.blocks, self.values, self.pops = uses(root), {}, [], [], 0
        made = [value for op in inside(root) for value in op.results]
        made += [value for op in within(root) for region in op.regions for block in region.blocks for value in block.args]
        self.facts = {value: UNKNOWN for value in made}
        self.satisfy(self.entries(root))
        while self.turn():
            pass

    def fact(self, value):
        return self.facts.get(value, VARYING)

    def enter(self, block):
        if block not in self.marks:
            self.marks[block] = "waiting"
            self.blocks.append(block)

    def lower(self, value, to):
        old = self.fact(value)
        if to == UNKNOWN or old in (VARYING, to):
            return
        self.facts[value] = to if old == UNKNOWN else VARYING
        if value not in self.values:
            self.values.append(value)

    def satisfy(self, constraints):
        """The last constraint is satisfied first."""
        for call, *rest in reversed(constraints):
            call(*rest)

    def numbers(self, op):
        return [fact if isinstance(fact, int) else None for fact in map(self.fact, op.operands)]

    def entered(self, block):
        return [(self.enter, block)] + [(self.lower, value, VARYING) for value in block.args]

    def entries(self, op):
        return [found for region in op.regions if region.blocks for found in self.entered(region.blocks[0])]

    def regions(self, op):
        """A scope passes its operands, all else nothing that is known."""
        if op.kind != "scope":
            return self.entries(op)
        self.visits[op] = self.visits.get(op, 0) + 1
        constraints = []
        for region in op.regions:
            entry = region.blocks[0]
            passed = [self.fact(value) for value in op.operands] + [VARYING] * len(entry.args)
            constraints += [(self.enter, entry)] + [(self.lower, value, fact) for value, fact in zip(entry.args, passed)]
        return constraints

    def edges(self, op):
        if op.kind not in ("br", "cbr"):
            return [found for block in op.successors for found in self.entered(block)]
        condition = self.numbers(op)[0] if op.kind == "cbr" else None
        taken = op.successors if condition is None else [op.successors[0 if condition != 0 else 1]]
        self.visits[op] = self.visits.get(op, 0) + 1
        if self.visits[op] > FEW_VISITS:
            self.feasible[op] = taken
        constraints = []
        for i, block in enumerate(op.successors):
            if block in taken:
                passed = [self.fact(op.operands[place]) for place in op.edge(i)]
                constraints += [(self.enter, block)] + [(self.lower, value, fact) for value, fact in zip(block.args, passed)]
        return constraints

    def results(self, op):
        found = fold(op, self.numbers(op)) if op.kind in FOLDS else None
        return [(self.lower, value, VARYING if found is None else found) for value in op.results]

    def visit(self, op):
        self.satisfy(self.regions(op) + self.edges(op) + self.results(op))

    def react(self, op, place, value, again, constraints):
        """What follows where the operand at this place was lowered."""
        if self.marks.get(op.block) != "visited":
            return
        if op.kind == "br":
            args = op.successors[0].args
            if place < len(args):
                constraints.append((self.lower, args[place], self.fact(value)))
        elif op.kind in FOLDS + ("cbr", "scope"):
            if op not in again:
                again.append(op)
            if len(op.operands) > FEW_OPERANDS and self.visits.get(op, 0) > FEW_VISITS:
                constraints += self.eagerly(op, place, value)

    def eagerly(self, op, place, value):
        """The arguments that get this operand at once: of a scope those of its entries, of a `cbr` the one along an edge that was found
        feasible."""
        if op.kind == "scope":
            entries = [region.blocks[0] for region in op.regions]
            return [(self.lower, entry.args[place], self.fact(value)) for entry in entries if place < len(entry.args)]
        if op.kind != "cbr" or place == 0:
            return []
        edge = 0 if place <= op.counts[0] else 1
        index, block = place - 1 - edge * op.counts[0], op.successors[edge]
        known = block in self.feasible.get(op, []) and index < len(block.args)
        return [(self.lower, block.args[index], self.fact(value))] if known else []

    def turn(self):
        """A block is popped before any value; where there is none, all values are."""
        if self.blocks:
            block = self.blocks.pop()
            self.marks[block] = "visited"
            self.pops += 1
            for op in block.ops:
                self.visit(op)
            return True
        if not self.values:
            return self.turn_to_deferred()
        again, constraints = [], []
        while self.values:
            value = self.values.pop()
            self.pops += 1
            for op, place in self.uses.get(value, []):
                self.react(op, place, value, again, constraints)
        self.satisfy(constraints)
        for op in again:
            if len(op.operands) <= FEW_OPERANDS:
                self.visit(op)
            elif op not in self.deferred:
                self.deferred.append(op)
        return True

    def turn_to_deferred(self):
        """Where both worklists are empty a deferred operation is visited: the last one of those with the fewest operands, which are counted
        to within a factor of two."""
        if not self.deferred:
            return False
        least = min(len(op.operands).bit_length() for op in self.deferred)
        op = [op for op in self.deferred if len(op.operands).bit_length() == least][-1]
        self.deferred.remove(op)
        self.visit(op)
        return True
