#!/usr/bin/env python3
"""Makes formulas to measure a preprocessor on: circuits, plans and schedules, the same ones each time.

    formulas.py SIZE FOLDER

SIZE is S (some thousand clauses each) or M (some ten to hundred thousand). The plans and schedules are those of examples/make.py at
larger sizes; the circuits are made here, each gate by the clauses of its truth table.
"""
import os
import sys

TOP = os.path.dirname(os.path.dirname(os.path.abspath(__file__)))
sys.path.insert(0, os.path.join(TOP, "examples"))
sys.dont_write_bytecode = True
from make import Cnf, plan, schedule  # noqa: E402


class Circuit(Cnf):
    """Gates over wires. Each has a new variable for its output."""

    def wire(self):
        return self.var("wire", len(self.names))

    def wires(self, count):
        return [self.wire() for _ in range(count)]

    def both(self, a, b):
        out = self.wire()
        self.add(-out, a)
        self.add(-out, b)
        self.add(out, -a, -b)
        return out

    def either(self, a, b):
        return -self.both(-a, -b)

    def differ(self, a, b):
        out = self.wire()
        for x, y in ((a, b), (-a, -b)):
            self.add(-out, x, y)
            self.add(out, x, -y)
        return out

    def choose(self, which, a, b):
        """a where `which` is true, else b."""
        out = self.wire()
        self.add(-which, -out, a)
        self.add(-which, out, -a)
        self.add(which, -out, b)
        self.add(which, out, -b)
        return out

    def full_adder(self, a, b, carry):
        half = self.differ(a, b)
        return self.differ(half, carry), self.either(self.both(a, b), self.both(half, carry))

    def sum(self, xs, ys, carry):
        """The bits of the sum, lowest first, and the carry."""
        bits = []
        for x, y in zip(xs, ys):
            bit, carry = self.full_adder(x, y, carry)
            bits.append(bit)
        return bits, carry

    def constant(self, value):
        out = self.wire()
        self.add(out if value else -out)
        return out


def adders(width, block=8):
    """A ripple adder and one that makes each block for both carries and chooses: some output bit differs. Unsatisfiable."""
    f = Circuit()
    xs, ys = f.wires(width), f.wires(width)
    zero, one = f.constant(0), f.constant(1)
    ripple, _ = f.sum(xs, ys, zero)
    carry, chosen = zero, []
    for at in range(0, width, block):
        part = slice(at, at + block)
        (low, low_carry), (high, high_carry) = f.sum(xs[part], ys[part], zero), f.sum(xs[part], ys[part], one)
        chosen += [f.choose(carry, h, l) for h, l in zip(high, low)]
        carry = f.choose(carry, high_carry, low_carry)
    f.add(*[f.differ(a, b) for a, b in zip(ripple, chosen)])
    return f


def multiplier(width, product):
    """Two numbers of this width whose product is a given number: rows of adders, one for each bit of the second."""
    f = Circuit()
    xs, ys = f.wires(width), f.wires(width)
    zero = f.constant(0)
    total = [zero] * (2 * width)
    for at, y in enumerate(ys):
        row = [f.both(x, y) for x in xs]
        bits, carry = f.sum(total[at : at + width], row, zero)
        total[at : at + width + 1] = bits + [carry]
    for at, bit in enumerate(total):
        f.add(bit if product >> at & 1 else -bit)
    return f


def machine(width, steps):
    """A register that each step shifts, is mixed with itself and an input bit, or counts on: reaches all ones from zero."""
    f = Circuit()
    zero, one = f.constant(0), f.constant(1)
    register = [zero] * width
    for _ in range(steps):
        counts, fed = f.wires(2)
        shifted = [f.differ(register[-1], fed)] + register[:-1]
        mixed = [f.differ(bit, f.both(register[at - 3], fed)) for at, bit in enumerate(shifted)]
        counted, _ = f.sum(register, [zero] * width, one)
        register = [f.choose(counts, c, m) for c, m in zip(counted, mixed)]
    for bit in register:
        f.add(bit)
    return f


SIZES = {
    "S": {
        "circuit-adders": lambda: adders(64), "circuit-multiplier": lambda: multiplier(14, 10403 * 8191),
        "circuit-machine": lambda: machine(16, 12), "plan-blocks": lambda: plan(4, 7), "plan-tower": lambda: plan(5, 5),
        "schedule-jobs": lambda: schedule(5, 3, 18), "schedule-shop": lambda: schedule(5, 5, 22),
    },
    "M": {
        "circuit-adders": lambda: adders(1000), "circuit-multiplier": lambda: multiplier(64, (2**61 - 1) * (2**31 - 1)),
        "circuit-machine": lambda: machine(64, 64), "plan-blocks": lambda: plan(6, 6), "plan-tower": lambda: plan(7, 5),
        "schedule-jobs": lambda: schedule(12, 5, 48), "schedule-shop": lambda: schedule(10, 9, 44),
    },
}


def main():
    size, folder = sys.argv[1:]
    for name, make in SIZES[size].items():
        make().write(os.path.join(folder, "%s-%s.cnf" % (name, size)))


if __name__ == "__main__":
    main()
