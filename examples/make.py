#!/usr/bin/env python3
"""Makes the examples plan.cnf and schedule.cnf of this folder: make.py FOLDER

Both are written as such encodings come out of tools, with what is said twice left in.
"""
import itertools
import os
import sys


class Cnf:
    """Variables by name, and clauses."""

    def __init__(self):
        self.names, self.clauses = {}, []

    def var(self, *name):
        return self.names.setdefault(name, len(self.names) + 1)

    def add(self, *literals):
        self.clauses.append(literals)

    def at_most_one(self, literals):
        for a, b in itertools.combinations(literals, 2):
            self.add(-a, -b)

    def exactly_one(self, literals):
        self.add(*literals)
        self.at_most_one(literals)

    def write(self, path):
        with open(path, "w") as out:
            out.write("p cnf %d %d\n" % (len(self.names), len(self.clauses)))
            out.writelines(" ".join(map(str, clause)) + " 0\n" for clause in self.clauses)


def plan(blocks=3, steps=3):
    """Blocks are moved, one at each step, from a row on the table to a tower.

    on(a, x, t): the block a stands on x, a block or the table. move(a, x, y, t): a is moved from x to y at the step t.
    """
    f = Cnf()
    places = list(range(blocks)) + ["table"]
    moves = [(a, x, y) for a in range(blocks) for x in places for y in places if a not in (x, y) and x != y]
    for t in range(steps + 1):
        for a in range(blocks):
            f.exactly_one([f.var("on", a, x, t) for x in places if x != a])
        for x in range(blocks):
            f.at_most_one([f.var("on", a, x, t) for a in range(blocks) if a != x])
    for t in range(steps):
        f.at_most_one([f.var("move", *m, t) for m in moves])
        for a, x, y in moves:
            move = f.var("move", a, x, y, t)
            f.add(-move, f.var("on", a, x, t))
            f.add(-move, f.var("on", a, y, t + 1))
            for b in range(blocks):
                if b != a:
                    f.add(-move, -f.var("on", b, a, t))
                if b != a and y == "table":
                    f.add(-move, -f.var("on", b, a, t + 1))
                if b not in (a, y) and y != "table":
                    f.add(-move, -f.var("on", b, y, t))
        for a in range(blocks):
            for x in places:
                if x != a:
                    away = [f.var("move", *m, t) for m in moves if m[:2] == (a, x)]
                    here = [f.var("move", *m, t) for m in moves if (m[0], m[2]) == (a, x)]
                    f.add(-f.var("on", a, x, t), f.var("on", a, x, t + 1), *away)
                    f.add(f.var("on", a, x, t), -f.var("on", a, x, t + 1), *here)
    for a in range(blocks):
        f.add(f.var("on", a, "table", 0))
        f.add(f.var("on", a, a + 1 if a + 1 < blocks else "table", steps))
    return f


def schedule(jobs=3, machines=3, horizon=8):
    """Each job visits the machines in an order of its own, for a time of its own at each; two jobs never share a machine.

    start(j, k, t): the k-th operation of the job j starts at the time t.
    """
    f = Cnf()
    order = [[(j + k * (1 + j % 2)) % machines for k in range(machines)] for j in range(jobs)]
    length = [[1 + (j + k) % 2 for k in range(machines)] for j in range(jobs)]
    for j in range(jobs):
        for k in range(machines):
            f.exactly_one([f.var("start", j, k, t) for t in range(horizon - length[j][k] + 1)])
            for t in range(horizon - length[j][k] + 1):
                if k + 1 < machines:
                    for u in range(min(t + length[j][k], horizon - length[j][k + 1] + 1)):
                        f.add(-f.var("start", j, k, t), -f.var("start", j, k + 1, u))
                    later = range(t + length[j][k], horizon - length[j][k + 1] + 1)
                    f.add(-f.var("start", j, k, t), *[f.var("start", j, k + 1, u) for u in later])
    for i, j in itertools.permutations(range(jobs), 2):
        for k, m in itertools.product(range(machines), repeat=2):
            if order[i][k] == order[j][m]:
                for t in range(horizon - length[i][k] + 1):
                    for u in range(t, min(t + length[i][k], horizon - length[j][m] + 1)):
                        f.add(-f.var("start", i, k, t), -f.var("start", j, m, u))
    return f


def main():
    folder = sys.argv[1]
    plan().write(os.path.join(folder, "plan.cnf"))
    schedule().write(os.path.join(folder, "schedule.cnf"))


if __name__ == "__main__":
    main()
