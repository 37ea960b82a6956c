#!/usr/bin/env python3
"""Writes a plain CNF file of about the given size in which no clause is a tautology or subsumed.

    variable_groups.py MEGABYTES > FILE

The variables stand in groups of four, and each clause has three literals of one group. No clause of a group is written
twice, so no clause is subsumed, and none has a literal with its negation; what blocks or resolves may still find something. Simplified
with `--only ts` it shows how fast a program reads and prints.
"""
import itertools
import random
import sys

VARIABLES = 2_000_000
GROUP = 4


def clauses_of_group(rng, first, count):
    """So many different clauses of three literals over the group that begins at a variable."""
    shapes = [(vs, signs) for vs in itertools.combinations(range(GROUP), 3) for signs in itertools.product((1, -1), repeat=3)]
    for vs, signs in rng.sample(shapes, count):
        yield [sign * (first + v) for v, sign in zip(vs, signs)]


def main():
    wanted = int(sys.argv[1]) * 1_000_000
    rng = random.Random(1)
    each = max(1, min(32, round(wanted / 26 / (VARIABLES // GROUP))))
    lines, size = [], 0
    for group in range(VARIABLES // GROUP):
        for clause in clauses_of_group(rng, GROUP * group + 1, each):
            line = " ".join(map(str, clause)) + " 0\n"
            lines.append(line)
            size += len(line)
        if size >= wanted:
            break
    sys.stdout.write(f"p cnf {VARIABLES} {len(lines)}\n")
    sys.stdout.writelines(lines)


if __name__ == "__main__":
    main()
