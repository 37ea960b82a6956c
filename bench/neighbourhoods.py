#!/usr/bin/env python3
"""Counts the neighbourhoods of formulas: what workers can gain depends on them.

    neighbourhoods.py FILE..

A variable's neighbourhood is itself and all variables with which it shares a clause; a worker locks all of it. For each file there is a
line with how many variables occur, the mean and the greatest neighbourhood, how many are above the default limit of the option
`--hood`, and whether they are small: at most 30 variables in the mean, and none above the limit.
"""
import os
import sys

LIMIT = 512
SMALL = 30


def clauses_of(path):
    """The clauses of a CNF file, each as its variables."""
    with open(path, encoding="ascii") as file:
        words = (word for line in file if not line.startswith(("c", "p")) for word in line.split())
        clause = []
        for word in words:
            if word == "0":
                yield sorted(set(clause))
                clause = []
            else:
                clause.append(abs(int(word)))


def neighbourhood_sizes(clauses):
    """The size of the neighbourhood of each variable that occurs."""
    cells = {}
    for clause in clauses:
        for variable in clause:
            cells.setdefault(variable, []).append(clause)
    for variable in list(cells):
        yield len(set().union(*cells.pop(variable)))


def line_of(path):
    """The line of a file."""
    sizes = list(neighbourhood_sizes(clauses_of(path)))
    mean = sum(sizes) / len(sizes) if sizes else 0
    wide = sum(size > LIMIT for size in sizes)
    kind = "small" if mean <= SMALL and not wide else "large"
    name = os.path.basename(path)
    return f"{name:36} {len(sizes):9} variables {mean:9.1f} mean {max(sizes, default=0):7} greatest {wide:7} above {LIMIT}  {kind}"


def main():
    if len(sys.argv) < 2:
        sys.exit("usage: neighbourhoods.py FILE..")
    for path in sys.argv[1:]:
        print(line_of(path), flush=True)


if __name__ == "__main__":
    main()
