#!/usr/bin/env python3
"""Runs the built program on inputs larger than those of the other checks: where memory is ample no run ends out of memory.

    large.py PROGRAM

Each number that follows is above any at which a program might give up: variables, clauses, literals of a clause and of all clauses, clauses of
one variable, bytes, commits, pairs, workers. What the runs write is checked by what it has to be: each formula has a model that is known, what is
left of it is empty or the formula itself, and the model that `extend` completes satisfies the formula.
"""
import os
import random
import subprocess
import sys
import tempfile

VARIABLES = 120_000
CLAUSES = 340_000  # of three literals, so more than a million literals
LONG = 1_500  # literals of one clause
OFTEN = 10_500  # clauses of the first variable
SIDE = 600  # clauses of either sign of a variable at which nothing applies


def pure(rng):
    """Clauses without a negation: all of them go, and pairs stand for them."""
    yield range(1, LONG + 1)
    for at in range(CLAUSES):
        first = [1] if at < OFTEN else [rng.randint(2, VARIABLES)]
        yield first + rng.sample(range(2, VARIABLES + 1), 2)


def firm():
    """Many clauses of the first variable, either sign, and a ring of implications behind each sign: none is blocked."""
    for sign, base in ((1, 2), (-1, 2 + SIDE)):
        for at in range(SIDE):
            yield [sign, base + at]
            yield [-(base + at), base + (at + 1) % SIDE]


def text_of(variables, clauses):
    lines = ["%s 0\n" % " ".join(map(str, clause)) for clause in clauses]
    return "p cnf %d %d\n%s" % (variables, len(lines), "".join(lines))


def ran(program, folder, words, status):
    done = subprocess.run([program, *words], cwd=folder, stdin=subprocess.DEVNULL, stdout=subprocess.PIPE, stderr=subprocess.PIPE, timeout=300)
    if done.returncode != status:
        sys.exit("large: %s: status %d and not %d: %s" % (" ".join(words), done.returncode, status, done.stderr.decode()[-300:]))
    return done.stdout.decode()


def main():
    program = os.path.abspath(sys.argv[1])
    clauses = [list(clause) for clause in pure(random.Random(8))]
    with tempfile.TemporaryDirectory() as folder:
        for name, text in (("pure.cnf", text_of(VARIABLES, clauses)), ("firm.cnf", text_of(1 + 2 * SIDE, firm())), ("model", "v 0\n")):
            with open(os.path.join(folder, name), "w") as it:
                it.write(text)
        for workers in ("0", "9"):
            words = ["simplify", "--cnf", "pure.cnf", "--stack", "pairs", "--only", "tsxe", "--hood", "1", "--workers", workers]
            if ran(program, folder, words, 10) != "p cnf %d 0\n" % VARIABLES:
                sys.exit("large: with %s workers clauses are left" % workers)
            model = ran(program, folder, ["extend", "--stack", "pairs", "--model", "model"], 10)
            holds = {int(word) for line in model.splitlines() if line.startswith("v") for word in line.split()[1:]}
            if any(holds.isdisjoint(clause) for clause in clauses):
                sys.exit("large: with %s workers the completed model breaks a clause" % workers)
        left = ran(program, folder, ["simplify", "--cnf", "firm.cnf", "--only", "b", "--workers", "0"], 0)
        if left.splitlines()[0] != "p cnf %d %d" % (1 + 2 * SIDE, 4 * SIDE):
            sys.exit("large: a clause that isn't blocked went")
        ran(program, folder, ["generate", "--vars", "2000000", "--clauses", "1100000"], 0)
    print("large: ok")


if __name__ == "__main__":
    main()
