#!/usr/bin/env python3
"""Runs the built program with many workers on formulas whose neighbourhoods overlap, and checks what comes out.

    workers.py PROGRAM [COUNT [SEED]]

COUNT formulas (24 where it isn't given) of each kind and size are simplified with each number of workers. What is checked holds in
every interleaving:

- each lemma of the proof is RUP where it stands, each deletion takes a clause that is there, and the proof leaves just the clauses of
  the reduced formula;
- nothing that was asked for applies any more at any variable, and no budget was given;
- the exit status and the summary say what the texts say;
- of a small formula, by all assignments at once: the output is satisfiable exactly if the input is, and each model of the output,
  completed by the pairs, satisfies the input;
- of a large one, made to have a model: models of the output, completed by the program's own `extend`, satisfy the input.

The formulas in examples/ are simplified with the default options besides.

A run that fails prints its command, its formula and what was expected, and its folder is kept.
"""
import glob
import os
import random
import shutil
import sys
import tempfile

import cases
import check

WORKERS = (2, 4, 8)
SMALL, LARGE = 14, 160  # variables
ALL_LETTERS = "tsxbe"


def signed(rng, variables):
    return [rng.choice((1, -1)) * v for v in variables]


def hub(rng, variables):
    """The first variable is in half of the clauses, so that nearly every two neighbourhoods meet."""
    for at in range(rng.choice((2, 3, 5)) * variables):
        others = rng.sample(range(2, variables + 1), rng.choice((1, 2, 2, 2, 3, 3)))
        yield signed(rng, [1] * (at % 2) + others)


def chain(rng, variables):
    """Each clause is over variables next to each other on a ring."""
    most = rng.choice((2, 3, 5))
    for first in range(variables):
        for _ in range(rng.randint(1, most)):
            near = [(first + step) % variables + 1 for step in range(rng.choice((2, 3, 3, 4)))]
            yield signed(rng, near)


def grid(rng, variables):
    """Each clause is over a cell of a grid and cells beside, below or across from it."""
    width = max(w for w in range(1, variables + 1) if variables % w == 0 and w * w <= variables)
    each = rng.choice((2, 3, 5))
    for cell in range(variables):
        near = [cell + step for step in (1, width, width + 1) if cell + step < variables]
        for _ in range(each):
            yield signed(rng, [v + 1 for v in [cell] + rng.sample(near, min(len(near), rng.choice((1, 2, 2, 3, 3))))])


def scattered(rng, variables):
    """Clauses over any variables, with some said twice, some longer than they need be, and some tautologies."""
    made = []
    for _ in range(rng.choice((3, 4, 5)) * variables):
        clause = signed(rng, rng.sample(range(1, variables + 1), rng.choice((2, 3, 3, 3, 3, 4))))
        if made and rng.random() < 0.1:
            clause = rng.choice(made) + signed(rng, [rng.randint(1, variables) for _ in range(rng.choice((0, 1, 2)))])
        made.append(clause)
        yield clause


KINDS = {"hub": hub, "chain": chain, "grid": grid, "random": scattered}


def planted(rng, clauses, model):
    """The clauses, each with a literal of it turned where the model makes none true."""
    for clause in clauses:
        if not any(literal in model for literal in clause):
            clause = [-clause[0]] + clause[1:]
        yield clause


def cnf_text(variables, clauses):
    """The clauses with their literals as they stand."""
    lines = ["p cnf %d %d\n" % (variables, len(clauses))] + [" ".join(map(str, clause + [0])) + "\n" for clause in clauses]
    return "".join(lines).encode()


def options(rng):
    """All techniques in three runs of four, else some of them; several rounds; narrow and wide neighbourhoods."""
    letters = ALL_LETTERS if rng.random() < 0.75 else "".join(rng.sample(ALL_LETTERS, rng.randint(1, 4)))
    bound = rng.choice((0, 0, 0, 1, 4))
    words = ["--rounds", str(rng.choice((1, 2, 3, 5, 16))), "--hood", str(rng.choice((1, 4, 12, 512, 512, 512)))]
    words += ["--only", letters, "--bound", str(bound), "--proof-form", rng.choice(("text", "binary"))]
    return letters, bound, words


# All assignments to the variables at once: a variable's column has one bit for each assignment.


def columns_of(variables):
    every = (1 << (1 << variables)) - 1
    return [every] + [every // ((1 << (1 << v)) + 1) << (1 << v) for v in range(variables)]


def where(columns, clause):
    """The assignments in which the clause is true."""
    true = 0
    for literal in clause:
        column = columns[abs(literal)]
        true |= column if literal > 0 else columns[0] ^ column
    return true


def where_all(columns, clauses):
    true = columns[0]
    for clause in clauses:
        true &= where(columns, clause)
    return true


def completed(columns, pairs):
    """The columns after each assignment was completed, from the last pair to the first."""
    columns = list(columns)
    for pair in reversed(pairs):
        false = columns[0] ^ where(columns, pair)
        v = abs(pair[0])
        columns[v] = columns[v] | false if pair[0] > 0 else columns[v] & ~false
    return columns


def fault_of_models(variables, formula, reduced, pairs):
    """Of a small formula."""
    if variables > SMALL:
        return ""
    columns = columns_of(variables)
    models = where_all(columns, reduced)
    if (models == 0) != (where_all(columns, formula) == 0):
        return "that the reduced formula is satisfiable exactly if the input is"
    if models & ~where_all(completed(columns, pairs), formula):
        return "that each model of the reduced formula, completed by the pairs, satisfies the input"
    return ""


def walked(rng, variables, clauses, model):
    """Another model: each variable in turn, in any order, is turned where the clauses stay true."""
    model = set(model)
    having = {}
    for clause in clauses:
        for literal in clause:
            having.setdefault(literal, []).append(clause)
    for v in rng.sample(range(1, variables + 1), variables):
        literal = v if v in model else -v
        turned = model - {literal} | {-literal}
        if all(turned & clause for clause in having.get(literal, ())):
            model = turned
    return model


def fault_of_extend(rng, program, folder, formula, reduced, model):
    variables = len(model)
    for _ in range(4):
        model = walked(rng, variables, reduced, model)
        text = "v %s 0\n" % " ".join(str(literal) for literal in sorted(model, key=abs))
        status, out, err = cases.run(program, ["extend", "--stack", "stack"], text.encode(), folder)
        wrong = err.decode() or check.model_fault(formula, check.model_of(out))
        if status != 10 or wrong:
            return "that extend completes the model %r to one of the input; it ends with %s: %s" % (text, status, wrong)
    return ""


# One run and what is wrong with it.


class Run:
    """The texts of a run of `simplify` in a folder."""

    NAMES = ("in", "reduced", "stack", "proof", "summary")

    def __init__(self, program, words, text):
        self.folder = tempfile.mkdtemp(prefix="copro-workers-")
        roles = ("cnf=in", "reduced=reduced", "stack=stack", "proof=proof", "summary=summary")
        words = ["simplify"] + words + ["--" + role for role in roles]
        self.command = [program] + words
        with open(os.path.join(self.folder, "in"), "wb") as file:
            file.write(text)
        self.status, *said = cases.run(program, words, b"", self.folder)
        self.said = b"".join(said)
        self.text = {name: cases.held_by(os.path.join(self.folder, name)) for name in self.NAMES}


def pairs_of(text):
    """The pairs of a stack, each as its literals in their order."""
    return [literals for _, literals in check.items_of([word for line in check.lines_of(text)[1:] for word in line])]


def summary_of(text):
    return dict(line.split(" ") for line in text.decode().splitlines())


def fault_of_result(run, variables, formula, reduced, pairs):
    """What is wrong with the status, the headers and the summary."""
    if variables != max(abs(literal) for clause in formula for literal in clause):
        return "the formula's variables, not %d, in the reduced formula's header" % variables
    status = 20 if frozenset() in reduced else 0 if reduced else 10
    if run.status != status:
        return "the status %d, not %d" % (status, run.status)
    if check.lines_of(run.text["stack"])[0] != ["p", "stack", "1", str(variables), str(len(pairs))]:
        return "the stack's header to name %d variables and %d pairs" % (variables, len(pairs))
    told = summary_of(run.text["summary"])
    wanted = {
        "variables": variables, "clauses": len(formula), "literals": sum(map(len, formula)),
        "reduced-clauses": len(reduced), "reduced-literals": sum(map(len, reduced)),
        "pairs": len(pairs), "stopped": "refuted" if status == 20 else "none", "status": status,
    }
    for name, value in wanted.items():
        if told.get(name) != str(value):
            return "the summary to say %s %s, not %s" % (name, value, told.get(name))
    return ""


def fault_of_rest(variables, reduced, letters, bound):
    """What still applies, if something does."""
    numbered = dict(enumerate(reduced, 1))
    for x in range(1, variables + 1):
        entry = cases.first_entry(numbered, letters, bound, x)
        if entry is not None:
            return "that nothing applies any more, but at variable %d there is %r" % (x, entry)
    return ""


def fault_of(rng, run, formula, letters, bound, model):
    """What was expected of the run and isn't so, or nothing."""
    if run.said or run.status not in (0, 10, 20):
        return "no word on the streams and the status 0, 10 or 20; it ends with %s and says %r" % (run.status, run.said)
    variables, reduced = cases.formula_of(run.text["reduced"])
    pairs = pairs_of(run.text["stack"])
    read = check.binary_proof_of if "binary" in run.command else check.proof_of
    proof = check.proof_fault(formula, read(run.text["proof"]), reduced)
    fault = proof and "a proof of the reduced formula: %s" % proof
    fault = fault or fault_of_result(run, variables, formula, reduced, pairs)
    fault = fault or fault_of_rest(variables, reduced, letters, bound)
    if fault or model is None:
        return fault or fault_of_models(variables, formula, reduced, pairs)
    return fault_of_extend(rng, run.command[0], run.folder, formula, reduced, model)


def tried(rng, program, kind, clauses, model, words, letters=ALL_LETTERS, bound=0):
    """Whether a run on the clauses is as it should be. The model, if one is known, is one of them."""
    variables = max(abs(literal) for clause in clauses for literal in clause)
    text = cnf_text(variables, clauses)
    run = Run(program, words, text)
    try:
        fault = fault_of(rng, run, [frozenset(clause) for clause in clauses], letters, bound, model)
    except (ValueError, AttributeError, IndexError) as error:
        fault = "texts of the formats: %s" % error
    if not fault:
        shutil.rmtree(run.folder)
        return True
    print("FAILED %s\n  in     %s (kept)\n  formula, a %s: %r" % (" ".join(run.command), run.folder, kind, text[:1500]))
    print("  wanted %s" % fault)
    return False


def made(rng, kind, variables):
    """A formula of the kind; a large one is made to have the model that stands beside it."""
    clauses = list(KINDS[kind](rng, variables))
    if variables <= SMALL:
        return clauses, None
    model = set(signed(rng, range(1, variables + 1)))
    return list(planted(rng, clauses, model)), model


def tried_on_made(rng, program, kind, variables, workers):
    clauses, model = made(rng, kind, variables)
    letters, bound, words = options(rng)
    return tried(rng, program, kind, clauses, model, ["--workers", str(workers)] + words, letters, bound)


def tried_on_example(rng, program, path):
    """With the default options."""
    with open(path, "rb") as file:
        clauses = [sorted(clause, key=abs) for clause in check.clauses_of(file.read())]
    return tried(rng, program, os.path.basename(path), clauses, None, [])


def main():
    program = os.path.abspath(sys.argv[1])
    count = int(sys.argv[2]) if len(sys.argv) > 2 else 24
    rng = random.Random(int(sys.argv[3]) if len(sys.argv) > 3 else 11)
    results = [tried_on_example(rng, program, path) for path in sorted(glob.glob(os.path.join(cases.TOP, "examples", "*.cnf")))]
    results += [
        tried_on_made(rng, program, kind, variables, workers)
        for kind in KINDS for variables in (SMALL, LARGE) for workers in WORKERS for _ in range(count)
    ]
    print("workers: %d passed, %d failed" % (sum(results), len(results) - sum(results)))
    return 0 if all(results) else 1


if __name__ == "__main__":
    sys.exit(main())
