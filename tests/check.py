#!/usr/bin/env python3
"""Checks a proof or a model against a formula. It goes by the definitions and knows nothing of the program.

    check.py proof CNF PROOF [REDUCED]
    check.py binary CNF PROOF [REDUCED]
    check.py model CNF MODEL
    check.py rows

A proof is a text of lemmas and deletions. Each lemma has to be RUP, or RAT on its first literal, where it stands: with
respect to the clauses of the formula and the lemmas before it, less what was deleted. A deletion takes away one of the clauses
with its literals, and there has to be one. Nothing may follow the empty clause. With REDUCED the clauses that are left have to
be those of that formula, each as often, or both have to have the empty clause. With `binary` the proof is in DRAT's binary form.

A model is a text of the lines of a solver. Each clause has to have a literal that it makes true. A variable that it doesn't
name is false.

It prints `accepted` and ends with 0, or prints what is wrong and ends with 1. `rows` checks the checker, on stated cases.
"""
import collections
import re
import sys

EMPTY = frozenset()

# formula, proof, the reduced formula or None, what is wrong
PROOFS = [
    (b"p cnf 0 0\n", b"", b"p cnf 0 0\n", ""),
    (b"p cnf 1 1\n1 0\n", b"", b"p cnf 1 0\n", "the proof leaves other clauses than the reduced formula has"),
    # Lemmas by propagation, from clauses and from lemmas before.
    (b"p cnf 2 4\n1 2 0\n-1 2 0\n1 -2 0\n-1 -2 0\n", b"2 0\n0\n", b"p cnf 2 1\n0\n", ""),
    (b"p cnf 2 4\n1 2 0\n-1 2 0\n1 -2 0\n-1 -2 0\n", b"0\n", None, "item 1 is neither RUP nor RAT on its first literal"),
    (b"p cnf 3 3\n1 0\n-1 2 0\n-2 3 0\n", b"3 0\n", None, ""),
    (b"p cnf 2 1\n1 2 0\n", b"2 -2 0\n", None, ""),
    # By its first literal alone: no clause has the negation of 3, and the resolvent on -1 isn't RUP.
    (b"p cnf 2 1\n1 2 0\n", b"3 -1 0\n", None, ""),
    (b"p cnf 2 1\n1 2 0\n", b"-1 3 0\n", None, "item 1 is neither RUP nor RAT on its first literal"),
    # The one resolvent on the first literal is a tautology in the first row, and not RUP in the second.
    (b"p cnf 3 1\n1 2 0\n", b"3 -1 0\n-3 1 0\n", None, ""),
    (b"p cnf 3 2\n1 2 0\n-3 2 0\n", b"3 -1 0\n", None, "item 1 is neither RUP nor RAT on its first literal"),
    # A deletion takes one clause, whatever the order of its literals, and a clause that stands twice stands once more.
    (b"p cnf 3 3\n1 2 0\n1 -2 0\n-1 3 0\n", b"1 0\n", None, ""),
    (b"p cnf 3 3\n1 2 0\n1 -2 0\n-1 3 0\n", b"d 2 1 0\n1 0\n", None, "item 2 is neither RUP nor RAT on its first literal"),
    (b"p cnf 3 4\n1 2 0\n2 1 0\n1 -2 0\n-1 3 0\n", b"d 2 1 0\n1 0\n", None, ""),
    (b"p cnf 3 2\n1 2 0\n2 1 1 0\n", b"d 2 1 0\nd 1 2 0\n", b"p cnf 3 0\n", ""),
    (b"p cnf 3 2\n1 2 0\n2 1 0\n", b"d 2 1 0\n", b"p cnf 3 0\n", "the proof leaves other clauses than the reduced formula has"),
    (b"p cnf 3 1\n1 2 0\n", b"d 1 2 3 0\n", None, "item 1 deletes a clause that isn't there"),
    (b"p cnf 3 1\n1 2 0\n", b"d 1 2 0\nd 1 2 0\n", None, "item 2 deletes a clause that isn't there"),
    # Nothing follows the empty clause.
    (b"p cnf 1 2\n1 0\n-1 0\n", b"0\nd 1 0\n", None, "item 2 follows the empty clause"),
    (b"p cnf 1 1\n0\n", b"1 0\n", None, "item 1 follows the empty clause"),
    (b"p cnf 1 1\n0\n", b"", b"p cnf 1 1\n0\n", ""),
    (b"p cnf 1 2\n1 0\n-1 0\n", b"", b"p cnf 1 1\n0\n", "the proof leaves other clauses than the reduced formula has"),
    # Texts.
    (b"c of\np cnf 1 1\nc two\n1\n0\n", b"c a lemma\n1\n0\n", None, ""),
    (b"p cnf 1 1\n1 0\n", b"1", None, "the end of the text is within an item"),
    (b"p cnf 1 1\n1 0\n", b"d", None, "the end of the text is within an item"),
    (b"p cnf 1 1\n1 0\n", b"1 d 0\n", None, "'d' is no number"),
    (b"p cnf 1 1\n1 0\n", b"x 1 0\n", None, "'x' is no number"),
    (b"1 0\n", b"", None, "the formula has no header"),
]

# a binary proof, and its items or what is wrong with it
BINARY = [
    (b"", []),
    (b"\x61\x00", [(False, [])]),
    (bytes.fromhex("61040600640204006403060064040600"), [(False, [2, 3]), (True, [1, 2]), (True, [-1, 3]), (True, [2, 3])]),
    (bytes.fromhex("64 02 8001 818001 8092f401 00"), [(True, [1, 64, -8192, 2000000])]),
    (b"\x61\x02", "the end of the proof is within an item"),
    (b"\x61\x82", "the end of the proof is within an item"),
    (b"\x62\x02\x00", "98 begins no item"),
    (b"\x00", "0 begins no item"),
    (b"\x61\x01\x00", "1 is the number of no literal"),
]

# formula, model, what is wrong
MODELS = [
    (b"p cnf 0 0\n", b"s SATISFIABLE\nv 0\n", ""),
    (b"p cnf 3 2\n1 -2 0\n3 0\n", b"s SATISFIABLE\nv -1 -2 3\nv 0\n", ""),
    (b"p cnf 3 2\n1 -2 0\n3 0\n", b"c said\nv 3\nv 0\n", ""),
    (b"p cnf 3 2\n1 -2 0\n3 0\n", b"s SATISFIABLE\nv 1 -2 -3 0\n", "clause 2 is false"),
    (b"p cnf 3 2\n1 -2 0\n3 0\n", b"s SATISFIABLE\nv 0 3\n", "clause 2 is false"),
    (b"p cnf 1 1\n0\n", b"s SATISFIABLE\nv 1 0\n", "clause 1 is false"),
    (b"p cnf 1 1\n1 0\n", b"s SATISFIABLE\nv 1 -1 0\n", "a variable is both true and false"),
    (b"p cnf 1 1\n1 0\n", b"s UNSATISFIABLE\nv 1 0\n", "'s UNSATISFIABLE' is no line of a model"),
    (b"p cnf 1 1\n1 0\n", b"1 0\n", "'1 0' is no line of a model"),
    (b"p cnf 1 1\n1 0\n", b"s SATISFIABLE\nv 1\n", "the model has no end"),
    (b"p cnf 1 1\n1 0\n", b"s SATISFIABLE\nv one 0\n", "'one' is no number"),
]


def number(word):
    if not re.fullmatch("-?[0-9]+", word):
        raise ValueError("%r is no number" % word)
    return int(word)


def lines_of(text):
    """The lines that have words and are no comments, each as its words."""
    lines = (line.split() for line in text.decode("ascii").split("\n"))
    return [words for words in lines if words and not words[0].startswith("c")]


def items_of(words):
    """What each 0 ends: whether there is a `d` in front, and the numbers."""
    items, deletes, numbers, is_open = [], False, [], False
    for word in words:
        if word == "d" and not is_open:
            deletes, is_open = True, True
            continue
        if number(word) != 0:
            numbers.append(number(word))
            is_open = True
            continue
        items.append((deletes, numbers))
        deletes, numbers, is_open = False, [], False
    if is_open:
        raise ValueError("the end of the text is within an item")
    return items


def clauses_of(text):
    """The clauses of a formula, in order, each as a set."""
    lines = lines_of(text)
    if not lines or lines[0][:2] != ["p", "cnf"] or len(lines[0]) != 4:
        raise ValueError("the formula has no header")
    items = items_of([word for line in lines[1:] for word in line])
    if any(deletes for deletes, _ in items):
        raise ValueError("'d' is no number")
    return [frozenset(literals) for _, literals in items]


def proof_of(text):
    """The items of a proof: whether it is a deletion, and the literals in their order."""
    return items_of([word for line in lines_of(text) for word in line])


def binary_proof_of(data):
    """The same of the binary form: numbers in groups of seven bits, of which 97 or 100 begins an item and 0 ends it."""
    items, item, value, shift = [], [], 0, 0
    for byte in data:
        value |= (byte & 127) << shift
        shift += 7
        if byte >= 128:
            continue
        item.append(value)
        if value == 0:
            items.append(binary_item(item))
            item = []
        value = shift = 0
    if item or shift:
        raise ValueError("the end of the proof is within an item")
    return items


def binary_item(numbers):
    tag, codes = numbers[0], numbers[1:-1]
    if tag not in b"ad":
        raise ValueError("%d begins no item" % tag)
    if 1 in codes:
        raise ValueError("1 is the number of no literal")
    return tag == ord("d"), [-(code >> 1) if code & 1 else code >> 1 for code in codes]


def model_of(text):
    """The literals that a model names."""
    words = []
    for line in lines_of(text):
        if line[0] == "v":
            words += line[1:]
        elif line != ["s", "SATISFIABLE"]:
            raise ValueError("%r is no line of a model" % " ".join(line))
    if "0" not in words:
        raise ValueError("the model has no end")
    return {number(word) for word in words[: words.index("0")]}


class Clauses:
    """Clauses, each with how often it stands, and for each literal those that have it."""

    def __init__(self, clauses):
        self.times = collections.Counter()
        self.having = collections.defaultdict(set)
        for clause in clauses:
            self.add(clause)

    def add(self, clause):
        self.times[clause] += 1
        for literal in clause:
            self.having[literal].add(clause)

    def take(self, clause):
        """Takes away one such clause, and tells whether there was one."""
        if clause not in self.times:
            return False
        self.times[clause] -= 1
        if self.times[clause] == 0:
            del self.times[clause]
            for literal in clause:
                self.having[literal].discard(clause)
        return True


def is_rup(clauses, lemma):
    """Whether the lemma is a tautology, or unit propagation makes a clause false once all its literals are false."""
    if EMPTY in clauses.times:
        return True
    true = set()
    to_do = [-literal for literal in lemma] + [literal for clause in clauses.times if len(clause) == 1 for literal in clause]
    while to_do:
        literal = to_do.pop()
        if -literal in true:
            return True
        if literal in true:
            continue
        true.add(literal)
        for clause in clauses.having[-literal]:
            not_false = [other for other in clause if -other not in true]
            if not not_false:
                return True
            if len(not_false) == 1:
                to_do += not_false
    return False


def is_rat(clauses, lemma, pivot):
    """Whether each resolvent of the lemma on its pivot, with the lemma's own literals, is RUP."""
    return all(is_rup(clauses, lemma | other - {-pivot}) for other in list(clauses.having[-pivot]))


def proof_fault(formula, items, reduced=None):
    """What is wrong with a proof over the clauses of a formula, or nothing; with what it has to leave, if that is given."""
    clauses = Clauses(formula)
    for at, (deletes, literals) in enumerate(items, 1):
        clause = frozenset(literals)
        if EMPTY in clauses.times:
            return "item %d follows the empty clause" % at
        if deletes:
            if not clauses.take(clause):
                return "item %d deletes a clause that isn't there" % at
            continue
        if not is_rup(clauses, clause) and not (literals and is_rat(clauses, clause, literals[0])):
            return "item %d is neither RUP nor RAT on its first literal" % at
        clauses.add(clause)
    left = [EMPTY] if EMPTY in clauses.times else clauses.times.elements()
    if reduced is not None and collections.Counter(left) != collections.Counter(reduced):
        return "the proof leaves other clauses than the reduced formula has"
    return ""


def model_fault(formula, literals):
    """What is wrong with a model of the clauses, or nothing."""
    if any(-literal in literals for literal in literals):
        return "a variable is both true and false"
    for at, clause in enumerate(formula, 1):
        if not any(literal in literals or literal < 0 and -literal not in literals for literal in clause):
            return "clause %d is false" % at
    return ""


def proof_texts_fault(cnf, proof, reduced=None, read=proof_of):
    """The same of texts, what is wrong with a text itself among it; `read` reads the proof."""
    try:
        return proof_fault(clauses_of(cnf), read(proof), None if reduced is None else clauses_of(reduced))
    except ValueError as fault:
        return str(fault)


def model_texts_fault(cnf, model):
    try:
        return model_fault(clauses_of(cnf), model_of(model))
    except ValueError as fault:
        return str(fault)


def read_or_fault(read, text):
    try:
        return read(text)
    except ValueError as fault:
        return str(fault)


def check_rows():
    rows = [(texts, wanted, proof_texts_fault(*texts)) for *texts, wanted in PROOFS]
    rows += [(texts, wanted, model_texts_fault(*texts)) for *texts, wanted in MODELS]
    rows += [(data, wanted, read_or_fault(binary_proof_of, data)) for data, wanted in BINARY]
    failed = [row for row in rows if row[1] != row[2]]
    for texts, wanted, got in failed:
        print("FAILED %r\n  wanted %r\n  got    %r" % (texts, wanted, got))
    print("check: %d passed, %d failed" % (len(rows) - len(failed), len(failed)))
    return 1 if failed else 0


def main():
    verb, paths = sys.argv[1:2], sys.argv[2:]
    if verb == ["rows"] and not paths:
        return check_rows()
    texts = [open(path, "rb").read() for path in paths]
    if verb in (["proof"], ["binary"]) and len(texts) in (2, 3):
        fault = proof_texts_fault(*texts, read=proof_of if verb == ["proof"] else binary_proof_of)
    elif verb == ["model"] and len(texts) == 2:
        fault = model_texts_fault(*texts)
    else:
        print(__doc__, file=sys.stderr)
        return 2
    print(fault or "accepted")
    return 1 if fault else 0


if __name__ == "__main__":
    sys.exit(main())
