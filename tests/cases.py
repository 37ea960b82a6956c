#!/usr/bin/env python3
"""Runs the built program on stated cases, on the examples and on random formulas, and compares what it answers.

    cases.py PROGRAM

The stated cases have their whole answer. That of the other runs is told by a plain second program, which goes by the
definitions: at each variable it tries all pairs of clauses, and it keeps nothing in mind between two searches. What comes
out of a small formula is besides satisfiable exactly if the formula is, by trying all assignments.
"""
import glob
import itertools
import os
import random
import subprocess
import sys
import tempfile

TOP = os.path.dirname(os.path.dirname(os.path.abspath(__file__)))
ALL = ["simplify", "--workers", "0"]
TS, TSX, SX, E, B = (ALL + ["--only", letters] for letters in ("ts", "tsx", "sx", "e", "b"))
# Words with the letters and the bound that they choose, for the plain second program.
LISTS = [(ALL + ["--only", letters], letters, 0) for letters in ("ts", "tsx", "sx", "e", "b", "bx", "eb")]
LISTS += [(ALL, "tsxbe", 0), (ALL + ["--bound", "2"], "tsxbe", 2), (E + ["--bound=1"], "e", 1)]
EXTEND = ["extend", "--stack", "a"]
STACK = b"p stack 1 3 3\n1 2 0\n-1 3 0\n2 3 0\n"
ONE_ELIMINATED = b"p cnf 3 2\n1 2 0\n-1 3 0\n"
UNITS = b"p cnf 3 3\n1 0\n-1 2 0\n-2 3 0\n"
LATCH = b"c latch\np cnf 8 7\n1 0\n-1 2 0\n-2 -3 4 0\n3 -4 0\n2 5 0\n-5 6 0\n5 -6 0\n"
# An argument that isn't UTF-8.
NO_TEXT = os.fsdecode(b"a\xff")
BAD_OPTIONS = b"copro: bad options\n"
BAD_LETTERS = b"copro: bad letters in --only\n"
BAD_VALUE = b"copro: bad option value\n"
ONE_NAME = b"copro: one name for two roles\n"

# words, standard input, status, standard output
ANSWERS = [
    # Tautologies and subsumed clauses.
    (TS, b"p cnf 0 0\n", 10, b"p cnf 0 0\n"),
    (TS, b"p cnf 3 0\n", 10, b"p cnf 3 0\n"),
    (TS, b"p cnf 2 3\n1 2 0\n2 1 0\n-1 2 1 0\n", 0, b"p cnf 2 1\n1 2 0\n"),
    (TS, b"p cnf 3 3\n3 1 0\n1 0\n-3 -1 0\n", 0, b"p cnf 3 2\n1 0\n-1 -3 0\n"),
    (TS, b"p cnf 1 3\n1 0\n-1 0\n0\n", 20, b"p cnf 1 1\n0\n"),
    (TS, b"p cnf 0 7\n5 005 -2 0\n", 0, b"p cnf 5 1\n-2 5 0\n"),
    (TS, b"p cnf 2000000 1\n-2000000 0\n", 0, b"p cnf 2000000 1\n-2000000 0\n"),
    # Strengthening: a new clause stands behind all older ones.
    (TSX, b"p cnf 1 2\n1 0\n-1 0\n", 20, b"p cnf 1 1\n0\n"),
    (SX, b"p cnf 3 3\n1 0\n-1 2 0\n-2 3 0\n", 0, b"p cnf 3 3\n1 0\n2 0\n3 0\n"),
    (TSX, b"p cnf 3 3\n-1 2 0\n1 0\n3 0\n", 0, b"p cnf 3 3\n1 0\n3 0\n2 0\n"),
    (SX, b"p cnf 3 2\n1 2 0\n-1 2 3 0\n", 0, b"p cnf 3 2\n1 2 0\n2 3 0\n"),
    (SX, b"p cnf 3 2\n1 2 0\n-1 3 0\n", 0, b"p cnf 3 2\n1 2 0\n-1 3 0\n"),
    # Of two that strengthen each other the second becomes shorter, and then takes the first away.
    (SX, b"p cnf 2 2\n1 2 0\n-1 2 0\n", 0, b"p cnf 2 1\n2 0\n"),
    (TSX, b"p cnf 2 3\n1 0\n-1 2 0\n-2 0\n", 20, b"p cnf 2 1\n0\n"),
    # A tautology goes, and where it may not go it is strengthened as others are.
    (TSX, b"p cnf 2 2\n1 0\n-1 2 -2 0\n", 0, b"p cnf 2 1\n1 0\n"),
    (SX, b"p cnf 2 2\n1 0\n-1 2 -2 0\n", 0, b"p cnf 2 2\n1 0\n2 -2 0\n"),
    # Elimination: new clauses stand by the number of the clause with the variable, then of that with its negation.
    (E, b"p cnf 3 2\n1 2 0\n-1 3 0\n", 10, b"p cnf 3 0\n"),
    (E, b"p cnf 1 2\n1 0\n-1 0\n", 20, b"p cnf 1 1\n0\n"),
    (E, b"p cnf 2 4\n1 2 0\n-1 2 0\n1 -2 0\n-1 -2 0\n", 20, b"p cnf 2 1\n0\n"),
    # The long tautology, here and below, keeps the variables 2 and up.
    (E, b"p cnf 5 5\n-1 4 0\n1 2 0\n-1 5 0\n1 3 0\n2 -2 3 4 5 0\n", 0,
     b"p cnf 5 5\n2 -2 3 4 5 0\n2 4 0\n2 5 0\n3 4 0\n3 5 0\n"),
    # Six resolvents of five clauses are too many; of them equal ones count each, and tautologies don't count.
    (E, b"p cnf 6 6\n1 2 0\n1 3 0\n-1 4 0\n-1 5 0\n-1 6 0\n2 -2 3 4 5 6 0\n", 0,
     b"p cnf 6 6\n1 2 0\n1 3 0\n-1 4 0\n-1 5 0\n-1 6 0\n2 -2 3 4 5 6 0\n"),
    (E, b"p cnf 3 6\n1 2 0\n1 2 0\n-1 3 0\n-1 3 0\n-1 3 0\n2 -2 3 0\n", 0,
     b"p cnf 3 6\n1 2 0\n1 2 0\n-1 3 0\n-1 3 0\n-1 3 0\n2 -2 3 0\n"),
    (E, b"p cnf 5 6\n1 2 0\n1 3 0\n-1 4 0\n-1 5 0\n-1 -3 0\n2 -2 3 4 5 0\n", 0,
     b"p cnf 5 6\n2 -2 3 4 5 0\n2 4 0\n2 5 0\n2 -3 0\n3 4 0\n3 5 0\n"),
    # Blocked clauses: by no clause, by a tautology for each; the empty resolvent is none.
    (B, b"p cnf 2 1\n1 2 0\n", 10, b"p cnf 2 0\n"),
    (B, b"p cnf 3 4\n1 2 0\n-1 -2 0\n-1 3 0\n1 -3 0\n", 10, b"p cnf 3 0\n"),
    (B, b"p cnf 2 4\n1 2 0\n-1 2 0\n1 -2 0\n-1 -2 0\n", 0, b"p cnf 2 4\n1 2 0\n-1 2 0\n1 -2 0\n-1 -2 0\n"),
    (B, b"p cnf 1 2\n1 0\n-1 0\n", 0, b"p cnf 1 2\n1 0\n-1 0\n"),
    # A tautology bars its variables, and others alone.
    (B, b"p cnf 2 2\n1 2 0\n1 -1 0\n", 0, b"p cnf 2 1\n1 -1 0\n"),
    (B, b"p cnf 2 2\n1 2 0\n1 2 -2 0\n", 0, b"p cnf 2 2\n1 2 0\n1 2 -2 0\n"),
    # All techniques.
    (ALL, b"p cnf 1 2\n1 0\n0\n", 20, b"p cnf 1 1\n0\n"),
    (ALL, b"p cnf 1 2\n1 0\n-1 0\n", 20, b"p cnf 1 1\n0\n"),
    (ALL, b"p cnf 2 1\n1 -1 2 0\n", 10, b"p cnf 2 0\n"),
    (ALL, b"p cnf 8 7\n1 0\n-1 2 0\n-2 -3 4 0\n3 -4 0\n2 5 0\n-5 6 0\n5 -6 0\n", 10, b"p cnf 8 0\n"),
]

# A budget of commits.
ANSWERS += [
    (SX + ["--budget", budget], b"p cnf 3 3\n1 0\n-1 2 0\n-2 3 0\n", 0, left)
    for budget, left in (
        ("1", b"p cnf 3 3\n1 0\n-2 3 0\n2 0\n"),
        ("2", b"p cnf 3 3\n1 0\n2 0\n3 0\n"),
        ("3", b"p cnf 3 3\n1 0\n2 0\n3 0\n"),
        ("76", b"p cnf 3 3\n1 0\n2 0\n3 0\n"),
    )
]

# The input's form: comments, blanks, clauses in any division into lines, and the line that ends the input.
ANSWERS += [
    (TS, b"c toy\np cnf 2 9\n 1 -2 0\n-1\n2 0\n%\n0\n", 0, b"p cnf 2 2\n1 -2 0\n-1 2 0\n"),
    (TS, b"p cnf 2 2\r\n1 0 -2 0\r\n", 0, b"p cnf 2 2\n1 0\n-2 0\n"),
    (TS, b"\n \nc\ncp x\np\tcnf 03  007 \n\n1\nc between 0\n\t-02\n0\n", 0, b"p cnf 3 1\n1 -2 0\n"),
    (TS, b"p cnf 1 1\n1 0", 0, b"p cnf 1 1\n1 0\n"),
    (TS, b"p cnf 1 1\n1 0\n%", 0, b"p cnf 1 1\n1 0\n"),
    (TS, b"p cnf 1 99999999999999999999999\n1 0\n% 7 x\n", 0, b"p cnf 1 1\n1 0\n"),
]

# words, standard input, status, the line on standard error
REFUSALS = [
    (TS, b"", 65, b"copro: bad input at byte 0: NoHeader\n"),
    (TS, b"c only a comment\n", 65, b"copro: bad input at byte 17: NoHeader\n"),
    (TS, b"1 0\np cnf 1 1\n", 65, b"copro: bad input at byte 0: NoHeader\n"),
    (TS, b"%\np cnf 1 1\n", 65, b"copro: bad input at byte 0: NoHeader\n"),
    (TS, b"p\n", 65, b"copro: bad input at byte 1: BadHeader\n"),
    (TS, b"p cnf 1\n1 0\n", 65, b"copro: bad input at byte 7: BadHeader\n"),
    (TS, b"p dnf 1 1\n", 65, b"copro: bad input at byte 2: BadHeader\n"),
    (TS, b"p cnf -1 1\n1 0\n", 65, b"copro: bad input at byte 6: BadHeader\n"),
    (TS, b"p cnf 1 x\n", 65, b"copro: bad input at byte 8: BadHeader\n"),
    (TS, b"p cnf 1 1 1\n", 65, b"copro: bad input at byte 10: BadHeader\n"),
    (TS, b"p cnf 1 1\n1 x 0\n", 65, b"copro: bad input at byte 12: BadWord\n"),
    (TS, b"p cnf 1 1\n-0\n", 65, b"copro: bad input at byte 10: BadWord\n"),
    (TS, b"p cnf 1 1\n+1 0\n", 65, b"copro: bad input at byte 10: BadWord\n"),
    (TS, b"p cnf 1 1\np 0\n", 65, b"copro: bad input at byte 10: BadWord\n"),
    (TS, b"p cnf 1 1\n1 % 0\n", 65, b"copro: bad input at byte 12: BadWord\n"),
    (TS, b"p cnf 2 1\n1 2", 65, b"copro: bad input at byte 13: OpenClause\n"),
    (TS, b"p cnf 1 1\n1\n%\n", 65, b"copro: bad input at byte 12: OpenClause\n"),
    (TS, b"p cnf 1 1\n2000001 0\n", 69, b"copro: cnf has too many variables at byte 10\n"),
    (TS, b"p cnf 18446744073709551617 1\n1 0\n", 69, b"copro: cnf has too many variables at byte 6\n"),
    (ALL, b"p cnf 1 1\n1 -99999999999999999999999 0\n", 69, b"copro: cnf has too many variables at byte 12\n"),
]

# Words that are refused: the line, and the lists.
WRONG_WORDS = {
    b"copro: no such command\n": [[], ["frob"], ["Simplify"], ["--help"], ["help"]],
    BAD_OPTIONS: [
        # A word that is no option's value, help, a short or unknown name, a name cut short.
        ["simplify", "more"], ALL + ["more"], EXTEND + ["more"], ["generate", "7"], ["simplify", "--help"], ["simplify", "-h"],
        ["extend", "--help"], ["simplify", "-w", "0"], ["simplify", "--dense", "yes"], ["simplify", "--work", "0"],
        ["simplify", "--Workers", "0"], ["simplify", "--seed", "1"], ["generate", "--workers", "0"], ["extend", "--cnf", "a"],
        # A word that is no text, whichever word it is.
        [NO_TEXT], ["simplify", NO_TEXT], ["simplify", "--cnf", NO_TEXT], EXTEND + ["--model=" + NO_TEXT],
        # No value, one option twice, a required one missing.
        ["simplify", "--workers"], ["simplify", "--only"], ["simplify", "--cnf", "--stack", "a"], SX + ["--budget"],
        ["extend", "--stack"], ["extend"], ["extend", "--model", "a"], ALL + ["--workers", "0"], TS + ["--only", "ts"],
        # Past a limit, and no number.
        ["simplify", "--workers", "65"], ["simplify", "--rounds", "17"], ["simplify", "--hood", "0"], ["simplify", "--hood", "4097"],
        ["simplify", "--bound", "1001"], ["simplify", "--budget", "1099511627777"], ["simplify", "--workers", "-1"],
        ["simplify", "--bound", "x"], ["simplify", "--bound="], ["generate", "--seed", "2147483648"], ["generate", "--vars", "0"],
        ["generate", "--vars", "2000001"], ["generate", "--clauses", "8000001"],
        # These are told before letters, forms and names.
        ["simplify", "--only", "q", "--workers", "65"],
    ],
    BAD_LETTERS: [
        ["simplify", "--only", "tq"], ["simplify", "--only", ""], ["simplify", "--only="], ["simplify", "--only", "T"],
        ["simplify", "--only", "t,s"], ["simplify", "--proof-form", "q", "--only", "q"],
    ],
    BAD_VALUE: [
        ["simplify", "--proof-form", "drat"], ["simplify", "--proof-form="], ["simplify", "--proof-form", "Text"],
        ["simplify", "--proof-form", "q", "--cnf", "a", "--reduced", "a"],
    ],
    ONE_NAME: [
        ["simplify", "--cnf", "a", "--reduced", "a"], ["simplify", "--stack", "a", "--proof", "a"], ["simplify", "--proof", "std"],
        ["simplify", "--stack", "std"], ["simplify", "--summary", "std"], ["extend", "--stack", "std"],
        ["extend", "--stack", "a", "--model", "a"], ["extend", "--stack", "a", "--full", "a"],
    ],
}
REFUSALS += [(words, b"p cnf 0 0\n", 64, line) for line, lists in WRONG_WORDS.items() for words in lists]

# Words that are taken. The answer is the same in every interleaving of the workers.
TAKEN = [[]] + [option.split() for option in (
    "--workers 0", "--workers=0", "--workers 00", "--workers 1", "--workers 64", "--rounds 0", "--rounds 16", "--hood 1", "--hood 4096",
    "--bound 1000", "--budget 0", "--budget 1099511627776", "--only t", "--only st", "--only ttxs", "--only tsxbe",
    "--only ts --workers 0", "--proof-form text", "--proof-form=binary", "--cnf std", "--reduced=std", "--proof none", "--stack none",
    "--workers 2 --rounds 3 --hood 7 --bound 1 --budget 9 --only ebxst --proof-form binary --cnf std --reduced std",
)]
ANSWERS += [(["simplify"] + words, b"p cnf 2 2\n1 -1 2 0\n2 -2 0\n", 10, b"p cnf 2 0\n") for words in TAKEN]
ANSWERS += [
    (["simplify", "--workers", workers, "--rounds", rounds, "--only", letters], text, 0, left)
    for workers in ("1", "2", "4", "8") for rounds in ("0", "1", "16")
    for letters, text, left in (
        ("t", b"p cnf 2 2\n1 0\n2 0\n", b"p cnf 2 2\n1 0\n2 0\n"),
        ("s", b"p cnf 3 3\n3 1 0\n1 0\n-3 -1 0\n", b"p cnf 3 2\n1 0\n-1 -3 0\n"),
        ("sx", UNITS, b"p cnf 3 3\n1 0\n2 0\n3 0\n"),
    )
]


def summary(*values):
    """The text of a summary with these values."""
    names = "variables clauses literals reduced-clauses reduced-literals tautologies subsumed strengthened blocked eliminated"
    names = names.split() + ["pairs", "stopped", "status"]
    return "".join("%s %s\n" % line for line in zip(names, values)).encode()


# That of `generate` without options: a formula of seed 1 with 1000 variables and 3000 clauses.
GENERATED = summary(1000, 3000, 8995, 2792, 8885, 6, 0, 1, 104, 113, 708, "none", 0)

# words, the files that are there, standard input, status, standard output, the line on standard error, what files hold then
WITH_FILES = [
    (ALL + ["--stack", "st", "--proof", "pf"], {}, b"p cnf 1 2\n1 0\n-1 0\n", 20, b"p cnf 1 1\n0\n", b"",
     {"st": b"p stack 1 1 0\n", "pf": b"0\n"}),
    (ALL + ["--proof", "pf", "--proof-form", "binary"], {}, b"p cnf 1 2\n1 0\n-1 0\n", 20, b"p cnf 1 1\n0\n", b"",
     {"pf": bytes.fromhex("6100")}),
    (ALL + ["--proof", "pf", "--stack", "st"], {}, b"p cnf 1 2\n1 0\n0\n", 20, b"p cnf 1 1\n0\n", b"",
     {"pf": b"", "st": b"p stack 1 1 0\n"}),
    (E + ["--stack", "st", "--proof", "pf", "--summary", "sm"], {}, ONE_ELIMINATED, 10, b"p cnf 3 0\n", b"",
     {"st": STACK, "pf": b"2 3 0\nd 1 2 0\nd -1 3 0\nd 2 3 0\n", "sm": summary(3, 2, 4, 0, 0, 0, 0, 0, 0, 2, 3, "none", 10)}),
    (E + ["--proof", "pf", "--proof-form=binary"], {}, ONE_ELIMINATED, 10, b"p cnf 3 0\n", b"",
     {"pf": bytes.fromhex("61040600640204006403060064040600")}),
    # Codes of one to four bytes.
    (TS + ["--proof", "pf", "--proof-form", "binary"], {}, b"p cnf 2000000 2\n" + 2 * b"1 64 -8192 2000000 0\n", 0,
     b"p cnf 2000000 1\n1 64 -8192 2000000 0\n", b"", {"pf": bytes.fromhex("6402" "8001" "818001" "8092f401" "00")}),
    (B + ["--stack", "st", "--proof", "pf"], {}, b"p cnf 3 4\n1 2 0\n-1 -2 0\n-1 3 0\n1 -3 0\n", 10, b"p cnf 3 0\n", b"",
     {"st": b"p stack 1 3 4\n2 1 0\n-2 -1 0\n3 -1 0\n-3 1 0\n", "pf": b"d 1 2 0\nd -1 -2 0\nd -1 3 0\nd 1 -3 0\n"}),
    (SX + ["--budget", "1", "--summary", "sm", "--proof", "pf"], {}, UNITS, 0, b"p cnf 3 3\n1 0\n-2 3 0\n2 0\n", b"",
     {"sm": summary(3, 3, 5, 3, 4, 0, 0, 1, 0, 0, 0, "spent", 0), "pf": b"2 0\nd -1 2 0\n"}),
    (SX + ["--budget", "3", "--summary", "sm"], {}, UNITS, 0, b"p cnf 3 3\n1 0\n2 0\n3 0\n", b"",
     {"sm": summary(3, 3, 5, 3, 3, 0, 0, 2, 0, 0, 0, "none", 0)}),
    (ALL + ["--stack", "st", "--proof", "pf"], {}, LATCH, 10, b"p cnf 8 0\n", b"",
     {"st": b"p stack 1 8 6\n1 0\n2 0\n3 -4 0\n-3 4 0\n-5 6 0\n5 -6 0\n",
      "pf": b"2 0\nd -1 2 0\nd 1 0\nd 2 5 0\n-3 4 0\nd -2 -3 4 0\nd 2 0\nd 3 -4 0\nd -3 4 0\nd -5 6 0\nd 5 -6 0\n"}),
    # A file for every role; what an output's file held before is gone.
    (E + ["--cnf", "in", "--reduced", "out", "--stack", "st", "--proof", "pf", "--summary", "sm"], {"in": ONE_ELIMINATED, "st": b"old\n"},
     b"", 10, b"", b"", {"in": ONE_ELIMINATED, "out": b"p cnf 3 0\n", "st": STACK, "pf": b"2 3 0\nd 1 2 0\nd -1 3 0\nd 2 3 0\n",
                        "sm": summary(3, 2, 4, 0, 0, 0, 0, 0, 0, 2, 3, "none", 10)}),
    (["extend", "--full", "full", "--model", "model", "--stack", "st"], {"st": STACK, "model": b"v 3\nv 0\n"}, b"", 10, b"", b"",
     {"full": b"s SATISFIABLE\nv 1 -2 3\nv 0\n"}),
    (["extend", "--stack=st"], {"st": b"p stack 1 8 6\n1 0\n2 0\n3 -4 0\n-3 4 0\n-5 6 0\n5 -6 0\n"}, b"s SATISFIABLE\nv 4 0\n", 10,
     b"s SATISFIABLE\nv 1 2 3 4 -5 -6 -7 -8\nv 0\n", b"", {}),
    (["generate", "--seed", "7", "--vars", "3", "--clauses", "2", "--summary", "sm"], {}, b"", 0, b"", b"",
     {"sm": summary(3, 2, 5, 0, 0, 1, 0, 0, 1, 0, 1, "none", 10)}),
    (["generate", "--seed", "7", "--vars", "3", "--clauses", "2"], {}, b"", 0,
     summary(3, 2, 5, 0, 0, 1, 0, 0, 1, 0, 1, "none", 10), b"", {}),
    (["generate", "--clauses", "0"], {}, b"", 0, summary(1000, 0, 0, 0, 0, 0, 0, 0, 0, 0, 0, "none", 10), b"", {}),
    (["generate"], {}, b"", 0, GENERATED, b"", {}),
    # What can't be opened, read or written.
    (E + ["--cnf", "missing", "--proof", "pf"], {}, b"", 66, b"", b"copro: cannot open cnf\n", {}),
    (E + ["--cnf", "."], {}, b"", 66, b"", b"copro: cannot read cnf\n", {}),
    (E + ["--cnf="], {}, b"", 66, b"", b"copro: cannot open cnf\n", {}),
    (E + ["--proof", "no/pf"], {}, ONE_ELIMINATED, 66, b"", b"copro: cannot open proof\n", {}),
    (E + ["--summary", "."], {}, ONE_ELIMINATED, 66, b"", b"copro: cannot open summary\n", {}),
    (E + ["--stack", "/dev/full", "--proof", "pf", "--summary", "sm", "--reduced", "out"], {}, ONE_ELIMINATED, 74, b"",
     b"copro: cannot write stack\n", {"pf": b"2 3 0\nd 1 2 0\nd -1 3 0\nd 2 3 0\n", "sm": b"", "out": b""}),
    (["extend", "--stack", "st", "--full", "/dev/full"], {"st": STACK}, b"v 0\n", 74, b"", b"copro: cannot write full\n", {}),
    (["generate", "--summary", "/dev/full", "--clauses", "2"], {}, b"", 74, b"", b"copro: cannot write summary\n", {}),
    (["simplify", "--cnf", "none"], {}, b"", 65, b"", b"copro: bad input at byte 0: NoHeader\n", {}),
    (["extend", "--stack", "none"], {}, b"v 0\n", 65, b"", b"copro: bad stack at byte 0: BadHeader\n", {}),
    (["extend", "--stack", "a", "--model", "missing"], {"a": STACK}, b"", 66, b"", b"copro: cannot open model\n", {}),
]


# the stack's text, or None where there is no file; standard input, status, standard output, the line on standard error
EXTENSIONS = [
    (STACK, b"c x\ns SATISFIABLE\nv 3\nv 0\n", 10, b"s SATISFIABLE\nv 1 -2 3\nv 0\n", b""),
    (STACK, b"v 0\n", 10, b"s SATISFIABLE\nv -1 2 -3\nv 0\n", b""),
    (b"p stack 1 12 0\n", b"v 12 -11\nv 2 0 x", 10, b"s SATISFIABLE\nv -1 2 -3 -4 -5 -6 -7 -8 -9 -10\nv -11 12\nv 0\n", b""),
    (b"p stack 1 0 0\n", b"v 5 0\n", 10, b"s SATISFIABLE\nv 0\n", b""),
    (STACK, b"v 1 -1 0\n", 65, b"", b"copro: bad model at byte 4: Contradiction\n"),
    (STACK, b"v 7 -7 0\n", 65, b"", b"copro: bad model at byte 4: Contradiction\n"),
    (STACK, b"s UNSATISFIABLE\n", 65, b"", b"copro: no model\n"),
    (STACK, b"s UNKNOWN", 65, b"", b"copro: no model\n"),
    (STACK, b"s UNKNOWN x\n", 65, b"", b"copro: bad model at byte 10: BadStatus\n"),
    (STACK, b"s SATISFIABLE\ns SATISFIABLE\nv 0\n", 65, b"", b"copro: bad model at byte 14: BadStatus\n"),
    (STACK, b"v 1\n", 65, b"", b"copro: bad model at byte 4: NoEnd\n"),
    (STACK, b"1 0\n", 65, b"", b"copro: bad model at byte 0: BadWord\n"),
    (STACK, b"v 2000001 0\n", 69, b"", b"copro: model has too many variables at byte 2\n"),
    (b"p stack 1 3 3\n1 2 0\n", b"v 0\n", 65, b"", b"copro: bad stack at byte 20: Count\n"),
    (b"p stack 1 3 1\n1 2 0 3 0\n", b"v 0\n", 65, b"", b"copro: bad stack at byte 20: Count\n"),
    (b"p stack 1 3 1\n4 0\n", b"v 0\n", 65, b"", b"copro: bad stack at byte 14: TooGreat\n"),
    (b"p stack 1 3 1\n0\n", b"v 0\n", 65, b"", b"copro: bad stack at byte 14: EmptyPair\n"),
    (b"p stack 1 3 1\n1 2", b"v 0\n", 65, b"", b"copro: bad stack at byte 17: OpenPair\n"),
    (b"p stack 2 3 0\n", b"v 0\n", 65, b"", b"copro: bad stack at byte 8: BadHeader\n"),
    (b"p stack 1 2000001 0\n", b"v 0\n", 69, b"", b"copro: stack has too many variables at byte 10\n"),
    (b"", b"v x\n", 65, b"", b"copro: bad stack at byte 0: BadHeader\n"),
    (None, b"v 0\n", 66, b"", b"copro: cannot open stack\n"),
]


def run(program, words, text, folder=None):
    try:
        done = subprocess.run([program] + words, input=text, stdout=subprocess.PIPE, stderr=subprocess.PIPE, timeout=120, cwd=folder)
    except subprocess.TimeoutExpired:
        return None, b"", b"(no end within 120 seconds)"
    return done.returncode, done.stdout, done.stderr


def run_with_files(program, words, files, text, names=()):
    """What a run answers in a folder of its own that has these files, and what the files of the given names hold then."""
    with tempfile.TemporaryDirectory() as folder:
        for name, held in files.items():
            with open(os.path.join(folder, name), "wb") as file:
                file.write(held)
        answer = run(program, words, text, folder)
        return answer + ({name: held_by(os.path.join(folder, name)) for name in names},)


def held_by(path):
    try:
        with open(path, "rb") as file:
            return file.read()
    except OSError as fault:
        return str(fault)


def formula_of(text):
    """The number of variables and the clauses of a text, each as a set."""
    lines = [line for line in text.decode().splitlines() if line.split() and not line.lstrip().startswith("c")]
    literals = []
    for line in itertools.takewhile(lambda line: not line.lstrip().startswith("%"), lines[1:]):
        literals += map(int, line.split())
    clauses, clause = [], []
    for literal in literals:
        if literal == 0:
            clauses.append(frozenset(clause))
            clause = []
        else:
            clause.append(literal)
    return max([int(lines[0].split()[2])] + [abs(literal) for clause in clauses for literal in clause]), clauses


def text_of(variables, clauses):
    out = ["p cnf %d %d\n" % (variables, len(clauses))]
    for clause in clauses:
        literals = sorted(clause, key=lambda literal: (abs(literal), literal < 0))
        out.append("".join("%d " % literal for literal in literals) + "0\n")
    return "".join(out).encode()


def is_satisfiable(variables, clauses):
    """By trying all assignments, each as the set of its true literals."""
    assignments = (set(a) for a in itertools.product(*((v, -v) for v in range(1, variables + 1))))
    return any(all(a & clause for clause in clauses) for a in assignments)


def is_turned(text, out):
    """Whether one of two formulas of at most 8 variables is satisfiable and the other isn't."""
    variables, clauses = formula_of(text)
    return variables <= 8 and is_satisfiable(variables, clauses) != is_satisfiable(*formula_of(out))


# The plain second program. The clauses of a variable x are a list of numbers with clauses, ascending by number. Each
# technique gives its legal entries at x in order: the numbers of the clauses that go, and the new clauses.


def is_tautology(clause):
    return any(-literal in clause for literal in clause)


def has_tautology(near):
    return any(is_tautology(clause) for _, clause in near)


def resolvent(clause, other, literal):
    return clause - {literal} | other - {-literal}


def tautologies(x, near):
    for number, clause in near:
        if is_tautology(clause):
            yield [number], []


def subsumptions(x, near):
    for by, small in near:
        for gone, large in near:
            if by != gone and small <= large:
                yield [gone], []


def strengthenings(x, near):
    for by, small in near:
        for on, large in near:
            for literal in (x, -x):
                is_pair = by != on and -literal in small and literal in large
                if is_pair and small - {-literal} <= large - {literal}:
                    yield [on], [large - {literal}]


def blocked_clauses(x, near):
    if has_tautology(near):
        return
    for number, clause in near:
        for literal in (x, -x):
            others = [other for _, other in near if -literal in other]
            if literal in clause and all(is_tautology(resolvent(clause, other, literal)) for other in others):
                yield [number], []


def eliminations(x, near, bound):
    if not near or has_tautology(near):
        return
    positive = [clause for _, clause in near if x in clause]
    negative = [clause for _, clause in near if -x in clause]
    new = [resolvent(clause, other, x) for clause in positive for other in negative]
    new = [clause for clause in new if not is_tautology(clause)]
    if len(new) <= len(near) + bound:
        yield [number for number, _ in near], new


TECHNIQUES = {"t": tautologies, "s": subsumptions, "x": strengthenings, "b": blocked_clauses}


def entries(letters, bound, x, near):
    """The legal entries of the chosen techniques at x, in their order."""
    for letter, technique in TECHNIQUES.items():
        if letter in letters:
            yield from technique(x, near)
    if "e" in letters:
        yield from eliminations(x, near, bound)


def first_entry(formula, letters, bound, x):
    near = [(number, clause) for number, clause in sorted(formula.items()) if x in clause or -x in clause]
    return None if frozenset() in formula.values() else next(entries(letters, bound, x, near), None)


def swept(variables, clauses, letters, bound):
    """The clauses that the sweep leaves: each time the first entry at the first variable that has one, going upwards and
    around from that of the last entry."""
    formula = dict(enumerate(clauses, 1))
    unused, x, without_entry = len(formula) + 1, 1, 0
    while without_entry < variables:
        entry = first_entry(formula, letters, bound, x)
        if entry is None:
            x, without_entry = x % variables + 1, without_entry + 1
            continue
        without_entry = 0
        for number in entry[0]:
            del formula[number]
        formula.update(enumerate(entry[1], unused))
        unused += len(entry[1])
    return [clause for _, clause in sorted(formula.items())]


def plain_answer(letters, bound, text):
    """Status, standard output and standard error of the plain program."""
    variables, clauses = formula_of(text)
    left = swept(variables, clauses, letters, bound)
    if frozenset() in left:
        return 20, text_of(variables, [frozenset()]), b""
    return (0 if left else 10), text_of(variables, left), b""


def random_formula(rng, variables, widths, fewest, most):
    """So many clauses for each variable, each with one of these numbers of literals."""
    clauses = [
        [rng.choice((1, -1)) * rng.randint(1, variables) for _ in range(rng.choice(widths))]
        for _ in range(rng.randint(fewest * variables, most * variables))
    ]
    if rng.random() < 0.03:
        clauses.append([])
    lines = ["p cnf %d %d" % (rng.randint(0, variables), len(clauses))]
    lines += [" ".join(map(str, clause + [0])) for clause in clauses]
    return ("\n".join(lines) + "\n").encode()


def random_formulas(rng):
    """Small ones of all kinds, some wider ones, and dense ones of long clauses, of which all techniques together leave some."""
    kinds = ((1, 2, 2, 3), (2, 2, 3, 3), (3,), (3, 3, 4), (1, 2, 2, 3, 3, 4, 6))
    for _ in range(300):
        yield random_formula(rng, rng.randint(1, 8), rng.choice(kinds), 0, rng.choice((2, 4, 6)))
    for _ in range(40):
        yield random_formula(rng, rng.randint(9, 40), rng.choice(kinds), 0, rng.choice((2, 4)))
    for _ in range(150):
        yield random_formula(rng, rng.randint(8, 16), (3, 3, 3, 4), 3, 6)


def complaint(text, wanted, got):
    """What is wrong with an answer, or nothing."""
    if got != wanted:
        return "wanted %r" % ((wanted[0], wanted[1][:300], wanted[2]),)
    if not got[2] and is_turned(text, got[1]):
        return "wanted what is satisfiable exactly if the input is"
    return ""


def main():
    program = sys.argv[1]
    texts = list(random_formulas(random.Random(5)))
    texts += [open(path, "rb").read() for path in sorted(glob.glob(os.path.join(TOP, "examples", "*.cnf")))]
    cases = [(words, text, (status, out, b"")) for words, text, status, out in ANSWERS]
    cases += [(words, text, (status, b"", err)) for words, text, status, err in REFUSALS]
    cases += [(words, text, plain_answer(letters, bound, text)) for text in texts for words, letters, bound in LISTS]
    failed = 0
    for words, text, wanted in cases:
        got = run(program, words, text)
        wrong = complaint(text, wanted, got)
        if wrong:
            failed += 1
            print("FAILED %s on %r\n  %s\n  got    %r" % (" ".join(words), text[:300], wrong, got))
    folders = [(EXTEND, {} if stack is None else {"a": stack}, model, *rest, {}) for stack, model, *rest in EXTENSIONS]
    folders += WITH_FILES
    for words, files, text, *wanted in folders:
        got = run_with_files(program, words, files, text, wanted[3])
        if got != tuple(wanted):
            failed += 1
            print("FAILED %s on %r with the files %r\n  wanted %r\n  got    %r" % (" ".join(words), text, files, tuple(wanted), got))
    total = len(cases) + len(folders)
    print("cases: %d passed, %d failed" % (total - failed, failed))
    return 1 if failed else 0


if __name__ == "__main__":
    sys.exit(main())
