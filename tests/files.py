#!/usr/bin/env python3
"""Runs the built program with standard streams that are closed, and with two names for one file.

    files.py PROGRAM

Each row is a command of the shell, run in a folder of its own that has the formula f, the pairs st and the model m. No text
may stand in another file than its own, and what a file held may go only where its role is bound.
"""
import os
import subprocess
import sys
import tempfile

import cases

TS = '"$copro" simplify --workers 0 --only ts '
EXTEND = '"$copro" extend '
GENERATE = '"$copro" generate --clauses 0 '
F, ST, M = b"p cnf 2 2\n1 2 0\n2 1 0\n", b"p stack 1 2 0\n", b"v 1 0\n"
LEFT, PROOF, FULL = b"p cnf 2 1\n1 2 0\n", b"d 1 2 0\n", b"s SATISFIABLE\nv 1 -2\nv 0\n"
COUNTS = cases.summary(1000, 0, 0, 0, 0, 0, 0, 0, 0, 0, 0, "none", 10)
TEXTS = {"left": LEFT, "pk": ST, "pf": PROOF}
TO_FILES = "--reduced left --stack pk --proof pf "
KEPT = {"f": F, "st": ST, "m": M}


def refused(kind, role):
    """The line of a refusal."""
    return b"copro: cannot %s %s\n" % (kind, role)


# the command, its status, standard output, standard error, what files hold then, None for one that isn't there
CLOSED = [
    # simplify, extend and generate where the closed stream is a role's.
    (TS + "<&-", 66, b"", refused(b"open", b"cnf"), {}),
    (TS + TO_FILES + "<&-", 66, b"", refused(b"open", b"cnf"), {"left": None}),
    (TS + "--proof pf < f >&-", 66, b"", refused(b"open", b"reduced"), {"pf": None}),
    (TS + "--cnf f --proof pf <&- >&-", 66, b"", refused(b"open", b"reduced"), {"pf": None}),
    (TS + "--proof pf < f >&- 2>&-", 66, b"", b"", {"pf": None}),
    (EXTEND + "--stack st <&-", 66, b"", refused(b"open", b"model"), {}),
    (EXTEND + "--stack st < m >&-", 66, b"", refused(b"open", b"full"), {}),
    (EXTEND + "--stack st --model m <&- >&- 2>&-", 66, b"", b"", {}),
    (GENERATE + ">&-", 66, b"", refused(b"open", b"summary"), {}),
    (GENERATE + "<&- >&- 2>&-", 66, b"", b"", {}),
    # Where none of them is.
    (TS + "--cnf f " + TO_FILES + "<&-", 0, b"", b"", TEXTS),
    (TS + TO_FILES + "< f >&-", 0, b"", b"", TEXTS),
    (TS + "--cnf f " + TO_FILES + "<&- >&- 2>&-", 0, b"", b"", TEXTS),
    (TS + "--proof pf < f 2>&-", 0, LEFT, b"", {"pf": PROOF}),
    (EXTEND + "--stack st --model m --full full <&- >&- 2>&-", 10, b"", b"", {"full": FULL}),
    (GENERATE + "--summary sm <&- >&- 2>&-", 0, b"", b"", {"sm": COUNTS}),
    # The line of a refusal goes into no file.
    (TS + TO_FILES + "--summary /dev/full < f 2>&-", 74, b"", b"", TEXTS),
    (TS + "--cnf f " + TO_FILES + "--summary /dev/full <&- >&- 2>&-", 74, b"", b"", TEXTS),
    (EXTEND + "--stack st --full full --model f 2>&-", 65, b"", b"", {"full": b""}),
    # `none` is no stream.
    (TS + "--cnf f --reduced none --proof pf <&- >&-", 0, b"", b"", {"pf": PROOF}),
]

ONE_FILE = [
    # An input and an output: by another path, a hard link, a symbolic link, a stream.
    (TS + "--cnf f --reduced ./f", 66, b"", refused(b"open", b"reduced"), {}),
    ("ln f g; " + TS + "--cnf f --reduced g", 66, b"", refused(b"open", b"reduced"), {}),
    ("ln -s f g; " + TS + "--cnf f --proof g", 66, b"", refused(b"open", b"proof"), {}),
    ("ln -s f g; " + TS + "--cnf g --summary f", 66, b"", refused(b"open", b"summary"), {}),
    (TS + "--reduced f < f", 66, b"", refused(b"open", b"reduced"), {}),
    (TS + "--proof f < f", 66, b"", refused(b"open", b"proof"), {}),
    (TS + "--cnf f >> f", 66, b"", refused(b"open", b"reduced"), {}),
    (TS + "< f >> f", 66, b"", refused(b"open", b"reduced"), {}),
    (EXTEND + "--stack st --model m --full ./m", 66, b"", refused(b"open", b"full"), {}),
    (EXTEND + "--stack st --full ./st < m", 66, b"", refused(b"open", b"full"), {}),
    (EXTEND + "--stack st < m >> st", 66, b"", refused(b"open", b"full"), {}),
    # Two outputs. The first is bound, so its file is empty.
    (TS + "--reduced x --stack ./x < f", 66, b"", refused(b"open", b"stack"), {"x": b""}),
    ("echo old > x; ln x y; " + TS + "--stack x --proof y < f", 66, b"", refused(b"open", b"proof"), {"x": b""}),
    ("ln -s x y; " + TS + "--reduced y --summary x < f", 66, b"", refused(b"open", b"summary"), {"x": b""}),
    (TS + "--proof x < f > x", 66, b"", refused(b"open", b"proof"), {"x": b""}),
    (TS + "--proof /dev/stdout < f > x", 66, b"", refused(b"open", b"proof"), {"x": b""}),
    # Two inputs may be one file, which is no stack and model at once.
    (EXTEND + "--stack st --model ./st", 65, b"", b"copro: bad model at byte 0: BadWord\n", {}),
    (EXTEND + "--stack st < st", 65, b"", b"copro: bad model at byte 0: BadWord\n", {}),
    (EXTEND + "--stack ./m --model m", 65, b"", b"copro: bad stack at byte 0: BadHeader\n", {}),
    # A stream that is no role's may lead to a role's file.
    (TS + "--reduced left --proof x < f > x", 0, b"", b"", {"left": LEFT, "x": PROOF}),
    (GENERATE + "--summary x > x", 0, b"", b"", {"x": COUNTS}),
    # A device and a pipe may be bound often.
    (TS + "--reduced /dev/null --stack /dev/./null --proof /dev/../dev/null < f", 0, b"", b"", {}),
    (TS + "--cnf /dev/null < /dev/null > /dev/null", 65, b"", b"copro: bad input at byte 0: NoHeader\n", {}),
    ("cat f | " + TS + "--proof /dev/stdout | cat", 0, PROOF + LEFT, b"", {}),
    ("mkfifo p; cat p > x & " + TS + "--cnf f --reduced p; wait", 0, b"", b"", {"x": LEFT}),
]


def run(program, command):
    """What a command answers, and the folder's files."""
    with tempfile.TemporaryDirectory() as folder:
        for name, text in KEPT.items():
            with open(os.path.join(folder, name), "wb") as file:
                file.write(text)
        try:
            done = subprocess.run(["sh", "-c", command], input=b"", stdout=subprocess.PIPE, stderr=subprocess.PIPE, timeout=60,
                                  cwd=folder, env=dict(os.environ, copro=os.path.abspath(program)), check=False)
        except subprocess.TimeoutExpired:
            return None, b"", b"(no end within 60 seconds)", {}
        files = [entry for entry in os.scandir(folder) if entry.is_file()]
        return done.returncode, done.stdout, done.stderr, {entry.name: cases.held_by(entry.path) for entry in files}


def main():
    program, rows = sys.argv[1], CLOSED + ONE_FILE
    failed = 0
    for command, status, out, err, held in rows:
        *got, files = run(program, command)
        held = {**KEPT, **held}
        if tuple(got) != (status, out, err) or any(files.get(name) != text for name, text in held.items()):
            failed += 1
            print("FAILED %s\n  wanted %r, %r\n  got    %r, %r" % (command, (status, out, err), held, tuple(got), files))
    print("files: %d passed, %d failed" % (len(rows) - failed, failed))
    return 1 if failed else 0


if __name__ == "__main__":
    sys.exit(main())
