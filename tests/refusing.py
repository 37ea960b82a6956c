#!/usr/bin/env python3
"""Runs the built program where memory is refused, and checks what it answers.

    refusing.py PROGRAM

The rows are runs of each command, without workers and with some. Of each the first, second, .. call for memory is refused, once in a
run, up to one behind the last. The run ends out of memory, with its status and line, and writes nothing; or it ends as it does where
nothing is refused, since it could do without: a thread that can't be made leaves its work to the others.

Memory is refused by a small C library before the system's own. Where no C compiler is on the PATH nothing is run.
"""
import os
import shutil
import subprocess
import sys
import tempfile

LIBRARY = r"""
#define _GNU_SOURCE
#include <dlfcn.h>
#include <errno.h>
#include <stdlib.h>

static long calls, refused_at = -1;

static int is_refused(void) {
    if (refused_at < 0)
        refused_at = getenv("REFUSED_AT") ? atol(getenv("REFUSED_AT")) : 0;
    if (__atomic_add_fetch(&calls, 1, __ATOMIC_SEQ_CST) != refused_at)
        return 0;
    errno = ENOMEM;
    return 1;
}

void *malloc(size_t size) {
    static void *(*next)(size_t);
    if (!next)
        next = (void *(*)(size_t))dlsym(RTLD_NEXT, "malloc");
    return is_refused() ? NULL : next(size);
}

void *realloc(void *old, size_t size) {
    static void *(*next)(void *, size_t);
    if (!next)
        next = (void *(*)(void *, size_t))dlsym(RTLD_NEXT, "realloc");
    return is_refused() ? NULL : next(old, size);
}
"""

# A formula at which all techniques have something to do, also between workers.
FORMULA = b"""p cnf 9 14
1 -1 2 0
1 2 0
1 2 3 0
-1 2 4 0
-2 5 6 0
-5 6 7 0
5 -6 0
-7 8 9 0
7 -8 0
7 -9 0
3 4 5 6 7 8 0
-3 -4 8 0
1 9 0
-9 -1 4 0
"""
STACK = b"p stack 1 3 3\n1 2 0\n-1 3 0\n2 3 0\n"
MODEL = b"s SATISFIABLE\nv 3\nv 0\n"

INPUTS = {"formula": FORMULA, "stack": STACK, "model": MODEL, "bad": b"p cnf 1 1\n1 x 0\n"}
OUTPUTS = ("reduced", "pairs", "proof", "counts", "full")

# Each row's words, whether what it writes is the same at each run, and its status.
SIMPLIFY = "simplify --cnf formula --reduced reduced --stack pairs --proof proof --summary counts"
ROWS = [
    (SIMPLIFY + " --workers 0", True, 10),
    (SIMPLIFY + " --workers 0 --proof-form binary --bound 4", True, 10),
    (SIMPLIFY + " --workers 1 --rounds 2", True, 10),
    (SIMPLIFY + " --workers 3 --rounds 3", False, 10),
    ("simplify --cnf bad --reduced reduced", True, 65),
    ("simplify --only q", True, 64),
    ("extend --stack stack --model model --full full", True, 10),
    ("generate --vars 20 --clauses 60 --summary counts", True, 0),
]


def built(folder):
    """The path of the library."""
    source, library = os.path.join(folder, "refuse.c"), os.path.join(folder, "refuse.so")
    with open(source, "w") as file:
        file.write(LIBRARY)
    subprocess.run(["cc", "-O2", "-shared", "-fPIC", "-o", library, source, "-ldl"], check=True)
    return library


def outcome_of(program, library, words, refused):
    """The status, the line and what is held by each output, of a run of which this call for memory is refused."""
    with tempfile.TemporaryDirectory() as folder:
        for name, text in INPUTS.items():
            with open(os.path.join(folder, name), "wb") as file:
                file.write(text)
        told = {**os.environ, "LD_PRELOAD": library, "REFUSED_AT": str(refused)}
        done = subprocess.run([program, *words.split()], cwd=folder, env=told, stdout=subprocess.PIPE, stderr=subprocess.PIPE, timeout=120)
        held = [done.stdout]
        for name in OUTPUTS:
            path = os.path.join(folder, name)
            if os.path.exists(path):
                with open(path, "rb") as file:
                    held.append(file.read())
        return done.returncode, done.stderr, held


def fault_of(outcome, whole, is_same):
    status, line, held = outcome
    if status == 71:
        if line != b"copro: out of memory\n":
            return "the line of want of memory, not %r" % line
        return "that nothing is written" if any(held) else ""
    if (status, line) != whole[:2] or is_same and held != whole[2]:
        return "what it is where nothing is refused, or want of memory: %d %r" % (status, line)
    return ""


def faults_of(program, library, row):
    """The faults, how many runs there were, and how many of them ended out of memory. There are no more where fifty on end end well: a run
    may do without some memory, and with workers the calls differ from run to run."""
    words, is_same, status = row
    whole = outcome_of(program, library, words, 0)
    if whole[0] != status:
        return ["%s: the status %d, not %d" % (words, status, whole[0])], 1, 0
    faults, runs, wanting, well = [], 0, 0, 0
    while well < 50:
        runs += 1
        outcome = outcome_of(program, library, words, runs)
        fault = fault_of(outcome, whole, is_same)
        if fault:
            faults.append("%s, call %d refused: %s" % (words, runs, fault))
        wanting += outcome[0] == 71
        well = 0 if outcome[0] == 71 or fault else well + 1
    return faults, runs, wanting


def main(program):
    if not shutil.which("cc"):
        print("refusing: no C compiler is on the PATH, so nothing is run")
        return 0
    runs = wanting = failed = 0
    with tempfile.TemporaryDirectory() as folder:
        library = built(folder)
        for row in ROWS:
            faults, made, out = faults_of(os.path.abspath(program), library, row)
            runs, wanting, failed = runs + made, wanting + out, failed + len(faults)
            print("".join("FAILED %s\n" % fault for fault in faults[:5]), end="")
    print("refusing: %d runs, of which %d ended out of memory, %d failed" % (runs, wanting, failed))
    return 1 if failed or not wanting else 0


if __name__ == "__main__":
    if len(sys.argv) != 2:
        sys.exit(__doc__)
    sys.exit(main(sys.argv[1]))
