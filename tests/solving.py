#!/usr/bin/env python3
"""Solves formulas with examples/solve.sh and each of the solvers cadical and minisat that is on the PATH, and checks what comes out.

    solving.py PROGRAM

A model satisfies the formula. Of an unsatisfiable formula the proof, copro's and behind it the solver's, is accepted and has the
empty clause; minisat writes none, so there it may end before. The answers are known from how the formulas are made.

Stated cases follow: what solve.sh says of its words, of formulas that were cut off and of solvers that fail, which are small scripts, and
that a limit or a signal ends the solver and leaves no folder.
"""
import glob
import itertools
import os
import random
import shutil
import signal
import subprocess
import sys
import tempfile
import time

import cases
import check

TOP = cases.TOP
SOLVE = os.path.join(TOP, "examples", "solve.sh")
SOLVERS = [solver for solver in ("cadical", "minisat") if shutil.which(solver)]
PLAIN = b"p cnf 2 4\n1 2 0\n-1 2 0\n1 -2 0\n-1 -2 0\n"


def pigeonholes(holes):
    """One pigeon more than there are holes."""
    at = [[pigeon * holes + hole + 1 for hole in range(holes)] for pigeon in range(holes + 1)]
    pairs = [[-a[hole], -b[hole]] for hole in range(holes) for a, b in itertools.combinations(at, 2)]
    return cases.text_of(holes * (holes + 1), at + pairs)


def formulas():
    """Each a text and the status of its answer."""
    for path in sorted(glob.glob(os.path.join(TOP, "examples", "*.cnf"))):
        with open(path, "rb") as file:
            yield file.read(), 10
    yield pigeonholes(1), 20
    yield pigeonholes(5), 20
    yield PLAIN, 20


def fault_of(program, solver, workers, text, status):
    """The command and what was expected of it and isn't so, or nothing."""
    with tempfile.TemporaryDirectory() as folder:
        cnf, proof = os.path.join(folder, "in.cnf"), os.path.join(folder, "proof")
        with open(cnf, "wb") as file:
            file.write(text)
        command = [SOLVE, "--workers", workers, "--proof", proof, cnf, solver]
        done = subprocess.run(command, env={**os.environ, "COPRO": program}, stdout=subprocess.PIPE, stderr=subprocess.PIPE, timeout=120)
        if done.returncode != status:
            return command, "the status %d, not %d: %s" % (status, done.returncode, done.stderr.decode())
        fault = check.model_texts_fault(text, done.stdout) if status == 10 else proof_fault(text, cases.held_by(proof), solver)
        return fault and (command, "a model or proof that is right: %s" % fault)


def proof_fault(text, proof, solver):
    ends = proof == b"0\n" or proof.endswith(b"\n0\n") or solver == "minisat"
    return check.proof_texts_fault(text, proof) or ("" if ends else "it has no empty clause")


# A formula of which clauses are left, and that all variables true satisfy.
DRAWN = random.Random(1)
LEFT = cases.text_of(12, [[x, DRAWN.choice((y, -y)), DRAWN.choice((z, -z))]
                          for x, y, z in (DRAWN.sample(range(1, 13), 3) for _ in range(60))])
LACKING = pigeonholes(2).rsplit(b"\n", 2)[0] + b"\n"
MODEL = "echo s SATISFIABLE; echo v 1 2 3 4 5 6 7 8 9 10 11 12"
NAMED = "[ $# -eq 3 ] && [ $1 = --fast ] && [ $2 = {} ] || exit 1; head -n 1 $3 | grep -q ^p.cnf || exit 1; %s 0; exit 10" % MODEL

# The formula, the solver's script, the words, which name the formula F and the solver S, the status, the last line of solve.sh on standard error
STATED = [
    # A formula that was cut off between two clauses, whatever surrounds the header.
    (LACKING, "exit 1", "F S", 80, "the formula has 8 clauses, and its header says 9; --loose solves it as it is"),
    (b"c p cnf 1 1\n\n" + LACKING.replace(b" ", b"\t").replace(b"\n", b"\r\n"), "exit 1", "F S", 80,
     "the formula has 8 clauses, and its header says 9; --loose solves it as it is"),
    (b"p cnf 1 99999999999999999999999\n1 0\n", "exit 1", "F S", 80,
     "the formula has 1 clauses, and its header says 99999999999999999999999; --loose solves it as it is"),
    (LACKING, MODEL, "--loose F S", 10, ""),
    (b"p cnf 1 0\n1 0\n-1 0\n", "exit 1", "F S", 20, ""),
    # Solvers that fail.
    (LEFT, "exit 1", "F nosuch", 81, "the solver nosuch isn't found"),
    (LEFT, "exit 1", "F S", 83, "the solver S ended without an s line, with the status 1"),
    (LEFT, "exit 10", "F S", 83, "the solver S ended without an s line, with the status 10"),
    (LEFT, "echo c nothing", "F S", 83, "the solver S ended without an s line, with the status 0"),
    (LEFT, MODEL + "; kill -9 $$", "F S", 82, "the solver S was ended by the signal KILL"),
    (LEFT, "echo s MAYBE; exit 10", "F S", 84, "the answer of the solver S can't be understood: s MAYBE, with the status 10"),
    (LEFT, MODEL + "; exit 20", "F S", 84, "the answer of the solver S can't be understood: s SATISFIABLE, with the status 20"),
    (LEFT, "echo s SATISFIABLE; exit 10", "F S", 84, "the solver S says SATISFIABLE without a v line"),
    (LEFT, "echo s SATISFIABLE; echo v 1 -1 0; exit 10", "F S", 85, "copro refuses the model of the solver S"),
    # Answers as z3 gives them, and words for the solver.
    (LEFT, MODEL, "F S", 10, ""),
    (LEFT, "echo s UNSATISFIABLE", "F S", 20, ""),
    (LEFT, "echo s UNKNOWN", "F S", 0, ""),
    (LEFT, NAMED.replace("{}", "-q"), "F -- S --fast -q", 10, ""),
    (LEFT, NAMED.replace("$2 = {}", "$3 = last").replace("$3 |", "$2 |"), "F -- S --fast {} last", 10, ""),
    # Words.
    (LEFT, "exit 1", "--help", 0, ""),
    (LEFT, "exit 1", "--time x F S", 64, "--time takes a number of seconds; --help prints the usage"),
    (LEFT, "exit 1", "--proof std F S", 64, "--proof takes the name of a file; --help prints the usage"),
    (LEFT, "sleep 60 & wait", "--time 1 F S", 124, "the time limit of 1 seconds is over"),
]
ANSWERS = {10: b"s SATISFIABLE\nv", 20: b"s UNSATISFIABLE\n"}


def made(folder, text, script):
    """Writes the formula F, the solver S and a folder for temporary ones, and gives the environment's variables."""
    os.mkdir(os.path.join(folder, "tmp"))
    for name, held in (("F", text), ("S", b"#!/bin/sh\n" + script.encode() + b"\n")):
        with open(os.path.join(folder, name), "wb") as file:
            file.write(held)
    os.chmod(os.path.join(folder, "S"), 0o755)
    return {**os.environ, "TMPDIR": os.path.join(folder, "tmp"), "PATH": folder + os.pathsep + os.environ["PATH"]}


def stated_fault(program, row):
    text, script, words, status, line = row
    with tempfile.TemporaryDirectory() as folder:
        told = {**made(folder, text, script), "COPRO": program}
        done = subprocess.run([SOLVE, *words.split()], cwd=folder, env=told, stdout=subprocess.PIPE, stderr=subprocess.PIPE, timeout=30)
        said, kept = done.stderr.decode(), os.listdir(folder)
        answer = b"Solves" if words == "--help" else ANSWERS.get(status, b"" if status else b"s UNKNOWN\n")
        # (a solver may have lines of its own there: minisat warns of a formula whose greatest variable is gone)
        ours = [it for it in said.splitlines() if it.startswith("solve.sh: ")]
        if done.returncode != status or ours[-1:] != (["solve.sh: " + line] if line else []):
            return "the status %d and the line %r, not %d and %r" % (status, line, done.returncode, said)
        if not done.stdout.startswith(answer) or done.stdout and not answer:
            return "the answer %r, not %r" % (answer, done.stdout)
        if sorted(kept) != ["F", "S", "tmp"] or os.listdir(os.path.join(folder, "tmp")):
            return "no other file, not %s" % kept
        return status == 10 and check.model_texts_fault(text, done.stdout)


def signal_fault(program, number, status):
    """What is wrong after a signal, sent while the solver and a child of it run."""
    with tempfile.TemporaryDirectory() as folder:
        told = {**made(folder, LEFT, "sleep 60 & echo $! $$ >pids.part; mv pids.part pids; wait"), "COPRO": program}
        pids = os.path.join(folder, "pids")
        with subprocess.Popen([SOLVE, "F", "S"], cwd=folder, env=told, stdout=subprocess.DEVNULL, stderr=subprocess.DEVNULL) as run:
            if not soon(lambda: os.path.exists(pids)):
                run.kill()
                return "a solver that runs"
            run.send_signal(number)
            ended = run.wait(30) if soon(lambda: run.poll() is not None) else run.kill()
        there = [pid for pid in read(pids).split() if not soon(lambda: not is_there(pid))]
        for pid in there:
            os.kill(int(pid), signal.SIGKILL)
        if ended != status or there or os.listdir(os.path.join(folder, "tmp")):
            return "the status %d, no process and no folder, not %s and %s" % (status, ended, there)
        return ""


def read(path):
    with open(path, encoding="ascii", errors="replace") as file:
        return file.read()


def is_there(pid):
    """Whether a process runs; one that is just not waited for has an empty command line."""
    try:
        return bool(read("/proc/%s/cmdline" % pid))
    except OSError:
        return False


def soon(is_so):
    """Whether it is so within five seconds."""
    end = time.monotonic() + 5
    while not is_so() and time.monotonic() < end:
        time.sleep(0.02)
    return is_so()


def words_faults(program):
    """The faults of the stated cases, each with its words."""
    rows = list(STATED)
    rows += [(text, "exit 1", "--proof none F " + words, status, "") for text, status in ((LEFT, 10), (pigeonholes(5), 20)) for words in
             ("minisat", "z3", "cadical", "-- cadical --sat -q", "-- minisat -verb=0", "-- z3 -dimacs {}")
             if shutil.which(words.replace("-- ", "").split()[0])]
    faults = [("%s with the solver %r" % (row[2], row[1]), stated_fault(program, row)) for row in rows]
    faults += [("signal %d" % number, signal_fault(program, number, status))
               for number, status in ((signal.SIGINT, 130), (signal.SIGTERM, 143), (signal.SIGHUP, 129))]
    return faults


def main():
    program = os.path.abspath(sys.argv[1])
    runs = [(solver, workers, *formula) for solver in SOLVERS for workers in ("0", "4") for formula in formulas()]
    failed = 0
    for solver, workers, text, status in runs:
        fault = fault_of(program, solver, workers, text, status)
        if fault:
            failed += 1
            print("FAILED %s\n  on     %r\n  wanted %s" % (" ".join(fault[0]), text[:1500], fault[1]))
    stated = words_faults(program)
    for words, fault in stated:
        if fault:
            failed += 1
            print("FAILED %s\n  wanted %s" % (words, fault))
    print("solving with %s: %d passed, %d failed" % (" and ".join(SOLVERS) or "no solver", len(runs) + len(stated) - failed, failed))
    return 1 if failed else 0


if __name__ == "__main__":
    sys.exit(main())
