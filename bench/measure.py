#!/usr/bin/env python3
"""Runs simplifiers on the formulas of a folder, and prints a table of what they take and leave: the second half of run.sh.

    measure.py PROGRAM FOLDER RUNS

Time is the wall clock's, memory the greatest resident set as GNU time tells it. Each ratio is to a peer's figure on the same formula
in the same run, so a number below 1 is less than the peer's. A formula that a peer solves while it simplifies has no clause left where
it is satisfiable, and else the empty clause alone.
"""
import datetime
import glob
import math
import os
import platform
import shutil
import subprocess
import sys
import time

WORKERS = (0, 1, 2, 4)
LIMIT = 600  # seconds of a run
FIGURES = ("s", "KiB", "clauses", "literals")


def commands(program):
    """The peers that are here, and the program with each number of workers: a name, whether it is a peer, and how it is run."""
    peers = {
        "minisat": lambda cnf, out: ["minisat", "-pre", "-verb=0", "-dimacs=" + out, cnf],
        "cadical": lambda cnf, out: ["cadical", "-q", "-c", "0", "-P1", "-o", out, cnf],
    }
    found = [(name, True, words) for name, words in peers.items() if shutil.which(name)]
    return found + [("copro --workers %d" % workers, False, ours(program, workers)) for workers in WORKERS]


def ours(program, workers):
    return lambda cnf, out: [program, "simplify", "--workers", str(workers), "--cnf", cnf, "--reduced", out]


def left_in(path):
    """The clauses and literals of a formula in a file."""
    with open(path, encoding="ascii") as file:
        words = [word for line in file if not line.startswith(("c", "p")) for word in line.split()]
    clauses = words.count("0")
    return clauses, len(words) - clauses


def measured(words, folder, out):
    """Seconds, KiB, clauses and literals of one run, or what went wrong."""
    if os.path.exists(out):
        os.remove(out)
    kept = os.path.join(folder, "kib")
    began = time.perf_counter()
    command = ["timeout", str(LIMIT), "/usr/bin/time", "-q", "-o", kept, "-f", "%M"] + words
    done = subprocess.run(command, stdout=subprocess.DEVNULL, stderr=subprocess.PIPE, check=False)
    seconds = time.perf_counter() - began
    if done.returncode == 124:
        return "over %d s" % LIMIT
    if done.returncode not in (0, 10, 20):
        return "status %d: %s" % (done.returncode, done.stderr.decode().strip())
    clauses, literals = left_in(out) if os.path.exists(out) else (1, 0)  # a peer that refutes a formula writes none
    with open(kept, encoding="ascii") as file:
        return seconds, int(file.read().split()[-1]), clauses, literals


def best_of_each(programs, cnf, folder, runs):
    """For each program its fastest run, or what went wrong in one; they take turns."""
    best = {}
    for _ in range(runs):
        for name, _, words in programs:
            figures = measured(words(cnf, os.path.join(folder, "out.cnf")), folder, os.path.join(folder, "out.cnf"))
            before = best.get(name, figures)
            best[name] = figures if isinstance(figures, str) else before if isinstance(before, str) else min(before, figures)
    return best


def ratios(figures, peer):
    """Each figure as a multiple of the peer's, where both are there."""
    if isinstance(figures, str) or isinstance(peer, str):
        return [None] * len(FIGURES)
    return [mine / its if its else None for mine, its in zip(figures, peer)]


def ratio_text(ratio):
    return "" if ratio is None else "%.2f" % ratio


def processor():
    """The processor's name, where the system tells it."""
    try:
        with open("/proc/cpuinfo", encoding="ascii", errors="replace") as file:
            names = [line.split(":", 1)[1].strip() for line in file if line.startswith("model name")]
    except OSError:
        names = []
    return names[0] if names else platform.machine()


def print_row(*cells):
    print("| %s |" % " | ".join(map(str, cells)), flush=True)


def print_head(peers):
    heads = ["formula", "program", *FIGURES] + ["%s / %s" % (figure, peer) for peer in peers for figure in FIGURES]
    print_row(*heads)
    print("|%s" % ("---|" * len(heads)))


def print_formula(name, input_size, best, peers):
    print_row(name, "(the formula)", "", "", *input_size, *[""] * (len(FIGURES) * len(peers)))
    for program, figures in best.items():
        cells = [figures, "", "", ""] if isinstance(figures, str) else ["%.3f" % figures[0], *figures[1:]]
        compared = [ratio for peer in peers for ratio in ratios(figures, best[peer])]
        print_row("", program, *cells, *([""] * len(compared) if program in peers else map(ratio_text, compared)))


def print_means(all_best, programs, peers):
    """The geometric means of the ratios over the formulas where both figures are above 0."""
    for name, is_peer, _ in programs:
        if not is_peer:
            rows = [[ratio for peer in peers for ratio in ratios(best[name], best[peer])] for best in all_best]
            means = [[ratio for ratio in column if ratio] for column in zip(*rows)]
            means = [math.exp(sum(map(math.log, column)) / len(column)) if column else None for column in means]
            print_row("geometric mean", name, *[""] * len(FIGURES), *map(ratio_text, means))


def main():
    program, folder, runs = os.path.abspath(sys.argv[1]), sys.argv[2], int(sys.argv[3])
    programs = commands(program)
    peers = [name for name, is_peer, _ in programs if is_peer]
    print("%s, %d cores, %s; the fastest of %d runs.\n" % (datetime.date.today(), os.cpu_count(), processor(), runs))
    print_head(peers)
    all_best = []
    for cnf in sorted(glob.glob(os.path.join(folder, "formulas", "*.cnf"))):
        best = best_of_each(programs, cnf, folder, runs)
        all_best.append(best)
        print_formula(os.path.basename(cnf)[:-4], left_in(cnf), best, peers)
    print_means(all_best, programs, peers)
    return 1 if any(isinstance(figures, str) for best in all_best for figures in best.values()) else 0


if __name__ == "__main__":
    sys.exit(main())
