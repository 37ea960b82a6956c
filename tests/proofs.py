#!/usr/bin/env python3
"""Compares the proofs of the built program, without workers, with a list of checksums.

    proofs.py PROGRAM [SIZE]..     on the formulas of bench/formulas.py of these sizes, S and M if none is named
    proofs.py PROGRAM --list       prints the list, for tests/proofs.txt

Without workers the proof of a formula is fixed by the definitions, so whatever makes the program faster leaves it the same to the byte.
So the list changes only with the rules. Its rows without options of size M are also those of a second program, and rows with options of
size S those of a reference model.
"""
import hashlib
import os
import subprocess
import sys
import tempfile

TOP = os.path.dirname(os.path.dirname(os.path.abspath(__file__)))
LIST = os.path.join(TOP, "tests", "proofs.txt")
OPTIONS = ("", "--bound 8", "--only sxe --budget 3000")


def made(size, folder):
    """The names of the formulas of a size, which are made in the folder."""
    subprocess.run([sys.executable, os.path.join(TOP, "bench", "formulas.py"), size, folder], check=True)
    return sorted(it for it in os.listdir(folder) if it.endswith("-%s.cnf" % size))


def checksum(program, formula, options, folder):
    """The checksum of the proof of one run, or what went wrong."""
    proof = os.path.join(folder, "proof")
    words = [program, "simplify", "--workers", "0", "--cnf", formula, "--reduced", "none", "--proof", proof] + options.split()
    done = subprocess.run(words, stdin=subprocess.DEVNULL, capture_output=True, check=False)
    if done.returncode not in (0, 10, 20):
        return "status %d: %s" % (done.returncode, done.stderr.decode().strip())
    with open(proof, "rb") as file:
        return hashlib.file_digest(file, "sha256").hexdigest() if hasattr(hashlib, "file_digest") else hashlib.sha256(file.read()).hexdigest()


def rows(program, sizes):
    """For each formula and each set of options a name and the checksum of its proof."""
    with tempfile.TemporaryDirectory() as folder:
        for size in sizes:
            for name in made(size, folder):
                for options in OPTIONS:
                    yield ("%s %s" % (name, options)).strip(), checksum(program, os.path.join(folder, name), options, folder)


def main(words):
    program = os.path.abspath(words[0])
    sizes = [it for it in words[1:] if it != "--list"] or ["S", "M"]
    if "--list" in words:
        for name, found in rows(program, sizes):
            print("%s  %s" % (found, name))
        return 0
    with open(LIST, encoding="ascii") as file:
        wanted = {line[66:].rstrip("\n"): line[:64] for line in file}
    passed = failed = 0
    for name, found in rows(program, sizes):
        if wanted.get(name) == found:
            passed += 1
        else:
            failed += 1
            print("proofs: %s: %s, and not %s" % (name, found, wanted.get(name)))
    print("proofs: %d passed, %d failed" % (passed, failed))
    return 1 if failed or not passed else 0


if __name__ == "__main__":
    sys.exit(main(sys.argv[1:]))
