#!/usr/bin/env python3
"""Has drat-trim check the proofs of formulas that a run refutes, and those of unsatisfiable ones joined with cadical's. Where a reference
model lies beside the repository in ../shared/oracle, its plain checker has MODEL_SECONDS (60 where it isn't set) for each proof too.

    trimming.py PROGRAM DRAT_TRIM FOLDER [WORKERS]..

FOLDER holds the formulas; without WORKERS runs with 0 and 3 workers are checked. Each proof is taken in both forms. A formula that
cadical doesn't solve in SECONDS_EACH (60 where it isn't set) is passed over, and so are all that need it where it isn't on the PATH.
DRAT_TRIM is the path of drat-trim, which stands in cadical's source under test/cnf and isn't needed by anything else here.
"""
import glob
import os
import shutil
import subprocess
import sys
import tempfile

SECONDS = int(os.environ.get("SECONDS_EACH", "60"))
MODEL_SECONDS = int(os.environ.get("MODEL_SECONDS", "60"))
MODEL = os.path.join(os.path.dirname(os.path.abspath(__file__)), "../../shared/oracle/copro_model.py")


def simplified(program, cnf, folder, workers, form):
    """The status of a run and the paths of what it leaves and of its proof."""
    left, proof = os.path.join(folder, "left.cnf"), os.path.join(folder, "proof." + form)
    words = ["--cnf", cnf, "--reduced", left, "--proof", proof, "--proof-form", form, "--workers", str(workers)]
    done = subprocess.run([program, "simplify", *words], stdout=subprocess.DEVNULL)
    return done.returncode, left, proof


def solved(left, folder, form):
    """The path of cadical's proof of what is left, or None where it tells none in its time."""
    proof = os.path.join(folder, "solved." + form)
    forms = ["--no-binary"] if form == "text" else []
    done = subprocess.run(["cadical", "-q", "-n", "-t", str(SECONDS), *forms, left, proof], stdout=subprocess.DEVNULL)
    return proof if done.returncode == 20 else None


SAYINGS = {True: "accepted", False: "NOT ACCEPTED", None: "-"}


def by_drat_trim(trim, cnf, proof):
    said = subprocess.run([trim, cnf, proof, "-t", "600", "-w"], stdout=subprocess.PIPE, stderr=subprocess.DEVNULL)
    return b"s VERIFIED" in said.stdout


def by_model(cnf, proof, form):
    """What the model's checker says, or None where it isn't here or takes too long."""
    if not os.path.exists(MODEL):
        return None
    words = ["check", "--cnf", cnf, "--proof", proof, "--proof-form", form, "--summary", "none"]
    try:
        done = subprocess.run([sys.executable, "-B", MODEL, *words], timeout=MODEL_SECONDS, stderr=subprocess.DEVNULL)
    except subprocess.TimeoutExpired:
        return None
    return done.returncode == 0


def verdicts(trim, cnf, proof, form):
    """What the two checkers say of the proof, each True, False or None."""
    return by_drat_trim(trim, cnf, proof), by_model(cnf, proof, form)


def outcome_of(program, trim, cnf, workers, form):
    """Refuted, joined or passed over, and what the checkers say of the proof."""
    with tempfile.TemporaryDirectory() as folder:
        status, left, proof = simplified(program, cnf, folder, workers, form)
        if status not in (0, 10, 20):
            return "the status %d" % status, (False, False)
        if status == 20:
            return "refuted", verdicts(trim, cnf, proof, form)
        rest = solved(left, folder, form) if status == 0 and shutil.which("cadical") else None
        if rest is None:
            return "passed over", (None, None)
        with open(proof, "ab") as joined, open(rest, "rb") as file:
            shutil.copyfileobj(file, joined)
        return "joined", verdicts(trim, cnf, proof, form)


def main(program, trim, folder, counts):
    failed = 0
    for cnf in sorted(glob.glob(os.path.join(folder, "*.cnf"))):
        for workers in counts:
            for form in ("text", "binary"):
                kind, said = outcome_of(program, trim, cnf, workers, form)
                failed += False in said
                print(os.path.basename(cnf), workers, form, kind, *(SAYINGS[it] for it in said), flush=True)
    print("%d not accepted" % failed)
    return 1 if failed else 0


if __name__ == "__main__":
    if len(sys.argv) < 4:
        sys.exit(__doc__)
    sys.exit(main(sys.argv[1], sys.argv[2], sys.argv[3], sys.argv[4:] or ["0", "3"]))
