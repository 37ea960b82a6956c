#!/usr/bin/env python3
"""Proves and builds the program: each crate after those that it uses, several at once. ./copro calls it.

    build.py                 builds crates/copro/out/copro

`rt` proves a crate and makes a library of it, and keeps other commands out of that crate and of all below it meanwhile. So each crate is
proved in a tree of its own: copies of its sources and of those below, beside the libraries that are built already. What was made goes
back to the crate's folder, also after an interrupt, so the next call goes on there.

On a terminal one line says how far the build is; elsewhere each crate gets a line when it is done. All that the prover prints goes into a
log. Of two calls at once the second waits for the first. Ends with 70 if a crate fails.
"""
import collections
import contextlib
import fcntl
import os
import re
import selectors
import shutil
import signal
import subprocess
import sys
import time

TOP = os.path.dirname(os.path.realpath(__file__))
OUT = f"{TOP}/crates/copro/out"
PROGRAM, LOG, TREES = f"{OUT}/copro", f"{OUT}/build.log", f"{OUT}/build"
PARTS = ("src", "specs", "proofs")
# What one job of a check takes, in bytes.
MEMORY = 1_500_000_000
# A crate of this rank or a lower one is on the longest chain or close to it, and gets this many jobs at once, whatever else runs.
URGENT, JOBS = 7, 3
# The lines of a crate that failed that are shown.
SHOWN = 15
CHECKED = re.compile(rb"so far: (\d+) of (\d+) functions checked")


# What is to be built.


def crates_used():
    """The crates that the program needs, each with the repository's crates that it uses itself."""
    listed = {}
    with open(f"{TOP}/crates.txt", encoding="utf-8") as lines:
        for line in lines:
            name, colon, uses = line.split("#")[0].partition(":")
            if colon:
                listed[name.split()[0]] = uses.split()
    needed, left = {}, ["copro"]
    while left:
        name = left.pop()
        if name not in needed:
            needed[name] = [it for it in listed[name] if it in listed]
            left += needed[name]
    return needed


def all_below(crate, uses):
    """The crates below one, each once."""
    found = set()
    for it in uses[crate]:
        found |= {it} | all_below(it, uses)
    return found


def sources(crate):
    for part in PARTS:
        for folder, _, files in os.walk(f"{TOP}/crates/{crate}/{part}"):
            yield from (f"{folder}/{name}" for name in files)


def count_lines(crate):
    """A measure of the work that a crate's proof takes."""
    count = 0
    for path in sources(crate):
        with open(path, "rb") as file:
            count += file.read().count(b"\n")
    return count


def work_ahead(uses):
    """For each crate the most work on a way from it, with its own, up to the program."""
    most = {}

    def ahead(crate):
        if crate not in most:
            above = [it for it in uses if crate in uses[it]]
            most[crate] = count_lines(crate) + max((ahead(it) for it in above), default=0)
        return most[crate]

    for crate in uses:
        ahead(crate)
    return most


def mark_of(crate):
    """The file whose time says when the sources were read that a crate was last built from."""
    return f"{TOP}/crates/{crate}/out/built"


def is_current(crate, uses):
    made = PROGRAM if crate == "copro" else f"{TOP}/crates/{crate}/out/rlib/stamp"
    if not os.path.exists(made) or not os.path.exists(mark_of(crate)):
        return False
    built = os.path.getmtime(mark_of(crate))
    below = [mark_of(it) for it in uses[crate] if os.path.exists(mark_of(it))]
    return all(os.path.getmtime(it) <= built for it in [f"{TOP}/crates.txt", *sources(crate), *below])


def stale_crates(uses):
    """The crates that have to be built: those that are not current, and all above them."""
    stale = {it for it in uses if not is_current(it, uses)}
    return {it for it in uses if it in stale or stale & all_below(it, uses)}


# The tree that one crate is proved in.


def link_or_copy(one, other):
    try:
        os.link(one, other)
    except OSError:
        shutil.copy2(one, other)


def move(one, other):
    if os.path.isdir(one):
        shutil.rmtree(other, ignore_errors=True)
        os.makedirs(os.path.dirname(other), exist_ok=True)
        os.rename(one, other)


def make_tree(crate, below):
    """Makes the crate's tree and returns its folder there. The libraries are linked: rt replaces such a file, and never writes into it."""
    tree = f"{TREES}/{crate}"
    for name in [*below, crate]:
        for part in PARTS:
            if os.path.isdir(f"{TOP}/crates/{name}/{part}"):
                shutil.copytree(f"{TOP}/crates/{name}/{part}", f"{tree}/crates/{name}/{part}")
    for name in below:
        shutil.copytree(f"{TOP}/crates/{name}/out/rlib", f"{tree}/crates/{name}/out/rlib", copy_function=link_or_copy)
    for kept in ("incremental", "rlib"):
        move(f"{TOP}/crates/{crate}/out/{kept}", f"{tree}/crates/{crate}/out/{kept}")
    with open(f"{TOP}/crates.txt", encoding="utf-8") as lines, open(f"{tree}/crates.txt", "w", encoding="utf-8") as own:
        own.writelines(it for it in lines if it.partition(":")[0].split()[:1] in [[name] for name in [*below, crate]])
    return f"{tree}/crates/{crate}"


def give_back(crate):
    """Moves what a crate's tree holds of its own to the crate's folder, and removes the tree."""
    for kept in ("incremental", "rlib"):
        move(f"{TREES}/{crate}/crates/{crate}/out/{kept}", f"{TOP}/crates/{crate}/out/{kept}")
    shutil.rmtree(f"{TREES}/{crate}", ignore_errors=True)


def take_lock(path):
    """Locks a file or folder, which closing it ends. Returns None if another process has it."""
    lock = os.open(path, os.O_RDONLY)
    try:
        fcntl.flock(lock, fcntl.LOCK_EX | fcntl.LOCK_NB)
    except BlockingIOError:
        os.close(lock)
        return None
    return lock


class Proof:
    """The proof of one crate under way."""

    def __init__(self, crate, below, jobs, rank, lock):
        self.crate, self.jobs, self.lock, self.begun = crate, jobs, lock, time.time()
        self.functions, self.rest, self.last = "", b"", collections.deque(maxlen=SHOWN)
        # (a program is linked by running it: with a word that is no command it does nothing and ends with 64)
        words, self.wanted = (["run", "--jobs", str(jobs), "--", "nothing"], 64) if crate == "copro" else (["lib", "--jobs", str(jobs)], 0)
        folder = f"{TOP}/crates/{crate}" if crate == "copro" else make_tree(crate, below)
        # (a group of its own, so that all of it can be ended; with setsid Linux would share the processors out evenly among the proofs,
        # whatever their rank)
        how = {"stdin": subprocess.DEVNULL, "stdout": subprocess.PIPE, "stderr": subprocess.STDOUT, "preexec_fn": os.setpgrp}
        self.process = subprocess.Popen(["nice", "-n", str(rank), "rt", *words], cwd=folder, **how)

    def read(self):
        """Returns the lines that came, none at the end."""
        came = os.read(self.process.stdout.fileno(), 65536)
        *lines, self.rest = (self.rest + came).split(b"\n")
        if not came and self.rest:
            lines, self.rest = [self.rest], b""
        for line in lines:
            found = CHECKED.search(line)
            if found:
                self.functions = f" {int(found[1])} of {int(found[2])} functions"
        self.last.extend(lines)
        return lines if came else lines or None

    def end(self):
        """Ends the proof, also one under way, and returns whether it went well."""
        with contextlib.suppress(ProcessLookupError):
            if self.process.poll() is None:
                os.killpg(self.process.pid, signal.SIGTERM)
        self.process.wait()
        self.process.stdout.close()
        is_well = self.process.returncode == self.wanted
        if self.crate != "copro":
            give_back(self.crate)
        if is_well:
            with open(mark_of(self.crate), "wb"):
                os.utime(mark_of(self.crate), (self.begun, self.begun))
        if self.lock is not None:
            os.close(self.lock)
        return is_well


# The build.


def processors():
    return len(os.sched_getaffinity(0))


def jobs_allowed():
    """How many jobs there may be at once as far as memory goes."""
    with open("/proc/meminfo", encoding="ascii") as lines:
        free = next((int(it.split()[1]) * 1024 for it in lines if it.startswith("MemAvailable")), MEMORY)
    return max(1, free // MEMORY)


class Build:
    """A build under way: what is left, what is being proved, and what is told of it."""

    def __init__(self, uses, left, log):
        self.uses, self.left, self.log = uses, left, log
        self.started, self.is_terminal = time.time(), sys.stderr.isatty()
        self.running, self.selector = {}, selectors.DefaultSelector()
        self.done = len(uses) - len(left)
        # (a job waits at times, so there are more places than processors)
        self.ahead, self.most = work_ahead(uses), jobs_allowed()
        self.places = min(self.most, max(1, processors() * 3 // 2))

    def minutes(self):
        return f"{(time.time() - self.started) / 60:.1f} minutes"

    def tell(self, line, stays=True):
        """Says a line; one that doesn't stay is written over by the next, and told on a terminal alone."""
        if self.is_terminal:
            sys.stderr.write(f"\r\033[K{line if stays else line[: (os.get_terminal_size(2).columns or 80) - 1]}" + "\n" * stays)
        elif stays:
            sys.stderr.write(line + "\n")
        sys.stderr.flush()

    def show(self):
        now = ", ".join(it.crate + it.functions for it in self.running.values())
        self.tell(f"copro: {self.done} of {len(self.uses)} crates, {self.minutes()}; now {now}", stays=False)

    def note(self, line):
        self.log.write(f"copro: {time.time() - self.started:.1f} s: {line}\n".encode())
        self.log.flush()

    def ready(self):
        """The crates whose libraries are all built, first the one with the most work ahead."""
        waits = self.left | set(self.running)
        found = [it for it in self.left if not waits & set(self.uses[it])]
        return sorted(found, key=lambda it: (-self.ahead[it], it))

    def start_ready(self):
        ready = self.ready()
        for place, crate in enumerate(ready):
            rank = self.rank_of(crate)
            jobs = self.jobs_of(rank, len(ready) - place - 1)
            if jobs < 1:
                return
            # (rt itself keeps others out of the program's folder)
            lock = None if crate == "copro" else take_lock(f"{TOP}/crates/{crate}")
            if lock is not None or crate == "copro":
                self.start(crate, jobs, rank, lock)

    def rank_of(self, crate):
        """0 for a crate of the longest chain of those left, which decides when all is done, and more the less work a crate has ahead."""
        most = max(self.ahead[it] for it in self.left | set(self.running))
        return min(19, round(30 * (1 - self.ahead[crate] / most)))

    def jobs_of(self, rank, waiting):
        """How many jobs a crate gets: what those that wait leave of the free places, and no fewer than JOBS if its rank is urgent."""
        taken = sum(it.jobs for it in self.running.values())
        free = self.places - taken
        least = JOBS if rank <= URGENT else min(1, free)
        return min(self.most - taken, processors(), 4, max(least, free - waiting))

    def start(self, crate, jobs, rank, lock):
        os.makedirs(f"{TOP}/crates/{crate}/out", exist_ok=True)
        self.note(f"{crate} begins, {jobs} jobs, rank {rank}")
        # (the processors serve a proof the later, the higher its rank is)
        proof = Proof(crate, sorted(all_below(crate, self.uses)), jobs, rank, lock)
        self.left.remove(crate)
        self.running[crate] = proof
        self.selector.register(proof.process.stdout, selectors.EVENT_READ, proof)

    def read(self, proof):
        """Reads what a proof said. Returns whether all is well."""
        lines = proof.read()
        for line in lines or []:
            self.log.write(f"{proof.crate}: ".encode() + line + b"\n")
        return True if lines is not None else self.end(proof)

    def end(self, proof):
        self.selector.unregister(proof.process.stdout)
        del self.running[proof.crate]
        is_well = proof.end()
        self.note(f"{proof.crate} ends with {proof.process.returncode} after {time.time() - proof.begun:.1f} s")
        if is_well:
            self.done += 1
            self.tell(f"copro: {self.done} of {len(self.uses)} crates: {proof.crate}, {self.minutes()}")
        else:
            self.tell(f"copro: {proof.crate} could not be built; the last lines of {self.log.name}:")
            for line in proof.last:
                self.tell(f"    {line.decode(errors='replace')}")
        return is_well

    def run(self):
        """Proves all that is left. Returns whether that went well."""
        try:
            while self.left or self.running:
                self.start_ready()
                for key, _ in self.selector.select(1):
                    if not self.read(key.data):
                        return False
                if self.running:
                    self.show()
            return True
        finally:
            for proof in self.running.values():
                proof.end()


def build():
    """Builds what isn't current. Returns the status."""
    for crate in os.listdir(TREES) if os.path.isdir(TREES) else []:
        # (a build that was killed left it)
        give_back(crate)
    uses, started = crates_used(), time.time()
    stale = stale_crates(uses)
    if stale:
        with open(LOG, "wb") as log:
            run = Build(uses, stale, log)
            run.tell(f"copro: proving and building {len(stale)} of {len(uses)} crates; the prover's lines are in {LOG}")
            if not run.run():
                return 70
            run.tell(f"copro: built in {run.minutes()}")
    os.utime(PROGRAM, (started, started))
    return 0


def main():
    signal.signal(signal.SIGTERM, lambda *_: sys.exit(143))
    signal.signal(signal.SIGHUP, lambda *_: sys.exit(129))
    os.makedirs(OUT, exist_ok=True)
    with open(f"{OUT}/build.lock", "w", encoding="ascii") as lock:
        try:
            fcntl.flock(lock, fcntl.LOCK_EX | fcntl.LOCK_NB)
        except BlockingIOError:
            print("copro: another call builds the program; waiting for it", file=sys.stderr, flush=True)
            fcntl.flock(lock, fcntl.LOCK_EX)
        return build()


if __name__ == "__main__":
    try:
        sys.exit(main())
    except KeyboardInterrupt:
        print("\ncopro: interrupted; what is proved is kept", file=sys.stderr)
        sys.exit(130)
