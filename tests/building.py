#!/usr/bin/env python3
"""Tries the wrapper ./copro and build.py in a copy of the repository's frame, with a stand-in for the prover.

    building.py

The stand-in `rt` keeps others out of the folders of a crate and of all below it, as rt does, prints lines like rt's, and makes the files that
rt makes. It writes each crate's begin and end into a file, and refuses a crate whose libraries aren't there. The folder's name has a space.
"""
import contextlib
import os
import pty
import re
import shutil
import signal
import subprocess
import sys
import tempfile
import time

TOP = os.path.dirname(os.path.dirname(os.path.abspath(__file__)))
RT = r'''#!PYTHON
import fcntl, hashlib, os, sys, time
def tell(what):
    with open(os.environ["EVENTS"], "a") as events:
        events.write(f"{time.monotonic()} {what} {crate} {os.getpid()}\n")
def below(name):
    found = []
    for it in uses[name]:
        found += [it for it in [*below(it), it] if it in uses and it not in found]
    return found
def is_built(name):
    return os.path.isfile(f"../{name}/out/rlib/stamp")
crate = os.path.basename(os.getcwd())
rows = [it.split("#")[0].partition(":") for it in open("../../crates.txt")]
uses = {name.strip(): [it for it in words.split()] for name, colon, words in rows if colon}
uses = {name: [it for it in words if it in uses] for name, words in uses.items()}
held = [os.open(f"../{it}", os.O_RDONLY) for it in sorted({crate, *below(crate)})]
for it in held:
    fcntl.flock(it, fcntl.LOCK_EX)
lacking = [it for it in below(crate) if not is_built(it)]
if lacking or [it for it in uses if not os.path.isdir(f"../{it}/src")]:
    sys.exit(f"rt: lacking {lacking}")
texts = [open(f"../{it}/src/lib.rt").read() for it in [*below(crate), crate]]
stamp = hashlib.sha256(repr(texts).encode()).hexdigest()
if sys.argv[1] == "lib" and is_built(crate) and open("out/rlib/stamp").read() == stamp:
    sys.exit(0)
tell("begin-again" if os.path.isfile("out/incremental/part") else "begin")
os.makedirs("out/incremental", exist_ok=True)
open("out/incremental/part", "w").close()
print("so far: 0 of 7 functions checked; the verdict comes last", flush=True)
time.sleep(float(os.environ.get("SECONDS_EACH", "0.05")))
print(f"fn {crate}::first: proved\nso far: 3 of 7 functions checked", flush=True)
if os.environ.get("FAILING") == crate:
    tell("fail")
    sys.exit(f"fn {crate}::second: not proved")
if sys.argv[1] == "lib":
    os.makedirs("out/rlib", exist_ok=True)
    with open("out/rlib/stamp", "w") as file:
        file.write(stamp)
    tell("end")
    sys.exit(0)
with open("out/copro", "w") as program:
    program.write('#!/bin/sh\n[ "${1-}" != nothing ] || { echo "copro: no such command" >&2; exit 64; }\nprintf "%s|" "$@"\nexit 20\n')
os.chmod("out/copro", 0o755)
tell("end")
os.execv("out/copro", ["copro", *sys.argv[sys.argv.index("--") + 1 :]])
'''
LINE = re.compile(r"copro: (\d+) of (\d+) crates: (\w+), \d+\.\d minutes")
faults = []


def expect(is_so, what, seen=""):
    if not is_so:
        faults.append(what)
        print(f"FAILED {what}\n{seen}" if seen else f"FAILED {what}")


class Copy:
    """A copy of the wrapper, build.py and crates.txt, with sources of one line each."""

    def __init__(self, room):
        self.top, self.events = f"{room}/a copy", f"{room}/events"
        os.makedirs(f"{room}/bin")
        with open(f"{room}/bin/rt", "w", encoding="utf-8") as rt:
            rt.write(RT.replace("PYTHON", sys.executable))
        os.chmod(f"{room}/bin/rt", 0o755)
        self.uses = {}
        with open(f"{TOP}/crates.txt", encoding="utf-8") as rows:
            for name, _, words in (it.split("#")[0].partition(":") for it in rows if ":" in it.split("#")[0]):
                self.uses[name] = words.split()
        for name in self.uses:
            os.makedirs(f"{self.top}/crates/{name}/src")
            self.touch(name)
        for name in ("copro", "build.py", "crates.txt"):
            if os.path.exists(f"{TOP}/{name}"):
                shutil.copy(f"{TOP}/{name}", self.top)
        if os.path.isdir(f"{TOP}/docs/help"):
            shutil.copytree(f"{TOP}/docs/help", f"{self.top}/docs/help")
        self.env = {**os.environ, "PATH": f"{room}/bin:{os.environ['PATH']}", "EVENTS": self.events}
        self.env.pop("COPRO_BUILD", None)

    def touch(self, crate):
        with open(f"{self.top}/crates/{crate}/src/lib.rt", "a", encoding="utf-8") as file:
            file.write("// a line\n")

    def start(self, *words, **more):
        how = {"stdin": subprocess.DEVNULL, "stdout": subprocess.PIPE, "stderr": subprocess.PIPE, "start_new_session": True, "text": True}
        env = {**self.env, **{name: value for name, value in more.items() if name.isupper()}}
        how.update({name: value for name, value in more.items() if name.islower()})
        return subprocess.Popen([f"{self.top}/copro", *words], env=env, **how)

    def call(self, *words, **more):
        process = self.start(*words, **more)
        try:
            out, err = process.communicate(timeout=60)
        except subprocess.TimeoutExpired:
            os.killpg(process.pid, signal.SIGKILL)
            return "none", *process.communicate()
        return process.returncode, out, err

    def told(self):
        """What the stand-in wrote since the last call of this: the time, what, the crate, and its process."""
        with contextlib.suppress(FileNotFoundError):
            with open(self.events, encoding="utf-8") as events:
                found = [it.split() for it in events]
            os.remove(self.events)
            return [(float(at), what, crate, int(process)) for at, what, crate, process in found]
        return []


def below(crate, uses):
    """The crates that a crate stands on."""
    found = {it for it in uses[crate] if it in uses}
    return found.union(*(below(it, uses) for it in found))


def begun(told):
    return sorted(crate for _, what, crate, _ in told if what.startswith("begin"))


def try_help(copy):
    for words in (["help"], ["--help"], ["-h"], ["help", "extend"], ["extend", "--help"], ["generate", "-h"], ["--version"]):
        status, out, err = copy.call(*words)
        expect(status == 0 and out.startswith("copro") and not err, f"copro {words} answers", out + err)
    status, out, err = copy.call("simplify", COPRO_BUILD="no")
    expect((status, out) == (70, "") and err.count("\n") == 1 and "COPRO_BUILD" in err, "COPRO_BUILD=no with nothing built ends with 70", err)
    expect(not copy.told() and not os.path.exists(f"{copy.top}/crates/copro/out"), "help, --version and COPRO_BUILD=no build nothing")


def try_failing(copy):
    status, _, err = copy.call("simplify", FAILING="cp_find")
    expect(status == 70, f"a crate that fails ends with 70, and not {status}", err)
    for it in ("cp_find", f"{copy.top}/crates/copro/out/build.log", "fn cp_find::second: not proved"):
        expect(it in err, f"of a crate that fails it is said: {it}", err)
    expect("cp_eliminate" not in begun(copy.told()), "nothing above a crate that fails is proved")


def try_interrupt(copy):
    """An interrupt ends what was started, and the next call goes on."""
    process = copy.start("simplify", SECONDS_EACH="0.5")
    while process.poll() is None and not (os.path.exists(copy.events) and " end " in open(copy.events, encoding="utf-8").read()):
        time.sleep(0.05)
    time.sleep(0.2)
    os.killpg(process.pid, signal.SIGINT)
    _, err = process.communicate(timeout=30)
    told = copy.told()
    ended = {crate for _, what, crate, _ in told if what == "end"}
    expect(process.returncode in (130, -2) and "interrupted" in err, f"an interrupt is told, and ends with 130, not {process.returncode}", err)
    alive = [crate for _, what, crate, number in told if what == "begin" and os.path.exists(f"/proc/{number}")]
    expect(not alive, f"an interrupt ends the children, but {alive} go on")
    status, out, err = copy.call("simplify", "a b", "")
    again = copy.told()
    expect((status, out) == (20, "simplify|a b||"), f"after an interrupt the next call builds and runs: {status} {out!r}", err)
    expect(ended and not ended & set(begun(again)), "what was proved before the interrupt isn't proved again")
    cut = {crate for _, what, crate, _ in told if what.startswith("begin")} - ended
    expect(cut <= {crate for _, what, crate, _ in again if what == "begin-again"}, "a proof that was cut off goes on with what it kept")


def try_whole(copy):
    """A build from nothing: its lines, its order, and several crates at once."""
    for name in copy.uses:
        shutil.rmtree(f"{copy.top}/crates/{name}/out", ignore_errors=True)
    status, out, err = copy.call("simplify", "--cnf", "x y")
    told = copy.told()
    wanted = sorted({"copro"} | below("copro", copy.uses))
    expect((status, out) == (20, "simplify|--cnf|x y|"), f"the program gets its words and its status comes back: {status} {out!r}", err)
    expect(begun(told) == wanted, f"each crate that the program needs is built once, and no other: {begun(told)}")
    lines = err.splitlines()
    counted = [it.groups() for it in map(LINE.fullmatch, lines) if it]
    expect([int(it[0]) for it in counted] == list(range(1, len(wanted) + 1)), "one line a crate, counted", err)
    expect(sorted(it[2] for it in counted) == wanted and len(lines) == len(wanted) + 2, "one line a crate, one before and one after", err)
    log = f"{copy.top}/crates/copro/out/build.log"
    expect(log in lines[:1][0] if lines else False, "the first line names the log", err)
    with contextlib.suppress(FileNotFoundError):
        with open(log, encoding="utf-8") as file:
            text = file.read()
        expect(text.count("3 of 7 functions") == len(wanted) and "cp_top begins" in text and "cp_top ends" in text, "the log has all lines", text)
    try_order(copy, told)


def try_order(copy, told):
    ends = {crate: at for at, what, crate, _ in told if what == "end"}
    begins = {crate: at for at, what, crate, _ in told if what.startswith("begin")}
    early = [(crate, it) for crate in begins for it in copy.uses[crate] if it in copy.uses and not ends.get(it, 1e99) < begins[crate]]
    expect(not early, f"no crate before those that it uses: {early}")
    most = max((sum(begins[it] <= at < ends.get(it, 0) for it in begins) for at in begins.values()), default=0)
    expect(most >= min(2, len(os.sched_getaffinity(0))), f"crates are proved beside each other: at most {most}")


def try_again(copy):
    status, _, err = copy.call("simplify")
    expect(status == 20 and not err and not copy.told(), "what is built is run without a word", err)
    time.sleep(0.02)
    copy.touch("cp_stack")
    expect(copy.call("simplify", COPRO_BUILD="no")[0] == 20 and not copy.told(), "COPRO_BUILD=no runs what is built")
    both = [copy.start("simplify") for _ in range(2)]
    errs = [it.communicate(timeout=60)[1] for it in both]
    told = begun(copy.told())
    expect([it.returncode for it in both] == [20, 20], "two calls at once both run", "".join(errs))
    needed = {"copro"} | below("copro", copy.uses)
    expect(told == sorted({"cp_stack"} | {it for it in needed if "cp_stack" in below(it, copy.uses)}), f"after a change two calls at once build what changed, and that once: {told}")


def try_terminal(copy):
    """On a terminal one line is written over and over."""
    copy.touch("copro")
    ours, theirs = pty.openpty()
    process = copy.start("simplify", stderr=theirs, SECONDS_EACH="0.3")
    os.close(theirs)
    seen = b""
    with contextlib.suppress(OSError):
        while came := os.read(ours, 4096):
            seen += came
    process.communicate(timeout=60)
    os.close(ours)
    expect(b"\r\x1b[K" in seen and b"now copro 3 of 7 functions" in seen, "on a terminal the line says the functions", repr(seen))
    copy.told()


def main():
    tries = (try_help, try_failing, try_interrupt, try_whole, try_again, try_terminal)
    with tempfile.TemporaryDirectory() as room:
        copy = Copy(room)
        for it in tries:
            it(copy)
    print(f"building: {len(tries)} groups of calls of the wrapper, {len(faults)} faults")
    return 1 if faults else 0


if __name__ == "__main__":
    sys.exit(main())
