#!/usr/bin/env python3
"""Compares the options that the documents name with those that the built program takes.

    options.py PROGRAM

docs/USAGE.md, docs/copro.1, docs/help/ and docs/completions/copro.bash name the same commands and options, and the first three the same
values, defaults and statuses. The program takes each of them, with the least and the greatest value, and refuses, with 64, a value past either and an
option of another command. Each run is given a file that isn't there, so it ends before it does anything.

The worked examples of USAGE.md and README.md, in lines that begin with `$`, are run too, and print what stands below them.
"""
import os
import re
import subprocess
import sys
import tempfile

import cases

TOP = cases.TOP
DOCS = os.path.join(TOP, "docs")
# Words with which a command can't open its first file.
NOTHING_THERE = {"simplify": ("--cnf", "missing"), "extend": ("--stack", "missing"), "generate": ("--summary", "missing/file")}


def read(*path):
    with open(os.path.join(DOCS, *path), encoding="utf-8") as file:
        return file.read()


def values_of(text):
    """The least and greatest value that a text names, or the words, or None where any name or letters will do."""
    numbers = re.search(r"(\d+) to (\d+)", text)
    if numbers:
        return int(numbers[1]), int(numbers[2])
    return ("text", "binary") if "text" in text and "binary" in text else None


def usage_options():
    """For each command its options, each with its values and default."""
    options, command = {}, None
    for line in read("USAGE.md").splitlines():
        if line.startswith("## "):
            command = line[3:].strip()
        row = re.match(r"\| `(--[a-z-]+)` \| (.+?) \| (.+?) \|", line)
        if row:
            options.setdefault(command, {})[row[1]] = values_of(row[2]), row[3].strip("`")
    return options


def manual_options():
    options, command = {}, None
    for part in re.split(r"^(?=\.TP|\.SS|\.SH)", read("copro.1").replace("\\-", "-"), flags=re.M):
        if part.startswith((".SS", ".SH")):
            command = part.split("\n")[0][4:]
        option = re.match(r'\.TP\n\.BI (--[a-z-]+) "', part)
        if option:
            default = re.search(r"By default (\w+)", part)
            options.setdefault(command, {})[option[1]] = values_of(part), default[1] if default else "required"
    return options


def help_options():
    """The options of the pages that `copro help` prints."""
    options = {}
    for command in NOTHING_THERE:
        for line in read("help", command + ".txt").splitlines():
            row = re.match(r" +(--[a-z-]+) [A-Z]+ +(.*?\((\w+)\).*)", line)
            if row:
                options.setdefault(command, {})[row[1]] = values_of(row[2]), row[3]
    return options


def statuses():
    """The statuses that each document names."""
    manual = read("copro.1").partition(".SH EXIT STATUS")[2].partition(".SH DIAGNOSTICS")[0]
    return {
        "USAGE.md": set(re.findall(r"^\| (\d+) \|", read("USAGE.md"), flags=re.M)),
        "copro.1": set(re.findall(r"^\.B (\d+)$", manual, flags=re.M)),
        "help/copro.txt": set(re.findall(r"^(?:Status)? +(\d+) ", read("help", "copro.txt"), flags=re.M)),
    }


def completed(*words):
    """What the completion offers behind these words."""
    script = 'source "$0"; COMP_WORDS=("$@" ""); COMP_CWORD=$#; _copro; printf "%s\\n" "${COMPREPLY[@]}"'
    path = os.path.join(DOCS, "completions", "copro.bash")
    done = subprocess.run(["bash", "-c", script, path, "copro", *words], stdout=subprocess.PIPE, text=True, check=True)
    return done.stdout.split()


def document_faults(usage, manual):
    """Where the documents differ."""
    if usage != manual:
        yield "USAGE.md and copro.1 differ:\n  %r\n  %r" % (usage, manual)
    if usage != help_options():
        yield "USAGE.md and help/ differ:\n  %r\n  %r" % (usage, help_options())
    if len({frozenset(it) for it in statuses().values()}) > 1:
        yield "the documents name different statuses: %r" % statuses()
    # (the wrapper ./copro answers the others itself)
    if set(completed()) != {*usage, "help", "--help", "--version"} or set(completed("help")) != set(usage):
        yield "the completion offers the commands %r, and after help %r" % (completed(), completed("help"))
    for command, options in usage.items():
        if set(completed(command)) != {*options, "--help"}:
            yield "the completion offers %r behind %s, and USAGE.md has %r" % (completed(command), command, sorted(options))
    if completed("simplify", "--proof-form") != ["text", "binary"]:
        yield "the completion offers %r behind --proof-form" % completed("simplify", "--proof-form")


def is_taken(program, folder, command, option, value):
    name, missing = NOTHING_THERE[command]
    words = [command, option + "=" + value] + ([name + "=" + missing] if option != name else [])
    status, _, _ = cases.run(program, words, b"", folder)
    return " ".join(words), status != 64


def trials(usage):
    """Each a command, an option, a value, and whether the program has to take it."""
    every = sorted({option for options in usage.values() for option in options})
    for command, options in usage.items():
        for option in every:
            values, _ = options.get(option, (None, None))
            if option not in options:
                good, bad = [], ["1", "t", "std"]
            elif values and isinstance(values[0], int):
                good, bad = [values[0], values[1]], [values[0] - 1, values[1] + 1, "x", ""]
            elif values:
                good, bad = values, ["other", ""]
            elif option == "--only":
                good, bad = ["t", "tsxbe"], ["q", ""]
            else:
                good, bad = [NOTHING_THERE[command][1] if option == NOTHING_THERE[command][0] else "file"], []
            yield from ((command, option, str(value), True) for value in good)
            yield from ((command, option, str(value), False) for value in bad)


def program_faults(program, usage):
    with tempfile.TemporaryDirectory() as folder:
        for command, option, value, wanted in trials(usage):
            words, taken = is_taken(program, folder, command, option, value)
            if taken != wanted:
                yield "copro %s: wanted that it is %s" % (words, "taken" if wanted else "refused with 64")


def worked_examples():
    """The commands of README.md and USAGE.md, each with the lines that it prints."""
    examples, printed = [], None
    for line in [*read("..", "README.md").splitlines(), "", *read("USAGE.md").splitlines()]:
        if line.startswith("    $ "):
            printed = []
            examples.append((line[6:], printed))
        elif not line.startswith("    "):
            printed = None
        elif printed is not None:
            printed.append(line[4:])
    return examples


def example_faults(program):
    """Where a worked example prints something else."""
    with tempfile.TemporaryDirectory() as folder:
        for name, path in (("copro", program), ("examples", os.path.join(TOP, "examples")), ("tests", os.path.join(TOP, "tests"))):
            os.symlink(path, os.path.join(folder, name))
        for command, wanted in worked_examples():
            done = subprocess.run(["sh", "-c", "exec 2>&1; " + command], cwd=folder, stdout=subprocess.PIPE, text=True, timeout=60, check=False)
            if done.stdout.splitlines() != wanted:
                yield "%s\n  wanted %r\n  got    %r" % (command, wanted, done.stdout.splitlines())


def main():
    program = os.path.abspath(sys.argv[1])
    usage = usage_options()
    faults = [*document_faults(usage, manual_options()), *program_faults(program, usage), *example_faults(program)]
    for fault in faults:
        print("FAILED %s" % fault)
    print("options: %d options of %d commands, %d failed" % (sum(map(len, usage.values())), len(usage), len(faults)))
    return 1 if faults else 0


if __name__ == "__main__":
    sys.exit(main())
