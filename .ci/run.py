"""Checks the texts, proves and tests every crate from nothing, and runs the built program and the cases.

Each line of the toolchain's gate has the time before it, and its last line is the last one here. Before that stand the
processor time by crates, which out/times has too, and the wall time and the processor time by parts.
"""
import os
import re
import subprocess
import sys

import gate

CHECKS = (
    "tests/files-check", "tests/unused", "docs/names-check", "docs/openapi-check", "docs/layers-check", "docs/trust-check",
    "tests/first-replay",
)
PROGRAM = "crates/desk/out/desk"


def call(*words):
    """How a command ends, and the lines that it printed."""
    done = subprocess.run(words, stdin=subprocess.DEVNULL, stdout=subprocess.PIPE, stderr=subprocess.STDOUT, errors="backslashreplace")
    return done.returncode, done.stdout.splitlines() or [""]


def wrong_runs():
    """Runs the program with words, files and requests, and counts the runs that are wrong."""
    status, lines = call("tests/program")
    print(*lines, sep="\n", flush=True)
    found = re.search(r"(\d+) wrong$", lines[-1])
    return int(found[1]) if found else int(status != 0)


def wrong_cases(program):
    """Runs all cases, and counts those that are not answered as they say."""
    status, (*faults, counts) = call("cases/run", "--program", program)
    print(*(fault[:2000] for fault in faults), f"{program}: {counts}", sep="\n", flush=True)
    return max(len({fault.split(":")[0] for fault in faults}), 1) if status else 0


def main():
    os.chdir(os.path.join(os.path.dirname(os.path.realpath(__file__)), ".."))
    for status, lines in map(call, CHECKS):
        if status:
            print(*lines, "0 passed, 1 failed", sep="\n")
            sys.exit(1)
    status, last, times = gate.run(["rt", "ci"])
    before = gate.processor_time()
    wrong = wrong_runs() if os.access(PROGRAM, os.X_OK) else 0
    wrong += sum(wrong_cases(each) for each in (PROGRAM, f"{PROGRAM}.by-rattle") if os.access(each, os.X_OK))
    times["desk", "runs"] += gate.processor_time() - before
    gate.report(times)
    counts = re.fullmatch(r"(\d+) passed, (\d+) failed", last)
    if wrong and counts:
        status, last = 1, f"{counts[1]} passed, {int(counts[2]) + wrong} failed"
    print(last)
    sys.exit(status if status >= 0 else 128 - status)


main()
