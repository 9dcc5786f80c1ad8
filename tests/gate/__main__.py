"""The test of a change.

    python3 -m tests.gate rt ci    `make check`: the lint, the stored rows, `rt ci`, the tests of the program
    python3 -m tests.gate          `make test`: the same without `rt ci`, and so without a proof, in minutes

`rt ci` proves every crate with its tests, has the prover refuse each must-fail edit, and runs the tests and
the programs. Here an edit that does not apply or compile is a failure too. `rt ci` leaves the program, which
is then linked as `make` links it, and tested; so is the library for C. The quick test is of the program that `tools/try` builds, which
checks itself while it runs. It leaves out tests that take minutes over that program.

A part that fails does not end the run. A part without its counts is one failure. The last line is the sum,
'N passed, M failed'; the line above it says how long each part took. The status is 0 only where nothing
failed.
"""

import os
import re
import subprocess
import sys
import time
from typing import NamedTuple

from tests import TOP
from tests.lib.checks import BUILT

PROVED, TRIED = "crates/mkedit/out/mkedit", "crates/mkedit/out/tried/mkedit"
ARCHIVE, LIBRARY = (f"crates/mkedit_c/out/{it}" for it in ("libmkedit_c.a", "lib"))
COUNTS = re.compile(r"(\d+) passed, (\d+) failed\n?")
# What rt ci says of a must-fail edit that does not apply or compile. It fails nothing there, and shows nothing.
BAD_EDIT = ": BAD EDIT: "


class Part(NamedTuple):
    """What a part of the test came to, and the seconds that it took, on the clock and of the processors."""

    name: str
    passed: int
    failed: int
    clock: float = 0
    processors: float = 0


def run(name, *words):
    """Runs a command, shows what it says, and returns what the counts in its last line come to.

    Each bad edit that it names is one failure more.
    """
    print(f"== {name}", flush=True)
    start, last, bad = time.monotonic(), "", 0
    try:
        process = subprocess.Popen(words, cwd=TOP, stdout=subprocess.PIPE, text=True, errors="replace")
    except OSError as fault:
        print(f"{words[0]}: {fault.strerror}", flush=True)
        return Part(name, 0, 1)
    for last in process.stdout:
        print(last, end="", flush=True)
        bad += BAD_EDIT in last
    _, process.returncode, usage = os.wait4(process.pid, 0)
    found = COUNTS.fullmatch(last)
    passed, failed = map(int, found.groups()) if found else (0, 1)
    failed = failed + bad or int(process.returncode != 0)
    return Part(name, passed, failed, time.monotonic() - start, usage.ru_utime + usage.ru_stime)


def module(name, *words):
    return run(name, sys.executable, "-B", "-m", f"tests.{name}", *words)


def program(path, is_made, *words):
    """The tests of the program; where there is none, that is one failure."""
    if is_made and (TOP / path).is_file():
        return module("program", *words, path)
    print(f"there is no {path} to be tested", flush=True)
    return Part("program", 0, 1)


def proved(command):
    """Runs rt ci, and tests the program that it has built."""
    start, built = time.time(), TOP / PROVED
    yield run(" ".join(command), *command)
    is_new = built.is_file() and built.stat().st_mtime >= start
    if is_new and not subprocess.run(["tools/archive", ".", "mkedit_c"], cwd=TOP).returncode:
        subprocess.run(["tools/library", ARCHIVE, LIBRARY], cwd=TOP)
    yield program(BUILT, is_new and not subprocess.run(["tools/link", PROVED, BUILT], cwd=TOP).returncode)


def main():
    command = sys.argv[1:]
    # (the program of the quick test is built beside the lint)
    build = None if command else subprocess.Popen(["make", "-s", TRIED], cwd=TOP)
    parts = [module(it) for it in ("gate.lint", "gate.test_lint", "gate.rows")]
    parts += proved(command) if command else [program(TRIED, not build.wait(), "--quick")]
    failed = sum(it.failed for it in parts)
    print("seconds on the clock (of the processors):", end=" ")
    print(", ".join(f"{it.name} {it.clock:.0f} ({it.processors:.0f})" for it in parts))
    print(f"{sum(it.passed for it in parts)} passed, {failed} failed", flush=True)
    return 1 if failed else 0


if __name__ == "__main__":
    sys.exit(main())
