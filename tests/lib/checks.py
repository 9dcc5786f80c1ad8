"""What the tests of the program share: one run of it, what the run gave, and a tally of checks."""

import argparse
import contextlib
import os
import resource
import signal
import subprocess
from pathlib import Path
from typing import NamedTuple

from tests import TOP

# The program that `make` builds.
BUILT = "crates/mkedit/out/bin/mkedit"
# No run here needs more than a second or so; one that takes this long hangs.
SECONDS = 60
NOBODY = 65534
# What a run may be bounded by: bytes, and the number of files that are open at once.
BOUNDS = {
    "memory": resource.RLIMIT_AS,
    "greatest_file": resource.RLIMIT_FSIZE,
    "files": resource.RLIMIT_NOFILE,
}


class Outcome(NamedTuple):
    """The bytes on a run's two outputs, and its exit status: below 0 the signal that ended it."""

    stdout: bytes
    stderr: bytes
    status: int


HANGS = Outcome(b"", b"(no end)", -9)


def brief(value):
    """A value in one line, cut in its middle where it is long."""
    if isinstance(value, bytes) and len(value) > 300:
        return f"{value[:200]!r} .. {value[-50:]!r} ({len(value)} bytes)"
    return repr(value)


def differences(got, wanted):
    """Says what differs between two outcomes: nothing where they are equal."""
    pairs = zip(("standard output", "standard error", "status"), got, wanted)
    return [f"{what} is {brief(a)}, wanted {brief(b)}" for what, a, b in pairs if a != b]


class Tally:
    """Counts checks, and prints a line for each that fails."""

    def __init__(self):
        self.passed = 0
        self.failed = 0

    def add(self, name, problems):
        if problems:
            self.failed += 1
            print(f"FAILED {name}: {'; '.join(problems)}", flush=True)
        else:
            self.passed += 1

    def __str__(self):
        return f"{self.passed} passed, {self.failed} failed"


@contextlib.contextmanager
def small_stack(size=1_048_576):
    """Within it a program that is started has a stack of so many bytes."""
    soft, hard = resource.getrlimit(resource.RLIMIT_STACK)
    resource.setrlimit(resource.RLIMIT_STACK, (size, hard))
    try:
        yield
    finally:
        resource.setrlimit(resource.RLIMIT_STACK, (soft, hard))


def preparation(closed, bounds, nobody):
    """What a process does before it becomes the program.

    None where that is nothing: a process without anything to prepare starts several times as fast.
    """

    def prepare():
        for descriptor in closed:
            os.close(descriptor)
        for bound, size in bounds.items():
            resource.setrlimit(bound, (size, size))
        if resource.RLIMIT_FSIZE in bounds:
            signal.signal(signal.SIGXFSZ, signal.SIG_IGN)
        if nobody and os.geteuid() == 0:
            os.setgroups([])
            os.setgid(NOBODY)
            os.setuid(NOBODY)

    return prepare if closed or bounds or nobody else None


class Program:
    """The built program."""

    def __init__(self, path):
        self.path = path

    def run(self, words, folder, **how):
        """Runs the program in a folder.

        given: the bytes on its standard input, by default none. closed: the descriptors that it
        starts without. memory: the bytes that it may have mapped. greatest_file: those of a file
        that it writes; it starts with the signal ignored that would end it there. files: how many
        it may have open, the standard streams among them. nobody: run as the user nobody, where
        this process is root. meanwhile: what is called with the process once it has started.
        stdin, stdout, stderr: other streams; an outcome shows such an output as empty.
        """
        given, closed = how.pop("given", b""), how.pop("closed", ())
        nobody, meanwhile = how.pop("nobody", False), how.pop("meanwhile", None)
        bounds = {BOUNDS[it]: how.pop(it) for it in BOUNDS if it in how}
        streams = {**{it: subprocess.PIPE for it in ("stdin", "stdout", "stderr")}, **how}
        first = preparation(closed, bounds, nobody)
        process = subprocess.Popen([self.path, *words], cwd=folder, preexec_fn=first, **streams)
        try:
            if meanwhile:
                meanwhile(process)
            given = given if streams["stdin"] == subprocess.PIPE else None
            out, err = process.communicate(given, timeout=SECONDS)
        except subprocess.TimeoutExpired:
            process.kill()
            process.communicate()
            return HANGS
        return Outcome(out or b"", err or b"", process.returncode)


def program_at(path):
    """The program with this path. An ArgumentTypeError says that it is not there."""
    path = Path(path).resolve()
    if not (path.is_file() and os.access(path, os.X_OK)):
        raise argparse.ArgumentTypeError(f"{path} is not there: make builds it")
    return Program(path)


def usual_path(built=BUILT):
    """Where the program is if nobody says it: $MKEDIT, else what was built."""
    return os.environ.get("MKEDIT", str(TOP / built))


def command(module, description, built=BUILT):
    """A parser of the words of `python3 -m MODULE`, one of which is the program that is tested."""
    parser = argparse.ArgumentParser(prog=f"python3 -m {module}", description=description)
    how = {"nargs": "?", "type": program_at, "default": usual_path(built)}
    parser.add_argument("program", help=f"the program (default: $MKEDIT, else {built})", **how)
    return parser
