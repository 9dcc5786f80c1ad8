"""Builds what afl-fuzz runs: the program with a count at each edge of its code, and harness.c.

Nothing is proved for it (tests/unproved.py). The toolchain's own clang compiles the program with the counts,
and afl++ links it.
"""

import shutil
from pathlib import Path

from tests.unproved import TOP, archives, call, compile_program

HARNESS = Path(__file__).resolve().parent / "harness.c"
INSTRUMENTED = (
    *("-march=x86-64", "-O2"),
    *("-mllvm", "-trap-unreachable", "-fsanitize-coverage=trace-pc-guard"),
)
# What harness.c calls itself, and the program through it.
WRAPPED = "-Wl,--wrap=main,--wrap=malloc,--wrap=realloc"


def newest_source():
    """When a source was last written to."""
    return max(it.stat().st_mtime for it in [HARNESS, *TOP.glob("crates/*/src/**/*.rt")])


def built(folder):
    """The program in a folder, which is built there anew where it is older than a source."""
    program = folder / "program"
    if not program.is_file() or program.stat().st_mtime < newest_source():
        shutil.rmtree(folder, ignore_errors=True)
        folder.mkdir(parents=True)
        build(folder)
    return program


def build(folder):
    """Builds the program in an empty folder."""
    compile_program(folder, INSTRUMENTED)
    words = ["afl-clang-fast", "-O2", HARNESS, "module.o", *archives(), WRAPPED, "-o", "program"]
    call(words, folder, AFL_QUIET="1")
