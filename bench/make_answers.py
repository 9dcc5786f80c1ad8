#!/usr/bin/env python3
"""Writes what each query has to print of a makefile that make_makefile.py made.

    make_answers.py MAKEFILE

The answer to `mkedit vars` goes to MAKEFILE.vars, and so on. tests/lib/reading.py gives it, which shares
no line with the program and is slow. So the makefile is cut where nothing is open, behind includes
and assignments for targets, and each processor reads some of the pieces: 16 MB take about a minute.
"""

import re
import sys
from itertools import accumulate
from multiprocessing import Pool
from pathlib import Path

sys.dont_write_bytecode = True
sys.path.insert(0, str(Path(__file__).resolve().parent.parent))
# (below the two, so that no __pycache__ is left, and the package tests is found)
from tests.lib.reading import QUERIES, Context, read  # noqa: E402

PIECE = re.compile(rb"(?s).+?(?:\n-include [^\n]*\n|\n\w+: CFLAGS \+= [^\n]*\n|\Z)")
NUMBER = re.compile(rb"(?m)^\d+")


def answers_of(piece):
    """What the lines below a piece are read in, and what the queries print of it."""
    return read(piece)[1], [query(piece) for query in QUERIES.values()]


def moved(answer, lines):
    """An answer about a piece that so many lines stand above."""
    return NUMBER.sub(lambda it: b"%d" % (int(it[0]) + lines), answer)


def main():
    makefile = Path(sys.argv[1])
    pieces = PIECE.findall(makefile.read_bytes())
    above = [0, *accumulate(it.count(b"\n") for it in pieces)]
    with Pool() as pool:
        below, answers = zip(*pool.map(answers_of, pieces))
    if any(it != Context() for it in below[:-1]):
        sys.exit("make_answers.py: something is open between two pieces")
    for query, parts in zip(QUERIES, zip(*answers)):
        text = b"".join(map(moved, parts, above))
        makefile.with_name(f"{makefile.name}.{query}").write_bytes(text)


if __name__ == "__main__":
    main()
