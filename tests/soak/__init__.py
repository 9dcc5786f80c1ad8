"""Random work: makefiles and scripts drawn at random, and a judge of what the program does with them.

The judge shares no line with the program. It reads makefiles by tests/lib/reading.py, and scripts and
arguments by the programs of tests/definitions, which were written from the rules in words.

    document.py    a makefile: its lines with their places, and the parts that edits mean
    edits.py       the edits: when they are refused, what they replace, their stated change
    each_line.py   the edits of several lines that are checked by reading
    whole_lines.py the edits of whole lines
    session.py     undo, redo and groups
    judge.py       what a run and a query have to print
    vocabulary.py  the words that makefiles and scripts are made of
    drawing.py     choices that all drawing shares
    makefiles.py   makefiles drawn at random
    filling.py     lines that make a makefile long enough for an index
    scripts.py     scripts drawn at random for a makefile
    cases.py       a case, which follows from a seed and a number, and what is wrong with it
    shrinking.py   a smaller case that is still wrong
    rows.py        a case as rows of tests/cases
    tables.py      the judge beside the tables of tests/cases
    work.py        case after case, with a count of what they meet
"""

import sys
from pathlib import Path

# The programs there import each other by their bare names.
sys.path.append(str(Path(__file__).resolve().parent.parent / "definitions"))
