"""What afl-fuzz begins with: short inputs from the tables of tests/cases, and a dictionary."""

import re

import tests.soak  # noqa: F401  (it says where script_rows is)
from script_rows import CALLS, EDITS, ENDS, LAST, SITES, UNNUMBERED
from tests.lib.reading import CONDITIONALS as CONDITIONAL_WORDS
from tests.lib.reading import PREFIX_NAME
from tests.lib.tables import rows, unescape
from tests.soak import vocabulary
from tests.soak.cases import USUAL_DEPTH, Case

from .inputs import QUERIES, input_of

# Each has makefiles, scripts and reports.
RUNS = ("runs", "corner-runs", "edits/corners", "further-edits")
MAKEFILES = ("queries", "corner-queries", "readings/worked")
# A makefile for the scripts of a table that has no makefiles.
TEXT = b"X = 1\na: b\n\tc\n"
LONGEST = 60
OTHER_COMMANDS = (
    b"operator assign rule recipe-set recipe-del recipe-insert recipe-replace recipe-remove insert nth all".split()
)
COMMANDS = [*EDITS, *UNNUMBERED, *ENDS, *LAST, *SITES, *CALLS, *OTHER_COMMANDS]
WORDS = [
    *(it + b" " for it in COMMANDS if it not in CALLS),
    *(it + b"\n" for it in CALLS),
    *(PREFIX_NAME, PREFIX_NAME + b" = ", b"\n%%\n", b"nth 2 ", b"%%1\n", b"\n\t", b"4294967295", b"<<E\n", b"\nE\n"),
    *(b"\n%%%%!%d\n" % it for it in (0, 3, 6, 9, 12, 15, 18, 24)),
    *(it + b" " for it in CONDITIONAL_WORDS),
    *(b"else\n", b"endif\n", b"define ", b"endef\n", b"export", b"include ", b"undefine "),
    *(vocabulary.NAMES + vocabulary.TARGETS + vocabulary.VALUES + vocabulary.ODD_VALUES),
    *(vocabulary.OPERATORS + vocabulary.MODIFIERS + vocabulary.HOSTILE + vocabulary.ROUGH),
    *(vocabulary.OPAQUE + vocabulary.DIRECTIVES + vocabulary.CONDITIONALS + vocabulary.COMMENTS),
]


def commands_of(script):
    """The words that begin the lines of a script, without those of `nth N`."""
    lines = re.sub(rb"(?m)^[ \t]*nth[ \t]+\S+[ \t]+", b"", script).splitlines()
    return frozenset(line.split()[0].strip(b'"') for line in lines if line.split())


def runs():
    """The runs of tables, each with what it does: its commands, and its report without numbers."""
    for table in RUNS:
        for _, row in rows(table):
            script, flags = unescape(row["script"]), row.get("flags", "").split()
            depth = int(flags[flags.index("-d") + 1]) if "-d" in flags else USUAL_DEPTH
            case = Case(unescape(row["makefile"]), script, depth, True, QUERIES[0])
            yield (commands_of(script), re.sub(r"\d+", "", row["stderr"])), input_of(case)
    for table in ("scripts/corners", "scripts/blocks"):
        for _, row in rows(table):
            case = Case(TEXT, unescape(row["script"]), USUAL_DEPTH, True, QUERIES[0])
            yield (commands_of(case.script), ""), input_of(case)


def inputs():
    """For each thing that the runs do the shortest input that does it, and short makefiles."""
    shortest = {}
    for what, data in runs():
        if data is not None:
            shortest[what] = min(shortest.get(what, data), data, key=len)
    makefiles = {unescape(row["makefile"]) for table in MAKEFILES for _, row in rows(table)}
    found = {*shortest.values(), *makefiles}
    return sorted((it for it in found if 0 < len(it) <= LONGEST), key=lambda it: (len(it), it))


def dictionary():
    """The words in the form that afl-fuzz reads."""
    words = sorted({it for it in WORDS if it})
    return "".join('"{}"\n'.format("".join(f"\\x{it:02x}" for it in word)) for word in words)
