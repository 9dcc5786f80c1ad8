#!/usr/bin/env python3
"""Rows of edits for the program of crates/edit_rows.

Puts the tables of edits, with the answers that they expect, into the form that the program reads. It
runs each row through the library, and prints which rows it answers in another way.

    plan_rows.py    the rows, which the crate keeps as its file stdin

The tables are those of tests/cases/edits, and of tests/cases runs.tsv, random-runs.tsv, further-edits.tsv and
further-runs.tsv; and `long`, which is written here. A name given last, as `corners`, takes that table alone.
The rows whose script or command line has a fault, so that no command runs, are left out (status 2), and so
are those with a word before a command, `try` or `or`.

A line of two columns, `table` and a name, begins a table. Each line below it is a row of the columns

    row         this word
    name        the row's name
    depth       how many edits can be undone
    makefile    the text before
    expected    the text after all commands, or `-` where the table does not say it: the run stopped at a
                refusal
    cost        of a row of one edit, how many lines it reads again at most, or `-`
    size        of an accepted edit, how many lines it takes out or puts others in place of at most, or `-`

and then two columns for each command, up to the refusal that ended the run: its reply, which is `done` or
the number, the name and the detail of a refusal between blanks, and its line in the script.

Columns stand between tabs. In a text \\\\, \\t, \\n and \\r stand for a backslash, a tab, a line end and a
return, and \\xHH for the byte HH: of bytes that are not printable ASCII, and of a text that is one `-`.
A number after × says how often the text after it stands there, up to the next ×.
"""

import re
import sys
from pathlib import Path

from row_tables import bytes_of, rows_of_table, unescape
from script_rows import commands_of, meaning_of

CASES = Path(__file__).resolve().parent.parent / "cases"
TABLES = {
    "corners": CASES / "edits" / "corners.tsv",
    "random": CASES / "edits" / "random.tsv",
    "words": CASES / "edits" / "words.tsv",
    "every-value": CASES / "edits" / "every-value.tsv",
    "random-recipes": CASES / "edits" / "random-recipes.tsv",
    "runs": CASES / "runs.tsv",
    "random-runs": CASES / "random-runs.tsv",
    "further-edits": CASES / "further-edits.tsv",
    "further-runs": CASES / "further-runs.tsv",
}
# A run over a makefile that is long enough for an index of its lines.
LONG = [
    ("row", "edits-by-an-index", "100", r"A=1\n×1100 B=1\n×1 C=1\nt: b\n", r"A=2\n×1100 B=1\n×1 C=3\nt: b\nD := 5\n", "-", "-")
    + ("done", "set A 2", "done", "set C 3", "done", "assign bottom D := 4", "done", "set D 5")
]
# How many edits the program lets undo where the row does not say it.
DEPTH = 100
# The status of a run that a fault of the script or the command line ended before any command.
BAD_RUN = "2"
ESCAPES = {9: "\\t", 10: "\\n", 13: "\\r", 92: "\\\\"}
REPORT = re.compile(r"(\d+): refused (.*)")


def escaped(byte):
    """A byte as a column has it."""
    plain = 0x20 <= byte < 0x7F and byte not in ESCAPES
    return chr(byte) if plain else ESCAPES.get(byte, f"\\x{byte:02x}")


def escape(text):
    """A text as a column has it."""
    return "\\x2d" if text == b"-" else "".join(map(escaped, text))


def above_others(line):
    """A line of a script with its line end; one that closes with a return has one more, which is no part of it."""
    return line + (b"\r\n" if line.endswith(b"\r") else b"\n")


def command_columns(row, goes_on):
    """The replies and the commands of a row, up to the refusal that ended the run."""
    refused = {int(number): reply for number, reply in REPORT.findall(unescape(row["stderr"]))}
    columns = []
    for number, (*lines, last), _ in commands_of(bytes_of(row, "script")):
        columns += [refused.pop(number, "done"), escape(b"".join(map(above_others, lines)) + last)]
        if columns[-2] != "done" and not goes_on:
            break
    if refused:
        raise ValueError(f"{row['name']}: a refusal of no command")
    return columns


def row_columns(row):
    """The columns of a row for the program."""
    flags = row.get("flags", "").split()
    goes_on = "-k" in flags
    depth = int(flags[flags.index("-d") + 1]) if "-d" in flags else DEPTH
    commands = command_columns(row, goes_on)
    written = goes_on or row["status"] == "0"
    expected = escape(bytes_of(row, "stdout")) if written else "-"
    limits = [row.get(name) or "-" for name in ("cost", "size")]
    return ["row", row["name"], str(depth), escape(bytes_of(row, "makefile")), expected, *limits, *commands]


def has_commands_alone(row):
    """Whether each step of a row is a command alone."""
    steps = meaning_of(bytes_of(row, "script"))
    return all(isinstance(step, tuple) and step[0] != "try" for step in steps)


def rows_of(table):
    """The rows of a table in which the commands run."""
    return [row for row in rows_of_table(table) if row["status"] != BAD_RUN and has_commands_alone(row)]


def print_rows(name):
    """Prints the rows of a table."""
    print("table", name, sep="\t")
    for columns in LONG if name == "long" else map(row_columns, rows_of(TABLES[name])):
        print(*columns, sep="\t")


def main():
    known = [*TABLES, "long"]
    names = sys.argv[1:] or known
    if not set(names) <= set(known):
        sys.exit(f"usage: plan_rows.py [{'|'.join(known)}]..")
    for name in names:
        print_rows(name)


if __name__ == "__main__":
    main()
