"""Cases in tables: tests/cases/*.tsv and tests/cases/edits/*.tsv.

A table is a file of lines with columns between tabs; its first line names the columns.

    name makefile script flags stdout stderr status     `mkedit edit FLAGS script Makefile`
    name query makefile stdout                          `mkedit QUERY Makefile`, with status 0
                                                        and nothing on standard error
    name query word makefile stdout                     the same, of this name or target alone

In a column \\\\, \\t, \\n, \\r and \\xHH stand for a backslash, a tab, a line end, a return and
the byte HH; every other byte is itself. Flags have blanks between them. A table may lack the flags,
and may have other columns, which say nothing here. Each name stands once in its table.
"""

import re
from typing import NamedTuple

from tests import TOP
from tests.lib.checks import Outcome

CASES = TOP / "tests/cases"
# The tables of runs, whose answers come from elsewhere.
RUNS = (
    "runs",
    "corner-runs",
    "random-runs",
    "alternatives",
    "edits/corners",
    "edits/random",
    "edits/random-recipes",
    "edits/words",
    "edits/every-value",
    "further-edits",
    "further-runs",
)
TABLES = ("queries", "corner-queries", "chosen-queries", "notes", "edit-notes", *RUNS)
# The option of a query that says of what alone it tells.
OPTIONS = {"vars": "--name", "rules": "--target", "recipes": "--target"}
ESCAPES = {"\\\\": b"\\", "\\t": b"\t", "\\n": b"\n", "\\r": b"\r"}
PIECE = re.compile(r"\\x[0-9A-Fa-f]{2}|\\[\\tnr]|[^\\]+")


class Case(NamedTuple):
    """The files of a case, the words that the program gets, and what has to come."""

    name: str
    files: dict
    words: list
    wanted: Outcome


def unescape(text):
    """The bytes that a column stands for. A ValueError names an escape that is none."""
    pieces = PIECE.findall(text)
    if "".join(pieces) != text:
        raise ValueError(f"a bad escape in {text!r}")
    return b"".join(map(bytes_of, pieces))


def bytes_of(piece):
    """The bytes that one piece of a column stands for."""
    if piece.startswith("\\x"):
        return bytes.fromhex(piece[2:])
    return ESCAPES.get(piece, piece.encode())


def case_of(name, row):
    """The case in a row, a dictionary from the names of the columns to their texts."""
    files = {"Makefile": unescape(row["makefile"])}
    out = unescape(row["stdout"])
    if "query" in row:
        chosen = [OPTIONS[row["query"]], unescape(row["word"]).decode()] if "word" in row else []
        return Case(name, files, [row["query"], *chosen, "Makefile"], Outcome(out, b"", 0))
    files["script"] = unescape(row["script"])
    words = ["edit", *row.get("flags", "").split(), "script", "Makefile"]
    wanted = Outcome(out, unescape(row["stderr"]), int(row["status"]))
    return Case(name, files, words, wanted)


def lines_of(path):
    """The lines of a file, cut at line feeds alone."""
    return re.sub(r"\n\Z", "", path.read_bytes().decode()).split("\n")


def rows(table):
    """The rows of a table, each with its place. A ValueError says which line is none."""
    head, *lines = [line.split("\t") for line in lines_of(CASES / f"{table}.tsv")]
    for number, line in enumerate(lines, 2):
        if len(line) != len(head):
            raise ValueError(f"{table}, line {number}: {len(line)} columns, not {len(head)}")
        yield f"{table}, line {number}", dict(zip(head, line))


def cases():
    """Every case of every table, in order. A ValueError or KeyError says which line is not one."""
    for table in TABLES:
        for place, row in rows(table):
            try:
                yield case_of(f"{table}: {row['name']}", row)
            except (ValueError, KeyError) as fault:
                raise ValueError(f"{place}: {fault}") from fault
