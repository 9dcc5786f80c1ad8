#!/usr/bin/env python3
"""Queries as rows that the prover computes.

Turns a table into a file of rows, by which the prover computes the definitions of
`crates/mk_queries/specs`. Where the file checks, the definitions give the text of each query.

    query_rows.py TABLE

tests/gate/rows.py says which files the crates keep.

A table with the columns name, query, makefile and stdout says the text of each query itself. In one that
has a column word too, the query is asked for this one name or target. No definition says what `caveats`
prints: its rows are left to the tests of the program, which run every row. A table
with the columns name, makefile and reading says the items of each makefile (see reading_rows.py), and
the texts of `vars`, `rules` and `check` are made from these: the items are laid on the logical lines of the
makefile, which are cut here; the text of an item, or its being none, says on which line it is.

row_tables.py says how a table is written.
"""

import re
import sys
from pathlib import Path

from reading_rows import rows_of
from row_tables import antt_text, bare, bytes_of, print_equations, print_lists, rows_of_table

BLANKS = b" \t"
FOLD = re.compile(rb"[ \t]*\\\r?\n(?:[ \t]*\\\r?\n)*[ \t]*")
RULE_KEEPERS = ("Recipe", "If", "Else", "Endif")


def physical_lines(text):
    """The physical lines of a text: it is divided after each line feed."""
    return re.findall(rb"[^\n]*\n|[^\n]+", text)


def without_line_end(line):
    """A line without its line end."""
    return re.sub(rb"\r?\n\Z", b"", line)


def logical_lines(text):
    """The logical lines of a text, each with the number of its first physical line."""
    lines = []
    is_continued = False
    for number, line in enumerate(physical_lines(text), 1):
        if is_continued:
            lines[-1] = (lines[-1][0], lines[-1][1] + line)
        else:
            lines.append((number, line))
        bare = without_line_end(line)
        is_continued = (len(bare) - len(bare.rstrip(b"\\"))) % 2 == 1
    return lines


def joined(line):
    """The text of a line with its folds as spaces, as far as the first word of it needs that."""
    return FOLD.sub(b" ", without_line_end(line))


def lay(text, reading):
    """Lays the items of a reading on the lines of its text: pairs of a line's number and its item."""
    laid = []
    items = list(reading)
    for number, line in logical_lines(text):
        bare = without_line_end(line)
        first = joined(line).lstrip(BLANKS)
        item = items[0] if items else None
        if item and item[0] == "Recipe":
            is_here = bare[1:] == item[1]
        elif item and len(item) == 2:
            is_here = bare == item[1]
        else:
            is_here = first != b"" and not first.startswith(b"#")
        if is_here:
            laid.append((number, line, items.pop(0)))
        elif first != b"" and not first.startswith(b"#"):
            raise ValueError(f"no item for line {number}")
    if items:
        raise ValueError(f"{len(items)} items are left")
    return laid


def first_word(line):
    """The first word of a line, as far as it is one of letters."""
    return re.match(rb"[ \t]*([^ \t]*)", joined(line)).group(1)


def prefix_after(prefix, depth, item):
    """The recipe prefix after an item: an assignment of it outside of conditionals, without modifiers
    and by an operator that sets, may change it."""
    if item[0] != "Assign" or item[2] != b".RECIPEPREFIX":
        return prefix
    _, modifiers, _, operator, value = item
    if modifiers or depth or operator not in (b"=", b":=", b"::="):
        return prefix
    if not value:
        return b"\t"
    mark = value[:1]
    return mark if 0x21 <= mark[0] <= 0x7E and mark not in b"$\\" else prefix


def assigned_text(modifiers, name, operator, value):
    """The parts of an assignment as `vars` shows them."""
    return b" ".join([*modifiers, name, operator] + ([value] if value else []))


def vars_text(laid):
    """The text of `vars`."""
    out, depth = b"", 0
    for number, _, item in laid:
        kind, *parts = item
        if kind == "Assign":
            out += b"%d:%d: %s\n" % (number, depth, assigned_text(*parts))
        elif kind == "TargetAssign":
            targets, separator, *assigned = parts
            out += b"%d:%d: %s%s %s\n" % (number, depth, b" ".join(targets), separator, assigned_text(*assigned))
        depth += (kind == "If") - (kind == "Endif")
    return out


def recipe_count(items):
    """How many recipe lines a header has, by the items after it."""
    count = 0
    for item in items:
        if item[0] not in RULE_KEEPERS:
            break
        count += item[0] == "Recipe"
    return count


def rules_text(laid):
    """The text of `rules`."""
    out, depth = b"", 0
    for at, (number, _, item) in enumerate(laid):
        kind, *parts = item
        if kind == "Header":
            targets, separator, pattern, normal, order_only, inline = parts
            count = recipe_count([item for _, _, item in laid[at + 1 :]]) + (inline is not None)
            words = [] if pattern is None else [pattern + b":"]
            words += list(normal)
            words += [b"|", *order_only] if order_only else []
            words.append(b"[%d]" % count)
            out += b"%d:%d: %s%s %s\n" % (number, depth, b" ".join(targets), separator, b" ".join(words))
        depth += (kind == "If") - (kind == "Endif")
    return out


def check_text(laid):
    """The text of `check`."""
    out, depth, defines, prefix = b"", 0, 0, b"\t"
    for number, line, item in laid:
        kind = item[0]
        if kind in ("Rough", "Opaque"):
            out += b"%d: %s\n" % (number, kind.lower().encode())
        if kind == "DefineHead":
            defines = 1
        elif kind == "Endef":
            defines = 0
        elif kind == "Body" and not line.startswith(prefix):
            defines += (first_word(line) == b"define") - (first_word(line) == b"endef")
        prefix = prefix_after(prefix, depth, item)
        depth += (kind == "If") - (kind == "Endif")
    out += b"end: conditionals %d\n" % depth if depth else b""
    out += b"end: defines %d\n" % defines if defines else b""
    return out


QUERIES = {"vars": vars_text, "rules": rules_text, "check": check_text}


def question(row):
    """What is asked of the lines of a makefile: a query, of the name or the target of the row if it has one."""
    if row["query"] == "check":
        return "check_text"
    chosen = f"(Some {antt_text(bytes_of(row, 'word'))})" if "word" in row else "None"
    return f"{row['query']}_text {chosen}"


def given(table):
    """The rows of a table that says the text of each query."""
    for row in rows_of_table(table):
        if row["query"] != "caveats":
            lines = f"(document_lines {antt_text(bytes_of(row, 'makefile'))})"
            yield row["name"], f"{question(row)} {lines}", antt_text(bytes_of(row, "stdout"))


def made(table):
    """The rows of a table of readings: the texts of `vars`, `rules` and `check`."""
    for name, text, reading in rows_of(table):
        laid = lay(text, reading)
        texts = [bare(antt_text(text_of(laid))) for text_of in QUERIES.values()]
        yield name, [bare(antt_text(text)), f"({', '.join(texts)})"]


IMPORTS = [
    ("Rattle.std.specs.Fmt", ["digits"]),
    ("Rattle.mk_tree.specs.Documents", ["document_lines"]),
    ("Rattle.mk_queries.specs.Queries", ["vars_text", "rules_text", "recipes_text", "check_text"]),
]
# The types of what a table of readings asks and is answered, and what it asks.
ROW_OF_READINGS = "List ℕ × (List ℕ × List ℕ × List ℕ)"
ASKED_OF_READINGS = (
    "let lines = document_lines row.0 in (vars_text None lines, rules_text None lines, check_text lines)"
)


def main():
    if len(sys.argv) != 2:
        sys.exit("usage: query_rows.py TABLE")
    table = Path(sys.argv[1])
    says_texts = "query" in rows_of_table(table)[0]
    where = table.name if says_texts else f"readings/{table.name}"
    title = f"Queries and their texts. Made by `tests/definitions/query_rows.py tests/cases/{where}`."
    if says_texts:
        print_equations(title, IMPORTS, given(table), unfolding="digits")
    else:
        print_lists(title, IMPORTS, made(table), ROW_OF_READINGS, ASKED_OF_READINGS, unfolding="digits")


if __name__ == "__main__":
    main()
