#!/usr/bin/env python3
"""Readings of texts as equations that the checker computes.

Turns a table of texts and their readings into a file of equations, by which the checker computes the
definitions of `crates/mk_class/specs` and, of the reading itself, `crates/mk_tree/specs`. Where the
file checks, the definitions give each reading.

    reading_rows.py TABLE

tests/gate/rows.py says which files the crate keeps.

A table (row_tables.py) has the columns name, makefile and reading. A reading is a Python tuple of items,
one for each line that is neither blank nor a comment:

    Assign          modifiers, name, operator, value
    TargetAssign    targets, separator, modifiers, name, operator, value
    Header          targets, separator, pattern or None, normal prerequisites, order-only ones,
                    inline recipe or None
    Recipe          the text after the first byte
    and any other class with the text of its line
"""

import ast
import sys
from pathlib import Path

from row_tables import antt_list, antt_text, antt_texts, bytes_of, print_equations, rows_of_table, unescape

FLAVORS = {
    b"=": "Recursive",
    b":=": "Simple",
    b"::=": "PosixSimple",
    b":::=": "Immediate",
    b"?=": "Conditional",
    b"+=": "Append",
    b"!=": "Shell",
}
SEPARATORS = {
    b":": "SingleColon",
    b"::": "DoubleColon",
    b"&:": "GroupedColon",
    b"&::": "GroupedDoubleColon",
}
MODIFIERS = {b"override": "Override", b"export": "Export", b"private": "Private"}


def antt_assigned(modifiers, name, operator, value):
    """The parts of an assignment as a term."""
    terms = [antt_list([MODIFIERS[it] for it in modifiers]), antt_text(name), FLAVORS[operator], antt_text(value)]
    return "(Sets " + " ".join(terms) + ")"


def antt_item(item):
    """An item of a reading as a term."""
    kind, *fields = item
    if kind == "Assign":
        terms = [antt_assigned(*fields)]
    elif kind == "TargetAssign":
        targets, separator, *assigned = fields
        terms = [antt_texts(targets), SEPARATORS[separator], antt_assigned(*assigned)]
    elif kind == "Header":
        targets, separator, pattern, normal, order_only, inline = fields
        terms = [
            antt_texts(targets),
            SEPARATORS[separator],
            antt_texts([] if pattern is None else [pattern]),
            antt_texts(normal),
            antt_texts(order_only),
            "None" if inline is None else f"(Some {antt_text(inline)})",
        ]
    else:
        (text,) = fields
        terms = [antt_text(text)]
    return " ".join([kind, *terms])


def rows_of(table):
    """The names, texts and readings of a table."""
    for columns in rows_of_table(table):
        yield columns["name"], bytes_of(columns, "makefile"), ast.literal_eval(unescape(columns["reading"]))


IMPORTS = [
    ("Rattle.mk_class.specs.declared.assignment.Flavor.TheVariants", list(FLAVORS.values())),
    ("Rattle.mk_class.specs.declared.assignment.Modifier.TheVariants", list(MODIFIERS.values())),
    ("Rattle.mk_class.specs.declared.rule.Separator.TheVariants", list(SEPARATORS.values())),
    ("Rattle.mk_tree.specs.Readings", ["reading"]),
    ("Rattle.mk_tree.specs.Items", ["Sets"]),
    (
        "Rattle.mk_tree.specs.Items.Item",
        ["Assign", "TargetAssign", "Header", "Recipe", "Endef", "Body", "Opaque", "DefineHead", "If", "Else", "Endif"]
        + ["Directive", "Rough"],
    ),
]


def main():
    if len(sys.argv) != 2:
        sys.exit("usage: reading_rows.py TABLE")
    table = Path(sys.argv[1])
    title = f"Texts and their readings. Made by `tests/definitions/reading_rows.py tests/cases/readings/{table.name}`."
    rows = ((name, f"reading {antt_text(text)}", " ∷ ".join([*map(antt_item, items), "[]"])) for name, text, items in rows_of(table))
    print_equations(title, IMPORTS, rows)


if __name__ == "__main__":
    main()
