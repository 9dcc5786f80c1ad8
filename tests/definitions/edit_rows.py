#!/usr/bin/env python3
"""Edits as rows that the prover computes.

Turns a table of makefiles and scripts with their answers into a file of lists (row_tables.py), by which
the prover computes the definitions of `crates/mk_edit_language/specs`. Where the file checks, the
definitions give each answer: of an accepted edit the text after it, and that the stated change of the
reading is what this text reads as; of a refused one the refusal. Where the table says them, also the
spans of an accepted edit, its cost (how many lines it reads again at most) and its size (how many lines
it takes out or puts others in place of, at most), and the cost of a refused one.

    edit_rows.py TABLE

Rows whose script is not one edit alone are left out. tests/gate/rows.py says which files the crate mk_rows
keeps.

A table has the columns name, makefile, script, stdout, stderr and status, and perhaps more. The columns
spans, cost and size may be there too, all three together: a span is its start, its end and the new bytes
in hexadecimal between colons, with blanks between spans; the spans and the size of a refused edit are
empty.
"""

import sys

from row_tables import antt_list, antt_text, bare, bytes_of, print_lists, rows_of_table, unescape
from script_rows import EDIT_IMPORTS, antt_edit, is_edit, meaning_of

FIELDS = {
    "place": "Place",
    "name": "Name",
    "value": "Value",
    "targets": "Targets",
    "prereqs": "Prereqs",
    "target": "Target",
    "word": "Word",
    "line": "Line",
    "old": "Old",
    "new": "New",
    "from": "From",
    "to": "To",
    "block": "Block",
}
# The refusals that an edit may have, by number.
REFUSALS = dict(
    enumerate(
        "BadArgument Reserved RecipePrefix NoSuch Ambiguous Absent Already Taken SharedRule Straddles OpenValue"
        " OpenLine OpenDefine Leans TooLong".split(),
        1,
    )
)
REFUSALS[21] = "Misread"
# The edits that read no line where another cause than `Misread` holds, and the change of values that does not.
CHECKED = (
    "PrependValue ReplaceWord InsertBefore InsertAfter SubstituteValue SetOperator SetValueIf ReplacePrereq"
    " CommentOut Uncomment ChangeEach SubstValues SubstRecipe SubstRecipes"
).split()
CHECKED_CHANGE = "SetIf"


def antt_refusal(report):
    """The refusal of a report line as a term."""
    number, _, *detail = report.rstrip("\n").split(": refused ")[1].split(" ")
    name = REFUSALS[int(number)]
    if name == "BadArgument":
        return f"(BadArgument field.{FIELDS[detail[0]]})"
    return f"({name} {detail[0]})" if detail else name


def antt_span(span):
    """A span as a term."""
    start, end, new = span.split(":")
    return f"span {int(start)} {int(end)} {antt_text(bytes.fromhex(new))}"


def is_checked(name, *arguments):
    """Whether an edit reads no line where another cause than `Misread` holds."""
    return name in CHECKED or name == "ChangeValues" and arguments[1][0] == CHECKED_CHANGE


def antt_not_made(row, edit, refusal):
    """The refusal of a row's edit, and its cost where the table and the definitions say it, as a term."""
    if "cost" not in row:
        return f"Refused {refusal}"
    is_tried = not is_checked(*edit) or refusal == "Misread"
    return f"NotMade {int(row['cost'])} {refusal}" if is_tried else f"NotTried {refusal}"


def answer_of(row, edit):
    """The answer of a row, which has this edit, as a term."""
    report = unescape(row["stderr"])
    if report:
        return antt_not_made(row, edit, antt_refusal(report))
    outcome = f"Becomes {antt_text(bytes_of(row, 'stdout'))}"
    if "spans" not in row:
        return outcome
    spans = antt_list([antt_span(it) for it in row["spans"].split(" ")])
    return f"Accepted {int(row['cost'])} {int(row['size'])} {spans} ({outcome})"


def rows_of(table):
    """The rows whose script is one edit alone, and whose run does not fail as a whole."""
    for row in rows_of_table(table):
        steps = meaning_of(bytes_of(row, "script")) if row["status"] in ("0", "1") else []
        if len(steps) == 1 and is_edit(steps[0]):
            _, *edit = steps[0]
            yield row["name"], [bare(antt_text(bytes_of(row, "makefile"))), bare(antt_edit(*edit)), answer_of(row, edit)]


IMPORTS = [
    *EDIT_IMPORTS,
    ("Rattle.mk_edit_language.specs.declared.refusal.Refusal.TheVariants", list(REFUSALS.values())),
    ("Rattle.mk_edit_language.specs.declared.refusal.Field.TheVariants", "field"),
    ("Rattle.mk_rows.proofs.edits.Outcomes", "outcome Outcome account Account span Becomes Refused Accepted NotMade NotTried".split()),
]


def main():
    if len(sys.argv) != 2:
        sys.exit("usage: edit_rows.py TABLE")
    table = sys.argv[1]
    rows = list(rows_of(table))
    has_account = "cost" in rows_of_table(table)[0]
    outcome = "account" if has_account else "outcome"
    title = f"Edits with their answers. Made by `tests/definitions/edit_rows.py {table}`."
    print_lists(title, IMPORTS, rows, f"List ℕ × Edit × {outcome.capitalize()}", f"{outcome} row.0 row.1")


if __name__ == "__main__":
    main()
