#!/usr/bin/env python3
"""Runs as rows that the prover computes.

Turns a table of runs with their answers into a file of lists (row_tables.py), by which the prover computes
the definitions of `crates/mk_run/specs`. Where the file checks, these give each run its outcome, its report
and its output.

    run_rows.py TABLE

tests/gate/rows.py says which files the crate keeps. Of the rows whose script is one edit alone the first for
each refusal is taken, and the first that is done: the others are rows of edits (edit_rows.py). Rows whose
script has a fault (status 2) are left out.

A table has the columns name, makefile, script, flags, stdout, stderr and status.
"""

import re
import sys

from row_tables import antt_bool, antt_text, bare, bytes_of, print_lists, rows_of_table
from script_rows import SCRIPT_IMPORTS, antt_steps, is_edit, meaning_of

# How many edits a run lets undo where the row does not say it.
DEPTH = 100
IMPORTS = [
    ("Rattle.std.specs.Fmt", ["digits"]),
    *SCRIPT_IMPORTS,
    ("Rattle.mk_history.specs.Shown", ["shown_opened"]),
    ("Rattle.mk_run.specs.ExecutedSteps", ["executed_steps"]),
    ("Rattle.mk_run.specs.Runs", ["RunResult", "result_after"]),
    ("Rattle.mk_run.specs.declared.outcome.Outcome", ["Outcome"]),
    ("Rattle.mk_run.specs.declared.outcome.Outcome.TheVariants", ["Done", "Refused"]),
]
HELPERS = """
abbrev came_to : (keep_going : Bool) → (depth : ℕ) → (makefile : List ℕ) → List Step → RunResult
came_to k depth text steps = result_after k (executed_steps k steps (shown_opened depth text))

abbrev ends : Outcome → (report : List ℕ) → (output : Option (List ℕ)) → RunResult
ends outcome report output = record { outcome = outcome; report = report; output = output }
"""


def terms_of(row, steps):
    """The terms of a row."""
    flags = row["flags"].split(" ")
    depth = int(flags[flags.index("-d") + 1]) if "-d" in flags else DEPTH
    goes_on = "-k" in flags
    report = bytes_of(row, "stderr")
    outcome = f"(Refused {count})" if (count := report.count(b"\n")) else "Done"
    output = f"(Some {antt_text(bytes_of(row, 'stdout'))})" if goes_on or not report else "None"
    asked = [antt_bool(goes_on), str(depth), bare(antt_text(bytes_of(row, "makefile"))), bare(antt_steps(steps))]
    return [*asked, f"ends {outcome} {antt_text(report)} {output}"]


def rows_of(table):
    """The rows to take."""
    seen = set()
    for row in (row for row in rows_of_table(table) if row["status"] in ("0", "1")):
        steps = meaning_of(bytes_of(row, "script"))
        if len(steps) == 1 and is_edit(steps[0]):
            refusal = re.sub(r"^\d+: ", "", row["stderr"])
            if refusal in seen:
                continue
            seen.add(refusal)
        yield row["name"], terms_of(row, steps)


def main():
    if len(sys.argv) != 2:
        sys.exit("usage: run_rows.py TABLE")
    table = sys.argv[1]
    title = f"Runs with their answers. Made by `tests/definitions/run_rows.py {table}`."
    row_type = "Bool × ℕ × List ℕ × List Step × RunResult"
    asked = "came_to row.0 row.1 row.2 row.3"
    print_lists(title, IMPORTS, rows_of(table), row_type, asked, unfolding="digits", helpers=HELPERS)


if __name__ == "__main__":
    main()
