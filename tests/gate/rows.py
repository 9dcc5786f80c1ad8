"""The files of rows that are stored, and whether each is what its script makes.

The tables of tests/cases and the scripts of tests/definitions make files that the crates store: the
equations that the prover computes, and the rows that the program of crates/edit_rows runs. This list
says which script makes which file of which table. It also has what the programs of rows print if no row
differs.

    python3 -m tests.gate.rows            makes each, compares it with the file that is stored, and says
                                          which differ; the last line is 'N passed, M failed', and the
                                          status is 0 where none failed
    python3 -m tests.gate.rows --write    stores each

Run the second after a table or a script has changed; the first is a part of every test.
"""

import subprocess
import sys
from typing import NamedTuple

from tests import TOP


class Stored(NamedTuple):
    """A stored file, by its crate and its place there, and the words that make it."""

    crate: str
    name: str
    words: str

    @property
    def path(self):
        return TOP / "crates" / self.crate / self.name


STORED = (
    Stored("mk_reading_rows", "proofs/RandomLines.antt", "line_rows.py 250 1"),
    Stored("mk_reading_rows", "proofs/RandomArguments.antt", "argument_rows.py 500 1"),
    Stored("mk_reading_rows", "proofs/WorkedReadings.antt", "reading_rows.py tests/cases/readings/worked.tsv"),
    Stored("mk_reading_rows", "proofs/RandomReadings.antt", "reading_rows.py tests/cases/readings/random.tsv"),
    Stored("mk_rows", "proofs/edits/WorkedEdits.antt", "edit_rows.py tests/cases/runs.tsv"),
    Stored("mk_rows", "proofs/edits/RandomEdits.antt", "edit_rows.py tests/cases/edits/random.tsv"),
    Stored("mk_rows", "proofs/edits/CornerEdits.antt", "edit_rows.py tests/cases/edits/corners.tsv"),
    Stored("mk_rows", "proofs/edits/WordEdits.antt", "edit_rows.py tests/cases/edits/words.tsv"),
    Stored("mk_rows", "proofs/edits/EveryValue.antt", "edit_rows.py tests/cases/edits/every-value.tsv"),
    Stored("mk_rows", "proofs/edits/RandomRecipes.antt", "edit_rows.py tests/cases/edits/random-recipes.tsv"),
    Stored("mk_rows", "proofs/edits/FurtherEdits.antt", "edit_rows.py tests/cases/further-edits.tsv"),
    Stored("mk_rows", "proofs/scripts/WorkedScripts.antt", "script_rows.py tests/cases/runs.tsv"),
    Stored("mk_rows", "proofs/scripts/RandomScripts.antt", "script_rows.py tests/cases/random-runs.tsv"),
    Stored("mk_rows", "proofs/scripts/CornerScripts.antt", "script_rows.py tests/cases/scripts/corners.tsv"),
    Stored("mk_rows", "proofs/scripts/BlockScripts.antt", "script_rows.py tests/cases/scripts/blocks.tsv"),
    Stored("mk_rows", "proofs/scripts/AlternativeScripts.antt", "script_rows.py tests/cases/alternatives.tsv"),
    Stored("mk_rows", "proofs/scripts/FurtherScripts.antt", "script_rows.py tests/cases/further-runs.tsv tests/cases/further-edits.tsv"),
    Stored("mk_rows", "proofs/runs/WorkedRuns.antt", "run_rows.py tests/cases/runs.tsv"),
    Stored("mk_rows", "proofs/runs/AlternativeRuns.antt", "run_rows.py tests/cases/alternatives.tsv"),
    Stored("mk_rows", "proofs/runs/FurtherRuns.antt", "run_rows.py tests/cases/further-runs.tsv"),
    Stored("mk_queries", "proofs/WorkedRows.antt", "query_rows.py tests/cases/queries.tsv"),
    Stored("mk_queries", "proofs/ChosenRows.antt", "query_rows.py tests/cases/chosen-queries.tsv"),
    Stored("mk_rows", "proofs/queries/WorkedReadings.antt", "query_rows.py tests/cases/readings/worked.tsv"),
    Stored("mk_rows", "proofs/queries/RandomReadings.antt", "query_rows.py tests/cases/readings/random.tsv"),
    Stored("edit_rows", "stdin", "plan_rows.py"),
    Stored("edit_rows", "stdout", "answer_rows.py edit_rows"),
    Stored("document_rows", "stdout", "answer_rows.py document_rows"),
    Stored("run_rows", "stdout", "answer_rows.py run_rows"),
    Stored("repl_rows", "stdout", "answer_rows.py repl_rows"),
)


def made(stored):
    """What the script prints; a ValueError says why it prints nothing that counts."""
    script, *words = stored.words.split()
    command = [sys.executable, "-B", f"tests/definitions/{script}", *words]
    process = subprocess.run(command, cwd=TOP, stdout=subprocess.PIPE, stderr=subprocess.PIPE)
    if process.returncode != 0 or not process.stdout:
        told = process.stderr.decode(errors="replace").strip().split("\n")[-1]
        raise ValueError(f"tests/definitions/{stored.words}: status {process.returncode}: {told}")
    return process.stdout


def problem_of(stored, write):
    """Makes a file, stores it if asked to, and says what is wrong; nothing where all is well."""
    try:
        content = made(stored)
        if write:
            stored.path.write_bytes(content)
        elif stored.path.read_bytes() != content:
            return f"not what tests/definitions/{stored.words} makes: `make rows` stores that"
    except (OSError, ValueError) as fault:
        return str(fault)
    return None


def main():
    problems = {it: problem_of(it, sys.argv[1:] == ["--write"]) for it in STORED}
    failed = {it: problem for it, problem in problems.items() if problem}
    for it, problem in failed.items():
        print(f"FAILED crates/{it.crate}/{it.name}: {problem}")
    print(f"{len(STORED) - len(failed)} passed, {len(failed)} failed", flush=True)
    return 1 if failed else 0


if __name__ == "__main__":
    sys.exit(main())
