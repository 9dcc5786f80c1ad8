"""The judge beside the tables of runs and edits, whose answers come from elsewhere.

    python3 -m tests.soak.tables    compares them; the last line is 'N passed, M failed'
"""

import sys

from tests.lib.checks import Outcome, Tally, differences
from tests.lib.tables import RUNS, rows, unescape

from .cases import USUAL_DEPTH
from .judge import judged


def verdict_on(row):
    """The judge's verdict on a row of a table."""
    flags = row.get("flags", "").split()
    depth = int(flags[flags.index("-d") + 1]) if "-d" in flags else USUAL_DEPTH
    return judged(unescape(row["makefile"]), unescape(row["script"]), depth, "-k" in flags)


def spans_of(verdict):
    """The spans of a run of one edit, as a table has them."""
    plan = verdict.replies[0].plan
    return " ".join(f"{it.start}:{it.end}:{it.new.hex()}" for it in plan.spans) if plan else ""


def problems_of(row, verdict):
    """What a verdict of the judge says otherwise than its row."""
    wanted = Outcome(unescape(row["stdout"]), unescape(row["stderr"]), int(row["status"]))
    yield from differences(verdict.outcome, wanted)
    if "spans" in row and spans_of(verdict) != row["spans"]:
        yield f"the spans are {spans_of(verdict)}, wanted {row['spans']}"


def judged_rows():
    """The name of each row, and what the judge says otherwise."""
    for table in RUNS:
        for _, row in rows(table):
            yield f"the judge on {table}: {row['name']}", list(problems_of(row, verdict_on(row)))


def main():
    tally = Tally()
    for name, problems in judged_rows():
        tally.add(name, problems)
    print(tally, flush=True)
    return 1 if tally.failed else 0


if __name__ == "__main__":
    sys.exit(main())
