"""Random work: case after case, with a count of what the cases have met."""

import itertools
from collections import Counter

from .cases import drawn, problems_of
from .edits import NAMES
from .judge import CALLS, EDITS
from .rows import rows_of
from .shrinking import shrunk


# What a run has met that changes the makefile.
CHANGED = "changed"


def met(case, verdict):
    """What a run has met: its status, whether it has a diff, each refusal, and each edit and call that was accepted."""
    yield f"status {verdict.outcome.status}"
    if verdict.outcome.stdout not in (b"", case.makefile):
        yield CHANGED
    for reply in verdict.replies:
        yield reply.name if reply.refusal is None else reply.refusal.number


class Work:
    """Runs cases of a seed in a room, and counts what they meet."""

    def __init__(self, room, seed):
        self.room = room
        self.seed = seed
        self.count = 0
        self.met = Counter()

    def difference(self, number):
        """Runs a case. Says how it differs where it does, once it is shrunk, with its rows."""
        case = drawn(self.seed, number)
        verdict = case.verdict
        self.count += 1
        self.met.update(set(met(case, verdict)))
        if not problems_of(self.room, case, verdict):
            return []
        small = shrunk(case, self.is_wrong)
        problems = problems_of(self.room, small, small.verdict)
        return [*problems, *rows_of(f"soak-{self.seed}-{number}", small, problems)]

    def is_wrong(self, case):
        return case.is_one and bool(problems_of(self.room, case, case.verdict))


def numbers(first, index, workers, count):
    """The numbers of the cases that one of several workers runs: of count cases, or without end."""
    if count is None:
        return itertools.count(first + index, workers)
    return range(first + index, first + count, workers)


def table_of(met):
    """How many cases met each refusal, and accepted each edit and call."""
    return [
        *(f"refused {number:2} {name}: {met[number]}" for number, name in NAMES.items()),
        *(f"accepted {name}: {met[name]}" for name in (*EDITS, *CALLS)),
        f"diffs for patch and git apply: {met[CHANGED]}",
        *(f"ended with {name}: {met[name]}" for name in sorted(map(str, met)) if name[:6] == "status"),
    ]
