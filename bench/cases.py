"""The cases of which bench/README.md has aims: what they are, and how they are measured."""

from collections.abc import Callable
from functools import partial
from typing import NamedTuple, Optional

from jobs import QUERIES, assigns, checked, no_command, query, recipes_subst, rename, sets, values_subst
from shared import GREATEST_RATIO, LARGE, QUARTER, SED, best, text_of

SIZES = (1_000_000, 2_000_000, QUARTER, 8_000_000, LARGE)
# A case that takes longer, in seconds, is run once.
LONG = 10


class Case(NamedTuple):
    """A job for each of some sizes, the ratio that is aimed at, and how many edits it makes."""

    name: str
    job: Callable
    aim: Optional[float]
    sizes: tuple = (QUARTER, LARGE)
    edits: int = 0
    beside: str = "sed"
    # the kind of text that sed runs over
    kind: str = "makefile"

    def words_beside(self, program, size):
        """The command that it is compared with."""
        if self.beside == "sed":
            return [*SED, text_of(self.kind, size)]
        return no_command("makefile", size).command(program)


class Measured(NamedTuple):
    """What a case and what stands beside it cost by size, as times and peaks, and in how many runs."""

    case: Case
    ours: dict
    beside: dict
    runs: int

    def ratio(self):
        """To what stands beside it."""
        return self.ours[LARGE][0] / self.beside[LARGE][0]

    def growth(self):
        """To a quarter of the text."""
        return self.ours[LARGE][0] / self.ours[QUARTER][0]

    def is_steep(self):
        return self.runs > 1 and QUARTER in self.ours and self.growth() > GREATEST_RATIO


def case_of_sets(count, aim=None, sizes=(LARGE,)):
    return Case(f"{count:,} `set`", partial(sets, count), aim, sizes, count)


EMPTY = Case("empty script", partial(no_command, "makefile"), 2.0, SIZES)
BLANK = Case("empty lines", partial(no_command, "blank"), 8, SIZES, beside="makefile")
ONE, MANY = case_of_sets(1, 2.1, SIZES), case_of_sets(10_000, 3, (QUARTER, LARGE))
ASSIGNS = Case("1,000 `assign bottom`", partial(assigns, 1_000), 2.3, edits=1_000)
RENAME = Case("`rename`", rename, 2.5)
VALUES = Case("`values-subst`", values_subst, 4, kind="settings")
RECIPES = Case("`recipes-subst`", recipes_subst, 4, kind="pairs")
ASKED = [Case(f"`{it}`", partial(query, it), 2.7) for it in QUERIES]
BETWEEN = [case_of_sets(it) for it in (10, 100, 1_000)]
# Those in between have no aim.
CASES = (EMPTY, ONE, *BETWEEN, MANY, ASSIGNS, RENAME, VALUES, RECIPES, *ASKED, BLANK)


def measure(program, case, jobs, firsts, rounds):
    """Measures a case by its job for each size, and what the first run of each cost."""
    besides = [case.words_beside(program, it) for it in case.sizes]
    if firsts[-1][0] > LONG:
        runs, costs = 1, [*firsts, *best(besides, rounds)]
    else:
        ours = [it.command(program) for it in jobs]
        runs, costs = rounds, best([*ours, *besides], rounds)
    ours, theirs = (dict(zip(case.sizes, it)) for it in (costs[: len(jobs)], costs[len(jobs) :]))
    return Measured(case, ours, theirs, runs)


def measure_all(program, edits, rounds):
    """Each case of no more than so many edits, by its name, after the outputs of all were compared."""
    cases = [it for it in CASES if it.edits <= edits]
    jobs = [[case.job(it) for it in case.sizes] for case in cases]
    firsts = [[checked(program, it) for it in each] for each in jobs]
    found = {}
    for of_case in zip(cases, jobs, firsts):
        measured = measure(program, *of_case, rounds)
        if measured.is_steep():
            # once more and longer, in case the machine had other work
            measured = measure(program, *of_case, 4 * rounds)
        found[measured.case.name] = measured
    return found
