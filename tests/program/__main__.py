"""Tests the built program as its user meets it, in as many processes as there are processors.

    python3 -m tests.program [--processes N] [--quick] [PROGRAM]

It runs each test of the files test_*.py of this folder. A test counts once, or once for each of its
subtests, which are the cases of a table. One that fails has one line, which names it for `python3 -m
unittest`. The last line is 'N passed, M failed', and the status is 0 only where nothing failed.
"""

import os
import sys
import unittest
import warnings
from concurrent.futures import ProcessPoolExecutor
from pathlib import Path

from tests import TOP
from tests.lib.checks import Tally, command

HERE = Path(__file__).resolve().parent
# The tests that take longest are begun first.
LONG = ("test_judge", "test_tables", "test_queries", "test_random_work")
# Those that take long over a program that checks itself, or that bound its memory: modules and tests.
UNPROVED_SKIPPED = (
    *LONG,
    "test_address_space",
    "test_changing_files.ChangingFiles.test_a_file_that_grows_is_read_to_an_end_that_it_had",
    "test_fuzzed",
    "test_get.Get.test_get_takes_the_line_that_set_takes_in_each_makefile",
    "test_growth",
    "test_hostile_shapes",
    "test_json.Json.test_each_makefile_of_the_tables_is_told_as_it_is_read",
    "test_json.Json.test_without_memory_for_the_lines_none_of_them_is_printed",
    "test_large_edits",
    "test_limits",
)


def said(fault):
    """What an exception says, on one line."""
    text = "; ".join(it.strip() for it in str(fault).splitlines() if it.strip())
    return text if isinstance(fault, AssertionError) else f"not run: {type(fault).__name__}: {text}"


class Counts(unittest.TestResult):
    """Tallies each test that was run, or each of its subtests, and says which were skipped."""

    def __init__(self):
        super().__init__()
        self.tally = Tally()
        self.problems = []
        self.has_cases = False

    def addSubTest(self, test, subtest, err):
        super().addSubTest(test, subtest, err)
        self.has_cases = True
        self.tally.add(subtest.id(), [said(err[1])] if err else [])

    def addFailure(self, test, err):
        super().addFailure(test, err)
        self.problems.append(said(err[1]))

    addError = addFailure

    def addSkip(self, test, reason):
        super().addSkip(test, reason)
        self.has_cases = True
        print(f"skipped {test.id()}: {reason}", flush=True)

    def close(self, name):
        """Tallies the test, where none of its cases was or something is wrong with the whole."""
        if self.problems or not self.has_cases:
            self.tally.add(name, self.problems)


def names_of(suite):
    """The name of each test of a suite."""
    for it in suite:
        yield from names_of(it) if isinstance(it, unittest.TestSuite) else [it.id()]


def names(is_quick=False):
    """The name of each test, those first that take longest; says what a quick run leaves out."""
    loader = unittest.TestLoader()
    found = list(names_of(loader.discover(HERE, top_level_dir=TOP)))
    if loader.errors:
        sys.exit("\n".join(loader.errors))
    for skipped in UNPROVED_SKIPPED if is_quick else ():
        print(f"skipped tests.program.{skipped}: a program that checks itself takes long, or more memory", flush=True)
        found = [it for it in found if not f"{it}.".startswith(f"tests.program.{skipped}.")]
    return sorted(found, key=lambda it: it.split(".")[2] not in LONG)


def run(name):
    """Runs a test, and hands out how many checks passed and how many failed."""
    # a test that yields is not run, and would pass: Python 3.11 and later warn of it
    warnings.filterwarnings("error", "It is deprecated to return a value")
    counts = Counts()
    unittest.defaultTestLoader.loadTestsFromName(name).run(counts)
    counts.close(name)
    return counts.tally.passed, counts.tally.failed


def main():
    parser = command("tests.program", "Tests the built program mkedit.")
    processors = len(os.sched_getaffinity(0))
    parser.add_argument("--processes", type=int, default=processors, help="how many processes")
    parser.add_argument("--quick", action="store_true", help="leave out what takes long, or more memory, with a program that checks itself")
    given = parser.parse_args()
    os.environ["MKEDIT"] = str(given.program.path)
    total = Tally()
    with ProcessPoolExecutor(given.processes) as pool:
        for passed, failed in pool.map(run, names(given.quick)):
            total.passed += passed
            total.failed += failed
    print(total)
    return 0 if total.passed and not total.failed else 1


if __name__ == "__main__":
    sys.exit(main())
