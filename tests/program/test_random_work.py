"""Random work with a fixed seed, less than a minute of it; tests.soak does as much as you like.

First the judge is compared with the tables of runs and edits, whose answers come from elsewhere, and
with the spans where a table says them. Then each case is a subtest: its output, report and status, the
promises, and a query. tests/soak/__init__.py says which module does what.
"""

from tests.lib.rooms import RoomCase
from tests.soak.tables import judged_rows
from tests.soak.work import Work

SEED = "1"
# So many cases for each of five tests, which may run side by side.
CASES = 500


class RandomWork(RoomCase):
    def test_the_judge_says_what_the_tables_say(self):
        self.assert_cases(judged_rows())

    def assert_work(self, first):
        """The program has to do in each of CASES cases what the judge says."""
        work = Work(self.room, SEED)
        for number in range(first, first + CASES):
            with self.subTest(f"random work, case {number} of the seed {SEED}"):
                self.assert_well(work.difference(number))

    def test_the_first_cases(self):
        self.assert_work(0)

    def test_the_second_cases(self):
        self.assert_work(CASES)

    def test_the_third_cases(self):
        self.assert_work(2 * CASES)

    def test_the_fourth_cases(self):
        self.assert_work(3 * CASES)

    def test_the_fifth_cases(self):
        self.assert_work(4 * CASES)
