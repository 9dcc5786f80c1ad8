"""What the fuzzer found: few inputs that go wherever it has been, each beside the judge.

tests/cases/fuzzed.tsv has them; tests.fuzz makes it. Each row is a subtest, as a case of random work is:
its output, report and status, the promises, and all queries.
"""

from tests.fuzz import corpus
from tests.fuzz.inputs import problems_in
from tests.lib.rooms import RoomCase


class Fuzzed(RoomCase):
    def test_the_program_does_what_the_judge_says(self):
        for name, case in corpus.cases():
            with self.subTest(f"{corpus.TABLE}: {name}"):
                self.assert_well(problems_in(self.room, case))
