"""GNU make judges the edits of mkedit: the examples, and random makefiles by a fixed seed (tests/judge).

It also judges the bare rules that `mkedit caveats` names."""

import itertools

from tests.judge import bare, generator
from tests.judge.cases import Counts, check_fixed, examples, random_cases
from tests.judge.database import Make
from tests.judge.verdicts import Judge
from tests.lib.rooms import RoomCase

SEED, MAKEFILES = 1, 100


class Judged(RoomCase):
    def setUp(self):
        super().setUp()
        make = Make()
        self.addCleanup(make.__exit__)
        self.assertTrue(make.is_gnu(), "GNU make 4 is not there")
        self.make, self.judge = make, Judge(self.room, make)

    def test_of_the_fixed_edits_the_judge_finds_those_that_are_wrong(self):
        self.assert_well(check_fixed(self.judge))

    def test_the_judge_finds_nothing_wrong(self):
        counts = Counts(self.judge)
        drawn = itertools.islice(random_cases(SEED), MAKEFILES)
        for case in itertools.chain(examples(SEED), drawn):
            with self.subTest(f"judge: {case[0]}"):
                self.assert_well(counts.take(*case))
        with self.subTest("judge: kinds of edits"):
            few = [it for it in generator.FIELDS if counts.judged(it) < MAKEFILES // 10]
            self.assertEqual(few, [], "too few of these are judged")

    def test_make_takes_nothing_from_the_bare_rules_that_caveats_names(self):
        count = 0
        for text in bare.makefiles(SEED, 2 * MAKEFILES):
            self.room.write("Makefile", text)
            named, is_same = bare.judge(self.make, text, self.room.run("caveats", "Makefile").stdout)
            count += named
            with self.subTest(f"bare rules: {text}"):
                self.assertTrue(is_same, "the data base differs without them")
        self.assertGreater(count, MAKEFILES // 2)
