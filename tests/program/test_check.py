"""Tests of `mkedit edit --check` and `--summary`: commands that are tried, and what became of the makefiles."""

from tests.lib.checks import Outcome
from tests.lib.rooms import TEXT, RoomCase, silent

DIFF = b"--- a/Makefile\n+++ b/Makefile\n@@ -1 +1 @@\n-CC = gcc # c\n+CC = clang # c\n"
MISSING = b"1: refused 4 NoSuch\n"


class Checks(RoomCase):
    def setUp(self):
        super().setUp()
        self.room.write("clang", b"CC = clang # c\n")
        self.room.write("other", b"CXX = g++\n")
        self.room.write("two", b"set X 1\nset CC clang\nset Y 1\n")

    def test_each_command_is_tried_and_no_text_is_written(self):
        report = MISSING + b"3: refused 4 NoSuch\n"
        for words, outcome in (
            (("script", "Makefile"), silent(0)),
            (("two", "Makefile"), Outcome(b"", report, 1)),
            (("two",), Outcome(b"", report, 1)),
            (("script", "Makefile", "clang", "-"), silent(0)),
            (("script", "other", "Makefile"), Outcome(b"", b"other: " + MISSING, 1)),
            (("script", "absent", "other"), Outcome(b"", b"mkedit: cannot open absent\nother: " + MISSING, 3)),
        ):
            self.assert_run(outcome, "edit", "--check", *words, given=TEXT)
        self.room.write("deep", b"ifdef A\n" * 257)
        self.assert_run(Outcome(b"", b"mkedit: too deep\n", 3), "edit", "--check", "script", "deep")

    def test_a_diff_that_is_not_empty_fails(self):
        words = ("edit", "--check", "--diff")
        self.assert_run(Outcome(DIFF, b"", 1), *words, "script", "Makefile")
        self.assert_run(silent(0), *words, "script", "clang")
        self.assert_run(Outcome(DIFF, b"", 1), *words, "script", "clang", "Makefile", "clang")
        self.assert_run(Outcome(DIFF, b"1: refused 4 NoSuch\n3: refused 4 NoSuch\n", 1), *words, "two", "Makefile")

    def test_a_last_line_says_what_became_of_the_makefiles(self):
        for words, told, status in (
            (("-i", "script", "Makefile", "clang"), b"2 files: 1 changed, 1 unchanged, 0 refused\n", 0),
            (("-i", "script", "Makefile"), b"1 file: 1 changed, 0 unchanged, 0 refused\n", 0),
            (("--check", "script", "clang"), b"1 file: 0 changed, 1 unchanged, 0 refused\n", 0),
            (("--check", "script", "Makefile", "clang"), b"2 files: 1 changed, 1 unchanged, 0 refused\n", 0),
            (("--diff", "script", "clang", "clang"), b"2 files: 0 changed, 2 unchanged, 0 refused\n", 0),
            (
                ("-i", "script", "other", "absent", "clang"),
                b"other: 1: refused 4 NoSuch\nmkedit: cannot open absent\n"
                b"3 files: 0 changed, 1 unchanged, 1 refused, 1 failed\n",
                3,
            ),
        ):
            self.room.write("Makefile", TEXT)
            self.assert_run(Outcome(b"", told, status), "edit", "--summary", *words)
            self.room.written.pop("Makefile")
        self.room.write("Makefile", TEXT)
        told = b"2 files: 1 changed, 1 unchanged, 0 refused\n"
        words = ("edit", "--summary", "--check", "--diff", "script", "Makefile", "clang")
        self.assert_run(Outcome(DIFF, told, 1), *words)

    def test_words_that_do_not_go_with_them(self):
        for words, other in (
            ("--check -i script Makefile", "'--check' cannot be used with '--in-place'"),
            ("--check -o out script Makefile", "'--check' cannot be used with '--output <OUT>'"),
            ("--summary script Makefile", "'--summary' may stand beside '--in-place' or '--check'"),
            ("--summary --diff -o out script Makefile", "or beside '--diff' without '--output'"),
        ):
            got = self.room.run("edit", *words.split())
            self.assertIn(other, got.stderr.decode())
            self.assertEqual((got.stdout, got.status), (b"", 2), words)
