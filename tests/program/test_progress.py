"""Tests of the line that says at a terminal how many of several makefiles are done, after a second."""

import os
import threading
import time

from tests.lib.checks import Outcome
from tests.lib.rooms import TEXT, RoomCase, silent
from tests.lib.terminals import all_shown, terminal
from tests.program.test_several_diffs import diff_of

# How long a makefile lets the program wait, in seconds.
WAIT = 1.3
WIPED = rb"\r\x1b\[K"
LINE = b"1:0: CC = gcc\n"


class Progress(RoomCase):
    def setUp(self):
        super().setUp()
        self.room.write("copy", TEXT)
        os.mkfifo(self.room.folder / "slow")

    def write_slowly(self):
        time.sleep(WAIT)
        (self.room.folder / "slow").write_bytes(TEXT)

    def run_slowly(self, *words, **how):
        """Runs the program, which has to wait for the makefile `slow`."""
        writer = threading.Thread(target=self.write_slowly, daemon=True)
        writer.start()
        got = self.room.run(*words, **how)
        writer.join()
        return got

    def shown(self, *words, **how):
        """How such a run ends whose standard error is a terminal, and what the terminal is shown."""
        with terminal(lines=False) as (user, program):
            return self.run_slowly(*words, stderr=program, **how), all_shown(user, program)

    def test_the_line_says_how_many_files_are_done_and_is_wiped_at_the_end(self):
        answer = b"".join(it + b":" + LINE for it in (b"Makefile", b"slow", b"copy"))
        got, shown = self.shown("vars", "Makefile", "slow", "copy", "empty")
        self.assertEqual(got, Outcome(answer, b"", 0))
        self.assertRegex(shown, rb"\A\r2 of 4 files(\r3 of 4 files)?%b\Z" % WIPED)

    def test_it_is_shown_beside_diffs_and_edits_in_place(self):
        got, shown = self.shown("edit", "--diff", "script", "slow", "Makefile", "copy")
        self.assertEqual((got.stdout.count(b"\n+CC = clang # c\n"), got.status), (3, 0))
        last = b"3 files: 3 changed, 0 unchanged, 0 refused\n"
        self.assertRegex(shown, rb"\A\r1 of 3 files(\r2 of 3 files)?%b%b\Z" % (WIPED, last))
        self.room.written.pop("Makefile")
        got, shown = self.shown("edit", "-i", "script", "slow", "Makefile")
        self.assertEqual(got, Outcome(b"", b"", 3))
        told = rb"slow: mkedit: write fault\nslow: note: is no regular file\n"
        last = b"2 files: 1 changed, 0 unchanged, 0 refused, 1 failed\n"
        self.assertRegex(shown, rb"\A%b\r1 of 2 files%b%b\Z" % (told, WIPED, last))

    def test_it_is_wiped_before_another_line(self):
        told = rb"mkedit: cannot open absent\nabsent: note: no such file\n"
        last = b"4 files: 3 changed, 0 unchanged, 0 refused, 1 failed\n"
        for words, last in ((("vars",), b""), (("edit", "--diff", "script"), last)):
            got, shown = self.shown(*words, "Makefile", "slow", "absent", "copy")
            self.assertEqual(got.status, 3)
            after = rb"(\r3 of 4 files%b)?" % WIPED
            self.assertRegex(shown, rb"\A\r2 of 4 files%b%b%b%b\Z" % (WIPED, told, after, last))
        _, shown = self.shown("edit", "--diff", "-e", "set CX clang", "slow", "Makefile")
        error = rb"-e 1: error: set CX: .* \[4 NoSuch\]\n"
        self.assertRegex(shown, rb"\n\r1 of 2 files%b%b" % (WIPED, error))

    def test_a_pipe_has_none_of_it(self):
        got = self.run_slowly("vars", "Makefile", "slow", "copy")
        self.assertEqual((got.stderr, got.status), (b"", 0))
        got = self.run_slowly("edit", "--diff", "script", "slow", "copy")
        self.assertEqual((got.stderr, got.status), (b"", 0))

    def test_where_answers_or_diffs_go_to_a_terminal_too_there_is_none(self):
        for words, answer in (
            (("vars",), b"slow:" + LINE + b"copy:" + LINE),
            (
                ("edit", "--diff", "--color=never", "script"),
                diff_of("slow") + diff_of("copy") + b"2 files: 2 changed, 0 unchanged, 0 refused\n",
            ),
        ):
            with terminal(lines=False) as (user, program):
                got = self.run_slowly(*words, "slow", "copy", stdout=program, stderr=program)
                self.assertEqual((got.status, all_shown(user, program)), (0, answer), words)

    def test_one_line_stands_for_a_while_before_the_next(self):
        _, shown = self.shown("vars", "slow", *["copy"] * 200)
        self.assertIn(shown.count(b" of 201 files"), range(1, 100))

    def test_one_file_and_a_short_run_have_none(self):
        got, shown = self.shown("vars", "slow")
        self.assertEqual((got, shown), (Outcome(LINE, b"", 0), b""))
        with terminal(lines=False) as (user, program):
            self.assert_run(silent(0), "edit", "-i", "-e", "set CC gcc", "Makefile", "copy", stderr=program)
            self.assertEqual(all_shown(user, program), b"2 files: 0 changed, 2 unchanged, 0 refused\n")
