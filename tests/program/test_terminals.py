"""Tests of terminals, whose input can go on after an end, and which can hang up."""

import os

from tests.lib.checks import Outcome
from tests.lib.rooms import ANSWERS, EDITED, QUERIED, TEXT, WRITE_FAULT, RoomCase, silent
from tests.lib.terminals import END, all_shown, terminal


class Terminals(RoomCase):
    def test_a_makefile_may_be_typed_and_is_read_to_its_first_end(self):
        with terminal() as (user, program):
            os.write(user, TEXT + END)
            self.assert_run(EDITED, "edit", "script", stdin=program)

    def test_a_typed_text_may_end_within_a_line(self):
        with terminal() as (user, program):
            os.write(user, TEXT.rstrip(b"\n") + END + END)
            wanted = Outcome(EDITED.stdout.rstrip(b"\n"), b"", 0)
            self.assert_run(wanted, "edit", "script", stdin=program)

    def test_a_typed_text_may_be_empty(self):
        with terminal() as (user, program):
            os.write(user, END)
            self.assert_run(silent(0), "edit", "empty", stdin=program)

    def test_a_typed_makefile_may_be_queried(self):
        for query, answer in ANSWERS.items():
            with terminal() as (user, program):
                os.write(user, QUERIED + END)
                self.assert_run(Outcome(answer, b"", 0), query, stdin=program)

    def test_a_script_and_its_makefile_may_be_typed_one_after_the_other(self):
        with terminal() as (user, program):
            os.write(user, b"set CC clang\n" + END + TEXT + END)
            self.assert_run(EDITED, "edit", "/dev/stdin", stdin=program)

    def test_a_terminal_shows_the_text(self):
        with terminal(lines=False) as (user, program):
            self.assert_run(silent(0), "edit", "script", "Makefile", stdout=program)
            self.assertEqual(all_shown(user, program), EDITED.stdout)

    def test_a_terminal_is_told_notes_without_being_asked(self):
        for command, *words in (
            ["edit", "-e", "set CX clang", "Makefile"],
            ["edit", "bad", "Makefile"],
            ["vars", "absent"],
            ["session", "absent"],
        ):
            # (a session takes no --notes)
            wanted = self.room.run(command.replace("session", "vars"), "--notes", *words)
            self.assertIn(b": note: ", wanted.stderr)
            with terminal(lines=False) as (user, program):
                got = self.room.run(command, *words, stderr=program)
                self.assertEqual(got, wanted._replace(stderr=b""))
                self.assertEqual(all_shown(user, program), wanted.stderr)

    def test_a_terminal_that_hung_up_is_a_write_fault(self):
        with terminal() as (user, program):
            os.close(user)
            for words in (["edit", "script", "Makefile"], *([it, "queried"] for it in ANSWERS)):
                self.assert_run(WRITE_FAULT, *words, stdout=program)
            self.assert_run(silent(3), "edit", "undo", "Makefile", stderr=program)
