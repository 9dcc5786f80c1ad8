"""Tests of several makefiles in one call: each is a run by itself, and each line begins with its name."""

import subprocess

from tests.lib.checks import Outcome
from tests.lib.rooms import (
    ANSWERS,
    EDITED,
    NO_COMMAND,
    QUERIED,
    TEXT,
    RoomCase,
    cannot_open,
    silent,
)

OTHER = b"# c++\nCXX = g++\n"
CLANG = b"CC = clang # c\n"
# Two lines of one name.
TWO = b"CC = a\nCC = b\n"
REFUSED_OTHER = Outcome(b"", b"other: 1: refused 4 NoSuch\n", 1)
DEEP = b"ifdef A\n" * 257


class SeveralFiles(RoomCase):
    def setUp(self):
        super().setUp()
        self.room.write("other", OTHER)
        self.room.write("copy", TEXT)

    def assert_edited(self, *names):
        for name in names:
            self.assert_holds(name, CLANG)

    def test_each_file_is_edited_in_place(self):
        self.assert_run(silent(0), "edit", "-i", "script", "Makefile", "copy")
        self.assert_edited("Makefile", "copy")

    def test_each_file_is_edited_by_commands_of_the_command_line(self):
        self.assert_run(silent(0), "edit", "-e", "set CC clang", "-i", "Makefile", "copy")
        self.assert_edited("Makefile", "copy")

    def test_each_report_line_begins_with_the_name_of_its_file(self):
        self.room.write("two", TWO)
        report = b"two: 1: refused 5 Ambiguous 2\nother: 1: refused 4 NoSuch\n"
        self.assert_run(Outcome(b"", report, 1), "edit", "-i", "script", "two", "Makefile", "other")
        self.assert_edited("Makefile")
        self.room.write("long", b"set A b\nset CC clang\nset C d\n")
        report = b"copy: 1: refused 4 NoSuch\ncopy: 3: refused 4 NoSuch\n"
        report += b"".join(b"other: %d: refused 4 NoSuch\n" % it for it in (1, 2, 3))
        self.assert_run(Outcome(b"", report, 1), "edit", "-k", "-i", "long", "copy", "other")
        self.assert_edited("copy")

    def test_a_refused_file_stays_and_the_others_go_on(self):
        self.assert_run(REFUSED_OTHER, "edit", "-i", "script", "other", "Makefile")
        self.assert_edited("Makefile")

    def test_a_file_that_is_missing_is_told_and_the_others_go_on(self):
        self.assert_run(cannot_open("absent"), "edit", "-i", "script", "absent", "Makefile")
        self.assert_edited("Makefile")
        told = Outcome(b"", REFUSED_OTHER.stderr + cannot_open("absent").stderr, 3)
        self.assert_run(told, "edit", "-i", "script", "other", "absent", "copy")
        self.assert_edited("copy")

    def test_a_message_begins_with_the_name_of_its_file(self):
        self.room.write("deep", DEEP)
        told = Outcome(b"", b"deep: mkedit: too deep\n.: mkedit: read fault\n", 3)
        self.assert_run(told, "edit", "-i", "script", "deep", ".", "Makefile")
        self.assert_edited("Makefile")
        self.assert_run(told, "check", "deep", ".", "empty")

    def test_a_note_stands_below_the_message_of_its_file(self):
        told = b"mkedit: cannot open absent\nabsent: note: no such file\n"
        told += b".: mkedit: read fault\n.: note: is a directory\n"
        self.assert_run(Outcome(b"", told, 3), "edit", "--notes", "-i", "script", "absent", ".")
        self.assert_run(Outcome(b"", told, 3), "vars", "--notes", "absent", ".", "empty")

    def test_the_status_is_the_greatest(self):
        for names, status in (
            (("Makefile", "other"), 1),
            (("other", "copy"), 1),
            (("absent", "other", "copy"), 3),
            (("other", "absent", "copy"), 3),
        ):
            self.room.write("Makefile", TEXT)
            self.room.write("copy", TEXT)
            got = self.room.run("edit", "-i", "script", *names)
            self.assertEqual(got.status, status, names)
            for name in ("Makefile", "copy"):
                self.room.written.pop(name)

    def test_where_the_script_is_none_nothing_is_touched(self):
        self.assert_run(NO_COMMAND, "edit", "-i", "bad", "Makefile", "copy", "absent")
        self.assert_run(cannot_open("none"), "edit", "-i", "none", "Makefile", "copy")
        words = ("edit", "-i", "-e", "frobnicate", "Makefile", "copy")
        self.assert_run(NO_COMMAND, *words)

    def test_a_script_on_standard_input_is_read_once(self):
        self.assert_run(silent(0), "edit", "-i", "-", "Makefile", "copy", given=b"set CC clang\n")
        self.assert_edited("Makefile", "copy")

    def test_a_file_that_is_named_twice_is_edited_twice(self):
        words = ("edit", "-i", "-e", "append CC -m64", "Makefile", "Makefile", "other")
        told = Outcome(b"", b"other: 1: refused 4 NoSuch\n", 1)
        self.assert_run(told, *words)
        self.assert_holds("Makefile", b"CC = gcc -m64 -m64 # c\n")

    def test_each_old_file_is_kept(self):
        self.assert_run(silent(0), "edit", "-i", "--backup", "~", "script", "Makefile", "copy")
        self.assert_edited("Makefile", "copy")
        self.assert_holds("Makefile~", TEXT)
        self.assert_holds("copy~", TEXT)

    def test_a_file_whose_bytes_stay_is_left_alone(self):
        self.room.write("same", b"set CC gcc\n")
        self.assert_run(silent(0), "edit", "-i", "same", "Makefile", "copy")

    def test_each_depth_is_that_of_the_command_line(self):
        self.room.write("undone", b"set CC a\nset CC b\nundo\nundo\n")
        report = b"Makefile: 4: refused 16 NothingToUndo\ncopy: 4: refused 16 NothingToUndo\n"
        words = ("edit", "-d", "1", "-i", "undone", "Makefile", "copy")
        self.assert_run(Outcome(b"", report, 1), *words)

    def test_each_printed_line_begins_with_the_name_of_its_file(self):
        for query, answer in ANSWERS.items():
            lines = b"".join(b"queried:" + it for it in answer.splitlines(True))
            found = self.room.run(query, "other").stdout
            of_other = b"".join(b"other:" + it for it in found.splitlines(True))
            self.assert_run(Outcome(lines + of_other, b"", 0), query, "queried", "other")
            of_input = b"".join(b"-:" + it for it in answer.splitlines(True))
            words = (query, "other", "-")
            self.assert_run(Outcome(of_other + of_input, b"", 0), *words, given=QUERIED)

    def test_several_files_are_asked_of_one_name_or_target(self):
        self.room.write("two", TWO)
        told = b"Makefile:1:0: CC = gcc\ntwo:1:0: CC = a\ntwo:2:0: CC = b\n-:2:1: CC = gcc\n"
        words = ("vars", "--name", "CC", "Makefile", "other", "two", "-")
        self.assert_run(Outcome(told, b"", 0), *words, given=QUERIED)
        told = b"queried:3:1: all:\nqueried:4:1: [1] cc\n"
        self.assert_run(Outcome(told, b"", 0), "recipes", "Makefile", "--target=all", "queried")

    def test_a_query_goes_on_where_a_file_is_missing(self):
        told = Outcome(b"Makefile:1:0: CC = gcc\n", b"mkedit: cannot open absent\n", 3)
        self.assert_run(told, "vars", "absent", "Makefile")
        self.assert_run(told, "vars", "Makefile", "absent")

    def test_a_file_that_is_named_twice_is_asked_twice(self):
        line = b"Makefile:1:0: CC = gcc\n"
        self.assert_run(Outcome(line * 2, b"", 0), "vars", "Makefile", "Makefile")

    def test_a_query_ends_where_its_reader_leaves(self):
        names = ["Makefile"] * 2000
        words = [str(self.room.program.path), "vars", *names]
        with subprocess.Popen(
            words, cwd=self.room.folder, stdout=subprocess.PIPE, stderr=subprocess.PIPE
        ) as process:
            process.stdout.readline()
            process.stdout.close()
            self.assertEqual(process.stderr.read(), b"")
        self.assertEqual(process.returncode, 0)

    def test_the_texts_of_several_files_go_to_no_one_output(self):
        for words in (
            ("edit", "script", "Makefile", "copy"),
            ("edit", "-o", "out", "script", "Makefile", "copy"),
            ("edit", "-e", "undo", "Makefile", "copy"),
            ("edit", "--backup", "~", "script", "Makefile", "copy"),
            ("edit", "--backup", "~", "--diff", "script", "Makefile", "copy"),
            ("edit", "--diff", "-o", "out", "script", "Makefile", "copy"),
            ("edit", "--color=always", "script", "Makefile", "copy"),
        ):
            self.assert_bad_command_line(*words)
        for words in (("script",), ("--diff", "-o", "out", "script")):
            got = self.room.run("edit", *words, "Makefile", "copy")
            told = b"several FILEs may stand beside '--in-place' or '--check', or beside '--diff' without '--output'"
            self.assertIn(told, got.stderr)
        self.assert_holds("out", None)

    def test_a_script_among_the_makefiles_is_not_edited(self):
        self.room.write("more", b"# a comment\nset CFLAGS -g\n")
        told = b"mkedit: more is a script: there is one SCRIPT alone, unless --force-text makes it a FILE\n"
        for words in (("-i", "script", "more", "Makefile"), ("-i", "-e", "undo", "Makefile", "more"), ("--check", "script", "empty", "more")):
            self.assert_run(Outcome(b"", told, 2), "edit", *words)
        report = b"more: 1: refused 4 NoSuch\n"
        self.assert_run(Outcome(b"", report, 1), "edit", "-i", "--force-text", "script", "more", "Makefile")
        self.assert_edited("Makefile")

    def test_standard_input_is_not_edited_in_place(self):
        self.assert_bad_command_line("edit", "-i", "script", "Makefile", "-")
        self.assert_bad_command_line("edit", "-i", "script", "-", "Makefile")
        self.assert_bad_command_line("edit", "-i", "-", "Makefile", "-")

    def test_one_file_has_no_name_before_its_lines(self):
        self.assert_run(EDITED, "edit", "script", "Makefile")
        self.assert_run(Outcome(b"1:0: CC = gcc\n", b"", 0), "vars", "Makefile")
        self.assert_run(Outcome(b"", b"1: refused 4 NoSuch\n", 1), "edit", "-i", "script", "other")
