"""Tests of `mkedit edit --diff` over several makefiles: patch and git apply take all diffs at once."""

import os
import subprocess

from tests.lib.checks import Outcome
from tests.lib.diffs import wrong_trees
from tests.lib.rooms import NO_COMMAND, TEXT, RoomCase, cannot_open, silent
from tests.lib.terminals import all_shown, terminal

CLANG = b"CC = clang # c\n"
OTHER = b"# c++\nCXX = g++\n"
# The makefiles that the script edits, before it and after it.
OLD = {
    "Makefile": TEXT,
    "below/config.mk": b"# one\n\nA = 1\nB = 2\nC = 3\nCC = gcc\nD = 4\n",
    "ends.mk": b"CC = gcc\r\nX = \xff\r\n",
    "open": b"CC = gcc",
}
NEW = {name: text.replace(b"gcc", b"clang") for name, text in OLD.items()}


def diff_of(name, line=b"CC = gcc # c\n", new=CLANG):
    """The diff of a makefile of one line, as GNU diff writes it."""
    sides = f"--- a/{name}\n+++ b/{name}\n@@ -1 +1 @@\n".encode()
    return sides + b"-" + line + b"+" + new


class SeveralDiffs(RoomCase):
    def setUp(self):
        super().setUp()
        (self.room.folder / "below").mkdir()
        for name, text in OLD.items():
            self.room.write(name, text)
        self.room.write("other", OTHER)
        self.room.write("copy", TEXT)

    def test_each_diff_goes_out_behind_the_one_before_it(self):
        both = Outcome(diff_of("Makefile") + diff_of("copy"), b"", 0)
        self.assert_run(both, "edit", "--diff", "script", "Makefile", "copy")
        self.assert_run(both, "edit", "--diff", "-e", "set CC clang", "./Makefile", "copy")

    def test_each_diff_is_the_one_of_its_file_alone(self):
        alone = [self.room.run("edit", "--diff", "script", name) for name in OLD]
        together = Outcome(b"".join(it.stdout for it in alone), b"", 0)
        self.assert_run(together, "edit", "--diff", "script", *OLD)

    def test_patch_and_git_apply_take_all_diffs_at_once(self):
        got = self.room.run("edit", "--diff", "script", *OLD)
        self.assertEqual((got.stderr, got.status), (b"", 0))
        self.assert_well(wrong_trees(got.stdout, OLD, NEW))

    def test_a_refused_file_has_no_diff_and_the_others_go_on(self):
        both = Outcome(diff_of("Makefile") + diff_of("copy"), b"other: 1: refused 4 NoSuch\n", 1)
        self.assert_run(both, "edit", "--diff", "script", "Makefile", "other", "copy")
        self.room.write("both", b"set CC clang\nset CXX clang++\n")
        told = b"Makefile: 2: refused 4 NoSuch\nother: 1: refused 4 NoSuch\n"
        self.assert_run(Outcome(b"", told, 1), "edit", "--diff", "both", "Makefile", "other")
        got = self.room.run("edit", "-k", "--diff", "both", "Makefile", "other")
        self.assertEqual((got.stderr, got.status), (told, 1))
        old = {"Makefile": TEXT, "other": OTHER}
        new = {"Makefile": CLANG, "other": b"# c++\nCXX = clang++\n"}
        self.assert_well(wrong_trees(got.stdout, old, new))

    def test_a_file_that_is_missing_is_told_and_the_others_go_on(self):
        both = cannot_open("absent")._replace(stdout=diff_of("Makefile") + diff_of("copy"))
        self.assert_run(both, "edit", "--diff", "script", "Makefile", "absent", "copy")

    def test_a_message_begins_with_the_name_of_its_file(self):
        self.room.write("deep", b"ifdef A\n" * 257)
        self.room.write("long", b"\n" * 16_777_217)
        told = b"deep: mkedit: too deep\nlong: mkedit: too long\n.: mkedit: read fault\n"
        wanted = Outcome(diff_of("Makefile"), told, 3)
        self.assert_run(wanted, "edit", "--diff", "script", "deep", "long", ".", "Makefile")

    def test_the_status_is_the_greatest(self):
        for names, status in (
            (("Makefile", "copy"), 0),
            (("Makefile", "other"), 1),
            (("other", "copy"), 1),
            (("absent", "other", "copy"), 3),
            (("other", "absent", "copy"), 3),
        ):
            self.assertEqual(self.room.run("edit", "--diff", "script", *names).status, status, names)

    def test_where_the_script_is_none_there_is_no_diff(self):
        self.assert_run(NO_COMMAND, "edit", "--diff", "bad", "Makefile", "copy", "absent")
        self.assert_run(cannot_open("none"), "edit", "--diff", "none", "Makefile", "copy")

    def test_a_script_on_standard_input_is_read_once(self):
        both = Outcome(diff_of("Makefile") + diff_of("copy"), b"", 0)
        self.assert_run(both, "edit", "--diff", "-", "Makefile", "copy", given=b"set CC clang\n")

    def test_one_of_them_may_be_standard_input(self):
        both = Outcome(diff_of("-") + diff_of("copy"), b"", 0)
        self.assert_run(both, "edit", "--diff", "script", "-", "copy", given=TEXT)
        self.assert_bad_command_line("edit", "--diff", "-", "copy", "-")

    def test_a_file_whose_text_stays_has_no_diff(self):
        self.room.write("same", b"set CC gcc\n")
        self.assert_run(silent(0), "edit", "--diff", "same", "Makefile", "copy")
        self.room.write("edited", CLANG)
        wanted = Outcome(diff_of("copy"), b"", 0)
        self.assert_run(wanted, "edit", "--diff", "script", "edited", "copy")

    def test_notes_stand_below_the_lines_of_their_file(self):
        words = ("edit", "--notes", "--diff", "-e", "set CX clang")
        told = [self.room.run(*words, name).stderr for name in ("Makefile", "other")]
        for notes in told:
            self.assertIn(b": note: ", notes)
        self.assert_run(Outcome(b"", b"".join(told), 1), *words, "Makefile", "other")

    def test_each_diff_has_colours_as_that_of_one_file(self):
        for when in ("always", "never", "auto"):
            words = ("edit", "--diff", f"--color={when}", "script")
            alone = b"".join(self.room.run(*words, name).stdout for name in ("Makefile", "copy"))
            self.assert_run(Outcome(alone, b"", 0), *words, "Makefile", "copy")
        painted = self.room.run("edit", "--diff", "--color=always", "script", "Makefile", "copy").stdout
        env = {name: it for name, it in os.environ.items() if name != "NO_COLOR"}
        with terminal(lines=False) as (user, program):
            words = ("edit", "--diff", "script", "Makefile", "copy")
            self.assert_run(silent(0), *words, stdout=program, env=env)
            self.assertEqual(all_shown(user, program), painted)

    def test_each_file_is_told_where_the_disk_is_full(self):
        told = b"Makefile: mkedit: write fault\ncopy: mkedit: write fault\n"
        with open("/dev/full", "wb") as full:
            got = self.room.run("edit", "--diff", "script", "Makefile", "copy", stdout=full)
        self.assertEqual((got.stderr, got.status), (told, 3))

    def test_a_run_ends_where_its_reader_leaves(self):
        words = [str(self.room.program.path), "edit", "--diff", "script", *["Makefile"] * 2000]
        with subprocess.Popen(
            words, cwd=self.room.folder, stdout=subprocess.PIPE, stderr=subprocess.PIPE
        ) as process:
            process.stdout.readline()
            process.stdout.close()
            self.assertEqual(process.stderr.read(), b"Makefile: mkedit: write fault\n")
        self.assertEqual(process.returncode, 3)
