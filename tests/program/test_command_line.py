"""Tests of what the command line does, its help, and the example that `make demo` runs.

test_options.py has what each word asks for, or how it is refused. tests/cases/help.txt has what help prints, as a
shell session.
"""

import os
import re
import subprocess

from tests import TOP
from tests.lib.checks import SECONDS, Outcome, differences
from tests.lib.rooms import ANSWERS, EDITED, REFUSED, TEXT, WRITE_FAULT, RoomCase, silent
from tests.lib.tables import OPTIONS
from tests.lib.transcripts import STEP, Shell

HELP = (TOP / "tests/cases/help.txt").read_text(encoding="utf-8")
COMMANDS = re.findall(r"^\$ mkedit help (\w+)$", HELP, re.M)


class CommandLine(RoomCase):
    def test_help_is_what_is_stored(self):
        with Shell(self.program, self.room.folder) as shell:
            for command, wanted in STEP.findall(HELP):
                self.assertEqual(shell.run(command).decode().split("\n"), wanted.split("\n"), command)
        self.assertEqual(re.findall(r"^  (\w+) {2}", HELP, re.M), [*COMMANDS, "help"])

    def test_help_may_be_asked_for_by_other_words(self):
        for command in ([], *([it] for it in COMMANDS)):
            wanted = self.room.run("help", *command)
            self.assertEqual((wanted.stderr, wanted.status), (b"", 0), command)
            for word in ("--help", "-h"):
                self.assert_run(wanted, *command, word)

    def test_the_version_is_the_one_of_the_list_of_changes(self):
        changes = (TOP / "CHANGELOG.md").read_text(encoding="utf-8")
        version = re.search(r"^## (\d+\.\d+\.\d+)\b", changes, re.M)[1]
        for word in ("--version", "-V"):
            got = self.room.run(word)
            self.assert_well(differences(got._replace(stdout=b""), silent(0)))
            commit = r"(?:not recorded|[0-9a-f]{12})"
            self.assertRegex(got.stdout.decode(), rf"^mkedit {re.escape(version)} \(commit {commit}\)\n$")
            self.assert_bad_command_line("edit", word)

    def test_help_and_the_version_that_cannot_be_written_are_a_write_fault(self):
        for words in (("--help",), ("help",), ("-h",), ("edit", "--help"), ("help", "edit"), ("--version",), ("-V",)):
            self.assert_run(WRITE_FAULT, *words, closed=(1,))
            with open("/dev/full", "wb") as full:
                self.assert_run(WRITE_FAULT, *words, stdout=full)

    def test_help_comes_before_what_is_missing(self):
        self.assert_run(self.room.run("help", "edit"), "edit", "--help", "absent")

    def test_an_option_beside_a_query_that_does_not_take_it_is_told_with_the_query(self):
        for query in ANSWERS:
            for option in {"--name", "--target"} - {OPTIONS.get(query)}:
                words = (query, option, "all", "queried")
                self.assert_bad_command_line(*words)
                told = self.room.run(*words).stderr.decode()
                self.assertRegex(told, rf"^error: unexpected argument '{option}' found\n")
                self.assertIn(f"Usage: mkedit {query} ", told)

    def test_a_query_of_one_name_or_target_prints_its_lines_alone(self):
        for query, words, answer in (
            ("vars", ("--name", "CC"), ANSWERS["vars"]),
            ("vars", ("--name=CC",), ANSWERS["vars"]),
            ("vars", ("--name", "CXX"), b""),
            ("vars", ("--name=",), b""),
            ("rules", ("--target", "all"), ANSWERS["rules"]),
            ("rules", ("--target", "main.o"), b""),
            ("recipes", ("--target=all",), ANSWERS["recipes"]),
            ("recipes", ("--target", "al"), b""),
        ):
            self.assert_run(Outcome(answer, b"", 0), query, *words, "queried")
            self.assert_run(Outcome(answer, b"", 0), query, "queried", *words, "--notes")
            with open(self.room.folder / "queried", "rb") as stdin:
                self.assert_run(Outcome(answer, b"", 0), query, *words, stdin=stdin)

    def test_commands_of_the_command_line_are_the_lines_of_a_script(self):
        words = ("-e", "set CC clang")
        for line in (words, ("-eset CC clang",), ("--expression", words[1]), (f"--expression={words[1]}",)):
            self.assert_run(EDITED, "edit", *line, "Makefile")
            self.assert_run(EDITED, "edit", "Makefile", *line)
            self.assert_run(EDITED, "edit", *line, given=TEXT)
        several = ("-e", "set CC cc", "-e", "", "-e", "# a comment", "-e", "undo", "-e", "undo")
        self.assert_run(Outcome(b"", b"5: refused 16 NothingToUndo\n", 1), "edit", *several, "Makefile")
        kept = Outcome(TEXT, b"5: refused 16 NothingToUndo\n", 1)
        self.assert_run(kept, "edit", "-k", *several, "Makefile")

    def test_a_command_of_the_command_line_may_have_several_lines(self):
        report = b"2: refused 16 NothingToUndo\n3: refused 17 NothingToRedo\n"
        words = ("-e", "# a\nundo", "-e", "redo\nset CC clang")
        self.assert_run(Outcome(EDITED.stdout, report, 1), "edit", "-k", *words, "Makefile")

    def test_the_lines_of_a_block_may_be_of_the_next_words(self):
        words = ("-e", "insert top <<E", "-e", "# a\nset CC tcc\nE", "-e", "set CC clang")
        self.assert_run(Outcome(b"# a\nset CC tcc\n" + EDITED.stdout, b"", 0), "edit", *words, "Makefile")
        fault = Outcome(b"", b"mkedit: script line 1 is not a command\n", 2)
        self.assert_run(fault, "edit", *words[:2], "-e", "# a", "Makefile")

    def test_what_is_no_command_is_told_by_its_line(self):
        fault = Outcome(b"", b"mkedit: script line 2 is not a command\n", 2)
        self.assert_run(fault, "edit", "-e", "set CC clang", "-e", "frobnicate", "Makefile")

    def test_the_text_of_a_command_line_may_go_to_its_file(self):
        self.assert_run(silent(0), "edit", "-e", "set CC clang", "-o", "Makefile", "Makefile")
        self.assert_holds("Makefile", EDITED.stdout)

    def test_the_depth_bounds_what_can_be_undone(self):
        self.room.write("sets", b"set CC 1\nset CC 2\nset CC 3\nundo\nundo\nundo\n")
        report = b"6: refused 16 NothingToUndo\n"
        for words in (["-d", "2"], ["-d2"], ["--depth", "2"], ["--depth=2"]):
            self.assert_run(Outcome(b"", report, 1), "edit", *words, "sets", "Makefile")
        self.assert_run(Outcome(TEXT, b"", 0), "edit", "-d", "3", "sets", "Makefile")

    def test_the_depth_is_100_where_none_is_given(self):
        self.room.write("hundred", b"set CC clang\n" * 100 + b"undo\n" * 100)
        self.room.write("more", b"set CC clang\n" * 101 + b"undo\n" * 101)
        self.assert_run(Outcome(TEXT, b"", 0), "edit", "hundred", "Makefile")
        report = b"202: refused 16 NothingToUndo\n"
        self.assert_run(Outcome(b"", report, 1), "edit", "more", "Makefile")
        self.assert_run(Outcome(TEXT, b"", 0), "edit", "-d", "101", "more", "Makefile")

    def test_as_many_edits_as_the_greatest_depth_can_be_undone(self):
        self.room.write("all", b"set CC clang\n" * 10_000 + b"undo\n" * 10_000)
        self.room.write("more", b"set CC clang\n" * 10_001 + b"undo\n" * 10_001)
        self.assert_run(Outcome(TEXT, b"", 0), "edit", "-d", "10000", "all", "Makefile")
        report = b"20002: refused 16 NothingToUndo\n"
        self.assert_run(Outcome(b"", report, 1), "edit", "-d", "10000", "more", "Makefile")

    def test_keep_going_does_what_follows_a_refusal(self):
        self.room.write("both", b"undo\nset CC clang\nredo\n")
        report = REFUSED.stderr + b"3: refused 17 NothingToRedo\n"
        for word in ("-k", "--keep-going"):
            self.assert_run(Outcome(EDITED.stdout, report, 1), "edit", word, "both", "Makefile")
            self.assert_run(EDITED, "edit", word, "script", "Makefile")
        self.assert_run(REFUSED, "edit", "both", "Makefile")

    def test_keep_going_reports_a_bad_script_alone(self):
        self.room.write("late", b"undo\nset CC clang\nfrobnicate\n")
        wanted = Outcome(b"", b"mkedit: script line 3 is not a command\n", 2)
        self.assert_run(wanted, "edit", "-k", "late", "Makefile")

    def test_options_may_stand_anywhere_and_together(self):
        self.room.write("both", b"undo\nset CC clang\n")
        wanted = Outcome(EDITED.stdout, REFUSED.stderr, 1)
        for words in (
            ["-kd5", "both", "Makefile"],
            ["both", "-k", "Makefile", "-d", "5"],
            ["both", "Makefile", "--keep-going", "--depth=5"],
            ["-k", "--", "both", "Makefile"],
        ):
            self.assert_run(wanted, "edit", *words)

    def test_a_name_may_begin_with_a_dash(self):
        self.room.write("-k", b"set CC clang\n")
        self.assert_run(EDITED, "edit", "--", "-k", "Makefile")
        self.assert_run(EDITED, "edit", "./-k", "Makefile")

    def test_without_a_file_the_makefile_is_standard_input(self):
        self.assert_run(EDITED, "edit", "script", given=TEXT)
        self.assert_run(silent(0), "edit", "empty", given=b"")
        with open(self.room.folder / "Makefile", "rb") as stdin:
            self.assert_run(EDITED, "edit", "script", stdin=stdin)
        with open(self.room.folder / "queried", "rb") as stdin:
            self.assert_run(Outcome(ANSWERS["vars"], b"", 0), "vars", stdin=stdin)

    def test_with_a_file_standard_input_is_not_read(self):
        with open(self.room.folder / "queried", "rb") as stdin:
            self.assert_run(EDITED, "edit", "script", "Makefile", stdin=stdin)
            self.assert_run(Outcome(ANSWERS["rules"], b"", 0), "rules", "queried", stdin=stdin)
            self.assertEqual(stdin.tell(), 0)

    def test_each_query_prints_its_lines(self):
        for query, answer in ANSWERS.items():
            self.assert_run(Outcome(answer, b"", 0), query, "queried")
            with open(self.room.folder / "queried", "rb") as stdin:
                self.assert_run(Outcome(answer, b"", 0), query, stdin=stdin)
            self.assert_run(silent(0), query, "empty")

    def test_the_demo_shows_what_its_file_says(self):
        environment = {**os.environ, "MKEDIT": str(self.room.program.path)}
        demo = [TOP / "examples/demo"]
        ran = subprocess.run(demo, env=environment, capture_output=True, timeout=SECONDS)
        wanted = (TOP / "examples/demo.txt").read_bytes()
        self.assert_well(differences((ran.stdout, ran.stderr, ran.returncode), (wanted, b"", 0)))
