"""Tests of `mkedit edit --diff`: patch and git apply take each diff, forwards and backwards."""

import itertools
import os
import re
import unittest

from tests.lib.checks import Outcome, differences
from tests.lib.diffs import wrong_ways
from tests.lib.rooms import EDITED, NO_COMMAND, READ_FAULT, REFUSED, TEXT, TOO_DEEP, TOO_LONG, WRITE_FAULT
from tests.lib.rooms import RoomCase, cannot_open, silent
from tests.lib.tables import case_of, rows
from tests.lib.terminals import all_shown, terminal
from tests.program.test_makefiles import EXAMPLES, applied, hunks

# How many of the random runs are tried here; `make soak` tries a diff of each of its cases.
RUNS = 150
DIFF = b"--- a/Makefile\n+++ b/Makefile\n@@ -1 +1 @@\n-CC = gcc # c\n+CC = clang # c\n"


# The same in colours, as GNU diff 3.8 writes it with --color=always.
PAINTED = (
    b"\x1b[1m--- a/Makefile\x1b[0m\n\x1b[1m+++ b/Makefile\x1b[0m\n\x1b[36m@@ -1 +1 @@\x1b[0m\n"
    b"\x1b[31m-CC = gcc # c\x1b[0m\n\x1b[32m+CC = clang # c\x1b[0m\n"
)


class Diffs(RoomCase):
    def assert_diff(self, wanted, text, *words):
        """Runs with `--diff` where the run without it has this outcome: the diff leads to its text."""
        got = self.room.run("edit", "--diff", *words, "script", "Makefile")
        problems = differences(got._replace(stdout=b""), wanted._replace(stdout=b""))
        is_printed = wanted.status == 0 or (wanted.status == 1 and "-k" in words)
        new = wanted.stdout if is_printed else text
        self.assert_well([*problems, *wrong_ways(got.stdout, text, new)])
        return got.stdout

    def test_the_text_does_not_change_and_its_diff_goes_out(self):
        self.assert_run(Outcome(DIFF, b"", 0), "edit", "--diff", "script", "Makefile")
        self.assert_run(Outcome(DIFF, b"", 0), "edit", "--diff", "-e", "set CC clang", "Makefile")

    def test_where_nothing_changes_nothing_goes_out(self):
        self.assert_run(silent(0), "edit", "--diff", "empty", "Makefile")
        self.assert_run(silent(0), "edit", "--diff", "-e", "set CC clang", "-e", "undo", "Makefile")

    def test_lines_that_another_line_passes_stay(self):
        stays = [b"B = 1\n", b"C = 1\n", b"D = 1\n"]
        self.room.write("moved", b"".join([b"A = 1\n", b"X = 1\n", *stays]))
        lines = [b"-A = 1\n", b"-X = 1\n", b"+X = 2\n", *(b" " + it for it in stays), b"+A = 1\n"]
        got = self.room.run("edit", "--diff", "-e", "unset A\nset X 2\nassign bottom A = 1", "moved")
        self.assertEqual(got.stdout.splitlines(True)[3:], lines)

    def test_a_refused_command_is_reported_and_there_is_no_diff(self):
        self.assert_run(REFUSED, "edit", "--diff", "undo", "Makefile")
        self.room.write("both", b"set CC clang\nunset X\n")
        told = Outcome(b"", b"2: refused 4 NoSuch\n", 1)
        self.assert_run(told, "edit", "--diff", "both", "Makefile")
        self.assert_run(told._replace(stdout=DIFF), "edit", "--diff", "-k", "both", "Makefile")

    def test_the_diff_goes_to_the_output(self):
        self.assert_run(silent(0), "edit", "--diff", "-o", "out", "script", "Makefile")
        self.assert_holds("out", DIFF)
        self.room.write("kept", b"kept")
        self.assert_run(REFUSED, "edit", "--diff", "-o", "kept", "undo", "Makefile")
        self.assertEqual(self.shown_at_a_terminal(("-o", "out"), {}), b"")
        self.assert_holds("out", DIFF)

    def shown_at_a_terminal(self, words, variables):
        """What a run with `--diff` writes whose output is a terminal, with these variables in its environment."""
        env = {**{name: it for name, it in os.environ.items() if name != "NO_COLOR"}, **variables}
        with terminal(lines=False) as (user, program):
            words = ("edit", "--diff", *words, "script", "Makefile")
            self.assert_run(silent(0), *words, stdout=program, env=env)
            return all_shown(user, program)

    def test_a_diff_has_colours_where_it_is_asked_to(self):
        for word, shown in (("always", PAINTED), ("never", DIFF), ("auto", DIFF)):
            for words in (["--color", word], [f"--color={word}"]):
                self.assert_run(Outcome(shown, b"", 0), "edit", "--diff", *words, "script", "Makefile")
        self.assert_run(silent(0), "edit", "--diff", "--color=always", "-o", "out", "script", "Makefile")
        self.assert_holds("out", PAINTED)
        self.assert_run(EDITED, "edit", "--color=always", "script", "Makefile")

    def test_a_diff_at_a_terminal_has_colours_unless_they_are_unwanted(self):
        for words, variables, shown in (
            ((), {}, PAINTED),
            (("--color=auto",), {"NO_COLOR": ""}, PAINTED),
            ((), {"NO_COLOR": "1"}, DIFF),
            ((), {"NO_COLOR": "\udcff"}, DIFF),
            (("--color=never",), {}, DIFF),
            (("--color=always",), {"NO_COLOR": "1"}, PAINTED),
        ):
            self.assertEqual(self.shown_at_a_terminal(words, variables), shown, (words, variables))

    def test_in_place_beside_it_is_a_bad_command_line(self):
        got = self.room.run("edit", "--diff", "-i", "script", "Makefile")
        self.assertEqual((got.stdout, got.status), (b"", 2))
        self.assertIn(b"--diff", got.stderr)
        self.assertIn(b"--in-place", got.stderr)

    def test_faults_are_those_of_a_run_without_it(self):
        for wanted, words in (
            (cannot_open("absent"), ("script", "absent")),
            (cannot_open("absent"), ("absent", "Makefile")),
            (NO_COMMAND, ("bad", "Makefile")),
            (READ_FAULT, ("script", ".")),
            (NO_COMMAND, ("bad", ".")),
        ):
            self.assert_run(wanted, "edit", *words)
            self.assert_run(wanted, "edit", "--diff", *words)

    def test_limits_are_those_of_a_run_without_it(self):
        self.room.write("long", b"\n" * 16_777_217)
        self.room.write("deep", b"ifdef A\n" * 257)
        for wanted, name in ((TOO_LONG, "long"), (TOO_DEEP, "deep")):
            self.assert_run(wanted, "edit", "--diff", "script", name)
            self.assert_run(NO_COMMAND, "edit", "--diff", "bad", name)

    def test_a_full_disk_is_a_write_fault(self):
        with open("/dev/full", "wb") as full:
            got = self.room.run("edit", "--diff", "script", "Makefile", stdout=full)
        self.assert_well(differences(got._replace(stdout=b""), WRITE_FAULT))

    def test_standard_input_is_called_by_its_sign(self):
        got = self.room.run("edit", "--diff", "script", given=TEXT)
        self.assertEqual(got.stdout, DIFF.replace(b"a/Makefile", b"a/-").replace(b"b/Makefile", b"b/-"))

    def test_names_are_as_patch_and_git_read_them(self):
        for name in ("a b", "a\tb", "a\nb", "a\x1b[2J", "a\x7f", 'a"b', "a\\b", "a'b", "ä", "a  b c", "a ", " a  "):
            self.room.write(name, TEXT)
            got = self.room.run("edit", "--diff", "script", name)
            with self.subTest(name):
                self.assertEqual((got.stderr, got.status), (b"", 0))
                self.assertNotRegex(got.stdout, rb"[\x00-\x08\x0b-\x1f\x7f]")
                self.assert_well(wrong_ways(got.stdout, TEXT, EDITED.stdout, name))

    def test_a_name_leads_down_from_the_top_or_from_where_it_last_went_up(self):
        top = self.room.folder
        (top / "lib/deep").mkdir(parents=True)
        self.room.write("lib/Makefile", TEXT)
        for name, told in (
            ("./lib/Makefile", "lib/Makefile"),
            ("lib/../Makefile", "Makefile"),
            ("lib/deep/../../Makefile", "Makefile"),
            ("./lib/.././Makefile", "Makefile"),
            (f"../{top.name}/Makefile", f"{top.name}/Makefile"),
            (f"{top}/Makefile", f"{top}/Makefile"[1:]),
            (f"{top}/lib/../Makefile", "Makefile"),
        ):
            got = self.room.run("edit", "--diff", "script", name)
            with self.subTest(name):
                self.assertEqual(got, Outcome(DIFF.replace(b"Makefile", told.encode()), b"", 0))
                self.assert_well(wrong_ways(got.stdout, TEXT, EDITED.stdout, told))

    def test_the_examples(self):
        for folder in sorted(it for it in EXAMPLES.iterdir() if it.is_dir()):
            with self.subTest(folder.name):
                text = (folder / "Makefile").read_bytes()
                by_hand = (folder / "edits.diff").read_bytes()
                self.room.write("Makefile", text)
                self.room.write("script", (folder / "edits.mkedit").read_bytes())
                diff = self.assert_diff(Outcome(applied(by_hand, text), b"", 0), text)
                for sign in (b"-", b"+"):
                    lines = [it for _, lines in hunks(by_hand) for it in lines[sign]]
                    found = re.findall(rb"^\%b([^\n]*\n)" % sign, b"".join(diff.splitlines(True)[2:]), re.M)
                    self.assertEqual(len(found), len(lines))

    def test_random_runs(self):
        for place, row in itertools.islice(rows("random-runs"), RUNS):
            case = case_of(row["name"], row)
            with self.subTest(place):
                text = case.files["Makefile"]
                for name, content in case.files.items():
                    self.room.write(name, content)
                self.assert_diff(case.wanted, text, *case.words[1:-2])


if __name__ == "__main__":
    unittest.main()
