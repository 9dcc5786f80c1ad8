"""Tests of sentences: with --notes, a refusal has a line for a person in the place of that of a report.

Each refusal has its sentences in tests/cases/sentences.tsv: the makefile `Makefile`, the script `script`, and
the first line on standard error.
"""

from tests.lib.checks import Outcome
from tests.lib.notes import reported
from tests.lib.rooms import RoomCase
from tests.lib.tables import rows, unescape
from tests.program.test_limits import LIMIT

# A makefile of a thousand lines, for which a thousand refused edits take all walks; and what is said then.
LARGE = b".RECIPEPREFIX = X\nA = 1\nA = $(\nall: a\nXcc\nall: b\nXls\nXls\n" + b"#\n" * 992
SHORT = (
    ("nth 3 set A x", "nth 3 set A: large assigns A fewer than 3 times [4 NoSuch]"),
    ("nth 3 unrule all", "nth 3 unrule all: large has fewer than 3 rules for all [4 NoSuch]"),
    ("recipe-remove all ls", "recipe-remove all: 2 rules for all, or lines of its recipe, fit [5 Ambiguous 2]"),
    ("nth 2 recipe-remove all ls", "nth 2 recipe-remove all: 2 recipe lines of all are `ls` [5 Ambiguous 2]"),
    ("add-after A 1 b", "add-after A 1 b: 2 assignments of A, or words of its value, fit [5 Ambiguous 2]"),
    ("nth 1 recipe-remove all ls", "nth 1 recipe-remove all: no recipe line of all is `ls` [6 Absent]"),
    ("nth 3 line-remove Xls", "nth 3 line-remove Xls: large has the line `Xls` fewer than 3 times [4 NoSuch]"),
    ("nth 1 recipe-del all 2", "nth 1 recipe-del all 2: the rule for all has fewer than 2 recipe lines [6 Absent]"),
    (
        "nth 2 append A x",
        "nth 2 append A: what would follow the value of A, or a word of it, could be read with it [11 OpenValue]",
    ),
    (
        "assign bottom XA = 1",
        "assign bottom XA: the recipe prefix is not known, or a line would begin with it [3 RecipePrefix]",
    ),
)


class Sentences(RoomCase):
    def error_of(self, *words, **how):
        """The first line on standard error of a run with notes, which has to print nothing."""
        got = self.room.run("edit", "--notes", *words, **how)
        self.assertEqual((got.stdout, got.status), (b"", 1))
        return got.stderr.partition(b"\n")[0]

    def test_each_sentence(self):
        for _, row in rows("sentences"):
            with self.subTest(row["name"]):
                error = unescape(row["error"])
                self.room.write("Makefile", unescape(row["makefile"]))
                self.room.write("script", unescape(row["script"]))
                self.assertEqual(self.error_of("script", "Makefile"), error)
                report = reported(error, "script") + b"\n"
                self.assert_run(Outcome(b"", report, 1), "edit", "script", "Makefile")

    def test_what_makefile_and_script_are_called(self):
        for words, given, error in (
            (("-e", "set CC a", "-e", "set X b", "Makefile"), b"", b"-e 2: error: set X: Makefile"),
            (("-e", "set CC a\nset X b", "./Makefile"), b"", b"-e 2: error: set X: ./Makefile"),
            (("-i", "sets", "Makefile"), b"", b"sets:1: error: set X: Makefile"),
            (("-", "Makefile"), b"set X b\n", b"standard input:1: error: set X: Makefile"),
            (("sets", "-"), b"", b"sets:1: error: set X: standard input"),
            (("sets",), b"", b"sets:1: error: set X: standard input"),
        ):
            self.room.write("sets", b"set X b\n")
            with self.subTest(words):
                self.assertEqual(self.error_of(*words, given=given)[: len(error) + 1], error + b" ")

    def test_a_text_that_would_be_too_long(self):
        self.room.write("long", b"#" * (LIMIT - 1) + b"\n")
        error = b"-e 1: error: assign bottom A: long would have more than 16,777,216 bytes [15 TooLong]"
        self.assertEqual(self.error_of("-e", "assign bottom A = 1", "long"), error)

    def test_after_many_walks_sentences_are_shorter(self):
        self.room.write("large", LARGE)
        script = 'set "" x\n' * 1000 + "".join(f"{command}\n" for command, _ in SHORT)
        self.room.write("many", script.encode())
        got = self.room.run("edit", "-k", "--notes", "many", "large")
        told = got.stderr.decode().splitlines()[1000:]
        errors = [f"many:{line}: error: {error}" for line, (_, error) in enumerate(SHORT, 1001)]
        note = "many:1001: note: no more notes like these: the makefile is too long for so many edits"
        self.assertEqual(told, [errors[0], note, *errors[1:]])
