"""Tests of notes below refusals: with --notes, the lines of the makefile that are the cause stand there.

A refusal stands here as a report has it; its sentence is tested in test_sentences.
"""

from tests.lib.checks import Outcome
from tests.lib.rooms import RoomCase

MAKEFILE = b"""\
CFLAGS = -O2
CFLAGS += -g
define LDFLAGS
-lm
endef
main: LIBS = -lc
main: main.o | out
\techo
\tLIBS = x
ifdef DEBUG
foo: x
\ta
else
\tb
endif
one two: three
VAL = $(
clean:
\trm
\trm
PREFIX ?= /usr
"""
# A command, the rest of its report line, and the lines of notes below that.
CASES = (
    # Ambiguous
    ("set CFLAGS x", "5 Ambiguous 2", (
        "config.mk:1: note: CFLAGS = -O2",
        "config.mk:2: note: CFLAGS += -g",
        "-e 1: note: `nth 1`, `nth 2` or `all` before the command says which",
    )),
    ("append CFLAGS x", "5 Ambiguous 2", (
        "config.mk:1: note: CFLAGS = -O2",
        "config.mk:2: note: CFLAGS += -g",
        "-e 1: note: `nth 1`, `nth 2` or `all` before the command says which",
    )),
    ("unset CFLAGS", "5 Ambiguous 2", (
        "config.mk:1: note: CFLAGS = -O2",
        "config.mk:2: note: CFLAGS += -g",
        "-e 1: note: `nth 1` or `nth 2` before the command says which",
    )),
    ("assign after-var CFLAGS A = b", "5 Ambiguous 2", (
        "config.mk:1: note: CFLAGS = -O2",
        "config.mk:2: note: CFLAGS += -g",
        "-e 1: note: `nth 1` or `nth 2` before the command says which",
    )),
    ("recipe-remove clean rm", "5 Ambiguous 2", ("config.mk:18: note: clean:",)),
    # edits of the line with a value, and of comments; places and whole rules
    ("set-if CFLAGS -O3 x", "6 Absent", (
        "config.mk:1: note: CFLAGS = -O2",
        "config.mk:2: note: CFLAGS += -g",
    )),
    ("nth 2 set-if CFLAGS -g x", "4 NoSuch", (
        "config.mk:2: note: CFLAGS += -g",
        "-e 1: note: `nth` is at most 1",
    )),
    ("depend-replace main main.c x", "6 Absent", ("config.mk:7: note: main: main.o | out",)),
    ("comment-out CFLAG", "4 NoSuch", (
        "config.mk:1: note: CFLAGS = -O2",
        "config.mk:2: note: CFLAGS += -g",
        "-e 1: note: did you mean one of these?",
    )),
    ("rule-remove two", "9 SharedRule 2", ("config.mk:16: note: one two: three",)),
    ("assign after-last-var CFLAG A = b", "4 NoSuch", (
        "config.mk:1: note: CFLAGS = -O2",
        "config.mk:2: note: CFLAGS += -g",
        "-e 1: note: did you mean one of these?",
    )),
    # NoSuch
    ("nth 3 set CFLAGS x", "4 NoSuch", (
        "config.mk:1: note: CFLAGS = -O2",
        "config.mk:2: note: CFLAGS += -g",
        "-e 1: note: `nth` is at most 2",
    )),
    ("set CFLAG x", "4 NoSuch", (
        "config.mk:1: note: CFLAGS = -O2",
        "config.mk:2: note: CFLAGS += -g",
        "-e 1: note: did you mean one of these?",
    )),
    ("set prefix x", "4 NoSuch", (
        "config.mk:21: note: PREFIX ?= /usr",
        "-e 1: note: did you mean one of these?",
    )),
    ("depend mian x", "4 NoSuch", (
        "config.mk:7: note: main: main.o | out",
        "-e 1: note: did you mean one of these?",
    )),
    ("rename cleen x", "4 NoSuch", (
        "config.mk:18: note: clean:",
        "-e 1: note: did you mean one of these?",
    )),
    ("all set PREFIXX x", "4 NoSuch", (
        "config.mk:21: note: PREFIX ?= /usr",
        "-e 1: note: did you mean one of these?",
    )),
    ("set LDFLAGS x", "4 NoSuch", (
        "config.mk:3: note: define LDFLAGS   (a define)",
        "-e 1: note: no edit looks at these lines",
    )),
    ("set LIBS x", "4 NoSuch", (
        "config.mk:6: note: main: LIBS = -lc   (for a target)",
        "config.mk:9: note: LIBS = x   (in a recipe)",
        "-e 1: note: no edit looks at these lines",
    )),
    ("set NOTHING x", "4 NoSuch", ()),
    ("unrule nothing", "4 NoSuch", ()),
    # Absent
    ("drop PREFIX y", "6 Absent", ("config.mk:21: note: PREFIX ?= /usr",)),
    ("undepend main zz", "6 Absent", ("config.mk:7: note: main: main.o | out",)),
    ("recipe-set clean 3 y", "6 Absent", ("config.mk:18: note: clean:",)),
    ("all drop CFLAGS y", "6 Absent", (
        "config.mk:1: note: CFLAGS = -O2",
        "config.mk:2: note: CFLAGS += -g",
    )),
    # Already
    ("nth 2 add CFLAGS -g", "7 Already", ("config.mk:2: note: CFLAGS += -g",)),
    ("depend main main.o", "7 Already", ("config.mk:7: note: main: main.o | out",)),
    ("depend-order main out", "7 Already", ("config.mk:7: note: main: main.o | out",)),
    # Taken
    ("rename clean main", "8 Taken", (
        "config.mk:6: note: main: LIBS = -lc   (for a target)",
        "config.mk:7: note: main: main.o | out",
    )),
    # SharedRule
    ("unrule two", "9 SharedRule 2", ("config.mk:16: note: one two: three",)),
    # Straddles
    ("recipe foo x", "10 Straddles", (
        "config.mk:11: note: foo: x   (in `ifdef DEBUG`, config.mk:10)",
        "config.mk:13: note: else   (in `ifdef DEBUG`, config.mk:10)",
    )),
    ("unrule foo", "10 Straddles", (
        "config.mk:11: note: foo: x   (in `ifdef DEBUG`, config.mk:10)",
        "config.mk:13: note: else   (in `ifdef DEBUG`, config.mk:10)",
    )),
    # OpenValue
    ("append VAL x", "11 OpenValue", ("config.mk:17: note: VAL = $(",)),
    # edits that are checked by reading
    ("prepend CFLAGS x", "5 Ambiguous 2", (
        "config.mk:1: note: CFLAGS = -O2",
        "config.mk:2: note: CFLAGS += -g",
        "-e 1: note: `nth 1`, `nth 2` or `all` before the command says which",
    )),
    ("recipe-subst cleen rm q", "4 NoSuch", (
        "config.mk:18: note: clean:",
        "-e 1: note: did you mean one of these?",
    )),
    ("all replace CFLAGS q r", "6 Absent", (
        "config.mk:1: note: CFLAGS = -O2",
        "config.mk:2: note: CFLAGS += -g",
    )),
    ("recipe-subst clean q r", "6 Absent", ("config.mk:18: note: clean:",)),
    ("recipes-subst q r", "6 Absent", ()),
    ('subst PREFIX /usr "#"', "21 Misread", (
        "config.mk:21: note: PREFIX ?= /usr",
        "-e 1: note: it would become `PREFIX ?= #`",
    )),
    ('values-subst -g "-g # x"', "21 Misread", (
        "config.mk:2: note: CFLAGS += -g",
        "-e 1: note: it would become `CFLAGS += -g # x`",
    )),
    ('recipe-subst clean rm "rm \\\\"', "21 Misread", (
        "config.mk:19: note: rm   (in a recipe)",
        "-e 1: note: it would become `rm \\`",
    )),
    # whole lines
    ('line-remove "\trm"', "5 Ambiguous 2", (
        "config.mk:19: note: rm   (in a recipe)",
        "config.mk:20: note: rm   (in a recipe)",
        "-e 1: note: `nth 1` or `nth 2` before the command says which",
    )),
    ("insert before-var CFLAGS x", "5 Ambiguous 2", (
        "config.mk:1: note: CFLAGS = -O2",
        "config.mk:2: note: CFLAGS += -g",
        "-e 1: note: `nth 1` or `nth 2` before the command says which",
    )),
    ("insert after-line PREFIX x", "4 NoSuch", ()),
    ('nth 3 line-remove "\trm"', "4 NoSuch", ()),
    ('insert before-rule clean "VAL = $("', "7 Already", ("config.mk:17: note: VAL = $(",)),
    ("line-replace endif endif", "7 Already", ("config.mk:15: note: endif   (in `else`, config.mk:13)",)),
    ("line-replace endif X", "21 Misread", ("config.mk:15: note: endif   (in `else`, config.mk:13)",)),
    ('insert top "ifdef X"', "21 Misread", ()),
    # others have no notes
    ("set .RECIPEPREFIX x", "2 Reserved", ()),
    ("undo", "16 NothingToUndo", ()),
)  # fmt: skip


def report(rest, notes):
    return Outcome(b"", "".join(f"{it}\n" for it in (f"1: refused {rest}", *notes)).encode(), 1)


class RefusalNotes(RoomCase):
    def assert_noted(self, makefile, command, rest, notes):
        """With --notes the notes stand below the line on the refusal, and without it that line alone."""
        self.room.write("config.mk", makefile)
        words = ("edit", "-e", command, "config.mk")
        self.assert_run(report(rest, ()), *words)
        self.assert_run(report(rest, notes), *words, "--notes", noted="-e")

    def test_each_refusal(self):
        for command, rest, notes in CASES:
            with self.subTest(command):
                self.assert_noted(MAKEFILE, command, rest, notes)

    def test_a_branch_is_told(self):
        lines = b"A = 1\nifdef X\nifeq (a,b)\n  A = 2\nelse ifeq (a,c)\nA = 3\nelse\nA = 4\nendif\nA = 5\nendif\n"
        self.assert_noted(lines, "unset A", "5 Ambiguous 5", (
            "config.mk:1: note: A = 1",
            "config.mk:4: note: A = 2   (in `ifeq (a,b)`, config.mk:3)",
            "config.mk:6: note: A = 3   (in `else ifeq (a,c)`, config.mk:5)",
            "config.mk:8: note: A = 4   (in `else`, config.mk:7)",
            "config.mk:10: note: A = 5   (in `ifdef X`, config.mk:2)",
            "-e 1: note: `nth 1` to `nth 5` before the command says which",
        ))  # fmt: skip

    def test_of_many_lines_ten_are_told(self):
        for count, more in ((10, ()), (11, ("config.mk: note: and 1 more",))):
            lines = b"".join(b"A = %d\n" % it for it in range(count))
            notes = [f"config.mk:{it + 1}: note: A = {it}" for it in range(10)]
            last = f"-e 1: note: `nth 1` to `nth {count}` before the command says which"
            self.assert_noted(lines, "unset A", f"5 Ambiguous {count}", (*notes, *more, last))

    def test_of_a_long_line_a_hundred_bytes_are_told(self):
        for size, shown in ((96, "x" * 96), (97, "x" * 96 + "...")):
            lines = b"A = " + b"x" * size + b"\nA = y\n"
            self.assert_noted(lines, "unset A", "5 Ambiguous 2", (
                f"config.mk:1: note: A = {shown}",
                "config.mk:2: note: A = y",
                "-e 1: note: `nth 1` or `nth 2` before the command says which",
            ))  # fmt: skip

    def test_a_folded_line_is_told_on_one_line(self):
        self.assert_noted(b"# c\nA = a \\\n  b\nA = c\n", "unset A", "5 Ambiguous 2", (
            "config.mk:2: note: A = a b",
            "config.mk:4: note: A = c",
            "-e 1: note: `nth 1` or `nth 2` before the command says which",
        ))  # fmt: skip

    def test_a_comment_that_would_be_no_assignment(self):
        self.assert_noted(b".RECIPEPREFIX = X\nt:\n# X = 1\n", "uncomment X", "21 Misread", (
            "config.mk:3: note: # X = 1",
            "-e 1: note: it would become `X = 1`",
        ))  # fmt: skip

    def test_a_line_that_no_edit_looks_at(self):
        for lines, note in (
            (
                b"\xef\xbb\xbfCC = gcc\n",
                b"config.mk:1: note: \xef\xbb\xbfCC = gcc   (behind a byte order mark)",
            ),
            (b"define X\n CC = gcc\nendef\n", b"config.mk:2: note: CC = gcc   (in a define)"),
            (b"$(call it)\n\tCC = gcc\n", b"config.mk:2: note: CC = gcc   (opaque)"),
        ):
            with self.subTest(lines):
                self.room.write("config.mk", lines)
                said = b"1: refused 4 NoSuch\n" + note + b"\n-e 1: note: no edit looks at these lines\n"
                words = ("edit", "--notes", "-e", "set CC x", "config.mk")
                self.assert_run(Outcome(b"", said, 1), *words, noted="-e")

    def test_a_use_of_a_name_is_no_line_of_it(self):
        lines = b"all:\n\t$(CC) -c x\n\tCC\n\tCCC = x\n\t@CC=x make\n"
        self.assert_noted(lines, "set CC x", "4 NoSuch", ())

    def test_a_rule_that_is_not_read_inside(self):
        lines = b"a.o: %.o\nb : c : d : e\n"
        self.assert_noted(lines, "depend b x", "4 NoSuch", (
            "config.mk:2: note: b : c : d : e   (rough)",
            "-e 1: note: no edit looks at these lines",
        ))  # fmt: skip

    def test_a_new_line_below_an_open_one(self):
        lines, command = b"A = a\nB = b\\", "assign bottom C = c"
        self.assert_noted(lines, command, "12 OpenLine", ("config.mk:2: note: B = b\\",))

    def test_the_first_line_of_a_conditional_in_a_recipe_is_told(self):
        lines = b"all:\n# c\n\ta\nifdef X\n\tb\nendif\n\tc\nifdef Y\nendif\n"
        self.assert_noted(lines, "recipe-insert all 1 x", "10 Straddles", (
            "config.mk:1: note: all:",
            "config.mk:4: note: ifdef X",
        ))  # fmt: skip

    def test_of_all_values_the_open_ones_are_told(self):
        for lines, command, notes in (
            (b"A = a\nA += $(\nA = b $\n", "all append A x", ("2: note: A += $(", "3: note: A = b $")),
            (b"A = x $(\nA = b $(\nA = c\n", "all add A x", ("2: note: A = b $(",)),
            (b"A = x $(\nA = b $(\nA = x\n", "all drop A x", ("1: note: A = x $(",)),
            (b"A = -g b\nA = a\\\\ -g# c\n", "all drop A -g", ("2: note: A = a\\\\ -g# c",)),
            (b"A = a\nA = b $\\\n# c\nB = $(\n", "all add A x", ("1: note: A = a", "2: note: A = b $ # c")),
        ):  # fmt: skip
            with self.subTest(command, lines=lines):
                said = tuple(f"config.mk:{it}" for it in notes)
                self.assert_noted(lines, command, "11 OpenValue", said)

    def test_the_first_line_that_leans_is_told(self):
        for lines, command, note in (
            (b"all:\n\ta\nA = a\n# c\n\n\tb\n\tc\n", "unset A", "6: note: b   (opaque)"),
            (b"A = a\n\n\tB = b\n", "rule after-var A x : y", "3: note: B = b"),
            (b"\tA = a\n\tB = b\n", "rule before-var A x : y", "1: note: A = a"),
            (b".RECIPEPREFIX = >\nA = a\n\t# c\n>b\n", "rule after-var A x : y", "4: note: >b   (opaque)"),
            (b"all:\n\ta\n", 'insert after-line all: "A = a"', "2: note: a   (in a recipe)"),
            (b"\tA = a\n", "insert top all:", "1: note: A = a"),
            (b"all:\n# c\nA = a\n# c\n\tB = b\n", 'line-remove "A = a"', "5: note: B = b"),
            (b"A = a\nA = a\n\tB = b\n", 'nth 2 line-replace "A = a" all:', "3: note: B = b"),
        ):  # fmt: skip
            with self.subTest(command, lines=lines):
                self.assert_noted(lines, command, "14 Leans", (f"config.mk:{note}",))

    def test_a_new_line_in_a_define(self):
        lines = b"define A\nendef\ndefine B\ndefine C\nendef\n"
        self.assert_noted(lines, "assign bottom C = c", "13 OpenDefine", (
            "config.mk:3: note: define B   (a define)",
        ))  # fmt: skip

    def test_a_refused_alternative_has_its_own_notes(self):
        self.room.write("config.mk", b"A = 1\n")
        said = b"-e 2: error: nth 2 set A: config.mk assigns A once, and `nth 2` is asked for [4 NoSuch]\n"
        said += b"config.mk:1: note: A = 1\n-e 2: note: `nth` is at most 1\n"
        words = ("edit", "--notes", "-e", "set B 2\nor nth 2 set A 2", "config.mk")
        self.assert_run(Outcome(b"", said, 1), *words)

    def test_the_numbers_are_those_of_the_text_at_that_moment(self):
        self.room.write("config.mk", b"B = b\nA = 1\nA = 2\n")
        said = b"""\
2: refused 5 Ambiguous 2
config.mk:1: note: A = 1
config.mk:2: note: A = 2
-e 2: note: `nth 1` or `nth 2` before the command says which
"""
        words = ("edit", "-k", "--notes", "-e", "unset B", "-e", "unset A", "config.mk")
        self.assert_run(Outcome(b"A = 1\nA = 2\n", said, 1), *words, noted="-e")

    def test_a_refusal_that_try_makes_none_has_no_note(self):
        self.room.write("config.mk", MAKEFILE)
        words = ("edit", "--notes", "-e", "try add PREFIX /usr", "-e", "try set NOTHING x", "config.mk")
        self.assert_run(Outcome(MAKEFILE, b"", 0), *words)

    def test_of_many_lines_those_with_the_word_come_first(self):
        lines = b"".join(b"A = %d\n" % it for it in range(12)) + b"A = $(if x,-g)\nA = a-gb\n"
        with_word = ("config.mk:13: note: A = $(if x,-g)", "config.mk:14: note: A = a-gb")
        others = [f"config.mk:{it + 1}: note: A = {it}" for it in range(8)]
        notes = (*with_word, *others, "config.mk: note: and 4 more")
        self.assert_noted(lines, "all drop A -g", "6 Absent", notes)
        which = "-e 1: note: `nth 1` to `nth 14` or `all` before the command says which"
        self.assert_noted(lines, "add A -g", "5 Ambiguous 14", (*notes, which))
        # up to ten lines are in their order, so that their numbers are seen
        lines = lines[lines.index(b"A = 4\n"):]
        notes = (*(f"config.mk:{it}: note: A = {it + 3}" for it in range(1, 9)),
                 "config.mk:9: note: A = $(if x,-g)", "config.mk:10: note: A = a-gb")  # fmt: skip
        self.assert_noted(lines, "all drop A -g", "6 Absent", notes)

    def test_what_makefile_and_script_are_called(self):
        makefile = b"A = 1\nA = 2\n"
        self.room.write("config.mk", makefile)
        self.room.write("commands", b"# c\nunset A\n")
        for words, given, file, script in (
            (("commands", "config.mk"), b"", "config.mk", "commands"),
            (("commands", "./config.mk"), b"", "./config.mk", "commands"),
            (("-", "config.mk"), b"# c\nunset A\n", "config.mk", "standard input"),
            (("commands", "-"), makefile, "standard input", "commands"),
            (("commands",), makefile, "standard input", "commands"),
            (("--diff", "commands", "config.mk"), b"", "config.mk", "commands"),
            (("-i", "commands", "config.mk"), b"", "config.mk", "commands"),
        ):
            said = f"""\
2: refused 5 Ambiguous 2
{file}:1: note: A = 1
{file}:2: note: A = 2
{script}:2: note: `nth 1` or `nth 2` before the command says which
"""
            with self.subTest(words):
                words = ("edit", "--notes", *words)
                self.assert_run(Outcome(b"", said.encode(), 1), *words, given=given, noted=script)

    def test_notes_of_several_makefiles(self):
        self.room.write("one", b"A = 1\nA = 2\n")
        self.room.write("two", b"B = 1\n")
        said = b"""\
1: refused 5 Ambiguous 2
one:1: note: A = 1
one:2: note: A = 2
-e 1: note: `nth 1` or `nth 2` before the command says which
2: refused 4 NoSuch
one:1: note: A = 1
one:2: note: A = 2
-e 2: note: did you mean one of these?
1: refused 4 NoSuch
two:1: note: B = 1
-e 1: note: did you mean one of these?
"""
        words = ("edit", "-k", "-i", "-e", "unset A", "-e", "unset B", "one", "two")
        self.assert_run(Outcome(b"", said, 1), *words[:3], "--notes", *words[3:], noted="-e")
        self.assert_holds("two", b"")
