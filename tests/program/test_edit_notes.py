"""Tests of notes on edits that were made: with --notes it is told why an edit may do nothing in make."""

from tests.lib.checks import Outcome
from tests.lib.rooms import RoomCase

MAKEFILE = b"""\
CC = gcc
ifdef DEBUG
CC := clang
else
CC = tcc
endif
CC += -m32
CC ?= cc
CFLAGS ?= -O2
define LDFLAGS
-lm
endef
all: CC = other
all:
\tCC = x
"""
# What is said of the lines below it.
AGAIN = "-e 1: note: {} is assigned again below, and make may take that value"
OTHERWISE = "-e 1: note: {} is assigned in another branch too, and make may take that value"
DEFAULT = "-e 1: note: make takes this value only where {} has none"
SKIPPED = "-e 1: note: this change is in a conditional, and make may skip it"
UNREAD = "-e 1: note: {} has more assignments, in lines that mkedit cannot parse"
# A command, and the lines of notes on it.
CASES = (
    # a variable that is assigned again below
    ("nth 1 set CC x", (
        AGAIN.format("CC"),
        "config.mk:3: note: CC := clang   (in `ifdef DEBUG`, config.mk:2)",
        "config.mk:5: note: CC = tcc   (in `else`, config.mk:4)",
    )),
    ("nth 1 append CC x", (
        AGAIN.format("CC"),
        "config.mk:3: note: CC := clang   (in `ifdef DEBUG`, config.mk:2)",
        "config.mk:5: note: CC = tcc   (in `else`, config.mk:4)",
    )),
    # in another branch
    ("nth 2 add CC x", (
        SKIPPED,
        "config.mk:3: note: CC := clang x   (in `ifdef DEBUG`, config.mk:2)",
        OTHERWISE.format("CC"),
        "config.mk:5: note: CC = tcc   (in `else`, config.mk:4)",
    )),
    ("nth 2 drop CC clang", (
        SKIPPED,
        "config.mk:3: note: CC :=    (in `ifdef DEBUG`, config.mk:2)",
        OTHERWISE.format("CC"),
        "config.mk:5: note: CC = tcc   (in `else`, config.mk:4)",
    )),
    # neither `+=` nor `?=` takes its effect from the value, nor an assignment for a target or in a recipe
    ("nth 3 set CC x", (
        SKIPPED,
        "config.mk:5: note: CC = x   (in `else`, config.mk:4)",
        OTHERWISE.format("CC"),
        "config.mk:3: note: CC := clang   (in `ifdef DEBUG`, config.mk:2)",
    )),
    ("nth 4 set CC x", ()),
    # a new line
    ("nth 1 assign before-var CC CC = x", (
        AGAIN.format("CC"),
        "config.mk:2: note: CC = gcc",
        "config.mk:4: note: CC := clang   (in `ifdef DEBUG`, config.mk:3)",
        "config.mk:6: note: CC = tcc   (in `else`, config.mk:5)",
    )),
    ("nth 1 assign after-var CC CC = x", (
        AGAIN.format("CC"),
        "config.mk:4: note: CC := clang   (in `ifdef DEBUG`, config.mk:3)",
        "config.mk:6: note: CC = tcc   (in `else`, config.mk:5)",
    )),
    ("nth 1 assign after-var CC LDFLAGS ?= -lc", (
        AGAIN.format("LDFLAGS"),
        "config.mk:11: note: define LDFLAGS   (a define)",
    )),
    ("nth 2 assign before-var CC CFLAGS = x", (
        SKIPPED,
        "config.mk:3: note: CFLAGS = x   (in `ifdef DEBUG`, config.mk:2)",
    )),
    ("nth 2 assign after-var CC CFLAGS ?= x", (
        SKIPPED,
        "config.mk:4: note: CFLAGS ?= x   (in `ifdef DEBUG`, config.mk:2)",
    )),
    ("assign before-rule all LDFLAGS = x", ()),
    ("assign bottom CC = x", ()),
    # a value that is a default
    ("set CFLAGS x", (DEFAULT.format("CFLAGS"), "config.mk:9: note: CFLAGS ?= x")),
    ("append CFLAGS x", (DEFAULT.format("CFLAGS"), "config.mk:9: note: CFLAGS ?= -O2 x")),
    ("nth 5 add CC x", (DEFAULT.format("CC"), "config.mk:8: note: CC ?= cc x")),
    ("drop CFLAGS -O2", (DEFAULT.format("CFLAGS"), "config.mk:9: note: CFLAGS ?= ")),
    ("assign bottom CFLAGS ?= x", ()),
    # other edits
    ("all set CC x", ()),
    ("unset CFLAGS", ()),
    ("rule bottom foo : bar", ()),
    ("depend all x", ()),
)  # fmt: skip

BRANCHES = b"""\
A = 0
ifdef X
A = 1
ifdef Y
A = 2
else
A += 3
endif
else ifdef Z
A ?= 4
define A
endef
else
A = 5
endif
A = 6
B = 1
ifdef V
B = 2
endif
"""
FIRST = "config.mk:3: note: A = 1   (in `ifdef X`, config.mk:2)"
INNER = (
    "config.mk:5: note: A = 2   (in `ifdef Y`, config.mk:4)",
    "config.mk:7: note: A += 3   (in `else`, config.mk:6)",
)
SECOND = (
    "config.mk:10: note: A ?= 4   (in `else ifdef Z`, config.mk:9)",
    "config.mk:11: note: define A   (a define)   (in `else ifdef Z`, config.mk:9)",
)
THIRD = "config.mk:14: note: A = 5   (in `else`, config.mk:13)"
# A command on an assignment in a conditional, and the lines of notes on it.
BRANCH_CASES = (
    ("nth 2 set A x", (
        SKIPPED, "config.mk:3: note: A = x   (in `ifdef X`, config.mk:2)",
        AGAIN.format("A"), INNER[0], "config.mk:16: note: A = 6",
        OTHERWISE.format("A"), *SECOND, THIRD,
    )),
    # the innermost conditional counts
    ("nth 3 set A x", (
        SKIPPED, "config.mk:5: note: A = x   (in `ifdef Y`, config.mk:4)",
        AGAIN.format("A"), SECOND[1], THIRD, "config.mk:16: note: A = 6",
        OTHERWISE.format("A"), INNER[1],
    )),
    ("nth 4 append A x", (
        SKIPPED, "config.mk:7: note: A += 3 x   (in `else`, config.mk:6)",
        AGAIN.format("A"), SECOND[1], THIRD, "config.mk:16: note: A = 6",
        OTHERWISE.format("A"), INNER[0],
    )),
    ("nth 5 add A x", (
        SKIPPED, DEFAULT.format("A"), "config.mk:10: note: A ?= 4 x   (in `else ifdef Z`, config.mk:9)",
        AGAIN.format("A"), SECOND[1], "config.mk:16: note: A = 6",
        OTHERWISE.format("A"), FIRST, *INNER, THIRD,
    )),
    ("nth 6 drop A 5", (
        SKIPPED, "config.mk:14: note: A =    (in `else`, config.mk:13)",
        AGAIN.format("A"), "config.mk:16: note: A = 6",
        OTHERWISE.format("A"), FIRST, *INNER, *SECOND,
    )),
    # a new line
    ("nth 6 assign before-var A A = x", (
        SKIPPED, "config.mk:14: note: A = x   (in `else`, config.mk:13)",
        AGAIN.format("A"),
        "config.mk:15: note: A = 5   (in `else`, config.mk:13)",
        "config.mk:17: note: A = 6",
        OTHERWISE.format("A"), FIRST, *INNER, *SECOND,
    )),
    ("nth 6 assign after-var A A = x", (
        SKIPPED, "config.mk:15: note: A = x   (in `else`, config.mk:13)",
        AGAIN.format("A"), "config.mk:17: note: A = 6",
        OTHERWISE.format("A"), FIRST, *INNER, *SECOND,
    )),
    # no other branch assigns the variable, or there is none
    ("nth 6 assign after-var A C = x", (SKIPPED, "config.mk:15: note: C = x   (in `else`, config.mk:13)")),
    ("nth 2 assign after-var A B = x", (
        SKIPPED, "config.mk:4: note: B = x   (in `ifdef X`, config.mk:2)",
        AGAIN.format("B"),
        "config.mk:18: note: B = 1",
        "config.mk:20: note: B = 2   (in `ifdef V`, config.mk:19)",
    )),
    ("nth 2 set B x", (SKIPPED, "config.mk:19: note: B = x   (in `ifdef V`, config.mk:18)")),
    ("nth 7 set A x", ()),
    # the line that is gone, or more than one
    ("nth 2 unset A", ()),
    ("all set B x", ()),
)  # fmt: skip

RULES = b"""\
foo: a
\tone
foo: b
foo bar: c ; two
\tthree
ifdef A
bar:
\tx
else
bar:

# c
endif
\ty
%.o: %.c
\tz
dbl:: e
\tf
dbl:: g
bar: h
all: ;
last &: i
\tj
"""
# What is said of the lines of rules below it.
ELSEWHERE = "-e 1: note: {} has a recipe in another rule"
COLONS = "-e 1: note: {} has a rule with `{}`, and make stops with an error if it reads both"
GOAL = "-e 1: note: make may take {} as its default goal now, in place of {}"
# A command on a rule, and the lines of notes on it.
RULE_CASES = (
    # a new rule; a rule has a recipe in its own line too, and in each branch of a conditional
    ("rule bottom foo : x", (
        ELSEWHERE.format("foo"),
        "config.mk:1: note: foo: a",
        "config.mk:4: note: foo bar: c ; two",
    )),
    ('rule bottom "baz bar foo" : x', (
        ELSEWHERE.format("bar"),
        "config.mk:4: note: foo bar: c ; two",
        "config.mk:7: note: bar:   (in `ifdef A`, config.mk:6)",
        "config.mk:10: note: bar:   (in `else`, config.mk:9)",
        ELSEWHERE.format("foo"),
        "config.mk:1: note: foo: a",
        "config.mk:4: note: foo bar: c ; two",
    )),
    ("nth 3 rule before-rule foo all : x", (ELSEWHERE.format("all"), "config.mk:22: note: all: ;")),
    ("rule bottom last : x", (ELSEWHERE.format("last"), "config.mk:22: note: last &: i")),
    # a pattern may have several rules, and so may a target of rules with `::`
    ("rule bottom %.o : x", ()),
    ("rule bottom dbl :: x", ()),
    ("rule bottom a : foo", ()),
    # make has rules with one kind of colons for a target
    ("rule bottom dbl : x", (
        COLONS.format("dbl", "::"),
        "config.mk:17: note: dbl:: e",
        "config.mk:19: note: dbl:: g",
    )),
    ('rule bottom "bar last %.o" :: x', (
        COLONS.format("bar", ":"),
        "config.mk:4: note: foo bar: c ; two",
        "config.mk:7: note: bar:   (in `ifdef A`, config.mk:6)",
        "config.mk:10: note: bar:   (in `else`, config.mk:9)",
        "config.mk:20: note: bar: h",
        COLONS.format("last", ":"),
        "config.mk:22: note: last &: i",
    )),
    # the first target is the default goal, if it is no pattern and does not begin with a dot
    ("nth 1 rule before-rule foo check : x", (GOAL.format("check", "foo"), "config.mk:2: note: foo: a")),
    ('nth 1 rule before-rule foo ".PHONY %.c check ./d" : x', (
        GOAL.format("check", "foo"),
        "config.mk:2: note: foo: a",
    )),
    ("nth 1 rule before-rule foo ./.d/e : x", (GOAL.format("./.d/e", "foo"), "config.mk:2: note: foo: a")),
    ("nth 1 rule before-rule foo .PHONY : x", ()),
    ("nth 1 rule before-rule foo ./.d : x", ()),
    ("nth 1 rule before-rule foo %.c : x", ()),
    ("nth 2 rule before-rule foo check : x", ()),
    ('nth 1 rule before-rule foo "foo new" : x', (
        ELSEWHERE.format("foo"),
        "config.mk:2: note: foo: a",
        "config.mk:5: note: foo bar: c ; two",
    )),
    # a line of a recipe, where another rule has one
    ("nth 1 recipe foo q", (
        ELSEWHERE.format("foo"),
        "config.mk:5: note: foo bar: c ; two",
    )),
    ("nth 2 recipe foo q", (
        ELSEWHERE.format("foo"),
        "config.mk:1: note: foo: a",
        "config.mk:5: note: foo bar: c ; two",
    )),
    ("nth 3 recipe-set foo 1 q", (ELSEWHERE.format("foo"), "config.mk:1: note: foo: a")),
    ("nth 1 recipe-insert foo 2 q", (
        ELSEWHERE.format("foo"),
        "config.mk:5: note: foo bar: c ; two",
    )),
    ("nth 3 recipe-replace foo three q", (ELSEWHERE.format("foo"), "config.mk:1: note: foo: a")),
    ("recipe last q", ()),
    ("recipe-insert %.o 1 q", ()),
    ("nth 1 recipe dbl q", ()),
    # a line in a conditional: that of the rule, or the recipe line
    ("nth 2 recipe-insert bar 1 q", (
        SKIPPED,
        "config.mk:7: note: bar:   (in `ifdef A`, config.mk:6)",
        ELSEWHERE.format("bar"),
        "config.mk:4: note: foo bar: c ; two",
        "config.mk:11: note: bar:   (in `else`, config.mk:10)",
    )),
    ("nth 2 depend bar q", (SKIPPED, "config.mk:7: note: bar: q   (in `ifdef A`, config.mk:6)")),
    ("nth 2 recipe-del bar 1", (SKIPPED, "config.mk:7: note: bar:   (in `ifdef A`, config.mk:6)")),
    ("nth 2 rule before-rule bar q : r", (SKIPPED, "config.mk:7: note: q: r   (in `ifdef A`, config.mk:6)")),
    ('nth 2 rule before-rule bar "q bar" : r', (
        SKIPPED,
        "config.mk:7: note: q bar: r   (in `ifdef A`, config.mk:6)",
        ELSEWHERE.format("bar"),
        "config.mk:4: note: foo bar: c ; two",
        "config.mk:8: note: bar:   (in `ifdef A`, config.mk:6)",
        "config.mk:11: note: bar:   (in `else`, config.mk:10)",
    )),
    # edits that put in no recipe
    ("nth 1 recipe-del foo 1", ()),
    ("nth 2 depend foo q", ()),
)  # fmt: skip


def said(*notes):
    return "".join(f"{it}\n" for it in notes).encode()


class EditNotes(RoomCase):
    def assert_noted(self, makefile, command, notes):
        """With --notes the notes are written, and without it nothing is."""
        for words, told in (((), ()), (("--notes",), notes)):
            with self.subTest(command, words=words):
                self.room.write("config.mk", makefile)
                words = ("edit", "-o", "out", *words, "-e", command, "config.mk")
                self.assert_run(Outcome(b"", said(*told), 0), *words)

    def test_each_edit(self):
        for command, notes in CASES:
            self.assert_noted(MAKEFILE, command, notes)

    def test_each_edit_in_a_conditional(self):
        for command, notes in BRANCH_CASES:
            self.assert_noted(BRANCHES, command, notes)

    def test_each_edit_of_a_rule(self):
        for command, notes in RULE_CASES:
            self.assert_noted(RULES, command, notes)

    def test_of_many_targets_ten_are_looked_at(self):
        for count, told in ((9, True), (10, False)):
            others = " ".join(f"t{it}" for it in range(count))
            notes = (ELSEWHERE.format("foo"), "config.mk:1: note: foo: ;") if told else ()
            self.assert_noted(b"foo: ;\n", f'rule bottom "{others} foo" : x', notes)

    def test_of_many_rules_ten_are_told(self):
        for count, more in ((10, ()), (11, ("config.mk: note: and 1 more",))):
            lines = b"".join(b"foo: %d ;\n" % it for it in range(count))
            notes = [f"config.mk:{it + 1}: note: foo: {it} ;" for it in range(10)]
            self.assert_noted(lines, "rule bottom foo : x", (ELSEWHERE.format("foo"), *notes, *more))

    def test_a_recipe_line_in_a_conditional(self):
        lines = b"all:\n\ta\nifdef X\n\tb\nelse\n\tc\nendif\n"
        for command, notes in (
            ("recipe-set all 1 x", ()),
            ("recipe-set all 2 x", (SKIPPED, "config.mk:4: note: x   (in a recipe)   (in `ifdef X`, config.mk:3)")),
            ("recipe-replace all a x", ()),
            (
                "recipe-replace all c x",
                (SKIPPED, "config.mk:6: note: x   (in a recipe)   (in `else`, config.mk:5)"),
            ),
            # which of two lines it is, the text does not tell
            ("recipe-replace all b c", ()),
        ):
            self.assert_noted(lines, command, notes)

    def test_a_value_that_keeps_the_old_one_is_no_other(self):
        for line, again in (
            ("A := $(A) b", False),
            ("A := b ${A}", False),
            ("A := $(filter-out a,$(A))", False),
            ("A := $(A:.c=.o)", False),
            ("A := $A", False),
            ("A != echo $(A)", False),
            ("A := $(B)", True),
            ("A := $(AB) $(B A) $B", True),
            ("A := (A) A", True),
        ):
            notes = (AGAIN.format("A"), f"config.mk:2: note: {line}") if again else ()
            self.assert_noted(f"A = a\n{line}\n".encode(), "nth 1 set A c", notes)

    def test_assignments_that_are_not_read(self):
        lines = b"""\
A = 1
$(info x)
\tA += 2
\toverride A ?= 3
\tA: = 4
\tAB = 5
B = 6
$(info y)
\tB:=7
"""
        notes = (
            UNREAD.format("A"),
            "config.mk:3: note: A += 2   (opaque)",
            "config.mk:4: note: override A ?= 3   (opaque)",
        )
        for command in ("set A x", "append A x", "add A x", "drop A 1", "all add A x"):
            self.assert_noted(lines, command, notes)
        self.assert_noted(lines, "set B x", (UNREAD.format("B"), "config.mk:9: note: B:=7   (opaque)"))
        self.assert_noted(lines, "unset B", (UNREAD.format("B"), "config.mk:8: note: B:=7   (opaque)"))
        # those above matter where all or none are left
        self.assert_noted(lines, "assign after-var B A = x", ())
        self.assert_noted(lines, "assign bottom A = x", ())
        self.assert_noted(lines, "assign after-var A AB = x", (
            UNREAD.format("AB"),
            "config.mk:7: note: AB = 5   (opaque)",
        ))  # fmt: skip

    def test_an_assignment_behind_a_byte_order_mark(self):
        note = b"config.mk:1: note: \xef\xbb\xbfA = 1   (behind a byte order mark)\n"
        self.room.write("config.mk", b"\xef\xbb\xbfA = 1\nA += 2\n")
        words = ("edit", "-o", "out", "--notes", "-e", "all set A 3", "config.mk")
        self.assert_run(Outcome(b"", said(UNREAD.format("A")) + note, 0), *words)

    def test_a_default_goal_that_stays(self):
        for lines in (
            b"%.o: a\n.PHONY: all\nA = 1\n",
            b"all: a\nA = 1\nb: c\n",
            b"A = 1\nall: a\n.DEFAULT_GOAL := all\n",
            b"a : b : c : d\nA = 1\nall: a\n",
            b"A = 1\nnew: b\nall: a\n",
        ):
            self.assert_noted(lines, "rule after-var A new : x", ())
        self.assert_noted(b"A = 1\n.PHONY: all\nall: a\n", "rule after-var A new : x", (
            GOAL.format("new", "all"),
            "config.mk:4: note: all: a",
        ))  # fmt: skip

    def test_try_tells_of_names_that_are_spelled_alike(self):
        makefile = b"CFLAGS = -O2\nCFLAGS += -g\nclean:\n\trm\nLIBS = x\n"
        alike = "-e 1: note: `try` finds no {}; did you mean one of these?"
        for command, notes in (
            ("try set CFLAG x", (
                alike.format("CFLAG"),
                "config.mk:1: note: CFLAGS = -O2",
                "config.mk:2: note: CFLAGS += -g",
            )),
            ("try all drop CFLAG x", (
                alike.format("CFLAG"),
                "config.mk:1: note: CFLAGS = -O2",
                "config.mk:2: note: CFLAGS += -g",
            )),
            ("try unrule claen", (alike.format("claen"), "config.mk:3: note: clean:")),
            ("try rename claen x", (alike.format("claen"), "config.mk:3: note: clean:")),
            ("try unset NOTHING", ()),
            # the name is there
            ("try nth 3 set CFLAGS x", ()),
            ("try drop LIBS y", ()),
            ("try add LIBS x", ()),
            # an alternative is expected to be missing
            ("set CFLAG x\nor set LIBS x", ()),
        ):  # fmt: skip
            self.assert_noted(makefile, command, notes)

    def test_after_many_bytes_there_are_no_notes(self):
        self.room.write("config.mk", b"#" + b"x" * 9_999_999 + b"\nLIBS = x\n")
        near = "`try` finds no LIB; did you mean one of these?\nconfig.mk:2: note: LIBS = x\n"
        end = "no more notes like these: the makefile is too long for so many edits\n"
        for line, note in ((10, near), (11, end)):
            self.room.write("script", b"try set NONE x\n" * (line - 1) + b"try set LIB x\n")
            wanted = Outcome(b"", f"script:{line}: note: {note}".encode(), 0)
            self.assert_run(wanted, "edit", "-o", "out", "--notes", "script", "config.mk")

    def test_both_notes(self):
        self.assert_noted(b"CC ?= gcc\nCC = tcc\n", "nth 1 set CC x", (
            DEFAULT.format("CC"),
            "config.mk:1: note: CC ?= x",
            AGAIN.format("CC"),
            "config.mk:2: note: CC = tcc",
        ))  # fmt: skip

    def test_each_operator(self):
        for operator, again in (
            ("=", True),
            (":=", True),
            ("::=", True),
            (":::=", True),
            ("!=", True),
            ("?=", False),
            ("+=", False),
        ):
            line = f"A {operator} b"
            notes = (AGAIN.format("A"), f"config.mk:2: note: {line}") if again else ()
            self.assert_noted(f"A = a\n{line}\n".encode(), "nth 1 set A c", notes)

    def test_of_many_lines_ten_are_told(self):
        for count, more in ((10, ()), (11, ("config.mk: note: and 1 more",))):
            lines = b"A = x\n" + b"".join(b"A = %d\n" % it for it in range(count))
            notes = [f"config.mk:{it + 2}: note: A = {it}" for it in range(10)]
            self.assert_noted(lines, "nth 1 set A y", (AGAIN.format("A"), *notes, *more))

    def test_each_edit_of_a_script(self):
        self.room.write("commands", b"# c\nassign bottom B = b\nnth 1 set A 3\n\nnth 1 set A 4\n")
        self.room.write("config.mk", b"A = 1\nA = 2\n")
        notes = said(*(
            it
            for line in (3, 5)
            for it in (
                f"commands:{line}: note: A is assigned again below, and make may take that value",
                "config.mk:2: note: A = 2",
            )
        ))  # fmt: skip
        words = ("edit", "--notes", "commands", "config.mk")
        self.assert_run(Outcome(b"A = 4\nA = 2\nB = b\n", notes, 0), *words)

    def test_an_edit_behind_try_and_in_a_chain(self):
        makefile = b"A = 1\nA = 2\n"
        for command in ("try nth 1 set A 3", "set B 1\nor nth 1 set A 3"):
            self.room.write("config.mk", makefile)
            line = 1 + command.count("\n")
            notes = said(
                f"-e {line}: note: A is assigned again below, and make may take that value",
                "config.mk:2: note: A = 2",
            )
            words = ("edit", "--notes", "-e", command, "config.mk")
            with self.subTest(command):
                self.assert_run(Outcome(b"A = 3\nA = 2\n", notes, 0), *words)

    def test_a_refused_edit_has_its_own_notes_alone(self):
        self.room.write("config.mk", b"A ?= 1\n")
        notes = said("1: refused 6 Absent", "config.mk:1: note: A ?= 1")
        words = ("edit", "--notes", "-e", "drop A x", "config.mk")
        self.assert_run(Outcome(b"", notes, 1), *words, noted="-e")

    def test_notes_of_several_makefiles(self):
        self.room.write("one", b"A = 1\nA = 2\n")
        self.room.write("two", b"A ?= 1\n")
        notes = said(
            "-e 1: note: A is assigned again below, and make may take that value",
            "one:2: note: A = 2",
            "2: refused 5 Ambiguous 2",
            "one:1: note: A = 3",
            "one:2: note: A = 2",
            "-e 2: note: `nth 1`, `nth 2` or `all` before the command says which",
            "-e 3: note: A is assigned again below, and make may take that value",
            "one:2: note: A = 2",
            "-e 1: note: make takes this value only where A has none",
            "two:1: note: A ?= 3",
            "-e 2: note: make takes this value only where A has none",
            "two:1: note: A ?= 4",
            "-e 3: note: make takes this value only where A has none",
            "two:1: note: A ?= 5",
        )
        edits = ("-e", "nth 1 set A 3", "-e", "set A 4", "-e", "nth 1 set A 5")
        words = ("edit", "-k", "-i", "--notes", *edits, "one", "two")
        self.assert_run(Outcome(b"", notes, 1), *words, noted="-e")
        self.assert_holds("one", b"A = 5\nA = 2\n")
        self.assert_holds("two", b"A ?= 5\n")
