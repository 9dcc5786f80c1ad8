"""`mkedit derive`: a script that makes one makefile of another.

Each script that is printed is run by `mkedit edit` too, and has to make the new makefile of the old one. The
scripts below are what a person would write.
"""

import random

from tests.lib.checks import Outcome
from tests.lib.rooms import READ_FAULT, TOO_DEEP, TOO_LONG, RoomCase, cannot_open, silent

# An old makefile, a new one, and the script.
SCRIPTS = [
    ("", "", ""),
    ("X = 1\n", "X = 1\n", ""),
    ("F = -O2 -Wall # c\n", "F = -O2 # c\n", "drop F -Wall\n"),
    ("F = -O2\n", "F = -O2 -g\n", "add F -g\n"),
    ("F = -O2 -g\n", "F = -O3 -g\n", "replace F -O2 -O3\n"),
    ("S = a.c \\\n    b.c\n", "S = a.c \\\n    x.c \\\n    b.c\n", "add-after S a.c x.c\n"),
    ("S = a.c \\\n    b.c\n", "S = x.c \\\n    a.c \\\n    b.c\n", "add-before S a.c x.c\n"),
    ("CC = gcc\n", "CC ?= gcc\n", "operator CC ?=\n"),
    ("a: b\n\tcc\n", "a: b c\n\tcc\n", "depend a c\n"),
    ("a: b c\n\tcc\n", "a: c\n\tcc\n", "undepend a b\n"),
    ("i:\n\tinstall -s x\n", "i:\n\tinstall x\n", 'recipe-subst i "-s " ""\n'),
    ("i:\n\tx\n", "i:\n\tx\n\ty\n", "recipe i y\n"),
    ("i:\n\tx\n\ty\n", "i:\n\tx\n", "recipe-remove i y\n"),
    ("X = 1\nY = 2\n", "Y = 2\n", "unset X\n"),
    ("X = 1\nY = 2\n", "X = 1\nZ = 3\nY = 2\n", "assign after-var X Z = 3\n"),
    ("# a\ninclude a.mk\n", "# a\ninclude b.mk\n", 'line-replace "include a.mk" "include b.mk"\n'),
    ("clean:\n\tx\nall: clean\n", "tidy:\n\tx\nall: tidy\n", "rename clean tidy\n"),
    (
        "X = 1\nY = 2\n",
        "ifdef A\nX = 1\nendif\nY = 2\n",
        'line-replace "X = 1" <<E\nifdef A\nX = 1\nendif\nE\n',
    ),
    (
        "A = /local\nB = /local\nC = /local/c\n",
        "A = /l\nB = /l\nC = /l/c\n",
        "values-subst local l\n",
    ),
    ("C = -g\nC += -W -x\n", "C = -g\nC += -x\n", "all drop C -W\n"),
    ("i:\n\tcc -c x\n", "i:\n\tcc -O -c x\n", 'recipe-subst i "cc -c x" "cc -O -c x"\n'),
    ("F = -g\nF += -O2\n", "F = -g\nF += -O2 -W\n", "set-if F -O2 \"-O2 -W\"\n"),
    ("a: b c\n\tcc\n", "a: d c\n\tcc\n", "depend-replace a b d\n"),
    ("DEBUG = 1\n", "#DEBUG = 1\n", "comment-out DEBUG\n"),
    ("# DEBUG = 1\n", "DEBUG = 1\n", "uncomment DEBUG\n"),
    ("S = a\nS += b\ninclude m\n", "S = a\nS += b\nS += c\ninclude m\n", "assign after-last-var S S += c\n"),
    ("a:\n\tx\n\ninclude m\n", "a:\n\tx\n# n\n\ninclude m\n", 'insert after-rule a "# n"\n'),
    ("X\nX\n", "X\n", None),
]
# An old makefile, a new one, and what is said.
REFUSED = [
    (b"X = 1\n", b"X = 1\na\0b\n", b"new:2: no command writes line 2: a byte in them that no command takes"),
    (b"X = 1\n", b"X = 1\nifdef A\n", b"new:2: no command writes line 2: they open or end a conditional"),
    (b"X = 1\n", b"X = 1", b"new:1: no command writes line 1: their line ends"),
]


class Derive(RoomCase):
    def derived(self, old, new, *words):
        """What `derive` comes to over two makefiles."""
        self.room.write("old", old)
        self.room.write("new", new)
        return self.room.run("derive", *words, "old", "new")

    def assert_made(self, script, old, new):
        """Asserts that a script makes the new makefile of the old one."""
        self.room.write("made", script)
        self.assert_run(Outcome(new, b"", 0), "edit", "made", "old")

    def test_scripts_are_those_that_a_person_writes(self):
        for old, new, script in SCRIPTS:
            with self.subTest(old=old, new=new):
                got = self.derived(old.encode(), new.encode())
                if script is not None:
                    self.assertEqual(got, Outcome(script.encode(), b"", 0))
                self.assert_made(got.stdout, old.encode(), new.encode())

    def test_what_no_command_writes_is_told(self):
        for old, new, said in REFUSED:
            with self.subTest(new=new):
                got = self.derived(old, new)
                self.assertEqual((got.stdout, got.status), (b"", 1))
                self.assertIn(said, got.stderr)

    def test_one_makefile_is_standard_input(self):
        self.room.write("old", b"X = 1\n")
        self.room.write("new", b"X = 2\n")
        wanted = Outcome(b"replace X 1 2\n", b"", 0)
        for words in ("-", "new"), ("old", "-"):
            read = "old" if words[0] == "-" else "new"
            with open(self.room.folder / read, "rb") as stdin:
                self.assert_run(wanted, "derive", *words, stdin=stdin)
        self.assert_bad_command_line("derive", "-", "-")

    def test_a_script_goes_to_a_file(self):
        self.assertEqual(self.derived(b"X = 1\n", b"X = 2\n", "-o", "it"), silent(0))
        self.assert_holds("it", b"replace X 1 2\n")

    def test_a_makefile_that_cannot_be_read_is_told(self):
        self.room.write("old", b"X = 1\n")
        self.room.write("long", b"X" * (1 << 24) + b"\n")
        self.room.write("deep", b"ifdef A\n" * 257)
        for name, wanted in ("none", cannot_open("none")), (".", READ_FAULT), ("long", TOO_LONG), ("deep", TOO_DEEP):
            with self.subTest(name):
                self.assert_run(wanted, "derive", "old", name)
                self.assert_run(wanted, "derive", name, "old")

    def test_random_changes_are_made(self):
        rng = random.Random(73)
        lines = ["X = 1", "Y = a b c", "a: b", "\tcc $<", "", "# c", "ifdef A", "endif", "b:", "include m"]
        for _ in range(60):
            old = [rng.choice(lines) for _ in range(rng.randrange(12))]
            new = [it for it in old if rng.random() < 0.8]
            for _ in range(rng.randrange(4)):
                new.insert(rng.randrange(len(new) + 1), rng.choice(lines))
            texts = ["".join(it + "\n" for it in side).encode() for side in (old, new)]
            got = self.derived(*texts)
            if got.status == 0:
                self.assert_made(got.stdout, *texts)
            else:
                self.assertEqual((got.stdout, got.status), (b"", 1))
