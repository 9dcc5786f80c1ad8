"""Tests of the client over the program: each command and each request."""

import unittest

import mkedit

from .cases import MAKEFILE, PROGRAM, ClientCase


class Client(ClientCase):
    def assert_edit(self, edit, old, new):
        """An edit that exchanges one part of the text, and that can be taken back and made again."""
        with self.open() as makefile:
            edit(makefile)
            self.assertEqual(makefile.text(), MAKEFILE.replace(old, new, 1))
            makefile.undo()
            self.assertEqual(makefile.text(), MAKEFILE)
            makefile.redo()
            self.assertEqual(makefile.text(), MAKEFILE.replace(old, new, 1))
        self.assertEqual(self.path.read_text(), MAKEFILE)

    def test_edits_of_variables(self):
        cases = (
            (lambda it: it.set("CC", "clang"), "gcc", "clang"),
            (lambda it: it.set("CC", 'a "b" \\c'), "gcc", 'a "b" \\c'),
            (lambda it: it.set("X", "3", nth=2), "X = 2", "X = 3"),
            (lambda it: it.set_all("X", ""), "X = 1\nX = 2", "X = \nX = "),
            (lambda it: it.set_if("X", "2", "3"), "X = 2", "X = 3"),
            (lambda it: it.set_if("X", "2", "3", nth=1), "X = 2", "X = 3"),
            (lambda it: it.set_if_all("X", "1", ""), "X = 1", "X = "),
            (lambda it: it.append("CFLAGS", "-g -pipe"), "-Werror", "-Werror -g -pipe"),
            (lambda it: it.append_all("X", "3"), "X = 1\nX = 2", "X = 1 3\nX = 2 3"),
            (lambda it: it.add("CFLAGS", "-g"), "-Werror", "-Werror -g"),
            (lambda it: it.add_all("X", "2"), "X = 1", "X = 1 2"),
            (lambda it: it.drop("CFLAGS", "-Werror"), " -Werror", ""),
            (lambda it: it.drop_all("X", "1"), "X = 1", "X = "),
            (lambda it: it.prepend("X", "0", nth=2), "X = 2", "X = 0 2"),
            (lambda it: it.replace("CFLAGS", "-Werror", "-g -W"), "-Werror", "-g -W"),
            (lambda it: it.add_before("CFLAGS", "-Werror", "-g"), "-Werror", "-g -Werror"),
            (lambda it: it.add_after("X", "2", "3", nth=2), "X = 2", "X = 2 3"),
            (lambda it: it.subst("CFLAGS", "error", ""), "-Werror", "-W"),
            (lambda it: it.operator("X", "+=", nth=2), "X = 2", "X += 2"),
            (lambda it: it.prepend_all("X", "0"), "X = 1\nX = 2", "X = 0 1\nX = 0 2"),
            (lambda it: it.replace_all("X", "1", "3"), "X = 1", "X = 3"),
            (lambda it: it.subst_all("X", "2", "a b"), "X = 2", "X = a b"),
            (lambda it: it.operator_all("X", ":="), "X = 1\nX = 2", "X := 1\nX := 2"),
            (lambda it: it.values_subst("-W", "-f"), "-Werror", "-ferror"),
            (lambda it: it.unset("X", nth=1), "X = 1\n", ""),
            (lambda it: it.comment_out("X", nth=2), "X = 2", "#X = 2"),
            (lambda it: it.assign(mkedit.TOP, "X", "=", ""), "CC", "X =\nCC"),
            (lambda it: it.assign(mkedit.after_last_var("X"), "X", "+=", "3"), "X = 2\n", "X = 2\nX += 3\n"),
            (lambda it: it.assign(mkedit.after_var("CC"), "CXX", ":=", "g++"), "# c\n", "# c\nCXX := g++\n"),
            (lambda it: it.assign(mkedit.before_var("X", nth=2), "Y", "?=", ""), "X = 2", "Y ?=\nX = 2"),
        )
        for edit, old, new in cases:
            with self.subTest(new):
                self.assert_edit(edit, old, new)

    def test_edits_of_rules(self):
        cases = (
            (lambda it: it.rule(mkedit.before_rule("all"), "x y", ":", "z"), "all:", "x y: z\nall:"),
            (lambda it: it.rule(mkedit.BOTTOM, "x", "::", ""), "x\n", "x\nx::\n"),
            (lambda it: it.rule(mkedit.after_rule("all"), "x", ":", ""), "x\n", "x\nx:\n"),
            (lambda it: it.unrule("all"), MAKEFILE[MAKEFILE.index("all") :], ""),
            (lambda it: it.depend("all", "c.o"), "b.o", "b.o c.o"),
            (lambda it: it.depend_order("all", "out"), "b.o", "b.o | out"),
            (lambda it: it.undepend("all", "a.o"), " a.o", ""),
            (lambda it: it.depend_replace("all", "a.o", "c.o"), "a.o", "c.o"),
            (lambda it: it.recipe("all", "ls"), "rm -f x\n", "rm -f x\n\tls\n"),
            (lambda it: it.recipe_insert("all", 1, "ls"), "\tcc", "\tls\n\tcc"),
            (lambda it: it.recipe_set("all", 2, "ls"), "rm -f x", "ls"),
            (lambda it: it.recipe_del("all", 2), "\trm -f x\n", ""),
            (lambda it: it.recipe_replace("all", "rm -f x", "rm -rf x"), "rm -f x", "rm -rf x"),
            (lambda it: it.recipe_remove("all", "rm -f x"), "\trm -f x\n", ""),
            (lambda it: it.recipe_subst("all", "rm -f", "rm -rf"), "rm -f x", "rm -rf x"),
            (lambda it: it.recipe_subst("all", " x", "", nth=1), "rm -f x", "rm -f"),
            (lambda it: it.recipes_subst("rm -f ", "rm "), "rm -f x", "rm x"),
            (lambda it: it.rename("all", "main"), "all:", "main:"),
        )
        for edit, old, new in cases:
            with self.subTest(new):
                self.assert_edit(edit, old, new)

    def test_edits_of_whole_lines(self):
        cases = (
            (lambda it: it.insert(mkedit.TOP, "# ours"), "CC", "# ours\nCC"),
            (lambda it: it.insert(mkedit.BOTTOM, ""), "rm -f x\n", "rm -f x\n\n"),
            (lambda it: it.insert(mkedit.after_var("CC"), 'export CC # "q" \\ ;'), "# c\n", '# c\nexport CC # "q" \\ ;\n'),
            (lambda it: it.insert(mkedit.before_line(""), "include a.mk"), "X = 2\n", "X = 2\ninclude a.mk\n"),
            (lambda it: it.insert(mkedit.after_line("X = 1", nth=1), "# x"), "X = 1\n", "X = 1\n# x\n"),
            (lambda it: it.line_replace("\trm -f x", "\t@echo $$"), "rm -f x", "@echo $$"),
            (lambda it: it.line_replace("X = 2", "include a.mk", nth=1), "X = 2", "include a.mk"),
            (lambda it: it.line_remove("CC = gcc # c"), "CC = gcc # c\n", ""),
            (lambda it: it.line_remove("", nth=1), "\n\n", "\n"),
            (lambda it: it.insert(mkedit.TOP, "# a\nEND0\n<<END1"), "CC", "# a\nEND0\n<<END1\nCC"),
            (lambda it: it.insert(mkedit.TOP, "<<E"), "CC", "<<E\nCC"),
            (lambda it: it.line_replace("X = 1\nX = 2", "ifdef A\nX = 1\nendif"), "X = 1\nX = 2", "ifdef A\nX = 1\nendif"),
            (lambda it: it.insert(mkedit.after_line("X = 2\n"), "# b\n"), "X = 2\n\n", "X = 2\n\n# b\n\n"),
            (lambda it: it.line_remove("X = 1\nX = 2", nth=1), "X = 1\nX = 2\n", ""),
            (lambda it: it.insert(mkedit.after_last_var("X"), "# x"), "X = 2\n", "X = 2\n# x\n"),
            (lambda it: it.insert(mkedit.after_rule("all", nth=1), "# x\n# y"), "rm -f x\n", "rm -f x\n# x\n# y\n"),
            (lambda it: it.rule_replace("all", "all:\n\tls"), MAKEFILE[MAKEFILE.index("all") :], "all:\n\tls\n"),
            (lambda it: it.rule_remove("all", nth=1), MAKEFILE[MAKEFILE.index("all") :], ""),
        )
        for edit, old, new in cases:
            with self.subTest(new):
                self.assert_edit(edit, old, new)

    def test_a_refusal_has_its_number_name_and_detail(self):
        cases = (
            (lambda it: it.set("X", "3"), (5, "Ambiguous", 2)),
            (lambda it: it.set("Y", "3"), (4, "NoSuch", None)),
            (lambda it: it.set("a b", "c"), (1, "BadArgument", "name")),
            (lambda it: it.undo(), (16, "NothingToUndo", None)),
        )
        makefile = self.open()
        for edit, wanted in cases:
            with self.subTest(wanted[1]):
                with self.assertRaises(mkedit.Refused) as caught:
                    edit(makefile)
                refused = caught.exception
                self.assertEqual((refused.number, refused.name, refused.detail), wanted)
        self.assertEqual(makefile.text(), MAKEFILE)

    def test_a_group_is_one_edit_or_none(self):
        makefile = self.open()
        with makefile.group():
            makefile.set("CC", "clang")
            makefile.unset("CFLAGS")
        makefile.undo()
        self.assertEqual(makefile.text(), MAKEFILE)
        with self.assertRaises(mkedit.Refused):
            with makefile.group():
                makefile.set("CC", "clang")
                makefile.set("Y", "1")
        self.assertEqual(makefile.text(), MAKEFILE)

    def test_a_dry_run_leaves_nothing(self):
        makefile = self.open()
        makefile.append("CC", "-m32")
        before = makefile.text(), makefile.history()
        with makefile.dry_run():
            makefile.set("CC", "clang")
            self.assertNotEqual(makefile.text(), before[0])
            with self.assertRaises(mkedit.Refused):
                makefile.set("Y", "1")
        self.assertEqual((makefile.text(), makefile.history()), before)
        with self.assertRaises(KeyError), makefile.dry_run():
            makefile.unset("CC")
            raise KeyError
        self.assertEqual((makefile.text(), makefile.history()), before)

    def test_the_file_changes_by_write_alone(self):
        makefile = self.open()
        makefile.set("CC", "clang")
        self.assertEqual(self.path.read_text(), MAKEFILE)
        makefile.write()
        self.assertEqual(self.path.read_text(), MAKEFILE.replace("gcc", "clang"))
        makefile.revert()
        self.assertEqual(makefile.text(), MAKEFILE)
        self.path.write_text("all:\n")
        with self.assertRaises(mkedit.Fault):
            makefile.write()
        makefile.write(anyway=True)
        self.assertEqual(self.path.read_text(), MAKEFILE)

    def test_what_the_makefile_has(self):
        makefile = self.open()
        self.assertEqual(makefile.lines(2, 3), "CFLAGS = -O2 -Werror\nX = 1\n")
        self.assertEqual(makefile.diff(), "")
        self.assertEqual([(it.name, it.value) for it in makefile.vars()][::3], [("CC", "gcc"), ("X", "2")])
        self.assertEqual([it.prerequisites for it in makefile.rules()], [("a.o", "b.o")])
        self.assertEqual([(it.number, it.text) for it in makefile.recipes()][1:], [(2, "rm -f x")])
        self.assertEqual((makefile.check(), makefile.caveats()), ("", ""))
        self.assertIn("NoSuch", makefile.explain("4"))
        makefile.set("CC", "clang")
        self.assertIn("\n-CC = gcc # c\n+CC = clang # c\n", makefile.diff())

    def test_what_is_of_one_name(self):
        makefile = self.open()
        self.assertEqual((makefile.get("CC"), makefile.get("X", nth=2)), ("gcc", "2"))
        with self.assertRaises(mkedit.Refused) as caught:
            makefile.get("X")
        self.assertEqual(caught.exception.number, 5)
        self.assertEqual([(it.line, it.value) for it in makefile.vars("X")], [(3, "1"), (4, "2")])
        self.assertEqual([it.line for it in makefile.rules("all")], [6])
        self.assertEqual((makefile.rules("b.o"), makefile.recipes("b.o")), ([], []))
        self.assertIn("set NAME VALUE", makefile.help("set"))
        for name in ("", "a b", "a\nundo"):
            with self.assertRaises(ValueError):
                makefile.get(name)

    def test_history_has_what_can_be_undone_and_redone(self):
        makefile = self.open()
        makefile.set("CC", "clang")
        makefile.unset("CFLAGS")
        makefile.undo()
        told = [(it.kind, it.commands) for it in makefile.history()]
        self.assertEqual(told, [("undo", ("set CC clang",)), ("redo", ("unset CFLAGS",))])

    def test_another_file_may_be_written(self):
        makefile, other = self.open(), self.path.parent / "other"
        makefile.set("CC", "clang")
        makefile.write_to(other)
        self.assertEqual(other.read_text(), MAKEFILE.replace("gcc", "clang"))
        self.assertEqual(self.path.read_text(), MAKEFILE)

    def test_a_makefile_may_be_new(self):
        path = self.path.parent / "fresh.mk"
        with mkedit.open(path, program=PROGRAM, new=True) as makefile:
            makefile.assign(mkedit.BOTTOM, "X", "=", "1")
            self.assertFalse(path.exists())
            makefile.write()
        self.assertEqual(path.read_text(), "X = 1\n")

    def test_bytes_that_are_no_text_stay(self):
        self.path.write_bytes(b"A = \xff\nB = 1")
        makefile = self.open()
        self.assertEqual(makefile.text(), "A = \udcff\nB = 1")
        makefile.append("A", "\udcfe")
        makefile.write()
        self.assertEqual(self.path.read_bytes(), b"A = \xff \xfe\nB = 1")

    def test_a_line_feed_is_in_no_command(self):
        makefile = self.open()
        with self.assertRaises(ValueError):
            makefile.set("CC", "a\nundo")
        makefile.set("CC", "clang")

    def test_what_cannot_be_opened(self):
        for path in (self.folder / "none", self.folder, "", "-"):
            with self.subTest(path):
                with self.assertRaisesRegex(mkedit.Fault, "^mkedit: |^error: "):
                    mkedit.open(path, program=PROGRAM)
        with self.assertRaises(ValueError):
            mkedit.open("a\0b", program=PROGRAM)

    def test_the_depth_bounds_what_can_be_undone(self):
        makefile = self.open(depth=1)
        makefile.set("CC", "clang")
        makefile.unset("CFLAGS")
        makefile.undo()
        with self.assertRaises(mkedit.Refused):
            makefile.undo()
        with self.assertRaises(mkedit.Fault):
            makefile.revert()


if __name__ == "__main__":
    unittest.main()
