"""Tests of the objects and texts that a session answers."""

import subprocess
import unittest

import mkedit
from mkedit import Assignment, Condition, Line, RecipeLine, Rule, Step

from .cases import MAKEFILE, PROGRAM, ClientCase

TOLD = """\
ifdef A
CC ?= gcc # c
else ifdef B
export CC := \\
  clang
debug: override CFLAGS += -g
endif
all x: a.o | out ; echo
\tcc \\
 -o $@
a.o b.o: %.o: %.c
$(call it)
\tX = 1
ifdef C
"""
A, B = Line(1, "ifdef A"), Line(3, "else ifdef B")


class Found(ClientCase):
    def told(self, text=TOLD):
        """A session over a makefile with this text, and how objects on its lines begin."""
        self.path.write_bytes(text if isinstance(text, bytes) else text.encode())
        return self.open(), str(self.path)

    def test_assignments(self):
        makefile, file = self.told()
        in_a, in_b = (Condition(A, A),), (Condition(B, A),)
        self.assertEqual(
            makefile.vars(),
            [
                Assignment(file, 2, 1, in_a, (), "CC", "?=", "gcc", nth=1),
                Assignment(file, 4, 1, in_b, ("export",), "CC", ":=", "clang", nth=2),
                Assignment(file, 6, 1, in_b, ("override",), "CFLAGS", "+=", "-g", ("debug",), ":"),
            ],
        )
        self.assertEqual([it.line for it in makefile.vars("CC")], [2, 4])
        self.assertEqual(makefile.vars("DD"), [])

    def test_rules(self):
        makefile, file = self.told()
        first, second = makefile.rules()
        self.assertEqual(first, Rule(file, 8, 0, (), ("all", "x"), ":", ("a.o",), ("out",), None, " echo"))
        self.assertEqual(second, Rule(file, 11, 0, (), ("a.o", "b.o"), ":", ("%.c",), (), "%.o"))
        self.assertEqual((makefile.rules("b.o"), makefile.rules("no")), ([second], []))

    def test_numbers_are_those_that_edits_take(self):
        makefile, _ = self.told("X = 1\nt: X = 2\nX += 3\na b:\nb c:\nX = 4\nc a:\nb:\n")
        self.assertEqual([it.nth for it in makefile.vars()], [1, None, 2, 3])
        self.assertEqual([it.nth for it in makefile.vars("X")], [1, None, 2, 3])
        self.assertEqual([(it.targets[0], it.nth) for it in makefile.rules()], [("a", 1), ("b", 2), ("c", 2), ("b", 3)])
        self.assertEqual([(it.line, it.nth) for it in makefile.rules("a")], [(4, 1), (7, 2)])
        for it in makefile.vars("X")[2:]:
            makefile.set("X", f"line {it.line}", nth=it.nth)
        makefile.depend("c", "d", nth=makefile.rules("c")[1].nth)
        lines = ["X = 1", "t: X = 2", "X += line 3", "a b:", "b c:", "X = line 6", "c a: d", "b:"]
        self.assertEqual(makefile.text().splitlines(), lines)

    def test_recipe_lines(self):
        makefile, file = self.told()
        wanted = [RecipeLine(file, 9, 0, (), ("all", "x"), 1, "cc -o $@")]
        self.assertEqual((makefile.recipes(), makefile.recipes("x")), (wanted, wanted))
        self.assertEqual(makefile.recipes("a.o"), [])
        makefile.recipe_set("all", makefile.recipes()[0].number, "ls")
        self.assertEqual(makefile.recipes()[0].text, "ls")
        makefile, _ = self.told("a:: ; x\na:: b\n\ty\nb a::\n\tz\n")
        self.assertEqual([(it.text, it.nth) for it in makefile.recipes()], [("y", 2), ("z", 1)])
        for it in makefile.recipes("a"):
            makefile.recipe_set("a", it.number, f"line {it.line}", nth=it.nth)
        self.assertEqual(makefile.text(), "a:: ; x\na:: b\n\tline 3\nb a::\n\tline 5\n")

    def test_conditions_inside_each_other(self):
        makefile, _ = self.told("ifdef A\nifdef B\nelse\nX = 1\nendif\nt:\n\tx\nelse\n\ty\nendif\n")
        in_a, in_else = Condition(A, A), Condition(Line(8, "else"), A)
        [assignment] = makefile.vars()
        self.assertEqual(assignment.conditions, (in_a, Condition(Line(3, "else"), Line(2, "ifdef B"))))
        self.assertEqual([(it.line, it.conditions) for it in makefile.recipes()], [(7, (in_a,)), (9, (in_else,))])

    def test_objects_are_values(self):
        makefile, _ = self.told()
        for told in (makefile.vars(), makefile.rules(), makefile.recipes(), makefile.history()):
            self.assertEqual(len({*told}), len(told))
            for it in told:
                with self.assertRaises(AttributeError):
                    it.line = 1

    def test_bytes_that_are_not_utf_8(self):
        makefile, _ = self.told(b"X\xff = \xc3\xa4\xfe\nall\xfd: \xc3\xa4\n\tcc \xfc\n")
        name, value, target, word = "X\udcff", "ä\udcfe", "all\udcfd", "ä"
        [assignment], [rule], [line] = makefile.vars(name), makefile.rules(target), makefile.recipes(target)
        self.assertEqual((assignment.name, assignment.value), (name, value))
        self.assertEqual((rule.targets, rule.prerequisites), ((target,), (word,)))
        self.assertEqual((line.targets, line.text), ((target,), "cc \udcfc"))
        makefile.recipe("all\udcfd", "\udcfb")
        self.assertEqual(makefile.history()[0].commands, ("recipe all\udcfd \udcfb",))

    def test_check_and_caveats_are_what_the_program_prints(self):
        texts = (TOLD, MAKEFILE, "", "define A\n", "foo: a\\ b\nifdef A\n$(x)\n\tX = 1\ndefine B\n")
        for text in texts:
            makefile, file = self.told(text)
            for query in ("check", "caveats"):
                printed = subprocess.run([PROGRAM, query, file], stdout=subprocess.PIPE, check=True).stdout
                with self.subTest(text=text, query=query):
                    self.assertEqual(getattr(makefile, query)(), printed.decode())
        self.assertIn("end: conditionals 1\nend: defines 1\n", makefile.check())

    def test_texts_have_each_byte(self):
        for text in (b"", b"\n", b"A = 1", b"A = 1\n\n", b"A = 1\r\nB = \xff\x01\n\n\xe2\x80\xa8", b"A = \xc3\xa4"):
            with self.subTest(text):
                makefile, _ = self.told(text)
                self.assertEqual(makefile.text(), text.decode("utf-8", "surrogateescape"))
                self.assertEqual(makefile.lines(1, 999), makefile.text())


class History(ClientCase):
    def test_steps(self):
        makefile = self.open()
        self.assertEqual(makefile.history(), [])
        makefile.set("CC", "clang")
        with makefile.group():
            makefile.set("X", "a b", nth=2)
            makefile.assign(mkedit.BOTTOM, "Y", "=", "1")
            is_open = Step("open", ('nth 2 set X "a b"', "assign bottom Y = 1"), True)
            alone = Step("undo", ("set CC clang",), False)
            self.assertEqual(makefile.history(), [is_open, alone])
        self.assertEqual(makefile.history(), [is_open._replace(kind="undo"), alone])
        makefile.undo()
        self.assertEqual(makefile.history(), [alone, is_open._replace(kind="redo")])
        makefile.undo()
        self.assertEqual(makefile.history(), [alone._replace(kind="redo"), is_open._replace(kind="redo")])
        with makefile.group():
            self.assertEqual(makefile.history()[0], Step("open", (), True))

    def test_the_script_of_the_edits_that_stand(self):
        makefile = self.open(depth=2)
        self.assertEqual(makefile.script(), "")
        makefile.set("CC", 'a "b\udcff" ;')
        makefile.unset("CFLAGS")
        makefile.undo()
        with makefile.group():
            makefile.set_all("X", "")
            makefile.unset("X", nth=2)
        makefile.rule(mkedit.BOTTOM, "x y", "::", "")
        with makefile.group():
            makefile.recipe("all", "end")
            script = makefile.script()
            made = mkedit.edit(MAKEFILE, script, program=PROGRAM)
            self.assertEqual(made, makefile.text().encode(errors="surrogateescape"))
        self.assertEqual((makefile.script(), script.count("\n")), (script, 5))
        makefile.undo()
        self.assertEqual(makefile.script().count("\n"), 4)

    def test_commands_have_their_blocks(self):
        makefile = self.open()
        with makefile.group():
            makefile.insert(mkedit.TOP, "# a\n# b; end")
            makefile.set("CC", "<<E")
            makefile.line_replace("X = 1\nX = 2", "X = 3\n# undo x")
        makefile.insert(mkedit.before_line("X = 3"), "# c\nEND0")
        alone, group = makefile.history()
        self.assertEqual(alone.commands, ('insert before-line "X = 3" <<END1\n# c\nEND0\nEND1',))
        self.assertEqual(group.commands[0], "insert top <<END0\n# a\n# b; end\nEND0")
        self.assertEqual(group.commands[1:2], ('set CC "<<E"',))
        self.assertEqual(len(group.commands), 3)
        made = mkedit.edit(MAKEFILE, makefile.script(), program=PROGRAM)
        self.assertEqual(made, makefile.text().encode())

    def test_the_commands_of_a_group_are_told_apart(self):
        makefile = self.open()
        lines = ("ls; pwd", "ls;", '"; end', "end", "; begin; ls", 'a\\" ; "b', ";", "begin", "\\;x", 'x"; "', "a\f")
        with makefile.group():
            for line in lines:
                makefile.recipe("all", line)
        makefile.recipe("all", "begin; ls; end")
        alone, group = makefile.history()
        self.assertEqual((alone.is_group, alone.commands), (False, ('recipe all "begin; ls; end"',)))
        self.assertEqual((group.is_group, len(group.commands)), (True, len(lines)))
        script = "".join(f"{it}\n" for it in group.commands)
        subprocess.run([PROGRAM, "edit", "-i", "-", str(self.path)], input=script.encode(), check=True)
        self.assertEqual([it.text for it in self.open().recipes()][2:], [*lines])


if __name__ == "__main__":
    unittest.main()
