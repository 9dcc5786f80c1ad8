"""Tests of `mkedit session`: each line is answered before the next, and FILE changes by a write alone.

The replies are those of docs/PROTOCOL.md, and answers those of the other commands of the program.
"""

import os
import re

from tests import TOP
from tests.lib.checks import SECONDS, Outcome
from tests.lib.rooms import ANSWERS, READ_FAULT, TEXT, TOO_DEEP, WRITE_FAULT, RoomCase, cannot_open
from tests.lib.talks import GREETING, Talk

PAGE = TOP / "docs/PROTOCOL.md"
UNWRITTEN = "fault unwritten changes"
CHANGED = "fault Makefile has changed"


class Session(RoomCase):
    def talk(self, *words, **how):
        talk = Talk(self.room, *words, **how)
        self.addCleanup(talk.__exit__)
        self.assertEqual(talk.greeting, GREETING)
        return talk

    def assert_replies(self, talk, *pairs):
        for line, reply in pairs:
            self.assertEqual(talk.reply(line), reply, line)

    def assert_talk(self, lines, wanted, *words):
        """A whole talk at once; wanted is what follows the greeting."""
        self.assert_run(Outcome(GREETING + wanted, b"", 0), "session", *words, given=lines)

    def test_each_command_is_answered_before_the_next(self):
        talk = self.talk("Makefile")
        self.assert_replies(
            talk,
            ("set CC clang", "ok"),
            ("set Y 1", "refused 4 NoSuch"),
            ("try set Y 1", "ok"),
            ("undo", "ok"),
            ("undo", "refused 16 NothingToUndo"),
            ("redo", "ok"),
            ("begin", "ok"),
            ("undo", "refused 18 GroupOpen"),
            ("append CC -O2", "ok"),
            ("cancel", "ok"),
            ("end", "refused 19 NoGroup"),
            ("frobnicate", "fault not a command"),
            ("or set CC gcc", "fault not a command"),
        )
        self.assertEqual(talk.answer("print"), b"CC = clang # c\n")

    def test_comments_and_blank_lines_have_no_reply(self):
        self.assert_talk(b"\n# set CC clang\n \t\r\nundo\r\n", b"refused 16 NothingToUndo\n", "Makefile")

    def test_a_last_line_needs_no_line_feed(self):
        self.assert_talk(b"set CC clang\nprint", b"ok\n| CC = clang # c\nok\n", "Makefile")

    def test_a_line_that_is_too_long_is_skipped(self):
        long, short = b"x" * 65_536, b"x" * 65_535
        lines = long + b"\nprint\n" + short + b"\n"
        wanted = b"fault line too long\n| CC = gcc # c\nok\nfault not a command\n"
        self.assert_talk(lines, wanted, "Makefile")

    def test_print_has_the_lines_from_one_number_to_another(self):
        self.room.write("lines", b"A = 1\nB = \\\n2\n\nC = 3")
        wanted = {
            "print": b"A = 1\nB = \\\n2\n\nC = 3",
            " print\t1 5 ": b"A = 1\nB = \\\n2\n\nC = 3",
            "print 2 3": b"B = \\\n2\n",
            "print 4": b"\nC = 3",
            "print 0 1": b"A = 1\n",
            "print 5 999999999": b"C = 3",
            "print 6": b"",
            "print 3 2": b"",
        }
        talk = self.talk("lines")
        for line, text in wanted.items():
            self.assertEqual(talk.answer(line), text, line)
        for line in ("print x", "print 1 x", "print -1", "print 1 2 3", "print 1234567890", "Print"):
            self.assertEqual(talk.reply(line), "fault not a command", line)

    def test_a_last_line_without_a_line_feed_can_be_told(self):
        self.room.write("open", b"| X = 1\n|~ Y = 2")
        self.assert_talk(b"print\n", b"| | X = 1\n|~ |~ Y = 2\nok\n", "open")

    def test_an_empty_makefile_has_an_empty_answer(self):
        self.assert_talk(b"print\ndiff\nvars\nquit\n", b"ok\nok\nok\nok\n", "empty")

    def test_queries_are_answered_as_the_program_does(self):
        talk = self.talk("queried")
        for query, answer in ANSWERS.items():
            self.assertEqual(talk.answer(query), answer, query)
        self.assert_replies(talk, ("set CC clang", "ok"), ("vars --name CC", "fault not a command"))
        self.assertEqual(talk.answer("vars"), b"2:1: CC = clang\n")

    def test_a_diff_is_that_of_the_program(self):
        talk = self.talk("./Makefile")
        self.assertEqual(talk.answer("diff"), b"")
        self.assertEqual(talk.reply("set CC clang"), "ok")
        wanted = self.room.run("edit", "--diff", "script", "./Makefile").stdout
        self.assertTrue(wanted)
        self.assertEqual(talk.answer("diff"), wanted)
        self.assertEqual(talk.reply("write"), "ok")
        self.assert_holds("Makefile", b"CC = clang # c\n")
        self.assertEqual(talk.answer("diff"), wanted)
        self.assertEqual(talk.reply("undo"), "ok")
        self.assertEqual(talk.answer("diff"), b"")

    def test_explain_says_what_the_program_says(self):
        talk = self.talk("Makefile")
        for word in ("4", "NoSuch", "ambiguous"):
            self.assertEqual(talk.answer(f"explain {word}"), self.room.run("explain", word).stdout)
        self.assert_replies(
            talk,
            ("explain 99", "fault no such refusal"),
            ("explain", "fault not a command"),
            ("explain 4 5", "fault not a command"),
        )

    def test_get_vars_rules_and_recipes_are_those_of_one_name(self):
        self.room.write("many", b"X = 1\nX = 2 # c\nall: a\n\tcc\nb all:\n\tld\nc:\n\tls\n")
        talk = self.talk("many")
        for query, option, word in (
            ("vars", "--name", "X"),
            ("vars", "--name", "Y"),
            ("rules", "--target", "all"),
            ("recipes", "--target", "all"),
        ):
            wanted = self.room.run(query, option, word, "many").stdout
            self.assertEqual(talk.answer(f"{query} {word}"), wanted, (query, word))
        self.assertEqual(talk.answer("nth 2 get X"), b"2\n")
        self.assert_replies(
            talk,
            ("get X", "refused 5 Ambiguous 2"),
            ("get Y", "refused 4 NoSuch"),
            ("nth 3 get X", "refused 4 NoSuch"),
            ("nth 0 get X", "refused 4 NoSuch"),
            ("get a:b", "refused 1 BadArgument name"),
            ("unset Y", "refused 4 NoSuch"),
            ("nth 1 unset X", "ok"),
            ("get X Y", "fault not a command"),
            ("nth x get X", "fault not a command"),
        )
        self.assertEqual(talk.answer("get X"), b"2\n")

    def test_an_edit_whose_line_would_be_misread_changes_nothing(self):
        self.room.write("folded", b"F = a \\\n  b # c\n")
        talk = self.talk("folded")
        self.assert_replies(
            talk,
            ("prepend F x", "ok"),
            ("replace F a $(y)", "ok"),
            ('subst F ) ""', "refused 21 Misread"),
            ('try subst F ) ""', "refused 21 Misread"),
            ('try subst F q ""', "ok"),
            ('subst F " b" ""', "ok"),
            ("operator F :=", "ok"),
            ("nth 2 operator F =", "refused 4 NoSuch"),
            ("operator F ==", "fault not a command"),
        )
        self.assertEqual(talk.answer("print"), b"F := x $(y) # c\n")
        wanted = b'undo operator F :=\nundo subst F " b" ""\nundo replace F a $(y)\nundo prepend F x\n'
        self.assertEqual(talk.answer("history"), wanted)

    def test_a_word_goes_beside_another(self):
        self.room.write("listed", b"S = a.c \\\n    b.c # c\nT = a a\n")
        talk = self.talk("listed")
        self.assert_replies(
            talk,
            ("add-after S a.c x.c", "ok"),
            ("add-after S b.c y.c", "ok"),
            ("add-before S a.c w.c", "ok"),
            ("add-after S a.c b.c", "refused 7 Already"),
            ("try add-after S a.c b.c", "ok"),
            ("add-before S q.c z.c", "refused 6 Absent"),
            ("add-before T a b", "refused 5 Ambiguous 2"),
            ('add-before T "a b" b', "refused 1 BadArgument word"),
            ('add-before T a ""', "refused 1 BadArgument new"),
            ("nth 2 add-before T a b", "refused 4 NoSuch"),
            ("all add-after S a.c z.c", "fault not a command"),
            ("undo", "ok"),
        )
        self.assertEqual(talk.answer("get S"), b"a.c x.c b.c y.c\n")
        wanted = b"S = a.c \\\n    x.c \\\n    b.c \\\n    y.c # c\nT = a a\n"
        self.assertEqual(talk.answer("print"), wanted)

    def test_whole_lines_come_and_go(self):
        self.room.write("lines", b"include a.mk\nifdef A\nX = 1\nendif\n# c\n# c\n")
        talk = self.talk("lines")
        self.assert_replies(
            talk,
            ('insert top "# ours"', "ok"),
            ('insert top "# ours"', "refused 7 Already"),
            ('try insert top "# ours"', "ok"),
            ('insert after-line "include a.mk" "-include b.mk"', "ok"),
            ('line-replace "ifdef A" "ifndef A"', "ok"),
            ("line-remove endif", "refused 21 Misread"),
            ('line-remove "# c"', "refused 5 Ambiguous 2"),
            ('nth 2 line-remove "# c"', "ok"),
            ('nth 2 line-remove "# c"', "refused 4 NoSuch"),
            ("insert bottom a\\", "refused 1 BadArgument block"),
            ("insert before-line a\\ b", "refused 1 BadArgument place"),
            ("line-replace a\\ b", "refused 1 BadArgument old"),
            ("nth 1 insert top x", "fault not a command"),
            ("all line-remove X", "fault not a command"),
            ("undo", "ok"),
            ('insert bottom "<<E"', "ok"),
        )
        wanted = b"# ours\ninclude a.mk\n-include b.mk\nifndef A\nX = 1\nendif\n# c\n# c\n<<E\n"
        self.assertEqual(talk.answer("print"), wanted)
        wanted = b'undo insert bottom "<<E"\nundo line-replace "ifdef A" "ifndef A"\n'
        wanted += b'undo insert after-line "include a.mk" "-include b.mk"\nundo insert top "# ours"\n'
        self.assertEqual(talk.answer("history"), wanted)

    def test_one_reply_follows_the_lines_of_blocks(self):
        self.room.write("lines", b"X = 1\n# c\nX = 1\n# c\n")
        talk = self.talk("lines")
        self.assert_replies(
            talk,
            ("insert top <<E\n# 1\n\nset X 1\nE", "ok"),
            ("try line-replace <<OLD <<NEW\n# 1\n\nOLD\n# 2\nNEW", "ok"),
            ("line-remove <<E\nX = 1\n# c\nE", "refused 5 Ambiguous 2"),
            ("nth 2 line-remove <<E \r\nX = 1\r\n# c\r\nE\r", "ok"),
            ("insert before-line <<E <<E\n# 2\nset X 1\nE\n# 0\n# 1\nE", "ok"),
            ("insert bottom <<E\nifdef A\nX = 2\nE", "refused 21 Misread"),
            ("insert bottom <<E\n# c\\\nE", "refused 1 BadArgument block"),
            ("insert bottom <<E\nE", "fault not a command"),
            ("insert bottom <<E x\n# d\nE", "fault not a command"),
            ("insert nowhere <<E", "fault not a command"),
            ("set X <<E", "ok"),
            ("or line-remove <<E\n# 0\n# 1\nE", "fault not a command"),
            ("line-replace # <<E\nquit\nE", "refused 4 NoSuch"),
            ("undo", "ok"),
        )
        wanted = b"# 0\n# 1\n# 2\nset X 1\nX = 1\n# c\n"
        self.assertEqual(talk.answer("print"), wanted)

    def test_history_has_the_lines_of_blocks_below_their_commands(self):
        talk = self.talk("Makefile")
        self.assert_replies(
            talk,
            (" insert top <<E \r\n# 1 \r\n\r\nE\r", "ok"),
            ("begin", "ok"),
            ("line-replace <<A <<B\n# 1 \n\nA\n# 2\nB", "ok"),
            ("set CC clang", "ok"),
            ("insert bottom <<E\nendif\nE", "ok"),
        )
        group = b"begin; line-replace <<A <<B; set CC clang; insert bottom <<E"
        lines, first = b"# 1 \n\nA\n# 2\nB\nendif\nE\n", b"undo insert top <<E\n# 1 \n\nE\n"
        self.assertEqual(talk.answer("history"), b"open " + group + b"\n" + lines + first)
        self.assert_replies(talk, ("end", "ok"), ("undo", "ok"))
        self.assertEqual(talk.answer("history"), first + b"redo " + group + b"; end\n" + lines)

    def test_an_input_that_ends_within_a_block_is_no_command(self):
        self.assert_talk(b"insert top <<E\n# a\n", b"fault not a command\n", "Makefile")
        self.assert_talk(b"set CC clang\nline-remove <<E\nquit", b"ok\nfault not a command\n", "Makefile")

    def test_an_edit_of_several_lines_is_one_edit(self):
        recipes = b"all: x\n\tcc one; \\\n\tld one\nall: y\n\trm one\nother:\n\trm two\n"
        self.room.write("several", b"A = one two # c\nA += one\nB = two\n" + recipes)
        talk = self.talk("several")
        self.assert_replies(
            talk,
            ("all prepend A zero", "ok"),
            ("all replace A one 1", "ok"),
            ("all replace A one 1", "refused 6 Absent"),
            ("try all replace A one 1", "ok"),
            ("all subst A two 2", "ok"),
            ("all subst C two 2", "refused 4 NoSuch"),
            ("all operator A :=", "ok"),
            ("all operator A ==", "fault not a command"),
            ("all prepend .RECIPEPREFIX x", "refused 2 Reserved"),
            ("all add-after A zero x", "fault not a command"),
            ("nth 1 all prepend A x", "fault not a command"),
            ("values-subst two 2", "ok"),
            ('values-subst 2 "x # y"', "refused 21 Misread"),
            ("values-subst two 2", "refused 6 Absent"),
            ("nth 1 values-subst 2 3", "fault not a command"),
            ("nth 2 recipe-subst all one 1", "ok"),
            ("nth 2 recipe-subst all one 1", "refused 6 Absent"),
            ("nth 3 recipe-subst all one 1", "refused 4 NoSuch"),
            ('recipe-subst all "; \\\\" " && \\\\"', "ok"),
            ("recipe-subst include a b", "refused 2 Reserved"),
            ('recipe-subst "a b" a b', "refused 1 BadArgument target"),
            ('recipes-subst one "one \\\\"', "refused 21 Misread"),
            ('recipes-subst "" x', "refused 1 BadArgument from"),
            ('recipes-subst rm "rm -f"', "ok"),
            ("try recipes-subst q z", "ok"),
            ("undo", "ok"),
            ("redo", "ok"),
        )
        recipes = b"all: x\n\tcc one && \\\n\tld one\nall: y\n\trm -f 1\nother:\n\trm -f two\n"
        wanted = b"A := zero 1 2 # c\nA := zero 1\nB = 2\n" + recipes
        self.assertEqual(talk.answer("print"), wanted)
        self.assertTrue(talk.answer("history").startswith(b'undo recipes-subst rm "rm -f"\nundo recipe-subst all '))

    def test_help_says_what_the_program_says(self):
        talk = self.talk("Makefile")
        for word in ("set", "recipe-insert", "add-after", "line-replace", "values-subst", "or"):
            self.assertEqual(talk.answer(f"help {word}"), self.room.run("help", word).stdout)
        for word in ("vars", "Set", "\udcff"):
            line = f"help {word}".encode("utf-8", "surrogateescape")
            self.assertEqual(talk.reply(line), "fault no such command")
        told = talk.answer("help").decode().split()
        forms = self.room.run("edit", "--help").stdout.decode().split("blank:\n")[1].split("PLACE is")[0]
        words = set(re.findall(r"(?:^| {2,})([a-z][a-z-]*)", forms, re.M))
        shown = self.room.run("session", "--help").stdout.decode().split("or a request:\n")[1].split("Each is")[0]
        self.assertEqual((words | set(shown.split())) - set(told), {"help", "COMMAND"})

    def test_history_has_what_can_be_undone_and_redone(self):
        talk = self.talk("-d", "3", "Makefile")
        self.assertEqual(talk.answer("history"), b"")
        self.assert_replies(
            talk,
            ("set CC a", "ok"),
            (' set  CC "b c" \r', "ok"),
            ("try unset Y", "ok"),
            ("set Y 1", "refused 4 NoSuch"),
            ("begin", "ok"),
            ("set CC d", "ok"),
            ("assign bottom X = 1", "ok"),
        )
        wanted = b'open begin; set CC d; assign bottom X = 1\nundo set  CC "b c"\nundo set CC a\n'
        self.assertEqual(talk.answer("history"), wanted)
        self.assertEqual(talk.reply("end"), "ok")
        self.assert_replies(talk, ("undo", "ok"), ("undo", "ok"))
        wanted = b'undo set CC a\nredo set  CC "b c"\nredo begin; set CC d; assign bottom X = 1; end\n'
        self.assertEqual(talk.answer("history"), wanted)
        self.assert_replies(talk, ("begin", "ok"), ("end", "ok"), ("redo", "ok"), ("redo", "ok"))
        self.assert_replies(talk, ("set CC e", "ok"), ("try set CC f", "ok"), ("begin", "ok"), ("set CC g", "ok"))
        self.assertEqual(talk.reply("cancel"), "ok")
        wanted = b"undo try set CC f\nundo set CC e\nundo begin; set CC d; assign bottom X = 1; end\n"
        self.assertEqual(talk.answer("history"), wanted)
        self.assertEqual(talk.reply("revert"), "fault edits beyond the depth")
        wanted = b"redo begin; set CC d; assign bottom X = 1; end\nredo set CC e\nredo try set CC f\n"
        self.assertEqual(talk.answer("history"), wanted)

    def test_the_script_of_the_edits_that_stand(self):
        talk = self.talk("-d", "2", "Makefile")
        self.assertEqual(talk.answer("script"), b"")
        self.assert_replies(
            talk,
            (' set  CC "clang" \r', "ok"),
            ("try unset NONE", "ok"),
            ("try assign bottom X = a b", "fault not a command"),
            ('try assign bottom X = "a b"', "ok"),
            ("begin", "ok"),
            ("insert top <<WORD\n# 1\nE\nWORD", "ok"),
            ("insert top <<WORD\n# 0\nWORD", "ok"),
            ("end", "ok"),
            ("set X 1", "ok"),
            ("undo", "ok"),
        )
        script = b'set CC clang\nassign bottom X = "a b"\ninsert top <<E1\n# 1\nE\nE1\ninsert top "# 0"\n'
        self.assertEqual(talk.answer("script"), script)
        self.assert_replies(talk, ("begin", "ok"), ("unset X", "ok"))
        self.assertEqual(talk.answer("script"), script + b"unset X\n")
        self.room.write("script", script + b"unset X\n")
        self.assertEqual(self.room.run("edit", "script", "Makefile").stdout, talk.answer("print"))
        self.assert_replies(talk, ("cancel", "ok"), ("revert", "fault edits beyond the depth"))
        self.assertEqual(talk.answer("script"), b'set CC clang\nassign bottom X = "a b"\n')

    def test_write_to_another_file_leaves_the_makefile_alone(self):
        self.room.write("other", b"X = 1\n", mode=0o600)
        talk = self.talk("Makefile")
        self.assert_replies(talk, ("set CC clang", "ok"), ("write other", "ok"), ("write new", "ok"))
        self.assert_holds("other", b"CC = clang # c\n")
        self.assert_holds("new", b"CC = clang # c\n")
        self.assertEqual((self.room.folder / "other").stat().st_mode & 0o777, 0o600)
        self.assert_replies(
            talk,
            ("write no/such", "fault cannot write no/such"),
            ("write .", "fault cannot write ."),
            ("write a b", "fault not a command"),
            ("write! other", "fault not a command"),
            ("quit", UNWRITTEN),
        )
        self.assert_holds("Makefile", TEXT)
        self.room.write("Makefile", b"CC = other\n")
        self.assertEqual(talk.reply("write Makefile"), CHANGED)

    def test_a_missing_makefile_may_be_opened_as_an_empty_one(self):
        talk = self.talk("--new", "fresh.mk")
        self.assertEqual(talk.answer("print"), b"")
        self.assert_replies(talk, ("assign bottom X = 1", "ok"), ("quit", UNWRITTEN))
        self.assert_holds("fresh.mk", None)
        self.assertEqual(talk.reply("write"), "ok")
        self.assert_holds("fresh.mk", b"X = 1\n")
        self.assert_replies(talk, ("set X 2", "ok"), ("write", "ok"), ("quit", "ok"))
        self.assert_holds("fresh.mk", b"X = 2\n")
        self.assert_talk(b"print\nquit\n", b"| CC = gcc # c\nok\nok\n", "--new", "Makefile")
        self.assert_talk(b"quit\n", b"ok\n", "--new", "never.mk")
        self.assert_holds("never.mk", None)
        self.assert_run(cannot_open("missing"), "session", "missing")

    def test_a_missing_makefile_that_was_made_since_is_not_overwritten(self):
        talk = self.talk("--new", "fresh.mk")
        self.assertEqual(talk.reply("assign bottom X = 1"), "ok")
        self.room.write("fresh.mk", b"Y = 1\n")
        self.assertEqual(talk.reply("write"), "fault fresh.mk has changed")
        self.assert_well(self.room.changed())
        self.assertEqual(talk.reply("write!"), "ok")
        self.assert_holds("fresh.mk", b"X = 1\n")
        talk = self.talk("--new", "no/such.mk")
        self.assert_replies(talk, ("write", "fault cannot write no/such.mk"), ("quit", "ok"))

    def test_a_makefile_that_is_there_is_opened_with_new_as_without(self):
        talk = self.talk("--new", "Makefile")
        self.assert_replies(talk, ("set CC clang", "ok"), ("write", "ok"), ("quit", "ok"))
        self.assert_holds("Makefile", b"CC = clang # c\n")
        self.assert_run(cannot_open("script/x"), "session", "--new", "script/x")

    def test_a_script_that_is_told_gives_the_text_of_a_run(self):
        script = b"set CC clang\nassign bottom X += 1\nbegin\nset X 2\ncancel\nundo\nredo\n"
        self.room.write("steps", script)
        talk = self.talk("Makefile")
        for line in script.decode().splitlines():
            self.assertEqual(talk.reply(line), "ok", line)
        self.assertEqual(talk.answer("print"), self.room.run("edit", "steps", "Makefile").stdout)

    def test_the_depth_bounds_what_is_undone(self):
        talk = self.talk("-d", "1", "Makefile")
        self.assert_replies(
            talk,
            ("set CC a", "ok"),
            ("set CC b", "ok"),
            ("revert", "fault edits beyond the depth"),
            ("undo", "refused 16 NothingToUndo"),
        )
        self.assertEqual(talk.answer("print"), b"CC = a # c\n")
        self.assertEqual(talk.reply("redo"), "ok")

    def test_revert_gives_back_the_text_that_was_opened(self):
        talk = self.talk("Makefile")
        self.assert_replies(
            talk,
            ("set CC a", "ok"),
            ("set CC b", "ok"),
            ("begin", "ok"),
            ("revert", "refused 18 GroupOpen"),
        )
        self.assertEqual(talk.answer("history"), b"open begin\nundo set CC b\nundo set CC a\n")
        self.assert_replies(talk, ("end", "ok"), ("revert", "ok"))
        self.assertEqual(talk.answer("print"), TEXT)
        self.assert_replies(talk, ("redo", "ok"), ("redo", "ok"))
        self.assertEqual(talk.answer("print"), b"CC = b # c\n")

    def test_write_puts_the_text_into_the_file_and_keeps_its_mode(self):
        self.room.write("Makefile", TEXT, mode=0o640)
        talk = self.talk("Makefile")
        self.assert_replies(talk, ("set CC clang", "ok"), ("write", "ok"))
        self.assert_holds("Makefile", b"CC = clang # c\n")
        self.assertEqual((self.room.folder / "Makefile").stat().st_mode & 0o777, 0o640)
        self.assert_replies(talk, ("undo", "ok"), ("quit", UNWRITTEN), ("write", "ok"), ("quit", "ok"))
        self.assertEqual(talk.end(), Outcome(b"", b"", 0))
        self.assert_holds("Makefile", TEXT)
        self.assertEqual(set(os.listdir(self.room.folder)), {"Makefile", *self.room.written})

    def test_a_file_that_has_changed_is_not_overwritten(self):
        talk = self.talk("Makefile")
        self.assertEqual(talk.reply("set CC clang"), "ok")
        self.room.write("Makefile", b"CC = other\n")
        self.assertEqual(talk.reply("write"), CHANGED)
        self.assert_well(self.room.changed())
        self.assertEqual(talk.reply("write!"), "ok")
        self.assert_holds("Makefile", b"CC = clang # c\n")
        self.assert_replies(talk, ("write", "ok"), ("quit", "ok"))

    def test_a_file_that_is_gone_is_not_written(self):
        talk = self.talk("Makefile")
        self.assertEqual(talk.reply("set CC clang"), "ok")
        self.room.written.pop("Makefile")
        (self.room.folder / "Makefile").unlink()
        self.assert_replies(
            talk,
            ("write", "fault cannot read Makefile"),
            ("write!", "fault cannot write Makefile"),
        )
        os.mkfifo(self.room.folder / "Makefile")
        self.assert_replies(
            talk,
            ("write", "fault cannot read Makefile"),
            ("write!", "fault cannot write Makefile"),
            ("quit", UNWRITTEN),
            ("quit", "ok"),
        )

    def test_a_fault_has_the_number_of_a_line_feed_in_the_name(self):
        self.room.write("a\nb", TEXT)
        talk = self.talk("a\nb")
        self.room.write("a\nb", b"")
        self.assertEqual(talk.reply("write"), "fault a\\012b has changed")

    def test_quit_asks_once_where_changes_are_unwritten(self):
        talk = self.talk("Makefile")
        self.assert_replies(talk, ("set CC clang", "ok"), ("quit", UNWRITTEN))
        for line, reply in (
            ("print", "ok"),
            ("qiut", "fault not a command"),
            ("append CC -g", "ok"),
            ("set Y 1", "refused 4 NoSuch"),
            ("x" * 65_536, "fault line too long"),
        ):
            self.assert_replies(talk, (line, reply), ("quit", UNWRITTEN))
        self.assert_replies(talk, ("# no reply\n \nquit", "ok"))
        self.assertEqual(talk.end(), Outcome(b"", b"", 0))

    def test_quit_ends_where_nothing_is_unwritten(self):
        self.assert_talk(b"set CC a\nundo\nquit\nundo\n", b"ok\nok\nok\n", "Makefile")
        self.assert_talk(b"quit\nundo\n", b"ok\n", "Makefile")
        self.assert_talk(b"set CC a\nquit!\nundo\n", b"ok\nok\n", "Makefile")

    def test_the_end_of_input_ends_the_session_without_a_write(self):
        self.assert_talk(b"set CC clang\n", b"ok\n", "Makefile")
        self.assert_talk(b"", b"", "Makefile")

    def test_a_closed_output_ends_the_session_without_a_write(self):
        talk = self.talk("Makefile")
        self.assertEqual(talk.reply("set CC clang"), "ok")
        talk.process.stdout.close()
        talk.process.stdin.write(b"print\nwrite\n")
        talk.process.stdin.close()
        errors = talk.process.stderr.read()
        talk.process.stderr.close()
        talk.process.stdin, talk.process.stdout, talk.process.stderr = None, None, None
        self.assertEqual((errors, talk.process.wait(SECONDS)), (WRITE_FAULT.stderr, WRITE_FAULT.status))

    def test_a_full_output_ends_the_session(self):
        with open("/dev/full", "wb") as full:
            self.assert_run(WRITE_FAULT, "session", "Makefile", given=b"write\n", stdout=full)

    def test_an_input_that_cannot_be_read_ends_the_session(self):
        self.assert_run(READ_FAULT._replace(stdout=GREETING), "session", "Makefile", closed=(0,))

    def test_a_makefile_that_cannot_be_opened_is_none(self):
        self.assert_run(cannot_open("missing"), "session", "missing")
        self.room.write("deep", b"ifdef A\n" * 257)
        self.assert_run(TOO_DEEP, "session", "deep")

    def test_the_command_line_names_one_file(self):
        self.assert_bad_command_line("session")
        self.assert_bad_command_line("session", "-")
        self.assert_bad_command_line("session", "Makefile", "script")
        self.assert_bad_command_line("session", "-d", "0", "Makefile")
        self.assert_bad_command_line("session", "-d", "+1", "Makefile")

    def test_the_page_on_the_protocol_has_every_request_and_fault(self):
        page = PAGE.read_text()
        shown = self.room.run("session", "--help").stdout.decode()
        requests = re.search(r"or a request:\n((?:    .*\n)+)", shown)[1]
        for words in re.split(r"\n| {2,}", requests.strip()):
            if words.strip():
                self.assertIn(f"`{words.strip()}`", page)
        self.assertIn(GREETING.decode(), page)
