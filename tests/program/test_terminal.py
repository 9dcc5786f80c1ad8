"""Tests of `mkedit session` at a terminal: the prompt, sentences for replies, colours, and the keys that end it.

A user types at the other side of a pseudo-terminal, and sees what the program shows. What the sentences
say is that of docs/PROTOCOL.md, "At a terminal".
"""

import fcntl
import os
import select
import signal
import subprocess
import termios
import time

from tests.lib.checks import SECONDS
from tests.lib.rooms import TEXT, RoomCase
from tests.lib.talks import GREETING
from tests.lib.terminals import END, INTERRUPT, all_shown, terminal

# The environment of a user who wants no colours.
PLAIN = {"NO_COLOR": "1"}
# What an edit shows, in colours as GNU diff 3.8 writes them with --color=always, and without.
PAINTED = b"\x1b[31m-CC = gcc # c\x1b[0m\n\x1b[32m+CC = clang # c\x1b[0m\nMakefile*> "
UNPAINTED = b"-CC = gcc # c\n+CC = clang # c\nMakefile*> "
UNWRITTEN = b"There are unwritten changes: `write` writes them, and `quit` once more drops them.\n"
TOO_LONG = b"This line is too long.\n"
NO_COMMAND = b"This is no command and no request; `help` lists them.\n"


def prepare():
    """Has the keys of the terminal reach the program, also where this process ignores the interrupt key."""
    signal.signal(signal.SIGINT, signal.SIG_DFL)
    fcntl.ioctl(0, termios.TIOCSCTTY, 0)


def environment(variables):
    """This environment with these variables, and without any other word on colours."""
    return {**{name: it for name, it in os.environ.items() if name != "NO_COLOR"}, **variables}


class User:
    """A user of a session at a terminal. What the user types is not shown, but what the program says is."""

    def __init__(self, room, side, program, variables, *words):
        command = [room.program.path, "session", *words]
        self.side = side
        how = {"stdin": program, "stdout": program, "stderr": program, "start_new_session": True}
        how["env"] = environment(variables)
        self.process = subprocess.Popen(command, cwd=room.folder, preexec_fn=prepare, **how)

    def shown(self, end):
        """What the program shows up to this end."""
        found, until = b"", time.monotonic() + SECONDS
        while not found.endswith(end):
            if not select.select([self.side], [], [], max(until - time.monotonic(), 0))[0]:
                raise AssertionError(f"{found} does not end with {end}")
            found += os.read(self.side, 4096)
        return found

    def types(self, keys, prompt=b"> "):
        """What the program says to what is typed, and its next prompt."""
        os.write(self.side, keys)
        return self.shown(prompt)

    def status(self):
        return self.process.wait(SECONDS)

    def end(self):
        self.process.kill()
        self.process.wait(SECONDS)


class Terminal(RoomCase):
    def at_terminal(self, *words, variables=PLAIN):
        """A user at a session, with these variables in its environment: as a rule those of a user who wants
        no colours."""
        side, program = self.enterContext(terminal())
        user = User(self.room, side, program, variables, *words)
        self.addCleanup(user.end)
        return user

    def assert_said(self, user, *pairs):
        for keys, said in pairs:
            self.assertEqual(user.types(keys), said, keys)

    def test_the_prompt_has_the_name_and_a_mark_for_unwritten_changes(self):
        user = self.at_terminal("Makefile")
        self.assertEqual(user.shown(b"> "), b"Makefile> ")
        self.assert_said(
            user,
            (b"set CC clang\n", b"-CC = gcc # c\n+CC = clang # c\nMakefile*> "),
            (b"# a comment\n", b"Makefile*> "),
            (b"\n", b"Makefile*> "),
            (b"undo\n", b"-CC = clang # c\n+CC = gcc # c\nMakefile> "),
            (b"redo\n", b"-CC = gcc # c\n+CC = clang # c\nMakefile*> "),
            (b"write other\n", b"other is written.\nMakefile*> "),
            (b"write\n", b"Makefile is written.\nMakefile> "),
            (b"revert\n", b"-CC = clang # c\n+CC = gcc # c\nMakefile*> "),
        )
        self.assert_holds("Makefile", b"CC = clang # c\n")

    def test_the_lines_of_blocks_have_a_prompt_of_their_own(self):
        user = self.at_terminal("Makefile")
        user.shown(b"> ")
        self.assert_said(
            user,
            (b"insert top <<E\n", b"> "),
            (b"# a\n", b"> "),
            (b"\n", b"> "),
            (b"E\n", b"+# a\n+\nMakefile*> "),
            (b"line-replace <<A <<B\n", b"> "),
            (b"# a\n", b"> "),
            (b"A\n", b"> "),
            (b"# b\n", b"> "),
            (b"B\n", b"-# a\n+# b\nMakefile*> "),
        )
        self.assertEqual(user.types(b"history\n"), b"undo line-replace <<A <<B\n# a\nA\n# b\nB\nundo insert top <<E\n# a\n\nE\nMakefile*> ")

    def test_a_makefile_that_cannot_be_opened_is_told_with_its_cause(self):
        with terminal(lines=False) as (user, program):
            got = self.room.run("session", "none", stderr=program)
            self.assertEqual((got.status, all_shown(user, program)), (3, b"mkedit: cannot open none\nnone: note: no such file\n"))

    def test_an_edit_shows_the_lines_that_it_changes_alone(self):
        lines = [b"A = 1\n"] * 4 + [b"X = 1\n"] + [b"B = 1\n"] * 4 + [b"X = 2\n", b"Y = 3"]
        self.room.write("lines", b"".join(lines))
        user = self.at_terminal("lines")
        user.shown(b"> ")
        self.assert_said(
            user,
            (b"all append X 0\n", b"-X = 1\n+X = 1 0\n-X = 2\n+X = 2 0\nlines*> "),
            (b"append Y 4\n", b"-Y = 3\n\\ No newline at end of file\n+Y = 3 4\n\\ No newline at end of file\nlines*> "),
            (b"try unset Z\n", b"Done; the text is as it was.\nlines*> "),
            (b"begin\n", b"Done; the text is as it was.\nlines*> "),
            (b"unset Y\n", b"-Y = 3 4\n\\ No newline at end of file\nlines*> "),
            (b"cancel\n", b"+Y = 3 4\n\\ No newline at end of file\nlines*> "),
        )

    def test_a_refusal_is_a_sentence_with_its_number_and_its_count(self):
        self.room.write("two", b"X = 1\nX = 2\n")
        user = self.at_terminal("two")
        user.shown(b"> ")
        self.assertEqual(
            user.types(b"set X 3\n"),
            b"refused 5 Ambiguous 2: Several assignments, rules or comments have this name, and neither `nth` nor "
            b"`all` says which are meant.\ntwo> ",
        )
        self.assertEqual(
            user.types(b"set a:b 1\n"),
            b"refused 1 BadArgument name: A field is not what it has to be.\ntwo> ",
        )
        self.assertEqual(
            user.types(b"undo\n"),
            b"refused 16 NothingToUndo: There is no edit to undo, or the depth is used up.\ntwo> ",
        )

    def test_answers_are_shown_as_they_are(self):
        self.room.write("open", b"X = 1\n| Y = 2")
        user = self.at_terminal("open")
        user.shown(b"> ")
        self.assert_said(
            user,
            (b"print\n", b"X = 1\n| Y = 2\nopen> "),
            (b"print 1 1\n", b"X = 1\nopen> "),
            (b"print 9\n", b"open> "),
            (b"vars\n", self.room.run("vars", "open").stdout + b"open> "),
            (b"explain 4\n", self.room.run("explain", "4").stdout + b"open> "),
        )

    def test_faults_are_sentences(self):
        user = self.at_terminal("-d", "1", "Makefile")
        user.shown(b"> ")
        self.assert_said(
            user,
            (b"frobnicate\n", NO_COMMAND + b"Makefile> "),
            (b"ste CC gcc\n", NO_COMMAND + b"Column 1: there is no such command; did you mean `set`?\nMakefile> "),
            (b" set CC\n", NO_COMMAND + b"Column 8: VALUE is missing\nMakefile> "),
            (b"help set it\n", NO_COMMAND + b"Makefile> "),
            (b"help frobnicate\n", b"No command of a script has this word.\nMakefile> "),
            (b"write no/such\n", b"no/such cannot be written.\nMakefile> "),
        )
        self.assertEqual(user.types(b"explain 99\n"), b"No refusal has this name or this number.\nMakefile> ")
        user.types(b"set CC a\n"), user.types(b"set CC b\n")
        self.assertEqual(
            user.types(b"revert\n"),
            b"-CC = b # c\n+CC = a # c\nAll is undone that can be; the text is another than at first.\nMakefile*> ",
        )
        self.room.write("Makefile", b"CC = other\n")
        self.assertEqual(
            user.types(b"write\n"),
            b"Makefile has changed since, and is not written; `write!` writes it.\nMakefile*> ",
        )
        self.room.written.pop("Makefile")
        (self.room.folder / "Makefile").unlink()
        self.assert_said(
            user,
            (b"write\n", b"Makefile cannot be read, and is not written.\nMakefile*> "),
            (b"write!\n", b"Makefile cannot be written.\nMakefile*> "),
        )

    def test_quit_asks_once_where_changes_are_unwritten(self):
        user = self.at_terminal("Makefile")
        user.shown(b"> ")
        user.types(b"set CC clang\n")
        self.assert_said(user, (b"quit\n", UNWRITTEN + b"Makefile*> "), (b"print\n", b"CC = clang # c\nMakefile*> "))
        self.assert_said(user, (b"quit\n", UNWRITTEN + b"Makefile*> "), (b"qiut\n", NO_COMMAND + b"Makefile*> "))
        self.assert_said(user, (b"quit\n", UNWRITTEN + b"Makefile*> "))
        os.write(user.side, b"quit\n")
        self.assertEqual(user.status(), 0)

    def test_a_line_that_is_too_long_is_no_quit(self):
        side, program = self.enterContext(terminal(lines=False))
        user = User(self.room, side, program, PLAIN, "Makefile")
        self.addCleanup(user.end)
        user.shown(b"> ")
        user.types(b"set CC clang\n")
        for keys, said in ((b"quit\n", UNWRITTEN), (b"x" * 65_536 + b"\n", TOO_LONG), (b"quit\n", UNWRITTEN)):
            for at in range(0, len(keys), 1_000):
                os.write(side, keys[at : at + 1_000])
            self.assertEqual(user.shown(b"> "), said + b"Makefile*> ")

    def test_the_end_key_is_quit(self):
        user = self.at_terminal("Makefile")
        user.shown(b"> ")
        user.types(b"set CC clang\n")
        self.assert_said(user, (END, b"\n" + UNWRITTEN + b"Makefile*> "), (b"print\n", b"CC = clang # c\nMakefile*> "))
        self.assert_said(user, (END, b"\n" + UNWRITTEN + b"Makefile*> "))
        os.write(user.side, END)
        self.assertEqual(user.status(), 0)
        user = self.at_terminal("Makefile")
        user.shown(b"> ")
        os.write(user.side, END)
        self.assertEqual((user.shown(b"\n"), user.status()), (b"\n", 0))

    def test_the_interrupt_key_ends_the_session_and_the_file_is_as_it_was(self):
        user = self.at_terminal("Makefile")
        user.shown(b"> ")
        user.types(b"set CC clang\n")
        os.write(user.side, INTERRUPT)
        self.assertEqual(user.status(), -signal.SIGINT)
        self.assert_holds("Makefile", TEXT)

    def test_a_line_may_be_as_long_as_the_terminal_gives_it(self):
        user = self.at_terminal("Makefile")
        user.shown(b"> ")
        value = b"x" * 2_000
        self.assertEqual(
            user.types(b"set CC " + value + b"\n"), b"-CC = gcc # c\n+CC = " + value + b" # c\nMakefile*> "
        )

    def test_an_edit_is_shown_in_colours_unless_they_are_unwanted(self):
        for words, variables, shown in (
            ((), {}, PAINTED),
            (("--color=auto",), {"NO_COLOR": ""}, PAINTED),
            ((), {"NO_COLOR": "1"}, UNPAINTED),
            (("--color", "never"), {}, UNPAINTED),
            (("--color=always",), {"NO_COLOR": "1"}, PAINTED),
        ):
            user = self.at_terminal(*words, "Makefile", variables=variables)
            user.shown(b"> ")
            self.assertEqual(user.types(b"set CC clang\n"), shown, (words, variables))

    def test_the_lines_that_change_alone_have_colours(self):
        self.room.write("lines", b"X = 1\nB = 1\nB = 1\nX = 2\r\nC = 1\nY = 3")
        user = self.at_terminal("lines", variables={})
        user.shown(b"> ")
        red, green, plain = b"\x1b[31m", b"\x1b[32m", b"\x1b[0m"
        self.assert_said(
            user,
            (
                b"nth 2 append X 0\n",
                red + rb"-X = 2\015" + plain + b"\n" + green + rb"+X = 2 0\015" + plain + b"\nlines*> ",
            ),
            (
                b"set Y 4\n",
                red + b"-Y = 3" + plain + b"\n\\ No newline at end of file\n"
                + green + b"+Y = 4" + plain + b"\n\\ No newline at end of file\nlines*> ",
            ),
            (b"try unset Z\n", b"Done; the text is as it was.\nlines*> "),
        )
        for keys in (b"print\n", b"vars\n", b"history\n", b"unset Z\n", b"explain 4\n", b"frobnicate\n", b"quit\n"):
            self.assertNotIn(b"\x1b", user.types(keys), keys)

    def test_a_diff_is_shown_as_edit_prints_it_at_a_terminal(self):
        self.room.write("script", b"set CC clang\n")
        for word in ("always", "never"):
            wanted = self.room.run("edit", "--diff", f"--color={word}", "script", "Makefile").stdout
            user = self.at_terminal(f"--color={word}", "Makefile", variables={})
            user.shown(b"> ")
            user.types(b"set CC clang\n")
            self.assert_said(user, (b"diff\n", wanted + b"Makefile*> "))

    def test_what_is_no_terminal_gets_no_colours_unless_they_are_asked_for(self):
        for words, shown in ((("Makefile",), UNPAINTED), (("--color=always", "Makefile"), PAINTED)):
            side, program = self.enterContext(terminal())
            os.write(side, b"set CC clang\nquit!\n")
            got = self.room.run("session", *words, stdin=program, env=environment({}))
            self.assertEqual(got.stdout, b"Makefile> " + shown, words)

    def test_the_protocol_has_no_colours(self):
        user = self.at_terminal("--protocol", "--color=always", "Makefile", variables={})
        self.assertEqual(user.shown(b"\n"), GREETING)
        self.assertEqual(user.types(b"set CC clang\n", b"\n"), b"ok\n")
        self.assertNotIn(b"\x1b", user.types(b"diff\n", b"ok\n"))

    def test_words_of_other_programs_write_and_end(self):
        user = self.at_terminal("Makefile")
        user.shown(b"> ")
        user.types(b"set CC clang\n")
        self.assertEqual(user.types(b"q\n"), UNWRITTEN + b"Makefile*> ")
        self.assert_said(user, (b" w\n", b"Makefile is written.\nMakefile> "), (b"save\n", b"Makefile is written.\nMakefile> "))
        self.assertEqual(user.types(b"q all\n"), NO_COMMAND + b"Makefile> ")
        os.write(user.side, b"exit\n")
        self.assertEqual(user.status(), 0)
        self.assert_holds("Makefile", b"CC = clang # c\n")

    def test_an_end_of_commands_from_a_pipe_says_at_a_terminal_what_is_not_written(self):
        note = b"mkedit: note: the input has ended, and the changes are not written\n"
        for given, said in (
            (b"set CC clang\n", note),
            (b"set CC clang\nfrobnicate", note),
            (b"set CC clang\nquit\n", b""),
            (b"set CC clang\nquit!\n", b""),
            (b"set CC clang\nundo\n", b""),
            (b"vars\n", b""),
        ):
            with terminal() as (side, program):
                words = [self.room.program.path, "session", "Makefile"]
                how = {"input": given, "stdout": subprocess.PIPE, "stderr": program, "cwd": self.room.folder}
                self.assertEqual(subprocess.run(words, **how, check=False).returncode, 0)
                self.assertEqual(all_shown(side, program), said, given)

    def test_the_protocol_can_be_asked_for_at_a_terminal(self):
        user = self.at_terminal("--protocol", "Makefile")
        self.assertEqual(user.shown(b"\n"), GREETING)
        self.assertEqual(user.types(b"undo\n", b"\n"), b"refused 16 NothingToUndo\n")
        os.write(user.side, END)
        self.assertEqual(user.status(), 0)

    def test_an_output_that_is_no_terminal_changes_nothing(self):
        side, program = self.enterContext(terminal())
        os.write(side, b"set CC clang\nquit!\n")
        got = self.room.run("session", "Makefile", stdin=program)
        self.assertEqual(got.stdout, b"Makefile> -CC = gcc # c\n+CC = clang # c\nMakefile*> ")
