"""Tests of control characters: a terminal is shown their numbers, and so is whoever reads a message.

What is a control character, and what stays as it is, is that of docs/EDITS.md, "At a terminal".
"""

from tests.lib.checks import Outcome
from tests.lib.rooms import RoomCase
from tests.lib.terminals import all_shown, terminal
from tests.program import test_terminal

# An escape sequence that wipes the screen, C1 in UTF-8 and as a byte of its own, an override of the direction, and
# letters that stay.
RAW = b"x\x1b[2J\xc2\x9b1m\x9b\xe2\x80\xaey\xc3\xa9\xe2\x82\xac"
SHOWN = rb"x\033[2J\302\2331m\233\342\200\256y" + b"\xc3\xa9\xe2\x82\xac"
MAKEFILE = b"V = a\nV = " + RAW + b"\nall: " + RAW + b"\n\t" + RAW + b"\n" + RAW + b"\n"
# The name of a file, as it is, and as messages have it.
NAME, NAME_SHOWN = "a\x1b[2J\nb\tc", rb"a\033[2J\012b\011c"


class ControlCharacters(RoomCase):
    def setUp(self):
        super().setUp()
        self.room.write("hostile", MAKEFILE)

    def at_terminal(self, *words):
        """What a terminal is shown of standard output."""
        with terminal(lines=False) as (user, program):
            got = self.room.run(*words, stdout=program)
            return all_shown(user, program), got

    def test_a_terminal_is_shown_numbers_and_a_file_gets_the_bytes(self):
        queries = [["vars"], ["rules"], ["recipes"], ["check", "--notes"], ["caveats"], ["get", "V", "--nth", "2"]]
        edit = ["edit", "--diff", "--color=never", "-e", "nth 1 append V b"]
        for words in [*queries, edit]:
            plain = self.room.run(*words, "hostile").stdout
            shown, _ = self.at_terminal(*words, "hostile")
            self.assertEqual(shown, plain.replace(RAW, SHOWN), words)
        self.assertEqual(self.at_terminal("check", "hostile")[0], self.at_terminal("check", "--notes", "hostile")[0])
        for words in (["vars"], ["recipes"], ["get", "V", "--nth", "2"], edit):
            self.assertIn(RAW, self.room.run(*words, "hostile").stdout)

    def test_colours_are_not_escaped(self):
        words = ["edit", "--diff", "--color=always", "-e", "nth 1 append V b", "hostile"]
        shown, _ = self.at_terminal(*words)
        self.assertIn(b"\x1b[32m+V = a b\x1b[0m", shown)
        self.assertIn(b" V = " + SHOWN, shown)

    def test_notes_show_numbers_in_each_case(self):
        got = self.room.run("edit", "--notes", "-e", "set V 1", "hostile")
        self.assertIn(b"hostile:2: note: V = " + SHOWN, got.stderr)
        self.assertEqual(got.status, 1)

    def test_the_name_of_a_file_is_shown_with_numbers_in_messages(self):
        told = Outcome(b"", b"mkedit: cannot open " + NAME_SHOWN + b"\n", 3)
        self.assert_run(told, "vars", NAME)
        self.assert_run(told, "edit", "script", NAME)
        self.assert_run(told, "edit", NAME, "Makefile")
        noted = told._replace(stderr=told.stderr + NAME_SHOWN + b": note: no such file\n")
        self.assert_run(noted, "vars", "--notes", NAME)

    def test_lines_of_several_files_begin_with_a_name_of_numbers(self):
        self.room.write(NAME, b"CC = gcc\n")
        got = self.room.run("edit", "--diff", "--notes", "-e", "set CX 1", NAME, "Makefile")
        lines = got.stderr.splitlines()
        self.assertIn(b"-e 1: error: set CX: " + NAME_SHOWN + b" ", lines[0])
        # a pipe gets the name as it is
        got = self.room.run("vars", NAME, "empty")
        self.assertEqual(got.stdout, NAME.encode() + b":1:0: CC = gcc\n")
        shown, _ = self.at_terminal("vars", NAME, "empty")
        self.assertEqual(shown, NAME_SHOWN + b":1:0: CC = gcc\n")

    def test_the_script_is_shown_with_numbers(self):
        self.room.write(NAME, b"frobnicate\n")
        got = self.room.run("edit", "--notes", NAME, "Makefile")
        self.assertTrue(got.stderr.splitlines()[1].startswith(NAME_SHOWN + b":1:1: note: "), got)

    def test_a_bad_command_line_shows_numbers(self):
        got = self.room.run("edit", "--\x1b[2Jx", "Makefile")
        self.assertNotIn(b"\x1b", got.stderr)
        self.assertIn(rb"\033[2Jx", got.stderr)
        self.assertEqual(got.status, 2)


class SessionsAtTerminals(RoomCase):
    at_terminal = test_terminal.Terminal.at_terminal

    def setUp(self):
        super().setUp()
        self.room.write(NAME, b"V = " + RAW + b"\n")

    def test_prompts_and_replies_show_numbers(self):
        prompt = NAME_SHOWN + b"> "
        user = self.at_terminal(NAME)
        self.assertTrue(user.shown(b"> ").endswith(prompt))
        self.assertEqual(user.types(b"vars\n"), b"1:0: V = " + SHOWN + b"\n" + prompt)
        self.assertEqual(user.types(b"print\n"), b"V = " + SHOWN + b"\n" + prompt)
        self.assertEqual(
            user.types(b"append V b\n"),
            b"-V = " + SHOWN + b"\n+V = " + SHOWN + b" b\n" + NAME_SHOWN + b"*> ",
        )

    def test_the_protocol_has_the_bytes_of_texts_and_the_numbers_of_names(self):
        got = self.room.run("session", NAME, given=b"vars\nwrite " + RAW + b"/\n")
        self.assertIn(b"V = " + RAW, got.stdout)
        self.assertIn(b"fault cannot write " + SHOWN + b"/\n", got.stdout)
