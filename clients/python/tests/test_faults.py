"""Tests of what goes wrong: a program that hangs, floods, ends or says what it should not; errors in groups."""

import gc
import os
import pickle
import subprocess
import sys
import textwrap
import time
import unittest

import mkedit

from .cases import MAKEFILE, PROGRAM, TALK, ClientCase

# Seconds: until nothing comes, until something does that was asked for, and what a test may take.
SHORT, USUAL, LONG = 0.3, 1, 20
FLOOD = 'sys.stderr.write("x" * 1_000_000 + "\\n")\n'
# What is no reply to `print`.
BAD_REPLIES = (
    b"",
    b"okay",
    b"ok ok",
    b"OK",
    b"\xff\xfe",
    b"refused",
    b"refused 4",
    b"refused four NoSuch",
    b"refused 4 NoSuch ",
    b"fault",
    b"fault ",
    b"|ok\nok",
    b"|~ {}\nok",
    b"| CC = gcc\nok",
    b"| []\nok",
    b'| {"text":1}\nok',
    b'| {"tex":"a"}\nok',
    b'| {"text":{"base64":"?"}}\nok',
    b'| {"text":"\xff"}\nok',
    b"| " + b"[" * 100_000 + b"\nok",
)
BAD_OBJECTS = (
    ("vars", "{}"),
    ("vars", '{"file":"a","line":"1","depth":0,"modifiers":[],"name":"X","operator":"=","value":""}'),
    ("rules", '{"file":"a","line":1,"depth":0,"targets":"a","separator":":"}'),
    ("vars", '{"file":"a","line":2,"depth":1,"branch":1,"modifiers":[],"name":"X","operator":"=","value":""}'),
    ("rules", '{"file":"a","line":2,"depth":0,"kind":"branch","first":1,"text":"else"}'),
    ("recipes", '{"file":"a","line":2,"depth":0,"rule":1,"number":1,"text":""}'),
    ("history", '{"text":"again set CC clang"}'),
    ("check", '{"kind":"end"}'),
    ("undo", '{"text":"a"}'),
)


class Programs(ClientCase):
    def assert_ended(self, makefile):
        """The session has ended, and its process with it."""
        with self.assertRaises(mkedit.Ended):
            makefile.text()
        self.assert_program_is_gone()

    def test_a_program_may_say_much_on_standard_error(self):
        program = self.program(FLOOD + TALK + textwrap.indent(FLOOD, "    ") + '    say(b"ok\\n")\n')
        makefile = self.open(program, timeout=LONG)
        for _ in range(3):
            makefile.undo()
        makefile.close()
        self.assert_ended(makefile)

    def test_the_last_words_of_a_program_are_the_text_of_the_exception(self):
        makefile = self.open(self.talker(FLOOD + 'sys.exit("mkedit: write fault")'), timeout=LONG)
        with self.assertRaises(mkedit.Ended) as caught:
            makefile.undo()
        self.assertTrue(str(caught.exception).endswith("\nmkedit: write fault"))
        self.assertLess(len(str(caught.exception)), 10_000)
        self.assert_ended(makefile)

    def test_a_program_that_says_nothing_at_the_end_has_a_status(self):
        makefile = self.open(self.talker("sys.exit(7)"))
        with self.assertRaisesRegex(mkedit.Ended, "status 7"):
            makefile.undo()
        self.assert_ended(makefile)

    def test_a_program_that_is_not_there_is_a_fault(self):
        with self.assertRaises(mkedit.Fault) as caught:
            self.open(str(self.folder / "none"))
        self.assertIsInstance(caught.exception.__cause__, FileNotFoundError)

    def test_a_reply_has_its_time(self):
        makefile = self.open(self.talker('time.sleep(60 if line == "print" else 0)\nsay(b"ok\\n")'), timeout=USUAL)
        makefile.undo()
        begun = time.monotonic()
        with self.assertRaisesRegex(mkedit.TimedOut, f"within {USUAL} second"):
            makefile.text()
        self.assertLess(time.monotonic() - begun, LONG)
        self.assert_ended(makefile)

    def test_a_reply_in_small_parts_has_no_more_time(self):
        makefile = self.open(self.talker('while True:\n    say(b"| {}\\n")\n    time.sleep(0.01)'), timeout=USUAL)
        with self.assertRaises(mkedit.TimedOut):
            makefile.text()
        self.assert_ended(makefile)

    def test_the_greeting_has_its_time(self):
        with self.assertRaises(mkedit.TimedOut):
            self.open(self.program("time.sleep(60)"), timeout=SHORT)

    def test_a_line_that_is_not_read_has_its_time(self):
        makefile = self.open(self.program('say(b"mkedit session 1\\n")\ntime.sleep(60)'), timeout=USUAL)
        with self.assertRaises(mkedit.TimedOut):
            makefile.set("X", "x" * 1_000_000)
        self.assert_ended(makefile)

    def test_another_greeting_is_a_bad_reply(self):
        for greeting in (b"mkedit session 2\n", b"\n", b"mkedit session 1\r\n", b"mkedit session 1 \n"):
            with self.subTest(greeting), self.assertRaises(mkedit.BadReply):
                self.open(self.program(f"say({greeting!r})"))
            self.assert_program_is_gone()
            (self.folder / "process").unlink()

    def test_a_bad_reply_ends_the_session(self):
        for reply in BAD_REPLIES:
            with self.subTest(reply[:50]):
                makefile = self.open(self.talker(f"say({reply!r} + b'\\n')"), timeout=LONG)
                with self.assertRaises(mkedit.BadReply):
                    makefile.text()
                self.assert_ended(makefile)
                (self.folder / "process").unlink()

    def test_a_bad_object_in_an_answer_ends_the_session(self):
        for request, told in BAD_OBJECTS:
            with self.subTest(request=request, told=told):
                makefile = self.open(self.talker(f"say(b'| ' + {told.encode()!r} + b'\\nok\\n')"), timeout=LONG)
                with self.assertRaises(mkedit.BadReply):
                    getattr(makefile, request)()
                self.assert_ended(makefile)
                (self.folder / "process").unlink()

    def test_a_second_reply_ends_the_session(self):
        makefile = self.open(self.talker('say(b"ok\\nok\\n")'))
        makefile.undo()
        with self.assertRaises(mkedit.BadReply):
            makefile.undo()
        self.assert_ended(makefile)

    def test_half_a_reply_ends_the_session(self):
        makefile = self.open(self.talker('say(b"ok")\nsys.exit()'))
        with self.assertRaises(mkedit.Ended):
            makefile.undo()
        self.assert_ended(makefile)


def descriptors():
    return len(os.listdir("/proc/self/fd"))


class Ends(ClientCase):
    def test_a_session_that_is_dropped_ends(self):
        makefile = mkedit.open(self.path, program=self.talker('say(b"ok\\n")'))
        makefile.undo()
        before = descriptors()
        with self.assertWarnsRegex(ResourceWarning, "Makefile was not closed"):
            del makefile
            gc.collect()
        self.assertEqual(descriptors(), before - 3)
        self.assert_program_is_gone()

    def test_a_program_that_does_not_end_is_killed(self):
        body = 'say(b"mkedit session 1\\n")\nsignal.signal(signal.SIGTERM, signal.SIG_IGN)\ntime.sleep(60)'
        makefile = self.open(self.program(body))
        makefile.close()
        makefile.close()
        self.assert_program_is_gone()

    def test_no_session_that_is_closed_keeps_anything(self):
        before = descriptors()
        for _ in range(3):
            with self.open() as makefile:
                makefile.text()
            with self.assertRaises(mkedit.Fault):
                mkedit.open(self.folder / "none", program=PROGRAM)
        self.assertEqual(descriptors(), before)
        with self.assertRaisesRegex(mkedit.Ended, "closed"):
            makefile.text()

    def test_a_session_that_is_left_open_ends_with_python(self):
        program = self.talker('say(b"ok\\n")')
        script = f"import mkedit; it = mkedit.open({str(self.path)!r}, program={program!r}); it.undo()"
        ended = subprocess.run([sys.executable, "-c", script], capture_output=True, timeout=LONG)
        self.assertEqual((ended.returncode, ended.stderr), (0, b""))
        self.assert_program_is_gone()


class Groups(ClientCase):
    def test_an_exception_of_the_block_comes_out(self):
        makefile, ours = self.open(), LookupError("ours")
        with self.assertRaises(LookupError) as caught:
            with makefile.group():
                makefile.set("CC", "clang")
                raise ours
        self.assertIs(caught.exception, ours)
        self.assertIsNone(ours.__context__)
        self.assertEqual(makefile.text(), MAKEFILE)

    def test_it_comes_out_if_the_group_cannot_be_cancelled(self):
        for reply in ("sys.exit(3)", 'say(b"what\\n")', 'say(b"refused 17 NoGroup\\n")'):
            with self.subTest(reply):
                makefile = self.open(self.talker(f'if line == "cancel":\n    {reply}\nsay(b"ok\\n")'))
                ours, earlier = LookupError("ours"), ValueError("earlier")
                with self.assertRaises(LookupError) as caught:
                    with makefile.group():
                        try:
                            raise earlier
                        except ValueError:
                            raise ours
                self.assertIs(caught.exception, ours)
                self.assertIsInstance(ours.__context__, mkedit.Error)
                self.assertIn(earlier, list(chain(ours)))
                self.assertEqual(self.sent().splitlines()[-2:], ["begin", "cancel"])

    def test_it_comes_out_if_the_session_has_ended_meanwhile(self):
        makefile = self.open()
        with self.assertRaises(KeyboardInterrupt) as caught:
            with makefile.group():
                makefile.close()
                raise KeyboardInterrupt
        self.assertIsInstance(caught.exception.__context__, mkedit.Ended)

    def test_an_error_of_the_client_comes_out_as_it_is(self):
        makefile = self.open(self.talker('sys.exit(3) if "CC" in line else say(b"ok\\n")'))
        with self.assertRaisesRegex(mkedit.Ended, "status 3"):
            with makefile.group():
                makefile.set("CC", "clang")


def chain(fault):
    """The exceptions in the context of one. There has to be an end to them."""
    for _ in range(10):
        fault = fault.__cause__ or fault.__context__
        if fault is None:
            return
        yield fault
    raise AssertionError("a chain of exceptions leads back")


class Exceptions(unittest.TestCase):
    def test_each_is_an_error_of_the_client(self):
        self.assertTrue(issubclass(mkedit.Error, Exception))
        for kind, base in (
            (mkedit.Refused, mkedit.Error),
            (mkedit.Fault, mkedit.Error),
            (mkedit.Ended, mkedit.Fault),
            (mkedit.TimedOut, mkedit.Ended),
            (mkedit.BadReply, mkedit.Ended),
        ):
            self.assertTrue(issubclass(kind, base))
        self.assertFalse(issubclass(mkedit.Refused, mkedit.Fault))

    def test_each_can_be_copied(self):
        for fault in (mkedit.Refused(5, "Ambiguous", 2), mkedit.Refused(4, "NoSuch", None), mkedit.Ended("it ended")):
            copy = pickle.loads(pickle.dumps(fault))
            self.assertEqual((type(copy), str(copy), vars(copy)), (type(fault), str(fault), vars(fault)))
        self.assertEqual(str(mkedit.Refused(20, "NoMemory", None)), "20 NoMemory: Memory ran out.")
        self.assertRegex(str(mkedit.Refused(5, "Ambiguous", 2)), "^5 Ambiguous 2: Several assignments.*[.]$")


if __name__ == "__main__":
    unittest.main()
