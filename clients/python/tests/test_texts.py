"""Tests of `edit` and `assignments`, by the program and, where the variable MKEDIT_LIBRARY names it, the library."""

import os
import threading
import unittest
from unittest import mock

import mkedit
from mkedit import texts

from .cases import MAKEFILE, PROGRAM

LIBRARY = os.environ.get("MKEDIT_LIBRARY", "")
DEEP = "ifdef A\n" * 257


class Texts(unittest.TestCase):
    """The calls by the program."""

    program = PROGRAM

    def edit(self, text, script, **how):
        return mkedit.edit(text, script, program=self.program, **how)

    def assert_fault(self, message, *words, **how):
        with self.assertRaises(mkedit.Fault) as raised:
            self.edit(*words, **how)
        self.assertEqual((str(raised.exception), type(raised.exception)), (message, mkedit.Fault))

    def test_a_script_is_run(self):
        self.assertEqual(self.edit(MAKEFILE, "set CC clang\n"), MAKEFILE.replace("gcc", "clang").encode())
        self.assertEqual(self.edit("# \udcff\0\nCC = a\n", b"set CC x\n"), b"# \xff\0\nCC = x\n")
        self.assertEqual(self.edit(b"", ""), b"")
        self.assertEqual(self.edit(b"X = 1\n" * 9, b"all set X " + 99 * b"x"), (b"X = " + 99 * b"x" + b"\n") * 9)
        self.assertEqual(self.edit(MAKEFILE, b"set CC a\nundo\n", depth=1), MAKEFILE.encode())

    def test_a_refusal_is_raised(self):
        for script, wanted in (("set CXX g++\n", (4, "NoSuch", None)), ("set CC a\nset X 1\n", (5, "Ambiguous", 2))):
            with self.assertRaises(mkedit.Refused) as raised:
                self.edit(MAKEFILE, script)
            self.assertEqual(raised.exception.args, wanted)

    def test_other_ends_are_faults(self):
        self.assert_fault("script line 2 is not a command", MAKEFILE, "set CC a\nfrobnicate\n")
        self.assert_fault("too long", b"#" * 16_777_217, "no")
        self.assert_fault("too long", b"", b"#" * 16_777_217)
        self.assert_fault("too deep", DEEP, "")

    def test_bad_arguments_are_told_before_anything_is_done(self):
        for error, words, how in (
            (TypeError, (1, ""), {}),
            (TypeError, (b"", None), {}),
            (TypeError, (b"", b""), {"depth": "1"}),
            (ValueError, (b"", b""), {"depth": 0}),
            (ValueError, (b"", b""), {"depth": 10_001}),
        ):
            with self.assertRaises(error):
                self.edit(*words, **how)

    def test_assignments_are_listed(self):
        text = b"ifdef A\nexport CC = g\xff\nendif\nall: X += 1\n" + b"Y = " + b"\x01" * 5000 + b"\n"
        first, second, third = mkedit.assignments(text, program=self.program)
        self.assertEqual((first.name, first.value, first.modifiers, first.line), ("CC", "g\udcff", ("export",), 2))
        self.assertEqual(first.conditions[0].first.text, "ifdef A")
        self.assertEqual((second.targets, second.operator, third.value), (("all",), "+=", "\x01" * 5000))
        self.assertEqual({it.file for it in (first, second, third)}, {"-"})
        self.assertEqual(mkedit.assignments("", program=self.program), [])
        with self.assertRaisesRegex(mkedit.Fault, "^too deep$"):
            mkedit.assignments(DEEP, program=self.program)


@unittest.skipUnless(LIBRARY, "MKEDIT_LIBRARY names no library")
class ByLibrary(Texts):
    """The same by the library."""

    program = None

    def setUp(self):
        self.assertIsNotNone(texts.library(LIBRARY))

    def test_threads_have_no_part_in_each_other(self):
        found = []

        def work(value):
            wanted = MAKEFILE.replace("gcc", value).encode()
            found.extend(self.edit(MAKEFILE, f"set CC {value}\n") == wanted for _ in range(200))

        threads = [threading.Thread(target=work, args=(f"cc-{it}",)) for it in range(4)]
        for it in threads:
            it.start()
        for it in threads:
            it.join()
        self.assertEqual(found, [True] * 800)


class WithoutLibrary(unittest.TestCase):
    def test_the_program_stands_in_where_there_is_no_library(self):
        for name in ("", "/no/such/library.so", "libc.so.6"):
            with mock.patch.dict(os.environ, {"MKEDIT_LIBRARY": name}):
                self.assertIsInstance(texts.either(None), texts.Program)
        with self.assertRaisesRegex(mkedit.Fault, "cannot be run"):
            mkedit.edit("", "", program="/no/such/program")
