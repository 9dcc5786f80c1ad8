"""Shared by the tests: a folder with a makefile, the program, and stand-ins for the program."""

import os
import sys
import tempfile
import textwrap
import unittest
from pathlib import Path

import mkedit

# The program: the one that the variable MKEDIT names, or the one in PATH.
PROGRAM = os.environ.get("MKEDIT", "mkedit")
MAKEFILE = """\
CC = gcc # c
CFLAGS = -O2 -Werror
X = 1
X = 2

all: a.o b.o
\tcc -o $@ $^
\trm -f x
"""

# A program that writes its number and what it is sent into files, and greets.
STAND_IN = """\
#!{python} -IS
import os, signal, sys, time

def note(name, text):
    with open(os.path.join({folder!r}, name), "a") as file:
        file.write(text)

def say(text):
    os.write(1, text)

note("process", str(os.getpid()))
"""
TALK = """\
say(b"mkedit session 1\\n")
for line in sys.stdin:
    note("sent", line)
    line = line.rstrip("\\n")
"""


class ClientCase(unittest.TestCase):
    """A test in a folder with a makefile."""

    def setUp(self):
        folder = tempfile.TemporaryDirectory()
        self.addCleanup(folder.cleanup)
        self.folder = Path(folder.name)
        self.path = self.folder / "Makefile"
        self.path.write_text(MAKEFILE)

    def open(self, program=PROGRAM, **how):
        """A session over the makefile, which is closed at the end of the test."""
        session = mkedit.open(self.path, program=program, **how)
        self.addCleanup(session.close)
        return session

    def program(self, body):
        """The name of a program in Python. It can `say` bytes, and `note` a text in a file."""
        path = self.folder / "program"
        path.write_text(STAND_IN.format(python=sys.executable, folder=str(self.folder)) + body)
        path.chmod(0o755)
        return str(path)

    def talker(self, replies):
        """The name of a program that greets, and does this for each `line` that it is sent."""
        return self.program(TALK + textwrap.indent(textwrap.dedent(replies), "    "))

    def sent(self):
        """Returns what a stand-in received."""
        path = self.folder / "sent"
        return path.read_text() if path.exists() else ""

    def assert_program_is_gone(self):
        """No process may be left of a program that stood in."""
        with self.assertRaises(ProcessLookupError):
            os.kill(int((self.folder / "process").read_text()), 0)
