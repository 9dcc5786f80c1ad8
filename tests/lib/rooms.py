"""A room: the folder in which a test runs the program. And a unittest case that has one."""

import os
import shutil
import subprocess
import tempfile
import unittest
from pathlib import Path

from tests.lib.checks import Outcome, Program, brief, differences, program_at, usual_path
from tests.lib.notes import reported

TEXT = b"CC = gcc # c\n"
# A makefile with a line for each query, and what they print.
QUERIED = b"ifdef A\nCC = gcc # c\nall: main.o\n\tcc\n$(call it)\n\tX = 1\n"
ANSWERS = {
    "vars": b"2:1: CC = gcc\n",
    "rules": b"3:1: all: main.o [1]\n",
    "recipes": b"3:1: all:\n4:1: [1] cc\n",
    "check": b"5: opaque\n6: opaque\nend: conditionals 1\n",
    "caveats": b"6: make may set a variable here that no edit finds\n",
}
FILES = {
    "Makefile": TEXT,
    "script": b"set CC clang\n",
    "empty": b"",
    "undo": b"undo\n",
    "bad": b"frobnicate\n",
    "queried": QUERIED,
}
EDITED = Outcome(b"CC = clang # c\n", b"", 0)
REFUSED = Outcome(b"", b"1: refused 16 NothingToUndo\n", 1)
NO_COMMAND = Outcome(b"", b"mkedit: script line 1 is not a command\n", 2)
READ_FAULT = Outcome(b"", b"mkedit: read fault\n", 3)
WRITE_FAULT = Outcome(b"", b"mkedit: write fault\n", 3)
TOO_LONG = Outcome(b"", b"mkedit: too long\n", 3)
TOO_DEEP = Outcome(b"", b"mkedit: too deep\n", 3)
NO_MEMORY = Outcome(b"", b"mkedit: no memory\n", 3)


def silent(status):
    """The outcome of a run that shows nothing."""
    return Outcome(b"", b"", status)


def cannot_open(name):
    return Outcome(b"", f"mkedit: cannot open {name}\n".encode(), 3)


class Room:
    """A folder for one test. It knows what was written there, and whether that still stands."""

    def __init__(self, program):
        self.program = program
        self.folder = Path(tempfile.mkdtemp(prefix="mkedit-test-"))
        self.folder.chmod(0o711)
        self.written = {}

    def __enter__(self):
        return self

    def __exit__(self, *_):
        shutil.rmtree(self.folder, ignore_errors=True)

    def write(self, name, content, mode=0o644):
        """Writes a file; changed() will compare it with what it holds now."""
        path = self.folder / name
        path.write_bytes(content)
        path.chmod(mode)
        self.written[name] = (content, path.stat().st_mtime_ns)

    def changed(self):
        """Says which of the files written here have other bytes, or were written to, since."""
        found = []
        for name, (content, time) in self.written.items():
            path = self.folder / name
            if path.read_bytes() != content or path.stat().st_mtime_ns != time:
                found.append(f"the file {name} was written to")
        return found

    def holds(self, name, wanted):
        """Says how a file differs from what is wanted, None where there has to be none.

        The file may have been written to: changed() passes over it from now on.
        """
        self.written.pop(name, None)
        path = self.folder / name
        found = path.read_bytes() if path.is_file() else None
        return [] if found == wanted else [f"{name} holds {brief(found)}, wanted {brief(wanted)}"]

    def run(self, *words, **how):
        return self.program.run(words, self.folder, **how)

    def copy_program(self):
        """Copies the program into this folder, where the user nobody gets at it, and runs the copy.

        Root reads files of mode 0, so the tests of them run as nobody.
        """
        copy = self.folder / "mkedit"
        shutil.copyfile(self.program.path, copy)
        copy.chmod(0o755)
        self.program = Program(copy)


class RoomCase(unittest.TestCase):
    """Tests in rooms of their own, with the files of FILES, which have to be as they were after a test."""

    @classmethod
    def setUpClass(cls):
        cls.program = program_at(usual_path())

    def setUp(self):
        self.room = Room(self.program)
        self.addCleanup(shutil.rmtree, self.room.folder, ignore_errors=True)
        for name, content in FILES.items():
            self.room.write(name, content)

    def tearDown(self):
        self.assert_well(self.room.changed())

    def assert_well(self, problems):
        """Fails where there are problems, and says what they are."""
        problems = list(problems)
        if problems:
            self.fail("; ".join(problems))

    def need_strace(self):
        """Skips a test where strace is not there, or may not trace."""
        words = ["strace", "-qq", "-o", "/dev/null", "true"]
        if not shutil.which("strace") or subprocess.run(words, capture_output=True).returncode:
            self.skipTest("there is no strace, or it may not trace")

    def names(self):
        """Every name in the room's folder."""
        return sorted(os.listdir(self.room.folder))

    def assert_run(self, wanted, *words, noted=None, **how):
        """Runs the program, whose outcome has to be the wanted one.

        noted: the name of the script, where a run has notes and a report's lines are wanted for its sentences.
        """
        got = self.room.run(*words, **how)
        if noted:
            got = got._replace(stderr=reported(got.stderr, noted))
        self.assert_well(f"of {words} {it}" for it in differences(got, wanted))

    def assert_bad_command_line(self, *words):
        """Runs the program with words that it has to refuse: a message, and nothing more."""
        got = self.room.run(*words)
        is_refused = not got.stdout and got.stderr.strip() and got.status == 2
        self.assertTrue(is_refused, f"the words {words} give {got}")

    def assert_holds(self, name, wanted):
        """A file has to hold this, and may have been written to. None: there has to be no such file."""
        self.assert_well(self.room.holds(name, wanted))

    def assert_cases(self, cases):
        """Each case, a name and what is wrong, is a subtest."""
        for name, problems in cases:
            with self.subTest(name):
                self.assert_well(problems)
