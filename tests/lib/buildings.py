"""A room with a copy of what builds the program, where another program stands for rt. And a unittest case that has one."""

import os
import re
import shutil
import subprocess

from tests import TOP

from .checks import SECONDS, Outcome
from .rooms import RoomCase

CRATES = "low: memchr\nmkedit: low clap\nother: low\n"
BUILT, PROGRAM = (f"crates/mkedit/out/{it}" for it in ("mkedit", "bin/mkedit"))


class BuildingCase(RoomCase):
    """A copy of what builds, and a program rt."""

    def setUp(self):
        super().setUp()
        self.top, self.names = self.room.folder / "tree", self.room.folder / "names"
        for folder in ("low", "mkedit/src", "mkedit/must-fail", "mkedit/out", "other"):
            (self.top / "crates" / folder).mkdir(parents=True)
        self.names.mkdir()
        shutil.copytree(TOP / "tools", self.top / "tools")
        shutil.copy(TOP / "Makefile", self.top)
        (self.top / "crates.txt").write_text(CRATES)
        (self.top / "HANDLES").touch()
        self.program_tells("mkedit 1")

    def rt(self, does, said, status=0):
        (self.names / "said").write_text(said)
        (self.names / "status").write_text(str(status))
        (self.names / "rt").write_text(f"#!/bin/sh\n{does.format(names=self.names)}")
        (self.names / "rt").chmod(0o755)

    def program_tells(self, version):
        """The program that is built prints its version, and reads a file where it gets one."""
        for path in (self.names / "program", self.top / BUILT):
            path.write_text(f"#!/bin/sh\ntest \"$1\" = --version || cat $1\necho '{version}'\n")
            path.chmod(0o755)

    def run_words(self, *words):
        # (under make, a make that is started says so)
        environment = {name: value for name, value in os.environ.items() if not name.startswith(("MAKE", "MFLAGS"))}
        environment["PATH"] = f"{self.names}:{os.environ['PATH']}"
        ran = subprocess.run(words, cwd=self.top, env=environment, timeout=SECONDS, capture_output=True)
        return Outcome(re.sub(rb"(\d+ min )?\d+ s\n", b"N s\n", ran.stdout), ran.stderr, ran.returncode)

    def assert_ran(self, stdout, stderr, status, *words):
        self.assertEqual(self.run_words(*words), Outcome(stdout.encode(), stderr.encode(), status))
