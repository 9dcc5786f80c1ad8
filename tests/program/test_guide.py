"""docs/GUIDE.md and the README of the client for Python, done as they stand: files and sessions, in one folder each.

A block ```make NAME, ```mkedit NAME or ```python NAME is a file, ```console a shell session, and ```session FILE what
a user types at a session of FILE and sees. The client for Python is in PYTHONPATH.
"""

import os
import re
from unittest import mock

from tests import TOP
from tests.lib.documents import DOCS
from tests.lib.rooms import RoomCase
from tests.lib.terminals import terminal
from tests.lib.transcripts import Shell
from tests.program.test_cookbook import BLOCK, unknown_refusals, write_file
from tests.program.test_terminal import PLAIN, User

CLIENT = TOP / "clients/python"
PYTHON = {"PYTHONPATH": str(CLIENT), "PYTHONDONTWRITEBYTECODE": "1"}


class Guide(RoomCase):
    def assert_session(self, name, shown):
        """A session shows this to a user who types what stands behind its prompts; the last line ends it."""
        typed = re.findall(rf"^{re.escape(name)}\*?> (.*\n)", shown, re.M)
        with terminal() as (side, program):
            user = User(self.room, side, program, PLAIN, name)
            self.addCleanup(user.end)
            found = user.shown(b"> ").decode()
            for line in typed[:-1]:
                found += line + user.types(line.encode()).decode()
            os.write(side, typed[-1].encode())
            self.assertEqual((found + typed[-1], user.status()), (shown, 0))

    def assert_so(self, path, **least):
        """A document has so many blocks of each kind, which do what it shows."""
        text = path.read_text(encoding="utf-8")
        self.assert_well(unknown_refusals(text))
        self.room.written.pop("Makefile")
        done = []
        with mock.patch.dict(os.environ, PYTHON), Shell(self.program, self.room.folder) as shell:
            for head, content in BLOCK.findall(text):
                kind, _, name = head.partition(" ")
                done.append(kind)
                if kind == "console":
                    self.assert_well(shell.differs(content))
                elif kind == "session":
                    self.assert_session(name, content)
                else:
                    self.assertIn(kind, ("make", "mkedit", "python"))
                    write_file(self.room, name, content)
        for kind, count in least.items():
            self.assertGreaterEqual(done.count(kind), count, kind)

    def test_the_guide_is_so(self):
        self.assert_so(DOCS / "GUIDE.md", console=8, session=1, make=2, mkedit=2, python=1)

    def test_the_readme_of_the_client_is_so(self):
        self.assert_so(CLIENT / "README.md", console=3, make=1, python=3)
