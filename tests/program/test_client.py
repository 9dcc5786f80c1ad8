"""Runs the tests of the client for Python (clients/python) over the program, as whoever changes the client does."""

import os
import shutil
import subprocess
import sys
import unittest

from tests import TOP
from tests.lib.checks import SECONDS
from tests.lib.rooms import RoomCase
from tests.program.test_library import LIBRARY

CLIENT = TOP / "clients/python"
# For mypy; only the second call of `assign` is wrong.
TYPED = """import mkedit
it = mkedit.open("Makefile")
it.assign(mkedit.BOTTOM, "X", it.vars()[0].operator, "1")
it.assign(mkedit.BOTTOM, "X", "==", "1")
"""


class Client(RoomCase):
    def test_the_tests_of_the_client_pass(self):
        library = LIBRARY / "libmkedit.so.0"
        named = {"MKEDIT": str(self.room.program.path), "MKEDIT_LIBRARY": str(library) if library.exists() else ""}
        command = [sys.executable, "-B", "-W", "error", "-m", "unittest"]
        ended = subprocess.run(
            command,
            cwd=CLIENT,
            env={**os.environ, **named},
            capture_output=True,
            text=True,
            timeout=5 * SECONDS,
        )
        self.assertEqual(ended.returncode, 0, ended.stderr)

    @unittest.skipUnless(shutil.which("mypy"), "there is no mypy")
    def test_its_types_are_strict(self):
        words = ["mypy", "--strict", "--cache-dir", os.devnull, "-c", TYPED]
        ran = subprocess.run(words, cwd=CLIENT, capture_output=True, text=True, timeout=SECONDS)
        self.assertRegex(ran.stdout, r"^<string>:4: error: .*Literal.*\nFound 1 error .*\n$")
