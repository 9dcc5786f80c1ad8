"""Shell sessions that a document shows: lines `$ COMMAND`, each with what it prints below it."""

import os
import re
import shutil
import subprocess
import tempfile
from pathlib import Path

from tests.lib.checks import SECONDS, brief

STEP = re.compile(r"^\$ (.*)\n((?:(?!\$ ).*\n)*)", re.M)


class Shell:
    """Runs commands in a folder, where `mkedit` is the built program."""

    def __init__(self, program, folder):
        self.folder = folder
        self.names = Path(tempfile.mkdtemp(prefix="mkedit-test-"))
        (self.names / "mkedit").symlink_to(program.path)
        self.status = 0

    def __enter__(self):
        return self

    def __exit__(self, *_):
        shutil.rmtree(self.names, ignore_errors=True)

    def run(self, command):
        """What a command prints, both outputs in one; `$?` is the status of the one before."""
        environment = {**os.environ, "LC_ALL": "C", "PATH": f"{self.names}:{os.environ['PATH']}"}
        streams = {"stdin": subprocess.DEVNULL, "stdout": subprocess.PIPE, "stderr": subprocess.STDOUT}
        words = ["sh", "-c", f"(exit {self.status})\n{command}"]
        try:
            ran = subprocess.run(
                words, cwd=self.folder, env=environment, timeout=SECONDS, **streams
            )
        except subprocess.TimeoutExpired:
            return b"(no end)"
        self.status = ran.returncode
        return ran.stdout

    def differs(self, session):
        """Runs a session, and says where it prints something else."""
        steps = STEP.findall(session)
        shown = "".join(f"$ {command}\n{output}" for command, output in steps)
        if not steps or shown != session:
            return [f"no session: {brief(session)}"]
        found = []
        for command, wanted in steps:
            got = self.run(command)
            if got != wanted.encode():
                found.append(f"{command} prints {brief(got)}, wanted {brief(wanted.encode())}")
        return found
