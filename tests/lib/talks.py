"""A session of the program that is talked to line by line."""

import subprocess

from .checks import SECONDS, Outcome

GREETING = b"mkedit session 1\n"


class Talk:
    """A session that is talked to line by line."""

    def __init__(self, room, *words, folder=None):
        command = [room.program.path, "session", *words]
        pipe = subprocess.PIPE
        self.process = subprocess.Popen(command, cwd=folder or room.folder, stdin=pipe, stdout=pipe, stderr=pipe)
        self.greeting = self.process.stdout.readline()

    def __enter__(self):
        return self

    def __exit__(self, *_):
        self.process.kill()
        self.process.communicate(timeout=SECONDS)

    def tell(self, line):
        """Sends a line, as text or as bytes; answers the lines of the answer, and the reply."""
        self.process.stdin.write((line if isinstance(line, bytes) else line.encode()) + b"\n")
        self.process.stdin.flush()
        lines = []
        while True:
            line = self.process.stdout.readline()
            if not line.startswith(b"|"):
                return lines, line.decode().rstrip("\n")
            lines.append(line)

    def reply(self, line):
        return self.tell(line)[1]

    def answer(self, line):
        """The text of an answer, to which the reply has to be `ok`."""
        lines, reply = self.tell(line)
        assert reply == "ok", reply
        return b"".join(it[3:-1] if it.startswith(b"|~ ") else it[2:] for it in lines)

    def end(self):
        """Ends standard input, and answers how the session ended; standard output is what was left."""
        out, errors = self.process.communicate(timeout=SECONDS)
        return Outcome(out, errors, self.process.returncode)
