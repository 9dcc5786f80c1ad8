"""A program that is talked to by lines, each within a time."""

import math
import os
import select
import subprocess
import time
import warnings
import weakref
from contextlib import suppress
from typing import IO, Optional, Sequence

from .errors import Fault, TimedOut

# How many seconds a program has to end by itself before it is killed.
PATIENCE = 1.0
# How much is read at once, and how much of standard error is kept: its end.
CHUNK, KEPT = 65_536, 2_000
# The longest single wait, in milliseconds.
HOUR = 3_600_000


class Gone(Exception):
    """The program has ended, or takes and says nothing any more."""


class Deadline:
    """The time until which a reply has to be there. Without a number of seconds there is no end to it."""

    def __init__(self, seconds: Optional[float]) -> None:
        self._seconds = math.inf if seconds is None else seconds
        self._end = time.monotonic() + self._seconds

    def milliseconds(self) -> int:
        """How long may be waited at once."""
        left = self._end - time.monotonic()
        if left <= 0:
            raise TimedOut(f"no reply came within {self._seconds:g} seconds")
        return math.ceil(min(left * 1000, HOUR))


def stop(process: "subprocess.Popen[bytes]", patience: float) -> None:
    """Ends a program: it sees the end of its input, and is killed if it still runs after some seconds."""
    for pipe in (process.stdin, process.stdout):
        assert pipe is not None
        pipe.close()
    try:
        with suppress(subprocess.TimeoutExpired):
            process.wait(patience)
    finally:
        if process.returncode is None:
            process.kill()
            with suppress(subprocess.TimeoutExpired):
                process.wait(PATIENCE)


def drop(process: "subprocess.Popen[bytes]", errors: IO[bytes], name: str) -> None:
    """Ends a program that nobody has ended, and that nobody can talk to any more."""
    with errors:
        stop(process, PATIENCE)
    warnings.warn(f"{name} was not closed", ResourceWarning)


class Process:
    """A running program. What it says on standard error is taken in, and the end of that is kept."""

    def __init__(self, words: Sequence[str], name: str) -> None:
        pipe = subprocess.PIPE
        try:
            self._process = subprocess.Popen(words, bufsize=0, stdin=pipe, stdout=pipe, stderr=pipe)
        except OSError as fault:
            raise Fault(f"{words[0]} cannot be run: {fault.strerror}") from fault
        assert self._process.stdin and self._process.stdout and self._process.stderr
        self._in, self._out, self._errors = self._process.stdin, self._process.stdout, self._process.stderr
        self._finalizer = weakref.finalize(self, drop, self._process, self._errors, name)
        for stream in (self._in, self._out, self._errors):
            os.set_blocking(stream.fileno(), False)
        # What it has said behind the lines that were read, and the end of what it said on standard error.
        self._ahead, self._last_words = bytearray(), b""

    def _wait(self, stream: IO[bytes], event: int, deadline: Deadline) -> None:
        """Waits until a stream is ready. Standard error is taken in meanwhile, so that it never fills up."""
        poll, wanted = select.poll(), stream.fileno()
        poll.register(wanted, event)
        if not self._errors.closed:
            poll.register(self._errors.fileno(), select.POLLIN)
        while True:
            ready = {descriptor for descriptor, _ in poll.poll(deadline.milliseconds())}
            for descriptor in ready - {wanted}:
                self._take_errors()
                if self._errors.closed:
                    poll.unregister(descriptor)
            if wanted in ready:
                return

    def _take_errors(self) -> bool:
        """Takes in what stands ready on standard error; whether there may be more."""
        said = self._errors.read(CHUNK)
        if said:
            self._last_words = (self._last_words + said)[-KEPT:]
        elif said is not None:
            self._errors.close()
        return bool(said)

    def send(self, line: bytes, deadline: Deadline) -> None:
        """Sends a line, which has its line feed with it."""
        left = memoryview(line)
        while left:
            self._wait(self._in, select.POLLOUT, deadline)
            try:
                left = left[self._in.write(left) or 0 :]
            except BrokenPipeError:
                raise Gone from None

    def line(self, deadline: Deadline) -> bytes:
        """The next line that it says, without the line feed."""
        searched = 0
        while (end := self._ahead.find(b"\n", searched)) < 0:
            searched = len(self._ahead)
            self._wait(self._out, select.POLLIN, deadline)
            said = self._out.read(CHUNK)
            if said == b"":
                raise Gone
            self._ahead += said or b""
        line = bytes(self._ahead[:end])
        del self._ahead[: end + 1]
        return line

    def has_more(self) -> bool:
        """Whether it is known to have said more than was read."""
        return bool(self._ahead)

    def kill(self) -> None:
        """Kills the program; `end` has to follow."""
        self._process.kill()

    def end(self, patience: float = PATIENCE) -> str:
        """Ends the program; what it said last on standard error, or its status."""
        stop(self._process, patience)
        while not self._errors.closed and self._take_errors():
            pass
        self._errors.close()
        self._finalizer.detach()
        said = self._last_words.decode("utf-8", "replace").strip()
        return said or f"the program has ended with status {self._process.returncode}"
