"""A talk with `mkedit session --json`: a line goes in, and the lines of its answer and its reply come out.

docs/PROTOCOL.md of mkedit has the protocol. This is a client of its version 1.
"""

import json
import math
import os
import re
import threading
from typing import Callable, Iterable, List, Optional, TypeVar, Union

from .answers import Members
from .errors import BadReply, Ended, Error, Fault, Refused, TimedOut
from .process import PATIENCE, Deadline, Gone, Process
from .words import digits

# The name of a file.
PathName = Union[str, "os.PathLike[str]"]
T = TypeVar("T")

GREETING = b"mkedit session 1"
# What stands before a line of an answer.
MARK = b"| "
FAULT, REFUSED = re.compile(r"fault (.+)"), re.compile(r"refused ([0-9]+) (\w+)(?: (.+))?")
MOST_DEPTH = 10_000
# Why a session has ended.
CLOSED = "it was closed"
BROKEN_OFF = "a call was broken off before its reply was there"


def outcome(reply: str) -> Optional[Error]:
    """What a reply says. It is None where that is `ok`."""
    if reply == "ok":
        return None
    fault, refused = FAULT.fullmatch(reply), REFUSED.fullmatch(reply)
    if fault:
        return Fault(fault[1])
    if not refused:
        raise ValueError(f"{reply[:100]!r}")
    code, name, detail = refused.groups()
    is_count = detail is not None and re.fullmatch("[0-9]+", detail)
    return Refused(int(code), name, int(detail) if is_count else detail)


def members(line: bytes) -> Members:
    """The object that a line of an answer is."""
    found = json.loads(line[len(MARK) :].decode("utf-8"))
    if not line.startswith(MARK) or not isinstance(found, dict):
        raise ValueError(f"{line[:100]!r}")
    return found


def seconds(timeout: Optional[float]) -> Optional[float]:
    """A timeout, if it is one."""
    if timeout is None:
        return None
    if isinstance(timeout, bool) or not isinstance(timeout, (int, float)):
        raise TypeError(f"a timeout is a number of seconds, and not of type {type(timeout).__name__}")
    if not 0 < timeout < math.inf:
        raise ValueError("a timeout is a number of seconds that is greater than 0")
    return timeout


class Talk:
    """A running `mkedit session --json`.

    Each exchange, a line with its whole reply, is under one lock. One that is not done to its end is the
    last: what the program says later could be taken for the reply to another line.
    """

    def __init__(
        self, path: PathName, depth: Optional[int], program: str, new: bool, timeout: Optional[float]
    ) -> None:
        options = ["-d", digits(depth, MOST_DEPTH, 1)] if depth is not None else []
        options += ["--new"] if new else []
        name = os.fspath(path)
        self._timeout = seconds(timeout)
        # Who holds it makes several exchanges, with none of another thread between them.
        self.lock = threading.RLock()
        # Why the session has ended, if it has; and whether a call is being done.
        self._over: Optional[str] = None
        self._is_talking = False
        words = [program, "session", "--json", *options, "--", name]
        self._process = Process(words, f"the session of {name}")
        self._exchange(self._greeted)

    def ask(self, read: Callable[[List[Members]], T], *words: str, below: Iterable[str] = ()) -> T:
        """Sends the words of a command or a request, and the lines below it; what `read` makes of the answer."""
        lines = (" ".join(words), *below)
        line = "".join(f"{it}\n" for it in lines).encode("utf-8", "surrogateescape")
        answer = self._exchange(lambda deadline: self._answered(line, read, deadline))
        if isinstance(answer, Error):
            raise answer
        return answer

    def end(self) -> None:
        """Ends the session, and drops what is not written."""
        with self.lock:
            if self._is_talking:
                # This is a signal handler, and the call that it has interrupted ends the session.
                self._process.kill()
                return
            if self._over is None:
                self._over = CLOSED
            self._process.end()

    def _exchange(self, work: Callable[[Deadline], T]) -> T:
        """What comes of an exchange that is done to its end. If it is not, the session has ended."""
        with self.lock:
            if self._over is not None:
                raise Ended(f"the session has ended: {self._over}")
            try:
                # This stays so if an exception comes before the reply, wherever it does.
                self._is_talking, self._over = True, BROKEN_OFF
                found = work(Deadline(self._timeout))
                self._over = None
                return found
            except Gone as fault:
                self._over = self._process.end()
                raise Ended(self._over) from fault
            except BaseException as fault:
                self._over = str(fault) if isinstance(fault, Error) else BROKEN_OFF
                self._process.end(0 if isinstance(fault, TimedOut) else PATIENCE)
                raise
            finally:
                self._is_talking = False

    def _greeted(self, deadline: Deadline) -> None:
        """Hears the first line, which has the version."""
        greeting = self._process.line(deadline)
        if greeting != GREETING:
            raise BadReply(f"this is no session of version 1: {greeting[:100]!r}")

    def _answered(
        self, line: bytes, read: Callable[[List[Members]], T], deadline: Deadline
    ) -> Union[T, Error]:
        """Sends a line, and hears its reply: what `read` makes of the answer, or the error that is replied."""
        if self._process.has_more():
            raise BadReply("the program said more than one reply to a line")
        self._process.send(line, deadline)
        heard = [self._process.line(deadline)]
        while heard[-1].startswith(b"|"):
            heard.append(self._process.line(deadline))
        try:
            answer = [members(it) for it in heard[:-1]]
            return outcome(heard[-1].decode("utf-8", "replace")) or read(answer)
        except (LookupError, TypeError, ValueError, RecursionError) as fault:
            raise BadReply(f"this is no reply of the protocol: {fault}") from fault
