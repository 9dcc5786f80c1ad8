"""Runs of scripts over texts, and what a text has: by the library for C where it is found, else by the program.

Both give the same answers. The library is libmkedit.so.0, or the file that the variable MKEDIT_LIBRARY names;
if that is empty, the library is not looked for.
"""

import ctypes
import json
import os
import re
import subprocess
import tempfile
from functools import lru_cache
from typing import Any, Callable, List, Optional, Union

from . import answers
from .errors import Error, Fault
from .found import Assignment
from .talk import MOST_DEPTH, outcome

# A text: bytes, or a str that stands for them, as the head of the package says.
Text = Union[bytes, str]

MOST_BYTES = 16_777_216
TOO_LONG = "too long"
# The answers of the library that are not a fault of their own (include/mkedit.h).
DONE, REFUSED, NOT_A_COMMAND, NO_ROOM = 0, 1, 2, 7
FAULTS = {3: "bad depth", 4: TOO_LONG, 5: "too deep", 6: "no memory"}
VARS = 0
# The version of the library, without its last number.
VERSION = 1
REPORTED, SAID = re.compile(r"([0-9]+): (refused .*)\n"), re.compile(r"mkedit: (.*)\n")
# What JSON calls the file of a text.
NAME = b"-"


class Told(ctypes.Structure):
    """What a run tells besides its answer."""

    _fields_ = [("text", ctypes.c_size_t), ("report", ctypes.c_size_t), ("line", ctypes.c_uint64)]


def refused(report: str) -> Error:
    """The exception for the line on a refusal."""
    found = REPORTED.fullmatch(report)
    error = outcome(found[2]) if found else None
    if error is None:
        raise Fault(f"{report[:100]!r} is no report")
    return error


class Library:
    """The library for C, which several threads may call."""

    def __init__(self, library: Any) -> None:
        size, number, text = ctypes.c_size_t, ctypes.c_uint32, ctypes.c_char_p
        library.mkedit_version.restype = number
        if library.mkedit_version() // 100 != VERSION:
            raise AttributeError("another version")
        told, sizes = ctypes.POINTER(Told), ctypes.POINTER(size)
        self._run, self._list = library.mkedit_run_into, library.mkedit_list_into
        self._run.argtypes = [text, size, text, size, number, text, size, text, size, told]
        self._list.argtypes = [number, text, size, text, size, text, size, sizes]
        self._run.restype = self._list.restype = number

    def edit(self, text: bytes, script: bytes, depth: int) -> bytes:
        told = Told(len(text) + len(script), 128, 0)
        answer = NO_ROOM
        while answer == NO_ROOM:
            out, report = (ctypes.create_string_buffer(it + 1) for it in (told.text, told.report))
            rooms = (out, len(out), report, len(report))
            answer = self._run(text, len(text), script, len(script), depth, *rooms, ctypes.byref(told))
        if answer == REFUSED:
            raise refused(ctypes.string_at(report, told.report).decode())
        if answer != DONE:
            raise Fault(FAULTS.get(answer, f"script line {told.line} is not a command"))
        return ctypes.string_at(out, told.text)

    def vars(self, text: bytes) -> bytes:
        size = ctypes.c_size_t(4 * len(text) + 256)
        answer = NO_ROOM
        while answer == NO_ROOM:
            out = ctypes.create_string_buffer(size.value + 1)
            name = (NAME, len(NAME))
            answer = self._list(VARS, text, len(text), *name, out, len(out), ctypes.byref(size))
        if answer != DONE:
            raise Fault(FAULTS[answer])
        return ctypes.string_at(out, size.value)


class Program:
    """The program, which is started for each call."""

    def __init__(self, name: str) -> None:
        self._name = name

    def edit(self, text: bytes, script: bytes, depth: int) -> bytes:
        with tempfile.NamedTemporaryFile(prefix="mkedit-") as file:
            file.write(script)
            file.flush()
            return self._said("edit", "-d", str(depth), file.name, "-", given=text)

    def vars(self, text: bytes) -> bytes:
        return self._said("vars", "--json", "-", given=text)

    def _said(self, *words: str, given: bytes) -> bytes:
        try:
            ran = subprocess.run([self._name, *words], input=given, capture_output=True)
        except OSError as fault:
            raise Fault(f"{self._name} cannot be run: {fault.strerror}") from fault
        if ran.returncode == 0:
            return ran.stdout
        told = ran.stderr.decode("utf-8", "surrogateescape")
        if ran.returncode == 1:
            raise refused(told)
        said = SAID.match(told)
        raise Fault(said[1] if said else f"{self._name} has ended with status {ran.returncode}")


@lru_cache(maxsize=8)
def library(name: str) -> Optional[Library]:
    """The library of a name, if there is one that this package knows."""
    try:
        return Library(ctypes.CDLL(name)) if name else None
    except (OSError, AttributeError):
        return None


def either(program: Optional[str]) -> Union[Library, Program]:
    """The library, unless it is not found or a program is named."""
    found = library(os.environ.get("MKEDIT_LIBRARY", "libmkedit.so.0")) if program is None else None
    return found or Program(program or "mkedit")


def bytes_of(text: Text) -> bytes:
    """The bytes of a text, if they are not too many."""
    if not isinstance(text, (bytes, str)):
        raise TypeError(f"a text must be bytes or a str, not {type(text).__name__}")
    content = text.encode("utf-8", "surrogateescape") if isinstance(text, str) else text
    if len(content) > MOST_BYTES:
        raise Fault(TOO_LONG)
    return content


def edit(text: Text, script: Text, depth: int = 100, program: Optional[str] = None) -> bytes:
    """The text of a makefile after the commands of a script.

    The first command that is refused raises `Refused`. What else ends a run raises `Fault`, with the message
    of the program. depth is how many edits `undo` can take back, from 1 to 10,000. If a program is named, it
    makes the run; otherwise the library does, or `mkedit` where there is none.
    """
    if isinstance(depth, bool) or not isinstance(depth, int):
        raise TypeError(f"a depth must be an int, not {type(depth).__name__}")
    if not 1 <= depth <= MOST_DEPTH:
        raise ValueError(f"a depth must be from 1 to {MOST_DEPTH}")
    return either(program).edit(bytes_of(text), bytes_of(script), depth)


def assignments(text: Text, program: Optional[str] = None) -> List[Assignment]:
    """The assignments of a makefile in their order, as `vars` of a session gives them; their file is `-`."""
    load: Callable[[bytes], Any] = json.loads
    return answers.assignments([load(it) for it in either(program).vars(bytes_of(text)).splitlines()])
