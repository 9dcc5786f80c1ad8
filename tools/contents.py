"""What a release holds: the program, the manual pages, the completions, the libraries, and what a user reads."""

import os
import re
import struct
import subprocess
from pathlib import Path

from checkout import time_of_commit
from packing import Packed

TOP = Path(__file__).resolve().parent.parent
PROGRAM = "bin/mkedit"
# Where a file of the repository goes below PREFIX, as `make install` puts it.
PLACED = {
    "docs/mkedit.1": "share/man/man1/mkedit.1",
    "docs/mkedit-script.5": "share/man/man5/mkedit-script.5",
    "completions/mkedit.bash": "share/bash-completion/completions/mkedit",
    "completions/mkedit.zsh": "share/zsh/site-functions/_mkedit",
    "completions/mkedit.fish": "share/fish/vendor_completions.d/mkedit.fish",
}
# What a user reads. It has the same place in a release, so that one document finds the other.
READ = ("README.md", "CHANGELOG.md", *(f"docs/{it}.md" for it in ("GUIDE", "EDITS", "COOKBOOK", "LANGUAGE")))
# The library for C as `make lib` builds it, and the header.
LIBRARY, BUILT = TOP / "crates/mkedit_c/out/lib", ("libmkedit.a", "libmkedit.so.0")
HEADER = "include/mkedit.h"
# The package for Python, which stands in a release as a folder that pip installs.
PYTHON, IN_PYTHON = "clients/python", ("README.md", "pyproject.toml", "mkedit/*")
# The time of each file where nothing says another: the first second of 2000.
EPOCH = 946_684_800
VERSION = re.compile(r"mkedit (\d+\.\d+\.\d+)( .*)?\n")
# What a program of Linux with 64 bits begins with, the number of its machine, and of a part with a loader's name.
ELF, X86_64, INTERPRETER = b"\x7fELF\x02\x01", 62, 3


class NotPacked(Exception):
    """There is no release; says why."""


def read(name):
    """The bytes of a file of the repository."""
    return (TOP / name).read_bytes()


def asks_for_a_loader(code):
    """Whether a program has the system load libraries when it starts."""
    (start,), (size, count) = struct.unpack_from("<Q", code, 32), struct.unpack_from("<HH", code, 54)
    kinds = [struct.unpack_from("<I", code, start + it * size)[0] for it in range(count)]
    return INTERPRETER in kinds


def program_at(path):
    """The bytes of a program that runs on any Linux on x86-64. A NotPacked says that it is no such program."""
    code = Path(path).read_bytes()
    try:
        is_for_x86_64 = code.startswith(ELF) and struct.unpack_from("<H", code, 18) == (X86_64,)
        needs_more = is_for_x86_64 and asks_for_a_loader(code)
    except struct.error:
        is_for_x86_64 = False
    if not is_for_x86_64:
        raise NotPacked(f"{path} is no program for x86-64")
    if needs_more:
        raise NotPacked(f"{path} loads the C library of the machine: build it where there is a static one (libc.a)")
    return code


def version_of(path):
    """The version that a program tells."""
    ran = subprocess.run([Path(path).resolve(), "--version"], stdin=subprocess.DEVNULL, capture_output=True, text=True)
    found = VERSION.fullmatch(ran.stdout)
    if not found:
        raise NotPacked(f"{path} tells no version")
    return found[1]


def time():
    """The time of each file: $SOURCE_DATE_EPOCH, else that of the last commit."""
    given = os.environ.get("SOURCE_DATE_EPOCH", "")
    if given and not given.isdecimal():
        raise NotPacked(f"SOURCE_DATE_EPOCH is no number of seconds: {given}")
    return int(given) if given else time_of_commit() or EPOCH


def installed(program):
    """What is installed of a release, by its places below PREFIX."""
    return [Packed(PROGRAM, program_at(program), True)] + [Packed(it, read(name)) for name, it in PLACED.items()]


def library(prefix="/usr/local", folder="lib"):
    """The library for C by its places below a prefix, with its header and what pkg-config asks for.

    It is in this folder there. There is nothing where `make lib` has built none.
    """
    found = [Packed(f"{folder}/{it}", (LIBRARY / it).read_bytes()) for it in BUILT if (LIBRARY / it).is_file()]
    if not found:
        return []
    said = read("packaging/mkedit.pc.in").replace(b"@LIBDIR@", f"{prefix}/{folder}".encode())
    said = said.replace(b"@INCLUDEDIR@", f"{prefix}/include".encode())
    return [*found, Packed(HEADER, read(HEADER)), Packed(f"{folder}/pkgconfig/mkedit.pc", said)]


def python():
    """The package for Python."""
    files = (path for it in IN_PYTHON for path in (TOP / PYTHON).glob(it) if path.is_file())
    return [Packed(f"python/{it.relative_to(TOP / PYTHON)}", it.read_bytes()) for it in files]


def told():
    """What a user reads."""
    return [Packed(it, read(it)) for it in READ]
