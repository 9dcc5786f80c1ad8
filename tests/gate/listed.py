"""The crates that crates.txt lists, and what each is built on."""

from pathlib import Path
from typing import NamedTuple, Tuple


class Listed(NamedTuple):
    """A crate of the repository, and the crates of the repository that it names as libraries."""

    name: str
    folder: Path
    uses: Tuple[str, ...]


def listed(top):
    """The crates of a repository by their names, in the order of crates.txt."""
    lines = {}
    for line in (top / "crates.txt").read_text(encoding="utf-8").splitlines():
        name, colon, below = line.partition("#")[0].partition(":")
        if colon:
            lines[name.split()[0]] = below.split()
    return {name: Listed(name, top / "crates" / name, tuple(it for it in below if it in lines)) for name, below in lines.items()}


def with_below(crates, names):
    """Some crates and all that they are built on, in the order of crates.txt."""
    found = {*names}
    for name in reversed(crates):
        found.update(crates[name].uses if name in found else ())
    return [it for it in crates if it in found]
