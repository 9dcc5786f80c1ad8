"""Diffs, led over files by the programs that take them."""

import subprocess

from tests.lib.checks import SECONDS
from tests.lib.rooms import Room

# How each program makes the change of a diff that lies in the folder, and how it takes it back.
PROGRAMS = (
    (["patch", "-s", "-p1", "-i"], ["patch", "-s", "-R", "-p1", "-i"]),
    (["git", "apply"], ["git", "apply", "-R"]),
)


def led(room, words, diff, old, new):
    """What is wrong with files, texts by their names, over which these words have led a diff."""
    for name, text in old.items():
        (room.folder / name).parent.mkdir(parents=True, exist_ok=True)
        room.write(name, text)
    room.write("diff", diff)
    got = subprocess.run([*words, "diff"], cwd=room.folder, capture_output=True, timeout=SECONDS)
    if got.returncode:
        return [f"{words} fails: {(got.stdout + got.stderr).decode(errors='replace')}"]
    return [problem for name, text in new.items() for problem in room.holds(name, text)]


def wrong_trees(diff, old, new):
    """What is wrong with a diff that has to lead from some files, texts by their names, to others, and back."""
    if (old == new) != (not diff):
        yield f"the diff is {diff!r}"
    if old == new:
        return
    for forwards, backwards in PROGRAMS:
        for words, before, after in ((forwards, old, new), (backwards, new, old)):
            with Room(None) as room:
                yield from led(room, words, diff, before, after)


def wrong_ways(diff, old, new, name="Makefile"):
    """What is wrong with a diff that has to lead from one text to another, and back."""
    return wrong_trees(diff, {name: old}, {name: new})
