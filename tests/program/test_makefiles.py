"""The makefiles of examples/makefiles: a script over each, and the queries.

Each folder there has a Makefile in the manner of a real one; edits.mkedit, a script; edits.diff, which
lines the script has to change, written by hand; and vars, rules and check, what the queries have to
print, which reading.py printed and a reader compared with the makefile.
"""

import re

from tests import TOP
from tests.lib import reading
from tests.lib.checks import Outcome, differences
from tests.lib.rooms import RoomCase

EXAMPLES = TOP / "examples/makefiles"
HUNK = re.compile(rb"@@ -(\d+)(?:,(\d+))? \+(\d+)(?:,(\d+))? @@\n")
NO_LINE_END = b"\\ No newline at end of file\n"


def hunks(diff):
    """The hunks of a diff without context: place and length before and after, and both lists of lines."""
    found, last = [], []
    for line in re.findall(rb"[^\n]*\n", diff)[2:]:
        head = HUNK.fullmatch(line)
        if head:
            at, count, to, length = (1 if it is None else int(it) for it in head.groups())
            found.append(((at, count, to, length), {b"-": [], b"+": []}))
        elif line == NO_LINE_END:
            last[-1] = last[-1][:-1]
        else:
            last = found[-1][1][line[:1]]
            last.append(line[1:])
    return found


def applied(diff, text):
    """The text with a diff applied, which has to fit it line by line."""
    old, new, done = re.findall(rb"[^\n]*\n|[^\n]+", text), [], 0
    for (at, count, to, length), lines in hunks(diff):
        start = at - 1 if count else at
        new += old[done:start]
        place = len(new) + 1 if length else len(new)
        if old[start : start + count] != lines[b"-"] or len(lines[b"+"]) != length or place != to:
            raise ValueError(f"the diff does not fit at line {at}")
        new += lines[b"+"]
        done = start + count
    return b"".join(new + old[done:])


def check_example(room, folder):
    """What is wrong with one example, by the name of what was checked."""
    text = (folder / "Makefile").read_bytes()
    script = (folder / "edits.mkedit").read_bytes()
    room.write("Makefile", text)
    room.write("script", script)
    room.write("undone", script + b"undo\n" * 100)
    edited = applied((folder / "edits.diff").read_bytes(), text)
    yield "edits", differences(room.run("edit", "script", "Makefile"), Outcome(edited, b"", 0))
    yield "no edits", differences(room.run("edit", "empty", "Makefile"), Outcome(text, b"", 0))
    got = room.run("edit", "-k", "undone", "Makefile")
    yield "undoing all", differences((got.stdout, b"", got.status), (text, b"", 1))
    for query, text_of in reading.QUERIES.items():
        stored = (folder / query).read_bytes()
        yield f"reading of {query}", differences((text_of(text), b"", 0), (stored, b"", 0))
        yield query, differences(room.run(query, "Makefile"), Outcome(stored, b"", 0))
        of_edited = Outcome(text_of(edited), b"", 0)
        room.write("edited", edited)
        yield f"{query} of what was edited", differences(room.run(query, "edited"), of_edited)
    yield "files", room.changed()


class Makefiles(RoomCase):
    def test_each_example_is_edited_and_read_as_its_files_say(self):
        for folder in sorted(it for it in EXAMPLES.iterdir() if it.is_dir()):
            name = f"examples/makefiles/{folder.name}"
            found = check_example(self.room, folder)
            self.assert_cases((f"{name}: {what}", problems) for what, problems in found)
