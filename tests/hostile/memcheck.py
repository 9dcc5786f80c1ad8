"""Rows under valgrind: no error, and no leak that grows with the edits.

Where valgrind is not installed this part is skipped, with a word. The program gives up no session at
its end, so what is in use then is no leak by itself. It is compared between few edits and many, which
leave the same text and the same number of edits that can be undone.
"""

import re
import shutil
import subprocess
from typing import NamedTuple

from tests.lib.checks import SECONDS, Outcome, differences
from tests.lib.rooms import ANSWERS, EDITED, FILES, NO_COMMAND, READ_FAULT, TOO_DEEP, Room, cannot_open
from tests.lib.tables import cases

# Of the cases in the tables, one in so many.
ONE_IN = 40
ERROR = 99
OPTIONS = ("--leak-check=no", f"--error-exitcode={ERROR}")
IN_USE = re.compile(r"in use at exit: ([\d,]+) bytes")
SUMMARY = re.compile(r"ERROR SUMMARY: (\d+) errors")
FEW, MANY = 10, 500
# Fewer than the edits of the shortest script.
DEPTH = "2"
# Scripts that leave one text however often their edits are repeated.
REPEATED = {
    "set": b"set CC clang\n",
    "set and undo": b"set CC clang\nundo\nredo\n",
    "assign and unset": b"assign bottom NEW = 1\nset CC clang\nunset NEW\n",
    "rule and unrule": b"rule bottom new : a\nrecipe new b\nunrule new\nset CC clang\n",
    "groups": b"begin\nset CC gcc\nset CC clang\nend\n",
    "groups, cancelled": b"set CC clang\nbegin\nset CC gcc\nrename nothing more\ncancel\n",
}


class Checked(NamedTuple):
    """What a run gave, and what valgrind says of it."""

    outcome: Outcome
    errors: str
    in_use: int


def checked(room, words):
    """Runs the program under valgrind."""
    log = room.folder / "log"
    line = ["valgrind", *OPTIONS, f"--log-file={log}", str(room.program.path), *words]
    ran = subprocess.run(line, cwd=room.folder, capture_output=True, timeout=10 * SECONDS)
    text = log.read_text(errors="replace")
    in_use, summary = IN_USE.search(text), SUMMARY.search(text)
    outcome = Outcome(ran.stdout, ran.stderr, ran.returncode)
    is_clean = summary and summary.group(1) == "0"
    errors = "" if is_clean else " / ".join(text.splitlines()[-20:])
    return Checked(outcome, errors, int(in_use.group(1).replace(",", "")) if in_use else -1)


def problems_of(room, words, wanted):
    """Runs the program under valgrind, and says what is wrong."""
    found = checked(room, words)
    return differences(found.outcome, wanted) + ([found.errors] if found.errors else [])


def small_rows():
    """Runs of each command and each ending, over the files of every room."""
    yield ["edit", "script", "Makefile"], EDITED
    yield ["edit", "bad", "Makefile"], NO_COMMAND
    yield ["edit", "script", "absent"], cannot_open("absent")
    yield ["edit", "script", "."], READ_FAULT
    yield ["edit", "script", "deep"], TOO_DEEP
    for query, answer in ANSWERS.items():
        yield [query, "queried"], Outcome(answer, b"", 0)


def check_rows(program, tally):
    """Checks small runs, and a sample of the tables."""
    with Room(program) as room:
        for name, content in {**FILES, "deep": b"ifdef A\n" * 257}.items():
            room.write(name, content)
        for words, wanted in small_rows():
            tally.add(f"valgrind: {' '.join(words)}", problems_of(room, words, wanted))
    for number, case in enumerate(cases()):
        if number % ONE_IN == 0:
            with Room(program) as room:
                for name, content in case.files.items():
                    room.write(name, content)
                tally.add(f"valgrind: {case.name}", problems_of(room, case.words, case.wanted))


def check_growth(program, tally):
    """Checks that what is in use at the end does not grow with the edits."""
    with Room(program) as room:
        for name, content in FILES.items():
            room.write(name, content)
        for name, commands in REPEATED.items():
            found = []
            for times in (FEW, MANY):
                room.write("repeated", commands * times)
                found.append(checked(room, ["edit", "-k", "-d", DEPTH, "repeated", "Makefile"]))
            few, many = found
            wrong = [it.errors for it in found if it.errors]
            if few.outcome.stdout != EDITED.stdout or many.outcome.stdout != EDITED.stdout:
                wrong.append(f"the texts are {few.outcome.stdout} and {many.outcome.stdout}")
            if few.in_use != many.in_use or few.in_use < 0:
                wrong.append(f"{few.in_use} bytes are in use at the end, and then {many.in_use}")
            tally.add(f"valgrind, {MANY} times: {name}", wrong)


def run(program, tally):
    """Runs the rows, where valgrind is there."""
    if not shutil.which("valgrind"):
        print("valgrind is not installed: its part is skipped", flush=True)
        return
    before = tally.passed
    check_rows(program, tally)
    check_growth(program, tally)
    print(f"valgrind: {tally.passed - before} runs or pairs of runs without an error", flush=True)
