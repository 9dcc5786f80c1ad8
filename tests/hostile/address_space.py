"""Runs under an address space that grows in steps: each ends with its answer, or says no memory.

Too small a space cannot hold the program at all. Then the kernel or the loader ends the run before
the program's first instruction, and the program can say nothing of it. From the least space in
which a run starts, each greater one has to give a clean answer: its own, or NoMemory with nothing
on standard output and the report of the commands before.
"""

import signal
from typing import NamedTuple

from bench.shared import row as show
from tests.lib.checks import Outcome, brief
from tests.lib.rooms import ANSWERS, EDITED, FILES, NO_MEMORY, Room

PAGE = 4_096
# The status with which the loader ends a run; none of the program's own.
NOT_LOADED = 127
# A run that has no answer in so much is at fault.
GREATEST = 1 << 30
LINES = range(20_000)
CHOSEN = range(0, 20_000, 200)


def line(at, value=b"a value of some bytes"):
    return b"NAME%d = %s # and a comment\n" % (at, value)


def text_of(changed=()):
    """A makefile of many lines, of which some were changed."""
    return b"".join(line(at, b"other") if at in changed else line(at) for at in LINES)


def files():
    """The makefiles and scripts of the rows."""
    many = b"".join(b"set NAME%d other\n" % at for at in CHOSEN)
    long = b"assign bottom NEW = %s\n" % (b"x" * 2_000) * 1_000
    return {
        **FILES,
        "lines": text_of(),
        "many": many,
        "back": many + b"undo\n" * len(CHOSEN),
        "group": b"begin\n" + many + b"cancel\n",
        "new": b"assign bottom NEW = 1\n" * 100 + b"undo\n" * 100,
        "rename": b'rule bottom w : "w w"\nrename w z\nundo\nundo\n',
        "refused": b"undo\n" + many,
        "long": long + b"undo\n" * 1_000,
        "long-group": b"begin\n" + long + b"cancel\n",
    }


REFUSED = b"1: refused 16 NothingToUndo\n"


class Row(NamedTuple):
    """A run in its words, and what it gives where there is memory.

    report: what may stand before the message where there is none. out: what the file `out` then
    holds where the run has its answer, None where no file has to be there.
    """

    name: str
    words: tuple
    wanted: Outcome
    report: bytes = b""
    out: bytes = None


def rows():
    """Small runs, and some over a makefile of many lines."""
    yield Row("a small edit", ("edit", "script", "Makefile"), EDITED)
    words = ("edit", "-o", "out", "script", "Makefile")
    yield Row("a small edit to a file", words, Outcome(b"", b"", 0), out=EDITED.stdout)
    yield Row("a refused command", ("edit", "undo", "Makefile"), Outcome(b"", REFUSED, 1))
    for query, answer in ANSWERS.items():
        yield Row(f"a small {query}", (query, "queried"), Outcome(answer, b"", 0))
    text, changed = text_of(), text_of(CHOSEN)
    yield Row("no command", ("edit", "empty", "lines"), Outcome(text, b"", 0))
    yield Row("100 set", ("edit", "many", "lines"), Outcome(changed, b"", 0))
    for name, script in (
        ("100 set, undone", "back"),
        ("100 set in a group, cancelled", "group"),
        ("100 assign bottom, undone", "new"),
        ("rename, undone", "rename"),
    ):
        yield Row(name, ("edit", script, "lines"), Outcome(text, b"", 0))
    words = ("edit", "-k", "refused", "lines")
    yield Row("one refused, 100 set", words, Outcome(changed, REFUSED, 1), REFUSED)
    yield Row("check", ("check", "lines"), Outcome(b"", b"", 0))
    back = Outcome(FILES["Makefile"], b"", 0)
    yield Row("1,000 long lines, undone", ("edit", "-d1000", "long", "Makefile"), back)
    yield Row("1,000 long lines in a group, cancelled", ("edit", "long-group", "Makefile"), back)


def has_not_started(got):
    """Whether a run ended before the program's first instruction."""
    is_killed = got.status in (-signal.SIGKILL, -signal.SIGSEGV) and not got.stderr
    return not got.stdout and (is_killed or got.status == NOT_LOADED)


def said(row, got):
    """What a run gave: its answer, NoMemory, no start, or None for anything else."""
    if got == row.wanted:
        return "answer"
    if got in (NO_MEMORY, Outcome(b"", row.report + NO_MEMORY.stderr, NO_MEMORY.status)):
        return "no memory"
    return "no start" if has_not_started(got) else None


class Steps:
    """The spaces that were tried of a row, and what is wrong with what was given in them."""

    def __init__(self, room, row, step):
        self.room, self.row, self.step = room, row, step
        self.first = {}
        self.runs = 0
        self.wrong = []

    def climb(self):
        """Tries space after space, until the run has had its answer a few times."""
        space, answers = self.step, 0
        while answers < 5 and space < GREATEST:
            answers += self.try_in(space) == "answer"
            space += self.step
        if answers < 5:
            self.wrong.append(f"no answer in {GREATEST:,} bytes")

    def try_in(self, space):
        got = self.room.run(*self.row.words, memory=space)
        what = said(self.row, got)
        self.runs += 1
        if what is None or (what == "no start" and {*self.first} - {what}):
            self.wrong.append(f"with {space:,} bytes: {brief(got)}")
        self.wrong += self.room.holds("out", self.row.out if what == "answer" else None)
        (self.room.folder / "out").unlink(missing_ok=True)
        self.first.setdefault(what, space)
        return what

    def problems(self):
        """What is wrong, or the first of it."""
        return self.wrong[:5] + self.room.changed()

    def columns(self):
        """The step, the least space of each ending, both in KB, and how many runs there were."""
        spaces = (self.first.get(it) for it in ("no memory", "answer"))
        least = ["-" if it is None else f"{it // 1024:,}" for it in spaces]
        return [str(self.step // 1024), *least, str(self.runs)]


def climbs(room, step, large_step):
    """Climbs with each row, by large steps where its files are large, and hands out what was found."""
    for name, content in files().items():
        room.write(name, content)
    for row in rows():
        is_large = {"lines", "long", "long-group"} & {*row.words}
        steps = Steps(room, row, large_step if is_large else step)
        steps.climb()
        yield steps


def run(program, tally):
    """Climbs with each row by small steps, and prints a table."""
    show("Run", "KB of the step", "says no memory from, KB", "has its answer from, KB", "runs")
    show("---", *["---:"] * 4)
    with Room(program) as room:
        for steps in climbs(room, PAGE, 16 * PAGE):
            show(steps.row.name, *steps.columns())
            tally.add(f"memory in steps: {steps.row.name}", steps.problems())
    print(flush=True)
