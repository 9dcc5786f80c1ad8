"""A case, which follows from a seed and a number, and what is wrong with the program's runs of it."""

from typing import NamedTuple

from tests.lib import reading
from tests.lib.checks import Outcome, brief, differences
from tests.lib.diffs import wrong_ways

from .drawing import Drawing, source_of
from .edits import LIMIT
from .filling import FEWEST_LINES, Filling, without_filling
from .judge import answered, judged
from .makefiles import Makefiles, long_makefile
from .scripts import Scripts

USUAL_DEPTH = 100
GREATEST_DEPTH = 10000
DEPTHS = (1, 1, 2, 2, 3, USUAL_DEPTH, USUAL_DEPTH)
# How many of the cases have a makefile that is long enough for an index.
LONG_SHARE = 0.05
# In how many of these the judge reads the filling too: this takes it longer.
JUDGED_SHARE = 0.05


class Case(NamedTuple):
    """The files and the options of a run, and the query that is asked beside it.

    Where there is padding, that many bytes `#` stand before the makefile, and make it about as long as
    a text may be. Where there is a filling, its lines stand between those of the makefile. Such a
    makefile begins with a comment, which no edit touches and which the padding only makes longer. So
    the judge leaves the padding and the filling out.
    """

    makefile: bytes
    script: bytes
    depth: int
    goes_on: bool
    query: str
    padding: int = 0
    filling: Filling = None

    @property
    def flags(self):
        depth = [] if self.depth == USUAL_DEPTH else ["-d", str(self.depth)]
        return [*(["-k"] if self.goes_on else []), *depth]

    @property
    def is_one(self):
        """Whether the makefile may have its padding or filling. A case that was shrunk may not."""
        is_as_drawn = not self.padding and not self.filling
        return is_as_drawn or self.makefile.startswith(b"#")

    @property
    def limit(self):
        return LIMIT - self.padding

    @property
    def verdict(self):
        return judged(self.makefile, self.script, self.depth, self.goes_on, self.limit)

    @property
    def text(self):
        """The makefile with its padding and its filling, as the program gets it."""
        filled = self.filling.filled(self.makefile) if self.filling else self.makefile
        return b"#" * self.padding + filled

    def bare(self, text):
        """The text without the padding, where that stands there, and without the filling."""
        has_padding = text.startswith(b"#" * self.padding)
        text = text[self.padding :] if has_padding else text
        return without_filling(text) if self.filling else text


def drawn(seed, number):
    """The case of a seed with this number."""
    drawing = Drawing(source_of(seed, number))
    return drawn_long(drawing) if drawing.chance(LONG_SHARE) else drawn_short(drawing)


def drawn_long(drawing):
    """A case of many edits over a makefile that is long enough for an index."""
    makefile = long_makefile(drawing.source)
    lines = drawing.one([FEWEST_LINES, FEWEST_LINES, 2000, 10000])
    filling = Filling(lines, drawing.source.randrange(1 << 32))
    depth = drawing.one(DEPTHS)
    script = Scripts(drawing.source, makefile, depth, is_long=True, is_part=True).script()
    if drawing.chance(JUDGED_SHARE):
        makefile, filling = Filling(FEWEST_LINES, filling.seed).filled(makefile), None
    return Case(makefile, script, depth, drawing.chance(0.95), "vars", filling=filling)


def drawn_short(drawing):
    """A case of few edits over a makefile of few lines."""
    makefile, padding = Makefiles(drawing.source).makefile(), 0
    if drawing.chance(0.002):
        makefile = b"ifdef A\n" * drawing.one([255, 256, 257]) + makefile
    elif drawing.chance(0.002):
        makefile = b"#\n" + makefile
        padding = LIMIT - len(makefile) - drawing.one([-1, 0, 1, 5, 10, 20])
    depth = drawing.one(DEPTHS)
    script = Scripts(drawing.source, makefile, depth, is_part=padding > 0).script()
    goes_on, query = drawing.chance(0.75), drawing.one(list(reading.QUERIES))
    return Case(makefile, script, depth, goes_on, query, padding)


def problems_of(room, case, verdict):
    """Runs a case and its query, and says what is wrong."""
    room.write("Makefile", case.text)
    room.write("script", case.script)
    out, err, status = room.run("edit", *case.flags, "script", "Makefile")
    got = Outcome(case.bare(out), err, status)
    problems = differences(got, verdict.outcome) + list(broken_promises(got, case, verdict))
    if verdict.outcome.status < 2:
        problems += wrong_undoing(room, case)
        problems += wrong_diff(room, case, Outcome(out, err, status))
    if not case.filling:
        problems += wrong_queries(room, case, got, out)
    return problems + room.changed()


def wrong_queries(room, case, got, out):
    """How the answers to the query differ, of the makefile and of the text that was printed."""
    problems = []
    if len(case.makefile) <= case.limit:
        problems += wrong_query(room, case.query, "Makefile", case.makefile)
    if got.status == 0:
        room.write("edited", out)
        problems += wrong_query(room, case.query, "edited", got.stdout)
    return problems


def broken_promises(got, case, verdict):
    """Which promises do not hold, by what was printed where that says it."""
    if got.status == 1 and not case.goes_on and got.stdout:
        yield "a refused run printed a text"
    for reply in verdict.replies:
        if reply.plan and reading.reading(reply.after) != reply.plan.reading:
            yield f"{reply.name} on {brief(reply.before)} does not read as stated"
    plan = verdict.replies[0].plan if len(verdict.replies) == 1 else None
    if plan:
        if reading.reading(got.stdout) != plan.reading:
            yield "the text that was printed does not read as stated"
        if not keeps_other_bytes(case.makefile, got.stdout, plan.spans):
            yield "bytes outside the spans have changed"


def keeps_other_bytes(before, after, spans):
    """Whether the bytes between the spans stand in both texts, where the spans leave them."""
    at, to = 0, 0
    for start, end, new in spans:
        if after[to : to + start - at] != before[at:start]:
            return False
        at, to = end, to + start - at + len(new)
    return after[to:] == before[at:]


def wrong_undoing(room, case):
    """Whether the first bytes fail to come back where the whole script is undone."""
    # (a return at the end would become a part of the line end behind it)
    if case.script.endswith(b"\r"):
        return []
    commands = case.script.count(b"\n") + 1
    room.write("undone", case.script + b"\ncancel\n" + b"undo\n" * commands)
    got = room.run("edit", "-k", "-d", str(GREATEST_DEPTH), "undone", "Makefile")
    is_right = (got.stdout, got.status) == (case.text, 1)
    return [] if is_right else [f"undoing all gives {brief(got.stdout)} and the status {got.status}"]


def wrong_diff(room, case, printed):
    """What is wrong with the diff of a run, by what it printed without it: `patch` and `git apply` have to take it."""
    got = room.run("edit", "--diff", *case.flags, "script", "Makefile")
    problems = differences(got._replace(stdout=b""), printed._replace(stdout=b""))
    is_printed = printed.status == 0 or case.goes_on
    text = printed.stdout if is_printed else case.text
    return [*problems, *wrong_ways(got.stdout, case.text, text)]


def wrong_query(room, query, name, text):
    """How the answer to a query differs from what it has to be."""
    wanted = answered(query, text)
    return [f"{query} of {name}: {it}" for it in differences(room.run(query, name), wanted)]
