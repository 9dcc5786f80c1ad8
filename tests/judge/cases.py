"""What is judged: random makefiles by a seed, and the examples, each with edits. And the counts."""

import collections
import random
import re

from tests import TOP

from . import generator
from .verdicts import EQUAL, FINDING, FOLLOWS, GROUP, NOT_FOLLOWED, REFUSED, SKIPPED, row

EXAMPLES = TOP / "examples/makefiles"
# An example is judged in a copy in which nothing runs and no file is read.
TAMED = (
    (rb"\$\((?:shell|eval)\b", b"$(tamed"),
    (rb"(?m)^-?include\b", b"vpath %.none"),
    (rb"!=", b"?="),
    (rb"\bMAKE(?=\W|FLAGS)|\bM(?=FLAGS\b)", b"TAMED"),
    (rb"\$\(call (?![A-Za-z0-9_.-]+[,)])", b"$(tamed "),
    (rb"\b(shell|eval|guile|file|s?include|load|MAKEFILES|GNUMAKEFLAGS)\b", rb"\1d"),
    (rb"\+(?!=)", b"p"),
)
ROUNDS = 3  # how often each kind of edit is drawn for an example
MOST_ROWS = 20


def tamed(text):
    """A makefile without what is not safe to give to make."""
    for pattern, instead in TAMED:
        text = re.sub(pattern, instead, text)
    return text


def examples(seed):
    """The examples, each with its name and the source of its edits."""
    for folder in sorted(it for it in EXAMPLES.iterdir() if it.is_dir()):
        source = random.Random(f"{seed}/{folder.name}")
        yield folder.name, tamed((folder / "Makefile").read_bytes()), source, ROUNDS


def random_cases(seed):
    """Random makefiles without end, each with its name and the source of its edits."""
    number = 0
    while True:
        number += 1
        source = random.Random(f"{seed}/{number}")
        yield f"seed-{seed}-{number}", generator.makefile(source), source, 1


class Counts:
    """What was judged, by kind of edit and by verdict, and the rows of what was found."""

    def __init__(self, judge):
        self.judge = judge
        self.makefiles = collections.Counter()
        self.edits = collections.defaultdict(collections.Counter)
        self.groups = collections.Counter()
        self.refusals = collections.Counter()
        self.compared = 0
        self.rows = []

    def found(self):
        """How many findings there are."""
        return self.makefiles[FINDING] + sum(it[FINDING] for it in self.edits.values())

    def judged(self, command):
        """How many edits of a kind were judged."""
        counts = self.edits[command]
        return sum(counts.values()) - counts[REFUSED] - counts[SKIPPED]

    def take(self, name, text, source, rounds):
        """Judges a makefile and its edits, and says what was found."""
        new = []
        verdict, before = self.judge.of_makefile(text)
        self.makefiles[verdict.kind] += 1
        self.compared += verdict.compared
        self.note(verdict, name, text, None, new)
        for _ in range(rounds if before else 0):
            for edit in generator.Editor(source, text).edits():
                verdict = self.judge.of_edit(text, before, edit)
                self.edits[edit[0]][verdict.kind] += 1
                self.note(verdict, f"{name}-{edit[0]}", text, edit, new)
        return new

    def note(self, verdict, name, text, edit, new):
        """Counts a group or a refusal, and writes the row of a finding."""
        if verdict.kind == GROUP:
            self.groups["reading" if edit is None else "edit", verdict.about] += 1
        elif verdict.kind == REFUSED:
            self.refusals[verdict.about] += 1
        elif verdict.kind == FINDING:
            is_shown = len(self.rows) < MOST_ROWS
            new.append(row(self.judge, name, text, edit) if is_shown else name)
            self.rows += new[-1:]

    def table(self):
        """The counts, in lines."""
        of = self.makefiles
        judged = sum(of.values()) - of[SKIPPED]
        yield (
            f"makefiles: {judged} judged ({self.compared} variables and targets), {of[EQUAL]} equal, "
            f"{of[GROUP]} in a group, {of[FINDING]} found; {of[SKIPPED]} skipped"
        )
        columns = (EQUAL, FOLLOWS, NOT_FOLLOWED, GROUP, FINDING, REFUSED, SKIPPED)
        rows = [("edit", "judged", *columns)]
        total = collections.Counter()
        for command in sorted(self.edits):
            total += self.edits[command]
            counts = self.edits[command]
            rows.append((command, self.judged(command), *(counts[it] for it in columns)))
        judged = sum(map(self.judged, list(self.edits)))
        rows.append(("all", judged, *(total[it] for it in columns)))
        for it in rows:
            yield f"{it[0]:13}" + "".join(f"{column:>14}" for column in it[1:])
        for (what, group), count in sorted(self.groups.items()):
            yield f"{count:7} {what}: {group.replace('_', ' ')}"


# Wrong edits, which the judge has to find: a makefile, an edit, and what it must not become.
PLANTED = (
    (b"A = 1\nB = 2\n", ("set", None, b"A", b"3"), b"A = 1\nB = 2\n"),
    (b"A = 1\nB = 2\n", ("set", None, b"A", b"3"), b"A = 3\nB = 3\n"),
    (b"A = 1\nA += 2\n", ("set-if", None, b"A", b"2", b"3"), b"A = 3\nA += 2\n"),
    (b"A = 1\nA += 1\n", ("all set-if", None, b"A", b"1", b"3"), b"A = 3\nA += 1\n"),
    (b"A = 1\nB = 2\n", ("comment-out", None, b"A"), b"A = 1\n#B = 2\n"),
    (b"# A = 1\n", ("uncomment", None, b"A"), b"A =\n"),
    (b"t: a | a\n", ("depend-replace", None, b"t", b"a", b"b"), b"t: b | a\n"),
    (b"t:\nifdef NONE\n\tx\nendif\nu:\n\ty\n", ("rule-remove", None, b"t"), b"t:\n\ty\n"),
    (b"t:\n\tx\n", ("rule-replace", None, b"t", b"t:\n\ty"), b"t:\n\tx\n\ty\n"),
    (b"A = 1\nB := $(A)\nA += 2\n", ("assign", None, b"after-last-var A", b"A", b"+=", b"3"), b"A = 1\nA += 3\nB := $(A)\nA += 2\n"),
    (b"A = 1 # c\n", ("append", None, b"A", b"3"), b"A = 1 # c 3\n"),
    (b"A = 1\nA += 2\n", ("all append", None, b"A", b"3"), b"A = 1 3\nA += 2\n"),
    (b"A = 1\nA += 1 2\n", ("all drop", None, b"A", b"1"), b"A = \nA += 1 2\n"),
    (b"A = 1\nA += 2\n", ("all prepend", None, b"A", b"3"), b"A = 3 1\nA += 2\n"),
    (b"A = a\nA += a b\n", ("all replace", None, b"A", b"a", b"c"), b"A = c\nA += a b\n"),
    (b"A = a.a\nA += ab\n", ("all subst", None, b"A", b"a", b"c"), b"A = c.c\nA += ab\n"),
    (b"A = 1\nA = 2\n", ("all operator", None, b"A", b"+="), b"A += 1\nA = 2\n"),
    (b"A = a.a\nB = a\n", ("values-subst", None, b"a", b"c"), b"A = c.c\nB = a\n"),
    (b"A = 1\n", ("prepend", None, b"A", b"3"), b"A = 1 3\n"),
    (b"A = a b a\n", ("replace", None, b"A", b"a", b"c"), b"A = c b a\n"),
    (b"A = a b\n", ("add-before", None, b"A", b"b", b"c"), b"A = a b c\n"),
    (b"A = a  b d\n", ("add-after", None, b"A", b"a", b"c"), b"A = a c  b d\n"),
    (b"A = a.a\n", ("subst", None, b"A", b"a", b"c"), b"A = c.a\n"),
    (b"A = a b\n", ("subst", None, b"A", b"b", b""), b"A = a\n"),
    (b"A = 1\n", ("operator", None, b"A", b":="), b"A ?= 1\n"),
    (b"A = 1\nB = 2\n", ("unset", None, b"A"), b""),
    (b"A = 1\nB := $(C)\n", ("assign", None, b"bottom", b"C", b"=", b"3"), b"C = 3\nA = 1\nB := $(C)\n"),
    (b"t: a\n\tx\nu: b\n", ("depend", None, b"t", b"c"), b"t: a | c\n\tx\nu: b\n"),
    (b"t: a\n\tx\nu: b\n", ("unrule", None, b"t"), b"u: b\n\tx\n"),
    (b"t: a\n\tx\nu: b\n", ("recipe", None, b"t", b"y"), b"t: a\n\ty\n\tx\nu: b\n"),
    (b"t: a\n\tx\n\ty\n", ("recipe-del", None, b"t", b"1"), b"t: a\n\tx\n"),
    (b"t: a\n\tx x\nu: b\n\tx\n", ("recipe-subst", None, b"t", b"x", b"y"), b"t: a\n\ty x\nu: b\n\tx\n"),
    (b"d::\n\tx\nd::\n\tx\n", ("recipe-subst", 2, b"d", b"x", b"y"), b"d::\n\ty\nd::\n\tx\n"),
    (b"t: a\n\tx\nu: b\n\tx\n", ("recipes-subst", None, b"x", b"y"), b"t: a\n\ty\nu: b\n\tx\n"),
    (b"t: a\nu: t\n", ("rename", None, b"t", b"v"), b"v: a\nu: t\n"),
    (b"A = 1\nA += 2\n", ("insert", None, b"after-line A = 1", b"A = 3"), b"A = 3\nA = 1\nA += 2\n"),
    (b"t: a\n\tx\nu: b\n", ("insert", None, b"before-rule u", b"\ty"), b"t: a\n\ty\n\tx\nu: b\n"),
    (b"ifdef A\nB = 1\nendif\n", ("line-replace", None, b"ifdef A", b"ifndef A"), b"ifdef A\nB = 1\nendif\n"),
    (b"define A\nx\ny\nendef\n", ("line-replace", None, b"y", b"z"), b"define A\nz\ny\nendef\n"),
    (b"t: a\n\tx\n\ty\n\tx\n", ("line-remove", 2, b"\tx"), b"t: a\n\ty\n\tx\n"),
    (b"t: a\n\tx\n\ty\n\tx\n", ("line-remove", None, b"\ty\n\tx"), b"t: a\n\tx\n\ty\n"),
    (b"A = 1\n", ("line-replace", None, b"A = 1", b"ifdef NONE\nA = 1\nendif"), b"ifdef NONE\nendif\nA = 1\n"),
)
# Edits of special targets, in which the judge has to find nothing: a makefile and an edit of it.
# `.SUFFIXES:` clears the suffixes above it, `.DEFAULT:` the recipe; the words of .PHONY are targets.
SPECIAL = (
    (
        b".SUFFIXES: a.o  \\\nlib.a(x.o)\n.SUFFIXES:\n",
        ("depend-order", 2, b".SUFFIXES", b"lib.a(y.o)"),
    ),
    (b".SUFFIXES: .a | .b\n.SUFFIXES:\n", ("depend", 2, b".SUFFIXES", b".c")),
    (b".SUFFIXES: .a | .b\n.SUFFIXES: .c\n", ("undepend", 2, b".SUFFIXES", b".c")),
    (b".SUFFIXES: .a\n.SUFFIXES:\n.SUFFIXES: .b\n", ("unrule", 2, b".SUFFIXES")),
    (b".DEFAULT:\n\tx\n.DEFAULT:\n", ("depend", 2, b".DEFAULT", b"a")),
    (b".DEFAULT:\n\tx\n.DEFAULT: a\n", ("undepend", 2, b".DEFAULT", b"a")),
    (b".DEFAULT:\n\tx\n.DEFAULT:\n", ("recipe", 2, b".DEFAULT", b"y")),
    (b".PHONY: a\nd::\n\tx\n", ("depend", None, b".PHONY", b"d")),
    (b".PHONY: a\n", ("depend", None, b".PHONY", b".SUFFIXES")),
    (b".PHONY: a | b\n", ("undepend", None, b".PHONY", b"b")),
    (b".SECONDARY: a\na:\n", ("undepend", None, b".SECONDARY", b"a")),
    (b".DEFAULT_GOAL = a\na: b\nb:\n", ("set", None, b".DEFAULT_GOAL", b"b")),
)


def check_fixed(judge):
    """The fixed edits are judged: what is wrong with the verdicts on them."""
    return [*check_planted(judge), *check_special(judge)]


def check_special(judge):
    """In none of the edits of special targets is anything found; all are judged, without an excuse."""
    for text, edit in SPECIAL:
        verdict, before = judge.of_makefile(text)
        if verdict.kind == EQUAL:
            verdict = judge.of_edit(text, before, edit)
        if verdict.kind not in (EQUAL, FOLLOWS, NOT_FOLLOWED):
            yield f"{edit} in {text} is judged {verdict}"


def check_planted(judge):
    """Each planted wrong edit is found."""
    for text, edit, wrong in PLANTED:
        before, after = judge.make.database(text), judge.make.database(wrong)
        verdict = judge.compared(text, wrong, edit, before, after)
        if verdict.kind != FINDING:
            yield f"{edit} to {wrong} is judged {verdict}"
