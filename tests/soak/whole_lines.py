"""The edits of whole lines, which are found by what they say, as edits.py has the others.

The new lines are read in the context in which they are to stand. A block is a text whose lines stand
between its line feeds.
"""

import re

from argument_rows import is_name, is_target
from tests.lib import reading

from . import document
from .edits import LIMIT, AtPlace, Edit, OfRule, Span, items_of, new_line, picked, refuse, refuse_leaning

TESTS = {
    "BeforeVar": is_name,
    "AfterVar": is_name,
    "AfterLastVar": is_name,
    "BeforeRule": is_target,
    "AfterRule": is_target,
}


def is_block(text):
    """Whether a text may be lines: none has a return or a NUL, and the last ends in no odd run of backslashes."""
    return not set(text) & set(b"\r\0") and len(re.search(rb"\\*\Z", text).group()) % 2 == 0


def runs_of(doc, block):
    return doc.runs(block.split(b"\n"))


def has_within(runs, first, end):
    """Whether lines from an index to another, or the place between two, are within one of the runs."""
    return any(start <= first and end <= stop for start, stop in runs)


class ExchangeLines(Edit):
    """An edit that puts lines in the place of others, of which there may be none."""

    def find(self, doc):
        """The indices where the lines begin and end that go."""
        raise NotImplementedError

    def span(self, doc, first, end):
        """The span of the lines that go, with the new ones."""
        raise NotImplementedError

    def text(self, doc, first, end):
        """The new lines as one text."""
        raise NotImplementedError

    def new_lines(self, doc, first, end):
        return document.read(self.text(doc, first, end), doc.context(first))

    def plan_in(self, doc):
        first, end = self.find(doc)
        new = self.new_lines(doc, first, end)
        return [self.span(doc, first, end)], items_of([*doc.lines[:first], *new.lines, *doc.lines[end:]])

    def plan(self, text, limit=LIMIT):
        plan = super().plan(text, limit)
        doc = document.read(text)
        first, end = self.find(doc)
        new, below = self.new_lines(doc, first, end), doc.context(end)
        contexts = [new.context(at) for at in range(len(new.lines) + 1)]
        refuse(21, any(it.conditionals > document.MOST_CONDITIONALS for it in contexts))
        refuse(21, any(map(document.is_of_prefix, (*doc.lines[first:end], *new.lines))))
        refuse(21, new.end_context._replace(flag=below.flag) != below)
        refuse_leaning(doc, end, new.end_context.flag, below.flag)
        return plan


class InsertLines(ExchangeLines, AtPlace):
    def __init__(self, place, block):
        super().__init__(place)
        self.block = block

    def fields(self):
        place = [] if len(self.place) == 1 else [("place", self.place[-1], TESTS.get(self.place[0], is_block))]
        return [*place, ("block", self.block, is_block)]

    def place_in(self, doc):
        """The index of the line before which the new ones go."""
        kind = self.place[0]
        if kind in ("BeforeRun", "AfterRun"):
            _, nth, old = self.place
            return picked(runs_of(doc, old), nth)[kind == "AfterRun"]
        return AtPlace.find(self, doc)

    def find(self, doc):
        at = self.place_in(doc)
        refuse(7, has_within(runs_of(doc, self.block), at, at))
        self.refuse_end(doc, at)
        return at, at

    def span(self, doc, first, end):
        return new_line(doc, first, doc.line_end().join(self.block.split(b"\n")))

    def text(self, doc, first, end):
        return b"".join(it + doc.line_end() for it in self.block.split(b"\n"))


class OfLines(ExchangeLines):
    """An edit of lines that go."""

    def span(self, doc, first, end):
        return Span(doc.lines[first].start, doc.lines[end - 1].end, self.text(doc, first, end))

    def text(self, doc, first, end):
        return b""


class OfRun(OfLines):
    """An edit of lines that say a block."""

    def __init__(self, nth, old):
        self.nth, self.old = nth, old

    def fields(self):
        return [("old", self.old, is_block)]

    def find(self, doc):
        return picked(runs_of(doc, self.old), self.nth)


class OfRuleRun(OfRule, OfLines):
    """An edit of a rule with its recipe and the conditionals in it."""

    def find(self, doc):
        at = super().find(doc)
        count = len(doc.lines[at].targets)
        refuse(9, count > 1, count)
        end = doc.rule_end(at)
        refuse(10, end is None)
        return at, end


class ByLines(OfLines):
    """An edit that exchanges lines for those of a block."""

    def __init__(self, nth, old, block):
        super().__init__(nth, old)
        self.block = block

    def fields(self):
        return [*super().fields(), ("block", self.block, is_block)]

    def text(self, doc, first, end):
        last, lines = reading.line_end(doc.lines[end - 1].raw), self.block.split(b"\n")
        new = b"".join(it + (last or doc.line_end()) for it in lines)
        return new if last or not lines[-1] else reading.without_line_end(new)


class ReplaceLines(ByLines, OfRun):
    def find(self, doc):
        runs, there = runs_of(doc, self.old), runs_of(doc, self.block)
        meant = runs if self.nth is None else [picked(runs, self.nth)]
        refuse(7, meant and all(has_within(there, *it) for it in meant))
        return super().find(doc)


class RemoveLines(OfRun):
    pass


class ReplaceRule(ByLines, OfRuleRun):
    def find(self, doc):
        run = super().find(doc)
        refuse(7, has_within(runs_of(doc, self.block), *run))
        return run


class RemoveWholeRule(OfRuleRun):
    pass


KINDS = (InsertLines, ReplaceLines, RemoveLines, ReplaceRule, RemoveWholeRule)
