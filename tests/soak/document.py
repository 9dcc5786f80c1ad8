"""A makefile as edits see it: its lines with their places, and the parts of a line that edits mean."""

import re
from functools import lru_cache
from typing import NamedTuple

from tests.lib import reading

CONDITIONAL_LINES = ("If", "Else", "Endif")
MOST_CONDITIONALS = 256
PASSED_OVER = ("Blank", "Comment", *CONDITIONAL_LINES)
OF_RECIPES = ("Recipe", *PASSED_OVER)
MODIFIERS = b"override|export|private"
PREFIX_OPERATORS = (b"=", b":=", b"::=")


class Line(NamedTuple):
    """A logical line: where it begins in the text, its bytes, and how it was read."""

    start: int
    raw: bytes
    context: reading.Context
    kind: str
    parts: tuple

    @property
    def end(self):
        return self.start + len(self.raw)

    @property
    def text_end(self):
        """Where its line end begins."""
        return self.start + len(reading.without_line_end(self.raw))

    @property
    def said(self):
        """What it says: its physical lines without their line ends."""
        return [reading.without_line_end(it) for it in reading.PHYSICAL_LINE.findall(self.raw)]

    @property
    def is_led(self):
        """Whether it begins with the recipe prefix in force there."""
        return self.raw[:1] == self.context.prefix

    @property
    def item(self):
        """What the reading has of it; None of a line that is blank or a comment."""
        return None if self.kind in ("Blank", "Comment") else (self.kind, *self.parts)

    @property
    def targets(self):
        """The targets as the reading has them, which only rules and target assignments have."""
        return self.parts[0] if self.kind in ("Header", "TargetAssign") else ()


class Word(NamedTuple):
    """A word: where the blanks and folds before it begin, its place in the text, its joined text."""

    gap: int
    start: int
    end: int
    text: bytes


class Document:
    """The lines of a text, or of one that stands in a context, and the context after them."""

    def __init__(self, text, context):
        self.text = text
        lines, self.end_context = reading.read(text, context)
        raws = [raw for _, raw in reading.logical_lines(text)]
        self.lines, at = [], 0
        for raw, line in zip(raws, lines):
            self.lines.append(Line(at, raw, line.context, line.kind, line.parts))
            at += len(raw)

    def context(self, at):
        """The context of the line with this index, or that of the end."""
        return self.lines[at].context if at < len(self.lines) else self.end_context

    def place(self, at):
        """Where the line with this index begins, or the end of the text."""
        return self.lines[at].start if at < len(self.lines) else len(self.text)

    def assignments(self, name):
        """The indices of the assignments of a variable that stand on lines of their own."""
        return [at for at, it in enumerate(self.lines) if it.kind == "Assign" and it.parts[1] == name]

    def comments(self, name):
        """The indices of the comments that begin as assignments of a variable do."""
        says = re.compile(rb"[ \t]*#[ \t]*(?:(?:%s)[ \t]+)*%s[ \t]*(?:[?+!]|:{0,3})=" % (MODIFIERS, re.escape(name)))
        return [at for at, it in enumerate(self.lines) if it.kind == "Comment" and says.match(it.raw)]

    def rules(self, target):
        """The indices of the lines of rules that have this target."""
        return [at for at, it in enumerate(self.lines) if it.kind == "Header" and target in it.targets]

    def has_target(self, word):
        """Whether a rule or a target assignment has this target."""
        return any(word in it.targets for it in self.lines)

    def recipe_lines(self, rule):
        """The indices of the recipe lines of the rule whose line has this index."""
        found = []
        for at in range(rule + 1, len(self.lines)):
            kind = self.lines[at].kind
            if kind in ("Header", "Rough") or self.context(at + 1).flag != "Rule":
                break
            if kind == "Recipe":
                found.append(at)
        return found

    def rule_end(self, rule):
        """The index of the line below the rule whose line has this index, its recipe and the conditionals in it, or None."""
        last, depth = max(self.recipe_lines(rule), default=rule), 0
        for at in range(rule, len(self.lines)):
            kind = self.lines[at].kind
            if at > rule and (kind not in OF_RECIPES or kind in ("Else", "Endif") and not depth):
                return None
            depth += {"If": 1, "Endif": -1}.get(kind, 0)
            if at >= last and not depth:
                return at + 1
        return None

    def runs(self, texts):
        """The runs of lines that say these texts together: where each begins and ends, by the indices of lines."""
        found = []
        for first in range(len(self.lines)):
            end, said = first, []
            while len(said) < len(texts) and end < len(self.lines):
                said += self.lines[end].said
                end += 1
            if said == texts:
                found.append((first, end))
        return found

    def line_end(self):
        """The line end of new lines: that of the first physical line."""
        first = reading.PHYSICAL_LINE.match(self.text)
        return first and reading.line_end(first.group()) or b"\n"

    def sets_prefix_unread(self):
        """Whether the recipe prefix is set in a way that is not read."""
        return any(map(sets_prefix_unread, self.lines))


@lru_cache(maxsize=256)
def read(text, context=reading.Context()):
    """The document of a text, or of lines that stand in a context."""
    return Document(text, context)


def is_of_prefix(line):
    """Whether a line assigns the recipe prefix, or opens a define for it."""
    if line.kind == "DefineHead":
        words = reading.texts(reading.before(reading.units(reading.joined(line.raw)[0]), b"#"))
        defined = words[words.index(b"define") + 1 :]
        return defined[:1] == (reading.PREFIX_NAME,)
    return line.kind == "Assign" and line.parts[1] == reading.PREFIX_NAME


def sets_prefix_unread(line):
    """Whether a line sets the recipe prefix in a way that is not read."""
    if line.kind != "Assign" or not is_of_prefix(line):
        return is_of_prefix(line)
    modifiers, _, operator, value = line.parts
    is_plain = not modifiers and not line.context.conditionals and operator in PREFIX_OPERATORS
    is_read = not value or (0x21 <= value[0] <= 0x7E and value[:1] not in (b"$", b"\\"))
    return not (is_plain and is_read)


def raw_places(line):
    """The joined text of a line, and for each of its places the one in the text, the end included."""
    joined, places = reading.joined(line.raw)
    return joined, [line.start + at for at in places]


def value_places(line):
    """Of an assignment: where its value begins and ends, and where the text before a comment ends."""
    joined, places = raw_places(line)
    cut = reading.before(reading.units(joined), b"#")
    value, whole = line.parts[-1], len(b"".join(cut))
    while value and reading.is_blank(cut[-1]):
        cut = cut[:-1]
    end = len(b"".join(cut))
    return places[end - len(value)], places[end], places[whole]


def cell_places(line):
    """Of an assignment: where each byte of its value stands in the text, and where the value ends."""
    _, places = raw_places(line)
    start, _, _ = value_places(line)
    at = places.index(start)
    return places[at : at + len(line.parts[-1]) + 1]


def operator_places(line):
    """Of an assignment: where its operator begins and ends."""
    joined, places = raw_places(line)
    start, _, _ = value_places(line)
    before = joined[: places.index(start)].rstrip(b" \t")
    return places[len(before) - len(line.parts[2])], places[len(before)]


def value_words(line):
    """The words of an assignment's value."""
    joined, places = raw_places(line)
    start, _, _ = value_places(line)
    return placed_words(reading.units(line.parts[-1]), places.index(start), places)


def between(line, before, after):
    """Of an assignment: the bytes between two words of its value, and the joined text that they are read as."""
    joined, places = raw_places(line)
    text = joined[places.index(before.end) : places.index(after.start)]
    return line.raw[before.end - line.start : after.start - line.start], text


def ends_in_fold(line):
    """Whether the last byte of an assignment's value is a fold."""
    joined, places = raw_places(line)
    _, end, _ = value_places(line)
    return line.parts[-1] != b"" and end - places[places.index(end) - 1] > 1


def placed_words(units, start, places):
    """The words of units that begin at this joined place."""
    words, at, gap, held = [], start, start, []
    for unit in [*units, b" "]:
        if not reading.is_blank(unit):
            held.append(unit)
        elif held:
            text = b"".join(held)
            words.append(Word(places[gap], places[at - len(text)], places[at], text))
            gap, held = at, []
        at += len(unit)
    return words


class RuleParts(NamedTuple):
    """The words of the line of a rule, the end of its last separator, and its `|` or None."""

    targets: list
    separator_end: int
    normal: list
    bar: Word
    order: list


def rule_parts(line):
    """The parts of the line of a rule; of a target assignment only the targets mean something."""
    joined, places = raw_places(line)
    head = reading.before(reading.units(joined), b";", b"#")
    targets, _, rest = reading.separated(head)
    last = max((at + 1 for at, unit in enumerate(rest) if unit == b":"), default=0)
    start = len(b"".join(head)) - len(b"".join(rest[last:]))
    needs = placed_words(rest[last:], start, places)
    bars = [at for at, word in enumerate(needs) if word.text == b"|"]
    bar = bars[0] if bars else len(needs)
    return RuleParts(
        placed_words(targets, 0, places),
        places[start],
        needs[:bar],
        needs[bar] if bars else None,
        needs[bar + 1 :],
    )
