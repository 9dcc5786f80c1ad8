"""The edits, from docs/EDITS.md: when they are refused, what they replace, their stated change.

Each edit is a class with the fields that script_rows.py gives a command. plan() tests the causes of
refusal in their order, and hands out the spans of the edit and the reading that it states.
"""

import itertools
import re
from typing import NamedTuple

from argument_rows import is_clean, is_closed, is_command, is_name, is_target, is_value, is_word, texts_of_units
from line_rows import is_open
from tests.lib import reading

from . import document

LIMIT = 16777216
RESERVED_TARGETS = frozenset(
    b"ifeq ifneq ifdef ifndef else endif define endef undefine include -include sinclude load -load"
    b" export unexport override private vpath".split()
)
# The name of each refusal, by its number.
NAMES = dict(
    enumerate(
        "BadArgument Reserved RecipePrefix NoSuch Ambiguous Absent Already Taken SharedRule Straddles OpenValue"
        " OpenLine OpenDefine Leans TooLong NothingToUndo NothingToRedo GroupOpen NoGroup".split(),
        1,
    )
)
NAMES[21] = "Misread"


# The places at the ends of the file, and what makes a line a comment.
ENDS = ("Top", "Bottom")
MARK = re.compile(rb"#[ \t]*")


class Refused(Exception):
    """A refusal, with the count or the field that some have."""

    def __init__(self, number, detail=None):
        super().__init__(number, detail)
        self.number = number
        self.detail = detail

    def __str__(self):
        detail = "" if self.detail is None else f" {self.detail}"
        return f"{self.number} {NAMES[self.number]}{detail}"


class Span(NamedTuple):
    """A part of the text and the bytes that stand there afterwards."""

    start: int
    end: int
    new: bytes


class Plan(NamedTuple):
    """What an accepted edit does: its spans, and what the text reads as afterwards."""

    spans: list
    reading: tuple


def replaced(text, spans):
    """The text with each span replaced."""
    parts, at = [], 0
    for start, end, new in spans:
        parts += [text[at:start], new]
        at = end
    return b"".join([*parts, text[at:]])


def refuse(number, holds, detail=None):
    """Refuses where a cause holds."""
    if holds:
        raise Refused(number, detail)


def refuse_prefix(line, prefix):
    """Refuses a line to be written that would begin with the prefix in force there."""
    refuse(3, line[:1] == prefix)


def picked(found, nth):
    """The index among those found that `nth` picks, or the only one."""
    if nth is not None:
        refuse(4, not 1 <= nth <= len(found))
        return found[nth - 1]
    refuse(4, not found)
    refuse(5, len(found) > 1, len(found))
    return found[0]


def items_of(lines):
    return [it.item for it in lines]


def item_with(item, at, part):
    """An item with one of its parts replaced."""
    return (*item[:at], part, *item[at + 1 :])


class Edit:
    """What all edits have. An edit says its fields, its names and targets, and how it is planned."""

    names = ()
    targets = ()

    def fields(self):
        """Each field that is tested: its name, its text and the test."""
        raise NotImplementedError

    def plan_in(self, doc):
        """The spans, and the items of the lines afterwards, or the first refusal after 3."""
        raise NotImplementedError

    def plan(self, text, limit=LIMIT):
        """The plan of the edit on a text, or the first refusal whose cause holds."""
        for name, field, test in self.fields():
            refuse(1, not test(field), name)
        refuse(2, reading.PREFIX_NAME in self.names or RESERVED_TARGETS & set(self.targets))
        doc = document.read(text)
        refuse(3, doc.sets_prefix_unread())
        spans, items = self.plan_in(doc)
        refuse(15, len(replaced(text, spans)) > limit)
        return Plan(spans, tuple(it for it in items if it is not None))


# ---- variables


class OfVariable(Edit):
    """An edit of an assignment."""

    def __init__(self, nth, name, value=b""):
        self.nth, self.name, self.value = nth, name, value
        self.names = (name,)

    def fields(self):
        return [("name", self.name, is_name), ("value", self.value, is_value)]

    def find(self, doc):
        return picked(doc.assignments(self.name), self.nth)

    def change_in(self, doc, line):
        """The spans in one of the lines, and the value that it has afterwards."""
        raise NotImplementedError

    def plan_in(self, doc):
        return changed(doc, [self.find(doc)], self)


def changed(doc, found, edit):
    """The plan of an edit of values in the lines with these indices."""
    items, spans = items_of(doc.lines), []
    for at in found:
        its_spans, value = edit.change_in(doc, doc.lines[at])
        items[at] = (*items[at][:-1], value)
        spans += its_spans
    return spans, items


class SetValue(OfVariable):
    def change_in(self, doc, line):
        start, end, cut_end = document.value_places(line)
        end = end if self.value else cut_end
        leaves_fold = doc.text[:start].endswith(b"\n") and end == len(doc.text) and not self.value
        return [Span(start, end, self.value)], b"\\" if leaves_fold else self.value


class SetValueIf(SetValue):
    """That of the assignments that have another value."""

    def __init__(self, nth, name, old, value):
        super().__init__(nth, name, value)
        self.old = old

    def fields(self):
        return [("name", self.name, is_name), ("old", self.old, is_value), ("value", self.value, is_value)]

    def is_in(self, line):
        return line.parts[-1] == self.old

    def find(self, doc):
        found = doc.assignments(self.name)
        refuse(4, not found)
        having = [at for at in found if self.is_in(doc.lines[at])]
        refuse(6, not having)
        return picked(having, self.nth)


class AppendValue(OfVariable):
    def fields(self):
        return [("name", self.name, is_name), ("value", self.value, lambda it: it and is_value(it))]

    def change_in(self, doc, line):
        old = line.parts[-1]
        refuse(11, not is_closed(old))
        _, end, _ = document.value_places(line)
        added = b" " + self.value if old else self.value
        takes_space_in = document.ends_in_fold(line)
        return [Span(end, end, added)], old + (self.value if takes_space_in else added)


def is_value_word(text):
    """Whether a text may be a word of a value."""
    return text != b"" and is_value(text) and not any(map(reading.is_blank, texts_of_units(text)))


def without_word(value, word):
    """A value without each word that is this one, and without the blanks before it, or at the front after it."""
    kept, gap = b"", b""
    for is_gap, group in itertools.groupby(reading.units(value), reading.is_blank):
        text = b"".join(group)
        if is_gap:
            gap = text
        elif text != word:
            kept += (gap if kept else b"") + text
    return kept


class AddWord(OfVariable):
    def fields(self):
        return [("name", self.name, is_name), ("word", self.value, is_value_word)]

    def change_in(self, doc, line):
        old = line.parts[-1]
        refuse(7, self.value in reading.texts(reading.units(old)))
        refuse(11, not is_closed(old) or document.ends_in_fold(line))
        _, end, _ = document.value_places(line)
        added = b" " + self.value if old else self.value
        return [Span(end, end, added)], old + added


class RemoveWord(AddWord):
    def change_in(self, doc, line):
        words = document.value_words(line)
        goes = [it.text == self.value for it in words]
        refuse(6, not any(goes))
        follows = zip(words, goes[1:])
        refuse(11, not is_closed(line.parts[-1]) or any(going and not is_value(it.text) for it, going in follows))
        if all(goes):
            return SetValue(self.nth, self.name).change_in(doc, line)
        first = goes.index(False)
        before = [Span(it.start, after.start, b"") for it, after in zip(words[:first], words[1:])]
        after = [Span(it.gap, it.end, b"") for it, going in zip(words[first:], goes[first:]) if going]
        return [*before, *after], without_word(line.parts[-1], self.value)


class ChangeValues(Edit):
    """The edit of every assignment of a name: that of one, made at each that it does something to."""

    def __init__(self, name, change):
        kind, *texts = change
        kinds = {"Set": SetValue, "SetIf": SetValueIf, "Append": AppendValue, "Add": AddWord, "Remove": RemoveWord}
        self.name, self.names = name, (name,)
        self.of_one, self.text = kinds[kind](None, name, *texts), texts[0]

    def fields(self):
        return self.of_one.fields()

    def does_something(self, line):
        """Whether an assignment is changed: by all but the words that it has or lacks already, and by another value."""
        has_word = self.text in reading.texts(reading.units(line.parts[-1]))
        has_value = line.parts[-1] == self.text
        return {AddWord: not has_word, RemoveWord: has_word, SetValueIf: has_value}.get(type(self.of_one), True)

    def plan_in(self, doc):
        found = doc.assignments(self.name)
        refuse(4, not found)
        changing = [at for at in found if self.does_something(doc.lines[at])]
        refuse(6 if isinstance(self.of_one, (RemoveWord, SetValueIf)) else 7, not changing)
        return changed(doc, changing, self.of_one)


class CheckedByReading(Edit):
    """An edit that is refused where a line that it changes does not read afterwards as it is stated to."""

    def changes_in(self, doc):
        """Of each line that it changes: the index, the spans, and the item afterwards."""
        raise NotImplementedError

    def plan_in(self, doc):
        items, spans = items_of(doc.lines), []
        for at, its_spans, items[at] in self.changes_in(doc):
            spans += its_spans
        return spans, items

    def plan(self, text, limit=LIMIT):
        plan = super().plan(text, limit)
        doc = document.read(text)
        for at, spans, item in self.changes_in(doc):
            refuse_misread(doc, at, spans, item)
        return plan


def refuse_misread(doc, at, spans, item):
    """Refuses where the line with this index, with its spans replaced, is not one line with this item, or is open anew."""
    line = doc.lines[at]
    raw = replaced(line.raw, [Span(it.start - line.start, it.end - line.start, it.new) for it in spans])
    below = doc.lines[at + 1].raw if at + 1 < len(doc.lines) else b""
    first = document.read(raw + below, line.context).lines[0]
    refuse(21, first.raw != raw or first.item != item)
    refuse(21, is_open(raw) and not is_open(line.raw))


class ChangeLine(CheckedByReading, OfVariable):
    """An edit of the line of one assignment that is checked by reading."""

    def is_in(self, line):
        """Whether the value has what the edit looks for."""
        return True

    def parts_in(self, line):
        """The spans in a line, and the parts of its item afterwards."""
        raise NotImplementedError

    def change_in(self, line):
        """The spans in a line, and its item afterwards."""
        spans, parts = self.parts_in(line)
        return spans, ("Assign", *parts)

    def changes_in(self, doc):
        at = self.find(doc)
        refuse(6, not self.is_in(doc.lines[at]))
        return [(at, *self.change_in(doc.lines[at]))]


class PrependValue(ChangeLine):
    def fields(self):
        return [("name", self.name, is_name), ("value", self.value, lambda it: it and is_value(it))]

    def parts_in(self, line):
        *others, old = line.parts
        start, _, _ = document.value_places(line)
        new = self.value + b" " if old else self.value
        return [Span(start, start, new)], (*others, new + old)


class ReplaceWord(ChangeLine):
    def __init__(self, nth, name, word, value):
        super().__init__(nth, name, value)
        self.word = word

    def fields(self):
        value = ("value", self.value, lambda it: it and is_value(it))
        return [("name", self.name, is_name), ("word", self.word, is_value_word), value]

    def is_in(self, line):
        return self.word in reading.texts(reading.units(line.parts[-1]))

    def parts_in(self, line):
        *others, old = line.parts
        found = [it for it in document.value_words(line) if it.text == self.word]
        groups = itertools.groupby(reading.units(old), reading.is_blank)
        pieces = [b"".join(group) for _, group in groups]
        value = b"".join(self.value if it == self.word else it for it in pieces)
        return [Span(it.start, it.end, self.value) for it in found], (*others, value)


class InsertWord(ChangeLine):
    def __init__(self, nth, name, word, new):
        super().__init__(nth, name, new)
        self.word = word

    def fields(self):
        return [("name", self.name, is_name), ("word", self.word, is_value_word), ("new", self.value, is_value_word)]

    def chosen(self, words):
        """The number of the word beside which the new one goes."""
        texts = [it.text for it in words]
        count = texts.count(self.word)
        refuse(6, not count)
        refuse(7, self.value in texts)
        refuse(5, count > 1, count)
        return texts.index(self.word)

    def neighbours(self, words, at):
        """The two words between which the separator stands, of which this one may be one; None where it is the only one."""
        raise NotImplementedError

    def place_in(self, word):
        """Where the new word goes in the text."""
        raise NotImplementedError

    def joined(self, separator):
        """The new word and the separator, in their order."""
        raise NotImplementedError

    def parts_in(self, line):
        *others, old = line.parts
        words = document.value_words(line)
        at = self.chosen(words)
        pair = self.neighbours(words, at)
        raw, said = document.between(line, *pair) if pair else (b" ", b" ")
        place = self.place_in(words[at])
        in_value = document.cell_places(line).index(place)
        value = old[:in_value] + self.joined(said) + old[in_value:]
        return [Span(place, place, self.joined(raw))], (*others, value)


class InsertBefore(InsertWord):
    def neighbours(self, words, at):
        return words[at - 1 : at + 1] if at else words[:2] if len(words) > 1 else None

    def place_in(self, word):
        return word.start

    def joined(self, separator):
        return self.value + separator


class InsertAfter(InsertWord):
    def neighbours(self, words, at):
        return words[at : at + 2] if at + 1 < len(words) else words[-2:] if at else None

    def place_in(self, word):
        return word.end

    def joined(self, separator):
        return separator + self.value


def is_text(text):
    """Whether a text may be looked for."""
    return text != b"" and is_clean(text)


class SubstituteValue(ChangeLine):
    def __init__(self, nth, name, old, new):
        super().__init__(nth, name, new)
        self.old = old

    def fields(self):
        return [("name", self.name, is_name), ("from", self.old, is_text), ("to", self.value, is_clean)]

    def is_in(self, line):
        return self.old in line.parts[-1]

    def parts_in(self, line):
        *others, value = line.parts
        places = document.cell_places(line)
        found = [it.start() for it in re.finditer(re.escape(self.old), value)]
        spans = [Span(places[at], places[at + len(self.old)], self.value) for at in found]
        new = reading.trimmed(reading.units(value.replace(self.old, self.value)))
        return spans, (*others, b"".join(new))


class SetOperator(ChangeLine):
    def fields(self):
        return [("name", self.name, is_name)]

    def parts_in(self, line):
        modifiers, name, _, value = line.parts
        start, end = document.operator_places(line)
        return [Span(start, end, self.value)], (modifiers, name, self.value, value)


class RemoveAssign(OfVariable):
    def plan_in(self, doc):
        at = self.find(doc)
        refuse_leaning(doc, at + 1, doc.context(at).flag, doc.context(at + 1).flag)
        return [removed(doc.lines[at])], items_of(doc.lines[:at] + doc.lines[at + 1 :])


class CommentOut(OfVariable):
    def fields(self):
        return [("name", self.name, is_name)]

    def plan_in(self, doc):
        at = self.find(doc)
        refuse_leaning(doc, at + 1, doc.context(at).flag, doc.context(at + 1).flag)
        place = doc.lines[at].start
        return [Span(place, place, b"#")], items_of(doc.lines[:at] + doc.lines[at + 1 :])


class Uncomment(OfVariable):
    def fields(self):
        return [("name", self.name, is_name)]

    def plan_in(self, doc):
        at = picked(doc.comments(self.name), self.nth)
        line = doc.lines[at]
        mark = MARK.search(line.raw)
        raw = line.raw[: mark.start()] + line.raw[mark.end() :]
        below = doc.lines[at + 1].raw if at + 1 < len(doc.lines) else b""
        first = document.read(raw + below, line.context).lines[0]
        refuse(21, first.raw != raw or first.kind != "Assign" or first.parts[1] != self.name)
        refuse_leaning(doc, at + 1, "Off", line.context.flag)
        items = items_of(doc.lines)
        items[at] = first.item
        return [Span(line.start + mark.start(), line.start + mark.end(), b"")], items


# ---- new lines and lines that go


def removed(line):
    return Span(line.start, line.end, b"")


def refuse_leaning(doc, at, flag, flag_before):
    """Refuses where the flag before the line with this index changes and that line leans on it."""
    rest = (it for it in doc.lines[at:] if it.is_led or it.kind not in document.PASSED_OVER)
    line = next(rest, None)
    refuse(14, flag != flag_before and line is not None and line.is_led)


def refuse_open_line(doc, at):
    """Refuses a new line after the last one where that could take it in."""
    refuse(12, at == len(doc.lines) and doc.lines and is_open(doc.lines[-1].raw))


def new_line(doc, at, line):
    """The span of a new line, or of several as one text, before the line with this index."""
    place, end = doc.place(at), doc.line_end()
    follows_open_end = at == len(doc.lines) and doc.lines and not reading.line_end(doc.lines[-1].raw)
    return Span(place, place, (end if follows_open_end else b"") + line + end)


class AtPlace(Edit):
    """An edit that puts in a line at a place."""

    def __init__(self, place):
        self.place = place
        kind, field = place[0], place[-1]
        self.names = (field,) if kind in ("BeforeVar", "AfterVar", "AfterLastVar") else ()
        self.targets = (field,) if kind in ("BeforeRule", "AfterRule") else ()

    def fields(self):
        kind, field = self.place[0], self.place[-1]
        test = is_target if kind in ("BeforeRule", "AfterRule") else is_name
        return [] if kind in ENDS else [("place", field, test)]

    def find(self, doc):
        """The index of the line before which the new one goes."""
        kind, *parts = self.place
        if not parts:
            return 0 if kind == "Top" else len(doc.lines)
        if kind == "AfterLastVar":
            found = doc.assignments(*parts)
            refuse(4, not found)
            return found[-1] + 1
        nth, field = parts
        at = picked(doc.rules(field) if kind in ("BeforeRule", "AfterRule") else doc.assignments(field), nth)
        if kind != "AfterRule":
            return at + (kind == "AfterVar")
        last = max(doc.recipe_lines(at), default=at)
        refuse_straddling(doc, at, last)
        return last + 1

    def refuse_end(self, doc, at):
        """Refuses a new line at the end of the text where that is open."""
        refuse_open_line(doc, at)
        refuse(13, self.place[0] == "Bottom" and doc.end_context.defines)

    def insert(self, doc, line, flag, item):
        """The plan of the new line, after which the flag is this."""
        at = self.find(doc)
        refuse_prefix(line, doc.context(at).prefix)
        self.refuse_end(doc, at)
        refuse_leaning(doc, at, flag, doc.context(at).flag)
        items = items_of(doc.lines)
        items.insert(at, item)
        return [new_line(doc, at, line)], items


class AddAssign(AtPlace):
    def __init__(self, place, name, operator, value):
        super().__init__(place)
        self.name, self.operator, self.value = name, operator, value
        self.names = (*self.names, name)

    def fields(self):
        return [*super().fields(), ("name", self.name, is_name), ("value", self.value, is_value)]

    def plan_in(self, doc):
        line = self.name + b" " + self.operator + (b" " + self.value if self.value else b"")
        return self.insert(doc, line, "Off", ("Assign", (), self.name, self.operator, self.value))


class AddRule(AtPlace):
    def __init__(self, place, targets, separator, needs):
        super().__init__(place)
        self.target_field, self.separator, self.need_field = targets, separator, needs
        self.new_targets = reading.texts(reading.units(targets))
        self.needs = reading.texts(reading.units(needs))
        self.targets = (*self.targets, *self.new_targets)

    def fields(self):
        are_targets = bool(self.new_targets) and all(map(is_target, self.new_targets))
        are_words = all(map(is_word, self.needs))
        targets = ("targets", self.target_field, lambda _: are_targets)
        return [*super().fields(), targets, ("prereqs", self.need_field, lambda _: are_words)]

    def plan_in(self, doc):
        line = b" ".join(self.new_targets) + self.separator + reading.spaced(b" ", self.needs)
        item = ("Header", self.new_targets, self.separator, None, self.needs, (), None)
        return self.insert(doc, line, "Rule", item)


# ---- rules


class OfRule(Edit):
    """An edit of a rule."""

    def __init__(self, nth, target):
        self.nth, self.target = nth, target
        self.targets = (target,)

    def fields(self):
        return [("target", self.target, is_target)]

    def find(self, doc):
        return picked(doc.rules(self.target), self.nth)


def refuse_straddling(doc, at, last):
    """Refuses where the line of a conditional stands between a rule's line and its last recipe line."""
    refuse(10, any(it.kind in document.CONDITIONAL_LINES for it in doc.lines[at:last]))


class RemoveRule(OfRule):
    def plan_in(self, doc):
        at = self.find(doc)
        count = len(doc.lines[at].targets)
        refuse(9, count > 1, count)
        last = max(doc.recipe_lines(at), default=at)
        refuse_straddling(doc, at, last)
        refuse_leaning(doc, last + 1, doc.context(at).flag, doc.context(last + 1).flag)
        span = Span(doc.lines[at].start, doc.lines[last].end, b"")
        return [span], items_of(doc.lines[:at] + doc.lines[last + 1 :])


class AddPrereq(OfRule):
    def __init__(self, is_order, nth, target, word):
        super().__init__(nth, target)
        self.is_order, self.word = is_order, word

    def fields(self):
        return [*super().fields(), ("word", self.word, is_word)]

    def plan_in(self, doc):
        at = self.find(doc)
        part = 5 if self.is_order else 4
        items = items_of(doc.lines)
        refuse(7, self.word in items[at][part])
        items[at] = item_with(items[at], part, (*items[at][part], self.word))
        return [self.span(doc.text, document.rule_parts(doc.lines[at]))], items

    def span(self, text, parts):
        place = parts.normal[-1].end if parts.normal else parts.separator_end
        if not self.is_order:
            after = b" " if parts.bar and parts.bar.start == place else b""
            return Span(place, place, b" " + self.word + after)
        if parts.bar is None:
            return Span(place, place, b" | " + self.word)
        place = parts.order[-1].end if parts.order else parts.bar.end
        return Span(place, place, b" " + self.word)


class RemovePrereq(OfRule):
    def __init__(self, nth, target, word):
        super().__init__(nth, target)
        self.word = word

    def fields(self):
        return [*super().fields(), ("word", self.word, is_word)]

    def plan_in(self, doc):
        at = self.find(doc)
        parts = document.rule_parts(doc.lines[at])
        found = [it for it in (*parts.normal, *parts.order) if it.text == self.word]
        refuse(6, not found)
        items = items_of(doc.lines)
        for part in (4, 5):
            left = tuple(it for it in items[at][part] if it != self.word)
            items[at] = item_with(items[at], part, left)
        return [Span(it.gap, it.end, b"") for it in found], items


class ReplacePrereq(CheckedByReading, OfRule):
    def __init__(self, nth, target, old, new):
        super().__init__(nth, target)
        self.old, self.new = old, new

    def fields(self):
        return [*super().fields(), ("old", self.old, is_word), ("new", self.new, is_word)]

    def changes_in(self, doc):
        at = self.find(doc)
        line, item = doc.lines[at], doc.lines[at].item
        parts = document.rule_parts(line)
        found = [it for it in (*parts.normal, *parts.order) if it.text == self.old]
        refuse(6, not found)
        refuse(7, self.new in (*item[4], *item[5]))
        for part in (4, 5):
            item = item_with(item, part, tuple(self.new if it == self.old else it for it in item[part]))
        return [(at, [Span(it.start, it.end, self.new) for it in found], item)]


# ---- recipes


class AddRecipe(OfRule):
    def __init__(self, nth, target, line):
        super().__init__(nth, target)
        self.line = line

    def fields(self):
        return [*super().fields(), ("line", self.line, is_command)]

    def place_in(self, doc, at, last):
        """The index of the line before which the new one goes, by those of the rule and of its last recipe line."""
        return last + 1

    def plan_in(self, doc):
        at = self.find(doc)
        last = max(doc.recipe_lines(at), default=at)
        place = self.place_in(doc, at, last)
        refuse_straddling(doc, at, last)
        refuse_open_line(doc, place)
        items = items_of(doc.lines)
        items.insert(place, ("Recipe", self.line))
        prefix = doc.context(place).prefix
        return [new_line(doc, place, prefix + self.line)], items


class InsertRecipe(AddRecipe):
    def __init__(self, nth, target, number, line):
        super().__init__(nth, target, line)
        self.number = number

    def place_in(self, doc, at, last):
        places = [*doc.recipe_lines(at), last + 1]
        refuse(6, not 1 <= self.number <= len(places))
        return places[self.number - 1]


class OfRecipeLine(OfRule):
    """An edit of the recipe line with a number."""

    def __init__(self, nth, target, number, line=b""):
        super().__init__(nth, target)
        self.number, self.line = number, line

    def fields(self):
        return [*super().fields(), ("line", self.line, is_command)]

    def find_line(self, doc):
        found = doc.recipe_lines(self.find(doc))
        refuse(6, not 1 <= self.number <= len(found))
        return found[self.number - 1]


class SetRecipe(OfRecipeLine):
    def plan_in(self, doc):
        return exchanged(doc, self.find_line(doc), self.line)


class RemoveRecipe(OfRecipeLine):
    def plan_in(self, doc):
        return taken_out(doc, self.find_line(doc))


def exchanged(doc, at, line):
    """The plan of another command in the recipe line with this index."""
    old, items = doc.lines[at], items_of(doc.lines)
    items[at] = ("Recipe", line)
    return [Span(old.start + 1, old.text_end, line)], items


def taken_out(doc, at):
    """The plan of the line with this index taken out."""
    return [removed(doc.lines[at])], items_of(doc.lines[:at] + doc.lines[at + 1 :])


class OfRecipeText(OfRule):
    """An edit of the recipe line with a text."""

    def __init__(self, nth, target, old, line=b""):
        super().__init__(nth, target)
        self.old, self.line = old, line

    def fields(self):
        return [*super().fields(), ("old", self.old, is_command), ("line", self.line, is_command)]

    def find_line(self, doc):
        lines = doc.recipe_lines(self.find(doc))
        found = [it for it in lines if doc.lines[it].item == ("Recipe", self.old)]
        refuse(6, not found)
        refuse(5, len(found) > 1, len(found))
        return found[0]


class SetRecipeByText(OfRecipeText):
    def plan_in(self, doc):
        return exchanged(doc, self.find_line(doc), self.line)


class RemoveRecipeByText(OfRecipeText):
    def plan_in(self, doc):
        return taken_out(doc, self.find_line(doc))


# ---- targets


class RenameTarget(Edit):
    def __init__(self, old, new):
        self.old, self.new = old, new
        self.targets = (old, new)

    def fields(self):
        return [("old", self.old, is_target), ("new", self.new, is_target)]

    def plan_in(self, doc):
        refuse(4, not doc.has_target(self.old))
        spans = [self.spans_in(line) for line in doc.lines]
        for line, its_spans in zip(doc.lines, spans):
            if its_spans and its_spans[0].start == line.start:
                refuse_prefix(self.new, line.context.prefix)
        refuse(8, doc.has_target(self.new))
        items = [self.renamed(it.item) for it in doc.lines]
        return [it for its_spans in spans for it in its_spans], items

    def spans_in(self, line):
        if line.kind not in ("Header", "TargetAssign"):
            return []
        parts = document.rule_parts(line)
        words = parts.targets
        if line.kind == "Header":
            words = words + parts.normal + parts.order
        return [Span(it.start, it.end, self.new) for it in words if it.text == self.old]

    def renamed(self, item):
        places = {"Header": (1, 4, 5), "TargetAssign": (1,)}.get(item and item[0], ())
        for at in places:
            item = item_with(item, at, tuple(self.new if it == self.old else it for it in item[at]))
        return item


KINDS = (
    SetValue,
    SetValueIf,
    AppendValue,
    AddWord,
    RemoveWord,
    ChangeValues,
    PrependValue,
    ReplaceWord,
    InsertBefore,
    InsertAfter,
    SubstituteValue,
    SetOperator,
    AddAssign,
    RemoveAssign,
    CommentOut,
    Uncomment,
    AddRule,
    RemoveRule,
    AddPrereq,
    RemovePrereq,
    ReplacePrereq,
    AddRecipe,
    SetRecipe,
    RemoveRecipe,
    InsertRecipe,
    SetRecipeByText,
    RemoveRecipeByText,
    RenameTarget,
)
