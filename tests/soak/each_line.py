"""The edits of several lines that are checked by reading, as edits.py has the others."""

import re

from argument_rows import is_clean, is_target
from tests.lib.reading import PREFIX_NAME

from .edits import (
    CheckedByReading,
    PrependValue,
    ReplaceWord,
    SetOperator,
    Span,
    SubstituteValue,
    is_text,
    picked,
    refuse,
)

# The changes of each assignment of a name, as edits of one.
CHANGES = {
    "Prepend": PrependValue,
    "ReplaceWord": ReplaceWord,
    "Substitute": SubstituteValue,
    "SetOperator": SetOperator,
}


class EachLine(CheckedByReading):
    """An edit of each of the lines that it means in which there is something to change."""

    def found(self, doc):
        """The indices of the lines that it means."""
        raise NotImplementedError

    def is_in(self, line):
        """Whether there is something to change in one of these lines."""
        raise NotImplementedError

    def change_in(self, line):
        """The spans in a line, and its item afterwards."""
        raise NotImplementedError

    def changes_in(self, doc):
        found = [at for at in self.found(doc) if self.is_in(doc.lines[at])]
        refuse(6, not found)
        return [(at, *self.change_in(doc.lines[at])) for at in found]


class OfAssignments(EachLine):
    """An edit that does to several assignments what another one does to one."""

    def __init__(self, of_one):
        self.is_in, self.change_in = of_one.is_in, of_one.change_in


class ChangeEach(OfAssignments):
    def __init__(self, name, change):
        kind, *texts = change
        self.of_one = CHANGES[kind](None, name, *texts)
        super().__init__(self.of_one)
        self.name, self.names = name, (name,)

    def fields(self):
        return self.of_one.fields()

    def found(self, doc):
        found = doc.assignments(self.name)
        refuse(4, not found)
        return found


def tested(old, new):
    """The fields of a text that is looked for, and of what goes in its place."""
    return [("from", old, is_text), ("to", new, is_clean)]


class SubstValues(OfAssignments):
    def __init__(self, old, new):
        super().__init__(SubstituteValue(None, b"", old, new))
        self.old, self.new = old, new

    def fields(self):
        return tested(self.old, self.new)

    def found(self, doc):
        return [at for at, it in enumerate(doc.lines) if it.kind == "Assign" and it.parts[1] != PREFIX_NAME]


class SubstRecipes(EachLine):
    def __init__(self, old, new):
        self.old, self.new = old, new

    def fields(self):
        return tested(self.old, self.new)

    def found(self, doc):
        return [at for at, it in enumerate(doc.lines) if it.kind == "Recipe"]

    def is_in(self, line):
        return self.old in line.parts[0]

    def change_in(self, line):
        (text,) = line.parts
        found = [line.start + 1 + it.start() for it in re.finditer(re.escape(self.old), text)]
        spans = [Span(at, at + len(self.old), self.new) for at in found]
        return spans, ("Recipe", text.replace(self.old, self.new))


class SubstRecipe(SubstRecipes):
    def __init__(self, nth, target, old, new):
        super().__init__(old, new)
        self.nth, self.target, self.targets = nth, target, (target,)

    def fields(self):
        return [("target", self.target, is_target), *super().fields()]

    def found(self, doc):
        rules = doc.rules(self.target)
        refuse(4, not rules)
        rules = rules if self.nth is None else [picked(rules, self.nth)]
        return [line for rule in rules for line in doc.recipe_lines(rule)]


KINDS = (ChangeEach, SubstValues, SubstRecipe, SubstRecipes)
