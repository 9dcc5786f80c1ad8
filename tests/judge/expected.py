"""What make has to know of a makefile, if it reads it as docs/LANGUAGE.md says.

The items of a makefile are its lines as reading.py reads them. From them alone, with the rules of GNU
make's manual on what assignments and rules add up to, comes a data base in the form of database.py.
What this small reading does not follow (functions, references to parts of names) is UNKNOWN there; it
is never guessed.
"""

import itertools
import re
from typing import NamedTuple

from tests.lib import reading

from .database import OF_MAKE, SECTIONS, Rule, Variable
from .values import UNKNOWN, Unknown, Variables, cut_units, shown, value_of

CONDITION = re.compile(
    r"(ifn?eq)\s+(?:\(([^(),]*|\$\([^()]*\))\s*,\s*([^(),]*?|\$\([^()]*\))\s*\)|"
    r"(?:\"([^\"]*)\"|'([^']*)')\s+(?:\"([^\"]*)\"|'([^']*)'))"
)


class Item(NamedTuple):
    """A line: its class and parts, as reading.py says, the blanks after its value, and the bytes of a line that was read."""

    kind: str
    parts: tuple
    tail: bytes = b""
    raw: bytes = b""


def items(text, context=reading.Context()):
    """The items of a makefile, or of lines that stand in a context."""
    lines, _ = reading.read(text, context)
    raws = [raw for _, raw in reading.logical_lines(text)]
    return [Item(line.kind, line.parts, tail(line, raw), raw) for line, raw in zip(lines, raws)]


def tail(line, raw):
    """The blanks that follow a value, up to a comment or the end of its line: make's value has them."""
    if line.kind not in ("Assign", "TargetAssign") or not line.parts[-1]:
        return b""
    cut = reading.before(reading.units(reading.joined(raw)[0]), b"#")
    blanks = itertools.takewhile(reading.is_blank, reversed(cut))
    return b"".join(blanks)[::-1]


class Expected:
    """The data base that some items lead to, in the form of database.Database without its fault.

    rules_known says whether all rules and variables of targets are in it, be it as UNKNOWN.
    live says of each item whether make surely reads it.
    """

    def __init__(self, of):
        self.values = Variables()
        self.targets, self.patterns, self.target_variables = {}, {}, {}
        self.rules_known = True
        self.conditions_known = True
        self.branches = []
        self.header, self.recipe = None, []
        self.define, self.body = None, []
        self.live = []
        for item in of:
            self.live.append(self.is_live() and (not self.branches or self.conditions_known))
            self.take(item)
        self.record()
        # In the end make takes the prerequisites of .PHONY for targets. With -r its data base leaves out
        # the .SUFFIXES of make's own, to which no line gives a rule.
        for word in self.all_needs(".PHONY"):
            if word != ".SUFFIXES":
                self.targets.setdefault(word, [Rule(":", (), (), None)])

    @property
    def variables(self):
        return self.values.by_name

    def all_needs(self, target):
        """The known prerequisites of a target, of all its rules and in both lists."""
        rules = self.targets.get(target, [])
        known = [] if rules == UNKNOWN else rules
        return [it for rule in known for it in rule.prerequisites + rule.order_only]

    @property
    def has_suffixes(self):
        """Whether .SUFFIXES may have words at the end: make has patterns for them, not followed here."""
        return self.targets.get(".SUFFIXES") == UNKNOWN or bool(self.all_needs(".SUFFIXES"))

    def is_live(self):
        """Whether make reads the line: it stands in branches that are taken."""
        return all(taken for taken, _ in self.branches)

    def content(self, key):
        """What is expected of a key of the data base: None where it is not there, or UNKNOWN."""
        section, name = key
        if section == "variables":
            is_known = self.values.is_known and name not in OF_MAKE  # a data base has none of these
        else:
            is_known = self.rules_known and not (section == "patterns" and self.has_suffixes)
        return getattr(self, section).get(name) if is_known else UNKNOWN

    def take(self, item):
        """Follows one more line."""
        if item.kind == "Recipe":
            if self.header and self.is_live():
                self.recipe.append(shown(item.parts[0]).replace("\r\n", "\n"))
        elif item.kind in ("If", "Else", "Endif"):
            self.take_conditional(item)
        elif item.kind == "Body":
            self.body.append(item.parts[0])
        elif item.kind not in ("Blank", "Comment"):
            self.record()
            if item.kind == "DefineHead":
                self.define, self.body = (item if self.is_live() else None), []
            elif self.is_live():
                self.take_live(item)

    def take_live(self, item):
        """Follows a line that make reads, other than those of recipes and conditionals."""
        parts = item.parts
        if item.kind == "Assign":
            self.values.assign(parts[0], shown(parts[1]), shown(parts[2]), value_of(item))
        elif item.kind == "TargetAssign":
            self.assign_for_targets(item)
        elif item.kind == "Header":
            self.take_header(parts)
        elif item.kind == "Endef" and self.define:
            self.values.define(self.define.parts[0], self.body)
            self.define = None
        elif item.kind == "Directive":
            self.values.direct(parts[0])
        elif item.kind == "Rough":
            self.rules_known = False

    def assign_for_targets(self, item):
        """Follows an assignment for targets: UNKNOWN where it is not alone for a target and a name."""
        targets, _, modifiers, name, operator, _ = item.parts
        value, operator = value_of(item), shown(operator)
        try:
            name = self.values.expand(shown(name))
            targets = self.values.expanded_words(targets)
        except Unknown:
            self.rules_known = False
            return
        origin = "'override' directive" if b"override" in modifiers else "makefile"
        if operator == "?=" and self.variables.get(name):
            self.variables[name] = UNKNOWN  # make gives the modifiers to this variable
        for target in targets:
            key = target, name
            known = UNKNOWN
            if key not in self.target_variables and operator in ("=", ":=", "::=", "+="):
                known = self.target_variable(target, origin, b"private" in modifiers, operator, value)
            self.target_variables[key] = known

    def target_variable(self, target, origin, is_private, operator, value):
        """The first variable of its name for a target."""
        if "%" in target:
            return UNKNOWN if operator in (":=", "::=") and "$" in value else [value]
        try:
            if operator not in (":=", "::="):
                return Variable(origin, is_private, operator[:-1], value)
            if self.values.may_be_private():
                raise Unknown  # a private variable is not seen here
            return Variable(origin, is_private, ":", self.values.expand(value))
        except Unknown:
            return UNKNOWN

    # Conditionals

    def take_conditional(self, item):
        """Follows the line of a conditional."""
        text = shown(b"".join(cut_units(item.parts[0]))).strip()
        if item.kind == "Endif":
            self.branches.pop()
        elif item.kind == "If":
            is_taken = self.is_live() and self.holds(text)
            self.branches.append((is_taken, is_taken))
        else:
            _, was_taken = self.branches.pop()
            rest = text[len("else") :].strip()
            is_taken = not was_taken and (not rest or self.is_live() and self.holds(rest))
            self.branches.append((is_taken, was_taken or is_taken))

    def holds(self, text):
        """Whether a condition holds. Where this is not known, nothing is known any more."""
        word, _, name = text.partition(" ")
        name = name.strip()
        try:
            if word in ("ifdef", "ifndef"):
                return self.values.is_defined(self.values.expand(name)) == (word == "ifdef")
            found = CONDITION.fullmatch(text)
            if not found:
                raise Unknown
            one, other = (it for it in found.groups()[1:] if it is not None)
            return (self.values.expand(one) == self.values.expand(other)) == (found[1] == "ifeq")
        except Unknown:
            self.values.is_known = self.rules_known = self.conditions_known = False
            return True

    # Rules

    def take_header(self, parts):
        """Follows the line of a rule: its words are replaced now, its recipe comes below."""
        targets, separator, pattern, normal, order, inline = parts
        try:
            targets = self.values.expanded_words(targets)
            pattern = pattern and self.values.expand(shown(pattern))
            self.header = (targets, shown(separator), pattern, *self.needs(normal, order))
        except Unknown:
            self.rules_known = False
        if self.header and inline is not None:
            self.recipe.append(shown(inline).replace("\r\n", "\n"))

    def needs(self, *lists):
        """Both lists of prerequisites, or twice UNKNOWN."""
        try:
            return [self.values.expanded_words(it) for it in lists]
        except Unknown:
            return UNKNOWN, UNKNOWN

    def record(self):
        """Ends the rule that is open, and adds it to what is known."""
        header, recipe = self.header, tuple(self.recipe) or None
        self.header, self.recipe = None, []
        if not header:
            return
        targets, separator, pattern, normal, order = header
        if normal == UNKNOWN:
            self.record_unknown(targets)
            return
        separator = separator.lstrip("&")
        if targets and all("%" in it for it in targets) and not pattern:
            self.record_pattern(tuple(targets), Rule(separator, tuple(normal), tuple(order), recipe))
            return
        for target in targets:
            lists = [needed(words, pattern, target) for words in (normal, order)]
            self.record_target(target, Rule(separator, *lists, recipe))

    def record_unknown(self, targets):
        """Adds a rule whose prerequisites are not known."""
        if any("%" in it or it in (".PHONY", ".SUFFIXES") for it in targets):
            self.rules_known = False
        self.targets.update((it, UNKNOWN) for it in targets)

    def record_pattern(self, targets, rule):
        """Adds a pattern rule: it replaces one with the same patterns and prerequisites."""
        kept = self.patterns.setdefault(targets, [])
        words = rule.prerequisites + rule.order_only
        kept[:] = [it for it in kept if it.prerequisites + it.order_only != words] + [rule]

    def record_target(self, target, rule):
        """Adds a rule of a target: its prerequisites come before those known where it has a recipe."""
        kept = self.targets.setdefault(target, [])
        if kept == UNKNOWN:
            return
        if rule.separator == "::" or not kept:
            kept.append(rule)
            return
        old = cleared(target, kept.pop(), rule)
        first, second = (rule, old) if rule.recipe is not None else (old, rule)
        kept.append(
            Rule(
                rule.separator,
                first.prerequisites + second.prerequisites,
                first.order_only + second.order_only,
                old.recipe if rule.recipe is None else rule.recipe,
            )
        )


def cleared(target, old, rule):
    """What make keeps of a target's rule when a further one comes: two special targets lose something.

    A `.SUFFIXES` without words takes away all that stood in those above, before a `|` and after it. A
    `.DEFAULT` without words and without a recipe takes away the recipe.
    """
    if rule.prerequisites or rule.order_only:
        return old
    if target == ".SUFFIXES":
        return old._replace(prerequisites=(), order_only=())
    if target == ".DEFAULT" and rule.recipe is None:
        return old._replace(recipe=None)
    return old


def needed(words, pattern, target):
    """The prerequisites of a rule for a target: none where the target is not like the rule's pattern."""
    if not pattern:
        return tuple(words)
    head, percent, end = pattern.partition("%")
    stem = target[len(head) : len(target) - len(end)]
    if not percent or target != head + stem + end:
        return ()
    return tuple(word.replace("%", stem, 1) for word in words)


def known_keys(expected, database):
    """The keys of both whose contents are known, each with what is expected and what make has."""
    for section in SECTIONS:
        for name in {**getattr(expected, section), **getattr(database, section)}:
            wanted = expected.content((section, name))
            if wanted != UNKNOWN:
                yield (section, name), wanted, database.content((section, name))
