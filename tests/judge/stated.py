"""Edits over the items of a makefile, as docs/EDITS.md states their changes.

An edit is a tuple: its command, with `all` if that stands before it, the number N of `nth N` or None, and
the command's fields as bytes. A place is one of its fields, as b"after-var X", and a block has line feeds
between its lines. after() gives the items after an accepted edit, and touched() what of make's data base
the edit is about.
"""

import itertools
import re

from tests.lib import reading

from .database import SECTIONS
from .expected import Expected, Item, items
from .values import shown

OF_LINES = ("insert", "line-replace", "line-remove", "rule-replace", "rule-remove")
OF_EVERY_LINE = tuple("all " + it for it in "set set-if append add drop prepend replace subst operator".split())
OF_RECIPES = ("recipe-subst", "recipes-subst")
CHECKED_BY_READING = ("prepend", "replace", "add-before", "add-after", "subst", "operator")
OF_SWITCHES = ("comment-out", "uncomment")
OF_VARIABLES = (
    *("set", "set-if", "append", "add", "drop", *CHECKED_BY_READING, "unset", *OF_SWITCHES, "assign", "values-subst"),
    *OF_EVERY_LINE,
)


def field(text):
    """A field as a script has it: for several lines what marks those below."""
    if b"\n" in text:
        return b"<<E"
    if text and not re.search(rb'[ \t]|\A"', text):
        return text
    return b'"' + text.replace(b"\\", b"\\\\").replace(b'"', b'\\"') + b'"'


def line_of(edit):
    """The line of a script for an edit, with the lines of its blocks below it."""
    command, nth, *fields = edit
    if command in ("assign", "rule", "insert"):
        fields[:1] = fields[0].split(b" ", 1)
    words = [*([b"nth %d" % nth] if nth else []), command.encode(), *map(field, fields)]
    return b"\n".join([b" ".join(words), *(it + b"\nE" for it in fields if b"\n" in it)])


def addressed(of, nth, is_it):
    """The place of the line that an edit means."""
    return [at for at, item in enumerate(of) if is_it(item)][(nth or 1) - 1]


def assigns(name):
    return lambda item: item.kind == "Assign" and item.parts[1] == name


def has_value(name, value):
    return lambda item: assigns(name)(item) and item.parts[-1] == value


def says(name):
    """Whether an item is a comment that begins as an assignment does."""
    form = re.compile(rb"[ \t]*#[ \t]*((override|export|private)[ \t]+)*%s[ \t]*([?+!]|:{0,3})=" % re.escape(name))
    return lambda item: item.kind == "Comment" and form.match(item.raw)


def has_target(target):
    return lambda item: item.kind == "Header" and target in item.parts[0]


def said(of):
    """What lines say, with line feeds between them."""
    return reading.without_line_end(b"".join(it.raw for it in of)).replace(b"\r\n", b"\n")


def run_of(of, nth, old):
    """Where the lines begin and end that say a block and that an edit means."""
    most = old.count(b"\n") + 1
    places = ((first, first + count) for first in range(len(of)) for count in range(1, most + 1))
    found = [(first, end) for first, end in places if end <= len(of) and said(of[first:end]) == old]
    return found[(nth or 1) - 1]


ADDRESSES = {b"before-var": assigns, b"after-var": assigns, b"before-rule": has_target, b"after-rule": has_target}


def place_of(of, nth, place):
    """Where new lines go."""
    word, _, field = place.partition(b" ")
    if word in (b"top", b"bottom"):
        return 0 if word == b"top" else len(of)
    if word in (b"before-line", b"after-line"):
        return run_of(of, nth, field)[word == b"after-line"]
    if word == b"after-last-var":
        return [at for at, item in enumerate(of) if assigns(field)(item)][-1] + 1
    at = addressed(of, nth, ADDRESSES[word](field))
    return [at, *recipe_places(of, at)][-1] + 1 if word == b"after-rule" else at + word.startswith(b"after")


def recipe_places(of, at):
    """The places of the recipe lines of the rule at a place."""
    found = []
    for place in range(at + 1, len(of)):
        kind = of[place].kind
        if kind == "Recipe":
            found.append(place)
        elif kind not in ("Blank", "Comment", "If", "Else", "Endif"):
            break
    return found


def words_of(text):
    return reading.texts(reading.units(text))


def after(of, edit):
    """The items after an accepted edit."""
    command, nth, *fields = edit
    return CHANGES[command](list(of), nth, *fields)


def valued(item, new):
    """An assignment with another value."""
    return Item("Assign", (*item.parts[:-1], new), item.tail if new else b"")


def with_value(of, nth, name, change):
    at = addressed(of, nth, assigns(name))
    of[at] = valued(of[at], change(of[at].parts[-1]))
    return of


def set_value(of, nth, name, value):
    return with_value(of, nth, name, lambda _: value)


def set_if(of, nth, name, old, value):
    at = addressed(of, nth, has_value(name, old))
    of[at] = valued(of[at], value)
    return of


def all_set_if(of, _, name, old, value):
    return [valued(it, value) if has_value(name, old)(it) else it for it in of]


def append(of, nth, name, more):
    return with_value(of, nth, name, lambda old: old + b" " + more if old else more)


def drop(of, nth, name, word):
    """The value without the word; the runs of blanks go with the words after them, or at the front before them."""

    def change(old):
        kept, gap = b"", b""
        for is_gap, units in itertools.groupby(reading.units(old), reading.is_blank):
            text = b"".join(units)
            if is_gap:
                gap = text
            elif text != word:
                kept += gap + text if kept else text
        return kept

    return with_value(of, nth, name, change)


def prepend(of, nth, name, more):
    return with_value(of, nth, name, lambda old: more + b" " + old if old else more)


def replace(of, nth, name, word, new):
    """The value with a text in the place of the word; the runs of blanks stay."""

    return with_value(of, nth, name, lambda old: b"".join(new if it == word else it for it in runs_of(old)))


def runs_of(value):
    """The words of a value and the runs of blanks between them."""
    runs = itertools.groupby(reading.units(value), reading.is_blank)
    return [b"".join(units) for _, units in runs]


def add_before(of, nth, name, word, new):
    """The value with a new word before another, and the blanks before that one between them, or those after the first."""

    def change(old):
        runs = runs_of(old)
        at = runs.index(word)
        blanks = [*runs[1:at:2][-1:], *runs[at + 1 : at + 2], b" "]
        return b"".join([*runs[:at], new, blanks[0], *runs[at:]])

    return with_value(of, nth, name, change)


def add_after(of, nth, name, word, new):
    """The value with a new word after another, and the blanks after that one between them, or those before the last."""

    def change(old):
        runs = runs_of(old)
        at = runs.index(word)
        blanks = [*runs[at + 1 : at + 2], *runs[1:at:2][-1:], b" "]
        return b"".join([*runs[: at + 1], blanks[0], new, *runs[at + 1 :]])

    return with_value(of, nth, name, change)


def substituted(item, old, new):
    """An assignment with a text in the place of another in its value; blanks at its end are then blanks after it."""
    *front, value = item.parts
    units = reading.units(value.replace(old, new))
    blanks = b"".join(itertools.takewhile(reading.is_blank, reversed(units)))[::-1]
    value = b"".join(reading.trimmed(units))
    return Item("Assign", (*front, value), blanks + item.tail if value else b"")


def substitute(of, nth, name, old, new):
    at = addressed(of, nth, assigns(name))
    of[at] = substituted(of[at], old, new)
    return of


def values_with(of, old):
    """The places of the assignments in whose value a text occurs, but of those of the recipe prefix."""
    found = [at for at, item in enumerate(of) if item.kind == "Assign" and old in item.parts[-1]]
    return [at for at in found if of[at].parts[1] != reading.PREFIX_NAME]


def values_substitute(of, _, old, new):
    for at in values_with(of, old):
        of[at] = substituted(of[at], old, new)
    return of


def operator(of, nth, name, sign):
    at = addressed(of, nth, assigns(name))
    modifiers, _, _, value = of[at].parts
    of[at] = of[at]._replace(parts=(modifiers, name, sign, value))
    return of


def at_every_line(command):
    """The edit of every assignment of a name, by that of one; `add` leaves alone those that have the word."""

    def change(of, _, name, *texts):
        for nth, item in enumerate([it for it in of if assigns(name)(it)], 1):
            if command != "add" or texts[0] not in words_of(item.parts[-1]):
                of = CHANGES[command](of, nth, name, *texts)
        return of

    return change


def unset(of, nth, name):
    del of[addressed(of, nth, assigns(name))]
    return of


def uncomment(of, nth, name):
    at = addressed(of, nth, says(name))
    line = re.sub(rb"#[ \t]*", b"", of[at].raw, count=1)
    return with_line(of, at, at + 1, reading.without_line_end(line))


def assign(of, nth, place, name, operator, value):
    of.insert(place_of(of, nth, place), Item("Assign", ((), name, operator, value)))
    return of


def rule(of, nth, place, targets, separator, needs):
    parts = (words_of(targets), separator, None, words_of(needs), (), None)
    of.insert(place_of(of, nth, place), Item("Header", parts))
    return of


def unrule(of, nth, target):
    at = addressed(of, nth, has_target(target))
    del of[at : [at, *recipe_places(of, at)][-1] + 1]
    return of


def with_line(of, first, end, line):
    """The items with a line, or a block, in the place of those from one to another, as it is read there."""
    _, context = reading.read(b"".join(it.raw for it in of[:first]))
    of[first:end] = items(line + b"\n", context)
    return of


def insert(of, nth, place, line):
    at = place_of(of, nth, place)
    return with_line(of, at, at, line)


def line_replace(of, nth, old, line):
    return with_line(of, *run_of(of, nth, old), line)


def line_remove(of, nth, old):
    first, end = run_of(of, nth, old)
    del of[first:end]
    return of


def rule_run(of, nth, target):
    """Where the lines begin and end of a rule, its recipe and the conditionals in it."""
    at = addressed(of, nth, has_target(target))
    end = [at, *recipe_places(of, at)][-1] + 1
    while sum({"If": 1, "Endif": -1}.get(it.kind, 0) for it in of[at:end]):
        end += 1
    return at, end


def rule_replace(of, nth, target, lines):
    return with_line(of, *rule_run(of, nth, target), lines)


def rule_remove(of, nth, target):
    first, end = rule_run(of, nth, target)
    del of[first:end]
    return of


def with_header(of, nth, target, change):
    at = addressed(of, nth, has_target(target))
    targets, separator, pattern, normal, order, inline = of[at].parts
    of[at] = Item("Header", (targets, separator, pattern, *change(normal, order), inline))
    return of


def depend(of, nth, target, word):
    return with_header(of, nth, target, lambda normal, order: ((*normal, word), order))


def depend_order(of, nth, target, word):
    return with_header(of, nth, target, lambda normal, order: (normal, (*order, word)))


def without(words, word):
    return tuple(it for it in words if it != word)


def undepend(of, nth, target, word):
    return with_header(of, nth, target, lambda *lists: tuple(without(it, word) for it in lists))


def depend_replace(of, nth, target, old, new):
    return with_header(of, nth, target, lambda *lists: tuple(tuple(new if it == old else it for it in of) for of in lists))


def recipe(of, nth, target, line):
    at = addressed(of, nth, has_target(target))
    of.insert([at, *recipe_places(of, at)][-1] + 1, Item("Recipe", (line,)))
    return of


def recipe_set(of, nth, target, number, line):
    at = recipe_places(of, addressed(of, nth, has_target(target)))[int(number) - 1]
    of[at] = Item("Recipe", (line,))
    return of


def recipe_del(of, nth, target, number):
    del of[recipe_places(of, addressed(of, nth, has_target(target)))[int(number) - 1]]
    return of


def place_of_text(of, nth, target, old):
    """The place of the recipe line of a rule that has this text."""
    places = recipe_places(of, addressed(of, nth, has_target(target)))
    return next(it for it in places if of[it].parts == (old,))


def recipe_replace(of, nth, target, old, line):
    of[place_of_text(of, nth, target, old)] = Item("Recipe", (line,))
    return of


def recipe_remove(of, nth, target, old):
    del of[place_of_text(of, nth, target, old)]
    return of


def recipe_insert(of, nth, target, number, line):
    at = addressed(of, nth, has_target(target))
    found = recipe_places(of, at)
    of.insert([*found, [at, *found][-1] + 1][int(number) - 1], Item("Recipe", (line,)))
    return of


def recipes_with(of, nth, target, old):
    """The rules for a target, or that of a number, or all where there is no target: the place of each in whose recipe a
    text occurs, and those of the lines."""
    is_it = has_target(target) if target else lambda item: item.kind == "Header"
    rules = [at for at, item in enumerate(of) if is_it(item)]
    for at in rules[nth - 1 : nth] if nth else rules:
        found = [it for it in recipe_places(of, at) if old in of[it].parts[0]]
        if found:
            yield at, found


def recipe_substitute(of, nth, target, old, new):
    for _, places in list(recipes_with(of, nth, target, old)):
        for at in places:
            of[at] = Item("Recipe", (of[at].parts[0].replace(old, new),))
    return of


def recipes_substitute(of, _, old, new):
    return recipe_substitute(of, None, None, old, new)


def rename(of, _, old, new):
    def renamed(words):
        return tuple(new if it == old else it for it in words)

    for at, item in enumerate(of):
        if item.kind == "TargetAssign":
            of[at] = item._replace(parts=(renamed(item.parts[0]), *item.parts[1:]))
        elif item.kind == "Header":
            targets, separator, pattern, normal, order, inline = item.parts
            lists = map(renamed, (targets, normal, order))
            targets, normal, order = lists
            of[at] = Item("Header", (targets, separator, pattern, normal, order, inline))
    return of


CHANGES = {
    "set": set_value,
    "set-if": set_if,
    "append": append,
    "add": append,
    "drop": drop,
    "prepend": prepend,
    "replace": replace,
    "add-before": add_before,
    "add-after": add_after,
    "subst": substitute,
    "operator": operator,
    "unset": unset,
    "comment-out": unset,
    "uncomment": uncomment,
    "assign": assign,
    "rule": rule,
    "unrule": unrule,
    "depend": depend,
    "depend-order": depend_order,
    "undepend": undepend,
    "depend-replace": depend_replace,
    "recipe": recipe,
    "recipe-set": recipe_set,
    "recipe-del": recipe_del,
    "recipe-insert": recipe_insert,
    "recipe-replace": recipe_replace,
    "recipe-remove": recipe_remove,
    "recipe-subst": recipe_substitute,
    "recipes-subst": recipes_substitute,
    "values-subst": values_substitute,
    "rename": rename,
    "insert": insert,
    "line-replace": line_replace,
    "line-remove": line_remove,
    "rule-replace": rule_replace,
    "rule-remove": rule_remove,
    **{it: at_every_line(it.removeprefix("all ")) for it in OF_EVERY_LINE},
    "all set-if": all_set_if,
}


def edited_rules(of, edit):
    """The targets of each rule that an edit is about: one time both names of a renaming, none for a variable or for whole lines."""
    command, nth, *fields = edit
    if command in (*OF_VARIABLES, *OF_LINES):
        return []
    if command == "rename":
        return [tuple(fields)]
    if command == "rule":
        return [words_of(fields[1])]
    if command in OF_RECIPES:
        *target, old, _ = fields
        return [of[at].parts[0] for at, _ in recipes_with(of, nth, *(target or [None]), old)]
    return [of[addressed(of, nth, has_target(fields[0]))].parts[0]]


def edited_names(of, edit):
    """The names of the variables that an edit of variables is about."""
    command, _, *fields = edit
    if command == "values-subst":
        return {shown(of[at].parts[1]) for at in values_with(of, fields[0])}
    return {shown(fields[command == "assign"])}


def touched(of, edit, expected, database):
    """The keys of make's data base that an edit is about: variables, the targets of rules, or, of a
    renaming, both names and whatever has the old one as a prerequisite; of whole lines, all that these
    lead to."""
    command = edit[0]
    if command in OF_LINES:
        return changed_keys(Expected(of), expected)
    if command in OF_VARIABLES:
        return {("variables", name) for name in edited_names(of, edit)}
    rules = [expected.values.final_words(it) for it in edited_rules(of, edit)]
    if command == "rename":
        return renamed_keys(database, *rules[0]) if len(rules[0]) == 2 else set()
    return {("patterns", tuple(it)) for it in rules} | {("targets", target) for it in rules for target in it}


def changed_keys(before, after):
    """The keys that are expected to differ."""
    keys = {(section, name) for section in SECTIONS for it in (before, after) for name in getattr(it, section)}
    return {it for it in keys if before.content(it) != after.content(it)}


def renamed_keys(database, old, new):
    """The keys that a renaming is about."""
    found = {("targets", old), ("targets", new)}
    for name, rules in database.targets.items():
        if any(old in it.prerequisites + it.order_only for it in rules):
            found.add(("targets", name))
    for names, rules in database.patterns.items():
        if old in names or any(old in it.prerequisites + it.order_only for it in rules):
            found.add(("patterns", names))
            found.add(("patterns", tuple(new if it == old else it for it in names)))
    for target, name in database.target_variables:
        if target == old:
            found |= {("target_variables", (it, name)) for it in (old, new)}
    return found
