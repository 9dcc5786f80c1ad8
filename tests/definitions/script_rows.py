#!/usr/bin/env python3
"""Scripts as rows that the prover computes.

Turns tables of scripts into a file of lists (row_tables.py), by which the prover computes the reading of
scripts in `crates/mk_rows`, which is proved to be what the definitions say. What a script means is read
here by other means: its lines and fields by regular expressions, its commands by the table below. Where
a table has the column `meaning`, which was written by hand, the answer is the table's, and this reading
has to agree with it.

    script_rows.py TABLE..

tests/gate/rows.py says which files the crate keeps.

A table has the columns name and script, and perhaps more; of scripts that are alike the first is taken. A
meaning is the number of the first line that is no command, or a Python list of steps. A step is a
command: the number of its line, the name of the edit or call, and its arguments; or ('try', command) for
a command behind `try`; or the list of the commands of a chain of alternatives.
"""

import ast
import re
import sys

from reading_rows import FLAVORS
from row_tables import antt_bool, antt_list, antt_text, bare, bytes_of, print_lists, rows_of_table, unescape

SEPARATORS = {b":": "Single", b"::": "Double"}
MOST = 4294967295

# ---- what a script means

# A line and its end; the last line may have none.
LINE = re.compile(rb"([^\n]*?)(\r?\n|\Z)", re.DOTALL)
FIELD = re.compile(rb'[ \t]*(?:"((?:[^"\\]|\\["\\])*)"|([^ \t"][^ \t]*))(?=[ \t]|\Z)', re.DOTALL)

# The edits of texts alone, by their word: their names, what stands first among their arguments, and
# how many texts follow.
EDITS = {
    b"set": ("SetValue", [], 2),
    b"set-if": ("SetValueIf", [], 3),
    b"append": ("AppendValue", [], 2),
    b"add": ("AddWord", [], 2),
    b"drop": ("RemoveWord", [], 2),
    b"prepend": ("PrependValue", [], 2),
    b"replace": ("ReplaceWord", [], 3),
    b"add-before": ("InsertBefore", [], 3),
    b"add-after": ("InsertAfter", [], 3),
    b"subst": ("SubstituteValue", [], 3),
    b"unset": ("RemoveAssign", [], 1),
    b"comment-out": ("CommentOut", [], 1),
    b"uncomment": ("Uncomment", [], 1),
    b"unrule": ("RemoveRule", [], 1),
    b"depend": ("AddPrereq", [False], 2),
    b"depend-order": ("AddPrereq", [True], 2),
    b"undepend": ("RemovePrereq", [], 2),
    b"depend-replace": ("ReplacePrereq", [], 3),
    b"recipe": ("AddRecipe", [], 2),
    b"recipe-replace": ("SetRecipeByText", [], 3),
    b"recipe-remove": ("RemoveRecipeByText", [], 2),
    b"recipe-subst": ("SubstRecipe", [], 3),
    b"line-replace": ("ReplaceLines", [], 2),
    b"line-remove": ("RemoveLines", [], 1),
    b"rule-replace": ("ReplaceRule", [], 2),
    b"rule-remove": ("RemoveWholeRule", [], 1),
}
# The edits before which no number stands, by their word: their names.
UNNUMBERED = {b"rename": "RenameTarget", b"values-subst": "SubstValues", b"recipes-subst": "SubstRecipes"}
# The edits of each assignment of a name, by the word behind `all`: their names, and the change with the
# number of its texts.
EVERY = {
    b"set": ("ChangeValues", "Set", 1),
    b"set-if": ("ChangeValues", "SetIf", 2),
    b"append": ("ChangeValues", "Append", 1),
    b"add": ("ChangeValues", "Add", 1),
    b"drop": ("ChangeValues", "Remove", 1),
    b"prepend": ("ChangeEach", "Prepend", 1),
    b"replace": ("ChangeEach", "ReplaceWord", 2),
    b"subst": ("ChangeEach", "Substitute", 2),
    b"operator": ("ChangeEach", "SetOperator", 1),
}
# The places of a new line, by their word: those without an address, those with a name and no number, and those with an
# address; and the latter of whole lines.
ENDS = {b"top": "Top", b"bottom": "Bottom"}
LAST = {b"after-last-var": "AfterLastVar"}
PLACES = {b"before-var": "BeforeVar", b"after-var": "AfterVar", b"before-rule": "BeforeRule", b"after-rule": "AfterRule"}
TEXT_PLACES = {b"before-line": "BeforeRun", b"after-line": "AfterRun"}
SITES = {**PLACES, **TEXT_PLACES}
CALLS = {b"undo": "Undo", b"redo": "Redo", b"begin": "Begin", b"end": "End", b"cancel": "Cancel"}
# What marks the lines of a block, in a field without quotes.
MARK = re.compile(rb"<<([A-Za-z0-9_]+)")


class NoCommand(Exception):
    """A line is no command."""


class Bare(bytes):
    """A field that has no quotes."""


def lines_of(script):
    """The lines of a script without their ends."""
    at = 0
    while at < len(script):
        found = LINE.match(script, at)
        yield found.group(1)
        at = found.end()


def fields_of(line):
    """The fields of a line."""
    fields, at = [], 0
    while line[at:].strip(b" \t"):
        found = FIELD.match(line, at)
        if found is None:
            raise NoCommand
        quoted, bare = found.groups()
        fields.append(Bare(bare) if quoted is None else re.sub(rb"\\(.)", rb"\1", quoted, flags=re.DOTALL))
        at = found.end()
    return fields


def first_block(fields):
    """Where the fields that may be blocks begin among those of a line."""
    at = 1 if fields[0] in (b"try", b"or") else 0
    at += 2 if fields[at : at + 1] == [b"nth"] else 0
    word, place, *_ = [*fields[at : at + 2], b"", b""]
    if word in (b"line-replace", b"line-remove"):
        return at + 1
    if word == b"insert" and (place in PLACES or place in LAST):
        return at + 3
    if word == b"rule-replace" or word == b"insert" and (place in ENDS or place in TEXT_PLACES):
        return at + 2
    return len(fields)


def with_blocks(fields, below):
    """The fields of a line with the lines of their blocks, and how many lines below it these take with their words.

    There are no fields where a block has no line or does not end; it takes all lines then.
    """
    first, passed, texts, is_whole = first_block(fields), 0, [], True
    for at, field in enumerate(fields):
        mark = MARK.fullmatch(field) if at >= first and isinstance(field, Bare) else None
        if mark:
            ends = mark.group(1) in below[passed:]
            end = below.index(mark.group(1), passed) if ends else len(below)
            is_whole = is_whole and ends and end > passed
            field, passed = b"\n".join(below[passed:end]), min(end + 1, len(below))
        texts.append(bytes(field))
    return texts if is_whole else [], passed


def commands_of(script):
    """The commands of a script: the number of each line, the line with those of its blocks, and the fields; no fields if
    the line is no command by them."""
    lines, passed = list(lines_of(script)), 0
    for number, line in enumerate(lines, 1):
        if number <= passed or not line.strip(b" \t") or line.startswith(b"#"):
            continue
        try:
            fields, count = with_blocks(fields_of(line), lines[number:])
        except NoCommand:
            fields, count = [], 0
        passed = number + count
        yield number, lines[number - 1 : passed], fields


def number_of(field):
    """The number that a field writes."""
    if not re.fullmatch(rb"[0-9]{1,10}", field) or int(field) > MOST:
        raise NoCommand
    return int(field)


def taken(fields, count):
    """The fields, where their number is this one."""
    if len(fields) != count:
        raise NoCommand
    return fields


def place_of(nth, fields, places=PLACES):
    """The place at the front of fields, by the words that places with an address have, and the fields after it."""
    if nth is None and fields and fields[0] in ENDS:
        return (ENDS[fields[0]],), fields[1:]
    if nth is None and len(fields) > 1 and fields[0] in LAST:
        return (LAST[fields[0]], fields[1]), fields[2:]
    if len(fields) > 1 and fields[0] in places:
        return (places[fields[0]], nth, fields[1]), fields[2:]
    raise NoCommand


def known(table, field):
    """The field, if it is one of a table."""
    if field not in table:
        raise NoCommand
    return field


def every_of(fields):
    """The edit of each assignment of a name, by the fields behind `all`."""
    if len(fields) < 2:
        raise NoCommand
    word, name, *texts = fields
    edit, kind, count = EVERY[known(EVERY, word)]
    if kind == "SetOperator":
        known(FLAVORS, *taken(texts, 1))
    return (edit, name, (kind, *taken(texts, count)))


def edit_of(nth, word, fields):
    """The edit of a word and the fields after it."""
    if word in EDITS:
        name, first, count = EDITS[word]
        return (name, *first, nth, *taken(fields, count))
    if word in (b"assign", b"rule"):
        place, fields = place_of(nth, fields)
        first, sign, last = taken(fields, 3)
        if word == b"assign":
            return ("AddAssign", place, first, known(FLAVORS, sign), last)
        return ("AddRule", place, first, known(SEPARATORS, sign), last)
    if word == b"insert":
        site, fields = place_of(nth, fields, SITES)
        return ("InsertLines", site, *taken(fields, 1))
    if word == b"operator":
        name, sign = taken(fields, 2)
        return ("SetOperator", nth, name, known(FLAVORS, sign))
    if word == b"recipe-set":
        target, number, text = taken(fields, 3)
        return ("SetRecipe", nth, target, number_of(number), text)
    if word == b"recipe-del":
        target, number = taken(fields, 2)
        return ("RemoveRecipe", nth, target, number_of(number))
    if word == b"recipe-insert":
        target, number, text = taken(fields, 3)
        return ("InsertRecipe", nth, target, number_of(number), text)
    if word in UNNUMBERED and nth is None:
        return (UNNUMBERED[word], *taken(fields, 2))
    raise NoCommand


def command_of(fields):
    """The command of some fields."""
    nth, (word, *rest) = None, fields
    if not rest and word in CALLS:
        return (CALLS[word],)
    if word == b"all":
        return every_of(rest)
    if word == b"nth" and len(rest) > 1:
        nth, (word, *rest) = number_of(rest[0]), rest[1:]
    return edit_of(nth, word, rest)


def edit_command_of(fields):
    """The command of some fields that is that of an edit."""
    if len(fields) < 2:
        raise NoCommand
    return command_of(fields)


def is_edit(step):
    """Whether a step is an edit's command alone."""
    return isinstance(step, tuple) and step[0] != "try" and step[1] not in CALLS.values()


def add_step(steps, number, fields):
    """Adds to the steps what the fields of a line say."""
    if not fields:
        raise NoCommand
    if fields[0] == b"try":
        steps.append(("try", (number, *edit_command_of(fields[1:]))))
    elif fields[0] != b"or":
        steps.append((number, *command_of(fields)))
    elif steps and (is_edit(steps[-1]) or isinstance(steps[-1], list)):
        other = (number, *edit_command_of(fields[1:]))
        last = steps[-1]
        steps[-1] = [*last, other] if isinstance(last, list) else [last, other]
    else:
        raise NoCommand


def meaning_of(script):
    """The steps of a script with the numbers of their lines, or the first line that is no command."""
    steps = []
    for number, _, fields in commands_of(script):
        try:
            add_step(steps, number, fields)
        except NoCommand:
            return number
    return steps


def stated(meaning):
    """A meaning as a table states it, its texts as bytes."""
    if isinstance(meaning, int):
        return meaning

    def texts(part):
        if isinstance(part, tuple):
            return (part[0], *[texts(it) for it in part[1:]])
        return part.encode("latin-1") if isinstance(part, str) else part

    def step(part):
        if isinstance(part, list):
            return [step(it) for it in part]
        if part[0] == "try":
            return ("try", step(part[1]))
        number, name, *arguments = part
        return (number, name, *[texts(it) for it in arguments])

    return [step(part) for part in meaning]


# ---- terms

# Where the number of the line is among the arguments of an edit.
NTH_AT = {name: len(first) for name, first, _ in EDITS.values()}
NTH_AT |= dict.fromkeys(("SetOperator", "SetRecipe", "RemoveRecipe", "InsertRecipe"), 0)
# The signs that stand third among the arguments of an edit.
SIGNS = {"AddAssign": FLAVORS, "AddRule": SEPARATORS, "SetOperator": FLAVORS}


def antt_nth(nth):
    """A number that may be left out, as a term."""
    return "None" if nth is None else f"(Some {nth})"


def antt_change(kind, text):
    """A change of a value or a line as a term."""
    return f"(edits.{kind} {text})"


def antt_change_of(kind, *texts):
    """A change of each assignment of a name as a term."""
    terms = [FLAVORS[it] for it in texts] if kind == "SetOperator" else [antt_text(it) for it in texts]
    return antt_change(kind, " ".join(terms))


def antt_block(text):
    """The lines of a block as a term."""
    return f"(block_lines {antt_text(text)})"


def antt_place(place):
    """A place as a term."""
    kind, *parts = place
    if not parts:
        return kind
    *numbers, field = parts
    text = antt_block(field) if kind in TEXT_PLACES.values() else antt_text(field)
    return f"({' '.join([kind, *map(antt_nth, numbers), text])})"


def antt_site(place):
    """A place of whole lines as a term."""
    return antt_place(place) if place[0] in TEXT_PLACES.values() else f"(AtPlace {antt_place(place)})"


def antt_argument(name, part):
    """An argument of an edit as a term."""
    if name in ("ChangeValues", "ChangeEach") and isinstance(part, tuple):
        return antt_change_of(*part)
    if isinstance(part, tuple):
        return antt_site(part) if name == "InsertLines" else antt_place(part)
    if isinstance(part, bool):
        return antt_bool(part)
    return antt_text(part) if isinstance(part, bytes) else str(part)


# The form that each edit has in the definitions, with its arguments in their order.
FORMS = {
    "SetValue": f"ChangeValue (One {{0}}) {{1}} {antt_change('Set', '{2}')}",
    "SetValueIf": f"ChangeValue (One {{0}}) {{1}} {antt_change('SetIf', '{2} {3}')}",
    "AppendValue": f"ChangeValue (One {{0}}) {{1}} {antt_change('Append', '{2}')}",
    "AddWord": f"ChangeValue (One {{0}}) {{1}} {antt_change('Add', '{2}')}",
    "RemoveWord": f"ChangeValue (One {{0}}) {{1}} {antt_change('Remove', '{2}')}",
    "ChangeValues": "ChangeValue Every {0} {1}",
    "PrependValue": f"ChangeLine {{0}} {{1}} {antt_change('Prepend', '{2}')}",
    "ReplaceWord": f"ChangeLine {{0}} {{1}} {antt_change('ReplaceWord', '{2} {3}')}",
    "InsertBefore": f"ChangeLine {{0}} {{1}} {antt_change('InsertWord', 'Before {2} {3}')}",
    "InsertAfter": f"ChangeLine {{0}} {{1}} {antt_change('InsertWord', 'After {2} {3}')}",
    "SubstituteValue": f"ChangeLine {{0}} {{1}} {antt_change('Substitute', '{2} {3}')}",
    "SetOperator": f"ChangeLine {{0}} {{1}} {antt_change('SetOperator', '{2}')}",
    "AddAssign": "AddLine {0} (NewAssign {1} {2} {3})",
    "RemoveAssign": "RemoveLines (OfAssign {0} {1})",
    "CommentOut": "SwitchLine CommentOut {0} {1}",
    "Uncomment": "SwitchLine Uncomment {0} {1}",
    "AddRule": "AddLine {0} (NewRule {1} {2} {3})",
    "RemoveRule": "RemoveLines (OfRule {0} {1})",
    "AddPrereq": "ChangePrereqs {1} {2} (AddPrereq {0} {3})",
    "RemovePrereq": "ChangePrereqs {0} {1} (RemovePrereq {2})",
    "ReplacePrereq": "ChangePrereqs {0} {1} (ReplacePrereq {2} {3})",
    "AddRecipe": "AddRecipe {0} {1} Last {2}",
    "SetRecipe": "SetRecipe {0} {1} (ByNumber {2}) {3}",
    "RemoveRecipe": "RemoveLines (OfRecipe {0} {1} (ByNumber {2}))",
    "InsertRecipe": "AddRecipe {0} {1} (At {2}) {3}",
    "SetRecipeByText": "SetRecipe {0} {1} (ByText {2}) {3}",
    "RemoveRecipeByText": "RemoveLines (OfRecipe {0} {1} (ByText {2}))",
    "RenameTarget": "RenameTarget {0} {1}",
    "InsertLines": "ExchangeLines {0} (block_lines {1})",
    "ReplaceLines": "ExchangeLines (OfRun {0} (block_lines {1})) (block_lines {2})",
    "RemoveLines": "ExchangeLines (OfRun {0} (block_lines {1})) []",
    "ReplaceRule": "ExchangeLines (OfRuleRun {0} {1}) (block_lines {2})",
    "RemoveWholeRule": "ExchangeLines (OfRuleRun {0} {1}) []",
    "ChangeEach": "EachLine (ChangeEach {0} {1})",
    "SubstValues": "EachLine (SubstValues {0} {1})",
    "SubstRecipe": "EachLine (SubstRecipe {0} {1} {2} {3})",
    "SubstRecipes": "EachLine (SubstRecipes {0} {1})",
}
# The words of the forms.
FORM_WORDS = (
    "One Every NewAssign NewRule AddPrereq RemovePrereq ReplacePrereq ByNumber ByText Last At OfAssign OfRule OfRecipe"
    " CommentOut Uncomment AtPlace OfRun OfRuleRun ChangeEach SubstValues SubstRecipe SubstRecipes ChangeValue ChangeLine"
    " ChangePrereqs AddLine AddRecipe SetRecipe RemoveLines SwitchLine RenameTarget ExchangeLines EachLine"
).split()


def antt_edit(name, *arguments):
    """An edit as a term."""
    sign = SIGNS.get(name)
    terms = [
        antt_nth(part) if at == NTH_AT.get(name) else sign[part] if sign and at == 2 else antt_argument(name, part)
        for at, part in enumerate(arguments)
    ]
    return f"({FORMS[name].format(*terms)})"


def antt_step(step):
    """A step as a term."""
    if isinstance(step, list):
        first, second, *others = [f"(edit_on {number} {antt_edit(*edit)})" for number, *edit in step]
        return f"Chain {first} {second} {antt_list(others)}"
    if step[0] == "try":
        number, *edit = step[1]
        return f"tried_on {number} {antt_edit(*edit)}"
    number, *command = step
    return f"on_line {number} {f'(Apply {antt_edit(*command)})' if is_edit(step) else command[0]}"


def antt_steps(steps):
    """The steps of a script as a term."""
    return antt_list([antt_step(step) for step in steps])


def antt_meaning(meaning):
    """A meaning as a term."""
    return f"Err {meaning}" if isinstance(meaning, int) else f"Ok {antt_steps(meaning)}"


# The modules of edits and of scripts.
EDIT_IMPORTS = [
    ("Rattle.mk_class.specs.declared.assignment.Flavor.TheVariants", list(FLAVORS.values())),
    ("Rattle.mk_edit_language.specs.declared.edit.RuleSeparator.TheVariants", list(SEPARATORS.values())),
    ("Rattle.mk_edit_language.specs.declared.edit.Side.TheVariants", ["Before", "After"]),
    ("Rattle.mk_edit_language.specs.Edits", ["Edit", *ENDS.values(), *LAST.values(), *SITES.values()]),
    ("Rattle.mk_edit_language.specs.Edits", FORM_WORDS),
    ("Rattle.mk_edit_language.specs.Edits", "edits"),
    ("Rattle.mk_edit_language.specs.LineRuns", ["block_lines"]),
]
SCRIPT_IMPORTS = [
    *EDIT_IMPORTS,
    ("Rattle.mk_history.specs.Machine", ["Apply", *CALLS.values()]),
    ("Rattle.mk_script.specs.Scripts", ["Step", "Chain"]),
    ("Rattle.mk_rows.proofs.scripts.ScriptReader", ["on_line", "edit_on", "tried_on", "read_script"]),
]


# ---- rows


def rows_of(tables):
    """The scripts of tables that are not alike, with their meanings."""
    seen = set()
    for row in (row for table in tables for row in rows_of_table(table)):
        script = bytes_of(row, "script")
        meaning = meaning_of(script)
        if "meaning" in row:
            hand = stated(ast.literal_eval(unescape(row["meaning"])))
            if hand != meaning:
                sys.exit(f"{row['name']}: the table says {hand}, the reading {meaning}")
        if script not in seen:
            seen.add(script)
            yield row["name"], [bare(antt_text(script)), antt_meaning(meaning)]


def main():
    tables = sys.argv[1:]
    if not tables:
        sys.exit("usage: script_rows.py TABLE..")
    title = f"Scripts and what they mean. Made by `tests/definitions/script_rows.py {' '.join(tables)}`."
    imports = [("Rattle.bstr.specs.Text", ["line_len", "lines_from"]), *SCRIPT_IMPORTS]
    row_type = "List ℕ × Result (List Step) ℕ"
    print_lists(title, imports, rows_of(tables), row_type, "read_script row.0", unfolding="line_len lines_from")


if __name__ == "__main__":
    main()
