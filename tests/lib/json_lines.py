"""The lines of JSON of a makefile, by the reading of it in Python and by Python's `json`.

Told in docs/EDITS.md, "Lines of JSON". It shares no line with the program.
"""

import base64
import json
from typing import Any, NamedTuple, Optional

from .reading import is_rule, joined, read


def text_value(text):
    """A text as a value of JSON: a string, or an object that has its bytes in base64."""
    try:
        return text.decode("utf-8")
    except UnicodeDecodeError:
        return {"base64": base64.b64encode(text).decode("ascii")}


def texts_value(texts):
    return [text_value(text) for text in texts]


class Branch(NamedTuple):
    """A branch of a conditional: the line that begins it, the first line of the conditional, the branch above it in
    the conditional, and the branch round the conditional."""

    line: Any
    first: Any
    above: Optional["Branch"]
    outer: Optional["Branch"]


def branches(text):
    """The branch in which each line of a makefile stands, or None, by the number of the line."""
    found, branch = {}, None
    for line in read(text)[0]:
        found[line.number] = branch
        if line.kind == "If":
            branch = Branch(line, line, None, branch)
        elif line.kind == "Else":
            branch = Branch(line, branch.first, branch, branch.outer)
        elif line.kind == "Endif":
            branch = branch.outer
    return found


def branches_so_far(branch):
    """A branch, and before it those above it: of its conditional, and of those round that."""
    return [*branches_so_far(branch.above or branch.outer), branch] if branch else []


def place_members(file, line, depth, branch):
    """The members that say where a line stands."""
    members = {"file": text_value(file), "line": line.number, "depth": depth}
    return {**members, "branch": branch.line.number} if branch else members


def branch_object(file, branch):
    place = place_members(file, branch.line, branch.first.context.conditionals, branch.outer)
    text = text_value(joined(branch.line.raw)[0])
    return {**place, "kind": "branch", "first": branch.first.number, "text": text}


def objects(file, text, told):
    """The objects on lines, by pairs of a line and its members; before each those on branches that have none yet."""
    found, known = branches(text), set()
    for line, members in told:
        branch = found[line.number]
        for it in branches_so_far(branch):
            if it.line.number not in known:
                known.add(it.line.number)
                yield branch_object(file, it)
        yield {**place_members(file, line, line.context.conditionals, branch), **members}


def target_members(targets, separator):
    return {"targets": texts_value(targets), "separator": separator.decode()}


def told_by_vars(text, only=None):
    """The assignments, or those of one name, each with its members."""
    for line in read(text)[0]:
        if line.kind not in ("Assign", "TargetAssign"):
            continue
        *of_rule, modifiers, name, operator, value = line.parts
        if only not in (None, name):
            continue
        parts = target_members(*of_rule) if of_rule else {}
        parts["modifiers"] = texts_value(modifiers)
        parts["name"] = text_value(name)
        parts["operator"] = operator.decode()
        parts["value"] = text_value(value)
        yield line, parts


def rule_members(line):
    """What is told of a rule."""
    targets, separator, pattern, normal, order, inline = line.parts
    parts = target_members(targets, separator)
    if pattern is not None:
        parts["pattern"] = text_value(pattern)
    parts["prerequisites"] = texts_value(normal)
    parts["order_only"] = texts_value(order)
    if inline is not None:
        # (its line end is gone already)
        parts["inline_recipe"] = text_value(joined(inline + b"\n")[0])
    return parts


def told_by_rules(text, only=None):
    """The lines of rules, or those for one target, each with its members."""
    return ((line, rule_members(line)) for line in read(text)[0] if is_rule(line, only))


def told_by_recipes(text, only=None):
    """The lines of rules that have recipe lines, or of those for one target, and these lines, each with its members."""
    rule, number = None, 0
    for line in read(text)[0]:
        if line.kind in ("Header", "Rough"):
            rule, number = line if is_rule(line, only) else None, 0
        elif line.context.flag != "Rule":
            rule = None
        elif rule and line.kind == "Recipe":
            number += 1
            if number == 1:
                yield rule, rule_members(rule)
            command = text_value(joined(line.raw)[0][1:])
            yield line, {"rule": rule.number, "number": number, "text": command}


def told_by_check(text):
    """The lines that are not read inside, each with its members."""
    for line in read(text)[0]:
        if line.kind in ("Rough", "Opaque"):
            yield line, {"kind": line.kind.lower(), "text": text_value(joined(line.raw)[0])}


def end_objects(file, text):
    """The object on what is open at the end, if something is."""
    end = read(text)[1]
    if end.conditionals or end.defines:
        counts = {"conditionals": end.conditionals, "defines": end.defines}
        yield {"file": text_value(file), "kind": "end", **counts}


# The kind of each sentence of `caveats` (docs/LANGUAGE.md, chapter 8).
KINDS = {
    "make may take this for a recipe line: an opaque line above is empty for make": "after_empty",
    "make may take this for a recipe line: it may skip the conditional above": "after_conditional",
    "make may obey this as a line of a conditional": "conditional",
    "make may begin a define here": "define",
    "make may set a variable here that no edit finds": "assignment",
    "make may set the recipe prefix here": "prefix",
    "make may take nothing from this rule: another one has the recipe of its target": "bare_rule",
}


def told_by_caveats(text, words):
    """The lines of which the query in words tells, which prints these, each with its members."""
    numbers, sentences = zip(*(it.split(": ", 1) for it in words.decode().splitlines())) if words else ((), ())
    caveats = dict(zip(map(int, numbers), sentences))
    for line in read(text)[0]:
        sentence = caveats.pop(line.number, None)
        if sentence is not None:
            yield line, {"kind": KINDS[sentence], "sentence": sentence}
    if caveats:
        raise ValueError(f"no line begins at {min(caveats)}")


TOLD = {"vars": told_by_vars, "rules": told_by_rules, "recipes": told_by_recipes, "check": told_by_check}


def lines_of(found):
    """Objects as lines of text: JSON without blanks, and no character beyond ASCII as an escape."""
    lines = (json.dumps(it, ensure_ascii=False, separators=(",", ":")) + "\n" for it in found)
    return "".join(lines).encode("utf-8")


def caveats_text(file, text, words):
    """The lines of JSON of `caveats`, where the query in words prints these."""
    return lines_of(objects(file, text, told_by_caveats(text, words)))


def json_text(query, file, text, only=None):
    """The lines of JSON of a query other than `caveats`."""
    told = TOLD[query](text, only) if only is not None else TOLD[query](text)
    found = lines_of(objects(file, text, told))
    return found + lines_of(end_objects(file, text)) if query == "check" else found
