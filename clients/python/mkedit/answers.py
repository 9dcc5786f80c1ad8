"""What is made of the lines of an answer, each of which is an object of JSON.

An object that is not as docs/EDITS.md has it ("Lines of JSON") is a LookupError, a TypeError or a
ValueError here.
"""

import re
from base64 import b64decode
from dataclasses import replace
from typing import Any, Counter, Dict, Iterator, List, Tuple, get_args

from .found import Assignment, Condition, Line, RecipeLine, Rule, Step, StepKind
from .words import OPERATORS, SEPARATORS, block_words, one_of

# An object of JSON.
Members = Dict[str, Any]
KINDS: Tuple[StepKind, ...] = get_args(StepKind)

# A command in an answer to `history`, where a `;` that is a part of one stands between quotes.
COMMAND = re.compile(r'(?:[^";]|"(?:[^"\\]|\\.)*")+')


def text_in(value: Any) -> str:
    """A text: a string, or an object that has the bytes in base64, since they are not UTF-8."""
    if isinstance(value, dict):
        return b64decode(value["base64"], validate=True).decode("utf-8", "surrogateescape")
    if not isinstance(value, str):
        raise TypeError(f"{value!r} is no text")
    return value


def texts_in(values: Any) -> Tuple[str, ...]:
    """The texts of an array."""
    if not isinstance(values, list):
        raise TypeError(f"{values!r} is no array")
    return tuple(map(text_in, values))


def number_in(value: Any) -> int:
    """A number."""
    if isinstance(value, bool) or not isinstance(value, int):
        raise TypeError(f"{value!r} is no number")
    return value


def placed(found: List[Members]) -> Iterator[Tuple[Members, Dict[str, Any]]]:
    """Each object on a line but those on branches, with the fields of `Found`."""
    # The conditionals around the lines of a branch, by the number of the line that begins it.
    inside: Dict[int, Tuple[Condition, ...]] = {}
    for it in found:
        line, depth = number_in(it["line"]), number_in(it["depth"])
        outer = inside[number_in(it["branch"])] if "branch" in it else ()
        if it.get("kind") == "branch":
            branch, first = Line(line, text_in(it["text"])), number_in(it["first"])
            inside[line] = (*outer, Condition(branch, branch if first == line else inside[first][-1].first))
        else:
            yield it, {"file": text_in(it["file"]), "line": line, "depth": depth, "conditions": outer}


def assignment(it: Members, place: Dict[str, Any], counts: Counter[str]) -> Assignment:
    """An object of `vars`, below so many assignments of each name."""
    counts[text_in(it["name"])] += "targets" not in it
    return Assignment(
        **place,
        modifiers=texts_in(it["modifiers"]),
        name=text_in(it["name"]),
        operator=one_of(OPERATORS, it["operator"]),
        value=text_in(it["value"]),
        targets=texts_in(it["targets"]) if "targets" in it else None,
        separator=one_of(SEPARATORS, it["separator"]) if "separator" in it else None,
        nth=counts[text_in(it["name"])] if "targets" not in it else None,
    )


def rule(it: Members, place: Dict[str, Any], counts: Counter[str]) -> Rule:
    """An object of `rules`, below so many rules for each target."""
    targets = texts_in(it["targets"])
    counts.update({*targets})
    return Rule(
        **place,
        targets=targets,
        separator=one_of(SEPARATORS, it["separator"]),
        prerequisites=texts_in(it["prerequisites"]),
        order_only=texts_in(it["order_only"]),
        pattern=text_in(it["pattern"]) if "pattern" in it else None,
        inline_recipe=text_in(it["inline_recipe"]) if "inline_recipe" in it else None,
        nth=counts[targets[0]],
    )


def with_blocks(command: str, below: Iterator[str]) -> str:
    """A command with the lines of its blocks, which are next in an answer."""
    lines = [command]
    for end in block_words(command):
        for line in below:
            lines.append(line)
            if line == end:
                break
        else:
            raise ValueError(f"no line below {command!r} is {end}")
    return "\n".join(lines)


def step(line: str, below: Iterator[str]) -> Step:
    """A line of `history`, with the lines of blocks below it."""
    word, _, text = line.partition(" ")
    kind = one_of(KINDS, word)
    if not text:
        raise ValueError(f"{kind} stands alone")
    if text != "begin" and not text.startswith("begin; "):
        return Step(kind, (with_blocks(text, below),), False)
    commands = [each.strip(" ") for each in COMMAND.findall(text)]
    commands = commands[1:] if kind == "open" else commands[1:-1]
    return Step(kind, tuple(with_blocks(each, below) for each in commands), True)


# ---- whole answers


def nothing(found: List[Members]) -> None:
    """The answer to a command: none."""
    if found:
        raise ValueError("a command has no answer")


def text(found: List[Members]) -> str:
    """A text by its lines, of which the last may have no line feed."""
    return "".join(text_in(it["text"]) + ("" if "is_open" in it else "\n") for it in found)


def assignments(found: List[Members]) -> List[Assignment]:
    """The answer to `vars`."""
    counts: Counter[str] = Counter()
    return [assignment(*it, counts) for it in placed(found)]


def rules(found: List[Members]) -> List[Rule]:
    """The answer to `rules`."""
    counts: Counter[str] = Counter()
    return [rule(*it, counts) for it in placed(found)]


def rules_for(found: List[Members]) -> List[Rule]:
    """The answer to `rules` of one target."""
    return [replace(it, nth=nth) for nth, it in enumerate(rules(found), 1)]


def recipe_line(it: Members, place: Dict[str, Any], of_rule: Rule) -> RecipeLine:
    """An object of `recipes` on a recipe line of a rule."""
    number, text = number_in(it["number"]), text_in(it["text"])
    return RecipeLine(**place, targets=of_rule.targets, number=number, text=text, nth=of_rule.nth)


def recipe_lines(found: List[Members], of_rules: List[Rule]) -> List[RecipeLine]:
    """The answer to `recipes`, over a makefile with these rules."""
    by_line = {it.line: it for it in of_rules}
    return [recipe_line(it, place, by_line[it["rule"]]) for it, place in placed(found) if "rule" in it]


def steps(found: List[Members]) -> List[Step]:
    """The answer to `history`."""
    lines = iter([text_in(it["text"]) for it in found])
    return [step(it, lines) for it in lines]


def unread_lines(it: Members) -> List[str]:
    """What `mkedit check` prints for an object: a line, or one for each kind of thing that is open at the end."""
    if it["kind"] != "end":
        return [f"{number_in(it['line'])}: {text_in(it['kind'])}\n"]
    counts = {each: number_in(it[each]) for each in ("conditionals", "defines")}
    return [f"end: {each} {count}\n" for each, count in counts.items() if count]


def check_text(found: List[Members]) -> str:
    """What `mkedit check` prints without JSON."""
    return "".join(line for it in found if it["kind"] != "branch" for line in unread_lines(it))


def caveats_text(found: List[Members]) -> str:
    """What `mkedit caveats` prints without JSON."""
    told = (it for it in found if it["kind"] != "branch")
    return "".join(f"{number_in(it['line'])}: {text_in(it['sentence'])}\n" for it in told)
