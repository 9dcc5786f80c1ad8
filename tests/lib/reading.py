"""A makefile read by Python, from docs/LANGUAGE.md alone, and the texts of the queries.

It shares no line with the program, and is written to be compared with it: so it is plain and slow.
tests/program/test_queries.py compares it with the readings of tests/cases/readings, and the program with it.
"""

import re
from functools import lru_cache
from typing import NamedTuple

BLANKS = b" \t"
FOLD = re.compile(rb"[ \t]*(?:\\\r?\n[ \t]*)+")
PHYSICAL_LINE = re.compile(rb"[^\n]*\n|[^\n]+")
OPERATORS = (b":::=", b"::=", b":=", b"?=", b"+=", b"!=", b"=")
CLOSING = {b"(": b")", b"{": b"}"}

MODIFIERS = (b"override", b"export", b"private")
CONDITIONALS = (b"ifeq", b"ifneq", b"ifdef", b"ifndef")
DIRECTIVES = (
    b"include -include sinclude export unexport undefine vpath load -load".split()
)
PREFIX_NAME = b".RECIPEPREFIX"
MAKE_WORD = re.compile(rb"[ \t\n\v\f\r\xef\xbb\xbf]*([^ \t\n\v\f\r]*)")
# The classes of lines that make may take for recipe lines where they begin with the recipe prefix.
NO_RECIPE = ("Opaque", "Assign", "DefineHead", "If", "Directive")
EMPTY_ABOVE = b"make may take this for a recipe line: an opaque line above is empty for make"
SKIPPED_ABOVE = b"make may take this for a recipe line: it may skip the conditional above"
OBEYED = b"make may obey this as a line of a conditional"
DEFINED = b"make may begin a define here"
UNFOUND = b"make may set a variable here that no edit finds"
PREFIX_SET = b"make may set the recipe prefix here"
ELSEWHERE = b"make may take nothing from this rule: another one has the recipe of its target"
# The most bytes of a makefile.
MOST_BYTES = 2**24


class Context(NamedTuple):
    """What a line is read in."""

    flag: str = "Off"
    defines: int = 0
    conditionals: int = 0
    prefix: bytes = b"\t"


class Line(NamedTuple):
    """A line as it was read: the number of its first physical line, its context, class, parts and bytes."""

    number: int
    context: Context
    kind: str
    parts: tuple
    raw: bytes


def line_end(raw):
    """The line end of a line."""
    return re.search(rb"(\r?\n)?\Z", raw).group()


def without_line_end(raw):
    return raw[: len(raw) - len(line_end(raw))]


def is_continued(physical):
    """Whether the text before the line end closes with an odd run of backslashes."""
    backslashes = re.search(rb"\\*\Z", without_line_end(physical)).group()
    return physical.endswith(b"\n") and len(backslashes) % 2 == 1


def logical_lines(text):
    """Each logical line with the number of its first physical line."""
    lines, start, held = [], 1, []
    for number, physical in enumerate(PHYSICAL_LINE.findall(text), 1):
        start = start if held else number
        held.append(physical)
        if not is_continued(physical):
            lines.append((start, b"".join(held)))
            held = []
    return lines + ([(start, b"".join(held))] if held else [])


def joined(raw):
    """The joined text of a line, and for each of its places the raw one, that of the end included."""
    body, text, places, at = without_line_end(raw), b"", [], 0
    while at < len(body):
        fold = FOLD.match(body, at)
        places.append(at)
        text += b" " if fold else body[at : at + 1]
        at = fold.end() if fold else at + 1
    return text, places + [len(body)]


def is_unreadable(raw):
    """Whether the line has a bad fold or a stray byte."""
    body = without_line_end(raw)
    has_bad_fold = any(body[: it.start()].endswith(b"\\") for it in FOLD.finditer(body))
    return has_bad_fold or re.search(rb"\0|\r(?!\n)", body) is not None


def reference_end(text, start):
    """The end of the reference that opens at this place, or None where it is not closed."""
    opening = text[start + 1 : start + 2]
    level = 0
    for at in range(start + 1, len(text)):
        byte = text[at : at + 1]
        level += (byte == opening) - (byte == CLOSING[opening])
        if level == 0:
            return at + 1
    return None


def units(text):
    """The units of a text."""
    found, at = [], 0
    while at < len(text):
        byte, following = text[at : at + 1], text[at + 1 : at + 2]
        length = 1
        if byte == b"$" and following in CLOSING:
            length = (reference_end(text, at) or len(text)) - at
        elif byte == b"$" and following:
            length = 2
        elif byte == b"\\" and following not in (b"", b"$"):
            length = 2
        found.append(text[at : at + length])
        at += length
    return found


def is_blank(unit):
    return unit in (b" ", b"\t")


def is_bad_dollar(unit):
    """Whether the unit is a lone `$`, one before a blank or a backslash, or an unclosed reference."""
    if unit[:1] != b"$":
        return False
    is_reference = unit[1:2] in CLOSING
    return unit[1:] in (b"", b" ", b"\t", b"\\") or (is_reference and reference_end(unit, 0) is None)


def words(of):
    """The words of some units, each as its units."""
    found, held = [], []
    for unit in [*of, b" "]:
        if not is_blank(unit):
            held.append(unit)
        elif held:
            found.append(held)
            held = []
    return found


def texts(of):
    """The words of some units as texts."""
    return tuple(b"".join(word) for word in words(of))


def before(of, *stops):
    """The units before the first one of these."""
    ends = [at for at, unit in enumerate(of) if unit in stops]
    return of[: ends[0]] if ends else of


def trimmed(of):
    """The units without the blanks at both ends."""
    while of and is_blank(of[0]):
        of = of[1:]
    while of and is_blank(of[-1]):
        of = of[:-1]
    return of


def ends_name(of, at):
    """Whether the unit at this place ends the name of a variable."""
    if of[at] in (b"+", b"?", b"!"):
        return of[at + 1 : at + 2] == [b"="]
    return is_blank(of[at]) or of[at] in (b":", b"=", b";")


def definition(of):
    """Name, operator and value of a cut text, where it is a definition."""
    of = trimmed(of)
    end = next((at for at in range(len(of)) if ends_name(of, at)), len(of))
    name, rest = of[:end], of[end:]
    while rest and is_blank(rest[0]):
        rest = rest[1:]
    operators = (it for it in OPERATORS if rest[: len(it)] == [bytes([byte]) for byte in it])
    operator = next(operators, None)
    if not name or operator is None:
        return None
    value = trimmed(rest[len(operator) :])
    return b"".join(name), operator, b"".join(value)


def after_first_word(of):
    """The first word of some units, and the units after it."""
    of = trimmed(of)
    end = next((at for at, unit in enumerate(of) if is_blank(unit)), len(of))
    return b"".join(of[:end]), of[end:]


def assignment(of):
    """Modifiers, name, operator and value of a cut text, where it is an assignment."""
    found = definition(of)
    if found:
        return (), *found
    word, rest = after_first_word(of)
    inner = assignment(rest) if word in MODIFIERS else None
    return inner and ((word, *inner[0]), *inner[1:])


def keyword(of):
    """The first word, and the first word after any modifiers."""
    first, rest = after_first_word(of)
    word = first
    while word in MODIFIERS:
        word, rest = after_first_word(rest)
    return first, word


def separated(head):
    """Targets, separator and what follows it, as units, where the head has a unit `:`."""
    if b":" not in head:
        return None
    at = head.index(b":")
    is_grouped = at > 0 and head[at - 1] == b"&"
    is_double = head[at + 1 : at + 2] == [b":"]
    separator = b"&" * is_grouped + b":" + b":" * is_double
    return head[: at - is_grouped], separator, head[at + 1 + is_double :]


def is_rough(head, targets, separator, rest):
    """Whether the head holds something that is not read inside."""
    if any(unit[:1] == b"\\" or unit == b"=" or is_bad_dollar(unit) for unit in head):
        return True
    parts = split_at(rest, b":")
    if len(parts) > 2 or (len(parts) == 2 and separator != b":"):
        return True
    if len(parts) == 2 and len(words(parts[0])) != 1:
        return True
    bars = [word == [b"|"] for word in words(parts[-1])]
    return head.count(b"|") != bars.count(True) or bars.count(True) > 1


def split_at(of, stop):
    """The units between those that are `stop`."""
    parts = [[]]
    for unit in of:
        if unit == stop:
            parts.append([])
        else:
            parts[-1].append(unit)
    return parts


def header(head, inline):
    """The parts of the line of a rule that is not Rough."""
    targets, separator, rest = separated(head)
    *pattern, needs = split_at(rest, b":")
    normal, *order = split_at_bar(texts(needs))
    pattern = texts(pattern[0])[0] if pattern else None
    return texts(targets), separator, pattern, normal, order[0] if order else (), inline


def split_at_bar(needs):
    """The words before and after the word `|`."""
    if b"|" not in needs:
        return (needs,)
    at = needs.index(b"|")
    return needs[:at], needs[at + 1 :]


def rule(raw, text, places):
    """The class and the parts of the line of a rule; None where it is none."""
    all_units = units(text)
    cut = before(all_units, b"#")
    head = before(all_units, b";", b"#")
    found = separated(head)
    if not found:
        return None
    targets, separator, rest = found
    after = cut[len(head) - len(rest) :]
    set_for = assignment(after) if separator in (b":", b"::") else None
    if set_for:
        return "TargetAssign", (texts(targets), separator, *set_for)
    if is_rough(head, targets, separator, rest):
        return "Rough", ()
    has_inline = all_units[len(head) : len(head) + 1] == [b";"]
    at = len(b"".join(head)) + 1
    inline = without_line_end(raw)[places[at] :] if has_inline else None
    return "Header", header(head, inline)


def is_prefix_led(raw, context):
    return raw[:1] == context.prefix


@lru_cache(maxsize=4096)
def class_of(raw, context):
    """The class of a line in its context, and its parts."""
    text, places = joined(raw)
    is_led = is_prefix_led(raw, context)
    if context.defines:
        word, _ = after_first_word(units(text))
        closes = not is_led and word == b"endef" and context.defines == 1
        return ("Endef", ()) if closes else ("Body", ())
    if is_led and context.flag != "Off":
        return ("Recipe", ()) if context.flag == "Rule" else ("Opaque", ())
    all_units = units(text)
    cut = before(all_units, b"#")
    if all(map(is_blank, cut)):
        return ("Blank" if len(cut) == len(all_units) else "Comment", ())
    if is_unreadable(raw):
        return "Opaque", ()
    assigned = assignment(cut)
    if assigned:
        return "Assign", assigned
    first, word = keyword(cut)
    if word == b"define":
        return "DefineHead", ()
    if first in CONDITIONALS:
        return "If", ()
    if first in (b"else", b"endif") and context.conditionals:
        return first.decode().capitalize(), ()
    if first in DIRECTIVES or word == b"undefine":
        return "Directive", ()
    return (None if is_led else rule(raw, text, places)) or ("Opaque", ())


def prefix_after(context, kind, parts):
    """The recipe prefix below a line."""
    if kind != "Assign" or parts[1] != PREFIX_NAME or parts[0] or context.conditionals:
        return context.prefix
    value = parts[3]
    if parts[2] not in (b"=", b":=", b"::="):
        return context.prefix
    if not value:
        return b"\t"
    is_prefix = 0x21 <= value[0] <= 0x7E and value[0] not in b"$\\"
    return value[:1] if is_prefix else context.prefix


def context_after(context, raw, kind, parts):
    """The context of the line below a line."""
    flag, defines, conditionals, _ = context
    if kind in ("Header", "Rough", "Recipe"):
        flag = "Rule"
    elif kind == "Opaque":
        flag = "Unknown"
    elif kind not in ("Blank", "Comment", "If", "Else", "Endif"):
        flag = "Off"
    if kind in ("DefineHead", "Endef"):
        defines = int(kind == "DefineHead")
    elif kind == "Body" and not is_prefix_led(raw, context):
        word, _ = after_first_word(units(joined(raw)[0]))
        defines += (word == b"define") - (word == b"endef")
    conditionals += (kind == "If") - (kind == "Endif")
    return Context(flag, defines, conditionals, prefix_after(context, kind, parts))


@lru_cache(maxsize=64)
def read(text, context=Context()):
    """The lines of a makefile, or of lines that stand in a context, and the context after them."""
    lines = []
    for number, raw in logical_lines(text):
        kind, parts = class_of(raw, context)
        body = without_line_end(raw)
        if kind == "Recipe":
            parts = (body[1:],)
        elif kind not in ("Assign", "TargetAssign", "Header"):
            parts = (body,)
        lines.append(Line(number, context, kind, parts, raw))
        context = context_after(context, raw, kind, parts)
    return lines, context


def reading(text):
    """The items of a makefile, in the form that tests/cases/readings has."""
    lines, _ = read(text)
    return tuple((it.kind, *it.parts) for it in lines if it.kind not in ("Blank", "Comment"))


def spaced(before_it, of):
    return b"".join(before_it + it for it in of)


def place(line):
    """The beginning of a line of `vars`, `rules` or `recipes`."""
    return b"%d:%d: " % (line.number, line.context.conditionals)


def vars_text(text, only=None):
    """What `mkedit vars` prints, or with `--name` what it prints of one name."""
    out = b""
    for line in read(text)[0]:
        if line.kind not in ("Assign", "TargetAssign"):
            continue
        *of_rule, modifiers, name, operator, value = line.parts
        if only not in (None, name):
            continue
        out += place(line)
        if of_rule:
            out += b" ".join(of_rule[0]) + of_rule[1] + b" "
        out += b"".join(it + b" " for it in modifiers) + name + b" " + operator
        out += (b" " + value if value else b"") + b"\n"
    return out


def recipe_lines(lines):
    """How many recipe lines the rule has after whose line these follow."""
    count, flag = 0, "Rule"
    for line in lines:
        if line.context.flag != "Rule" or line.kind in ("Header", "Rough"):
            break
        count += line.kind == "Recipe"
    return count


def is_rule(line, only):
    """Whether a line is that of a rule whose words are read, and of one target where there is one."""
    return line.kind == "Header" and (only is None or only in line.parts[0])


def rules_text(text, only=None):
    """What `mkedit rules` prints, or with `--target` what it prints of one target."""
    lines, out = read(text)[0], b""
    for at, line in enumerate(lines):
        if not is_rule(line, only):
            continue
        targets, separator, pattern, normal, order, inline = line.parts
        out += place(line) + b" ".join(targets) + separator
        out += b"" if pattern is None else b" " + pattern + b":"
        out += spaced(b" ", normal) + (b" |" + spaced(b" ", order) if order else b"")
        out += b" [%d]\n" % (recipe_lines(lines[at + 1 :]) + (inline is not None))
    return out


def recipes_text(text, only=None):
    """What `mkedit recipes` prints, or with `--target` what it prints of one target."""
    lines, out = read(text)[0], b""
    for at, line in enumerate(lines):
        if not is_rule(line, only):
            continue
        targets, separator, number = *line.parts[:2], 0
        for below in lines[at + 1 :]:
            if below.context.flag != "Rule" or below.kind in ("Header", "Rough"):
                break
            if below.kind == "Recipe":
                number += 1
                if number == 1:
                    out += place(line) + b" ".join(targets) + separator + b"\n"
                out += place(below) + b"[%d] " % number + joined(below.raw)[0][1:] + b"\n"
    return out


def check_text(text, has_texts=False):
    """What `mkedit check` prints; for a person it has the texts of the lines."""
    lines, end = read(text)
    out = b""
    for line in lines:
        if line.kind in ("Rough", "Opaque"):
            out += b"%d: %s" % (line.number, line.kind.lower().encode())
            out += b": " + joined(line.raw)[0] + b"\n" if has_texts else b"\n"
    out += b"end: conditionals %d\n" % end.conditionals if end.conditionals else b""
    return out + (b"end: defines %d\n" % end.defines if end.defines else b"")


def flag_after(lines):
    """The flag after some lines."""
    flag = "Off"
    for raw, context, kind, parts in lines:
        flag = context_after(context._replace(flag=flag), raw, kind, parts).flag
    return flag


def make_word(raw):
    """The first word of a line, as make finds it."""
    return MAKE_WORD.match(joined(raw)[0])[1]


def is_empty_for_make(raw, kind):
    return kind == "Opaque" and make_word(raw)[:1] in (b"", b"#")


def recipe_caveat(raw, context, kind, flag_for_make, flag_outside):
    """What is said of a line that make may take for a recipe line."""
    if not is_prefix_led(raw, context):
        return None
    if kind == "Opaque" and flag_for_make == "Rule":
        return EMPTY_ABOVE
    is_outside = context.conditionals == 0
    return SKIPPED_ABOVE if kind in NO_RECIPE and is_outside and flag_outside == "Rule" else None


def word_caveat(raw, context, kind, flag_outside):
    """What is said of a line by its first word."""
    word = make_word(raw)
    may_be_skipped = kind == "Recipe" and context.conditionals > 0 and flag_outside != "Rule"
    if kind == "Opaque" and word == b"define":
        return DEFINED
    is_conditional = word in (*CONDITIONALS, b"else", b"endif")
    return OBEYED if is_conditional and (kind == "Opaque" or may_be_skipped) else None


def assignment_caveat(raw, kind, parts):
    """What is said of an assignment."""
    if kind == "Opaque":
        return UNFOUND if class_of(raw, Context())[0] == "Assign" else None
    if kind != "Assign":
        return None
    name, value = parts[1], parts[3]
    if name[:1] in (b"\f", b"\v"):
        return UNFOUND
    is_reference = name[:1] == b"$" and len(units(name)) == 1
    return PREFIX_SET if is_reference and len(value) == 1 else None


def is_plain_target(target):
    """Whether a target is none of a special rule, a suffix rule or a pattern rule, and has no reference."""
    is_dotted = target.startswith(b".") and b"/" not in target
    return not is_dotted and not set(target) & set(b"$%")


def bare_rules(text):
    """The numbers of the lines of bare rules whose target has a recipe in another rule.

    As many bare rules are looked at as the largest makefile has room for texts like this one.
    """
    lines = read(text)[0]
    rules = [(line, recipe_lines(lines[at + 1 :])) for at, line in enumerate(lines) if is_rule(line, None)]
    made = {target for it, count in rules if count or it.parts[-1] is not None for target in it.parts[0]}
    alone = (b":", None, (), (), None)
    bare = [it for it, count in rules if count == 0 and it.parts[1:] == alone and len(it.parts[0]) == 1]
    plain = [it for it in bare if is_plain_target(it.parts[0][0])]
    looks = MOST_BYTES // max(len(text), 1)
    return {it.number for it in plain[:looks] if it.parts[0][0] in made}


def caveats_text(text):
    """What `mkedit caveats` prints."""
    for_make, outside, context, out = [], [], Context(), b""
    elsewhere = bare_rules(text)
    for number, raw in logical_lines(text):
        kind, parts = class_of(raw, context)
        flag_outside = flag_after(outside)
        said = (
            recipe_caveat(raw, context, kind, flag_after(for_make), flag_outside)
            or word_caveat(raw, context, kind, flag_outside)
            or assignment_caveat(raw, kind, parts)
            or (ELSEWHERE if number in elsewhere else None)
        )
        out += b"%d: %s\n" % (number, said) if said else b""
        line = raw, context, kind, parts
        if not (is_prefix_led(raw, context) and kind in NO_RECIPE):
            for_make += [] if is_empty_for_make(raw, kind) else [line]
            outside += [line] if context.conditionals == 0 else []
        context = context_after(context, raw, kind, parts)
    return out


QUERIES = {"vars": vars_text, "rules": rules_text, "recipes": recipes_text, "check": check_text, "caveats": caveats_text}


def names(text):
    """The names of all assignments of a makefile."""
    return {it.parts[-3] for it in read(text)[0] if it.kind in ("Assign", "TargetAssign")}


def targets(text):
    """The targets of all rules of a makefile whose words are read."""
    return {target for line in read(text)[0] if is_rule(line, None) for target in line.parts[0]}


# What a query may be asked for alone, where it may be.
CHOICES = {"vars": names, "rules": targets, "recipes": targets}
