"""Where make is known to read otherwise: groups of makefiles, each told by a test on the makefile.

The profile in which mkedit reads a makefile is fixed, and make has corners where it reads otherwise. A
difference between both is no finding where the makefile has such a corner. Each test is as
narrow as it can be made from the lines alone, so that a corner elsewhere does not hide what is new.
"""

import re
from typing import NamedTuple

from tests.lib import reading

from .expected import Expected, items
from .values import cut_units

SPACES = b" \t\f\v\r"
CONDITIONAL_WORDS = (*reading.CONDITIONALS, b"else", b"endif")
KEEPING = ("Recipe", "Blank", "Comment", "If", "Else", "Endif")
SET_BY_POSIX = re.compile(
    rb"(?<![\w.-])(?:CC|CFLAGS|FC|FFLAGS|ARFLAGS|SCCSGETFLAGS|\.SHELLFLAGS)(?![\w.-])"
)


class Row(NamedTuple):
    """A logical line: its class and parts, its bytes without line end, and how make comes upon it."""

    kind: str
    parts: tuple
    raw: bytes
    is_led: bool
    is_live: bool
    conditionals: int

    def words(self):
        """The words of the line as make finds them: without spaces of any kind or a byte order mark."""
        text = self.raw[1:] if self.is_led else self.raw
        return b"".join(cut_units(text)).lstrip(SPACES + b"\xef\xbb\xbf").split()


def rows_of(text):
    """The lines of a makefile."""
    lines, _ = reading.read(text)
    live = Expected(items(text)).live
    raws = [reading.without_line_end(raw) for _, raw in reading.logical_lines(text)]
    return [
        Row(it.kind, it.parts, raw, raw[:1] == it.context.prefix, is_live, it.context.conditionals)
        for it, raw, is_live in zip(lines, raws, live)
    ]


def a_line_is_blank_for_make_alone(rows):
    """A line of form feeds, vertical tabs or stray CRs, perhaps with a comment, is Opaque here."""
    return any(row.kind == "Opaque" and not row.words() for row in rows)


def a_branch_is_not_taken_before_a_led_line(rows):
    """What ends or begins a recipe stands in a branch not taken, and led lines follow it."""
    is_open = False
    for row in rows:
        if row.is_led and is_open:
            return True
        if row.kind not in KEEPING:
            is_open = not row.is_live or is_open and row.conditionals > 0
    return False


def an_unread_line_opens_a_define(rows):
    """A line that is no DefineHead here opens a define for make, or one that is does not."""
    for row in rows:
        words = row.words()
        while words and words[0] in reading.MODIFIERS:
            words = words[1:]
        is_head = words[:1] == [b"define"]
        if is_head and row.kind in ("Opaque", "Recipe") or row.kind == "DefineHead" and b"\n" in row.raw:
            return True
    return False


def an_assignment_is_not_read(rows):
    """An Opaque line, or an `unexport`, is an assignment for make."""
    for row in rows:
        text = b" ".join(row.words())
        if row.kind == "Directive" and text.startswith(b"unexport "):
            text = text[len(b"unexport ") :]
        elif row.kind != "Opaque":
            continue
        if re.match(rb"[^:=]*[^:=\s][^:=]*(?::{0,3}=)", text):
            return True
    return False


def the_prefix_is_set_unread(rows):
    """The recipe prefix is set through a reference, in a conditional, by a define or with `+=`."""
    for row in rows:
        if row.kind == "DefineHead" and b".RECIPEPREFIX" in row.raw:
            return True
        if row.kind != "Assign":
            continue
        modifiers, name, operator, value = row.parts
        is_plain = not modifiers and not row.conditionals and operator in (b"=", b":=", b"::=")
        if name == b".RECIPEPREFIX" and (not is_plain or value[:1] == b"$"):
            return True
        if b"$" in name and any(b".RECIPEPREFIX" in it.raw for it in rows):
            return True
    return False


def backslashes_stand_before_a_hash(rows):
    """Several backslashes, or a `$` and one, stand directly before a `#`."""
    read = (row.raw for row in rows if row.kind not in ("Recipe", "Body"))
    return any(re.search(rb"(?:\\|\$)\\#", it) for it in read)


def rule_words(row):
    """The targets and prerequisites of a line that has them."""
    if row.kind == "Header":
        return (*row.parts[0], *row.parts[3], *row.parts[4])
    return row.parts[0] if row.kind == "TargetAssign" else ()


def an_archive_has_several_members(rows):
    """`lib(a b)` is two words here, and two members for make."""
    return any(it.count(b"(") != it.count(b")") for row in rows for it in rule_words(row))


def a_name_begins_with_dot_slash(rows):
    """`./n` and `n` are one target for make."""
    return any(it.startswith(b"./") for row in rows for it in rule_words(row))


def a_define_in_a_branch_not_taken_is_nested(rows):
    """In a branch not taken the first `endef` ends a define for make, also that of an inner one."""
    bodies = (row for row in rows if row.kind == "Body" and not row.is_live)
    return any(row.words()[:1] in ([b"define"], [b"endef"]) for row in bodies)


def a_first_prerequisite_is_define(rows):
    """make reads `t: define` and `t: undefine` as an assignment for t, also after modifiers, and stops."""
    for row in rows:
        words = [*row.parts[3], *row.parts[4]] if row.kind == "Header" and not row.parts[2] else []
        while words and words[0] in reading.MODIFIERS:
            words = words[1:]
        if words[:1] in ([b"define"], [b"undefine"]):
            return True
    return False


def a_led_line_is_a_conditional(rows):
    """A led `else`, `endif` or `ifdef` counts for make in a branch not taken, or without a rule."""
    led = (row for row in rows if row.is_led and row.kind in ("Recipe", "Opaque"))
    return any((row.words() or [b""])[0] in CONDITIONAL_WORDS for row in led)


def a_name_has_an_escaped_hash(rows):
    r"""The name of a variable, or a word of a rule, has a `\#`."""
    for row in rows:
        if row.kind == "Assign" and rb"\#" in row.parts[1]:
            return True
        if row.kind in ("Rough", "Opaque", "TargetAssign") and rb"\#" in row.raw.partition(b"=")[0]:
            return True
    return False


def a_value_for_targets_has_a_semicolon(rows):
    r"""In an assignment for targets make begins no comment after a `;`, and reads `\;` as `;`."""
    return any(row.kind == "TargetAssign" and b";" in row.raw for row in rows)


def a_name_has_a_backslash(rows):
    r"""A backslash at the end of a name takes the operator's colon or a blank with it; not for make."""
    for row in rows:
        if row.kind in ("Assign", "TargetAssign") and b"\\" in row.parts[-3]:
            return True
        if row.kind == "Rough" and re.search(rb":.*\\[ \t]*[?:]?=", row.raw):
            return True
    return False


def an_unread_line_is_a_rule(rows):
    """An Opaque line with a `:` in an unclosed reference or after a backslash is a rule for make."""
    return any(row.kind == "Opaque" and b":" in row.raw for row in rows)


def a_form_feed_stands_in_a_line(rows):
    """A form feed or a vertical tab is a blank for make: before a value, between words, in a name."""
    return any(row.kind != "Recipe" and re.search(rb"[\f\v]", row.raw) for row in rows)


def a_line_with_a_stray_byte_is_not_read(rows):
    """A line with a stray CR or a bad fold is Opaque here; make reads it."""
    return any(row.kind == "Opaque" and reading.is_unreadable(row.raw) for row in rows)


def the_last_line_ends_in_a_backslash(rows):
    """Where nothing follows the last line's fold, its backslash is a byte here, and none for make."""
    return bool(rows) and len(re.search(rb"\\*\Z", rows[-1].raw).group()) % 2 == 1


def has_target(rows, name):
    """Whether a name is a target of a rule."""
    return any(row.kind == "Header" and name in row.parts[0] for row in rows)


def posix_keeps_blanks_at_a_fold(rows):
    """Where `.POSIX` is a target, make keeps the blanks before a fold: in values and conditions."""
    kinds = ("Assign", "TargetAssign", "Body", "If", "Else")
    return has_target(rows, b".POSIX") and any(it.kind in kinds and b"\n" in it.raw for it in rows)


def posix_sets_a_variable(rows):
    """Where `.POSIX` is a target, make sets CC and others, which a line refers to or adds to."""
    for row in rows if has_target(rows, b".POSIX") else ():
        is_plain = row.kind == "Assign" and row.parts[2] in (b"=", b":=", b"::=")
        if row.kind != "Recipe" and SET_BY_POSIX.search(row.parts[3] if is_plain else row.raw):
            return True
    return False


def prerequisites_are_expanded_twice(rows):
    """Where `.SECONDEXPANSION` is a target, make expands a `$$` of prerequisites once more."""
    is_twice = has_target(rows, b".SECONDEXPANSION")
    return is_twice and any(row.kind != "Recipe" and b"$$" in row.raw for row in rows)


def a_byte_order_mark_stands_first(rows):
    """make passes over a byte order mark before the first line; here it belongs to the first word."""
    return bool(rows) and rows[0].raw.startswith(b"\xef\xbb\xbf")


GROUPS = (
    a_line_is_blank_for_make_alone,
    a_branch_is_not_taken_before_a_led_line,
    an_unread_line_opens_a_define,
    an_assignment_is_not_read,
    the_prefix_is_set_unread,
    backslashes_stand_before_a_hash,
    a_define_in_a_branch_not_taken_is_nested,
    an_archive_has_several_members,
    a_name_begins_with_dot_slash,
    a_first_prerequisite_is_define,
    a_led_line_is_a_conditional,
    a_name_has_an_escaped_hash,
    a_value_for_targets_has_a_semicolon,
    a_name_has_a_backslash,
    an_unread_line_is_a_rule,
    a_form_feed_stands_in_a_line,
    a_line_with_a_stray_byte_is_not_read,
    the_last_line_ends_in_a_backslash,
    posix_keeps_blanks_at_a_fold,
    posix_sets_a_variable,
    prerequisites_are_expanded_twice,
    a_byte_order_mark_stands_first,
)


def group_of(texts):
    """The name of the first group that one of the makefiles is in, or None."""
    for test in GROUPS:
        if any(test(rows_of(text)) for text in texts):
            return test.__name__
    return None
