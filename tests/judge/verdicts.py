"""What the judge finds of one makefile, and of one edit of it.

A makefile is judged by comparing make's data base with what the reading of mkedit lets expect. An
accepted edit is judged by comparing make's data base after it with the same of the items with the
edit's stated change, and with the data base before: nothing else may differ.
"""

import itertools
import re
from typing import NamedTuple

from tests.lib import reading
from tests.lib.tables import ESCAPES

from . import groups, stated
from .database import is_safe
from .expected import Expected, items, known_keys
from .values import UNKNOWN

# The kinds of a verdict. EQUAL: make's data base differs in exactly what the edit is about, as expected.
# FOLLOWS: it differs, as expected, also in what has come of that by references. NOT_FOLLOWED: it differs
# also in what may have come of that by functions and the like, which are not followed here.
EQUAL, FOLLOWS, NOT_FOLLOWED = "equal", "follows", "not followed"
GROUP, FINDING = "group", "FINDING"
REFUSED, SKIPPED = "refused", "skipped"

# What make says where it stops after an edit that mkedit has made as it says.
NOT_ASKED = (
    "both : and :: entries",
    "mixed implicit and",
    "grouped targets must provide a recipe",
    "missing target pattern",
    "multiple target patterns",
    "target pattern contains no '%'",
    "references itself",
    "empty variable name",
)
# What it says of a line that is not read inside.
UNREAD_LINES = ("missing separator", "recipe commences before first target")
# What it says of a reference from which a text was taken, or in which another was put.
CUT_REFERENCES = ("unterminated", "insufficient number of arguments")


class Verdict(NamedTuple):
    """A kind, and what it is about: a group, a refusal, why it was skipped, or what differs."""

    kind: str
    about: str = ""
    compared: int = 0


class Judge:
    """The program and GNU make, with a room for the program's files."""

    def __init__(self, room, make):
        self.room = room
        self.make = make

    def of_makefile(self, text):
        """The verdict on the reading of a makefile, and its data base."""
        if not is_safe(text):
            return Verdict(SKIPPED, "not safe to give to make"), None
        before = self.make.database(text)
        if before.fault:
            return Verdict(SKIPPED, "make stops"), None
        self.room.write("Makefile", text)
        for query in ("vars", "rules"):
            wanted = reading.QUERIES[query](text)
            got = self.room.run(query, "Makefile").stdout
            if got != wanted:
                return Verdict(FINDING, f"mkedit {query} prints {got}, wanted {wanted}"), before
        expected = Expected(items(text))
        compared = len(list(known_keys(expected, before)))
        wrong = known_differences(expected, before)
        verdict = excused_or_found([text], wrong) if wrong else Verdict(EQUAL)
        return verdict._replace(compared=compared), before

    def of_edit(self, text, before, edit):
        """The verdict on an edit of a makefile whose data base is known."""
        self.room.write("Makefile", text)
        self.room.write("script", stated.line_of(edit) + b"\n")
        got = self.room.run("edit", "script", "Makefile")
        if got.status == 1:
            return Verdict(REFUSED, got.stderr.decode().split()[3])
        if got.status:
            return Verdict(FINDING, f"mkedit ends with {got}")
        if not is_safe(got.stdout):
            return Verdict(SKIPPED, "not safe to give to make")
        after = self.make.database(got.stdout)
        if after.fault:
            return self.stopped(text, got.stdout, edit, after.fault)
        return self.compared(text, got.stdout, edit, before, after)

    @staticmethod
    def stopped(text, edited, edit, fault):
        """The verdict on an edit after which make stops, or warns that it takes a rule for another."""
        if edit[0] in stated.OF_LINES:
            is_unread = any(it.kind == "Opaque" for it in stated.after(items(text), edit))
        else:
            is_unread = edit[0] in stated.OF_VARIABLES and depends(text, stated.edited_names(items(text), edit))
        is_cut = edit[0].endswith("subst") and any(it in fault for it in CUT_REFERENCES)
        is_stop = any(it in fault for it in UNREAD_LINES)
        if any(it in fault for it in NOT_ASKED) or is_unread and is_stop or is_cut:
            return Verdict(GROUP, "make_stops_at_what_mkedit_does_not_ask")
        return excused_or_found([text, edited], [f"make stops: {fault}"])

    def compared(self, text, edited, edit, before, after):
        """The verdict on an edit after which make does not stop."""
        of = items(text)
        first, then = Expected(of), Expected(stated.after(of, edit))
        known = list(known_keys(then, after))
        old = set(known_differences(first, before))
        wrong = [it for it in known_differences(then, after) if it not in old]
        about = stated.touched(of, edit, then, before)
        keys = before.keys() | after.keys()
        is_known = all(then.content(key) != UNKNOWN for key in about & keys)
        kind = EQUAL if is_known else NOT_FOLLOWED
        for key in keys:
            if key in about or before.content(key) == after.content(key):
                continue
            why = why_changed(key, first, then, text + edited, edit, of)
            if why:
                kind = NOT_FOLLOWED if NOT_FOLLOWED in (kind, why) else why
            else:
                contents = before.content(key), after.content(key)
                wrong.append("not what was edited: " + difference(key, *contents))
        if wrong and puts_blanks_below_a_fold(edited, edit):
            return Verdict(GROUP, "make_takes_blanks_below_a_fold_in")
        if wrong:
            return excused_or_found([text, edited], wrong)
        return Verdict(kind, "", len(known))


def puts_blanks_below_a_fold(edited, edit):
    """Whether an edit puts blanks in the place of a text, and blanks alone stand then in the last line of a value."""
    puts_blanks = edit[0] in ("subst", "all subst", "values-subst") and not edit[-1].strip(b" \t")
    return puts_blanks and re.search(rb"\\\r?\n[ \t]*(?:#.*)?(?:\r?\n|\Z)", edited) is not None


def known_differences(expected, database):
    """How a data base differs from what is expected."""
    return [difference(*it) for it in known_keys(expected, database) if it[1] != it[2]]


def why_changed(key, first, then, texts, edit, of):
    """Why a key may change that the edit is not about: FOLLOWS, NOT_FOLLOWED, or None if it may not."""
    if UNKNOWN not in (first.content(key), then.content(key)):
        return FOLLOWS if first.content(key) != then.content(key) else None
    if edit[0] in stated.OF_LINES:
        return NOT_FOLLOWED
    if edit[0] in stated.OF_VARIABLES:
        names = stated.edited_names(of, edit)
        is_for_target = key[0] == "target_variables" and key[1][1] in names
        return NOT_FOLLOWED if is_for_target or depends(texts, names) else None
    if edit[0] == "recipes-subst" and any(it.kind == "Rough" for it in of):
        return NOT_FOLLOWED  # that line is a rule for make, and what it has is not known here
    targets = [target for it in stated.edited_rules(of, edit) for target in it]
    is_of_suffixes = key[0] == "patterns" and (first.has_suffixes or then.has_suffixes)
    is_free = is_of_suffixes or any(it == b".PHONY" or b"$" in it for it in targets)
    return NOT_FOLLOWED if is_free else None


def excused_or_found(texts, wrong):
    """The verdict where something differs: a group that a makefile is in, or a finding."""
    group = groups.group_of(texts)
    return Verdict(GROUP, group) if group else Verdict(FINDING, "; ".join(wrong))


def difference(key, wanted, got):
    """Says how the content of a key differs."""
    section, name = key
    return f"{section[:-1].replace('_', ' ')} {name}: make has {got}, expected {wanted}"


def depends(text, names):
    """Whether the makefile refers to one of these variables, or to one whose name is made of parts."""
    end = rb"(?![A-Za-z0-9_.-])"
    for name in (re.escape(it.encode("latin-1")) for it in names):
        if re.search(rb"\$[({]?" + name + rb"|n?def\s+" + name + end, text):
            return True
    return bool(re.search(rb"\$[({][^(){}]*\$", text))


def escaped(text):
    """Bytes as a table of tests/cases has them."""
    names = {value: name for name, value in ESCAPES.items()}
    pieces = (names.get(bytes([it])) or (chr(it) if 32 <= it < 127 else f"\\x{it:02X}") for it in text)
    return "".join(pieces)


def shrunk(text, is_found):
    """The makefile with fewer lines, where the same is still found.

    Halves are left out, quarters and so on, then single lines, then pairs such as `ifdef` and `endif`.
    """
    lines = [raw for _, raw in reading.logical_lines(text)]
    size = max(1, len(lines) // 2)
    while size:
        at = 0
        while at < len(lines):
            fewer = lines[:at] + lines[at + size :]
            lines, at = (fewer, at) if is_found(b"".join(fewer)) else (lines, at + size)
        size //= 2
    for one, other in reversed(list(itertools.combinations(range(len(lines)), 2))):
        fewer = [line for at, line in enumerate(lines) if at not in (one, other)]
        if other < len(lines) and is_found(b"".join(fewer)):
            lines = fewer
    return b"".join(lines)


def is_finding(judge, text, edit):
    """Whether the makefile, or the edit of it, is a finding."""
    try:
        verdict, before = judge.of_makefile(text)
        if edit is None or before is None:
            return verdict.kind == FINDING
        return judge.of_edit(text, before, edit).kind == FINDING
    except (ValueError, LookupError):
        return False


def row(judge, name, text, edit):
    """A finding as a row: its name, the smallest makefile found, the script, and what differs."""
    text = shrunk(text, lambda it: is_finding(judge, it, edit))
    verdict, before = judge.of_makefile(text)
    if edit is not None:
        verdict = judge.of_edit(text, before, edit)
    script = escaped(stated.line_of(edit) + b"\n") if edit else ""
    return "\t".join((name, escaped(text), script, verdict.about))
