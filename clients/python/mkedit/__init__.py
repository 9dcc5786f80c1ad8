"""Edits makefiles through the program mkedit, and keeps every byte that no edit concerns.

    with mkedit.open("debian/rules") as makefile:
        makefile.set("CC", "clang")
        print(makefile.diff())
        makefile.write()

A text is a str. Bytes that are not UTF-8 stand in it as `surrogateescape` puts them, and go back as they
were.
"""

from .errors import BadReply, Ended, Error, Fault, Refused, TimedOut
from .found import Assignment, Condition, Found, Line, RecipeLine, Rule, Step
from .places import BOTTOM, TOP, Place, Site
from .places import after_last_var, after_line, after_rule, after_var, before_line, before_rule, before_var
from .session import Session, open
from .texts import assignments, edit
from .words import NewSeparator, Operator, PlaceWord, Separator, SiteWord

__version__ = "0.1.0"

__all__ = [
    "BOTTOM",
    "TOP",
    "Assignment",
    "BadReply",
    "Condition",
    "Ended",
    "Error",
    "Fault",
    "Found",
    "Line",
    "NewSeparator",
    "Operator",
    "Place",
    "PlaceWord",
    "RecipeLine",
    "Refused",
    "Rule",
    "Separator",
    "Session",
    "Site",
    "SiteWord",
    "Step",
    "TimedOut",
    "after_last_var",
    "after_line",
    "after_rule",
    "after_var",
    "assignments",
    "before_line",
    "before_rule",
    "before_var",
    "edit",
    "open",
]
