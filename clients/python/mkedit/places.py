"""Where a new line goes."""

from dataclasses import dataclass
from typing import Optional

from .words import PLACE_WORDS, SITE_WORDS, PlaceWord, SiteWord, one_of

# The words of the places that are no line's, those that have no number, and those that a line or several tell
# by their text.
ENDS = ("top", "bottom")
SINGLE = (*ENDS, "after-last-var")
LINE_WORDS = ("before-line", "after-line")


@dataclass(frozen=True)
class Site:
    """A place of `insert` as the command has it, with what tells a line and the number of that, where it means one.

    This is the name of a variable, a target, or the text of the line.
    """

    word: SiteWord
    name: Optional[str] = None
    nth: Optional[int] = None

    def __post_init__(self) -> None:
        if one_of(SITE_WORDS, self.word) not in ENDS and self.name is None:
            raise TypeError(f"{self.word} needs a name")
        if self.word in ENDS and self.name is not None:
            raise ValueError(f"{self.word} has no name")
        if self.word in SINGLE and self.nth is not None:
            raise ValueError(f"{self.word} has no number")


@dataclass(frozen=True)
class Place(Site):
    """A place of `assign` and `rule`, which `insert` takes too."""

    word: PlaceWord

    def __post_init__(self) -> None:
        one_of(PLACE_WORDS, self.word)
        super().__post_init__()


# The end and the start of the file.
BOTTOM = Place("bottom")
TOP = Place("top")


def before_var(name: str, nth: Optional[int] = None) -> Place:
    """Before the line of the assignment of a name: of the only one, or of the nth, from 1."""
    return Place("before-var", name, nth)


def after_var(name: str, nth: Optional[int] = None) -> Place:
    """After that line."""
    return Place("after-var", name, nth)


def after_last_var(name: str) -> Place:
    """After the last assignment of a name."""
    return Place("after-last-var", name)


def before_rule(target: str, nth: Optional[int] = None) -> Place:
    """Before the line of the rule for a target: of the only one, or of the nth, from 1."""
    return Place("before-rule", target, nth)


def after_rule(target: str, nth: Optional[int] = None) -> Place:
    """After the recipe of that rule."""
    return Place("after-rule", target, nth)


def before_line(old: str, nth: Optional[int] = None) -> Site:
    """Before the line that is old: the only one, or the nth, from 1."""
    return Site("before-line", old, nth)


def after_line(old: str, nth: Optional[int] = None) -> Site:
    """After that line."""
    return Site("after-line", old, nth)
