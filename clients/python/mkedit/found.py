"""Assignments, rules, recipe lines and history of a makefile, as objects.

The fields have the names and the meaning of the members in docs/EDITS.md, "Lines of JSON"; but the conditions
are objects in place of the number of a branch, and a recipe line has the targets of its rule.
"""

from dataclasses import dataclass
from typing import Literal, NamedTuple, Optional, Tuple

from .words import Operator, Separator

StepKind = Literal["undo", "redo", "open"]


class Line(NamedTuple):
    """A line of a makefile: its number, from 1, and its text."""

    line: int
    text: str


@dataclass(frozen=True)
class Condition:
    """A conditional round a line: where the branch of that line begins, and where the conditional does."""

    branch: Line
    first: Line


@dataclass(frozen=True)
class Found:
    """Where something stands: the file, the number of the line, and the conditionals that are open there."""

    file: str
    line: int
    depth: int
    conditions: Tuple[Condition, ...]


@dataclass(frozen=True)
class Assignment(Found):
    """An assignment. One that is for targets has these, and the separator behind them.

    nth is the number by which edits mean it, from 1 among the assignments of its name; they mean none that is
    for targets.
    """

    modifiers: Tuple[str, ...]
    name: str
    operator: Operator
    value: str
    targets: Optional[Tuple[str, ...]] = None
    separator: Optional[Separator] = None
    nth: Optional[int] = None


@dataclass(frozen=True)
class Rule(Found):
    """A rule. pattern is that of a static pattern rule, and inline_recipe is what follows a `;`.

    nth is the number by which edits mean it, from 1 among the rules for the target that was asked for, or else
    for its first target.
    """

    targets: Tuple[str, ...]
    separator: Separator
    prerequisites: Tuple[str, ...]
    order_only: Tuple[str, ...]
    pattern: Optional[str] = None
    inline_recipe: Optional[str] = None
    nth: int = 1


@dataclass(frozen=True)
class RecipeLine(Found):
    """A recipe line: targets and nth are those of its rule, and `recipe_set` and the others take the number."""

    targets: Tuple[str, ...]
    number: int
    text: str
    nth: int = 1


class Step(NamedTuple):
    """An edit or a group that can be undone or redone, or the group that is open.

    kind is "undo", "redo" or "open". commands are the lines of its edits, as a script has them; those of a
    group stand without `begin` and `end`.
    """

    kind: StepKind
    commands: Tuple[str, ...]
    is_group: bool
