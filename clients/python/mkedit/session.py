"""A makefile that is open."""

import os
from contextlib import contextmanager
from types import TracebackType
from typing import ContextManager, Iterator, List, Optional, Type

from . import answers
from .errors import Error, put_behind
from .found import Assignment, RecipeLine, Rule, Step
from .places import LINE_WORDS, Place, Site
from .talk import PathName, Talk
from .words import MOST_OF_REQUEST, NEW_SEPARATORS, OPERATORS, NewSeparator, Operator
from .words import block, digits, field, one_of, word


class Session:
    """A makefile that is edited step by step. It changes on disk by `write` alone.

    Each edit raises `Refused` where docs/EDITS.md says so, and has changed nothing then. nth is the number,
    from 1, of the line that is meant among those of the same name or target; without it the edit means the
    only one. `Fault` is raised where the session cannot answer, and `Ended`, which is a `Fault`, where it
    has ended. Fields that no command can have raise ValueError or TypeError before anything is sent.

    Threads may share a session: each call is done whole before that of another thread begins. A group is
    one of the session, so it has the edits that other threads make meanwhile too. A call that an exception
    breaks off, such as KeyboardInterrupt, ends the session.
    """

    def __init__(
        self,
        path: PathName,
        depth: Optional[int] = None,
        program: str = "mkedit",
        new: bool = False,
        timeout: Optional[float] = None,
    ) -> None:
        self._talk = Talk(path, depth, program, new, timeout)

    def __enter__(self) -> "Session":
        return self

    def __exit__(
        self, kind: Optional[Type[BaseException]], fault: Optional[BaseException], trace: Optional[TracebackType]
    ) -> None:
        self.close()

    def close(self) -> None:
        """Ends the session, after the call of another thread if there is one. What is not written is lost."""
        self._talk.end()

    # ---- how commands and requests are sent

    def _do(self, word: str, *fields: str, nth: Optional[int] = None, before: str = "") -> None:
        first = ["nth", digits(nth)] if nth is not None else [before] if before else []
        self._talk.ask(answers.nothing, *first, word, *map(field, fields))

    def _put_in(self, word: str, place: Place, *fields: str) -> None:
        if not isinstance(place, Place):
            raise TypeError(f"a place is a Place, and not of type {type(place).__name__}")
        name = () if place.name is None else (place.name,)
        self._do(word, place.word, *name, *fields, nth=place.nth)

    def _exchange(self, words: List[str], *blocks: str, nth: Optional[int] = None) -> None:
        """Sends the command of an edit of whole lines, with the lines of these blocks below it."""
        below: List[str] = []
        first = ["nth", digits(nth)] if nth is not None else []
        fields = [block(it, below) for it in blocks]
        self._talk.ask(answers.nothing, *first, *words, *fields, below=below)

    def _told(self, *words: str) -> str:
        return self._talk.ask(answers.text, *words)

    # ---- variables

    def set(self, name: str, value: str, nth: Optional[int] = None) -> None:
        """Replaces the value of an assignment."""
        self._do("set", name, value, nth=nth)

    def set_if(self, name: str, old: str, value: str, nth: Optional[int] = None) -> None:
        """Replaces the value of the assignment that has the value old."""
        self._do("set-if", name, old, value, nth=nth)

    def append(self, name: str, value: str, nth: Optional[int] = None) -> None:
        """Appends a text to a value."""
        self._do("append", name, value, nth=nth)

    def add(self, name: str, word: str, nth: Optional[int] = None) -> None:
        """Appends a word to a value that does not have it yet."""
        self._do("add", name, word, nth=nth)

    def drop(self, name: str, word: str, nth: Optional[int] = None) -> None:
        """Removes a word from a value."""
        self._do("drop", name, word, nth=nth)

    def set_all(self, name: str, value: str) -> None:
        """Replaces the value of each assignment of a name."""
        self._do("set", name, value, before="all")

    def set_if_all(self, name: str, old: str, value: str) -> None:
        """Replaces the value of each assignment of a name that has the value old."""
        self._do("set-if", name, old, value, before="all")

    def append_all(self, name: str, value: str) -> None:
        """Appends a text to each value of a name."""
        self._do("append", name, value, before="all")

    def add_all(self, name: str, word: str) -> None:
        """Appends a word to each value of a name that does not have it yet."""
        self._do("add", name, word, before="all")

    def drop_all(self, name: str, word: str) -> None:
        """Removes a word from each value of a name."""
        self._do("drop", name, word, before="all")

    def prepend(self, name: str, value: str, nth: Optional[int] = None) -> None:
        """Puts a text before a value."""
        self._do("prepend", name, value, nth=nth)

    def replace(self, name: str, word: str, value: str, nth: Optional[int] = None) -> None:
        """Replaces a word of a value by a text."""
        self._do("replace", name, word, value, nth=nth)

    def add_before(self, name: str, word: str, new: str, nth: Optional[int] = None) -> None:
        """Puts a new word before another one of a value."""
        self._do("add-before", name, word, new, nth=nth)

    def add_after(self, name: str, word: str, new: str, nth: Optional[int] = None) -> None:
        """Puts a new word after another one of a value."""
        self._do("add-after", name, word, new, nth=nth)

    def subst(self, name: str, old: str, new: str, nth: Optional[int] = None) -> None:
        """Replaces each occurrence of a text in a value."""
        self._do("subst", name, old, new, nth=nth)

    def operator(self, name: str, operator: Operator, nth: Optional[int] = None) -> None:
        """Replaces the operator of an assignment."""
        self._do("operator", name, one_of(OPERATORS, operator), nth=nth)

    def prepend_all(self, name: str, value: str) -> None:
        """Puts a text before each value of a name."""
        self._do("prepend", name, value, before="all")

    def replace_all(self, name: str, word: str, value: str) -> None:
        """Replaces a word by a text in each value of a name that has it."""
        self._do("replace", name, word, value, before="all")

    def subst_all(self, name: str, old: str, new: str) -> None:
        """Replaces each occurrence of a text in the values of a name."""
        self._do("subst", name, old, new, before="all")

    def operator_all(self, name: str, operator: Operator) -> None:
        """Replaces the operator of each assignment of a name."""
        self._do("operator", name, one_of(OPERATORS, operator), before="all")

    def values_subst(self, old: str, new: str) -> None:
        """Replaces each occurrence of a text in the values of all variables."""
        self._do("values-subst", old, new)

    def unset(self, name: str, nth: Optional[int] = None) -> None:
        """Removes an assignment."""
        self._do("unset", name, nth=nth)

    def comment_out(self, name: str, nth: Optional[int] = None) -> None:
        """Makes an assignment a comment."""
        self._do("comment-out", name, nth=nth)

    def uncomment(self, name: str, nth: Optional[int] = None) -> None:
        """Makes a comment that has the form of an assignment the assignment."""
        self._do("uncomment", name, nth=nth)

    def assign(self, place: Place, name: str, operator: Operator, value: str) -> None:
        """Inserts a new assignment."""
        self._put_in("assign", place, name, one_of(OPERATORS, operator), value)

    # ---- rules

    def rule(self, place: Place, targets: str, separator: NewSeparator, prerequisites: str) -> None:
        """Inserts the line of a new rule."""
        self._put_in("rule", place, targets, one_of(NEW_SEPARATORS, separator), prerequisites)

    def unrule(self, target: str, nth: Optional[int] = None) -> None:
        """Removes a rule and its recipe."""
        self._do("unrule", target, nth=nth)

    def depend(self, target: str, word: str, nth: Optional[int] = None) -> None:
        """Appends a word to a rule's normal prerequisites."""
        self._do("depend", target, word, nth=nth)

    def depend_order(self, target: str, word: str, nth: Optional[int] = None) -> None:
        """Appends a word to a rule's order-only prerequisites."""
        self._do("depend-order", target, word, nth=nth)

    def undepend(self, target: str, word: str, nth: Optional[int] = None) -> None:
        """Removes a word from a rule's prerequisites."""
        self._do("undepend", target, word, nth=nth)

    def depend_replace(self, target: str, old: str, new: str, nth: Optional[int] = None) -> None:
        """Replaces a word of a rule's prerequisites."""
        self._do("depend-replace", target, old, new, nth=nth)

    def recipe(self, target: str, line: str, nth: Optional[int] = None) -> None:
        """Appends a line to a rule's recipe."""
        self._do("recipe", target, line, nth=nth)

    def recipe_insert(self, target: str, number: int, line: str, nth: Optional[int] = None) -> None:
        """Inserts a line before the recipe line of a number, from 1."""
        self._do("recipe-insert", target, digits(number), line, nth=nth)

    def recipe_set(self, target: str, number: int, line: str, nth: Optional[int] = None) -> None:
        """Replaces the recipe line of a number, from 1."""
        self._do("recipe-set", target, digits(number), line, nth=nth)

    def recipe_del(self, target: str, number: int, nth: Optional[int] = None) -> None:
        """Removes the recipe line of a number, from 1."""
        self._do("recipe-del", target, digits(number), nth=nth)

    def recipe_replace(self, target: str, old: str, line: str, nth: Optional[int] = None) -> None:
        """Replaces the recipe line whose text is old."""
        self._do("recipe-replace", target, old, line, nth=nth)

    def recipe_remove(self, target: str, old: str, nth: Optional[int] = None) -> None:
        """Removes the recipe line whose text is old."""
        self._do("recipe-remove", target, old, nth=nth)

    def recipe_subst(self, target: str, old: str, new: str, nth: Optional[int] = None) -> None:
        """Replaces each occurrence of a text in the recipe lines of the rules for a target, or of one of them."""
        self._do("recipe-subst", target, old, new, nth=nth)

    def recipes_subst(self, old: str, new: str) -> None:
        """Replaces each occurrence of a text in all recipe lines."""
        self._do("recipes-subst", old, new)

    def rename(self, old: str, new: str) -> None:
        """Renames a target, also where it is a prerequisite."""
        self._do("rename", old, new)

    # ---- whole lines

    def insert(self, place: Site, lines: str) -> None:
        """Inserts a line of any class, or several, with line feeds between them."""
        if not isinstance(place, Site):
            raise TypeError(f"a place is a Site, and not of type {type(place).__name__}")
        if place.word in LINE_WORDS and place.name is not None:
            self._exchange(["insert", place.word], place.name, lines, nth=place.nth)
        else:
            name = [] if place.name is None else [field(place.name)]
            self._exchange(["insert", field(place.word), *name], lines, nth=place.nth)

    def line_replace(self, old: str, lines: str, nth: Optional[int] = None) -> None:
        """Replaces the line that is old, or the lines, by others."""
        self._exchange(["line-replace"], old, lines, nth=nth)

    def line_remove(self, old: str, nth: Optional[int] = None) -> None:
        """Removes the line that is old, or the lines."""
        self._exchange(["line-remove"], old, nth=nth)

    def rule_replace(self, target: str, lines: str, nth: Optional[int] = None) -> None:
        """Replaces a rule and its recipe, with the conditionals in it, by lines of any class."""
        self._exchange(["rule-replace", field(target)], lines, nth=nth)

    def rule_remove(self, target: str, nth: Optional[int] = None) -> None:
        """Removes a rule and its recipe, with the conditionals in it."""
        self._do("rule-remove", target, nth=nth)

    # ---- history

    def undo(self) -> None:
        """Undoes the last edit or group."""
        self._do("undo")

    def redo(self) -> None:
        """Redoes the edit or group that was undone last."""
        self._do("redo")

    def group(self) -> ContextManager["Session"]:
        """Edits as one: an exception undoes all of them, and is raised again.

        Where they cannot be taken back, for instance since the session has ended, the error that says so is
        in the context of the exception.
        """
        return self._grouped("end")

    def dry_run(self) -> ContextManager["Session"]:
        """Tries edits: all of them are undone at the end, also without an exception. None can be redone."""
        return self._grouped("cancel")

    @contextmanager
    def _grouped(self, last: str) -> Iterator["Session"]:
        """Edits of a group, which this command ends, or `cancel` after an exception."""
        self._do("begin")
        try:
            yield self
        except BaseException as fault:
            self._cancel(fault)
            raise
        self._do(last)

    def _cancel(self, fault: BaseException) -> None:
        """Undoes a group after an exception, which no error of this hides."""
        try:
            self._do("cancel")
        except Error as later:
            put_behind(fault, later)

    def revert(self) -> None:
        """Undoes everything; a fault if the depth was too small for that."""
        self._do("revert")

    # ---- what the makefile has

    def text(self) -> str:
        """The text that is shown: the file as it was opened, with the edits that stand."""
        return self._told("print")

    def lines(self, first: int, last: int) -> str:
        """Its lines from one number to another; the first line has the number 1."""
        return self._told("print", digits(first, MOST_OF_REQUEST), digits(last, MOST_OF_REQUEST))

    def diff(self) -> str:
        """The difference from the file as it was opened, as `mkedit edit --diff` prints it."""
        return self._told("diff")

    def get(self, name: str, nth: Optional[int] = None) -> str:
        """The value of the assignment that `set` would change; refused as `set` is."""
        first = ["nth", digits(nth, MOST_OF_REQUEST)] if nth is not None else []
        return self._told(*first, "get", word(name))[:-1]

    def vars(self, name: Optional[str] = None) -> List[Assignment]:
        """The assignments in their order, or those of a name."""
        return self._talk.ask(answers.assignments, "vars", *([word(name)] if name is not None else []))

    def rules(self, target: Optional[str] = None) -> List[Rule]:
        """The rules in their order, or those for a target."""
        if target is None:
            return self._talk.ask(answers.rules, "rules")
        return self._talk.ask(answers.rules_for, "rules", word(target))

    def recipes(self, target: Optional[str] = None) -> List[RecipeLine]:
        """The recipe lines of the rules in their order, or those of the rules for a target."""
        words = [word(target)] if target is not None else []
        with self._talk.lock:
            rules = self.rules(target)
            return self._talk.ask(lambda found: answers.recipe_lines(found, rules), "recipes", *words)

    def history(self) -> List[Step]:
        """What can be undone and redone, the last first; an open group comes before that."""
        return self._talk.ask(answers.steps, "history")

    def script(self) -> str:
        """The edits that stand, as a script that makes the text that is shown of the one that was opened."""
        return self._told("script")

    def check(self) -> str:
        """What `mkedit check` prints."""
        return self._talk.ask(answers.check_text, "check")

    def caveats(self) -> str:
        """What `mkedit caveats` prints."""
        return self._talk.ask(answers.caveats_text, "caveats")

    def explain(self, refusal: str) -> str:
        """What `mkedit explain` prints of a refusal, by its name or its number."""
        return self._told("explain", word(refusal))

    def help(self, command: str) -> str:
        """What `mkedit help` prints of a command of a script."""
        return self._told("help", word(command))

    # ---- the file

    def write(self, *, anyway: bool = False) -> None:
        """Puts the text into the file in one step; a fault where the file has changed, unless anyway is true.

        `write_to` puts it into another file.
        """
        self._do("write!" if anyway else "write")

    def write_to(self, path: PathName) -> None:
        """Puts the text into another file in one step; its name has no blank. The open file stays what it is."""
        self._told("write", word(os.fspath(path)))


def open(
    path: PathName,
    depth: Optional[int] = None,
    program: str = "mkedit",
    new: bool = False,
    timeout: Optional[float] = None,
) -> Session:
    """Opens a makefile. depth is how many edits can be undone, from 1 to 10,000; without it 100.

    If new is true, a makefile that is missing is opened as an empty one, which the first `write` makes.
    timeout is how many seconds each reply may take. Where one takes longer, `TimedOut` is raised, and the
    session has ended. Without it there is no limit.
    """
    return Session(path, depth, program, new, timeout)
