"""What goes wrong. Each exception that the client makes itself is an `Error`:

    Error
        Refused           a command was refused
        Fault             a line could not be answered
            Ended         the session has ended
                TimedOut  no reply came in time
                BadReply  the program said what the protocol does not have

A bad argument raises ValueError or TypeError before anything is sent.
"""

from typing import Union


# What is so where a command is refused.
SENTENCES = {
    # made by tools/texts: refusals
    "BadArgument": "A field is not what it has to be.",
    "Reserved": (
        "The variable is `.RECIPEPREFIX`, in PLACE too, or a target is one of these words: `ifeq`, `ifneq`, "
        "`ifdef`, `ifndef`, `else`, `endif`, `define`, `endef`, `undefine`, `include`, `-include`, "
        "`sinclude`, `load`, `-load`, `export`, `unexport`, `override`, `private` or `vpath`."
    ),
    "RecipePrefix": (
        "The file sets `.RECIPEPREFIX` in a way that mkedit does not read: in a conditional, with a modifier,"
        " by `define`, with `+=`, `?=`, `!=` or `:::=`, or to a byte that cannot be a prefix, such as the `$`"
        " of a reference."
    ),
    "NoSuch": (
        "No assignment or rule has this name, or no lines are OLD, or there is no N-th of them; for "
        "`uncomment`, no comment has the form of an assignment of it."
    ),
    "Ambiguous": (
        "Several assignments, rules or comments have this name, and neither `nth` nor `all` says which are "
        "meant."
    ),
    "Absent": (
        "What the command would remove or replace, or put something beside, is not there: a word of the "
        "prerequisites or of the value, with `all` of any value of the name; the value OLD; the text FROM; "
        "recipe line K, or one whose text is OLD."
    ),
    "Already": (
        "The new word is already in the prerequisites, or in the value, to which the command adds it, and "
        "with `all` in each value of the name."
    ),
    "Taken": "The new name is already a target of a rule or of a target-specific assignment.",
    "SharedRule": "The rule to remove or to replace has several targets.",
    "Straddles": "A conditional directive stands between the rule's line and its last recipe line.",
    "OpenValue": (
        "The value has a reference that is not closed, or ends in a lone `$` or a lone backslash, or with "
        "`add` in a fold."
    ),
    "OpenLine": (
        "The new line would follow a last line that would swallow it: one that ends in an odd run of "
        "backslashes, maybe with a line end after it, or in a CR alone."
    ),
    "OpenDefine": "The place is `bottom`, and a define is open at the end of the file.",
    "Leans": (
        "Below the change stands a line that begins with the recipe prefix, with only blank lines, comments "
        "and conditional directives between."
    ),
    "TooLong": "The text would have more than 16,777,216 bytes.",
    "NothingToUndo": "There is no edit to undo, or the depth is used up.",
    "NothingToRedo": (
        "There is no edit to redo: there was no `undo`, `redo` has redone everything, or an edit was accepted"
        " since."
    ),
    "GroupOpen": "`undo`, `redo` or `begin` stands inside a group.",
    "NoGroup": "`end` or `cancel` stands outside a group.",
    "NoMemory": "Memory ran out.",
    "Misread": (
        "The new line would not read as the edit says: for instance, the new text has a `#`, an open "
        "reference or a backslash at its end, or `subst` takes out a `)` before a comment."
    ),
    # made until here
}


class Error(Exception):
    """The base of the exceptions of this client."""


class Refused(Error):
    """A command was refused, and nothing has changed.

    number and name are those of docs/EDITS.md. detail is the count or the field that comes with some. As a
    str it is these three, as a report has them, and a sentence.
    """

    def __init__(self, number: int, name: str, detail: Union[int, str, None]) -> None:
        super().__init__(number, name, detail)
        self.number = number
        self.name = name
        self.detail = detail

    def __str__(self) -> str:
        detail = "" if self.detail is None else f" {self.detail}"
        return f"{self.number} {self.name}{detail}: {SENTENCES.get(self.name, 'the command was refused')}"


class Fault(Error):
    """A line could not be answered; the text says why. The session goes on, unless this is an `Ended`."""


class Ended(Fault):
    """The session has ended, and so each call raises this: it was closed, or it was broken off.

    A call that cannot be done to its end breaks the session off: where the program ends, where an
    exception such as KeyboardInterrupt comes before the reply, and in the cases of the two classes below.
    What was not written is lost then.
    """


class TimedOut(Ended):
    """A reply did not come within the timeout of the session, which is closed now."""


class BadReply(Ended):
    """The program said what is no reply of the protocol. The session is closed now."""


def put_behind(fault: BaseException, later: BaseException) -> None:
    """Chains an exception that came while another was handled behind that one, which is to come out."""
    last = later
    while True:
        earlier = last.__cause__ or last.__context__
        if earlier is None or earlier is fault:
            break
        last = earlier
    last.__context__ = fault.__context__
    fault.__context__ = later
