"""What a run of a script over a makefile has to print, and by which replies."""

from typing import NamedTuple

import script_rows
from tests.lib import reading
from tests.lib.checks import Outcome
from tests.lib.rooms import TOO_DEEP, TOO_LONG

from . import each_line, edits, whole_lines
from .document import MOST_CONDITIONALS
from .edits import LIMIT, Plan, Refused, replaced
from .session import Session

# The edits by the names that script_rows.py gives them, and the calls.
EDITS = {it.__name__: it for it in (*edits.KINDS, *each_line.KINDS, *whole_lines.KINDS)}
CALLS = {
    "Undo": Session.undo,
    "Redo": Session.redo,
    "Begin": Session.begin,
    "End": Session.end,
    "Cancel": Session.cancel,
}


# The refusals that say that a text is as it is: there is nothing on which the edit is to be made, or
# nothing that it is to do.
MISSING = 4
MET = (6, 7)


class Reply(NamedTuple):
    """How a command was answered: its name, the texts before and after it, the plan or the refusal."""

    name: str
    before: bytes
    after: bytes
    plan: Plan = None
    refusal: Refused = None


class Verdict(NamedTuple):
    """The outcome that a run has to have, and the replies to the commands that it tries."""

    outcome: Outcome
    replies: list


def obey(session, name, *arguments, limit=LIMIT):
    """Obeys one command, and hands out the reply."""
    before, plan, refusal = session.text, None, None
    try:
        if name in EDITS:
            plan = EDITS[name](*arguments).plan(before, limit)
            session.accept(replaced(before, plan.spans))
        else:
            CALLS[name](session)
    except Refused as it:
        refusal = it
    return Reply(name, before, session.text, plan, refusal)


def obey_step(session, step, limit=LIMIT):
    """Obeys a step. Hands out the replies to the commands that it tries, and what is reported, if anything."""
    if isinstance(step, list):
        commands, silent = step, MET
    elif step[0] == "try":
        commands, silent = [step[1]], (MISSING, *MET)
    else:
        commands, silent = [step], ()
    replies = []
    for line, name, *arguments in commands:
        replies.append(obey(session, name, *arguments, limit=limit))
        refusal = replies[-1].refusal
        if refusal is None or refusal.number != MISSING:
            break
    if refusal is None or refusal.number in silent:
        return replies, ""
    return replies, f"{line}: refused {refusal}\n"


def meaning_of_line(line):
    """The name and the arguments of the command on a script's line, or None where it has none."""
    steps = script_rows.meaning_of(line)
    return steps[0][1:] if steps and not isinstance(steps, int) else None


def is_too_deep(text):
    """Whether more conditionals than may be are open before some line or at the end."""
    lines, end = reading.read(text)
    contexts = [*(it.context for it in lines), end]
    return max(it.conditionals for it in contexts) > MOST_CONDITIONALS


def judged(text, script, depth, goes_on, limit=LIMIT):
    """The verdict on a run of a script that is not too long."""
    steps = script_rows.meaning_of(script)
    if isinstance(steps, int):
        message = b"mkedit: script line %d is not a command\n" % steps
        return Verdict(Outcome(b"", message, 2), [])
    if len(text) > limit:
        return Verdict(TOO_LONG, [])
    if is_too_deep(text):
        return Verdict(TOO_DEEP, [])
    session, report, replies = Session(text, depth), "", []
    for step in steps:
        of_step, told = obey_step(session, step, limit)
        replies += of_step
        report += told
        if told and not goes_on:
            return Verdict(Outcome(b"", report.encode(), 1), replies)
    return Verdict(Outcome(session.text, report.encode(), 1 if report else 0), replies)


def answered(query, text):
    """The outcome of a query of a text that is not too long."""
    return TOO_DEEP if is_too_deep(text) else Outcome(reading.QUERIES[query](text), b"", 0)
