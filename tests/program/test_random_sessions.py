"""Random sessions of some 200 commands with undo, redo and groups.

Each reply, text and history is the judge's, and each script of the edits that stand makes the judge's text.
"""

from typing import NamedTuple

from tests.lib.rooms import RoomCase
from tests.lib.talks import Talk
from tests.soak.drawing import Drawing, source_of
from tests.soak.judge import obey_step, script_rows
from tests.soak.makefiles import Makefiles
from tests.soak.scripts import Scripts
from tests.soak.session import Session

SEED = "sessions"
SESSIONS = 40
DEPTHS = (1, 3, 100)
# In how many of the lines the text is looked at too.
LOOKED_SHARE = 0.1


class Command(NamedTuple):
    """A command as a history has it: its line, and the lines of its blocks, which stand below it."""

    line: bytes
    blocks: tuple = ()


def command_of(lines):
    """The command of some lines."""
    line, *blocks = lines.split(b"\n")
    return Command(line.strip(b" \t\x0c\r"), tuple(it.removesuffix(b"\r") for it in blocks))


def one_of(commands):
    """Commands as one."""
    return Command(b"; ".join(it.line for it in commands), tuple(line for it in commands for line in it.blocks))


class History:
    """The lines of what can be undone and redone, by how long the lists of the judge are."""

    def __init__(self, session):
        self.session = session
        self.done, self.undone, self.group = [], [], None
        self.lengths = self.measured()

    def measured(self):
        group = self.session.group
        return len(self.session.done), len(self.session.undone), group and len(group)

    def note(self, lines):
        """The judge has obeyed a command."""
        done, undone, group = self.lengths
        self.lengths = self.measured()
        command = command_of(lines)
        if self.lengths[2] is not None:
            if group is None:
                self.group = [Command(b"begin")]
            elif self.lengths[2] > group:
                self.group.append(command)
        elif group is not None:
            if self.lengths[0] > done:
                self.done.append(one_of([*self.group, Command(b"end")]))
            self.group = None
        elif self.lengths[0] < done:
            self.undone.append(self.done.pop())
        elif self.lengths[0] > done:
            self.done.append(self.undone.pop() if command.line.strip(b'"') == b"redo" else command)
        if not self.lengths[1]:
            self.undone = []

    def text(self):
        count = len(self.session.done) - 1 - self.session.floor
        told = [(b"open ", one_of(self.group))] if self.group else []
        told += [(b"undo ", it) for it in reversed(self.done[len(self.done) - count :])]
        told += [(b"redo ", it) for it in reversed(self.undone)]
        return b"".join(b"\n".join([word + it.line, *it.blocks, b""]) for word, it in told)


def commands_in(script):
    """The commands of a script, each with the lines of its blocks, as they stand there."""
    lines = script.split(b"\n")
    for number, taken, _ in script_rows.commands_of(script):
        yield b"\n".join(lines[number - 1 : number - 1 + len(taken)])


class RandomSessions(RoomCase):
    def reply_to(self, session, lines):
        """What the judge replies to the lines of a command."""
        steps = script_rows.meaning_of(lines + b"\n")
        if isinstance(steps, int) or len(steps) != 1:
            return "fault not a command"
        told = obey_step(session, steps[0])[1]
        return told.rstrip("\n").split(": ", 1)[1] if told else "ok"

    def assert_session(self, number):
        drawing = Drawing(source_of(SEED, number))
        makefile, depth = Makefiles(drawing.source).makefile(), drawing.one(DEPTHS)
        # (below a block that does not end the line ends it)
        script = Scripts(drawing.source, makefile, depth, is_long=True).script() + b"\nE\n"
        self.room.write("Makefile", makefile)
        session = Session(makefile, depth)
        history = History(session)
        with Talk(self.room, "-d", str(depth), "Makefile") as talk:
            for lines in commands_in(script):
                self.assertEqual(talk.reply(lines), self.reply_to(session, lines), lines)
                history.note(lines)
                if drawing.chance(LOOKED_SHARE):
                    self.assertEqual(talk.answer("print"), session.text, lines)
                    self.assertEqual(talk.answer("history"), history.text(), lines)
            self.assertEqual(talk.answer("print"), session.text)
            self.room.write("script", talk.answer("script"))
            self.assertEqual(self.room.run("edit", "script", "Makefile").stdout, session.text)
            self.assertEqual(talk.answer("history"), history.text())

    def test_random_sessions(self):
        for number in range(SESSIONS):
            with self.subTest(f"session {number} of the seed {SEED}"):
                self.assert_session(number)
