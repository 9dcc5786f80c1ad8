"""The session machine: which edits stand, how many can be undone, and the open group."""

from .edits import refuse


class Session:
    """The texts of a session: a plain list of them, where the program keeps changes.

    done has the first text and the text after each member that stands; the texts before the place
    floor are out of reach of `undo`. undone has the texts that `redo` brings back, the next one last.
    group has the text at `begin` and those after each edit since, or is None where no group is open.
    """

    def __init__(self, text, depth):
        self.done = [text]
        self.undone = []
        self.floor = 0
        self.depth = depth
        self.group = None

    @property
    def text(self):
        return self.done[-1] if self.group is None else self.group[-1]

    def accept(self, text):
        """An edit was accepted, and this is the text after it."""
        self.undone = []
        if self.group is None:
            self.add(text)
        else:
            self.group.append(text)

    def add(self, text):
        self.done.append(text)
        self.floor = max(self.floor, len(self.done) - 1 - self.depth)

    def undo(self):
        refuse(18, self.group is not None)
        refuse(16, len(self.done) - 1 <= self.floor)
        self.undone.append(self.done.pop())

    def redo(self):
        refuse(18, self.group is not None)
        refuse(17, not self.undone)
        self.done.append(self.undone.pop())

    def begin(self):
        refuse(18, self.group is not None)
        self.group = [self.done[-1]]

    def end(self):
        refuse(19, self.group is None)
        group, self.group = self.group, None
        if len(group) > 1:
            self.add(group[-1])

    def cancel(self):
        refuse(19, self.group is None)
        self.group = None
