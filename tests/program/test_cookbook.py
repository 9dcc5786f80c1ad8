"""The tasks of docs/COOKBOOK.md, run as they stand there.

A task is a title of the second level with fenced blocks below it. A block ```KIND NAME is a file of one of KINDS, and
```console a shell session. The blocks of a task are done in their order in a folder of its own. Each refusal that a
task names has to be one of docs/EDITS.md. The list at the top of the page leads to each task.
"""

import os
import re
from unittest import mock

from tests.lib.checks import differences
from tests.lib.documents import DOCS, told_refusals
from tests.lib.rooms import Room, RoomCase, silent
from tests.lib.transcripts import Shell

TASK = re.compile(r"^## (.*)\n((?:(?!## ).*\n)*)", re.M)
BLOCK = re.compile(r"^```(.*)\n((?:(?!```).*\n)*)```\n", re.M)
REFUSAL = re.compile(r"`(\d+) (\w+)[^`]*`")
LINK = re.compile(r"\[([^]]+)\]\(#([^)]+)\)")
KINDS = ("make", "mkedit", "python", "sh", "diff")
# The tasks whose script changes nothing when it is run over its own result.
TWICE = (
    "Add hardening flags",
    "Remove -Werror",
    "Set a variable or add it",
    "Change a variable that several lines assign",
    "Replace a flag in a value",
    "Add a file to a list",
    "Change a path in all values",
    "Change the operator of an assignment",
    "Make install honour DESTDIR",
    "Remove a prerequisite",
    "Replace a whole rule",
    "Drop a flag in all recipes",
    "Put a conditional round lines",
    "Write a script that can be run twice",
)


def write_file(room, name, text):
    """Writes a file of a task; a script of the shell or of make may be run."""
    path = room.folder / name
    path.parent.mkdir(parents=True, exist_ok=True)
    path.write_text(text, encoding="utf-8")
    path.chmod(0o755 if text.startswith("#!") else 0o644)


def check_task(program, text):
    """What is wrong with a task: nothing where its sessions print what they show."""
    with Room(program) as room, Shell(program, room.folder) as shell:
        sessions = 0
        for head, content in BLOCK.findall(text):
            kind, _, name = head.partition(" ")
            if kind == "console":
                sessions += 1
                yield from shell.differs(content)
            elif kind in KINDS and name:
                write_file(room, name, content)
            else:
                yield f"a block is neither a file nor a session: {head}"
        if not sessions:
            yield "no session"


def check_twice(program, text):
    """What is wrong with the script of a task that is run twice over each of its makefiles."""
    with Room(program) as room:
        blocks = [(*head.split(" "), content) for head, content in BLOCK.findall(text) if " " in head]
        for _, name, content in blocks:
            write_file(room, name, content)
        (script,) = [name for kind, name, _ in blocks if kind == "mkedit"]
        for makefile in [name for kind, name, _ in blocks if kind == "make"]:
            path = room.folder / makefile
            texts = [path.read_bytes()]
            for _ in range(2):
                yield from differences(room.run("edit", "-i", script, makefile), silent(0))
                texts.append(path.read_bytes())
            if texts[1] == texts[0]:
                yield f"{script} does not change {makefile}"
            if texts[2] != texts[1]:
                yield f"{script} changes {makefile} a second time"


def unknown_refusals(text):
    """The refusals that are named with another number than in docs/EDITS.md."""
    named = REFUSAL.findall(text)
    return [f"no refusal {' '.join(it)}" for it in named if it not in told_refusals()]


class Cookbook(RoomCase):
    def setUp(self):
        super().setUp()
        self.page = (DOCS / "COOKBOOK.md").read_text(encoding="utf-8")
        self.tasks = dict(TASK.findall(self.page))

    def test_scripts_that_can_be_run_twice(self):
        for title in TWICE:
            with self.subTest(f"docs/COOKBOOK.md: {title}, twice"):
                self.assert_well(check_twice(self.program, self.tasks[title]))

    def test_each_task_is_done_as_it_stands_there(self):
        # (test_guide imports this module)
        from tests.program.test_guide import PYTHON

        for title, text in self.tasks.items():
            with self.subTest(f"docs/COOKBOOK.md: {title}"), mock.patch.dict(os.environ, PYTHON):
                self.assert_well(check_task(self.program, text))
                self.assert_well(unknown_refusals(text))

    def test_the_list_at_the_top_leads_to_each_task(self):
        links = [(" ".join(title.split()), anchor) for title, anchor in LINK.findall(self.page.partition("\n## ")[0])]
        titles = [*self.tasks]
        self.assertEqual(links, [(it, re.sub(r"[^\w -]", "", it.lower()).replace(" ", "-")) for it in titles])
