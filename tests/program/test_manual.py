"""The manual pages, docs/mkedit.1 and docs/mkedit-script.5: their form, their examples, and that the first
leaves no option, command or message out.

The lint tests that the pages are made of their templates and of the program's texts. Each literal display
is an example: a shell session, `$ COMMAND` and what it prints, or these, with an empty line between them:

    a makefile      examples/manual.mk where it is left out, as in each session
    a script
    what comes of it: a report, or else the makefile after it
"""

import itertools
import os
import re
import shutil
import subprocess

from tests import TOP
from tests.lib.checks import SECONDS, Outcome
from tests.lib.documents import PAGE, SCRIPT_PAGE, displays_of, edits, page
from tests.lib.rooms import RoomCase
from tests.lib.transcripts import Shell

MAKEFILE = (TOP / "examples/manual.mk").read_bytes()
REPORT = re.compile(r"\d+: refused .*\n")
# What mandoc says of the pages of other programs, which this machine may not have.
OTHER_PAGES = re.compile(r"referenced manual not found|outdated mandoc\.db")
# How many examples each page has at least.
EXAMPLES = {PAGE: 4, SCRIPT_PAGE: 45}
# What looks at the form of a page, and says nothing where all is well.
FORMS = (
    ("mandoc", "-T", "lint"),
    ("groff", "-ww", "-mdoc", "-T", "utf8", "-z"),
    ("man", "--warnings", "-E", "UTF-8", "-Tutf8", "-Z", "-l"),
)


class Manual(RoomCase):
    def assert_example(self, example):
        """An example has to be so."""
        self.room.write("Makefile", MAKEFILE)
        if example.startswith("$ "):
            with Shell(self.room.program, self.room.folder) as shell:
                self.assert_well(shell.differs(example))
            # (a session may edit the makefile)
            self.room.written.pop("Makefile")
            return
        *makefile, script, wanted = (f"{it}\n".encode() for it in example[:-1].split("\n\n"))
        for own in makefile:
            self.room.write("Makefile", own)
        self.room.write("script", script)
        is_refused = REPORT.fullmatch(wanted.decode())
        outcome = Outcome(b"", wanted, 1) if is_refused else Outcome(wanted, b"", 0)
        self.assert_run(outcome, "edit", "script", "Makefile")

    def test_each_example_is_so(self):
        for path, least in EXAMPLES.items():
            examples = [*displays_of(page(path))]
            self.assertGreaterEqual(len(examples), least)
            for it in examples:
                self.assert_example(it)

    def test_the_manual_pages_have_a_good_form(self):
        there = [it for it in FORMS if shutil.which(it[0])]
        if not there:
            self.skipTest("there is neither mandoc nor groff nor man")
        how = {"env": {**os.environ, "LC_ALL": "C.UTF-8"}, "timeout": SECONDS}
        for words, path in itertools.product(there, EXAMPLES):
            ran = subprocess.run([*words, path], capture_output=True, errors="replace", **how)
            # (on standard output man has the page)
            lines = (ran.stderr if words[0] == "man" else ran.stdout + ran.stderr).splitlines()
            self.assertEqual([it for it in lines if not OTHER_PAGES.search(it)], [], words)

    def test_the_manual_page_has_every_option_and_command_of_the_program(self):
        synopsis = page().partition(".Sh DESCRIPTION")[0]
        shown = self.room.run("--help").stdout.decode()
        for command in re.findall(r"^  (\w+) {2}", shown, re.M):
            self.assertIn(f".Cm {command}\n", synopsis)
            shown += self.room.run(command, "--help").stdout.decode()
        for short, long in re.findall(r"^  (?:-(\w),|   ) --([\w-]+)", shown, re.M):
            called = f"{short}.* Fl -{long}" if short else f"-{long}"
            self.assertRegex(page(), re.compile(rf"^\.It Fl {called}\b", re.M))

    def test_the_manual_page_has_every_message(self):
        text = re.sub(r" ?\b(?:Ar|No) ", " ", page())
        for message in re.findall(r"`(mkedit: [a-z ]+)", edits()):
            self.assertIn(message.strip(), text)
