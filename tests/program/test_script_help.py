"""What `mkedit help` says of each command of a script: the texts of their source, and that they are so.

tools/commands.py reads the source. The documents have the same texts from there: the lint checks
whether they do. That no refusal is left out is tried on every row of tests/cases.
"""

import re
import sys
from collections import defaultdict

from tests import TOP
from tests.lib.checks import Outcome
from tests.lib.documents import refusals
from tests.lib.rooms import WRITE_FAULT, RoomCase
from tests.lib.tables import TABLES, rows, unescape

sys.path.insert(0, str(TOP / "tools"))
# (below the line that says where it is)
from commands import commands as sources  # noqa: E402

REPORT = re.compile(r"^(\d+): refused \d+ (\w+)", re.M)
NAME = re.compile(r"\b[A-Z]\w*[a-z]\b")
# The words before a command: what comes of them is reported of the command.
BEFORE = re.compile(r'^(?:"?(?:try|or|all)"?[ \t]+|"?nth"?[ \t]+"?\d+"?[ \t]+)*"?([\w-]+)"?')


def reported():
    """The refusals that the tables report of each word."""
    found = defaultdict(set)
    for table in TABLES:
        for _, row in rows(table):
            lines = unescape(row.get("script", "")).decode("latin-1").split("\n")
            for line, name in REPORT.findall(unescape(row.get("stderr", "")).decode("latin-1")):
                found[BEFORE.match(lines[int(line) - 1].strip(" \t"))[1]].add(name)
    return found


def told(command):
    """The refusals that the text on a command names."""
    return {*NAME.findall(command.refusals)}


class ScriptHelp(RoomCase):
    def test_each_command_of_a_script_has_its_help(self):
        for it in sources():
            self.assert_run(Outcome(f"{it.form}\n\n{it.text}".encode(), b"", 0), "help", it.word)

    def test_the_commands_are_those_of_scripts(self):
        shown = self.room.run("edit", "--help").stdout.decode()
        listed = re.search(r"^A line of the script.*\n((?:    .*\n)+)", shown, re.M)[1]
        fields = [it.strip() for it in re.split(r"\n| {2,}", listed) if it.strip()]
        self.assertEqual(sorted(it.form for it in sources()), sorted(fields))

    def test_each_example_is_so(self):
        for it in sources():
            self.room.write("Makefile", it.makefile.encode())
            self.room.write("script", it.script.encode())
            self.assert_run(Outcome(it.after.encode(), b"", 0), "edit", "script", "Makefile")

    def test_each_refusal_that_a_table_reports_is_told(self):
        found = reported()
        commands = {it.word: it for it in sources()}
        self.assertGreaterEqual(len(found), 20)
        for word, names in found.items():
            with self.subTest(word):
                self.assertLessEqual(names, told(commands[word]))

    def test_each_refusal_that_is_told_has_an_explanation(self):
        names = {name for _, name in refusals()}
        for it in sources():
            self.assertLessEqual(told(it), names, it.word)

    def test_another_word_has_no_help(self):
        for words in (["sett"], ["SET"], [""], ["set "], ["NAME"], ["set", "unset"], ["--", "set"]):
            self.assert_bad_command_line("help", *words)

    def test_help_that_cannot_be_written_is_a_write_fault(self):
        with open("/dev/full", "wb") as full:
            self.assert_run(WRITE_FAULT, "help", "set", stdout=full)
        self.assert_run(WRITE_FAULT, "help", "set", closed=(1,))
