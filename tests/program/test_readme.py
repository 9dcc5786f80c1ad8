"""README.md: its example is what the program prints over examples/, and what it names is there."""

import re
import shlex
import subprocess
import sys

from tests import TOP
from tests.lib.checks import differences
from tests.lib.rooms import RoomCase, silent

# A block of lines that begin with a command, each with what it prints below it.
TALK = re.compile(r"\n\n((?:    \$ .*\n(?:    (?!\$ ).*\n)*)+)")
COMMAND = re.compile(r"    \$ (.*)\n((?:    (?!\$ ).*\n)*)")
NAMED = re.compile(r"\b(?:docs|crates|tests|tools|examples)/(?:[\w./-]|\*(?=[\w/]))*\w")


def readme():
    return (TOP / "README.md").read_text(encoding="utf-8")


class Readme(RoomCase):
    def printed(self, command):
        """What a command prints: `cat` a file, or the program."""
        program, *words = shlex.split(command)
        if program == "cat":
            return (self.room.folder / words[0]).read_bytes()
        self.assertEqual(program, "mkedit")
        got = self.room.run(*words)
        self.assert_well(differences(got._replace(stdout=b""), silent(0)))
        return got.stdout

    def test_the_example_of_the_readme_is_so(self):
        for name in ("config.mk", "use-clang.mkedit"):
            self.room.write(name, (TOP / "examples" / name).read_bytes())
        commands = [it for talk in TALK.findall(readme()) for it in COMMAND.findall(talk)]
        for command, shown in commands:
            self.assertEqual(self.printed(command).decode(), re.sub(r"^    ", "", shown, flags=re.M), command)
        self.assertEqual([it.split()[0] for it, _ in commands], ["cat", "mkedit"])

    def test_the_picture_shows_what_the_program_prints(self):
        maker = [sys.executable, "-B", TOP / "docs/demo.py", self.program.path]
        made = subprocess.run(maker, check=True, capture_output=True, encoding="utf-8").stdout
        self.assertEqual(made, (TOP / "docs/demo.svg").read_text(encoding="utf-8"), "docs/demo.py makes it anew")

    def test_what_the_readme_names_is_there(self):
        for name in sorted(set(NAMED.findall(readme()))):
            self.assertTrue(list(TOP.glob(name)), f"there is no {name}")
