"""The completions of bash, zsh and fish beside what `mkedit --help` says, so that they cannot drift.

Every shell that is there is asked what it completes. The files for zsh and fish are also read, since
these two are seldom there.
"""

import re
import shutil
import subprocess
import sys
from pathlib import Path

from tests import TOP
from tests.lib.checks import SECONDS
from tests.lib.documents import refusals
from tests.lib.rooms import RoomCase

sys.path.insert(0, str(TOP / "tools"))
# (below the line that says where it is)
from commands import commands as commands_of_scripts  # noqa: E402

FOLDER = TOP / "completions"
# A makefile with names and targets that a shell would expand, cut or run.
HOSTILE = """\
CC = gcc
export CFLAGS ?= -O2
CC += -g
$(shell touch pwned) = 1
`touch pwned` = 2
X;touch = 3
debug: ONLY = 4
all check: config.h
%.o: %.c ; cc
`touch pwned`: all
$(shell touch pwned): all
"""
NAMES, TARGETS = {"CC", "CFLAGS"}, {"all", "check", "%.o"}
COMMAND = re.compile(r"^  (\w+) {2}", re.M)
OPTION = re.compile(r"^ +(?:(-\w), )?(--[\w-]+)", re.M)
ZSH_COMMAND = re.compile(r"^ +'(\w+):.*'$", re.M)
ZSH_OPTION = re.compile(r"\{(-\w)\+?,(--[\w-]+?)=?\}|^ +'(?:\([^)]*\))?()(--[\w-]+?)=?\[", re.M)
FISH_COMMAND = re.compile(r"-n __fish_use_subcommand -a (\w+)")
FISH_REFUSALS = re.compile(r"^set -l refusals (.*)$", re.M)
FISH_OPTION = re.compile(r"(?:-s (\w) )?-l ([\w-]+)")
FISH_CONDITION = re.compile(r"-n (?:(__fish_use_subcommand)|'__fish_seen_subcommand_from ([\w ]+)[;'])")


def section(shown, title):
    """The lines of a section of help."""
    return re.search(rf"^{title}:\n((?: .*\n?)+)", shown, re.M)[1]


def is_for(line, command):
    """Whether a line of the file for fish is for a command, or for the program itself, which is ""."""
    if not line.startswith("complete"):
        return False
    condition = FISH_CONDITION.search(line)
    if not condition:
        return True
    return command in condition[2].split() if condition[2] else not command


def options_of_fish(text, command):
    """The options in the lines for a command."""
    lines = "\n".join(it for it in text.splitlines() if is_for(it, command))
    found = FISH_OPTION.findall(lines)
    return {f"-{short}" for short, _ in found if short} | {f"--{long}" for _, long in found}


def section_of_zsh(text, function):
    """The text of a function."""
    return re.search(rf"^{function}\(\) \{{\n(.*?)^\}}$", text, re.M | re.S)[1]


def commands(room):
    """The commands that help lists."""
    shown = room.run("--help").stdout.decode()
    return set(COMMAND.findall(section(shown, "Commands")))


def with_options(room):
    """The commands that have options, "" for the program itself."""
    return ["", *sorted(commands(room) - {"help"})]


def options(room, *words):
    """The options that the help of a command lists."""
    shown = room.run(*words, "--help").stdout.decode()
    found = OPTION.findall(section(shown, "Options"))
    return {it for pair in found for it in pair if it}


def line_starts(room):
    """Beginnings of command lines, each with the words that have to be offered at its end."""
    yield ["mkedit"], commands(room), ""
    yield ["mkedit"], options(room), "-"
    yield ["mkedit", "help"], commands(room) | {it.word for it in commands_of_scripts()}, ""
    for command in sorted(commands(room) - {"help"}):
        yield ["mkedit", command], options(room, command), "-"


def names_of_refusals():
    """The name of each refusal."""
    return {name for _, name in refusals()}


def files(room):
    """Every name in the room's folder."""
    return {it.name for it in room.folder.iterdir()}


def offered_by_bash(room, words, begun):
    """What bash offers for the word that is begun after the others."""
    line = [*words, begun]
    script = (
        'source "$1"; shift; COMP_WORDS=("$@"); COMP_CWORD=$(($# - 1)); _mkedit; '
        'printf "%s\\n" "${COMPREPLY[@]}"'
    )
    words = ["bash", "--norc", "--noprofile", "-c", script, "bash", FOLDER / "mkedit.bash", *line]
    return answered(words, room)


def offered_by_fish(room, words, begun):
    """What fish offers for the word that is begun after the others."""
    line = " ".join([*map(str, words), begun])
    script = f'source {FOLDER / "mkedit.fish"}; complete -C "{line}"'
    return {it.partition("\t")[0] for it in answered(["fish", "--no-config", "-c", script], room)}


def answered(words, room):
    """The lines that a shell prints in the folder of the room, where `mkedit` is the program."""
    path = f"{Path(room.program.path).parent}:/usr/local/bin:/usr/bin:/bin"
    home = {"HOME": str(room.folder), "PATH": path, "LC_ALL": "C.UTF-8"}
    how = {"cwd": room.folder, "env": home, "timeout": SECONDS}
    ran = subprocess.run(words, capture_output=True, text=True, **how)
    if ran.stderr:
        raise ValueError(ran.stderr.strip())
    return {it for it in ran.stdout.splitlines() if it}


class Completions(RoomCase):
    def assert_completes(self, shell, offered):
        """A shell has to offer what help lists."""
        if not shutil.which(shell):
            self.skipTest(f"{shell} is not there")
        there = files(self.room)
        for words, wanted, begun in line_starts(self.room):
            self.assertEqual(offered(self.room, words, begun), wanted, f"after {words}")
        for words in (["edit"], ["edit", "script"], ["edit", "-k"], ["edit", "-o"], ["vars"], ["get", "CC"]):
            self.assertLessEqual(there, offered(self.room, ["mkedit", *words], ""), f"after {words}")
        self.assertEqual(offered(self.room, ["mkedit", "explain"], ""), names_of_refusals())
        # a depth is no file, nor is a name or a target
        for words in (["edit", "-d"], ["vars", "--name"], ["rules", "--target"], ["get", "--nth"]):
            self.assertFalse(there & offered(self.room, ["mkedit", *words], ""), words)

    def assert_completes_names(self, shell, offered):
        """A shell has to offer the names and the targets of the makefile that make reads, and of one that is named."""
        if not shutil.which(shell):
            self.skipTest(f"{shell} is not there")
        self.room.write("Makefile", HOSTILE.encode())
        there = files(self.room)
        for words, wanted in ((["get"], NAMES), (["vars", "--name"], NAMES), (["rules", "--target"], TARGETS)):
            self.assertEqual(offered(self.room, ["mkedit", *words], "") - there, wanted, words)
        self.assertEqual(offered(self.room, ["mkedit", "get"], "CF"), {"CFLAGS"})
        self.room.write("other.mk", b"ELSE = 1\n")
        self.assertEqual(offered(self.room, ["mkedit", "vars", "other.mk", "--name"], ""), {"ELSE"})
        self.assertFalse((self.room.folder / "pwned").exists())

    def test_bash_completes_what_help_lists(self):
        self.assert_completes("bash", offered_by_bash)

    def test_fish_completes_what_help_lists(self):
        self.assert_completes("fish", offered_by_fish)

    def test_bash_completes_names_and_runs_nothing_of_a_makefile(self):
        self.assert_completes_names("bash", offered_by_bash)

    def test_fish_completes_names_and_runs_nothing_of_a_makefile(self):
        self.assert_completes_names("fish", offered_by_fish)

    def test_the_file_for_fish_has_what_help_lists(self):
        text = (FOLDER / "mkedit.fish").read_text(encoding="utf-8")
        for command in with_options(self.room):
            found = options_of_fish(text, command)
            self.assertEqual(found, options(self.room, *command.split()), command)
        self.assertEqual({*FISH_REFUSALS.search(text)[1].split()}, names_of_refusals())
        self.assertEqual({*FISH_COMMAND.findall(text)}, commands(self.room))

    def test_the_file_for_zsh_has_what_help_lists(self):
        text = (FOLDER / "mkedit.zsh").read_text(encoding="utf-8")
        named = {*ZSH_COMMAND.findall(section_of_zsh(text, "_mkedit_commands"))}
        self.assertEqual(named, commands(self.room))
        for command in with_options(self.room):
            part = section_of_zsh(text, f"_mkedit_options_of_{command}" if command else "_mkedit")
            found = {it for pair in ZSH_OPTION.findall(part) for it in pair if it}
            self.assertEqual(found, options(self.room, *command.split()), command)
        part = section_of_zsh(text, "_mkedit_explain")
        found = {*re.search(r"refusals=\((.*?)\)", part, re.S)[1].split()}
        self.assertEqual(found, names_of_refusals())
        if shutil.which("zsh"):
            ran = subprocess.run(["zsh", "-n", FOLDER / "mkedit.zsh"], capture_output=True, text=True)
            self.assertEqual(ran.stderr, "")
