"""What is said of the commands and options of the program, read from its sources, and how the manual pages have it.

Below crates/mk_cli/src stand the options with their help (arguments.rt), what each command does in a line and
which options it has (commands.rt), and what stands below the help of a command (help.rt).
"""

import re
from pathlib import Path
from typing import NamedTuple

import mdoc
from refusals import on_one_line, texts_in

TOP = Path(__file__).resolve().parent.parent
SOURCES = [f"crates/mk_cli/src/{it}.rt" for it in ("arguments", "commands", "help")]

ARGUMENT = re.compile(r'const (\w+): Argument = \w+ \{\s+id: "(.*)",\s+kind: Kind::(\w+)([^;]*),\s+help: "(.*)",\n\};')
COMMAND = re.compile(r'Subcommand \{\s+word: "(.*)",\s+about: "(.*)",\s+arguments: &\[([^]]*)\]')
# A paragraph of help that the page has not: an example or a list, which has indented lines, and exit statuses.
ELSEWHERE = re.compile(r"^    |^Status:", re.M)
# What stands in the first paragraph on edit above what is said of scripts: a list of their commands.
LIST = re.compile(r".*\n    .*?\n", re.S)


class Argument(NamedTuple):
    """An option or a word: its name, what kind it is, what help says of it, and of an option its letter and its value's name."""

    name: str
    kind: str
    help: str
    letter: str = ""
    value: str = ""

    @property
    def forms(self):
        """What is written for it, as the manual pages have it."""
        if not self.name.startswith("--"):
            return [f"Ar {self.name}"]
        return [f"Fl {it}" + (f" Ar {self.value}" if self.value else "") for it in (*self.letter, self.name[1:])]

    @property
    def in_synopsis(self):
        form = self.forms[0] + (" ..." if self.kind in ("Values", "Words") else "")
        return f".{form}" if self.kind == "Required" else f".Op {form}"


def argument_of(name, kind, details, text):
    """The argument that is declared so."""
    if kind in ("Required", "Word", "Words"):
        return Argument(name, kind, text)
    letter, (value, default) = "".join(re.findall(r"'(.)'", details)), (re.findall(r'"(.*?)"', details) + ["", ""])[:2]
    return Argument(f"--{name}", kind, text + (f" [default: {default}]" if default else ""), letter, value)


def commands_of_program(top=TOP):
    """Each command of the program: its word, what it does in a line, and its arguments."""
    arguments, commands = ((top / it).read_text(encoding="utf-8") for it in SOURCES[:2])
    known = {constant: argument_of(*it) for constant, *it in ARGUMENT.findall(arguments)}
    return [(word, about, [known[it] for it in re.findall(r"\w+", names)]) for word, about, names in COMMAND.findall(commands)]


def parts(top=TOP):
    """The parts of the page on the program by their names, and what the one on scripts has of them.

    The parts are the synopsis, each command, and each argument that may be left out.
    """
    made, texts = {"synopsis": []}, texts_in((top / SOURCES[2]).read_text(encoding="utf-8"))
    for word, about, taken in commands_of_program(top):
        made["synopsis"] += [".Nm", f".Cm {word}", *(it.in_synopsis for it in taken)]
        made.update((it.name, mdoc.item(" , ".join(it.forms), f"{it.help}.")) for it in taken if it.kind != "Required")
        said = [on_one_line(it) for it in texts[word.upper()].split("\n\n") if not ELSEWHERE.search(it)]
        made[word] = mdoc.item(f"Cm {word}", " ".join([f"{about}.", *said[:1]]), *said[1:])
    return made, mdoc.paragraph(on_one_line(LIST.sub("", texts["EDIT"].partition("\n\n")[0])))
