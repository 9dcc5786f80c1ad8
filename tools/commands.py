"""What is said of each command of a script, read from its one source, and the forms in which the documents have it.

The table of commands stands in crates/mk_script/src/table.rt, and the texts in crates/mk_cli/src/command_texts.rt,
as the program prints them: what the command does, its refusals, and an example, with an empty line between the
three.
"""

import re
from pathlib import Path
from typing import NamedTuple

import mdoc
from refusals import cell, on_one_line, outdented, texts_in

TOP = Path(__file__).resolve().parent.parent
TABLE = "crates/mk_script/src/table.rt"
TEXTS = "crates/mk_cli/src/command_texts.rt"

# A command's form; its word, and the constant that has its text.
FORM = re.compile(r'^ +\(\s*"(.*)",\s+\w+,\s+Word::\w+,?\s*\),$', re.M)
ROW = re.compile(r'^ +\("(.*)", ([A-Z_]+)\),$', re.M)
PARTS = re.compile(
    r"(.*?)\n\nIs refused with (.*?)\.\n\nExample: over\n(.*?)\nthe script\n(.*?)\nmakes\n(.*)\n", re.S
)


# What makes no edit by itself.
NO_EDITS = frozenset("nth try or undo redo begin end cancel".split())


class Command(NamedTuple):
    """A command of a script, by its form.

    text is what `mkedit help` prints below the form. does is what the command does, and refusals with which
    refusals it is refused, each on one line. The example is a makefile, a script, and the text after it.
    """

    form: str
    text: str
    does: str
    refusals: str
    makefile: str
    script: str
    after: str

    @property
    def word(self):
        return self.form.split()[0]

    @property
    def first(self):
        """The first sentence on what the command does."""
        return re.match(r".*?\.(?= |$)", self.does)[0]


def command_of(form, text):
    """The command that a text is about. A ValueError says that the text has another form."""
    parts = PARTS.fullmatch(text)
    if not parts:
        raise ValueError(f"{TEXTS}: the text of {form} is no sentence, refusals and example")
    does, refusals, *example = parts.groups()
    return Command(form, text, on_one_line(does), on_one_line(refusals), *map(outdented, example))


def commands(top=TOP):
    """All commands, in the order of the table. A ValueError says what the sources have in another form."""
    forms = FORM.findall((top / TABLE).read_text(encoding="utf-8"))
    source = (top / TEXTS).read_text(encoding="utf-8")
    texts, rows = texts_in(source), dict(ROW.findall(source))
    if sorted(texts) != sorted(rows.values()) or [*rows] != [it.split()[0] for it in forms]:
        raise ValueError(f"{TEXTS} has not one text for each command of {TABLE}")
    return [command_of(form, texts[rows[form.split()[0]]]) for form in forms]


def table(found):
    """The table of README.md: the edits alone, each in a sentence."""
    yield "| Script command | What it does |"
    yield "|---|---|"
    for it in found:
        if it.word not in NO_EDITS:
            yield f"| `{it.form}` | {cell(it.first)} |"


def full_table(found):
    """The table of docs/EDITS.md."""
    yield "| Command | What it does | Is refused with |"
    yield "|---|---|---|"
    for it in found:
        yield f"| `{it.form}` | {cell(it.first)} | {cell(it.refusals)} |"


def items(found):
    """The items of the manual page on scripts, by the words of the commands."""
    for it in found:
        fields = it.form[len(it.word) :]
        item = mdoc.item(f"Cm {it.word}" + (f" Ar{fields}" if fields else ""), it.does)
        yield it.word, [*item, *mdoc.display(it.makefile, it.script, it.after)]
