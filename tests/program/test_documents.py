"""The examples of docs/EDITS.md and of the last chapter of docs/LANGUAGE.md, run through the program.

In an example `⏎` is a line feed, `⇥` a tab, `␌` a form feed and `␀` a NUL. Two forms are run:

    MAKEFILE          COMMAND          TEXT       a line, its columns at least two blanks apart
    MAKEFILE          OUTPUT                      the lines below the title of a query, which has them
                                                  side by side

In docs/EDITS.md each note on a line that is no command has examples in its row of a table.

In the last chapter of docs/LANGUAGE.md each section with an example also names, as `5: opaque`, what
`mkedit check` prints of the section's first makefile, and as "`caveats` names line 6" of which line
`mkedit caveats` tells. docs/LIBRARY.md shows lines of two files.
"""

import re

from tests import TOP
from tests.lib.checks import Outcome, differences
from tests.lib.documents import DOCS, edits
from tests.lib.rooms import RoomCase
from tests.program.test_script_help import sources

EDITS, LANGUAGE, LIBRARY = (DOCS / f"{it}.md" for it in ("EDITS", "LANGUAGE", "LIBRARY"))
QUOTED = (
    "crates/caller_example/src/main.rt",
    "crates/mk_session/src/session.rt",
)
LAST_CHAPTER = "## 8. Where make reads otherwise\n"
COMMANDS = (
    "nth all set set-if append add drop prepend replace add-before add-after subst operator values-subst unset "
    "comment-out uncomment assign rule unrule depend depend-order undepend depend-replace recipe recipe-set "
    "recipe-del recipe-insert recipe-replace recipe-remove recipe-subst recipes-subst rename insert line-replace "
    "line-remove rule-replace rule-remove"
)
EXAMPLE = re.compile(
    rf"^    (\S.*?⏎|X=1) {{2,}}((?:{COMMANDS.replace(' ', '|')}) .*?) {{2,}}(\S.*⏎)$", re.M
)
QUERY = re.compile(r"^### `mkedit (\w+)`\n(?:.*\n)*?\n((?:    .*\n)+)", re.M)
SECTION = re.compile(r"^### (.*)\n((?:(?!### ).*\n)*)", re.M)
UNREAD = re.compile(r"`(\d+: (?:rough|opaque))`")
CAVEAT = re.compile(r"`caveats` names line (\d+)")
# The forms of commands, in the title of an entry or at its front.
ENTRY = re.compile(r"^### (`.*`)$|\*\*(`[^`]+`)\*\*", re.M)
# The table of notes on lines that are no command, and what stands between backticks.
NOTES = re.compile(r"^\| The note says \| For example \|\n\|---\|---\|\n((?:\|.*\n)+)", re.M)
SPAN = re.compile(r"`` ?(.+?) ?``|`([^`]+)`")
CODE = re.compile(r"^```rust\n((?:(?!```).*\n)*)```\n", re.M)


def text_of(shown):
    """The bytes that an example shows."""
    return shown.translate(str.maketrans("⏎⇥␌␀", "\n\t\f\0")).encode()


def edit(room, makefile, command):
    room.write("Makefile", text_of(makefile))
    room.write("script", text_of(command) + b"\n")
    return room.run("edit", "script", "Makefile")


def check_edits(room, document):
    for before, command, after in EXAMPLE.findall(document):
        yield command, differences(edit(room, before, command), Outcome(text_of(after), b"", 0))


def check_queries(room, document):
    for query, block in QUERY.findall(document):
        rows = [re.fullmatch(r"    (\S.*?⏎) *(.*)\n", line) for line in block.splitlines(True)]
        room.write("Makefile", b"".join(text_of(row[1]) for row in rows))
        wanted = "".join(row[2] + "\n" for row in rows if row[2]).encode()
        yield query, differences(room.run(query, "Makefile"), Outcome(wanted, b"", 0))


def spans(cell):
    return [double or single for double, single in SPAN.findall(cell)]


def check_notes(room, document):
    """Each example that a row has outside of brackets has to get a note that begins as one of the row does."""
    for row in NOTES.search(document)[1].splitlines():
        notes, examples = row.strip("| ").split(" | ")
        begins = tuple(it.removesuffix("..").rstrip() for it in spans(notes))
        for example in spans(re.sub(r"\(.*?\)", "", examples)):
            room.write("script", text_of(example) + b"\n")
            note = room.run("edit", "--notes", "script", "Makefile").stderr.decode().rpartition(" note: ")[2]
            yield example, [] if note.startswith(begins) else [f"the note is {note}"]


def check_unread(room, chapter):
    for title, section in SECTION.findall(chapter):
        example = EXAMPLE.search(section)
        if example:
            room.write("Makefile", text_of(example[1]))
            wanted = "".join(f"{it}\n" for it in UNREAD.findall(section)).encode()
            yield title, differences(room.run("check", "Makefile"), Outcome(wanted, b"", 0))
            named = re.findall(r"^(\d+): ", room.run("caveats", "Makefile").stdout.decode(), re.M)
            caveats = CAVEAT.findall(section)
            wrong = [f"caveats names {named}, wanted {caveats}"] if named != caveats else []
            yield f"caveats, {title}", wrong


def check_code(_, document):
    """The blocks of code: their lines have to stand in the files of QUOTED, apart from indentation."""
    code = "\n".join((TOP / it).read_text(encoding="utf-8") for it in QUOTED)
    code = re.sub(r"^ +", "", code, flags=re.M)
    for block in CODE.findall(document):
        shown = re.sub(r"^ +", "", block, flags=re.M)
        yield shown.splitlines()[0], [] if shown in code else ["it does not stand in the crates"]


def last_chapter():
    """The chapter of docs/LANGUAGE.md on what make reads otherwise."""
    return LANGUAGE.read_text(encoding="utf-8").partition(LAST_CHAPTER)[2]


class Documents(RoomCase):
    def assert_examples(self, document, check, text, least):
        """Every example has to be so. They are counted, so that none drops out by its form."""
        found = list(check(self.room, text))
        name = f"docs/{document.name}"
        self.assert_cases((f"{name}: {example}", problems) for example, problems in found)
        with self.subTest(f"{name}: {check.__name__.replace('_', '-')}"):
            self.assertGreaterEqual(len(found), least)

    def test_the_examples_of_the_page_on_edits(self):
        self.assert_examples(EDITS, check_edits, edits(), 26)
        self.assert_examples(EDITS, check_queries, edits(), 5)
        self.assert_examples(EDITS, check_notes, edits(), 15)

    def test_each_command_of_a_script_has_an_entry_on_the_page_on_edits(self):
        forms = re.findall(r"`([^`]+)`", "".join(map("".join, ENTRY.findall(edits()))))
        found = [it for it in forms if not it.startswith("mkedit ")]
        self.assertEqual(sorted(found), sorted(it.form for it in sources()))

    def test_the_examples_of_what_make_reads_otherwise(self):
        self.assert_examples(LANGUAGE, check_edits, last_chapter(), 34)
        self.assert_examples(LANGUAGE, check_unread, last_chapter(), 36)

    def test_the_code_of_the_page_on_the_library(self):
        self.assert_examples(LIBRARY, check_code, LIBRARY.read_text(encoding="utf-8"), 6)
