"""What several tests ask of the documents: the refusals, and the displays of the manual pages."""

import re

from tests import TOP

DOCS = TOP / "docs"
# The manual pages: the command line, and scripts.
PAGE, SCRIPT_PAGE = DOCS / "mkedit.1", DOCS / "mkedit-script.5"
TEXTS = TOP / "crates/mk_edit_language/specs/RefusalTexts.antt"
NUMBER = re.compile(r"^number_of \(?(\w+).*?= (\d+)$", re.M)
ENTRY = re.compile(r"^- \*\*(\d+) `(\w+)`", re.M)
DISPLAY = re.compile(r"^\.Bd -literal[^\n]*\n(.*?)^\.Ed$", re.M | re.S)
ESCAPE = re.compile(r"\\(.)")
ESCAPED = {"e": "\\", "&": ""}


def refusals():
    """The number and the name of each refusal, as the definitions have them."""
    return [(number, name) for name, number in NUMBER.findall(TEXTS.read_text(encoding="utf-8"))]


def edits():
    """The text of docs/EDITS.md."""
    return (DOCS / "EDITS.md").read_text(encoding="utf-8")


def told_refusals():
    """The number and the name of each refusal, as docs/EDITS.md has them."""
    return ENTRY.findall(edits())


def page(path=PAGE):
    """The text of a manual page."""
    return path.read_text(encoding="utf-8")


def displays_of(source):
    """The text of each literal display; an escape that is not among the known ones is a KeyError."""
    for shown in DISPLAY.findall(source):
        yield ESCAPE.sub(lambda escape: ESCAPED[escape[1]], shown)
