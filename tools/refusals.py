"""What is said of each refusal, read from its one source, and the forms in which the documents have it.

The texts stand in crates/mk_cli/src/explanations.rt, as the program prints them: the cause, an example
and what to do, with an empty line between the three. The numbers, and whether a count or a field comes
with a refusal, stand in the definitions, RefusalTexts.antt.
"""

import json
import re
import textwrap
from pathlib import Path
from typing import NamedTuple

import mdoc

TOP = Path(__file__).resolve().parent.parent
TEXTS = "crates/mk_cli/src/explanations.rt"
NUMBERS = "crates/mk_edit_language/specs/RefusalTexts.antt"

CONSTANT = re.compile(r'^const (\w+): &str = "\\\n(.*?)";$', re.M | re.S)
CHOICE = re.compile(r"^ +Refusal::(\w+)(?:\(_\))? => (\w+),$", re.M)
NUMBER = re.compile(r"^number_of \(?(\w+).*?= (\d+)$", re.M)
DETAIL = re.compile(r"^detail_of \((\w+) \w+\) = detail\.(\w+)", re.M)
ESCAPE = re.compile(r"\\(.)")
ESCAPED = {"\\": "\\", '"': '"', "t": "\t", "n": "\n"}

# How long a line of a document is, what stands there between backticks, and a sentence on an example.
WIDTH = 100
CODE = re.compile(r"``.+?``|`[^`]+`")
OF_EXAMPLE = re.compile(r"In the example .*?\. ")
FIRST = re.compile(r".*?\.(?= |$)")

PARTS = re.compile(r"(.*?)\n\nExample: (.*?)\n\n(.*?)\n", re.S)
EXAMPLE = re.compile(r"(?:over\n(.*?)\n)?the script\n(.*?)\nis reported as\n(.*)", re.S)


class Refusal(NamedTuple):
    """A refusal, by its number and name, with the word for what a report says beside it, or none.

    text is what `mkedit explain` prints below the number and the name. The cause and the advice are
    sentences on one line. An example has a script, a report and perhaps a makefile; one in words has
    words in place of these.
    """

    number: int
    name: str
    detail: str
    text: str
    cause: str
    makefile: str
    script: str
    report: str
    words: str
    advice: str


def on_one_line(text):
    return " ".join(text.split())


def outdented(block):
    """The text of a block of lines that are indented by four blanks; nothing of no block."""
    return re.sub(r"^ {4}", "", block, flags=re.M) + "\n" if block else ""


def texts_in(source):
    """The text of each constant of a source, by its name."""
    return {name: ESCAPE.sub(lambda it: ESCAPED[it[1]], text) for name, text in CONSTANT.findall(source)}


def refusal_of(number, name, detail, text):
    """The refusal that a text is about. A ValueError says that the text has another form."""
    parts = PARTS.fullmatch(text)
    if not parts:
        raise ValueError(f"{TEXTS}: the text of {name} is no cause, example and advice")
    cause, example, advice = parts.groups()
    shape = EXAMPLE.fullmatch(example)
    makefile, script, report = map(outdented, shape.groups()) if shape else ("", "", "")
    words = "" if shape else on_one_line(example)
    return Refusal(
        number, name, detail, text, on_one_line(cause), makefile, script, report, words, on_one_line(advice)
    )


def refusals(top=TOP):
    """All refusals, by their numbers. A ValueError says what the sources have in another form."""
    source, numbers = ((top / it).read_text(encoding="utf-8") for it in (TEXTS, NUMBERS))
    texts, chosen, details = texts_in(source), dict(CHOICE.findall(source)), dict(DETAIL.findall(numbers))
    numbered = {name: int(number) for name, number in NUMBER.findall(numbers)}
    if {*numbered} != {*chosen} or sorted(texts) != sorted(chosen.values()):
        raise ValueError(f"{TEXTS} and {NUMBERS} have not the same refusals")
    found = sorted((number, name) for name, number in numbered.items())
    return [refusal_of(it, name, details.get(name, "").lower(), texts[chosen[name]]) for it, name in found]


def cell(text):
    """A text as a cell of a table has it: on one line, and each bar behind a backslash."""
    return text.replace("|", "\\|")


def entry(text):
    """A text as an entry of a list in Markdown: no line breaks within what stands between backticks."""
    glued = CODE.sub(lambda it: it[0].replace(" ", "\0"), text)
    lines = textwrap.wrap(glued, WIDTH, subsequent_indent="  ", break_long_words=False, break_on_hyphens=False)
    return [it.replace("\0", " ") for it in lines]


def entries(found):
    """The list of docs/EDITS.md, without the examples and what is said of them."""
    for it in found:
        name = f"`{it.name}` *{it.detail}*" if it.detail else f"`{it.name}`"
        advice = OF_EXAMPLE.sub("", it.advice)
        yield from entry(f"- **{it.number} {name}**: {it.cause} *Fix:* {advice}")


def sentences(found):
    """The entries of a dictionary in Python: the first sentence on each refusal, by its name."""
    for it in found:
        first = FIRST.match(it.cause)[0]
        lines = textwrap.wrap(first, WIDTH, drop_whitespace=False, break_long_words=False, break_on_hyphens=False)
        if len(lines) == 1:
            yield f'    "{it.name}": {json.dumps(first)},'
        else:
            yield from (f'    "{it.name}": (', *(f"        {json.dumps(line)}" for line in lines), "    ),")


def items(found):
    """The list of the manual page on scripts."""
    yield ".Bl -tag -width Ds"
    for it in found:
        yield from mdoc.item(f"{it.number} {it.name}" + (f" Ar {it.detail}" if it.detail else ""), it.cause)
        if it.words:
            yield from mdoc.paragraph(f"For example, {it.words}")
        else:
            yield from (*mdoc.display(it.makefile, it.script, it.report), ".Pp")
        yield from mdoc.paragraph(it.advice)
    yield ".El"
