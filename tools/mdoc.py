"""A text with words between backticks, as a manual page has it in the language mdoc."""

import re
import textwrap

WIDTH = 80
OPTION = r"-(?:\w|-[a-z]+)\b"
# A word for which a user writes another: FILE, or the K of the K-th line.
FIELD = r"(?!ASCII|CR|JSON|MB|NUL|UTF)(?:[A-Z]{2,}|[KN]\b)"
# What is marked up, and what follows it without a blank.
MARKED = re.compile(rf"(?<!\S)(?:`(?P<span>[^`]+)`|(?P<word>{OPTION}|{FIELD}))(?P<rest>\S*)")
# A sentence ends where a blank and a capital follow, or what is marked up.
END = re.compile(r"\. (?=[A-Z]|$)")


def escaped(word):
    """A word of a macro: its backslashes and quotes as they are, and no macro or punctuation of its own."""
    word = word.replace("\\", "\\e").replace('"', "\\(dq")
    special = re.fullmatch(r"[][().,:;!?|]|[A-Z][a-z]|%[A-Z]", word)
    return f"\\&{word}" if special else word


def marked(found):
    """The macro of what is marked up, with what follows it."""
    word, rest = found["span"] or found["word"], found["rest"]
    if re.fullmatch(OPTION, word):
        line = f".Fl {word[1:]}"
    elif re.fullmatch(FIELD, word):
        line = f".Ar {word}"
    elif re.fullmatch(r"[a-z]+(?:-[a-z]+)*", word):
        line = f".Cm {word}"
    else:
        line = " ".join([".Ql", *map(escaped, word.split(" "))])
    # (a macro puts a blank before what follows, but not before punctuation)
    return " ".join([line, *(rest if not rest.strip(".,:;") else ["Ns", rest])])


def plain(text):
    """The lines of plain words, without the blanks around them."""
    for sentence in END.sub(".\n", text.replace("\\", "\\e")).strip().splitlines():
        for line in textwrap.wrap(sentence.strip(), WIDTH, break_on_hyphens=False, break_long_words=False):
            yield f"\\&{line}" if line[0] in ".'" else line


def paragraph(text):
    """The lines of a text. A ValueError says that it has a form that is not known here."""
    lines, at = [], 0
    for it in MARKED.finditer(text):
        lines += [*plain(text[at : it.start()]), marked(it)]
        at = it.end()
    lines += plain(text[at:])
    if "`" in "".join(lines):
        raise ValueError(f"a backtick without a blank before it: {text}")
    return lines


def item(head, *texts):
    """An item of a list, with a paragraph for each text."""
    lines = [it for text in texts for it in (".Pp", *paragraph(text))]
    return [f".It {head}", *lines[1:]]


def display(*texts):
    """A literal display of those texts that are not empty, with an empty line between them."""
    shown = "\n".join(filter(None, texts)).replace("\\", "\\e").rstrip("\n").split("\n")
    lines = [f"\\&{it}" if it.startswith((".", "'")) else it for it in shown]
    return [".Bd -literal -offset indent", *lines, ".Ed"]
