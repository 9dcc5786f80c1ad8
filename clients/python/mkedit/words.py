"""Checks of the words of a line before it is sent to the program."""

import re
from typing import List, Literal, Tuple, TypeVar, get_args

# The operators of assignments; the separators of rules, and those of new ones; the first words of places of
# new assignments and rules, and those of places of any new line.
Operator = Literal["=", ":=", "::=", ":::=", "?=", "+=", "!="]
Separator = Literal[":", "::", "&:", "&::"]
NewSeparator = Literal[":", "::"]
PlaceWord = Literal["top", "bottom", "before-var", "after-var", "after-last-var", "before-rule", "after-rule"]
SiteWord = Literal[PlaceWord, "before-line", "after-line"]
OPERATORS: Tuple[Operator, ...] = get_args(Operator)
SEPARATORS: Tuple[Separator, ...] = get_args(Separator)
NEW_SEPARATORS: Tuple[NewSeparator, ...] = get_args(NewSeparator)
PLACE_WORDS: Tuple[PlaceWord, ...] = get_args(PlaceWord)
SITE_WORDS: Tuple[SiteWord, ...] = (*PLACE_WORDS, "before-line", "after-line")
W = TypeVar("W", bound=str)

# The greatest number in a command (docs/EDITS.md: K, and N of `nth N`), and in a request (docs/PROTOCOL.md).
MOST_OF_COMMAND, MOST_OF_REQUEST = 4_294_967_295, 999_999_999

# What ends a line, or is in none.
NEVER = re.compile(r"[\n\r\0]")
# What has to stand between quotes, and what gets a backslash there. A form feed and a `;` could stand
# without quotes; but an answer to `history` has each line without the former at its end, and the latter
# between two lines. And `<<` before a word stands for a block.
QUOTED, ESCAPED = re.compile(r'[ \t\f";]|<<'), re.compile(r'(["\\])')
# The fields of a line, and one that stands for a block, whose lines are below.
FIELD, BLOCK = re.compile(r'"(?:[^"\\]|\\.)*"|[^ \t]+'), re.compile("<<([A-Za-z0-9_]+)")
# What ends a word of a request.
WORD_END = re.compile(r"[ \t]")


def line_part(text: str) -> str:
    """Returns a text unchanged, or raises ValueError if it would end the line."""
    if not isinstance(text, str):
        raise TypeError(f"a field must be a str, not {type(text).__name__}")
    if NEVER.search(text):
        raise ValueError("a field must not contain a line feed, a carriage return or a NUL")
    return text


def one_of(words: Tuple[W, ...], text: str) -> W:
    """Returns the one of these words that a text is, or raises ValueError if it is none."""
    line_part(text)
    for it in words:
        if it == text:
            return it
    raise ValueError(f"this must be one of {' '.join(words)}, not {text!r}")


def field(text: str) -> str:
    """Quotes a field of a command if it needs quotes."""
    if line_part(text) and not QUOTED.search(text):
        return text
    return '"' + ESCAPED.sub(r"\\\1", text) + '"'


def block(text: str, below: List[str]) -> str:
    """A field for a block of one or more lines. The lines of one with several are put behind those below its command."""
    if not isinstance(text, str) or "\n" not in text:
        return field(text)
    lines = [line_part(it) for it in text.split("\n")]
    end = next(it for it in map("END{}".format, range(len(lines) + 1)) if it not in lines)
    below += (*lines, end)
    return f"<<{end}"


def block_words(command: str) -> List[str]:
    """The words that end the blocks of a command, in their order."""
    fields: List[str] = FIELD.findall(command)
    first = 0
    if fields[first] in ("try", "or"):
        first += 1
    if fields[first] == "nth":
        first += 2
    plain = {"insert": 1, "rule-replace": 1, "line-replace": 0, "line-remove": 0}.get(fields[first])
    if plain is None:
        return []
    if fields[first] == "insert" and fields[first + 1] not in ("top", "bottom", "before-line", "after-line"):
        plain += 1
    return [it[1] for it in map(BLOCK.fullmatch, fields[first + 1 + plain :]) if it]


def word(text: str) -> str:
    """Returns a word of a request, which cannot be quoted; raises ValueError if it has a blank or is empty."""
    if not line_part(text) or WORD_END.search(text):
        raise ValueError("a word of a request must not be empty or contain a blank")
    return text


def digits(value: int, most: int = MOST_OF_COMMAND, least: int = 0) -> str:
    """Formats a number, or raises TypeError or ValueError if the program would not take it."""
    if isinstance(value, bool) or not isinstance(value, int):
        raise TypeError(f"a number must be an int, not {type(value).__name__}")
    if not least <= value <= most:
        raise ValueError(f"this number must be from {least:,} to {most:,}")
    return format(value, "d")
