"""Reads the definitions and lemmas of crates/*/specs and crates/*/proofs, and what each names.

It reads the layout that `rt fmt` gives: an item begins a line, and what belongs to it stands
deeper, or between brackets. Nothing is checked here; the prover does that.
"""

import re
from pathlib import Path
from typing import NamedTuple

TOKEN = re.compile(
    r"(?P<skip>\s+|--[^\n]*|\{-.*?-\})"
    r'|(?P<word>"(?:\\.|[^"\\])*"|«[^»]*»|[(){}.;,@]|[^\s(){}.;,@"«»]+)',
    re.DOTALL,
)
MARKS = ("pub", "abbrev", "unfoldable", "pattern", "axiom")
OPENING, CLOSING = "({[", ")}]"
# Files that the prover asks for by their names: what stands in them is cited by it.
ANSWERS = ("Answers", "Invariants", "Proof", "Given")


class Token(NamedTuple):
    """A word of a file, with its line, its column, and whether blanks stand before it."""

    text: str
    line: int
    column: int
    spaced: bool


class Use(NamedTuple):
    """One imported name: what the file calls it, the module it is of, and its name there.

    The name there is None where the import is of the module itself.
    """

    local: str
    module: str
    name: object
    line: int
    is_pub: bool


class Declaration(NamedTuple):
    """A definition or a lemma, a data type with its constructors, or a set of lemmas.

    `own` are the names that it brings: its own first, then constructors. `statement` and `body` are
    lists of words. `parameters` are the words of the `module _` lines that it stands in. `lines` are
    the numbers of the lines that have its words; comments are none.
    """

    own: list
    kind: str
    is_pub: bool
    line: int
    parameters: list
    statement: list
    body: list
    lines: set


def tokens_of(text):
    """The words of a text, without blanks and comments."""
    found, line, start, spaced = [], 1, 0, True
    for match in TOKEN.finditer(text):
        word = match.group("word")
        if word is None:
            spaced = True
        else:
            found.append(Token(word, line, match.start() - start, spaced))
            spaced = False
        breaks = match.group().count("\n")
        if breaks:
            line, start = line + breaks, match.start() + match.group().rindex("\n") + 1
    return found


def items_of(tokens):
    """Cuts words into items: each begins a line in the column of the first, outside brackets."""
    items, depth, line = [], 0, 0
    for token in tokens:
        begins = token.line > line and depth == 0 and token.text not in CLOSING
        if not items or begins and token.column <= items[0][0].column:
            items.append([])
        items[-1].append(token)
        depth += (token.text in OPENING) - (token.text in CLOSING)
        line = token.line
    return items


def words_of(tokens):
    """The words of tokens, where a dot and what stands around it without blanks are one word."""
    words, follows_dot = [], False
    for token, after in zip(tokens, tokens[1:] + tokens[-1:]):
        is_dot = token.text == "." and not token.spaced and not after.spaced
        if (is_dot and words[-1] not in CLOSING) or follows_dot:
            words[-1] += token.text
        else:
            words.append(token.text)
        follows_dot = is_dot
    return words


def find_outside(tokens, wanted):
    """The index of the first of some words that stands outside brackets, or None."""
    depth = 0
    for index, token in enumerate(tokens):
        if depth == 0 and token.text in wanted:
            return index
        depth += (token.text in OPENING) - (token.text in CLOSING)
    return None


def uses_of(item):
    """The names that a `use` item imports."""
    is_pub = item[0].text == "pub"
    line = item[0].line
    words = [token.text for token in item if token.text not in ("use", "pub")]
    if "{" not in words:
        local = words[-1]
        path = words[: words.index("as")] if "as" in words else words
        return [Use(local, "".join(path), None, line, is_pub)]
    brace = words.index("{")
    module = "".join(words[: brace - 1])
    uses, names = [], " ".join(words[brace + 1 : -1]).split(",")
    for name in (name.split() for name in names if name.strip()):
        uses.append(Use(name[-1], module, name[0], line, is_pub))
    return uses


class File:
    """A file of definitions or lemmas. Of rows only the imports are read."""

    def __init__(self, top, path):
        parts = path.relative_to(top / "crates").with_suffix("").parts
        self.path = path
        self.shown = str(path.relative_to(top))
        self.crate = parts[0]
        self.module = ".".join(("Rattle",) + parts)
        self.is_rows = parts[0].endswith("_rows") or "rows" in parts or is_rows_name(parts[-1])
        self.is_answer = parts[-1] in ANSWERS
        self.uses, self.declarations, self.opened = [], [], []
        text = path.read_text(encoding="utf-8")
        if self.is_rows:
            text = "\n".join(line for line in text.splitlines() if line.startswith("use "))
        self.read_items(tokens_of(text), [])

    def read_items(self, tokens, parameters):
        """Reads items that stand under the parameters of `module _` lines."""
        for item in items_of(tokens):
            marks = [token.text for token in item[:4] if token.text in MARKS]
            rest = item[len(marks) :]
            head = rest[0].text
            if head == "use":
                self.uses += uses_of(item)
            elif head == "module":
                end = find_outside(rest, ("where",))
                below = rest[end + 1 :]
                if below:
                    self.read_items(below, parameters + words_of(rest[2:end]))
            elif head in ("data", "record"):
                self.add_type(head, marks, item, rest, parameters)
            elif head == "ruleset":
                self.add([rest[1].text], head, marks, item, parameters, [], words_of(rest[2:]))
            elif head == "open":
                self.opened += words_of(rest)
            elif head not in ("mod", "infixl", "infixr", "infix"):
                self.add_lines(marks, item, rest, parameters)

    def add(self, own, kind, marks, item, parameters, statement, body):
        """Adds a declaration."""
        line, lines = item[len(marks)].line, {token.line for token in item}
        self.declarations.append(Declaration(own, kind, "pub" in marks, line, parameters, statement, body, lines))

    def add_type(self, head, marks, item, rest, parameters):
        """Adds a data type or a record, with the names of its constructors."""
        where = find_outside(rest, ("where",))
        body = [] if where is None else rest[where + 1 :]
        own = [rest[1].text]
        if head == "data":
            own += [item[0].text for item in items_of(body)]
        statement = words_of(rest[2:where])
        self.add(own, head, marks, item, parameters, statement, words_of(body))

    def add_lines(self, marks, item, rest, parameters):
        """Adds a signature, or adds a clause or an `unfolding` line to the last one."""
        index = find_outside(rest, (":", "="))
        if index is not None and rest[index].text == ":":
            kind = next((mark for mark in ("abbrev", "unfoldable") if mark in marks), "lemma")
            statement = words_of(rest[index + 1 :])
            self.add([rest[0].text], kind, marks, item, parameters, statement, [])
        else:
            self.declarations[-1].body.append("\n")
            self.declarations[-1].body.extend(words_of(item))
            self.declarations[-1].lines.update(token.line for token in item)


def is_rows_name(name):
    """Whether a file of this name has rows: definitions computed on examples."""
    return name.endswith("Rows") or bool(re.fullmatch(r"(Worked|Random)[A-Z]\w*", name))


def files_of(top, folders=("specs", "proofs")):
    """All files of definitions and lemmas, by module."""
    files = {}
    for folder in folders:
        for path in sorted(Path(top, "crates").glob(f"*/{folder}/**/*.antt")):
            file = File(top, path)
            files[file.module] = file
    return files
