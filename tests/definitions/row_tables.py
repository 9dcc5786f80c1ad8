"""What the scripts of this folder share: tables of rows, terms, and files of lists that the prover computes.

A table is a file of lines with columns between tabs; its first line names the columns. In a column
\\\\, \\t, \\n, \\r and \\xHH stand for a backslash, a tab, a line end, a return and the byte HH.

A file of lists has a row on each line: a tuple of what is asked and, last, the answer, with the row's
name behind it. Below each list is one equation, which the prover computes: what the definitions answer
to its rows are the answers in its rows. It fails where one row has another answer, and names the list.
The environment's ROWS_IN_A_LIST=1 makes lists of one row, so that each row that fails is named.
"""

import os
import re
from pathlib import Path

ROWS_IN_A_LIST = int(os.environ.get("ROWS_IN_A_LIST", "50"))

# ---- tables

ESCAPES = {"\\\\": "\\", "\\t": "\t", "\\n": "\n", "\\r": "\r"}
ESCAPE = re.compile(r"\\x[0-9A-Fa-f]{2}|\\[\\tnr]")


def unescape(column):
    """The text that a column stands for, a byte as the character of its number."""
    return ESCAPE.sub(lambda found: ESCAPES.get(found.group()) or chr(int(found.group()[2:], 16)), column)


def bytes_of(row, name):
    """The bytes of a column of a row."""
    return unescape(row[name]).encode("latin-1")


def rows_of_table(path):
    """The rows of a table, each a dictionary from the names of the columns to their texts.

    A ValueError says which line has another number of columns than the first, or a name that an earlier
    line has.
    """
    head, *lines = [line.split("\t") for line in Path(path).read_text("ascii").rstrip("\n").split("\n")]
    names = set()
    for number, line in enumerate(lines, 2):
        if len(line) != len(head):
            raise ValueError(f"{path}, line {number}: {len(line)} columns, not {len(head)}")
        if line[0] in names:
            raise ValueError(f"{path}, line {number}: an earlier line has the name {line[0]}")
        names.add(line[0])
    return [dict(zip(head, line)) for line in lines]


# ---- terms


def antt_text(text):
    """A text as a term, which draws no control character."""
    if not text:
        return "[]"
    escapes = {0: "\\0", 9: "\\t", 10: "\\n", 13: "\\r", 34: '\\"', 92: "\\\\"}
    term = '(codes "' + "".join(escapes.get(byte, chr(byte)) for byte in text) + '")'
    return re.sub(r"[\x01-\x1f\x7f]", lambda found: f"\\u{{{ord(found.group()):x}}}", term)


def antt_list(terms):
    """A list of terms as a term."""
    return "(" + " ∷ ".join([*terms, "[]"]) + ")" if terms else "[]"


def antt_texts(texts):
    """A list of texts as a term."""
    return antt_list([antt_text(text) for text in texts])


def antt_bool(value):
    """A truth value as a term."""
    return "true" if value else "false"


def bare(term):
    """A term that is in parentheses, without them."""
    return term[1:-1] if term.startswith("(") else term


# ---- files of lists

# What every such file may import.
COMMON_IMPORTS = [
    ("Rattle.std.proofs.Common", ["◌≡◌", "refl", "ℕ", "Bool", "true", "false", "List", "[]", "◌∷◌", "map", "Option", "Some", "None"]),
    ("Rattle.std.specs.Prelude", ["codes", "Result", "Ok", "Err"]),
]


def without_texts(body):
    """The terms of a body, without the texts in them and the names behind the rows."""
    return re.sub(r'"[^"\\]*(?:\\.[^"\\]*)*"|--.*', "", body)


def has_name(terms, name):
    """Whether terms have a name."""
    if name.startswith("◌"):
        return name.strip("◌") in terms
    return name == "[]" or bool(re.search(rf"(?<![\w.]){name}(?!\w)", terms))


def import_of(module, names, terms):
    """The line that imports what terms have of a module: some of its names, or all of them behind one word."""
    if isinstance(names, str):
        return f"use {module} as {names}\n" if re.search(rf"(?<![\w.]){names}\.", terms) else ""
    used = [name for name in names if has_name(terms, name)]
    return f"use {module}.{{{', '.join(used)}}}\n" if used else ""


def print_file(title, imports, body):
    """Prints a file of a title, a body and, of the imports, those that the body needs. An import is a module with its
    names, or with the word before each of them."""
    terms = without_texts(body)
    head = "".join(import_of(module, names, terms) for module, names in [*COMMON_IMPORTS, *imports])
    print(f"-- {title}\n{head}{body}", end="")


def lists_of(rows, row_type, asked, unfolding):
    """The lists of rows, each a name and its terms, and the equation of each list."""
    for number, first in enumerate(range(0, len(rows), ROWS_IN_A_LIST), 1):
        part = rows[first : first + ROWS_IN_A_LIST]
        answer = len(part[0][1]) - 1
        yield f"\nabbrev rows_{number} : List ({row_type})\nrows_{number} =\n"
        for name, terms in part:
            yield f"    ({', '.join(terms)}) ∷  -- {name}\n"
        yield f"    []\n\nanswers_{number} : map (λ row. {asked}) rows_{number} ≡ map (λ row. row.{answer}) rows_{number}\n"
        yield f"unfolding {unfolding}\n" * bool(unfolding) + f"answers_{number} = refl\n"


def print_lists(title, imports, rows, row_type, asked, unfolding="", helpers=""):
    """Prints a file of lists of rows of a type; `asked` is what is asked of each `row`, and may name the helpers."""
    print_file(title, imports, helpers + "".join(lists_of(list(rows), row_type, asked, unfolding)))


def print_equations(title, imports, rows, unfolding=""):
    """Prints a file with an equation of each row: a name, a question and its answer."""
    opened = f"unfolding {unfolding}\n" * bool(unfolding)
    names = ((name.replace("-", "_"), asked, answer) for name, asked, answer in rows)
    print_file(title, imports, "".join(f"\nrow_{it} : {asked} ≡ {answer}\n{opened}row_{it} = refl\n" for it, asked, answer in names))
