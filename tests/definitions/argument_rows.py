#!/usr/bin/env python3
"""Random rows for the tests of what an edit may write: values, words, targets, names and commands.

Answers the five tests on random short texts by plain programs written from the rules in words, and
prints a file of equations by which the checker computes the definitions of
`crates/mk_class/specs/Arguments.antt` on the same texts. Where the file checks, both agree on each.

    argument_rows.py COUNT SEED

COUNT texts are drawn by SEED; one text may be drawn twice. tests/gate/rows.py says which rows the crate keeps.
Other rows are for a copy of the crate.
"""

import re

from line_rows import antt_bool, antt_list, print_rows, ranges, units

# What texts are made of: likely words, and parts that some test refuses.
PLAIN = [b"a", b"b", b"Z", b"9", b"_", b".", b"-", b"x.o", b"%.c", b"$(a b)", b"${c}", b"$x", b"$$", b"/", b"@"]
OTHER = [b"\\", b"$", b"$(", b"${", b")", b"}", b" ", b"\t", b"\n", b"\r", b"\0", b"#", b":", b";", b"=", b"|", b"&",
         b"+", b"?", b"!", b"\\#", b"$#", b"$ ", b"$\\", b"\\$", b"{", b"`", b"[", b"^", b"~", b"@", b"\xe9"]


def texts_of_units(text):
    """The units of a text."""
    return [text[start:end] for start, end in ranges(units(text)[0])]


def is_closed(text):
    """Whether no unit is a lone dollar or an unclosed reference, and the last is no lone backslash."""
    return units(text)[1]


def is_clean(text):
    """Whether there is no LF, CR or NUL."""
    return not set(text) & set(b"\n\r\0")


def is_value(text):
    """Whether a text may be a value."""
    blank_ends = text[:1] in (b" ", b"\t") or text[-1:] in (b" ", b"\t")
    return is_clean(text) and not blank_ends and is_closed(text) and b"#" not in texts_of_units(text) and text[-1:] != b"\\"


def is_word(text):
    """Whether a text may be a word."""
    return bool(text) and is_clean(text) and is_closed(text) and all(
        unit not in (b" ", b"\t", b"#", b":", b";", b"=", b"|")
        and not unit.startswith(b"\\")
        and not (unit.startswith(b"$") and unit[1:2] in (b" ", b"\t", b"\\"))
        for unit in texts_of_units(text)
    )


def is_target(text):
    """Whether a text may be a target."""
    return is_word(text) and not text.endswith(b"&")


def is_name(text):
    """Whether a text may be a variable's name."""
    return re.fullmatch(rb"[A-Za-z0-9_.-]+", text) is not None


def is_command(text):
    """Whether a text may be a recipe line's command."""
    return is_clean(text) and not text.endswith(b"\\")


TESTS = [is_value, is_word, is_target, is_name, is_command]


def random_text(random_source):
    """A short text, of plain parts alone or with some others."""
    parts = PLAIN if random_source.random() < 0.2 else PLAIN + OTHER
    return b"".join(random_source.choice(parts) for _ in range(random_source.randrange(0, 6)))


HEAD = """-- Random texts and whether they may be values, words, targets, names and commands. Made by
-- `tests/definitions/argument_rows.py {count} {seed}`.
use Rattle.std.proofs.Common.{{◌≡◌, refl, ℕ, List, [], ◌∷◌, Bool, true, false}}
use Rattle.std.specs.Prelude.{{codes}}
use Rattle.mk_class.specs.Arguments.{{is_value, is_word, is_target, is_name, is_command}}

-- whether a text may be a value, a word, a target, a name and a command
abbrev allowed : List ℕ → List Bool
allowed t = is_value t ∷ is_word t ∷ is_target t ∷ is_name t ∷ is_command t ∷ []
"""


def main():
    print_rows(HEAD, random_text, "allowed", lambda text: antt_list([antt_bool(test(text)) for test in TESTS]))


if __name__ == "__main__":
    main()
