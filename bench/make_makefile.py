#!/usr/bin/env python3
"""Writes a makefile of exactly BYTES bytes to standard output, the same for the same arguments.

    make_makefile.py [--kind KIND] SEED BYTES

makefile  what build systems hold: variables, lists over many folds, rules and recipes, comments,
          conditionals, defines and includes; some 40 bytes a line
settings  variables, comments and blank lines alone
pairs     a variable, and a rule with a recipe, over and over: more than 10,000 of each in a megabyte.
          The object file that a rule makes is a target of this rule alone, and a prerequisite of some others
every-N   `pairs` in which N variables, from all over it, have the name ALL and the flag -X first
counted   10,000 variables ONE, a rule with 10,000 recipe lines, one with as many empty lines below it,
          and then `pairs`
blank     one variable and then empty lines
line      one variable with one long value

and, for the reading of lines, texts of one byte or two over and over:

backslashes, references, hashes   `\\`, `$(` and `\\#`
colons, words, blanks             `a:`, `a ` and ` `

Each text but those has one line that begins with `CC = `, and its last line is a comment (but in the kinds from
`blank` on) that fills it up. No conditional or define is left open.
"""

import argparse
import random
import re
import sys

WORDS = (
    "core net util parse lex tree list hash table file path name time test main io log fmt page "
    "lock queue node graph cache proto sock crypt image audio video font draw event timer pool"
).split()
FLAGS = (
    "-O2 -g -Wall -Wextra -Werror -std=c11 -fPIC -pthread -DNDEBUG -D_GNU_SOURCE -Iinclude "
    "-Lbuild/lib -lm -lz"
).split()
OPERATORS = ["=", "=", ":=", ":=", ":=", "?=", "+=", "::="]
RECIPE_LINES = (
    "@mkdir -p $(@D) $(DEPENDENCIES)/$(@D)",
    "$(CC) $(CPPFLAGS) $(CFLAGS) -MMD -MP -MF $(@:.o=.d) -c -o $@ $<",
    "@echo built $@ # of $< and what it includes",
    "$(STRIP) --strip-unneeded $@ \\\n\t  || echo $@ stays as it is",
)
REPEATED = {
    "backslashes": b"\\",
    "references": b"$(",
    "hashes": b"\\#",
    "colons": b"a:",
    "words": b"a ",
    "blanks": b" ",
}
# How many variables of a text have one name.
EVERY = {f"every-{it}": it for it in (100, 1_000, 10_000)}
KINDS = ("makefile", "settings", "pairs", *EVERY, "counted", "blank", "line", *REPEATED)
COMMENT = "# How the {0} of {1} is built, and what {2} needs of it.\n"


class Writer:
    """Draws the parts of a makefile, by random() alone, which no version of Python changes."""

    def __init__(self, seed):
        self.draw = random.Random(seed).random
        self.count = 0
        self.objects = []

    def below(self, bound):
        return int(self.draw() * bound)

    def pick(self, words):
        return words[self.below(len(words))]

    def words(self, least, most, words):
        return " ".join(self.pick(words) for _ in range(least + self.below(most - least + 1)))

    def name(self):
        """A name that no other line has."""
        self.count += 1
        return f"{self.pick(WORDS)}_{self.pick(WORDS)}{self.count}"

    def comment(self):
        return COMMENT.format(self.pick(WORDS), self.pick(WORDS), self.pick(WORDS))

    def setting(self):
        tail = "  # see the notes" if self.below(8) == 0 else ""
        return f"{self.name().upper()} = {self.words(1, 5, FLAGS)}{tail}\n"

    def variable(self):
        name, operator = self.name().upper(), self.pick(OPERATORS)
        values = (
            self.words(1, 8, FLAGS),
            "$(CFLAGS) " + self.words(1, 6, FLAGS),
            f"$(patsubst %.c,build/%.o,$(SRC_{self.pick(WORDS).upper()}))",
            "$(shell pkg-config --libs ${" + self.pick(WORDS).upper() + "})",
        )
        modifier = self.pick(["export ", "override "]) if self.below(20) == 0 else ""
        return f"{modifier}{name} {operator} {self.pick(values)}\n"

    def sources(self):
        """A list over many physical lines."""
        files = " \\\n\t".join(
            f"{self.pick(WORDS)}/{self.name()}.c {self.pick(WORDS)}.h"
            for _ in range(4 + self.below(12))
        )
        return f"SRC_{self.name().upper()} = \\\n\t{files}\n"

    def rule(self):
        name, folder = self.name(), self.pick(WORDS)
        fold = " \\\n  " if self.below(6) == 0 else " "
        order = " | build" if self.below(3) == 0 else ""
        head = f"build/{folder}/{name}.o: {folder}/{name}.c{fold}include/{folder}.h{order}\n"
        recipe = "".join(f"\t{self.pick(RECIPE_LINES)}\n" for _ in range(1 + self.below(3)))
        return head + recipe

    def goal(self):
        name, needs = self.name(), self.words(2, 6, WORDS)
        return f".PHONY: {name}\n{name}: {needs}\n{name}: CFLAGS += {self.pick(FLAGS)}\n"

    def conditional(self):
        word = self.pick(["ifdef DEBUG", "ifndef QUIET", "ifeq ($(OS),linux)", "ifneq ($(CC),gcc)"])
        inner = self.conditional() if self.below(6) == 0 else self.variable()
        return f"{word}\n{self.variable()}{inner}else\n{self.variable()}endif\n"

    def define(self):
        name = self.name()
        body = f"{self.pick(WORDS)}: $(1)\n\t$(CC) -o $$@ $$^\n"
        return f"define {name}\n{body}endef\n$(eval $(call {name},a.o))\n"

    def include(self):
        return f"-include build/{self.name()}.d\n"

    def block(self):
        """A few lines that belong together, and at times a blank line."""
        parts = [self.variable] * 8 + [self.rule] * 9 + [self.comment] * 3 + [self.sources] * 2
        parts += [self.goal, self.conditional, self.conditional, self.define, self.include]
        return self.pick(parts)() + ("\n" if self.below(3) == 0 else "")

    def pair(self):
        """A variable and a rule, each with a name of its own."""
        self.count += 1
        name, earlier = f"{self.pick(WORDS)}{self.count}", self.pick(self.objects or ["main.o"])
        self.objects.append(f"{name}.o")
        tail = " # see there" if self.below(8) == 0 else ""
        fold = " \\\n " if self.below(8) == 0 else " "
        order = " | build" if self.below(4) == 0 else ""
        extra = "\t@echo $@\n" if self.below(3) == 0 else ""
        gap = self.pick(["\n", "\n", "# and more\n"]) if self.below(4) == 0 else ""
        return (
            f"{name.upper()} {self.pick(OPERATORS)} {self.words(1, 3, FLAGS)}{tail}\n"
            f"{name}.o: {name}.c{fold}{self.pick(WORDS)}.h {earlier}{order}\n"
            f"\t$(CC) -c -o $@ $<\n{extra}{gap}"
        )

    def settings(self):
        return self.pick([self.setting, self.setting, self.setting, self.comment, lambda: "\n"])()


def counted_lines():
    """Lines that an edit finds by their number, or that it goes over."""
    variables, lines = (map(it.format, range(1, 10_001)) for it in ("ONE = -X{}\n", "\t@echo {}\n"))
    return "".join([*variables, "long:\n", *lines, "gap:\n", "\n" * 10_000])


def with_one_name(pieces, count):
    """A text of pairs in which so many variables have one name. Its last line, a comment, fills it up again."""
    text = b"".join(pieces)
    found = [*re.finditer(rb"(?m)^[A-Z]+\d+ (\S+) \S+", text)]
    kept, at = [], 0
    for it in (found[(number + 1) * len(found) // count - 1] for number in range(count)):
        kept += [text[at : it.start()], b"ALL %s -X" % it[1]]
        at = it.end()
    changed = b"".join([*kept, text[at:-1]])
    return changed + b"#" * (len(text) - len(changed) - 1) + b"\n"


def texts(kind, seed, size):
    """The pieces of a text of the kind and size."""
    if kind in EVERY:
        yield with_one_name(texts("pairs", seed, size), EVERY[kind])
        return
    if kind == "line":
        yield b"CC = " + b"x" * (size - 6) + b"\n"
        return
    if kind in REPEATED:
        unit = REPEATED[kind]
        yield unit * (size // len(unit))
        return
    writer = Writer(seed)
    head = "CC = gcc\n" + (counted_lines() if kind == "counted" else "")
    yield head.encode()
    left = size - len(head)
    if kind == "blank":
        yield b"\n" * left
        return
    parts = {"makefile": writer.block, "settings": writer.settings}
    while True:
        piece = parts.get(kind, writer.pair)().encode()
        if len(piece) >= left:
            break
        left -= len(piece)
        yield piece
    yield b"#" * (left - 1) + b"\n"


def main():
    parser = argparse.ArgumentParser(description="Writes a makefile of BYTES bytes.")
    parser.add_argument("--kind", choices=KINDS, default="makefile")
    parser.add_argument("seed", type=int)
    parser.add_argument("bytes", type=int)
    given = parser.parse_args()
    if given.bytes < 100:
        parser.error("a text has at least 100 bytes")
    sys.stdout.buffer.writelines(texts(given.kind, given.seed, given.bytes))


if __name__ == "__main__":
    main()
