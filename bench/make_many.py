#!/usr/bin/env python3
"""Writes a script of COUNT commands of a kind for a makefile of the kind `pairs`.

    make_many.py KIND COUNT MAKEFILE SCRIPT

KIND is the edit, with its place where it has one, or `mixture`. Each edit has a name of its own: one
variable, or one rule, of each of so many equal parts of the makefile, in a random order. Each is
accepted. With `all` before the edit the script is this one edit, which changes COUNT lines of a makefile of the
kind `every-COUNT`. In the mixture eight of ten commands are edits of random kinds, of all but `recipe-subst`, and
somewhere among them an `undo` and a `redo` follow each other. The kinds of OF_COUNTED are for a makefile of the
kind `counted`. The same arguments give the same script.
"""

import random
import re
import sys
from pathlib import Path

MIXTURE = "mixture"
# The line of a variable with its value, whose first word it has once, and its rule with the header file that it needs.
PAIR = re.compile(
    r"(?m)^(?P<line>(?P<variable>[A-Z]+\d+) \S+ (?P<value>(?P<flag>\S+)(?=\s)(?!.* (?P=flag)\s).*?)(?: #.*)?)\n"
    r"(?P<target>[a-z]+\d+\.o): \S+ (?:\\\n )?(?P<header>\S+\.h) "
)
COMMANDS = {
    "set": "set {variable} value",
    "append": "append {variable} -DNEW={number}",
    "drop": "drop {variable} {flag}",
    "prepend": "prepend {variable} -DNEW={number}",
    "replace": "replace {variable} {flag} -DNEW={number}",
    "add-after": "add-after {variable} {flag} -DNEW={number}",
    "subst": "subst {variable} {flag} -DNEW={number}",
    "operator": "operator {variable} ::=",
    "set-if": 'set-if {variable} "{value}" value',
    "unset": "unset {variable}",
    "comment-out": "comment-out {variable}",
    "assign bottom": "assign bottom NEW_{number} = value",
    "assign after-var": "assign after-var {variable} NEW_{number} := value",
    "rule before-rule": 'rule before-rule {target} new{number} : "{target} new.h"',
    "unrule": "unrule {target}",
    "depend": "depend {target} new{number}.h",
    "undepend": "undepend {target} {header}",
    "depend-replace": "depend-replace {target} {header} new{number}.h",
    "recipe": 'recipe {target} "@echo {number}"',
    "recipe-set": 'recipe-set {target} 1 "$(CC) -DNEW={number} -c $<"',
    "recipe-del": "recipe-del {target} 1",
    "recipe-insert": 'recipe-insert {target} 1 "@echo {number}"',
    "recipe-subst": 'recipe-subst {target} $(CC) "$(CC) -DNEW={number}"',
    "rename": "rename {target} new/{number}.o",
    "insert after-rule": 'insert after-rule {target} "# {number}"',
    "line-replace": 'line-replace "{line}" "NEW_{number} = value"',
}
# One edit of every line of a name.
OF_EVERY_LINE = {
    "all set": "all set ALL value",
    "all append": "all append ALL -DNEW",
    "all drop": "all drop ALL -X",
    "all prepend": "all prepend ALL -DNEW",
    "all replace": "all replace ALL -X -DNEW",
    "all subst": "all subst ALL -X -DNEW",
    "all operator": "all operator ALL ::=",
}
# Edits that count lines, each with a number from all over them.
OF_COUNTED = {
    "nth of one name": "nth {number} set ONE value",
    "recipe-set of a high number": 'recipe-set long {number} "@echo value"',
    "recipe over blank lines": 'recipe gap "@echo {number}"',
}
# How many edits stand in so many commands of a mixture, and the kind of which it has none.
EDITS, TURN = 8, 10
UNMIXED = "recipe-subst"


class Script:
    """Draws the commands, by random() alone, which no version of Python changes."""

    def __init__(self, seed):
        self.draw = random.Random(seed).random

    def pick(self, words):
        return words[int(self.draw() * len(words))]

    def pairs(self, makefile, count):
        """What so many commands name, from all over the makefile."""
        found = [it.groupdict() for it in PAIR.finditer(makefile)]
        if len(found) < count:
            sys.exit(f"make_many.py: the makefile has only {len(found)} pairs")
        chosen = [found[(it + 1) * len(found) // count - 1] for it in range(count)]
        chosen.sort(key=lambda _: self.draw())
        for number, parts in enumerate(chosen):
            yield {"number": number, **parts}

    def edits(self, makefile, kind, count):
        """So many commands of a kind, or of kinds that are drawn."""
        kinds = [it for it in COMMANDS if it != UNMIXED] if kind == MIXTURE else [kind]
        for pair in self.pairs(makefile, count):
            yield COMMANDS[self.pick(kinds)].format(**pair)

    def counted(self, makefile, kind, count):
        most = makefile.count("\nONE = ")
        numbers = sorted(range(most // count, most + 1, most // count), key=lambda _: self.draw())
        return [OF_COUNTED[kind].format(number=it) for it in numbers]

    def mixture(self, makefile, count):
        edits = [*self.edits(makefile, MIXTURE, count * EDITS // TURN)]
        for start in range(0, len(edits), EDITS):
            turn = edits[start : start + EDITS]
            at = 1 + int(self.draw() * len(turn))
            yield from (*turn[:at], "undo", "redo", *turn[at:])


def main():
    kind, count, makefile, path = sys.argv[1], int(sys.argv[2]), *map(Path, sys.argv[3:])
    if kind in OF_EVERY_LINE:
        path.write_text(f"{OF_EVERY_LINE[kind]}\n", encoding="ascii")
        return
    script, text = Script(count), makefile.read_text(encoding="ascii")
    if kind in OF_COUNTED:
        lines = script.counted(text, kind, count)
    elif kind == MIXTURE:
        lines = script.mixture(text, count)
    else:
        lines = script.edits(text, kind, count)
    path.write_text("".join(f"{it}\n" for it in lines), encoding="ascii")


if __name__ == "__main__":
    main()
