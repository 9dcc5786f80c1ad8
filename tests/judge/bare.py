"""GNU make judges the bare rules that `mkedit caveats` names: make takes nothing from them.

Random makefiles of rules, without conditionals: make's data base has to be the same without the lines
that are named.
"""

import random
import re

SENTENCE = b"make may take nothing from this rule: another one has the recipe of its target"
TARGETS = ("a", "b", "./a", "d/.e", ".f/g")
FORMS = (
    "{}:",
    "{}:   # {}",
    "{}: {}",
    "{}: | {}",
    "{}: ;",
    "{}: ; @echo {}",
    "{}:\n\t@echo {}\n\n\t@echo {}",
    "{}:\n# {}\n\n\t@echo {}",
    "{} {}:\n\t@echo {}",
    "{} {}:",
    "{}: %: %.h\n\t@echo {}",
    "{}: X = {}",
    "X = {}",
)


def makefiles(seed, count):
    """Random makefiles of up to eight rules and other lines. `all` is the goal of each."""
    draw = random.Random(seed)
    for _ in range(count):
        forms = draw.choices(FORMS, k=draw.randint(2, 8))
        lines = ["all:", *(it.format(*draw.choices(TARGETS, k=3)) for it in forms)]
        yield "".join(f"{it}\n" for it in lines).encode()


def named(said):
    """The numbers of the lines of which the query says that make takes nothing from them."""
    return {int(it) for it in re.findall(rb"^(\d+): " + re.escape(SENTENCE) + rb"$", said, re.M)}


def without(text, numbers):
    """A text without the lines of these numbers."""
    lines = text.splitlines(keepends=True)
    return b"".join(line for number, line in enumerate(lines, 1) if number not in numbers)


def judge(make, text, said):
    """How many lines are named, and whether make takes nothing from them."""
    numbers = named(said)
    return len(numbers), make.database(text) == make.database(without(text, numbers))
