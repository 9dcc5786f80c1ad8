"""What queries and edits take over makefiles that double: text, time and memory have to double at most, but for a little.

In each shape something that is told once could be told again with each line: the targets of a rule, the
conditionals round a line, their texts. Edits of a long recipe could count its lines each time.
"""

from typing import NamedTuple

from tests.hostile.large_shapes import Site
from tests.lib.rooms import ANSWERS, RoomCase

# A makefile has so many bytes at first, and doubles three times.
SIZES = [32_000 << it for it in range(4)]
# How many times as much an answer may have, and its time and memory be, where the makefile has twice as much; and
# what is too little to be judged: bytes, seconds and bytes. The memory is also that of this process.
GREATEST, LEAST = 3, (10_000, 0.04, 64_000_000)
# So many runs may show that a time was the machine's other work.
ROUNDS = 8
# The options of a query, and over how many makefiles it is asked: the answer on one of several is in memory first.
FORMS = {"text": ((), 1), "text of several": ((), 2), "JSON": (("--json",), 1)}
# Lines of which each query tells some; recipe lines, some of them in branches.
TOLD = b"X = 1\na b: c\n\td\n$(x)\n\tY = 1\n"
RECIPE = b"\tx\nifdef A\n\ty\nelse\n\tz\nendif\n"
MOST_OPEN = 256
# How many recipe lines one rule has at first, how many blank lines stand below another, and how many edits are made
# there; and these edits.
COUNTS = [2_500 << it for it in range(4)]
EDITS = (
    *("recipe-set long {} x", "recipe-insert long {} x", "recipe gap {}"),
    *("nth {} set ONE x", "nth {} subst ONE y x", "nth {} add-after ONE y x"),
)


def times(unit, size):
    """A text over and over, with about so many bytes in all."""
    return unit * (size // len(unit))


def targets(size):
    return b" ".join(b"t%d" % it for it in range(size // 7))


def targets_and_recipe_lines(size):
    return targets(size // 2) + b": a\n" + times(b"\tx\n", size // 2)


def targets_and_branches(size):
    return targets(size // 2) + b": a\n" + times(RECIPE, size // 2)


def nested_conditionals(size):
    return b"ifdef A\n" * MOST_OPEN + times(TOLD, size) + b"endif\n" * MOST_OPEN


def a_long_condition(size):
    return b"ifdef " + b"A" * (size // 2) + b"\n" + times(TOLD, size // 2) + b"endif\n"


def nested_long_conditions(size):
    return times(b"ifdef " + b"A" * (size // 80) + b"\n", size // 2) + times(TOLD, size // 2)


def branches_of_a_long_condition(size):
    return b"ifdef " + b"A" * (size // 2) + b"\n" + times(b"else ifdef B\n" + TOLD, size // 2) + b"endif\n"


def branches_of_one_conditional(size):
    return b"ifdef A\n" + times(b"else\nX=\n", size) + b"endif\n"


SHAPES = (
    targets_and_recipe_lines,
    targets_and_branches,
    nested_conditionals,
    a_long_condition,
    nested_long_conditions,
    branches_of_a_long_condition,
    branches_of_one_conditional,
)


class Taken(NamedTuple):
    """How many bytes an answer has, and the seconds and the bytes of memory that it takes."""

    length: int
    seconds: float
    peak: int

    def most(self):
        """What an answer over twice the makefile may take."""
        return Taken(*(GREATEST * max(it, least) for it, least in zip(self, LEAST)))


class Growth(RoomCase):
    def taken(self, words, most):
        """What a query takes: the least time of some runs, where it seems to be too long."""
        site, out = Site(self.program.path, self.room.folder), self.room.folder / "out"
        seconds = most.seconds + 1
        for _ in range(ROUNDS):
            ran = site.run([str(self.program.path), *words], out)
            self.assertEqual(ran.status, 0, words)
            seconds = min(seconds, ran.seconds)
            if seconds <= most.seconds:
                break
        return Taken(out.stat().st_size, seconds, ran.peak)

    def assert_linear(self, commands):
        """Each command, over twice as much as the one before it, takes twice as much at most."""
        most = Taken(*[float("inf")] * 3)
        for words in commands:
            found = self.taken(words, most)
            for it, limit, of in zip(found, most, Taken._fields):
                self.assertLessEqual(it, limit, f"{of} of {words}")
            most = found.most()

    def test_each_query_is_linear(self):
        for shape in SHAPES:
            for size in SIZES:
                self.room.write(f"{shape.__name__}-{size}", shape(size))
            for query in ANSWERS:
                for form in FORMS:
                    options, count = FORMS[form]
                    names = [str(self.room.folder / f"{shape.__name__}-{size}") for size in SIZES]
                    with self.subTest(f"{query}, {form}, {shape.__name__}"):
                        self.assert_linear([(query, *options, *[it] * count) for it in names])

    def test_edits_of_many_lines_are_linear(self):
        for command in EDITS:
            for count in COUNTS:
                makefile = b"ONE = y\n" * count + b"long:\n" + b"\tx\n" * count + b"gap:\n\tx\n" + b"\n" * count
                self.room.write(f"makefile-{count}", makefile)
                self.room.write(f"script-{count}", "".join(f"{command}\n".format(it + 1) for it in range(count)).encode())
            with self.subTest(command):
                files = [(f"script-{it}", f"makefile-{it}") for it in COUNTS]
                self.assert_linear([("edit", *(str(self.room.folder / name) for name in it)) for it in files])
