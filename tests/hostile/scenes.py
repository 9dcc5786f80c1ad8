"""Scenes: a hostile text, every job of the program over it, and what has to come of each.

A makefile has a block at its end (or at its top, where nothing is read below): a variable and a
rule that every kind of edit can be done to. So each edit's outcome is known without a reading of
the hostile part: that part stays as it is, and the block becomes what docs/EDITS.md says.
"""

from typing import NamedTuple

from tests.lib.reading import QUERIES

BLOCK = b"LAST = one # c\nlast: a b\n\tfirst\n\tsecond\nEND = 1\n# OFF = 1\n"
BLOCK_LINES = BLOCK.count(b"\n")
# What queries say of the block: a line's number in it, and what follows the number. Others say nothing.
BLOCK_ANSWERS = {
    "vars": ((1, b":0: LAST = one\n"), (5, b":0: END = 1\n")),
    "rules": ((2, b":0: last: a b [2]\n"),),
    "recipes": ((2, b":0: last:\n"), (3, b":0: [1] first\n"), (4, b":0: [2] second\n")),
}
# Each kind of edit: its command, the piece of the block that goes, and the one that comes. A new
# line ends as the first line of the text does, which is to stand for @.
EDITS = {
    "set": (b"set LAST two", b"= one", b"= two"),
    "set-if": (b"set-if LAST one two", b"= one", b"= two"),
    "append": (b"append LAST two", b"= one", b"= one two"),
    "add": (b"add LAST two", b"= one", b"= one two"),
    "drop": (b"drop LAST one", b"one # c\n", b"# c\n"),
    "prepend": (b"prepend LAST two", b"= one", b"= two one"),
    "replace": (b"replace LAST one two", b"= one", b"= two"),
    "add-before": (b"add-before LAST one two", b"= one", b"= two one"),
    "add-after": (b"add-after LAST one two", b"= one", b"= one two"),
    "subst": (b"subst LAST ne ld", b"= one", b"= old"),
    "operator": (b"operator LAST :=", b"LAST =", b"LAST :="),
    "all set": (b"all set LAST two", b"= one", b"= two"),
    "all set-if": (b"all set-if LAST one two", b"= one", b"= two"),
    "all append": (b"all append LAST two", b"= one", b"= one two"),
    "all add": (b"all add LAST two", b"= one", b"= one two"),
    "all drop": (b"all drop LAST one", b"one # c\n", b"# c\n"),
    "all prepend": (b"all prepend LAST two", b"= one", b"= two one"),
    "all replace": (b"all replace LAST one two", b"= one", b"= two"),
    "all subst": (b"all subst LAST ne ld", b"= one", b"= old"),
    "all operator": (b"all operator LAST :=", b"LAST =", b"LAST :="),
    "values-subst": (b"values-subst one two", b"= one", b"= two"),
    "unset": (b"unset LAST", b"LAST = one # c\n", b""),
    "comment-out": (b"comment-out LAST", b"LAST", b"#LAST"),
    "uncomment": (b"uncomment OFF", b"# OFF", b"OFF"),
    "assign last": (b"assign after-last-var LAST NEW = 1", b"last:", b"NEW = 1@last:"),
    "rule after": (b"rule after-rule last new : a", b"END", b"new: a@END"),
    "assign": (b"assign after-var LAST NEW = 1", b"last:", b"NEW = 1@last:"),
    "rule": (b'rule before-rule last new : "a b"', b"last:", b"new: a b@last:"),
    "unrule": (b"unrule last", b"last: a b\n\tfirst\n\tsecond\n", b""),
    "depend": (b"depend last c", b"a b\n", b"a b c\n"),
    "depend-order": (b"depend-order last c", b"a b\n", b"a b | c\n"),
    "undepend": (b"undepend last a", b"last: a b", b"last: b"),
    "depend-replace": (b"depend-replace last a c", b"last: a b", b"last: c b"),
    "recipe": (b"recipe last third", b"END", b"\tthird@END"),
    "recipe-set": (b"recipe-set last 2 third", b"second", b"third"),
    "recipe-del": (b"recipe-del last 1", b"\tfirst\n", b""),
    "recipe-insert": (b"recipe-insert last 2 third", b"\tsecond", b"\tthird@\tsecond"),
    "recipe-replace": (b"recipe-replace last second third", b"second", b"third"),
    "recipe-remove": (b"recipe-remove last first", b"\tfirst\n", b""),
    "recipe-subst": (b"recipe-subst last second third", b"second", b"third"),
    "recipes-subst": (b"recipes-subst first third", b"first", b"third"),
    "rename": (b"rename last final", b"last:", b"final:"),
    "insert": (b'insert after-line "LAST = one # c" "# new"', b"last:", b"# new@last:"),
    "line-replace": (b'line-replace "END = 1" "END = 2"', b"END = 1", b"END = 2"),
    "line-remove": (b'line-remove "\tfirst"', b"\tfirst\n", b""),
    "insert lines": (b"insert before-rule last <<E\n# 1\n# 2\nE", b"last:", b"# 1@# 2@last:"),
    "rule-replace": (b"rule-replace last <<E\nlast: c\n\tthird\nE", b"last: a b\n\tfirst\n\tsecond", b"last: c\n\tthird"),
    "rule-remove": (b"rule-remove last", b"last: a b\n\tfirst\n\tsecond\n", b""),
    "replace lines": (b"line-replace <<O <<N\n\tfirst\n\tsecond\nO\n\tthird\nN", b"first\n\tsecond", b"third"),
}
BOTTOM = {
    "assign bottom": (b"assign bottom NEW = 1", b"NEW = 1"),
    "rule bottom": (b'rule bottom new : "a b"', b"new: a b"),
    "insert bottom": (b'insert bottom "# new"', b"# new"),
}
# One list of every kind, each fit for what those before it leave, and then as many undos.
ALL = (
    b"set LAST two\nappend LAST three\nadd LAST four\ndrop LAST three\n"
    b'prepend LAST five\nreplace LAST five six\nsubst LAST "six " ""\noperator LAST :=\n'
    b"add-before LAST four six\nadd-after LAST six seven\n"
    b"all append LAST five\nall drop LAST four\nall prepend LAST eight\nall replace LAST eight nine\n"
    b'all subst LAST "nine " ""\nall operator LAST =\nvalues-subst seven ten\n'
    b"assign after-var LAST NEW = 1\n"
    b'rule before-rule last new : "a b"\ndepend last c\ndepend-order last d\nundepend last a\n'
    b"recipe last third\nrecipe-set last 2 fourth\nrecipe-del last 1\n"
    b"recipe-insert last 2 fifth\nrecipe-replace last fourth sixth\nrecipe-remove last third\n"
    b"recipe-subst last sixth seventh\nrecipes-subst seventh eighth\n"
    b"rename last final\n"
    b'insert before-line "END = 1" "# new"\nline-replace "# new" "# newer"\nline-remove "# newer"\n'
    b"depend-replace final b e\nassign after-last-var LAST LAST = 1\nset-if LAST 1 2\nall set-if LAST 2 3\n"
    b"nth 2 comment-out LAST\nuncomment LAST\nnth 2 unset LAST\n"
    b"rule-replace new new:c\nrule-remove new\n"
    b"unrule final\nunset LAST\n"
)


class Job(NamedTuple):
    """A run of the program: its script as pieces, None for a query, and what has to come of it."""

    name: str
    words: tuple
    script: list
    out: list
    report: list = []
    status: int = 0


class Scene(NamedTuple):
    """A makefile as pieces, and the jobs over it."""

    name: str
    makefile: list
    jobs: list


class Shape(NamedTuple):
    """The hostile part of a makefile, and what is known of it.

    answers: what each query says of its lines, as pieces, where it says something.
    edits: jobs on the hostile part itself: a name, a command, and the part as it is after it.
    end: the line end of new lines. is_closed: whether a line may be added after it, and the block
    can stand below it; else the block stands at the top.
    """

    name: str
    part: list
    answers: dict = {}
    edits: tuple = ()
    end: bytes = b"\n"
    is_closed: bool = True
    may_grow: bool = True


def lines_of(pieces):
    """How many line feeds are in pieces, whose functions give none."""
    return sum(unit.count(b"\n") * count for unit, count in pieces if not callable(unit))


def around(shape, part, block, more=b""):
    """The makefile that has this part and this block, with more at its bottom."""
    parts = [*part, (block, 1)] if shape.is_closed else [(block, 1), *part]
    return [*parts, (more, 1)] if more else parts


def answer(shape, query):
    """What a query says of the whole makefile."""
    first = lines_of(shape.part) if shape.is_closed else 0
    of_block = b"".join(b"%d%s" % (first + line, text) for line, text in BLOCK_ANSWERS.get(query, ()))
    of_part = shape.answers.get(query, [])
    return [*of_part, (of_block, 1)] if shape.is_closed else [(of_block, 1), *of_part]


def edit(name, commands, out):
    return Job(name, ("edit",), [(commands + b"\n", 1)], out)


def jobs_of(shape):
    """Every job over a shape: no command, each kind of edit, all of them and back, each query."""
    whole = around(shape, shape.part, BLOCK)
    yield edit("no command", b"", whole)
    for name, (command, old, new) in EDITS.items():
        block = BLOCK.replace(old, new.replace(b"@", shape.end), 1)
        yield edit(name, command, around(shape, shape.part, block))
    for name, (command, line) in BOTTOM.items() if shape.may_grow else ():
        gap = b"" if shape.is_closed else shape.end
        more = gap + line + shape.end
        yield edit(name, command, around(shape, shape.part, BLOCK, more))
    yield edit("insert top", b'insert top "# new"', [(b"# new" + shape.end, 1), *whole])
    for name, command, part in shape.edits:
        yield edit(name, command, around(shape, part, BLOCK))
    yield edit("all and back", ALL + b"undo\n" * ALL.count(b"\n"), whole)
    for query in QUERIES:
        yield Job(query, (query,), None, answer(shape, query))


def scene_of(shape):
    return Scene(shape.name, around(shape, shape.part, BLOCK), list(jobs_of(shape)))
