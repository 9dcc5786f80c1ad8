"""Hostile makefiles: shapes of any size, and what docs/LANGUAGE.md and docs/EDITS.md say of each."""

from .scenes import BLOCK_LINES, Shape, scene_of

# Where 16,000,000 bytes have 200,000 targets, each with the blank after it has so many bytes.
TARGET = 80
RECIPE_LINE = b"\techo 123456789\n"
OPAQUE, ROUGH = b"opaque", b"rough"


def told(what, count=1, step=1, first=1):
    """What `check` says of so many lines that it lists."""
    return {"check": [(lambda at: b"%d: %s\n" % (first + at * step, what), count)]}


def kept(name, unit, what=None, head=b"", tail=b"\n", end=b"\n"):
    """One line that holds a unit over and over and is not read inside."""

    def shape(size):
        part = [(head, 1), (unit, size // len(unit)), (tail, 1)]
        return Shape(name, part, told(what) if what else {}, end=end)

    return shape


def lines(name, unit, what=None, step=1, end=b"\n"):
    """A unit of one line or more over and over; `check` lists each, or none."""

    def shape(size):
        count = size // len(unit)
        return Shape(name, [(unit, count)], told(what, count, step) if what else {}, end=end)

    return shape


def value(name, unit, closing=b"", shown=None, is_closed=True):
    """The variable LONG, whose value is a unit over and over.

    closing: what stands after it, as often. shown: the unit as the queries show it.
    """

    def shape(size):
        count = size // (len(unit) + len(closing))
        values = [(unit, count), (closing, count), (b"x", 1)]
        said = [(b"1:0: LONG = ", 1), (shown or unit, count), (closing, count), (b"x\n", 1)]
        long = [(b"LONG = ", 1), *values]
        other = [(unit.replace(b"x", b"y"), count), (closing, count), (b"y\n", 1)]
        edits = [
            ("set it", b"set LONG two", [(b"LONG = two\n", 1)]),
            ("put a text before it", b"prepend LONG two", [(b"LONG = two ", 1), *values, (b"\n", 1)]),
            ("replace a text in it", b"subst LONG x y", [(b"LONG = ", 1), *other]),
            ("replace a text in all values", b"values-subst x y", [(b"LONG = ", 1), *other]),
            ("its operator", b"operator LONG :=", [(b"LONG := ", 1), *values, (b"\n", 1)]),
            ("unset it", b"unset LONG", []),
        ]
        if is_closed:
            edits.append(("append to it", b"append LONG two", [*long, (b" two\n", 1)]))
        return Shape(name, [*long, (b"\n", 1)], {"vars": said}, tuple(edits))

    return shape


def one_fold(size):
    """A fold over all lines but the last, which is the value."""
    count = size // 2
    part = [(b"LONG = ", 1), (b"\\\n", count)]
    edits = (
        ("set it", b"set LONG two", [*part, (b"two\n", 1)]),
        ("append to it", b"append LONG two", [*part, (b"x two\n", 1)]),
        ("put a text before it", b"prepend LONG two", [*part, (b"two x\n", 1)]),
        ("put a word before it", b"add-before LONG x two", [*part, (b"two x\n", 1)]),
        ("put a word after it", b"add-after LONG x two", [*part, (b"x two\n", 1)]),
        ("its operator", b"operator LONG :=", [(b"LONG := ", 1), (b"\\\n", count), (b"x\n", 1)]),
        ("unset it", b"unset LONG", []),
    )
    return Shape("one fold", [*part, (b"x\n", 1)], {"vars": [(b"1:0: LONG = x\n", 1)]}, edits)


def modifiers(size):
    """One assignment with modifiers over and over."""
    part = [(b"override ", size // 9), (b"LONG = ", 1)]
    edits = (
        ("set it", b"set LONG two", [*part, (b"two\n", 1)]),
        ("append to it", b"append LONG two", [*part, (b"x two\n", 1)]),
        ("unset it", b"unset LONG", []),
    )
    said = {"vars": [(b"1:0: ", 1), *part, (b"x\n", 1)]}
    return Shape("modifiers", [*part, (b"x\n", 1)], said, edits)


def target(number):
    """A target with the blank after it, that no other number has."""
    return b"%0*d " % (TARGET - 1, number)


def targets(size):
    """One rule with as many targets as 16,000,000 bytes have room for 200,000."""
    count = size // TARGET

    def after_first(at):
        return target(at + 1)

    first, last = target(0).strip(), target(count - 1).strip()
    others = [(after_first, count - 2), (last, 1), (b": a", 1)]
    part = [(target(0), 1), *others, (b"\n", 1)]
    edits = (
        ("depend", b"depend %s b" % last, [(target(0), 1), *others, (b" b\n", 1)]),
        ("undepend", b"undepend %s a" % last, [(target, count - 1), (last, 1), (b":\n", 1)]),
        ("rename first", b"rename %s new" % first, [(b"new ", 1), *others, (b"\n", 1)]),
        ("rename last", b"rename %s new" % last, [(target, count - 1), (b"new: a\n", 1)]),
        ("recipe", b"recipe %s b" % first, [*part, (b"\tb\n", 1)]),
    )
    said = {"rules": [(b"1:0: ", 1), (target(0), 1), *others, (b" [0]\n", 1)]}
    return Shape("targets of one rule", part, said, edits)


def prerequisites(size):
    """One rule with the same prerequisite over and over."""
    part = [(b"many:", 1), (b" a", size // 2)]
    edits = (
        ("depend", b"depend many b", [*part, (b" b\n", 1)]),
        ("undepend all", b"undepend many a", [(b"many:\n", 1)]),
        ("unrule", b"unrule many", []),
    )
    said = {"rules": [(b"1:0: ", 1), *part, (b" [0]\n", 1)]}
    return Shape("one prerequisite, often", [*part, (b"\n", 1)], said, edits)


def one_word(size):
    """One rule whose targets and prerequisites are the same word."""
    count = size // 4

    def part(word, tail=b"\n"):
        return [(word + b" ", count - 1), (word + b":", 1), (b" " + word, count), (tail, 1)]

    edits = (
        ("rename all", b"rename w z", part(b"z")),
        ("undepend all", b"undepend w w", [(b"w ", count - 1), (b"w:\n", 1)]),
    )
    said = {"rules": [(b"1:0: ", 1), *part(b"w", b" [0]\n")]}
    return Shape("one word in one rule", part(b"w"), said, edits)


def nested_words(size):
    """A word of references within references, beside a longer one that begins so behind each blank."""
    depth = size // 8
    inner = depth // 2
    # (so long that a blank of the longer word stands where it would end)
    filling = 3 - inner % 4 if inner % 4 < 3 else 4
    longer = [(b"$(a ", depth), (b")", depth)]
    word = [(b"$(a ", inner), (b"x", filling), (b")", inner)]
    text = b"".join(part * times for part, times in word)
    edits = (("rename", b'rename "%s" new' % text, [*longer, (b": b\nnew: c\n", 1)]),)
    said = {"rules": [(b"1:0: ", 1), *longer, (b": b [0]\n2:0: ", 1), *word, (b": c [0]\n", 1)]}
    return Shape("nested words", [*longer, (b": b\n", 1), *word, (b": c\n", 1)], said, edits)


def one_name(size):
    """Assignments of one name, which has a number for each."""
    count = size // 6

    def assignment(at):
        return b"%d:0: A = 1\n" % (at + 1)

    edits = (
        ("set the last", b"nth %d set A 2" % count, [(b"A = 1\n", count - 1), (b"A = 2\n", 1)]),
        ("set all", b"all set A 2", [(b"A = 2\n", count)]),
        ("replace a word of all", b"all replace A 1 2", [(b"A = 2\n", count)]),
        ("replace a text of all", b"all subst A 1 2", [(b"A = 2\n", count)]),
        ("replace the last", b'nth %d line-replace "A = 1" B' % count, [(b"A = 1\n", count - 1), (b"B\n", 1)]),
        ("insert before the last", b'nth %d insert before-line "A = 1" B' % count, [(b"A = 1\n", count - 1), (b"B\nA = 1\n", 1)]),
    )
    return Shape("one name in every line", [(b"A = 1\n", count)], {"vars": [(assignment, count)]}, edits)


def renamed_lines(size):
    """Lines that each have a word to be renamed."""
    count = size // 5

    def rule(at):
        return b"%d:0: w: w [0]\n" % (at + 1)

    edits = (("rename all", b"rename w z", [(b"z: z\n", count)]),)
    return Shape("one word in every line", [(b"w: w\n", count)], {"rules": [(rule, count)]}, edits)


def rules(size):
    """Rules without prerequisites, all of the same target."""
    count = size // 3

    def rule(at):
        return b"%d:0: a: [0]\n" % (at + 1)

    added = [(b"a:\n", count - 1), (b"a: b\n", 1)]
    edits = (("depend", b"nth %d depend a b" % count, added),)
    return Shape("rules", [(b"a:\n", count)], {"rules": [(rule, count)]}, edits)


def blank_tail(size):
    """A rule with blank lines below it, over which its recipe could go on."""
    tail = [(b"\n", size)]
    longer = [(b"many:\n\tnew\n", 1), *tail]
    edits = (
        ("recipe", b"recipe many new", longer),
        ("recipe-insert", b"recipe-insert many 1 new", longer),
        ("rename", b"rename many new", [(b"new:\n", 1), *tail]),
        ("unrule", b"unrule many", tail),
    )
    return Shape("empty lines below a rule", [(b"many:\n", 1), *tail], {"rules": [(b"1:0: many: [0]\n", 1)]}, edits)


def recipe(at):
    """What `recipes` says of a recipe line of the first rule."""
    return b"%d:0: [%d] echo 123456789\n" % (at + 2, at + 1)


def targets_of_recipe_lines(size):
    """One rule with many targets and many recipe lines."""
    count = size // 2 // len(RECIPE_LINE)
    head = [(target, size // 2 // TARGET), (b"many:", 1)]
    said = {
        "rules": [(b"1:0: ", 1), *head, (b" [%d]\n" % count, 1)],
        "recipes": [(b"1:0: ", 1), *head, (b"\n", 1), (recipe, count)],
    }
    return Shape("targets of recipe lines", [*head, (b"\n", 1), (RECIPE_LINE, count)], said)


def recipe_lines(size):
    """One rule whose recipe has 1,000,000 lines where the size is 16,000,000."""
    line, count = RECIPE_LINE, size // len(RECIPE_LINE)
    part = [(b"many:\n", 1), (line, count)]
    without = [(b"many:\n", 1), (line, count - 1)]
    edits = (
        ("recipe", b"recipe many new", [*part, (b"\tnew\n", 1)]),
        ("recipe-set", b"recipe-set many %d new" % count, [*without, (b"\tnew\n", 1)]),
        ("recipe-del", b"recipe-del many %d" % count, without),
        ("recipe-insert", b"recipe-insert many 1 new", [(b"many:\n\tnew\n", 1), (line, count)]),
        ("recipe-subst", b"recipe-subst many 9 0", [(b"many:\n", 1), (line.replace(b"9", b"0"), count)]),
        ("recipes-subst", b"recipes-subst echo :", [(b"many:\n", 1), (line.replace(b"echo", b":"), count)]),
        ("unrule", b"unrule many", []),
        ("rename", b"rename many new", [(b"new:\n", 1), (line, count)]),
        ("line-remove", b'nth %d line-remove "%s"' % (count, line[:-1]), without),
    )
    said = {"rules": [(b"1:0: many: [%d]\n" % count, 1)], "recipes": [(b"1:0: many:\n", 1), (recipe, count)]}
    return Shape("recipe lines", part, said, edits)


def one_recipe_line(size):
    """A recipe line over many physical lines."""
    part = [(b"many:\n", 1), (b"\ta\\\n", size // 4), (b"\tb\n", 1)]
    edits = (
        ("recipe-set", b"recipe-set many 1 new", [(b"many:\n\tnew\n", 1)]),
        ("recipe-del", b"recipe-del many 1", [(b"many:\n", 1)]),
        ("recipe-subst", b"recipe-subst many a x", [(b"many:\n", 1), (b"\tx\\\n", size // 4), (b"\tb\n", 1)]),
        ("unrule", b"unrule many", []),
    )
    recipes = [(b"1:0: many:\n2:0: [1] ", 1), (b"a ", size // 4), (b"b\n", 1)]
    said = {"rules": [(b"1:0: many: [1]\n", 1)], "recipes": recipes}
    return Shape("one recipe line", part, said, edits)


def inline_recipe(size):
    """A rule with an inline recipe that ends no sooner than its line."""
    part = [(b"many: ", 1), (b";", size), (b"\n", 1)]
    edits = (("unrule", b"unrule many", []),)
    return Shape("one inline recipe", part, {"rules": [(b"1:0: many: [1]\n", 1)]}, edits)


def nested_conditionals(size):
    """As many conditionals as may be open at once, again and again."""
    return Shape("256 conditionals", [(b"ifdef A\n" * 256 + b"endif\n" * 256, size // 14 // 256)])


def alternatives(size):
    """One conditional with an `else` in every line."""
    return Shape("else", [(b"ifdef A\n", 1), (b"else\n", size // 5), (b"endif\n", 1)])


def define(size):
    """A define of many lines."""
    count = size // 7
    part = [(b"define D\n", 1), (b"X = $(\n", count), (b"endef\n", 1)]
    other = [(b"define D\n", 1), (b"X = $(\n", count - 1), (b"x\nendef\n", 1)]
    edits = (
        ("replace the last", b'nth %d line-replace "X = $(" x' % count, other),
        ("insert after them", b"insert before-line endef x", [*part[:2], (b"x\nendef\n", 1)]),
    )
    return Shape("lines of a define", part, edits=edits)


def open_defines(size):
    """Defines that are all open at the end, so that no line can come after them."""
    count = size // 7
    said = {"check": [(b"end: defines %d\n" % count, 1)]}
    part = [(b"define\n", count)]
    return Shape("open defines", part, said, is_closed=False, may_grow=False)


def no_last_end(size):
    """A last line that has no line end."""
    part = [(b"LONG = ", 1), (b"x", size)]
    said = {"vars": [(b"%d:0: " % (BLOCK_LINES + 1), 1), *part, (b"\n", 1)]}
    edits = (
        ("set it", b"set LONG two", [(b"LONG = two", 1)]),
        ("append to it", b"append LONG two", [*part, (b" two", 1)]),
        ("unset it", b"unset LONG", []),
    )
    return Shape("no last line end", part, said, edits, is_closed=False)


SHAPES = (
    value("one line", b"x"),
    no_last_end,
    value("words", b"word "),
    lines("empty lines", b"\n"),
    lines("CR LF lines", b"\r\n", end=b"\r\n"),
    kept("blanks", b" "),
    lines("lines of a tab", b"\t\n"),
    kept("a comment", b"#"),
    lines("comments", b"#\n"),
    value("backslashes", b"\\\\"),
    kept("backslashes alone", b"\\\\", OPAQUE),
    one_fold,
    value("folds", b"a\\\n", shown=b"a "),
    kept("bad folds", b"a\\\\\\\n", OPAQUE, tail=b"a\n"),
    value("references, open", b"$(", is_closed=False),
    value("references, closed", b"$(", closing=b")"),
    value("references, one after the other", b"${x}"),
    kept("references alone", b"$(", OPAQUE),
    kept("references in a rule", b"$(", ROUGH, head=b"all: "),
    lines("lines of an open reference", b"$(\n", OPAQUE),
    value("dollars", b"$$"),
    kept("equals signs", b"=", OPAQUE),
    kept("colons", b":", ROUGH),
    kept("colons after words", b"a:", ROUGH),
    kept("bars", b" |", ROUGH, head=b"all:"),
    kept("CR", b"\r", OPAQUE, end=b"\r\n"),
    kept("NUL", b"\0", OPAQUE),
    lines("lines of a NUL", b"\0\n", OPAQUE),
    kept("form feeds", b"\f", OPAQUE),
    kept("bytes above 127", b"\xff", OPAQUE),
    modifiers,
    targets,
    prerequisites,
    one_word,
    nested_words,
    one_name,
    renamed_lines,
    rules,
    blank_tail,
    targets_of_recipe_lines,
    recipe_lines,
    one_recipe_line,
    inline_recipe,
    lines("ifdef and endif", b"ifdef A\nendif\n"),
    nested_conditionals,
    alternatives,
    define,
    open_defines,
)


def scenes(size):
    """A scene for each shape, with a hostile part of about so many bytes."""
    return (scene_of(shape(size)) for shape in SHAPES)
