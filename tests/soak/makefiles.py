"""Makefiles drawn at random.

They lean to corners: folds and references at every boundary, recipe prefixes that change, conditionals
and comments among recipe lines, defines, mixed line ends, a last line without one.
"""

from tests.lib import reading

from . import document, vocabulary
from .drawing import Drawing
from .vocabulary import CONDITIONALS, HOSTILE, NAMES, OPERATORS, TARGETS, WORDS

# The blocks of lines that a makefile is made of, with their weights.
BLOCKS = {
    "assignment": 24,
    "rule": 26,
    "target_assignment": 5,
    "conditional": 7,
    "define": 5,
    "blank": 4,
    "comment": 6,
    "directive": 3,
    "opaque": 3,
    "rough": 3,
    "led": 4,
    "leaning": 5,
    "pieces": 3,
}


class Makefiles(Drawing):
    """Draws one makefile."""

    def __init__(self, source):
        super().__init__(source)
        self.end = b"\r\n" if self.chance(0.15) else b"\n"
        self.mixes_ends = self.chance(0.1)
        self.fold_share = self.one([0, 0, 0.04, 0.04, 0.25, 0.7])
        self.prefix = b"\t"
        self.depth = 0
        self.names = self.some(NAMES, 1, 4)
        self.targets = self.some(TARGETS, 1, 5)

    def makefile(self):
        text = b""
        if self.chance(0.2):
            text += self.prefix_change()
        for _ in range(self.one([0, 1, 2, 2, 3, 3, 4, 5, 6, 8])):
            text += getattr(self, self.weighted(BLOCKS))()
            if self.chance(0.04):
                text += self.prefix_change()
        return self.torn(text)

    # ---- parts of lines

    def line_end(self):
        return self.one([b"\n", b"\r\n"]) if self.mixes_ends else self.end

    def fold(self):
        blanks = [b"", b"", b" ", b"\t", b"  "]
        fold = self.one(blanks) + b"\\" + self.line_end() + self.one(blanks)
        if self.chance(0.15):
            fold += b"\\" + self.line_end() + self.one(blanks)
        return b"\\\\" + fold if self.chance(0.03) else fold

    def gap(self, usual=b" "):
        """Blanks that may be left out, or a fold."""
        if self.chance(self.fold_share):
            return self.fold()
        return usual if self.chance(0.8) else self.one([b"", b" ", b"\t", b"  "])

    def space(self):
        """Blanks that keep two words apart, or a fold, which does so too."""
        if self.chance(self.fold_share):
            return self.fold()
        return b" " if self.chance(0.9) else self.one([b"\t", b"  "])

    def folded(self, text):
        """The text, perhaps with a fold for one of its blanks or within it."""
        if not text or not self.chance(self.fold_share):
            return text
        blanks = [at for at, byte in enumerate(text) if byte == 0x20]
        if blanks and self.chance(0.8):
            at = self.one(blanks)
            return text[:at] + self.fold() + text[at + 1 :]
        at = self.source.randint(0, len(text))
        return text[:at] + self.fold() + text[at:]

    def name(self):
        others = [*NAMES, b"$(a)x", b"X+", b"a;b"]
        return self.one(self.names) if self.chance(0.85) else self.one(others)

    def target(self):
        return self.one(self.targets) if self.chance(0.85) else self.one(WORDS)

    def targets_of(self, count):
        """So many words that may be targets, kept apart."""
        line = b""
        for at in range(count):
            line += (self.space() if at else b"") + self.folded(self.target())
        return line

    def value(self):
        values = vocabulary.ODD_VALUES if self.chance(0.12) else vocabulary.VALUES
        return self.folded(self.one(values))

    def closing(self):
        """What may stand at the end of a line that is no recipe line."""
        return self.gap(b"") + self.one(vocabulary.COMMENTS) + self.line_end()

    # ---- lines

    def definition(self):
        """Modifiers, name, operator and value."""
        count = self.one([0, 0, 0, 0, 0, 1, 2])
        modifiers = self.some(vocabulary.MODIFIERS, count, count)
        line = b"".join(it + self.space() for it in modifiers)
        operator = b"=" if self.chance(0.5) else self.one(OPERATORS)
        return line + self.name() + self.gap() + operator + self.gap() + self.value()

    def assignment(self):
        lead = self.gap(b"") if self.chance(0.1) else b""
        return lead + self.definition() + self.closing()

    def prefix_change(self):
        """A line that sets the recipe prefix, seldom in a way that is not read."""
        is_usual = self.chance(0.93)
        operators = [b"=", b":=", b"::="] if is_usual else [b"=", b"?=", b"+=", b":::="]
        prefix = self.one(vocabulary.PREFIXES if is_usual else vocabulary.ODD_PREFIXES)
        self.prefix = prefix[:1] or b"\t"
        gap = b" " if prefix else b""
        return b".RECIPEPREFIX" + self.gap() + self.one(operators) + gap + prefix + self.line_end()

    def head(self):
        """The line of a rule up to its prerequisites."""
        line = self.gap(b"") if self.chance(0.08) else b""
        line += self.targets_of(self.one([0, 1, 1, 1, 1, 1, 2, 2, 3]))
        separator = self.one([b":", b":", b":", b":", b"::", b"&:", b" &::"])
        line += self.gap(b"") + separator
        if self.chance(0.08):
            line += self.gap() + self.one([b"%.o", b"p", b"b&"]) + self.gap(b"") + b":"
        return line

    def needs(self):
        """The prerequisites of a rule."""
        count = self.one([0, 0, 1, 1, 2, 3])
        line = self.gap() + self.targets_of(count)
        if self.chance(0.3):
            line = line + self.space() if count or self.chance(0.5) else b""
            line += b"|" + (self.space() if self.chance(0.95) else b"")
            line += self.targets_of(self.one([0, 1, 1, 2]))
        return line

    def rule(self):
        line = self.head() + self.needs()
        if self.chance(0.1):
            line += self.gap(b"") + b";" + self.one([b"", b" x # y", b"a: b", self.gap() + b"c"])
        return line + self.closing() + self.recipe()

    def recipe(self):
        """Recipe lines, with what may stand among them."""
        text = b""
        for _ in range(self.one([0, 0, 1, 1, 2, 2, 3, 4])):
            text += self.between() if self.chance(0.25) else b""
            prefix = self.prefix if self.chance(0.93) else self.one([b"\t", b">", b"t"])
            text += prefix + self.folded(self.one(vocabulary.COMMANDS)) + self.line_end()
        return text + (self.between() if self.chance(0.15) else b"")

    def between(self):
        kind = self.one(["blank", "blank", "comment", "if", "if", "else", "endif", "endif"])
        if kind in ("blank", "comment"):
            return getattr(self, kind)()
        line = self.one(CONDITIONALS) if kind == "if" else kind.encode()
        return line + self.line_end()

    def target_assignment(self):
        line = self.targets_of(self.one([0, 1, 1, 2])) + self.gap(b"")
        line += self.one([b":", b":", b"::"]) + self.gap()
        return line + self.definition() + self.closing()

    def conditional(self):
        text = self.one(CONDITIONALS) + self.line_end()
        for _ in range(self.one([0, 1, 1, 2])):
            text += self.inside()
        if self.chance(0.4):
            text += b"else" + self.line_end() + self.inside()
        end = b"endif" + self.one(vocabulary.COMMENTS) + self.line_end()
        return text + (end if self.chance(0.8) else b"")

    def inside(self):
        """A block inside a conditional, of the kinds that edits mean most."""
        self.depth += 1
        kinds = ["assignment", "rule", "blank", "led"] + (["conditional"] if self.depth < 4 else [])
        text = getattr(self, self.one(kinds))()
        self.depth -= 1
        return text

    def define(self):
        name = self.one([b"D", b"D =", b"D # c", b"X", b"E"])
        name = b".RECIPEPREFIX" if self.chance(0.04) else name
        text = self.one([b"", b"", b"override ", b"export "]) + b"define " + name + self.line_end()
        for body in self.some(vocabulary.BODIES, 0, 3):
            text += body + self.line_end()
        return text + (b"endef" + self.line_end() if self.chance(0.8) else b"")

    def blank(self):
        return self.one([b"", b"", b" ", b" \t", self.fold()]) + self.line_end()

    def comment(self):
        if self.chance(0.4):
            return self.gap(b"") + b"#" + self.one([b"", b"", b" ", b"\t "]) + self.definition() + self.closing()
        return self.one([b"# c", b"#", b" # c", b"#\\", b"# a \\", b"#\0"]) + self.line_end()

    def directive(self):
        return self.one(vocabulary.DIRECTIVES) + self.line_end()

    def opaque(self):
        return self.one(vocabulary.OPAQUE) + self.line_end()

    def rough(self):
        return self.one(vocabulary.ROUGH) + self.line_end() + self.recipe()

    def led(self):
        """A line that begins with the recipe prefix, wherever it stands."""
        bodies = [b"X = 1", b"a: b", b"# c", b"", b"ifdef A", b"x", b"include y", b"endef"]
        body = self.definition() if self.chance(0.4) else self.one(bodies)
        return self.prefix + body + self.line_end()

    def leaning(self):
        """A line that begins with the recipe prefix, below lines that a change may put it under."""
        text = self.head() + self.needs() + self.line_end() if self.chance(0.6) else b""
        text += self.name() + self.gap() + b"=" + self.gap() + self.value() + self.line_end()
        return text + (self.between() if self.chance(0.3) else b"") + self.led()

    def pieces(self):
        """Bytes that mean something, in any order."""
        words = [*self.targets, *self.names, *OPERATORS, *HOSTILE]
        return b"".join(self.some(words, 1, 9)) + self.line_end()

    # ---- the whole

    def torn(self, text):
        """The text, perhaps with another end, and perhaps with some bytes changed."""
        if self.chance(0.3):
            text = reading.without_line_end(text) + self.one(vocabulary.TEXT_ENDS)
        if self.chance(0.12):
            for _ in range(self.one([1, 1, 2, 4])):
                at = self.source.randint(0, len(text))
                text = text[:at] + self.one([b"", *HOSTILE]) + text[at + self.one([0, 0, 1, 2]) :]
        return text


def long_makefile(source):
    """Makefiles below a comment, one below the other, most of those left out that would refuse each edit."""
    drawing, text = Drawing(source), b"#\n"
    for _ in range(drawing.one([3, 10, 20])):
        longer = text + Makefiles(source).makefile()
        if not refuses_edits(longer) or drawing.chance(0.01):
            text = longer
    return text


def refuses_edits(text):
    """Whether a text sets the recipe prefix in a way that is not read, or has an open define."""
    doc = document.read(text)
    return doc.sets_prefix_unread() or doc.end_context.defines > 0
