"""Random makefiles and edits for the judge.

The makefiles are small and lean to corners: folds, comments, references, conditionals, prefixes,
defines and every kind of rule at each other's edges. make stops at few of them, and few have what
groups.py tells, so that most are judged without an excuse. The edits are drawn for a makefile, so that
most are accepted.
"""

from tests.lib import reading

from .stated import OF_EVERY_LINE, OF_LINES, says

# A value refers only to names after its own, so that no variable refers to itself.
VARIABLES = b"A B CC CFLAGS X.y n-1 _d R Z".split()
TARGETS = b"all t u a.o b.o lib.a(x.o) sub/d $(R)x v-1 t2".split()
DOUBLE = [b"d", b"e"]
# Targets with a meaning of their own. Some have another meaning where they have no prerequisites.
SPECIAL = b".PHONY .SUFFIXES .DEFAULT".split() * 3
SPECIAL += b".SECONDARY .INTERMEDIATE .PRECIOUS .SILENT .IGNORE .ONESHELL .POSIX .NOTPARALLEL".split()
SPECIAL += b".DELETE_ON_ERROR .EXPORT_ALL_VARIABLES .SECONDEXPANSION".split()
PATTERNS = [b"%.o", b"%.q", b"x%"]
WORDS = b"a.c b.h t u c lib.a(y.o) $(R) ${Z} sub/x w % $(NONE) $$v".split()
PIECES = b"gcc -O2 a x=1 y:z $$ $$(b) a,b p;q { | & \\n %.c".split() + [b"'q q'"]
REFERENCES = [b"$(%s)", b"${%s}", b"$(%s)", b"$(subst a,b,$(%s))", b"$(%s:.c=.o)"]
COMMANDS = [
    *(b"", b"echo a", b"@echo $@", b"-rm -f x", b"  two", b"# not a comment", b"$(CC) -c $<", b"$(A)#b"),
    *(b"a\\\\", b"x = 1", b"t: u", b"a \\\n\tb", b"a \\\n  b", b"if x; then \\\n\ty; fi"),
]
COMMENTS = [b"# c", b"#", b"# a \\\n  b", b"  # A = 1", b"#CC := gcc # d", b"# export B += a", b"# t:", b"#\tz"]
PLAIN_BLANKS = [b"", b" ", b"  "]
FOLDED_BLANKS = [b" \\\n ", b"\\\n\t", b"  \\\n"]
# Lines of a define: single ones, and others.
BODIES = [b"line", b"A = 1", b"\ttab", b"t: u", b"# c", b"", b"ifdef X", b"$$(x)", b"\tendef"]
DEFINED = [*BODIES, b"a \\\n  b", b"define K\nendef"]
# In how many makefiles a byte or two are put in or taken out anywhere, and which.
NOISY = 0.2
SIGNS = b"\\ # : = ; $ ( ) { | & ? \\# a % $$ ,".split()
NOISE = SIGNS + [b" ", b"\t", b"\t\t", b"\n", b"\\\n", b"\r", b"\f"]
BYTE_ORDER_MARK = b"\xef\xbb\xbf"
# What groups.py tells, and what is near to it.
HOSTILE = [
    *(b"\f\n", b"\v # c\n", b"\f define D\nA = 1\nendef\n", b"\fA = 1\n", b"A = \f1\n", b"\r\n\t\n"),
    *(b"$(NONE)\n", b"$(NONE)\n\tB = 2\n", b"$(NONE): b\n\tx\n", b": b\n\tx\n", b"A = 1\r2\n"),
    *(b"define .RECIPEPREFIX=\n>\nendef\n", b"P = .RECIPEPREFIX\n$(P) = >\n"),
    *(b"ifdef NONE\n.RECIPEPREFIX = >\nendif\n", b"ifndef NONE\nt:\n\telse\nendif\n"),
    *(b"ifdef NONE\nX = 1\nendif\n\tA = 2\n", b"ifdef NONE\nu:\nendif\n\tx\n"),
    *(b"A = a\\\\# c\n", b"B = b\\\\\\# c\n", b"a\\#b = 1\n", b"\\#:\n\tA = 1\n", b"A \\\\\\\n = 1\n"),
    *(b"t: lib.a(a b)\n", b"./t: a.c\n", b"u: ./t\n", b"t: a\\ b\n", b"t: a|b\n", b"t: B = 1;2 # c\n"),
    *(b"A;B = 1\n", b"unexport A = 1\n", b"define D \\\nA = 1\nendef\n", b"A\\:= 1\n"),
]


# The operators that an edit brings.
OPERATORS = b"= := ::= ?= +=".split()
# What an edit brings now and then: values, words and recipe lines near to the edge of their tests.
CORNERED = 0.08
VALUES = [b"\\\\ a", b"%", b"a:", b"= b", b":= b", b"'\"'", b"$(NONE)", b"a\\ b", b"$$", b"+= x"]
VALUES += [b"$(subst #,-,a)"]
NEW_WORDS = b"export override private define endef else endif ifdef vpath undefine".split()
NEW_WORDS += b"a, & * [a] 'x' a(b) %x% -x @x a$(NONE) $(NONE) .PHONY .DEFAULT .x $(R)$(Z) {} ! ^".split()
NEW_WORDS += b".SUFFIXES .SECONDARY".split()
# The edits before which no number stands.
UNNUMBERED = ("rename", "values-subst", "recipes-subst", *OF_EVERY_LINE)
LINES = [b" ", b"\t", b"define x", b"endif", b"else", b"a  ", b": ;", b"\\ ", b"a # b", b"$(NONE)", b"a$"]


class Writer:
    """Writes one makefile from a source of random choices."""

    def __init__(self, source):
        self.source = source
        self.prefix = b"\t"
        self.depth = 0

    def chance(self, share):
        return self.source.random() < share

    def one(self, of):
        return self.source.choice(of)

    def blank(self, least=b""):
        """Blanks, rarely with a fold."""
        if self.chance(0.06):
            return self.one(FOLDED_BLANKS)
        return least or self.one(PLAIN_BLANKS)

    def text(self):
        """A makefile."""
        text = b"".join(self.piece() for _ in range(self.source.randint(2, 10)))
        if self.chance(0.005):
            text = BYTE_ORDER_MARK + text
        if self.chance(NOISY):
            text = self.noisy(text)
        if self.chance(0.12):
            text = text[:-1]
        return text.replace(b"\n", b"\r\n") if self.chance(0.08) else text

    def noisy(self, text):
        """The text with a byte or two put in or taken out."""
        for _ in range(self.source.randint(1, 2)):
            at = self.source.randrange(len(text) + 1)
            new = self.one(NOISE) if self.chance(0.8) else b""
            text = text[:at] + new + text[at + self.source.randint(0, 1) :]
        return text

    def piece(self):
        """Some lines that stand together."""
        if self.chance(0.012):
            return self.one(HOSTILE)
        kinds = (
            [self.assignment] * 8
            + [self.rule] * 7
            + [self.target_assignment, self.define, self.directive]
            + [self.gap] * 3
            + ([self.conditional] * 3 if self.depth < 3 else [])
            + ([self.change_prefix] if self.depth == 0 and self.chance(0.3) else [])
        )
        return self.one(kinds)()

    def gap(self):
        return self.one([b"\n", b"\n", b"  \n", self.one(COMMENTS) + b"\n"])

    def value(self, name):
        """A value for a variable: it refers only to those after it."""
        later = VARIABLES[VARIABLES.index(name) + 1 :] if name in VARIABLES else VARIABLES
        words = []
        for _ in range(self.one([0, 1, 1, 1, 2, 3])):
            if later and self.chance(0.15):
                words.append(self.one(REFERENCES) % self.one(later))
            elif name in (b"R", b"Z"):
                words.append(self.one([b"r", b"s.c", b"w"]))
            else:
                words.append(self.one(PIECES))
        return b"".join(self.blank(b" ") + it for it in words).lstrip(b" \t") if words else b""

    def definition(self, name):
        """A name, an operator and a value, perhaps with a comment."""
        operator = self.one([b"=", b"=", b":=", b"::=", b"?=", b"+=", b"+="])
        value = self.value(name)
        before = b" " if name[-1:] in b"+?!" else self.one([b"", b" ", b"\t", b" "])
        line = name + before + operator + self.blank() + value
        if self.chance(0.15):
            line += self.one([b" ", b"  ", b"\t"]) + self.one(COMMENTS).lstrip(b" ")
        elif self.chance(0.08):
            line += b"  "
        return line

    def assignment(self):
        modifiers = b""
        if self.chance(0.12):
            modifiers = self.one([b"override ", b"export ", b"private ", b"override export "])
        led = self.one([b" ", b"  "]) if self.chance(0.08) else b""
        mark = self.one([b"#", b"# "]) if self.chance(0.08) else b""
        return led + mark + modifiers + self.definition(self.one(VARIABLES)) + b"\n"

    def target_assignment(self):
        targets = self.one([*TARGETS, *DOUBLE, b"t u", b"%.o"])
        modifier = self.one([b"override ", b"private ", b"export "]) if self.chance(0.15) else b""
        definition = self.definition(self.one(VARIABLES)).replace(b";", b",")
        return targets + self.one([b": ", b":", b" : "]) + modifier + definition + b"\n"

    def define(self):
        head = self.one([b"define ", b"define ", b"override define "]) + self.one([b"M", *VARIABLES[:4]])
        head += self.one([b"", b"", b" =", b" :="])
        body = b"".join(self.one(DEFINED) + b"\n" for _ in range(self.source.randint(0, 3)))
        return head + b"\n" + body + self.one([b"endef\n", b"endef # c\n", b" endef\n"])

    def directive(self):
        word = self.one([b"export", b"unexport", b"undefine", b"vpath", b"override undefine"])
        if word == b"vpath":
            return self.one([b"vpath\n", b"vpath %.c src\n"])
        return word + b" " + self.one(VARIABLES) + self.one([b"", b" # c"]) + b"\n"

    def conditional(self):
        """A conditional with pieces in its branches."""
        self.depth += 1
        text = self.condition() + b"\n"
        text += b"".join(self.piece() for _ in range(self.source.randint(0, 2)))
        if self.chance(0.15):
            text += b"else " + self.condition() + b"\n" + self.piece()
        if self.chance(0.4):
            text += self.one([b"else\n", b"else # c\n", b" else\n"]) + self.piece()
        self.depth -= 1
        return text + self.one([b"endif\n", b"endif # c\n", b"  endif\n"])

    def condition(self):
        forms = [b"ifdef %s", b"ifndef %s", b"ifeq ($(%s),a)", b'ifneq "$(%s)" "gcc"', b"ifeq (%s,B)"]
        return self.one([*forms, b"ifdef  %s # c"]) % self.one([*VARIABLES, b"NONE"])

    def change_prefix(self):
        """Another recipe prefix for what follows."""
        self.prefix, value = self.one([(b">", b">"), (b">", b"> x"), (b"\t", b""), (b"|", b"|")])
        return b".RECIPEPREFIX" + self.one([b" = ", b" := ", b"="]) + value + b"\n"

    def words(self, of, least, most):
        found = [self.one(of) for _ in range(self.source.randint(least, most))]
        return b"".join(self.blank(b" ") + it for it in found)

    def needs(self, is_static):
        """The prerequisites of a rule."""
        words = [it for it in WORDS if is_static or it != b"%"]
        text = self.words([*words, b"%.c"] if is_static else words, 0, 3)
        if self.chance(0.2):
            text += b" | " + self.words([it for it in words if b"%" not in it], 0, 2).lstrip(b" ")
        return text

    def rule(self):
        """A rule of any kind, perhaps with a recipe."""
        kind = self.one(["plain"] * 6 + ["double", "pattern", "static", "grouped", "special"])
        if kind == "special":
            return self.special()
        line = self.targets(kind) + self.needs(kind in ("pattern", "static"))
        if self.chance(0.1) or kind == "grouped":
            line += self.one([b";", b" ; echo # b", b";x \\\n\ty", b"; "])
        elif self.chance(0.08):
            line += b" # c"
        has_recipe = self.chance(0.7) or kind == "grouped"
        return line + b"\n" + (self.recipe() if has_recipe else b"")

    def special(self):
        """One or two rules of a special target, or the variable that names the goal."""
        if self.chance(0.05):
            return b".DEFAULT_GOAL" + self.one([b" = ", b" := "]) + self.one(TARGETS) + b"\n"
        target = self.one(SPECIAL)
        return b"".join(self.special_rule(target) for _ in range(self.one([1, 1, 2])))

    def special_rule(self, target):
        """A rule of a special target, often without prerequisites, seldom with a recipe."""
        line = target + self.one([b":", b":", b" :"])
        line += self.words([*TARGETS, *DOUBLE], 0, 2) if self.chance(0.7) else self.needs(False)
        has_recipe = self.chance(0.5 if target == b".DEFAULT" else 0.1)
        return line + b"\n" + (self.recipe() if has_recipe else b"")

    def targets(self, kind):
        """The targets of a rule, and its separator;"""
        if kind == "pattern":
            return self.one(PATTERNS) + self.one([b":", b": "])
        if kind == "static":
            return self.one([b"a.o", b"a.o b.o", b"$(NONE) b.o"]) + b": %.o:"
        if kind == "double":
            return self.one(DOUBLE) + b"::"
        if kind == "grouped":
            return self.one([b"g h", b"h", b"g t2"]) + self.one([b" &:", b"&: "])
        return self.words(TARGETS, 1, 2).lstrip(b" \t\\\n") + self.one([b":", b" :", b": "])

    def recipe(self):
        """Recipe lines, perhaps with other lines between them."""
        text = b""
        for _ in range(self.source.randint(0, 3)):
            command = self.one(COMMANDS).replace(b"\t", self.one([self.prefix, b" "]))
            text += self.prefix + command + b"\n"
            if self.chance(0.12):
                text += self.gap()
            elif self.chance(0.05) and self.depth < 3:
                command = self.one([b"echo a", b"", b"@echo $@"])
                text += self.condition() + b"\n" + self.prefix + command + b"\nendif\n"
        return text


def makefile(source):
    """A random makefile."""
    return Writer(source).text()


def recipes_by_target(text, lines):
    """The texts of the recipe lines of each target, but of those that end in a backslash."""
    found, targets, physical = {}, (), text.split(b"\n")
    for it in lines:
        if it.kind == "Header":
            targets = it.parts[0]
        elif it.kind == "Recipe":
            command = physical[it.number - 1][1:].rstrip(b"\r")
            for target in targets if command[-1:] != b"\\" else ():
                found.setdefault(target, []).append(command)
    return found


def text_of(line):
    """What a line says."""
    return reading.without_line_end(line.raw)


def is_field(text):
    """Whether a text may be a line that a command has in a field."""
    return not set(text) & set(b"\n\r\0") and text[-1:] != b"\\"


class Editor:
    """Draws edits for a makefile."""

    def __init__(self, source, text):
        self.source = source
        self.one = source.choice
        self.writer = Writer(source)
        lines, _ = reading.read(text)
        self.values = [(it.parts[1], it.parts[-1]) for it in lines if it.kind == "Assign"]
        self.names = [name for name, _ in self.values]
        self.rules = [it.parts for it in lines if it.kind == "Header"]
        self.recipes = recipes_by_target(text, lines)
        self.lines = [it for it in lines if is_field(text_of(it))]

    def edits(self):
        """One edit of each kind, in a random order."""
        found = [self.edit(command) for command in FIELDS]
        self.source.shuffle(found)
        return [it for it in found if it]

    def edit(self, command):
        """An edit of this kind, or None where the makefile has nothing for it."""
        fields = FIELDS[command](self)
        if fields is None:
            return None
        is_counted = command not in UNNUMBERED and not fields[0].startswith((b"top", b"bottom", b"after-last-var "))
        return (command, self.nth(command, *fields[:2]) if is_counted else None, *fields)

    def nth(self, command, address, value=None):
        """A number among the lines that an address means, where there are several."""
        of_value, of_comments = self.values.count((address, value)), len(self.comments(address))
        count = of_value if command == "set-if" else of_comments if command == "uncomment" else self.count(address.removeprefix(b"before-line ").removeprefix(b"after-line "), command in OF_LINES)
        return self.source.randint(1, count) if count > 1 and self.source.random() < 0.9 else None

    def count(self, address, is_text):
        """How many lines have a name or a target, or perhaps a text."""
        name = address.split(b" ")[-1]
        of_text = [text_of(it) for it in self.lines].count(address) if is_text else 0
        return of_text or self.names.count(name) + sum(name in it[0] for it in self.rules)

    def name(self):
        return self.one(self.names) if self.names else None

    def target(self):
        targets = [it for rule in self.rules for it in rule[0]]
        return self.one(targets) if targets else None

    def value(self, name):
        """A value on one line."""
        if self.writer.chance(CORNERED):
            return self.one(VALUES)
        folded = self.writer.value(name)
        return b" ".join(folded.replace(b"\\\n", b" ").split())

    def value_of(self, name):
        """A value of a variable."""
        return self.one([value for of, value in self.values if of == name])

    def comments(self, name):
        """The comments that say an assignment of a name."""
        return [it for it in self.lines if says(name)(it)]

    def commented(self):
        names = [it for it in VARIABLES if self.comments(it)]
        return (self.one(names),) if names else None

    def word(self):
        if self.writer.chance(CORNERED):
            return self.one(NEW_WORDS)
        return self.one(WORDS[:10])

    def place(self):
        name, target = self.name(), self.target()
        places = [b"bottom", b"top"]
        places += [b"before-var " + name, b"after-var " + name, b"after-last-var " + name] if name else []
        return self.one(places + ([b"before-rule " + target, b"after-rule " + target] if target else []))

    def needed(self, target):
        """A prerequisite of a rule, most often."""
        words = [it for rule in self.rules if target in rule[0] for it in (*rule[3], *rule[4])]
        return self.one(words) if words and self.source.random() < 0.9 else self.word()

    def held(self, name):
        """A word of a value of a variable, most often."""
        words = [it for of, value in self.values if of == name for it in reading.texts(reading.units(value))]
        return self.one(words) if words and self.source.random() < 0.9 else self.word()

    def part_of(self, texts):
        """A part of one of these texts, most often."""
        texts = [it for it in texts if it]
        if not texts or self.source.random() < 0.1:
            return self.word()
        text = self.one(texts)
        at = self.source.randrange(len(text))
        return text[at : at + self.one([1, 1, 2, 3, len(text)])]

    def part(self, name):
        """A part of a value of a variable, most often."""
        return self.part_of(value for of, value in self.values if of == name)

    def new_part(self):
        """What stands in the place of a part."""
        return self.one([b"", b" ", b"x", b"a b", self.one(SIGNS), self.word()])

    def command(self):
        if self.writer.chance(CORNERED):
            return self.one(LINES)
        return self.one([it for it in COMMANDS if b"\n" not in it and it[-1:] != b"\\"])

    def for_name(self, *rest):
        name = self.name()
        return name and (name, *(it(name) for it in rest))

    def for_every_line(self, *rest):
        """A name with other fields, most often a name that stands in several lines."""
        repeated = [it for it in self.names if self.names.count(it) > 1]
        name = self.one(repeated) if repeated and self.source.random() < 0.8 else self.name()
        return name and (name, *(it(name) for it in rest))

    def for_target(self, *rest):
        target = self.target()
        return target and (target, *(it(target) for it in rest))

    def for_recipe_line(self, *rest):
        """A target with the text of a line of its recipe."""
        if not self.recipes:
            return None
        target = self.one(list(self.recipes))
        return (target, self.one(self.recipes[target]), *(it(target) for it in rest))

    def values_subst(self):
        return self.part_of(value for _, value in self.values), self.new_part()

    def recipe_subst(self):
        if not self.recipes:
            return None
        target = self.one(list(self.recipes))
        return target, self.part_of(self.recipes[target]), self.new_part()

    def recipes_subst(self):
        return self.part_of(it for of in self.recipes.values() for it in of), self.new_part()

    def assign(self):
        name = self.one(VARIABLES)
        return self.place(), name, self.one(OPERATORS), self.value(name)

    def rule(self):
        is_double = self.source.random() < 0.2
        targets = self.one(DOUBLE) if is_double else self.one([b"n", b"n m", self.word()])
        needs = b" ".join(self.word() for _ in range(self.source.randint(0, 2)))
        return self.place(), targets, b"::" if is_double else b":", needs

    def one_line(self):
        """A line that stands in the makefile, one of each class as often, where there is one."""
        kinds = sorted({it.kind for it in self.lines})
        kind = kinds and self.one(kinds)
        return self.one([it for it in self.lines if it.kind == kind]) if kinds else None

    def insert(self):
        line = self.one_line()
        if line is None or self.source.random() < 0.3:
            return self.place(), self.new_lines()
        side = self.one([b"before-line ", b"after-line "])
        if line.kind == "Header" and side == b"after-line " or line.kind == "Recipe":
            new = line.context.prefix + self.command()
        elif line.kind in ("Body", "DefineHead" if side == b"after-line " else "Endef"):
            new = self.one(BODIES)
        else:
            new = self.new_lines()
        return side + text_of(line), new

    def line_replace(self):
        line = self.one_line()
        if line and line.kind in ("Assign", "Header", "Recipe") and self.source.random() < 0.3:
            return text_of(line), self.writer.condition() + b"\n" + text_of(line) + b"\nendif"
        return line and (text_of(line), self.instead_of(line))

    def line_remove(self):
        line = self.one_line()
        if line and self.source.random() < 0.3:
            at = self.lines.index(line)
            return (b"\n".join(map(text_of, self.lines[at : at + 2])),)
        return line and (text_of(line),)

    def rule_replace(self):
        target = self.target()
        rule = target and target + b": " + self.word()
        return target and (target, self.one([rule, rule + b"\n\t" + self.command(), self.new_lines()]))

    def new_lines(self):
        """A line that may stand anywhere, or several."""
        if self.source.random() < 0.7:
            return self.new_line()
        if self.source.random() < 0.5:
            return self.writer.condition() + b"\n" + self.new_line() + b"\nendif"
        return b"n2: " + self.word() + b"\n" + self.new_line()

    def instead_of(self, line):
        """A line that may stand in the place of one."""
        if line.kind == "If":
            return self.writer.condition()
        if line.kind == "Else":
            has_condition = len(text_of(line).split()) > 1
            return b"else " + self.writer.condition() if has_condition else self.one([b"else # d", b"  else"])
        if line.kind in ("Endif", "Endef"):
            return line.kind.lower().encode() + self.one([b" # d", b"  "])
        if line.kind == "DefineHead":
            return self.one([b"define M", b"define A =", b"override define B"])
        if line.kind == "Recipe":
            return line.context.prefix + self.command()
        return self.one(BODIES) if line.kind == "Body" else self.new_line()

    def new_line(self):
        """A line that may stand anywhere."""
        name = self.one(VARIABLES)
        assignment = name + b" " + self.one(OPERATORS) + b" " + self.value(name)
        lines = [assignment, assignment, b"t: " + assignment, b"n: " + self.word(), b"d:: " + self.word()]
        return self.one([*lines, b"# new", b"", self.writer.directive()[:-1]])

    def number(self, _):
        return b"%d" % self.one([1, 1, 1, 2, 2, 3])

    def rename(self):
        return self.for_target(lambda _: self.one([b"new", self.word(), b"$(R)n", self.one(TARGETS)]))


FIELDS = {
    "set": lambda it: it.for_name(it.value),
    "append": lambda it: it.for_name(lambda name: it.value(name) or b"more"),
    "add": lambda it: it.for_name(lambda _: it.word()),
    "drop": lambda it: it.for_name(it.held),
    "prepend": lambda it: it.for_name(lambda name: it.value(name) or b"more"),
    "replace": lambda it: it.for_name(it.held, lambda name: it.value(name) or b"more"),
    "add-before": lambda it: it.for_name(it.held, lambda _: it.word()),
    "add-after": lambda it: it.for_name(it.held, lambda _: it.word()),
    "subst": lambda it: it.for_name(it.part, lambda _: it.new_part()),
    "operator": lambda it: it.for_name(lambda _: it.one(OPERATORS)),
    "set-if": lambda it: it.for_name(it.value_of, it.value),
    "all set-if": lambda it: it.for_every_line(it.value_of, it.value),
    "all set": lambda it: it.for_every_line(it.value),
    "all append": lambda it: it.for_every_line(lambda name: it.value(name) or b"more"),
    "all add": lambda it: it.for_every_line(lambda _: it.word()),
    "all drop": lambda it: it.for_every_line(it.held),
    "all prepend": lambda it: it.for_every_line(lambda name: it.value(name) or b"more"),
    "all replace": lambda it: it.for_every_line(it.held, lambda name: it.value(name) or b"more"),
    "all subst": lambda it: it.for_every_line(it.part, lambda _: it.new_part()),
    "all operator": lambda it: it.for_every_line(lambda _: it.one(OPERATORS)),
    "values-subst": Editor.values_subst,
    "unset": lambda it: it.for_name(),
    "comment-out": lambda it: it.for_name(),
    "uncomment": Editor.commented,
    "assign": Editor.assign,
    "rule": Editor.rule,
    "unrule": lambda it: it.for_target(),
    "depend": lambda it: it.for_target(lambda _: it.word()),
    "depend-order": lambda it: it.for_target(lambda _: it.word()),
    "undepend": lambda it: it.for_target(it.needed),
    "depend-replace": lambda it: it.for_target(it.needed, lambda _: it.word()),
    "recipe": lambda it: it.for_target(lambda _: it.command()),
    "recipe-set": lambda it: it.for_target(it.number, lambda _: it.command()),
    "recipe-del": lambda it: it.for_target(it.number),
    "recipe-insert": lambda it: it.for_target(it.number, lambda _: it.command()),
    "recipe-replace": lambda it: it.for_recipe_line(lambda _: it.command()),
    "recipe-remove": lambda it: it.for_recipe_line(),
    "recipe-subst": Editor.recipe_subst,
    "recipes-subst": Editor.recipes_subst,
    "rename": Editor.rename,
    "insert": Editor.insert,
    "line-replace": Editor.line_replace,
    "line-remove": Editor.line_remove,
    "rule-replace": Editor.rule_replace,
    "rule-remove": lambda it: it.for_target(),
}
