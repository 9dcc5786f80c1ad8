"""Scripts drawn at random for a makefile.

Most fields are names, targets, words and numbers that stand in the makefile as it is when the command
is reached, so that many edits are accepted.
"""

import re

from argument_rows import is_command, is_name, is_target, is_value, is_word
from tests.lib.reading import PREFIX_NAME, texts, units

from . import document
from .drawing import Drawing
from .edits import is_value_word
from .judge import EDITS, MISSING, meaning_of_line, obey
from .session import Session
from .vocabulary import (
    BAD_FIELDS,
    BLOCKS,
    COMMANDS,
    END_WORDS,
    HOSTILE,
    NAMES,
    NO_COMMANDS,
    OPERATORS,
    RESERVED,
    SAME_CLASS,
    TARGETS,
    VALUES,
    WHOLE_LINES,
    WORDS,
)
from .whole_lines import is_block

# The edits with their weights, by what they need in the makefile.
OF_NAMES = {
    b"set": 10,
    b"set-if": 8,
    b"append": 8,
    b"add": 7,
    b"drop": 7,
    b"prepend": 7,
    b"replace": 7,
    b"add-before": 7,
    b"add-after": 7,
    b"subst": 8,
    b"operator": 6,
    b"unset": 9,
    b"comment-out": 7,
    b"values-subst": 8,
}
OF_RULES = {
    b"unrule": 10,
    b"depend": 7,
    b"depend-order": 6,
    b"undepend": 8,
    b"depend-replace": 8,
    b"rule-replace": 9,
    b"rule-remove": 8,
    b"recipe": 9,
    b"rename": 9,
}
OF_RECIPES = {
    b"recipe-set": 8,
    b"recipe-del": 8,
    b"recipe-insert": 8,
    b"recipe-replace": 7,
    b"recipe-remove": 7,
    b"recipe-subst": 9,
    b"recipes-subst": 8,
}
NEW_LINES = {b"assign": 10, b"rule": 9, b"insert": 12}
OF_LINES = {b"line-replace": 12, b"line-remove": 9}
OF_COMMENTS = {b"uncomment": 14}
GREATEST = 4294967295


class Block(bytes):
    """A field that may have several lines."""


def said_by(lines):
    """What some lines say, with LF between them."""
    return b"\n".join(it for line in lines for it in line.said)


class Scripts(Drawing):
    """Draws one script, and keeps the session that it leads to.

    is_long: whether it has many commands. is_part: whether the program gets a makefile with more lines among these
    or with more bytes in the first one, which no command may speak of then, and which stays the first.
    """

    def __init__(self, source, text, depth, is_long=False, is_part=False):
        super().__init__(source)
        self.is_long, self.is_part = is_long, is_part
        self.session = Session(text, depth)
        self.document = document.read(text)
        self.end = b"\r\n" if self.chance(0.1) else b"\n"
        # in some scripts undo, redo and groups are what matters, in some alternatives
        self.is_of_calls = self.chance(0.25)
        self.is_of_alternatives = self.chance(0.25)
        # whether `or` may stand in the next line, and whether its command is tried
        self.takes_alternative = self.is_tried = False

    def count(self):
        """How many commands the script has."""
        if self.is_long:
            return self.source.randint(20, 400)
        if self.is_of_calls:
            return self.source.randint(4, 24)
        return 1 if self.chance(0.3) else self.one([0, 2, 3, 4, 5, 6, 8, 10])

    def script(self):
        script = b""
        for _ in range(self.count()):
            script += self.obeyed(self.line(self.command())) + self.end + self.filler()
        if self.chance(0.015):
            script += self.one(NO_COMMANDS) + self.end
        return script[: -len(self.end)] if self.chance(0.2) else script

    def obeyed(self, line):
        """The line of a command, now and then with `try` or `or` before it, once it is obeyed as it stands there."""
        command = meaning_of_line(line)
        word = self.word_before(command)
        if word:
            line = self.field(word) + self.one([b" ", b" ", b"\t"]) + line
        refusal = None
        if command and (word != b"or" or self.is_tried):
            refusal = obey(self.session, *command).refusal
        passed = refusal is not None and refusal.number == MISSING
        self.is_tried = passed and (word != b"or" or self.is_tried)
        self.takes_alternative = bool(command) and command[0] in EDITS and word != b"try"
        return line

    def word_before(self, command):
        """The word `try` or `or` before an edit's command, or none."""
        if not command or command[0] not in EDITS:
            return b""
        if self.takes_alternative and self.chance(0.5 if self.is_of_alternatives else 0.06):
            return b"or"
        return b"try" if self.chance(0.2 if self.is_of_alternatives else 0.04) else b""

    def filler(self):
        """A line without a command, now and then."""
        return self.one([b"# c", b"", b" \t", b"#"]) + self.end if self.chance(0.05) else b""

    # ---- lines

    def line(self, fields):
        """The line of a command, with the lines of its blocks below it."""
        gap = b" " if self.chance(0.9) else self.one([b"  ", b"\t", b" \t"])
        written = [self.written(it) for it in fields]
        line = gap.join(field for field, _ in written)
        line = self.one([b" ", b"\t"]) + line + b" " if self.chance(0.05) else line
        return self.end.join([line, *(it for _, lines in written for it in lines)])

    def written(self, text):
        """A field as a script writes it, and the lines that stand below for it."""
        if isinstance(text, Block) and (b"\n" in text or self.chance(0.15)):
            lines = text.split(b"\n")
            word = self.one([it for it in END_WORDS if it not in lines])
            return b"<<" + word, [*lines, word]
        return self.field(text), []

    def field(self, text):
        """A field in a script's line."""
        is_mark = isinstance(text, Block) and text[:2] == b"<<" and self.chance(0.9)
        needs_quotes = not text or text[:1] == b'"' or b" " in text or b"\t" in text or is_mark
        if needs_quotes or self.chance(0.1):
            return b'"' + text.replace(b"\\", b"\\\\").replace(b'"', b'\\"') + b'"'
        return text

    def command(self):
        """The fields of a command."""
        if self.chance(0.55 if self.is_of_calls else 0.2):
            return [self.weighted(self.calls())]
        self.document = document.read(self.session.text)
        word = self.weighted(self.edits())
        return getattr(self, word.decode().replace("-", "_"))()

    def calls(self):
        """The calls of a session with their weights: not often one that is refused."""
        session = self.session
        if session.group is not None:
            return {b"end": 12, b"cancel": 11, b"undo": 1, b"redo": 1, b"begin": 1}
        if self.is_of_calls:
            return {b"undo": 14, b"redo": 8, b"begin": 6, b"end": 0.5, b"cancel": 0.5}
        undo = 16 if len(session.done) - 1 > session.floor else 1.5
        redo = 14 if session.undone else 1
        return {b"undo": undo, b"redo": redo, b"begin": 5, b"end": 0.5, b"cancel": 0.5}

    def has(self, kind):
        """Whether the makefile has a line of this class."""
        return any(it.kind == kind for it in self.document.lines)

    def edits(self):
        """The edits with their weights: seldom one that finds nothing."""
        weights = dict(NEW_LINES)
        for edits, kind in ((OF_NAMES, "Assign"), (OF_RULES, "Header"), (OF_RECIPES, "Recipe")):
            share = 1 if self.has(kind) else 0.08
            weights.update((it, weight * share) for it, weight in edits.items())
        weights |= {it: weight * (1 if self.commented() else 0.05) for it, weight in OF_COMMENTS.items()}
        return weights | (OF_LINES if self.old_lines() else {})

    # ---- fields

    def bad_or(self, field):
        """The field, or seldom one that some test refuses."""
        return self.one(BAD_FIELDS) if self.chance(0.025) else field

    def standing(self, words, others):
        """A word that stands in the makefile, where there is one; seldom another."""
        return self.one(words) if words and self.chance(0.92) else self.one(others)

    def targets_of(self, lines):
        """The targets of lines that an edit may name."""
        return [word for it in lines for word in it.targets if is_target(word)]

    def headers(self):
        return [it for it in self.document.lines if it.kind == "Header"]

    def name(self):
        if self.chance(0.01):
            return PREFIX_NAME
        names = [it.parts[1] for it in self.document.lines if it.kind == "Assign"]
        names = [it for it in names if is_name(it) and it != PREFIX_NAME]
        return self.bad_or(self.standing(names, NAMES))

    def commented(self):
        """The names of which comments say assignments."""
        return [it for it in NAMES if self.document.comments(it)]

    def target(self):
        if self.chance(0.012):
            return self.one(RESERVED)
        return self.bad_or(self.standing(self.targets_of(self.headers()), TARGETS))

    def new_target(self):
        if self.chance(0.02):
            return self.one(RESERVED)
        return self.bad_or(self.one([b"n1", b"t", b"tidy", b">n", b"X", b"b1", *TARGETS]))

    def need(self, target, share):
        """With this chance a prerequisite of a rule that has this target, else any word."""
        rules = [self.document.lines[at] for at in self.document.rules(target)]
        needs = [word for it in rules for word in (*it.parts[3], *it.parts[4]) if is_word(word)]
        return self.bad_or(self.one(needs) if needs and self.chance(share) else self.one(WORDS))

    def value(self):
        return self.bad_or(self.one(VALUES))

    def line_text(self):
        return self.bad_or(self.one(COMMANDS))

    def number(self, count):
        """The words `nth N` for one of this number of lines, or nothing."""
        if not self.chance(0.7 if count > 1 else 0.06):
            return []
        number = self.source.randint(1, max(count, 1))
        number = self.one([0, count + 1, GREATEST]) if self.chance(0.08) else number
        return [b"nth", (b"%010d" if self.chance(0.05) else b"%d") % number]

    def address(self, count):
        """What may stand before the edit of a value that this number of lines have: `all`, `nth N`, or nothing."""
        return [b"all"] if self.chance(0.3 if count > 1 else 0.08) else self.number(count)

    def place(self):
        """The words `nth N`, or nothing, and the fields of a place."""
        places = [b"bottom"] if self.is_part else [b"bottom", b"top"]
        places += [b"before-var", b"after-var", b"after-last-var"] * (self.has("Assign") or self.chance(0.05))
        places += [b"before-rule", b"after-rule"] * (self.has("Header") or self.chance(0.05))
        kind = self.one(places)
        if kind in (b"bottom", b"top"):
            return [], [kind]
        if kind in (b"before-rule", b"after-rule"):
            target = self.target()
            return self.number(len(self.document.rules(target))), [kind, target]
        name = self.name()
        if kind == b"after-last-var":
            return [], [kind, name]
        return self.number(len(self.document.assignments(name))), [kind, name]

    def old_lines(self):
        """The lines that a command can name by what they say."""
        lines = [it for it in self.document.lines if is_block(said_by([it]))]
        return [it for it in lines if it.said != self.document.lines[0].said] if self.is_part else lines

    def old_run(self):
        """The words `nth N`, or nothing; lines that stand in the makefile, where there are any; and what they say."""
        lines, run = self.old_lines(), []
        if lines and self.chance(0.95):
            first = self.document.lines.index(self.one(lines))
            run = self.document.lines[first : first + (1 if self.is_part else self.one([1, 1, 1, 2, 3]))]
        said = said_by(run) if run else self.fresh(self.new_line())
        return self.number(len(self.document.runs(said.split(b"\n")))), run, Block(said)

    def new_line(self):
        """A line to put in, which seldom stands there already."""
        lines = self.old_lines()
        if lines and self.chance(0.08):
            return self.one(lines).said[0]
        usual = [b"# %d" % self.source.randrange(100), b"N := a", b"include a.mk", b"\ty"]
        return self.bad_or(self.one([*usual, self.one(WHOLE_LINES)]))

    def new_block(self):
        """Lines to put in: most often one."""
        if self.chance(0.15):
            return self.fresh(self.one(BLOCKS))
        return self.fresh(b"\n".join(self.new_line() for _ in range(self.one([1, 1, 1, 1, 2, 3]))))

    def fresh(self, block):
        """The block, or a longer one that stands nowhere, where the program gets more lines: these may stand between neighbours."""
        while self.is_part and self.document.runs(block.split(b"\n")):
            block += b"#"
        return Block(block)

    # ---- commands

    def of_value(self, word, name, *texts):
        return [*self.address(len(self.document.assignments(name))), word, name, *texts]

    def of_target(self, word, target, *rest):
        return [*self.number(len(self.document.rules(target))), word, target, *rest]

    def set(self):
        return self.of_value(b"set", self.name(), self.value())

    def set_if(self):
        name = self.name()
        values = [self.document.lines[at].parts[-1] for at in self.document.assignments(name)]
        said = [it for it in values if is_value(it)]
        old = self.one(said) if said and self.chance(0.85) else self.value()
        return [*self.address(values.count(old)), b"set-if", name, old, self.value()]

    def append(self):
        return self.of_value(b"append", self.name(), self.value() or self.one([b"v", b"v", b""]))

    def word_of(self, name, share):
        """With this chance a word of a value of this variable, else any word."""
        values = [self.document.lines[at].parts[-1] for at in self.document.assignments(name)]
        words = [it for value in values for it in texts(units(value)) if is_value_word(it)]
        return self.bad_or(self.one(words) if words and self.chance(share) else self.one(WORDS))

    def add(self):
        name = self.name()
        return self.of_value(b"add", name, self.word_of(name, 0.2))

    def drop(self):
        name = self.name()
        return self.of_value(b"drop", name, self.word_of(name, 0.8))

    def of_name(self, word, name, *rest):
        return [*self.number(len(self.document.assignments(name))), word, name, *rest]

    def prepend(self):
        return self.of_value(b"prepend", self.name(), self.value() or self.one([b"v", b"v", b""]))

    def replace(self):
        name = self.name()
        new = self.value() or self.one([b"v", b"v", b""])
        return self.of_value(b"replace", name, self.word_of(name, 0.85), new)

    def word_beside(self, word):
        """A command that puts a word beside another."""
        name = self.name()
        return self.of_name(word, name, self.word_of(name, 0.9), self.word_of(name, 0.1))

    def add_before(self):
        return self.word_beside(b"add-before")

    def add_after(self):
        return self.word_beside(b"add-after")

    def part_of(self, texts):
        """A part of one of these texts, where there is one that is not empty; else any word."""
        texts = [it for it in texts if it]
        if not texts or self.chance(0.12):
            return self.bad_or(self.one(WORDS))
        text = self.one(texts)
        start = self.source.randrange(len(text))
        return self.bad_or(text[start : start + self.one([1, 1, 1, 2, 3, 5, len(text)])])

    def new_part(self):
        """What goes in the place of a part of a text."""
        new = self.one(HOSTILE) if self.chance(0.25) else self.one([b"", b"x", b" ", b"a b", *VALUES])
        return self.bad_or(new)

    def subst(self):
        name = self.name()
        values = [self.document.lines[at].parts[-1] for at in self.document.assignments(name)]
        return self.of_value(b"subst", name, self.part_of(values), self.new_part())

    def values_subst(self):
        values = [it.parts[-1] for it in self.document.lines if it.kind == "Assign"]
        return [b"values-subst", self.part_of(values), self.new_part()]

    def operator(self):
        return self.of_value(b"operator", self.name(), self.one(OPERATORS))

    def unset(self):
        return self.of_name(b"unset", self.name())

    def comment_out(self):
        return self.of_name(b"comment-out", self.name())

    def uncomment(self):
        names = self.commented()
        name = self.bad_or(self.standing(names, NAMES))
        return [*self.number(len(self.document.comments(name))), b"uncomment", name]

    def assign(self):
        number, place = self.place()
        name = self.one([*NAMES, b"N"]) if self.chance(0.98) else PREFIX_NAME
        fields = [self.bad_or(name), self.one(OPERATORS), self.value()]
        return [*number, b"assign", *place, *fields]

    def rule(self):
        number, place = self.place()
        gap = b" " if self.chance(0.9) else self.one([b"  ", b"\t"])
        targets = gap.join(self.new_target() for _ in range(self.one([1, 1, 1, 1, 2, 2, 3])))
        needs = gap.join(self.some(WORDS, 0, 3))
        fields = [self.bad_or(targets), self.one([b":", b"::"]), self.bad_or(needs)]
        return [*number, b"rule", *place, *fields]

    def single_target(self):
        """A target of a rule that has no other one, more often than not."""
        alone = self.targets_of(it for it in self.headers() if len(it.targets) == 1)
        return self.one(alone) if alone and self.chance(0.6) else self.target()

    def unrule(self):
        return self.of_target(b"unrule", self.single_target())

    def depend(self):
        target = self.target()
        return self.of_target(b"depend", target, self.need(target, 0.2))

    def depend_order(self):
        target = self.target()
        return self.of_target(b"depend-order", target, self.need(target, 0.2))

    def undepend(self):
        target = self.target()
        return self.of_target(b"undepend", target, self.need(target, 0.85))

    def depend_replace(self):
        target = self.target()
        return self.of_target(b"depend-replace", target, self.need(target, 0.9), self.need(target, 0.1))

    def recipe(self):
        return self.of_target(b"recipe", self.target(), self.line_text())

    def recipe_target(self):
        """A target of a rule that has recipe lines, where there is one."""
        lines = enumerate(self.document.lines)
        rules = [it for at, it in lines if it.kind == "Header" and self.document.recipe_lines(at)]
        targets = self.targets_of(rules)
        return self.one(targets) if targets and self.chance(0.85) else self.target()

    def recipe_number(self, target, more=0):
        """The number of a recipe line of a rule with this target, or of so many below the last; seldom 0, or one too many."""
        rules = self.document.rules(target)
        most = max((len(self.document.recipe_lines(at)) for at in rules), default=0) + more
        most += 1 if not most or self.chance(0.15) else 0
        return b"%d" % (0 if self.chance(0.03) else self.source.randint(1, most))

    def recipe_set(self):
        target = self.recipe_target()
        number = self.recipe_number(target)
        return self.of_target(b"recipe-set", target, number, self.line_text())

    def recipe_del(self):
        target = self.recipe_target()
        return self.of_target(b"recipe-del", target, self.recipe_number(target))

    def recipe_text(self, target):
        """The text of a recipe line of a rule with this target, where there is one that a command can say."""
        rules = self.document.rules(target)
        lines = [self.document.lines[it] for at in rules for it in self.document.recipe_lines(at)]
        texts = [it.item[1] for it in lines if is_command(it.item[1])]
        return self.one(texts) if texts and self.chance(0.85) else self.line_text()

    def recipe_replace(self):
        target = self.recipe_target()
        return self.of_target(b"recipe-replace", target, self.recipe_text(target), self.line_text())

    def recipe_remove(self):
        target = self.recipe_target()
        return self.of_target(b"recipe-remove", target, self.recipe_text(target))

    def part_of_lines(self, lines):
        """A part of one of these recipe lines, which does not go over a fold."""
        return self.part_of([it for line in lines for it in re.split(rb"\r?\n", line.parts[0])])

    def recipe_subst(self):
        target = self.recipe_target()
        rules = self.document.rules(target)
        lines = [self.document.lines[it] for at in rules for it in self.document.recipe_lines(at)]
        return self.of_target(b"recipe-subst", target, self.part_of_lines(lines), self.new_part())

    def recipes_subst(self):
        lines = [it for it in self.document.lines if it.kind == "Recipe"]
        return [b"recipes-subst", self.part_of_lines(lines), self.new_part()]

    def recipe_insert(self):
        target = self.recipe_target()
        number = self.recipe_number(target, more=1)
        return self.of_target(b"recipe-insert", target, number, self.line_text())

    def insert(self):
        number, place = self.place()
        if self.chance(0.55):
            number, _, old = self.old_run()
            place = [self.one([b"before-line", b"after-line"]), old]
        elif self.chance(0.2) and not self.is_part:
            number, place = [], [b"top"]
        return [*number, b"insert", *place, self.new_block()]

    def line_replace(self):
        number, run, old = self.old_run()
        same = SAME_CLASS.get(run[0].kind) if len(run) == 1 else [b"ifdef A\n" + old + b"\nendif"]
        new = self.fresh(self.one(same)) if same and self.chance(0.6) else self.new_block()
        return [*number, b"line-replace", old, new]

    def line_remove(self):
        number, _, old = self.old_run()
        return [*number, b"line-remove", old]

    def new_rule(self, target):
        """Lines in the place of a rule for this target: most often such a rule."""
        if self.chance(0.4):
            return self.new_block()
        prefix = next((it.context.prefix for it in self.headers() if target in it.targets), b"\t")
        lines = [prefix + it for it in self.some(COMMANDS, 0, 2)]
        lines = [b"ifdef A", *lines, b"endif"] if self.chance(0.2) else lines
        return self.fresh(b"\n".join([target + b": " + self.one(WORDS), *lines]))

    def rule_replace(self):
        target = self.single_target()
        rules = [at for at in self.document.rules(target) if self.document.rule_end(at)]
        if rules and not self.is_part and self.chance(0.06):
            at = self.one(rules)
            block = Block(said_by(self.document.lines[at : self.document.rule_end(at)]))
            return self.of_target(b"rule-replace", target, block)
        return self.of_target(b"rule-replace", target, self.new_rule(target))

    def rule_remove(self):
        return self.of_target(b"rule-remove", self.single_target())

    def rename(self):
        standing = self.targets_of(self.document.lines)
        old = self.bad_or(self.standing(standing, TARGETS))
        is_taken = standing and self.chance(0.12)
        return [b"rename", old, self.one(standing) if is_taken else self.new_target()]
