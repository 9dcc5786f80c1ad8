"""Each edit where much is large: the makefile, the line, the lines that it changes, the list of edits.

A contract lets a call answer that no memory was found, whatever it is asked. So each edit is done here
at a size that no other test of it has.
"""

import resource

from tests.hostile.scenes import BLOCK, BOTTOM, EDITS
from tests.lib.checks import Outcome
from tests.lib.rooms import RoomCase
from tests.program.test_limits import LIMIT

MANY = 1_000_000
# So many rounds may show that a time was the machine's other work.
ROUNDS = 5
# Each kind of edit of a long line: its command, the lines that it finds, and what they become. @ stands
# for a word of nearly 16 MB.
LONG_LINES = {
    "set": (b"set CC @", b"CC = gcc # c\n", b"CC = @ # c\n"),
    "set-if": (b"set-if CC gcc @", b"CC = gcc # c\n", b"CC = @ # c\n"),
    "append": (b"append CC @", b"CC = gcc # c\n", b"CC = gcc @ # c\n"),
    "add": (b"add CC @", b"CC = gcc # c\n", b"CC = gcc @ # c\n"),
    "drop": (b"drop CC gcc", b"CC = gcc @ # c\n", b"CC = @ # c\n"),
    "prepend": (b"prepend CC @", b"CC = gcc # c\n", b"CC = @ gcc # c\n"),
    "replace": (b"replace CC gcc @", b"CC = gcc # c\n", b"CC = @ # c\n"),
    "add-before": (b"add-before CC gcc @", b"CC = gcc # c\n", b"CC = @ gcc # c\n"),
    "add-after": (b"add-after CC gcc @", b"CC = gcc # c\n", b"CC = gcc @ # c\n"),
    "subst": (b"subst CC gcc @", b"CC = gcc # c\n", b"CC = @ # c\n"),
    "operator": (b"operator CC :=", b"CC = @ # c\n", b"CC := @ # c\n"),
    "all set": (b"all set CC @", b"CC = gcc # c\n", b"CC = @ # c\n"),
    "all set-if": (b"all set-if CC gcc @", b"CC = gcc # c\n", b"CC = @ # c\n"),
    "all append": (b"all append CC @", b"CC = gcc # c\n", b"CC = gcc @ # c\n"),
    "all add": (b"all add CC @", b"CC = gcc # c\n", b"CC = gcc @ # c\n"),
    "all drop": (b"all drop CC gcc", b"CC = gcc @ # c\n", b"CC = @ # c\n"),
    "all prepend": (b"all prepend CC @", b"CC = gcc # c\n", b"CC = @ gcc # c\n"),
    "all replace": (b"all replace CC gcc @", b"CC = gcc # c\n", b"CC = @ # c\n"),
    "all subst": (b"all subst CC gcc @", b"CC = gcc # c\n", b"CC = @ # c\n"),
    "all operator": (b"all operator CC :=", b"CC = @ # c\n", b"CC := @ # c\n"),
    "values-subst": (b"values-subst gcc @", b"CC = gcc # c\n", b"CC = @ # c\n"),
    "unset": (b"unset CC", b"CC = @\n", b""),
    "comment-out": (b"comment-out CC", b"CC = @\n", b"#CC = @\n"),
    "uncomment": (b"uncomment CC", b"# CC = @\n", b"CC = @\n"),
    "assign": (b"assign bottom CC = @", b"", b"CC = @\n"),
    "rule": (b"rule bottom all : @", b"", b"all: @\n"),
    "unrule": (b"unrule all", b"all: @\n\tcc\n", b""),
    "depend": (b"depend all @", b"all: a\n", b"all: a @\n"),
    "depend-order": (b"depend-order all @", b"all: a\n", b"all: a | @\n"),
    "undepend": (b"undepend all a", b"all: a @\n", b"all: @\n"),
    "depend-replace": (b"depend-replace all a @", b"all: a\n", b"all: @\n"),
    "recipe": (b"recipe all @", b"all:\n", b"all:\n\t@\n"),
    "recipe-set": (b"recipe-set all 1 @", b"all:\n\tcc\n", b"all:\n\t@\n"),
    "recipe-del": (b"recipe-del all 1", b"all:\n\t@\n", b"all:\n"),
    "recipe-insert": (b"recipe-insert all 1 @", b"all:\n\tcc\n", b"all:\n\t@\n\tcc\n"),
    "recipe-replace": (b"recipe-replace all cc @", b"all:\n\tcc\n", b"all:\n\t@\n"),
    "recipe-remove": (b"recipe-remove all @", b"all:\n\t@\n", b"all:\n"),
    "recipe-subst": (b"recipe-subst all cc @", b"all:\n\tcc -g\n", b"all:\n\t@ -g\n"),
    "recipes-subst": (b"recipes-subst @ cc", b"all:\n\t@ -g\n", b"all:\n\tcc -g\n"),
    "rename": (b"rename all @", b"all: a\n", b"@: a\n"),
    "insert": (b"insert bottom #@", b"", b"#@\n"),
    "line-replace": (b"line-replace CC=gcc CC=@", b"CC=gcc\n", b"CC=@\n"),
    "line-remove": (b"line-remove CC=@", b"CC=@\n", b""),
    "rule-replace": (b"rule-replace all @:", b"all:\n\tcc\n", b"@:\n"),
    "rule-remove": (b"rule-remove all", b"all: @\n\tcc\n", b""),
}
# Commands for variables that have numbers, and what becomes of a line `V1 = a`.
LISTS = {
    "set": (b"set V%d b\n", b"V%d = b\n"),
    "set-if": (b"set-if V%d a b\n", b"V%d = b\n"),
    "append": (b"append V%d b\n", b"V%d = a b\n"),
    "add": (b"add V%d b\n", b"V%d = a b\n"),
    "drop": (b"drop V%d a\n", b"V%d = \n"),
    "prepend": (b"prepend V%d b\n", b"V%d = b a\n"),
    "replace": (b"replace V%d a b\n", b"V%d = b\n"),
    "add-before": (b"add-before V%d a b\n", b"V%d = b a\n"),
    "add-after": (b"add-after V%d a b\n", b"V%d = a b\n"),
    "subst": (b"subst V%d a bc\n", b"V%d = bc\n"),
    "operator": (b"operator V%d ?=\n", b"V%d ?= a\n"),
}


def processor_time():
    """The seconds of processor time that the programs took which this process has run."""
    used = resource.getrusage(resource.RUSAGE_CHILDREN)
    return used.ru_utime + used.ru_stime


class LargeEdits(RoomCase):
    def assert_edit(self, command, before, after):
        """A script of one command makes one text of another."""
        self.room.write("edit", command + b"\n")
        self.room.write("large", before)
        self.assert_run(Outcome(after, b"", 0), "edit", "edit", "large")

    def test_each_edit_of_a_makefile_of_a_million_lines_is_made(self):
        above = b"A=\n" * MANY
        for name, (command, old, new) in EDITS.items():
            with self.subTest(name):
                block = BLOCK.replace(old, new.replace(b"@", b"\n"), 1)
                self.assert_edit(command, above + BLOCK, above + block)
        for name, (command, line) in BOTTOM.items():
            with self.subTest(name):
                self.assert_edit(command, above, above + line + b"\n")

    def test_each_edit_of_a_line_of_16_mb_is_made(self):
        # (the lines beside it have less than 100 bytes)
        word = b"x" * (LIMIT - 100)
        for name, row in LONG_LINES.items():
            with self.subTest(name):
                command, before, after = (it.replace(b"@", word) for it in row)
                self.assert_edit(command, b"A = 1\n" + before, b"A = 1\n" + after)

    def test_an_edit_may_change_a_million_lines(self):
        self.assert_edit(b"rename a b", b"a:\n" + b"c: a\n" * MANY, b"b:\n" + b"c: b\n" * MANY)
        self.assert_edit(b"rename a bc", b"a:\n" + b"c: a\n" * MANY, b"bc:\n" + b"c: bc\n" * MANY)
        self.assert_edit(b"unrule a", b"a:\n" + b"\tc\n" * MANY, b"")
        self.assert_edit(b"rule-remove a", b"a:\n" + b"ifdef A\n\tc\nendif\n" * (MANY // 2), b"")
        self.assert_edit(b"rule-replace a b:", b"a:\n" + b"\tc\n" * MANY, b"b:\n")
        self.assert_edit(b"all set-if A 1 12", b"A = 1\nA = 2\n" * MANY, b"A = 12\nA = 2\n" * MANY)
        self.assert_edit(b"all set A 12", b"A = 1\n" * MANY, b"A = 12\n" * MANY)
        self.assert_edit(b"all add A c", b"A = b\nA = b c\n" * MANY, b"A = b c\n" * 2 * MANY)
        self.assert_edit(b"all drop A c", b"A = b\nA = b c\n" * MANY, b"A = b\n" * 2 * MANY)
        self.assert_edit(b"all prepend A c", b"A = b\n" * MANY, b"A = c b\n" * MANY)
        self.assert_edit(b"all operator A :=", b"A = b\n" * MANY, b"A := b\n" * MANY)
        self.assert_edit(b"values-subst b cd", b"A = b\nB = c\n" * MANY, b"A = cd\nB = c\n" * MANY)
        self.assert_edit(b"recipe-subst a b cd", b"a:\n" + b"\tb\n" * MANY, b"a:\n" + b"\tcd\n" * MANY)
        self.assert_edit(b"recipes-subst b cd", b"a:\n\tb\n\tc\n" * MANY, b"a:\n\tcd\n\tc\n" * MANY)

    def test_a_block_may_have_a_million_lines(self):
        lines = b"".join(b"A%d = 1\n" % at for at in range(MANY))
        self.assert_edit(b"rule-replace a <<E\n" + lines + b"E", b"a:\n\tb\n", lines)
        self.assert_edit(b"insert top <<E\n" + lines + b"E", b"#\n", lines + b"#\n")
        self.assert_edit(b"line-replace <<E #\n" + lines + b"E", lines, b"#\n")
        self.assert_edit(b"line-replace # <<E\n" + lines + b"E", b"#\n", lines)
        self.assert_edit(b"line-remove <<E\n" + lines + b"E", b"#\n" + lines + b"#\n", b"#\n#\n")

    def test_a_long_value_may_have_a_million_occurrences(self):
        self.assert_edit(b"recipe-subst t a bc", b"t:\n\t" + b"a" * MANY, b"t:\n\t" + b"bc" * MANY)
        self.assert_edit(b"recipes-subst a bc", b"t:\n\t" + b"a\\\n" * MANY, b"t:\n\t" + b"bc\\\n" * MANY)
        for command, before, after in (
            (b"subst A a b", b"a" * MANY, b"b" * MANY),
            (b"subst A a bc", b"a" * MANY, b"bc" * MANY),
            (b'subst A " a" ""', b"a" + b" a" * MANY, b"a"),
            (b"subst A aaa b", b"a" * MANY, b"b" * (MANY // 3) + b"a" * (MANY % 3)),
            (b"replace A a bc", b"a" + b" a" * MANY, b"bc" + b" bc" * MANY),
            (b"replace A a b", b"a" + b" a b" * MANY, b"b" + b" b b" * MANY),
        ):
            with self.subTest(command):
                self.assert_edit(command, b"A = " + before + b" # c\n", b"A = " + after + b" # c\n")

    def test_a_long_separator_of_words_is_put_in_again(self):
        for long in (b" " * MANY, b"\\\n" * MANY):
            before = b"A = a" + long + b"b # c\n"
            for word, after in ((b"a", b"a" + long + b"c" + long + b"b"), (b"b", b"a" + long + b"b" + long + b"c")):
                with self.subTest(long=long[:2], word=word):
                    self.assert_edit(b"add-after A %s c" % word, before, b"A = " + after + b" # c\n")

    def test_a_long_text_that_nearly_occurs_everywhere_is_soon_found(self):
        """Four times the value and the text take at most ten times as long.

        To compare the text at each place of the value would take sixteen times as long.
        """
        for head, command in ((b"A = ", b"subst A "), (b"A = ", b"values-subst "), (b"t:\n\t", b"recipe-subst t ")):
            few, many = (self.seconds_of_a_text(head, command, size) for size in (MANY // 10, 4 * MANY // 10))
            with self.subTest(command):
                self.assertLess(many, 10 * max(few, 0.01), "a text is compared at each place")

    def seconds_of_a_text(self, head, command, size):
        """The seconds to replace a text of this size that stands at the end of another one twice as long."""
        self.room.write("large", head + b"a" * 2 * size + b"b\n")
        return self.seconds(command + b"a" * size + b"b c\n", head + b"a" * size + b"c\n")

    def test_a_value_of_many_folds_is_soon_changed(self):
        """Four times the lines take at most ten times as long, where each has a word and an occurrence, or the last is meant."""
        fold = b" \\\n  "
        for command, new, end in (
            (b"subst A b cd\n", b"acd", fold + b"last"),
            (b"replace A ab x\n", b"x", fold + b"last"),
            (b"add-before A last x\n", b"ab", fold + b"x" + fold + b"last"),
            (b"add-after A last x\n", b"ab", fold + b"last" + fold + b"x"),
        ):
            seconds = []
            for count in (MANY // 20, 4 * MANY // 20):
                self.room.write("large", b"A =" + (fold + b"ab") * count + fold + b"last\n")
                seconds.append(self.seconds(command, b"A =" + (fold + new) * count + end + b"\n"))
            with self.subTest(command):
                self.assertLess(seconds[1], 10 * max(seconds[0], 0.01), "a fold is passed again and again")

    def seconds(self, script, wanted):
        """The least processor time of some runs of a script, whose text has to be the wanted one."""
        self.room.write("many", script)
        least = float("inf")
        for _ in range(3):
            begun = processor_time()
            self.assert_run(Outcome(wanted, b"", 0), "edit", "many", "large")
            least = min(least, processor_time() - begun)
        return least

    def assert_few_walks(self, lines, script, wanted):
        """Ten thousand edits of `large` take at most ten times as long as one.

        The walk of one edit takes about a fifteenth of the time of its run. So ten thousand edits that
        walk each would take hundreds of times as long as one.
        """
        one = self.seconds(b"set V0 b\n", b"V0 = b\n" + b"".join(lines[1:]))
        many = self.seconds(script, wanted)
        self.assertLess(many, 10 * max(one, 0.01), "many edits take too long beside one")

    def test_many_edits_of_variables_need_few_walks(self):
        lines = [b"V%d = a\n" % it for it in range(100_000)]
        self.room.write("large", b"".join(lines))
        edited = range(0, len(lines), 10)
        for name, (command, line) in LISTS.items():
            with self.subTest(name):
                after = list(lines)
                for it in edited:
                    after[it] = line % it
                self.assert_few_walks(lines, b"".join(command % it for it in edited), b"".join(after))

    def test_many_new_lines_need_few_walks(self):
        lines = [b"V%d = a\n" % it for it in range(100_000)]
        self.room.write("large", b"".join(lines))
        new = [b"W%d = b\n" % it for it in range(10_000)]
        script = b"".join(b"assign bottom " + it for it in new)
        self.assert_few_walks(lines, script, b"".join(lines + new))

    def test_edits_that_count_lines_need_no_long_walks(self):
        """Two thousand edits that count lines of one name or of one rule, or pass over blank ones.

        A walk over all lines of the name for each edit, or one way down the tree of lines for each line that
        it passes, would take twenty times as long as one edit, and more.
        """
        first = [b"V%d = a\n" % it for it in range(250_000)]
        named, recipe, blank = [b"N = a\n"] * 40_000, [b"\tc\n"] * 16_000, [b"\n"] * 5_000
        lines = [*first, *named, b"long:\n", *recipe, b"gap:\n", *blank]
        self.room.write("large", b"".join(lines))
        below_named, below_long = len(first) + len(named) + 1, len(lines) - len(blank)
        numbers = {
            b"nth %d set N b\n": (len(first), 20, b"N = b\n"),
            b"recipe-set long %d d\n": (below_named, 8, b"\td\n"),
        }
        for command, (begin, step, line) in numbers.items():
            with self.subTest(command):
                after, script = list(lines), b""
                for it in range(0, 2_000 * step, step):
                    after[begin + it] = line
                    script += command % (it + 1)
                self.assert_few_walks(lines, script, b"".join(after))
        with self.subTest("recipe"):
            after = [*lines[:below_long], *[b"\tc\n"] * 2_000, *blank]
            self.assert_few_walks(lines, b"recipe gap c\n" * 2_000, b"".join(after))

    def test_edits_of_one_target_in_turn_need_few_walks(self):
        """Four times as many edits take at most ten times as long.

        Each edit has its target listed once more, since its line was written anew. Without an end to
        this the index would give up at last, and each edit walk over all lines: that takes some forty
        times as long.
        """
        lines = [b"V%d = a\n" % it for it in range(100_000)]
        lines[:: len(lines) // 20] = [b"T: a\n"] * 20
        before = b"".join(lines)
        self.room.write("large", before)
        pairs = (b"nth %d %s T v\n" % (at, name) for name in (b"depend", b"undepend") for at in range(1, 21))
        turn = b"".join(pairs)
        few, many = (self.seconds(turn * (count // 40), before) for count in (8_000, 32_000))
        self.assertLess(many, 10 * max(few, 0.01), "edits of one target take longer and longer")

    def test_an_edit_of_very_many_lines_takes_as_long_among_other_edits(self):
        """A rename of 800,000 lines and its undo take at most three times as long after ten other edits.

        These have the session make an index. If it followed each line of the rename, that would take seven
        times as long.
        """
        lines = b"a:b\n" * 800_000
        self.room.write("large", b"V = a\n" + lines)
        script = b"rename a c\nundo\n"
        alone = self.seconds(script, b"V = a\n" + lines)
        among = self.seconds(b"set V b\n" * 10 + script, b"V = b\n" + lines)
        self.assertLess(among, 3 * max(alone, 0.01), "a rename takes longer where there is an index")

    def test_an_edit_moves_its_lines_once(self):
        """A million lines are taken out in twice the time of an undo or redo of that, which moves each once."""
        lines = b"a:\n" + b"\tc\n" * MANY
        self.room.write("large", lines)
        for _ in range(ROUNDS):
            untouched, once = self.seconds(b"", lines), self.seconds(b"unrule a\n", b"")
            often = self.seconds(b"unrule a\n" + b"undo\nredo\n" * 2, b"")
            if once - untouched < 2 * (often - once) / 4:
                return
        self.fail("lines are moved more than once")

    def test_notes_on_edits_of_names_with_one_line_take_few_walks(self):
        names = range(40_000)
        for line, command in ((b"V%d = a\n", b"set V%d b\n"), (b"V%d:\n", b"recipe V%d b\n")):
            self.room.write("large", b"".join(line % it for it in names))
            self.room.write("edit", b"".join(command % it for it in names))
            seconds = []
            for words in ((), ("--notes",)):
                before = processor_time()
                got = self.room.run("edit", *words, "edit", "large")
                seconds.append(processor_time() - before)
                self.assertEqual((got.stderr, got.status), (b"", 0))
            self.assertLess(seconds[1], 3 * max(seconds[0], 0.02), "notes take longer than the edits")

    def test_notes_of_very_many_edits_end(self):
        self.room.write("large", b"A = 1\nA = 2\n" + b"#\n" * (MANY // 5))
        last = b"edit:6: note: no more notes like these: the makefile is too long for so many edits"
        for command in (b"nth 1 set A 3\n", b"set A 3\n"):
            self.room.write("edit", command * 10)
            lines = self.room.run("edit", "-k", "--notes", "edit", "large").stderr.splitlines()
            with self.subTest(command):
                self.assertEqual(lines.count(b"large:2: note: A = 2"), 5)
                self.assertEqual([it for it in lines if b"no more" in it], [last])
