"""Tests of the limits: the greatest text and script, one byte more, and too little memory."""

from tests.hostile.scenes import BLOCK, BOTTOM, EDITS
from tests.lib.checks import Outcome
from tests.lib.rooms import ANSWERS, EDITED, NO_COMMAND, NO_MEMORY, TEXT, TOO_DEEP, TOO_LONG, RoomCase

LIMIT = 16_777_216


def fill(size):
    """A comment of so many bytes."""
    return b"#" * (size - 1) + b"\n"


class Limits(RoomCase):
    def test_a_text_of_the_greatest_length_passes(self):
        text = b"#" * (LIMIT - 1) + b"\n"
        self.room.write("long", text)
        self.assert_run(Outcome(text, b"", 0), "edit", "empty", "long")

    def test_a_text_of_one_byte_more_is_too_long(self):
        self.room.write("long", b"#" * LIMIT + b"\n")
        for words in (["edit", "empty"], *([it] for it in ANSWERS)):
            self.assert_run(TOO_LONG, *words, "long")

    def test_a_query_of_a_text_of_the_greatest_length_answers(self):
        line = b"X = " + b"x" * (LIMIT - 5) + b"\n"
        self.room.write("long", line)
        self.assert_run(Outcome(b"1:0: " + line, b"", 0), "vars", "long")

    def test_a_query_of_a_million_lines_counts_them(self):
        self.room.write("long", b"\n" * 999_999 + b"a: ; b\n")
        self.assert_run(Outcome(b"1000000:0: a: [1]\n", b"", 0), "rules", "long")

    def test_looks_for_other_rules_go_through_as_many_bytes_as_the_greatest_text_has(self):
        rules = b"a:\n\tx\na:\na:\n"
        sentence = b"%d: make may take nothing from this rule: another one has the recipe of its target\n"
        for size, named in ((LIMIT // 2, (3, 4)), (LIMIT // 2 + 1, (3,)), (LIMIT, (3,))):
            self.room.write("long", rules + fill(size - len(rules)))
            wanted = Outcome(b"".join(sentence % number for number in named), b"", 0)
            self.assert_run(wanted, "caveats", "long")

    def test_a_text_that_grows_to_the_greatest_length_passes(self):
        text = b"#" * (LIMIT - 5) + b"\n"
        self.room.write("long", text)
        self.room.write("assign", b'assign bottom Y = ""\n')
        wanted = Outcome(text + b"Y =\n", b"", 0)
        self.assert_run(wanted, "edit", "assign", "long")

    def test_a_text_that_would_grow_past_the_greatest_length_is_refused(self):
        self.room.write("long", b"#" * (LIMIT - 1) + b"\n")
        self.room.write("assign", b"assign bottom Y = 1\n")
        wanted = Outcome(b"", b"1: refused 15 TooLong\n", 1)
        self.assert_run(wanted, "edit", "assign", "long")

    def test_as_many_conditionals_as_may_be_open_are_counted(self):
        self.room.write("deep", b"ifdef A\n" * 256 + b"X = 1\n")
        self.assert_run(Outcome(b"257:256: X = 1\n", b"", 0), "vars", "deep")
        self.assert_run(Outcome(b"end: conditionals 256\n", b"", 0), "check", "deep")

    def test_as_many_conditionals_as_may_be_open_pass(self):
        text = b"ifdef A\n" * 256
        self.room.write("deep", text)
        self.assert_run(Outcome(text, b"", 0), "edit", "empty", "deep")

    def test_one_conditional_more_is_too_deep(self):
        self.room.write("deep", b"ifdef A\n" * 257)
        for words in (["edit", "empty"], ["edit", "script"], *([it] for it in ANSWERS)):
            self.assert_run(TOO_DEEP, *words, "deep")

    def test_a_script_of_the_greatest_length_passes(self):
        self.room.write("long", b"set CC clang\n#" + b"#" * (LIMIT - 14))
        self.assert_run(EDITED, "edit", "long", "Makefile")

    def test_a_script_of_one_byte_more_is_too_long(self):
        self.room.write("long", b"set CC clang\n#" + b"#" * (LIMIT - 13))
        self.assert_run(TOO_LONG, "edit", "long", "Makefile")

    def test_an_edit_beyond_the_greatest_length_is_refused(self):
        self.room.write("long", TEXT + b"#" * (LIMIT - len(TEXT) - 1) + b"\n")
        self.assert_run(Outcome(b"", b"1: refused 15 TooLong\n", 1), "edit", "script", "long")

    def test_too_little_memory_is_told(self):
        self.room.write("long", b"#" * (LIMIT - 1) + b"\n")
        for words in (["edit", "empty"], *([it] for it in ANSWERS)):
            self.assert_run(NO_MEMORY, *words, "long", memory=LIMIT)

    def test_numbers_of_a_script_go_up_to_4_294_967_295(self):
        self.room.write("greatest", b"nth 4294967295 set CC clang\n")
        self.room.write("greater", b"nth 4294967296 set CC clang\n")
        self.assert_run(Outcome(b"", b"1: refused 4 NoSuch\n", 1), "edit", "greatest", "Makefile")
        wanted = Outcome(b"", b"mkedit: script line 1 is not a command\n", 2)
        self.assert_run(wanted, "edit", "greater", "Makefile")

    def test_each_edit_may_reach_the_greatest_length_and_go_no_further(self):
        for command, old, new in EDITS.values():
            block = BLOCK.replace(old, new.replace(b"@", b"\n"), 1)
            longest = LIMIT - max(len(BLOCK), len(block))
            self.room.write("edit", command + b"\n")
            self.room.write("longest", fill(longest) + BLOCK)
            self.assert_run(Outcome(fill(longest) + block, b"", 0), "edit", "edit", "longest")
            if len(block) > len(BLOCK):
                self.room.write("longer", fill(longest + 1) + BLOCK)
                refused = Outcome(b"", b"1: refused 15 TooLong\n", 1)
                self.assert_run(refused, "edit", "edit", "longer")

    def test_a_line_end_put_in_counts_for_the_greatest_length(self):
        for command, line in BOTTOM.values():
            self.room.write("edit", command + b"\n")
            size = LIMIT - len(line) - 2
            self.room.write("longest", b"#" * size)
            wanted = Outcome(b"#" * size + b"\n" + line + b"\n", b"", 0)
            self.assert_run(wanted, "edit", "edit", "longest")
            self.room.write("longer", b"#" * (size + 1))
            refused = Outcome(b"", b"1: refused 15 TooLong\n", 1)
            self.assert_run(refused, "edit", "edit", "longer")

    def test_what_an_edit_takes_away_makes_room(self):
        self.room.write("full", fill(LIMIT - len(BLOCK)) + BLOCK)
        self.room.write("both", b"append LAST two\nunset LAST\nappend END 2\nundo\nundo\n")
        text = (self.room.folder / "full").read_bytes()
        wanted = Outcome(text, b"1: refused 15 TooLong\n", 1)
        self.assert_run(wanted, "edit", "-k", "both", "full")

    def test_conditionals_that_are_closed_do_not_count(self):
        for text in (
            b"ifdef A\nendif\n" * 300,
            b"ifdef A\n" * 255 + b"ifdef A\nelse\nendif\n" * 300,
            b"define D\n" + b"ifdef A\n" * 300 + b"endef\n",
            b"all:\n" + b"\tifdef A\n" * 300,
            b"ifdef = 1\n" * 300,
            b"# ifdef A\n" * 300,
        ):
            self.room.write("closed", text)
            self.assert_run(Outcome(text, b"", 0), "edit", "empty", "closed")

    def test_each_conditional_counts_that_is_open(self):
        for text in (
            b"ifdef A\n" * 256 + b"endif\n" + b"ifdef A\n" * 2,
            b"".join(word + b" A\n" for word in (b"ifeq", b"ifneq", b"ifndef", b"ifdef")) * 64 + b"ifdef\n",
            b"ifdef A\nelse\n" * 256 + b"ifdef A",
            b"all:\n" + b"ifdef A\n\tb\n" * 257,
            b"ifdef A\n" * 257 + b"endif\n" * 257,
        ):
            self.room.write("deep", text)
            self.assert_run(TOO_DEEP, "edit", "empty", "deep")
            self.assert_run(TOO_DEEP, "vars", "deep")

    def test_a_text_that_is_too_long_and_too_deep_is_too_long(self):
        self.room.write("both", b"ifdef A\n" * (LIMIT // 8 + 1))
        self.assert_run(TOO_LONG, "edit", "empty", "both")

    def test_numbers_have_at_most_ten_digits(self):
        self.room.write("rule", b"all:\n\ta\n")
        absent = Outcome(b"", b"1: refused 6 Absent\n", 1)
        none = Outcome(b"", b"1: refused 4 NoSuch\n", 1)
        done = Outcome(b"all:\n\tb\n", b"", 0)
        for number, of_recipe, of_nth in (
            (b"1", done, done),
            (b"0000000001", done, done),
            (b"00000000001", NO_COMMAND, NO_COMMAND),
            (b"0", absent, none),
            (b"0000000000", absent, none),
            (b"00000000000", NO_COMMAND, NO_COMMAND),
            (b"1000000000", absent, none),
            (b"4294967295", absent, none),
            (b"4294967296", NO_COMMAND, NO_COMMAND),
            (b"4294967297", NO_COMMAND, NO_COMMAND),
            (b"9999999999", NO_COMMAND, NO_COMMAND),
            (b"10000000000", NO_COMMAND, NO_COMMAND),
            (b"18446744073709551617", NO_COMMAND, NO_COMMAND),
        ):
            self.room.write("recipe", b"recipe-set all %s b\n" % number)
            self.assert_run(of_recipe, "edit", "recipe", "rule")
            self.room.write("nth", b"nth %s recipe-set all 1 b\n" % number)
            self.assert_run(of_nth, "edit", "nth", "rule")
            self.room.write("recipe", b"recipe-del all %s\n" % number)
            of_deleting = of_recipe._replace(stdout=of_recipe.stdout.replace(b"\tb\n", b""))
            self.assert_run(of_deleting, "edit", "recipe", "rule")

    def test_the_last_line_of_the_greatest_script_is_numbered(self):
        self.room.write("bad", b"\n" * (LIMIT - 1) + b"x")
        message = b"mkedit: script line 16777216 is not a command\n"
        self.assert_run(Outcome(b"", message, 2), "edit", "bad", "Makefile")
        self.room.write("undo", b"\n" * (LIMIT - 4) + b"undo")
        report = b"16777213: refused 16 NothingToUndo\n"
        self.assert_run(Outcome(b"", report, 1), "edit", "undo", "Makefile")
