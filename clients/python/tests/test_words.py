"""Tests of what callers hand over: what no line may have in it is refused before anything is sent."""

import unittest

import mkedit
from mkedit import BOTTOM, TOP, words
from mkedit import after_last_var, after_line, after_rule, after_var, before_line, before_rule, before_var

from .cases import MAKEFILE, ClientCase

BAD_TEXTS = ("a\nwrite!", "\n", "a\n", "a\rb", "a\r", "a\0b", "\ud800")
# Each call with one text, or one number, that is not what it should be.
WITH_FIELD = (
    lambda it, bad: it.set(bad, "1"),
    lambda it, bad: it.set("X", bad),
    lambda it, bad: it.set_if("X", bad, "1"),
    lambda it, bad: it.set_if("X", "1", bad),
    lambda it, bad: it.set_if_all("X", bad, "1"),
    lambda it, bad: it.set_if_all(bad, "1", "2"),
    lambda it, bad: it.append("X", bad),
    lambda it, bad: it.add("X", bad),
    lambda it, bad: it.drop(bad, "1"),
    lambda it, bad: it.set_all("X", bad),
    lambda it, bad: it.append_all(bad, "1"),
    lambda it, bad: it.add_all("X", bad),
    lambda it, bad: it.drop_all("X", bad),
    lambda it, bad: it.prepend("X", bad),
    lambda it, bad: it.replace("X", bad, "1"),
    lambda it, bad: it.replace("X", "1", bad),
    lambda it, bad: it.add_before("X", bad, "1"),
    lambda it, bad: it.add_before("X", "1", bad),
    lambda it, bad: it.add_after("X", bad, "1"),
    lambda it, bad: it.add_after("X", "1", bad),
    lambda it, bad: it.subst("X", bad, "1"),
    lambda it, bad: it.subst("X", "1", bad),
    lambda it, bad: it.operator(bad, "="),
    lambda it, bad: it.operator("X", bad),
    lambda it, bad: it.prepend_all("X", bad),
    lambda it, bad: it.replace_all("X", bad, "1"),
    lambda it, bad: it.replace_all("X", "1", bad),
    lambda it, bad: it.subst_all("X", bad, "1"),
    lambda it, bad: it.subst_all("X", "1", bad),
    lambda it, bad: it.operator_all(bad, "="),
    lambda it, bad: it.operator_all("X", bad),
    lambda it, bad: it.values_subst(bad, "1"),
    lambda it, bad: it.values_subst("1", bad),
    lambda it, bad: it.unset(bad),
    lambda it, bad: it.comment_out(bad),
    lambda it, bad: it.uncomment(bad),
    lambda it, bad: it.assign(BOTTOM, bad, "=", "1"),
    lambda it, bad: it.assign(BOTTOM, "Y", bad, "1"),
    lambda it, bad: it.assign(BOTTOM, "Y", "=", bad),
    lambda it, bad: it.assign(before_var(bad), "Y", "=", "1"),
    lambda it, bad: it.assign(after_last_var(bad), "Y", "=", "1"),
    lambda it, bad: it.rule(after_var(bad), "a", ":", "b"),
    lambda it, bad: it.rule(after_rule(bad), "a", ":", "b"),
    lambda it, bad: it.rule(before_rule(bad), "a", ":", "b"),
    lambda it, bad: it.rule(mkedit.Place(bad, "X"), "a", ":", "b"),
    lambda it, bad: it.rule(BOTTOM, bad, ":", "b"),
    lambda it, bad: it.rule(BOTTOM, "a", bad, "b"),
    lambda it, bad: it.rule(BOTTOM, "a", ":", bad),
    lambda it, bad: it.unrule(bad),
    lambda it, bad: it.depend("all", bad),
    lambda it, bad: it.depend_order(bad, "a"),
    lambda it, bad: it.undepend("all", bad),
    lambda it, bad: it.depend_replace("all", bad, "a"),
    lambda it, bad: it.depend_replace("all", "a", bad),
    lambda it, bad: it.recipe("all", bad),
    lambda it, bad: it.recipe_insert("all", 1, bad),
    lambda it, bad: it.recipe_set(bad, 1, "ls"),
    lambda it, bad: it.recipe_del(bad, 1),
    lambda it, bad: it.recipe_replace("all", bad, "ls"),
    lambda it, bad: it.recipe_remove("all", bad),
    lambda it, bad: it.recipe_subst(bad, "a", "b"),
    lambda it, bad: it.recipe_subst("all", bad, "b"),
    lambda it, bad: it.recipe_subst("all", "a", bad),
    lambda it, bad: it.recipes_subst(bad, "b"),
    lambda it, bad: it.recipes_subst("a", bad),
    lambda it, bad: it.rename("all", bad),
    lambda it, bad: it.rule_replace(bad, "# x"),
    lambda it, bad: it.rule_remove(bad),
    lambda it, bad: it.insert(before_var(bad), "# x"),
    lambda it, bad: it.insert(mkedit.Site(bad, "X"), "# x"),
)
WITH_BLOCK = (
    lambda it, bad: it.insert(TOP, bad),
    lambda it, bad: it.insert(before_var("X"), bad),
    lambda it, bad: it.insert(before_line(bad), "# x"),
    lambda it, bad: it.insert(after_line(bad), "# x"),
    lambda it, bad: it.line_replace(bad, "# x"),
    lambda it, bad: it.line_replace("X = 1", bad),
    lambda it, bad: it.line_remove(bad),
    lambda it, bad: it.rule_replace("all", bad),
)
WITH_WORD = (
    lambda it, bad: it.get(bad),
    lambda it, bad: it.get(bad, nth=1),
    lambda it, bad: it.vars(bad),
    lambda it, bad: it.rules(bad),
    lambda it, bad: it.recipes(bad),
    lambda it, bad: it.explain(bad),
    lambda it, bad: it.help(bad),
    lambda it, bad: it.write_to(bad),
)
WITH_NUMBER = (
    lambda it, bad: it.set("X", "1", nth=bad),
    lambda it, bad: it.set_if("X", "1", "2", nth=bad),
    lambda it, bad: it.append("X", "1", nth=bad),
    lambda it, bad: it.add("X", "1", nth=bad),
    lambda it, bad: it.drop("X", "1", nth=bad),
    lambda it, bad: it.prepend("X", "1", nth=bad),
    lambda it, bad: it.replace("X", "1", "2", nth=bad),
    lambda it, bad: it.add_before("X", "1", "2", nth=bad),
    lambda it, bad: it.add_after("X", "1", "2", nth=bad),
    lambda it, bad: it.subst("X", "1", "2", nth=bad),
    lambda it, bad: it.operator("X", "=", nth=bad),
    lambda it, bad: it.unset("X", nth=bad),
    lambda it, bad: it.comment_out("X", nth=bad),
    lambda it, bad: it.uncomment("X", nth=bad),
    lambda it, bad: it.assign(before_var("X", nth=bad), "Y", "=", "1"),
    lambda it, bad: it.rule(after_var("X", nth=bad), "a", ":", "b"),
    lambda it, bad: it.rule(before_rule("all", nth=bad), "a", ":", "b"),
    lambda it, bad: it.rule(after_rule("all", nth=bad), "a", ":", "b"),
    lambda it, bad: it.unrule("all", nth=bad),
    lambda it, bad: it.depend("all", "a", nth=bad),
    lambda it, bad: it.depend_order("all", "a", nth=bad),
    lambda it, bad: it.undepend("all", "a", nth=bad),
    lambda it, bad: it.depend_replace("all", "a", "b", nth=bad),
    lambda it, bad: it.recipe("all", "ls", nth=bad),
    lambda it, bad: it.recipe_insert("all", bad, "ls"),
    lambda it, bad: it.recipe_insert("all", 1, "ls", nth=bad),
    lambda it, bad: it.recipe_set("all", bad, "ls"),
    lambda it, bad: it.recipe_set("all", 1, "ls", nth=bad),
    lambda it, bad: it.recipe_del("all", bad),
    lambda it, bad: it.recipe_del("all", 1, nth=bad),
    lambda it, bad: it.recipe_replace("all", "ls", "ls", nth=bad),
    lambda it, bad: it.recipe_remove("all", "ls", nth=bad),
    lambda it, bad: it.recipe_subst("all", "a", "b", nth=bad),
    lambda it, bad: it.insert(before_var("X", nth=bad), "# x"),
    lambda it, bad: it.insert(before_line("X = 1", nth=bad), "# x"),
    lambda it, bad: it.insert(after_line("X = 1", nth=bad), "# x"),
    lambda it, bad: it.line_replace("X = 1", "# x", nth=bad),
    lambda it, bad: it.line_remove("X = 1", nth=bad),
    lambda it, bad: it.rule_replace("all", "# x", nth=bad),
    lambda it, bad: it.rule_remove("all", nth=bad),
)
WITH_NUMBER_OF_REQUEST = (
    lambda it, bad: it.lines(bad, 1),
    lambda it, bad: it.lines(1, bad),
    lambda it, bad: it.get("X", nth=bad),
)


class Words(ClientCase):
    def assert_nothing_is_sent(self, calls, bad_ones, fault):
        """Each of these calls raises an exception with each of these, and the program hears of none."""
        makefile = self.open(self.talker("""say(b"ok\\n")"""))
        for index, call in enumerate(calls):
            for bad in bad_ones:
                with self.subTest(call=index, bad=bad):
                    with self.assertRaises(fault):
                        call(makefile, bad)
        makefile.undo()
        self.assertEqual(self.sent(), "undo\n")

    def test_no_field_has_a_line_end_or_a_nul(self):
        self.assert_nothing_is_sent(WITH_FIELD, BAD_TEXTS, ValueError)

    def test_a_block_has_line_feeds(self):
        bad_ones = [it for it in BAD_TEXTS if "\n" not in it or "\r" in it]
        self.assert_nothing_is_sent(WITH_BLOCK, (*bad_ones, "a\nb\r\nc", "a\nb\0c"), ValueError)

    def test_a_word_of_a_request_has_no_blank_either(self):
        self.assert_nothing_is_sent(WITH_WORD, (*BAD_TEXTS, "", "a b", "a\tb", " a", "a "), ValueError)

    def test_a_field_is_a_str(self):
        self.assert_nothing_is_sent((*WITH_FIELD, *WITH_BLOCK, *WITH_WORD[1:2]), (1, b"a", ["a"]), TypeError)

    def test_a_number_is_an_int(self):
        calls = (*WITH_NUMBER, *WITH_NUMBER_OF_REQUEST)
        bad_ones = ("1", "1 set X HACKED\nwrite!\nnth 1", True, False, 1.0, b"1", [1])
        self.assert_nothing_is_sent(calls, bad_ones, TypeError)

    def test_a_number_of_a_command_has_ten_digits(self):
        self.assert_nothing_is_sent(WITH_NUMBER, (-1, 4_294_967_296, 10**30), ValueError)

    def test_a_number_of_a_request_has_nine_digits(self):
        self.assert_nothing_is_sent(WITH_NUMBER_OF_REQUEST, (-1, 1_000_000_000), ValueError)

    def test_the_program_takes_each_number_of_the_range(self):
        makefile = self.open()
        for nth in (0, 4_294_967_295):
            with self.assertRaises(mkedit.Refused) as caught:
                makefile.set("X", "3", nth=nth)
            self.assertEqual(caught.exception.name, "NoSuch")
        with self.assertRaises(mkedit.Refused):
            makefile.get("X", nth=999_999_999)
        self.assertEqual(makefile.lines(0, 999_999_999), MAKEFILE)

    def test_a_place_is_a_place(self):
        calls = (
            lambda it, bad: it.assign(bad, "Y", "=", "1"),
            lambda it, bad: it.rule(bad, "a", ":", "b"),
            lambda it, bad: it.insert(bad, "# x"),
            lambda it, _: it.assign(before_line("X = 1"), "Y", "=", "1"),
            lambda it, _: it.rule(before_line("X = 1"), "a", ":", "b"),
        )
        self.assert_nothing_is_sent(calls, ("bottom", ("bottom",), None), TypeError)

    def test_a_word_of_an_enumeration_is_one_of_it(self):
        calls = (
            lambda it, bad: it.assign(BOTTOM, "Y", bad, "1"),
            lambda it, bad: it.rule(BOTTOM, "a", bad, "b"),
            lambda it, bad: it.rule(mkedit.Place(bad, "X"), "a", ":", "b"),
            lambda it, bad: it.rule(mkedit.Place("bottom", bad), "a", ":", "b"),
            lambda it, bad: it.insert(mkedit.Site(bad, "X"), "# x"),
            lambda it, bad: it.insert(mkedit.Site("top", bad), "# x"),
        )
        self.assert_nothing_is_sent(calls, ("", "==", ": ", "&:", "top", "before"), ValueError)
        with self.assertRaises(ValueError):
            mkedit.Place("bottom", nth=1)
        for kind, word in ((mkedit.Place, "before-var"), (mkedit.Site, "after-line")):
            with self.assertRaises(TypeError):
                kind(word)

    def test_the_program_takes_and_lists_each_word(self):
        self.path.write_text("a&: b\na&:: b\n")
        makefile = self.open()
        for it in words.NEW_SEPARATORS:
            makefile.rule(BOTTOM, "a", it, "b")
        for it in words.OPERATORS:
            makefile.assign(BOTTOM, "X", it, "1")
        self.assertEqual([it.operator for it in makefile.vars()], [*words.OPERATORS])
        self.assertEqual({it.separator for it in makefile.rules()}, {*words.SEPARATORS})

    def test_a_depth_and_a_timeout_are_numbers(self):
        for how in ({"depth": 0}, {"depth": 10_001}, {"timeout": 0}, {"timeout": -1.0}, {"timeout": float("nan")}):
            with self.subTest(how), self.assertRaises(ValueError):
                self.open(**how)
        for how in ({"depth": "1"}, {"depth": True}, {"timeout": "1"}, {"timeout": True}):
            with self.subTest(how), self.assertRaises(TypeError):
                self.open(**how)

    def test_no_argument_is_a_command(self):
        makefile = self.open()
        for nth in ("1 set X HACKED\nwrite!\nnth 1", "1 set X HACKED\nwrite!\n#"):
            with self.assertRaises(TypeError):
                makefile.set("X", "1", nth=nth)
        with self.assertRaises(TypeError):
            makefile.lines("1\nset CC HACKED\nwrite!\nprint 1", 1)
        self.assertEqual((makefile.text(), makefile.history()), (MAKEFILE, []))
        self.assertEqual(self.path.read_text(), MAKEFILE)


if __name__ == "__main__":
    unittest.main()
