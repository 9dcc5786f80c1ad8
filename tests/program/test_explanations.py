"""What `mkedit explain` says of each refusal: the texts of their source, and that the examples are so.

tools/refusals.py reads the source. The documents have the same texts from there: the lint checks
whether they do.
"""

import sys

from tests import TOP
from tests.lib.checks import Outcome
from tests.lib.documents import refusals
from tests.lib.rooms import WRITE_FAULT, RoomCase

sys.path.insert(0, str(TOP / "tools"))
# (below the line that says where it is)
from refusals import refusals as sources  # noqa: E402

# What an example without a makefile is run over.
ANY = "X = 1\nall:\n"


class Explanations(RoomCase):
    def test_each_refusal_is_explained_by_its_number_and_its_name(self):
        for it in sources():
            shown = f"{it.number} {it.name}\n\n{it.text}".encode()
            self.assert_run(Outcome(shown, b"", 0), "explain", str(it.number))
            self.assert_run(Outcome(shown, b"", 0), "explain", it.name)

    def test_a_refusal_is_called_by_its_name_in_any_case(self):
        for it in sources():
            shown = f"{it.number} {it.name}\n\n{it.text}".encode()
            for word in (it.name.lower(), it.name.upper(), it.name.swapcase()):
                self.assert_run(Outcome(shown, b"", 0), "explain", word)

    def test_the_sources_are_those_of_the_definitions(self):
        self.assertEqual([(str(it.number), it.name) for it in sources()], refusals())
        self.assertEqual(len(refusals()), 21)

    def test_each_example_of_an_explanation_is_so(self):
        for it in sources():
            if it.script:
                self.room.write("Makefile", (it.makefile or ANY).encode())
                self.room.write("script", it.script.encode())
                self.assert_run(Outcome(b"", it.report.encode(), 1), "edit", "script", "Makefile")
                self.assertIn(f": refused {it.number} {it.name}", it.report)

    def test_another_word_is_no_refusal(self):
        words = ("0", "22", "014", "+14", "-1", "14.", " 14", "14 ", "", "Lean", "Leans ", "all")
        lines = [["explain", "--", it] for it in words]
        for line in (*lines, ["explain"], ["explain", "14", "15"], ["explain", "-k", "14"]):
            self.assert_bad_command_line(*line)

    def test_an_explanation_that_cannot_be_written_is_a_write_fault(self):
        with open("/dev/full", "wb") as full:
            self.assert_run(WRITE_FAULT, "explain", "14", stdout=full)
        self.assert_run(WRITE_FAULT, "explain", "14", closed=(1,))
