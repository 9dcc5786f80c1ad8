"""`mkedit get`: the value of the assignment that `set` takes, and its refusals.

What is wanted comes from `set`: from the rows of tests/cases whose script is one `set`, and from the judge
of random work (tests/soak/edits.py), which says of each makefile of the tables which line `set` takes, and
when it is refused.
"""

import re
import subprocess

from tests.lib import reading
from tests.lib.checks import Outcome
from tests.lib.rooms import READ_FAULT, TOO_DEEP, TOO_LONG, WRITE_FAULT, RoomCase, cannot_open
from tests.lib.tables import TABLES, rows, unescape
from tests.soak import document
from tests.soak.edits import Refused, SetValue

from .test_queries import is_word, makefiles

# A script that is one `set`, without escapes.
SET = re.compile(
    rb'[ \t]*(?:nth[ \t]+(\d+)[ \t]+)?set[ \t]+([^ \t"]\S*)[ \t]+([^ \t"]\S*|"[^"\\]*")[ \t]*\r?\n?'
)
# How many such rows there are at least, by what comes of them.
LEAST = {"value": 80, "refusal": 50}
# The refusals that come before any that a value decides.
OF_LINE = re.compile(rb"1: (refused (?:1 BadArgument name|[2-5] .*)\n)")
# Names that most makefiles do not have, and one that none can have.
OTHERS = (b"CC", b".RECIPEPREFIX", b"a b")
TWO = b"CC = a # c\nCC = b\n"


def sets():
    """The rows of the tables whose script is one `set`: the name, the row, N, NAME and VALUE."""
    for table in TABLES:
        for _, row in rows(table):
            found = SET.fullmatch(unescape(row.get("script", "")))
            if found and all(map(is_word, found.groups(b""))):
                nth, name, value = found.groups()
                yield f"{table}: {row['name']}", row, nth, name, value.strip(b'"')


def refused(said):
    return Outcome(b"", b"refused " + said + b"\n", 1)


def wanted_of(text, nth, name):
    """What has to come of `get` over a makefile, by the judge."""
    edit = SetValue(nth, name)
    try:
        edit.plan(text)
    except Refused as refusal:
        return refused(str(refusal).encode())
    doc = document.read(text)
    return Outcome(doc.lines[edit.find(doc)].parts[-1] + b"\n", b"", 0)


class Get(RoomCase):
    def words_for(self, nth, name):
        """The words of a `get` over the makefile."""
        chosen = [] if nth is None else [f"--nth={nth}"]
        return ["get", *chosen, "--", name.decode(), "Makefile"]

    def assert_got(self, wanted, text, nth, name):
        self.room.write("Makefile", text)
        self.assert_run(wanted, *self.words_for(nth, name))

    def test_a_value_that_was_set_is_got(self):
        counted = 0
        for place, row, nth, name, value in sets():
            if row["status"] == "0" and value:
                counted += 1
                with self.subTest(place):
                    number = nth and nth.decode()
                    self.assert_got(Outcome(value + b"\n", b"", 0), unescape(row["stdout"]), number, name)
        self.assertGreaterEqual(counted, LEAST["value"])

    def test_get_is_refused_as_set_is(self):
        counted = 0
        for place, row, nth, name, _ in sets():
            said = OF_LINE.fullmatch(unescape(row["stderr"]))
            if said:
                counted += 1
                with self.subTest(place):
                    number = nth and nth.decode()
                    self.assert_got(Outcome(b"", said[1], 1), unescape(row["makefile"]), number, name)
        self.assertGreaterEqual(counted, LEAST["refusal"])

    def test_get_takes_the_line_that_set_takes_in_each_makefile(self):
        for text, place in makefiles().items():
            # A comma stands between names.
            own = sorted(name for name in reading.names(text) if is_word(name) and b"," not in name)
            names = own if own and len(text) % 7 else OTHERS
            name = names[len(text) % len(names)]
            nth = (None, None, 1, 2, 0)[len(text) % 5]
            with self.subTest(f"{name}, {nth}, {place}"):
                self.assert_got(wanted_of(text, nth, name), text, nth, name)

    def test_a_value_has_no_comment_and_no_blanks_around_it(self):
        self.assert_got(Outcome(b"a  b\n", b"", 0), b"F =  a  b\t # c\n", None, b"F")

    def test_a_fold_is_one_space(self):
        self.assert_got(Outcome(b"a b\n", b"", 0), b"F = a \\\n    b\n", None, b"F")

    def test_an_empty_value_is_an_empty_line(self):
        self.assert_got(Outcome(b"\n", b"", 0), b"F = # c\n", None, b"F")

    def test_a_value_keeps_bytes_that_are_no_utf8(self):
        self.assert_got(Outcome(b"\xff\xfe\n", b"", 0), b"F = \xff\xfe\n", None, b"F")

    def test_a_number_says_which_of_several(self):
        self.assert_got(refused(b"5 Ambiguous 2"), TWO, None, b"CC")
        self.assert_got(Outcome(b"a\n", b"", 0), TWO, 1, b"CC")
        self.assert_got(Outcome(b"b\n", b"", 0), TWO, 2, b"CC")
        for nth in (0, 3, 4294967295):
            self.assert_got(refused(b"4 NoSuch"), TWO, nth, b"CC")

    def test_a_number_is_decimal_digits_alone(self):
        for nth in ("", "+1", "-1", "1.", " 1", "x", "4294967296"):
            self.assert_bad_command_line("get", f"--nth={nth}", "CC", "Makefile")
        self.assert_bad_command_line("get", "--nth")

    def test_the_name_is_required(self):
        self.assert_bad_command_line("get")
        self.assert_bad_command_line("get", "--notes")
        self.assert_bad_command_line("get", "--name", "CC", "Makefile")

    def test_without_a_file_standard_input_is_read(self):
        for words in (["CC"], ["CC", "-"]):
            got = self.room.run("get", *words, given=TWO[:11])
            self.assertEqual(got, Outcome(b"a\n", b"", 0))

    def test_of_several_files_each_line_has_a_name(self):
        self.room.write("two", TWO)
        self.room.write("other", b"CC =\n")
        wanted = Outcome(b"Makefile:gcc\nother:\n", b"two: refused 5 Ambiguous 2\n", 1)
        self.assert_run(wanted, "get", "CC", "Makefile", "two", "other")
        wanted = Outcome(b"Makefile:gcc\n", cannot_open("none").stderr, 3)
        self.assert_run(wanted, "get", "CC", "none", "Makefile")

    def test_several_names_have_a_line_each_in_their_order(self):
        self.room.write("two", TWO + b"AR = ar\nX =\n")
        asked = ("get", "X,CC,AR,LD", "two")
        told = b"CC: refused 5 Ambiguous 2\nLD: refused 4 NoSuch\n"
        self.assert_run(Outcome(b"\nar\n", told, 1), *asked)
        self.assert_run(Outcome(b"ar\n\n", b"", 0), "get", "AR,X", given=b"AR = ar\nX =\n")
        self.assert_run(Outcome(b"b\nb\n", b"", 0), "get", "--nth", "2", "CC,CC", "two")
        told = b"Makefile: AR: refused 4 NoSuch\nmkedit: cannot open none\ntwo: CC: refused 5 Ambiguous 2\n"
        wanted = Outcome(b"Makefile:gcc\ntwo:ar\n", told, 3)
        self.assert_run(wanted, "get", "CC,AR", "Makefile", "none", "two")
        self.assert_run(Outcome(b"", b": refused 1 BadArgument name\n" * 2, 1), "get", ",")

    def test_a_makefile_that_cannot_be_read_is_told_once_for_all_names(self):
        self.room.write("long", b"#" * ((1 << 24) + 1))
        self.assert_run(READ_FAULT, "get", "CC,AR", ".")
        self.assert_run(TOO_LONG, "get", "CC,AR", "long")
        told = b".: mkedit: read fault\n.: note: is a directory\n"
        self.assert_run(Outcome(b"Makefile:gcc\nMakefile:gcc\n", told, 3), "get", "--notes", "CC,CC", ".", "Makefile")

    def test_a_value_in_json_has_its_file_and_its_name(self):
        self.room.write("bytes", b"A = \xff\nB = \t\"\\x # c\n")
        told = b'{"file":"bytes","name":"A","value":{"base64":"/w=="}}\n'
        told += b'{"file":"bytes","name":"B","value":"\\"\\\\x"}\n'
        self.assert_run(Outcome(told, b"", 0), "get", "--json", "A,B", "bytes")
        told += b'{"file":"Makefile","name":"CC","value":"gcc"}\n'
        missing = b"bytes: CC: refused 4 NoSuch\nMakefile: A: refused 4 NoSuch\nMakefile: B: refused 4 NoSuch\n"
        self.assert_run(Outcome(told, missing, 1), "get", "--json", "A,B,CC", "bytes", "Makefile")

    def test_a_fault_is_no_refusal(self):
        self.assert_run(cannot_open("none"), "get", "CC", "none")
        self.assert_run(READ_FAULT, "get", "CC", ".")
        self.room.write("deep", b"ifdef A\n" * 257)
        self.assert_run(TOO_DEEP, "get", "CC", "deep")
        with open("/dev/full", "wb") as full:
            self.assert_run(WRITE_FAULT, "get", "CC", "Makefile", stdout=full)
        noted = cannot_open("none").stderr + b"none: note: no such file\n"
        self.assert_run(Outcome(b"", noted, 3), "get", "--notes", "CC", "none")

    def test_a_reader_that_leaves_ends_it_without_a_word(self):
        self.room.write("Makefile", b"CC = " + b"x" * 1_000_000 + b"\n")
        words = [self.room.program.path, "get", "CC", "Makefile"]
        with subprocess.Popen(words, cwd=self.room.folder, stdout=subprocess.PIPE, stderr=subprocess.PIPE) as run:
            run.stdout.read(1)
            run.stdout.close()
            self.assertEqual((run.stderr.read(), run.wait()), (b"", 0))
