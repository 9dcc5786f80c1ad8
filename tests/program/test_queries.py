"""The queries over every makefile of tests/cases, beside a reading in Python (tests/lib/reading.py).

The tables have some 3,200 makefiles, most of them small and hostile. Each has to be read as
tests/cases/readings says, where it stands there, and each query has to print what reading.py says, of
the whole makefile and of one name or target.
"""

import ast

from tests.lib import reading
from tests.lib.checks import Outcome
from tests.lib.rooms import RoomCase
from tests.lib.tables import OPTIONS, TABLES, rows, unescape

READINGS = ("readings/worked", "readings/random")


def makefiles():
    """Each makefile of the tables once, with the name of its first case."""
    found = {}
    for table in (*TABLES, *READINGS):
        for _, row in rows(table):
            found.setdefault(unescape(row["makefile"]), f"{table}: {row['name']}")
    return found


def is_word(text):
    """Whether a text can be a word of the command line: it is UTF-8, and has no NUL."""
    try:
        return "\0" not in text.decode()
    except UnicodeDecodeError:
        return False


class Queries(RoomCase):
    def test_the_reading_reads_as_the_tables_of_readings_say(self):
        for table in READINGS:
            for _, row in rows(table):
                with self.subTest(f"{table}: {row['name']}"):
                    given = ast.literal_eval(unescape(row["reading"]).decode("latin-1"))
                    self.assertEqual(reading.reading(unescape(row["makefile"])), given)

    def assert_answers(self, query, *options, **how):
        """The answer to a query over each makefile has to be that of the reading."""
        for text, name in makefiles().items():
            with self.subTest(f"{query}, {options}, {name}"):
                self.room.write("Makefile", text)
                wanted = Outcome(reading.QUERIES[query](text, **how), b"", 0)
                self.assert_run(wanted, query, *options, "Makefile")

    def assert_answers_alone(self, query):
        """So has the answer to a query that is asked for a name or target of each makefile."""
        for text, name in makefiles().items():
            words = sorted(filter(is_word, reading.CHOICES[query](text)))
            for word in words[len(text) % max(len(words), 1) :][:1]:
                with self.subTest(f"{query}, {word}, {name}"):
                    self.room.write("Makefile", text)
                    wanted = Outcome(reading.QUERIES[query](text, word), b"", 0)
                    self.assert_run(wanted, query, f"{OPTIONS[query]}={word.decode()}", "Makefile")

    def test_vars_of_one_name(self):
        self.assert_answers_alone("vars")

    def test_rules_for_one_target(self):
        self.assert_answers_alone("rules")

    def test_recipes_for_one_target(self):
        self.assert_answers_alone("recipes")

    def test_vars(self):
        self.assert_answers("vars")

    def test_rules(self):
        self.assert_answers("rules")

    def test_recipes(self):
        self.assert_answers("recipes")

    def test_check(self):
        self.assert_answers("check")
        self.assert_answers("check", "--notes", has_texts=True)

    def test_caveats(self):
        self.assert_answers("caveats")
