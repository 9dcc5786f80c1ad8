"""The lines of JSON of the queries, read back by Python's `json`.

What is wanted comes from a reading of the makefile in Python (tests/lib/json_lines.py, which shares no line
with the program), and from what the same query prints for a person.
"""

import itertools
import json
import re

from tests import TOP
from tests.lib import reading
from tests.lib.checks import Outcome
from tests.lib.json_lines import caveats_text, json_text, text_value
from tests.lib.rooms import (
    ANSWERS,
    NO_MEMORY,
    QUERIED,
    READ_FAULT,
    TEXT,
    TOO_DEEP,
    WRITE_FAULT,
    RoomCase,
    cannot_open,
    silent,
)
from tests.lib.tables import OPTIONS, rows, unescape

from .test_descriptors import nobody_reads
from .test_queries import makefiles

EXAMPLES = TOP / "examples/makefiles"
# Lines that are short beside what is told of them.
DEAR = b"X = 1\n" * 400_000
# How many makefiles are asked in one call.
MANY = 200
# The bytes of memory with which the program reads DEAR, and does not have room for its lines of JSON.
LITTLE = 64 << 20


def told(query, file, text, only=None):
    """The lines of JSON that a query has to print."""
    if query == "caveats":
        return caveats_text(file, text, reading.QUERIES[query](text))
    return json_text(query, file, text, only)


def joined(*parts):
    return " ".join(itertools.chain(*parts))


def assignment_line(it):
    """What `vars` prints of the assignment that an object tells of."""
    targets = [joined(it["targets"]) + it["separator"]] if "targets" in it else []
    value = [it["value"]] if it["value"] else []
    return joined(targets, it["modifiers"], [it["name"], it["operator"]], value)


def rule_line(it):
    """What `rules` prints of the rule that an object tells of, without the number of recipe lines."""
    pattern = [it["pattern"] + ":"] if "pattern" in it else []
    order_only = ["|", *it["order_only"]] if it["order_only"] else []
    return joined([joined(it["targets"]) + it["separator"]], pattern, it["prerequisites"], order_only)


def recipe_line(it):
    """What `recipes` prints of the recipe line, or of the rule, that an object tells of."""
    return f"[{it['number']}] {it['text']}" if "rule" in it else joined(it["targets"]) + it["separator"]


def place(it):
    return f"{it['line']}:{it['depth']}: "


def check_lines(it):
    """What `check` prints of what an object tells of."""
    if it["kind"] == "end":
        return "".join(f"end: {name} {it[name]}\n" for name in ("conditionals", "defines") if it[name])
    return f"{it['line']}: {it['kind']}\n"


# What each query prints for a person, by the objects on it.
LINES = {
    "vars": lambda it: f"{place(it)}{assignment_line(it)}\n",
    "rules": lambda it: f"{place(it)}{rule_line(it)}\n",
    "recipes": lambda it: f"{place(it)}{recipe_line(it)}\n",
    "check": check_lines,
    "caveats": lambda it: f"{it['line']}: {it['sentence']}\n",
}


def without_counts(query, text):
    """What a query prints, without the numbers of recipe lines, which `rules --json` does not tell."""
    return re.sub(r" \[\d+\]$", "", text, flags=re.M) if query == "rules" else text


class Json(RoomCase):
    def lines(self, *words):
        """The lines that a query prints, which has to end well."""
        got = self.room.run(*words)
        self.assertEqual((got.stderr, got.status), (b"", 0), words)
        return re.findall(rb".*\n", got.stdout)

    def objects(self, *words):
        """The objects that a query prints."""
        return [json.loads(line) for line in self.lines(*words)]

    def test_each_row_of_the_table_is_told_as_python_writes_it(self):
        for _, row in rows("json"):
            with self.subTest(row["name"]):
                self.assert_row(row["query"], *(unescape(row[it]) for it in ("word", "file", "makefile")))

    def assert_row(self, query, word, file, makefile):
        """Asks a makefile of this name; on standard input where the name is not UTF-8, as each word has to be."""
        name = text_value(file) if isinstance(text_value(file), str) else "-"
        if name != "-":
            self.room.write(name, makefile)
        asked = [OPTIONS[query], word.decode()] if word else []
        wanted = Outcome(told(query, name.encode(), makefile, word or None), b"", 0)
        self.assert_run(wanted, query, "--json", *asked, name, given=makefile)

    def test_each_makefile_of_the_tables_is_told_as_it_is_read(self):
        texts = {f"m{number}": text for number, text in enumerate(makefiles())}
        for name, text in texts.items():
            self.room.write(name, text)
        for query, start in itertools.product(ANSWERS, range(0, len(texts), MANY)):
            names = list(texts)[start : start + MANY]
            with self.subTest(f"{query}, {MANY} makefiles from number {start} on"):
                printed = {name: b"" for name in names}
                for line in self.lines(query, "--json", *names):
                    printed[json.loads(line)["file"]] += line
                for name in names:
                    wanted = told(query, name.encode(), texts[name])
                    self.assertEqual(printed[name], wanted, (query, texts[name]))

    def test_each_example_is_told_as_it_is_for_a_person(self):
        for folder in sorted(it for it in EXAMPLES.iterdir() if it.is_dir()):
            name = f"{folder.name}/Makefile"
            for query, line_of in LINES.items():
                with self.subTest(f"{query}, {name}"):
                    objects = self.objects(query, "--json", str(folder / "Makefile"))
                    plain = (folder / query).read_text(encoding="utf-8")
                    found = [it for it in objects if it.get("kind") != "branch"]
                    self.assertEqual("".join(map(line_of, found)), without_counts(query, plain))
                    self.assertEqual({it["file"] for it in objects} - {str(folder / "Makefile")}, set())

    def test_the_lines_are_those_of_one_name_or_target(self):
        for query, option in OPTIONS.items():
            for word, text in (("CC", TEXT), ("all", QUERIED), ("main.o", QUERIED), ("", QUERIED)):
                self.room.write("asked", text)
                wanted = Outcome(told(query, b"asked", text, word.encode()), b"", 0)
                self.assert_run(wanted, query, "--json", f"{option}={word}", "asked")
                self.assert_run(wanted, query, option, word, "asked", "--json", "--notes")

    def test_standard_input_is_called_a_dash(self):
        for query in ANSWERS:
            wanted = Outcome(told(query, b"-", QUERIED), b"", 0)
            self.assert_run(wanted, query, "--json", given=QUERIED)
            self.assert_run(wanted, query, "--json", "-", given=QUERIED)

    def test_several_files_have_their_names_in_the_objects_alone(self):
        for query in ANSWERS:
            parts = [told(query, name, QUERIED) for name in (b"./queried", b"a:b", b"-")]
            self.room.write("a:b", QUERIED)
            wanted = Outcome(b"".join(parts), b"", 0)
            self.assert_run(wanted, query, "--json", "./queried", "a:b", "-", given=QUERIED)

    def test_a_name_and_texts_that_json_has_to_escape_are_told(self):
        name = 'a "b" \\ \t \u00e4 \u2028'
        text = 'X = "q" \\ \x01 \x7f \u00e4 \u2028\n'.encode()
        self.room.write(name, text)
        self.assert_run(Outcome(told("vars", name.encode(), text), b"", 0), "vars", "--json", name)
        (it,) = self.objects("vars", "--json", name)
        self.assertEqual((it["file"], it["value"]), (name, text.decode()[4:-1].rstrip(" \t\r\v\f")))

    def test_a_text_that_is_not_utf_8_is_told_in_base64(self):
        self.room.write("latin", b"ifdef \xe4\nX\xff = \xe2\nendif\n")
        branch, it = self.objects("vars", "--json", "latin")
        self.assertEqual((it["name"], it["value"]), ({"base64": "WP8="}, {"base64": "4g=="}))
        self.assertEqual((branch["line"], branch["text"], it["branch"]), (1, {"base64": "aWZkZWYg5A=="}, 1))

    def test_a_file_that_cannot_be_read_stops_no_other(self):
        line = told("vars", b"Makefile", TEXT)
        self.assert_run(Outcome(line, cannot_open("absent").stderr, 3), "vars", "--json", "absent", "Makefile")
        self.assert_run(cannot_open("absent"), "vars", "--json", "absent")
        self.assert_run(READ_FAULT, "vars", "--json", ".")
        self.assert_run(Outcome(line, b".: mkedit: read fault\n", 3), "vars", "--json", ".", "Makefile")
        self.room.write("deep", b"ifdef A\n" * 257)
        self.assert_run(TOO_DEEP, "check", "--json", "deep")

    def test_nothing_is_printed_where_there_is_nothing_to_tell(self):
        for query in ANSWERS:
            self.assert_run(silent(0), query, "--json", "empty")

    def test_a_fault_of_writing_is_told(self):
        for query in ANSWERS:
            with open("/dev/full", "wb") as full:
                self.assert_run(WRITE_FAULT, query, "--json", "queried", stdout=full)

    def test_a_reader_that_leaves_is_no_fault(self):
        for query in ANSWERS:
            for names in (("queried",), ("queried", "queried")):
                with nobody_reads() as pipe:
                    self.assert_run(silent(0), query, "--json", *names, stdout=pipe)

    def test_without_memory_for_the_lines_none_of_them_is_printed(self):
        self.room.write("dear", DEAR)
        self.assert_run(NO_MEMORY, "vars", "--json", "dear", memory=LITTLE)
        got = self.room.run("vars", "dear", memory=LITTLE)
        self.assertEqual((got.stderr, got.status), (b"", 0))

    def test_other_commands_do_not_take_it(self):
        for words in (("edit", "--json", "script", "Makefile"), ("explain", "--json", "4")):
            self.assert_bad_command_line(*words)
            said = self.room.run(*words).stderr.decode()
            self.assertRegex(said, r"^error: unexpected argument '--json' found\n")
        for query in ANSWERS:
            self.assert_bad_command_line(query, "--json", "--json", "queried")
            self.assert_bad_command_line(query, "--json=yes", "queried")
