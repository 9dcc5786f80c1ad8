"""Tests of `mkedit edit --report json`: an object for each line of a report.

Each member has its rows in tests/cases/report.tsv: the makefile `Makefile`, the script `script`, the flags, the
status, and standard error. The runs of other tables are told twice, in JSON and as text with notes, and both have
to say the same.
"""

import base64
import json
import re
import shutil
import subprocess

from tests.lib.checks import Outcome
from tests.lib.rooms import RoomCase
from tests.lib.tables import cases, rows, unescape

# The tables whose runs are told twice.
RUNS = ("runs", "random-runs", "notes", "edit-notes")
# The branch of a conditional round a line, of which JSON has the number alone.
BRANCH = re.compile(rb"   \(in `.*`, Makefile:(\d+)\)$", re.M)
# Control characters, which text has escaped.
CONTROL = re.compile(rb"[\x00-\x08\x0b-\x1f\x7f-\x9f]|\xc2[\x80-\x9f]|\xd8\x9c|\xe2\x80[\x8e\x8f\xaa-\xae]|\xe2\x81[\xa6-\xa9]")
JQ = shutil.which("jq")


def refusal(file, line, number_and_name, asked):
    """The object on a refused `set` of the script `script` that finds no assignment."""
    number, name = number_and_name.split()
    sentence = f"{file} assigns no {asked}"
    return {
        "kind": "refusal", "file": file, "script": "script", "line": line, "number": int(number), "name": name,
        "command": f"set {asked}", "sentence": sentence,
    }  # fmt: skip


def bytes_of(value):
    """The bytes of a text."""
    return base64.b64decode(value["base64"]) if isinstance(value, dict) else value.encode()


def noted(place, said, kind=b"note"):
    return b"%s: %s: %s\n" % (place, kind, said)


def text_of(it):
    """The lines of text of the object on a line of a report."""
    text = {name: str(value).encode() if isinstance(value, int) else bytes_of(value) for name, value in it.items()}
    sentence = text.get("sentence", b"")
    if it["kind"] == "file":
        return b""
    if it["kind"] == "message":
        if "script" in it:
            place = b":".join(text[name] for name in ("script", "line", "column"))
            exchanged = b"this is not a script, but Makefile is: %s" % text.get("hint", b"")
            hint = noted(text["script"], exchanged) if "hint" in it else b""
            return b"mkedit: %s\n" % sentence + noted(place, text["cause"]) + hint
        return b"mkedit: %s\n" % sentence + noted(text["file"], text["cause"])
    place = text["file"] if "line" not in it else b"%s:%s" % (text.get("script", text["file"]), text["line"])
    if it["kind"] == "refusal":
        asked = text["command"] + b": " if "command" in it else b""
        named = b" ".join(text[name] for name in ("number", "name", "detail") if name in it)
        return noted(place, b"%s%s [%s]" % (asked, sentence, named), b"error")
    if "text" in it:
        sentence = b"   (%s)" % sentence if sentence else b""
        branch = b"   (in %s)" % text["branch"] if "branch" in it else b""
        return noted(place, text["text"] + sentence + branch)
    return noted(place, sentence)


class Report(RoomCase):
    def report(self, *words, **how):
        """What a run says, read by Python's `json` line by line; and how it ended."""
        got = self.room.run("edit", "--report", "json", *words, **how)
        self.assertEqual(re.sub(rb".*\n", b"", got.stderr), b"", "a line has no end")
        return [json.loads(line) for line in got.stderr.splitlines()], got

    def assert_report(self, wanted, status, *words, **how):
        found, got = self.report(*words, **how)
        self.assertEqual((found, got.status), (wanted, status), words)

    def test_each_row_of_the_table(self):
        for _, row in rows("report"):
            with self.subTest(row["name"]):
                self.room.write("Makefile", unescape(row["makefile"]))
                self.room.write("script", unescape(row["script"]))
                got = self.report(*row["flags"].split(), "script", "Makefile")[1]
                self.assertEqual((got.stderr, got.status), (unescape(row["report"]), int(row["status"])))
                self.room.written.pop("Makefile")

    def test_each_line_says_what_it_says_as_text(self):
        lines = []
        for case in cases():
            table = case.name.partition(":")[0]
            if table not in RUNS or case.words[0] != "edit":
                continue
            with self.subTest(case.name):
                for name, content in case.files.items():
                    self.room.write(name, content)
                words = [it for it in case.words[1:] if it != "--notes"]
                found, got = self.report(*words)
                text = self.room.run("edit", "--notes", *words)
                self.assertEqual((got.stdout, got.status), (text.stdout, text.status))
                said = CONTROL.sub(lambda it: b"".join(b"\\%03o" % byte for byte in it[0]), b"".join(map(text_of, found)))
                self.assertEqual(said, BRANCH.sub(rb"   (in \1)", text.stderr))
                self.room.written.pop("Makefile")
                lines.append(got.stderr)
        if JQ:
            ran = subprocess.run([JQ, "-c", "."], input=b"".join(lines), stdout=subprocess.PIPE, check=True)
            self.assertEqual(ran.stdout.count(b"\n"), b"".join(lines).count(b"\n"))

    def test_each_file_has_an_object_at_its_end(self):
        self.room.write("other", b"CXX = g++\n")
        self.room.write("same", b"CC = clang\n")
        wanted = [
            refusal("other", 1, "4 NoSuch", "CC"),
            {"kind": "file", "file": "other", "result": "refused"},
            {"kind": "message", "file": "absent", "sentence": "cannot open absent", "cause": "no such file"},
            {"kind": "file", "file": "absent", "result": "failed"},
            {"kind": "message", "file": ".", "sentence": "read fault", "cause": "is a directory"},
            {"kind": "file", "file": ".", "result": "failed"},
            {"kind": "file", "file": "same", "result": "unchanged"},
            {"kind": "file", "file": "Makefile", "result": "changed"},
        ]
        self.assert_report(wanted, 3, "-i", "script", "other", "absent", ".", "same", "Makefile")
        self.assert_holds("Makefile", b"CC = clang # c\n")
        changed = [{"kind": "file", "file": "standard input", "result": "changed"}]
        for flags, status in ((["--check"], 0), (["--diff"], 0), (["--diff", "--check"], 1)):
            self.assert_report(changed, status, *flags, "script", "-", given=b"CC = gcc\n")
        printed = [{"kind": "file", "file": "standard input", "result": "printed"}]
        self.assert_report(printed, 0, "script", given=b"CC = gcc\n")

    def test_what_ends_before_any_file_is_told(self):
        message = {"kind": "message", "file": "absent", "sentence": "cannot open absent", "cause": "no such file"}
        self.assert_report([message], 3, "--check", "absent", "Makefile")
        named = {"file": "set CC x", "sentence": "cannot open set CC x", "cause": "no such file"}
        self.assert_report([{"kind": "message", **named, "hint": "-e goes before a command"}], 3, "set CC x", "Makefile")
        place = {"script": "-e", "line": 2, "column": 6, "sentence": "script line 2 is not a command"}
        self.assert_report([{"kind": "message", **place, "cause": "VALUE is missing"}], 2, "-e", "# c", "-e", "set X")

    def test_a_fault_of_a_write_is_told(self):
        with open("/dev/full", "wb") as full:
            cause = {"file": "standard output", "sentence": "write fault", "cause": "no space left"}
            failed = {"kind": "file", "file": "Makefile", "result": "failed"}
            self.assert_report([{"kind": "message", **cause}, failed], 3, "script", "Makefile", stdout=full)

    def test_names_of_files_are_as_they_are(self):
        self.room.write('a\t"b".mk', b"CXX = g++\n")
        wanted = [refusal('a\t"b".mk', 1, "4 NoSuch", "CC"), {"kind": "file", "file": 'a\t"b".mk', "result": "refused"}]
        self.assert_report(wanted, 1, "--check", "script", 'a\t"b".mk')

    def test_text_is_the_default(self):
        wanted = Outcome(b"", b"1: refused 16 NothingToUndo\n", 1)
        self.assert_run(wanted, "edit", "--report", "text", "undo", "Makefile")
