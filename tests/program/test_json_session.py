"""Tests of `mkedit session --json`: the protocol with a JSON object in each line of an answer.

What is wanted comes from the lines of JSON that tests/lib/json_lines.py makes by Python's `json`, and from
the answers of a session without the option.
"""

import base64
import json

from tests.lib.json_lines import json_text
from tests.lib.rooms import ANSWERS, QUERIED, TEXT, RoomCase
from tests.lib.talks import GREETING, Talk

from .test_json import told


def bytes_of(value):
    """The bytes of a text as JSON has it."""
    return base64.b64decode(value["base64"]) if isinstance(value, dict) else value.encode()


def text_of(answer):
    """The text of an answer, by the objects that its lines are."""
    lines = [json.loads(line) for line in answer.decode().splitlines()]
    for it in lines:
        if set(it) - {"text", "is_open"} or it.get("is_open", True) is not True:
            raise ValueError(f"no line of a text: {it}")
    if any("is_open" in it for it in lines[:-1]):
        raise ValueError("a line before the last one is open")
    return b"".join(bytes_of(it["text"]) + (b"" if "is_open" in it else b"\n") for it in lines)


class JsonSession(RoomCase):
    def talk(self, *words):
        talk = Talk(self.room, *words)
        self.addCleanup(talk.__exit__)
        self.assertEqual(talk.greeting, GREETING)
        return talk

    def test_queries_are_answered_as_the_program_answers_them(self):
        talk = self.talk("--json", "queried")
        for query in ANSWERS:
            self.assertEqual(talk.answer(query), told(query, b"queried", QUERIED), query)
        for query, word in (("vars", "CC"), ("vars", "no"), ("rules", "all"), ("recipes", "all")):
            wanted = json_text(query, b"queried", QUERIED, word.encode())
            self.assertEqual(talk.answer(f"{query} {word}"), wanted, (query, word))
        self.assertEqual(talk.reply("set CC clang"), "ok")
        wanted = json_text("vars", b"queried", QUERIED.replace(b"gcc", b"clang"))
        self.assertEqual(talk.answer("vars"), wanted)

    def test_a_name_that_is_not_utf_8_can_be_asked_for(self):
        self.room.write("latin", b"X\xff = 1\nY = 2\n")
        talk = self.talk("--json", "latin")
        wanted = json_text("vars", b"latin", b"X\xff = 1\nY = 2\n", b"X\xff")
        self.assertEqual(talk.answer(b"vars X\xff"), wanted)

    def test_other_answers_have_a_text_in_each_line(self):
        texts = ("print", "print 1 1", "diff", "get CC", "history", "script")
        lines = (*texts, "help", "help set", "explain 4", "explain NoSuch")
        plain, talk = self.talk("Makefile"), self.talk("--json", "Makefile")
        for line in ("print", "set CC clang", "set CC cc", "undo", *lines, "print 2", "write other", "quit!"):
            wanted, got = plain.answer(line), talk.answer(line)
            self.assertEqual(text_of(got), wanted, line)
        self.assert_holds("other", TEXT.replace(b"gcc", b"clang"))

    def test_a_last_line_without_a_line_feed_is_open(self):
        for text in (b"A = 1\nB = 2", b"A = 1\n\n", b"\n", b"A", b"", b"\xe4\n\xff", b"A\r\nB\r"):
            self.room.write("some", text)
            talk = self.talk("--json", "some")
            self.assertEqual(text_of(talk.answer("print")), text)
        self.room.write("open", b"A = 1\nB = 2")
        wanted = b'{"text":"A = 1"}\n{"text":"B = 2","is_open":true}\n'
        self.assertEqual(self.talk("--json", "open").answer("print"), wanted)

    def test_refusals_and_faults_are_those_of_the_protocol(self):
        plain, talk = self.talk("Makefile"), self.talk("--json", "--protocol", "Makefile")
        for line in ("get no", "nth 2 get CC", "explain 99", "help no", "no command", "undo", "revert", "set CC clang", "quit"):
            self.assertEqual(talk.reply(line), plain.reply(line), line)
