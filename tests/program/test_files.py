"""Tests of files: those that are missing, cannot be read, or are not what they seem."""

import contextlib
import os
import socket

from tests.lib.checks import Outcome
from tests.lib.rooms import (
    ANSWERS,
    EDITED,
    NO_COMMAND,
    QUERIED,
    READ_FAULT,
    TEXT,
    TOO_LONG,
    RoomCase,
    cannot_open,
    silent,
)

# A file of Linux that can be opened and not be read, whoever asks.
UNREADABLE = "/proc/self/mem"

class Files(RoomCase):
    def test_a_missing_file_cannot_be_opened(self):
        self.assert_run(cannot_open("absent"), "edit", "script", "absent")

    def test_a_missing_script_cannot_be_opened(self):
        self.assert_run(cannot_open("absent"), "edit", "absent", "Makefile")

    def test_the_script_is_opened_first(self):
        self.assert_run(cannot_open("absent"), "edit", "absent", "missing")

    def test_a_missing_file_is_told_before_a_bad_script(self):
        self.assert_run(cannot_open("absent"), "edit", "bad", "absent")

    def test_a_missing_script_is_told_where_the_makefile_is_standard_input(self):
        self.assert_run(cannot_open("absent"), "edit", "absent", given=TEXT)

    def test_a_query_of_a_missing_file_cannot_open_it(self):
        for query in ANSWERS:
            self.assert_run(cannot_open("absent"), query, "absent")
            self.assert_run(cannot_open("absent/Makefile"), query, "absent/Makefile")

    def test_an_empty_name_cannot_be_opened(self):
        self.assert_run(cannot_open(""), "edit", "script", "")
        self.assert_run(cannot_open(""), "check", "")

    def test_a_dash_is_standard_input(self):
        self.room.write("-", b"FILE = of another name\n")
        self.assert_run(EDITED, "edit", "script", "-", given=TEXT)
        self.assert_run(EDITED, "edit", "-e", "set CC clang", "-", given=TEXT)
        self.assert_run(EDITED, "edit", "-", "Makefile", given=b"set CC clang\n")
        self.assert_run(EDITED, "edit", "--", "-", "Makefile", given=b"set CC clang\n")
        for query, answer in ANSWERS.items():
            self.assert_run(Outcome(answer, b"", 0), query, "-", given=QUERIED)
        self.assert_run(READ_FAULT, "edit", "script", "-", closed=(0,))
        self.assert_run(READ_FAULT, "edit", "-", "Makefile", closed=(0,))

    def test_script_and_makefile_are_not_both_standard_input(self):
        for words in (("-", "-"), ("-",), ("-k", "-", "-"), ("-o", "out", "-"), ("-o", "out", "-", "-")):
            got = self.room.run("edit", *words, given=b"set CC clang\n")
            self.assertEqual((got.stdout, got.status), (b"", 2), words)
            for it in (b"SCRIPT", b"FILE", b"'-'"):
                self.assertIn(it, got.stderr)
        self.assert_holds("out", None)

    def test_a_file_that_is_called_a_dash_is_named_by_its_folder(self):
        self.room.write("-", TEXT)
        self.assert_run(Outcome(b"1:0: CC = gcc\n", b"", 0), "vars", "./-")
        self.assert_run(EDITED, "edit", "script", "./-")
        self.assert_run(silent(0), "edit", "-i", "script", "./-")
        self.assert_holds("-", EDITED.stdout)
        self.assert_run(silent(0), "edit", "-o", "-", "script", "Makefile")
        self.assert_holds("-", EDITED.stdout)

    def test_a_directory_as_file_is_a_read_fault(self):
        for words in (["edit", "script"], *([it] for it in ANSWERS)):
            self.assert_run(READ_FAULT, *words, ".")

    def test_a_directory_as_standard_input_is_a_read_fault(self):
        for words in (["edit", "script"], *([it] for it in ANSWERS)):
            folder = os.open(self.room.folder, os.O_RDONLY)
            self.assert_run(READ_FAULT, *words, stdin=folder)
            os.close(folder)

    def test_a_closed_standard_input_is_a_read_fault(self):
        for words in (["edit", "script"], *([it] for it in ANSWERS)):
            self.assert_run(READ_FAULT, *words, closed=(0,))

    def test_a_directory_as_script_is_a_read_fault(self):
        self.assert_run(READ_FAULT, "edit", ".", "Makefile")

    def test_a_bad_script_is_told_before_the_file_is_read(self):
        self.assert_run(NO_COMMAND, "edit", "bad", ".")

    def test_a_file_that_opens_and_cannot_be_read_is_a_read_fault(self):
        if not os.path.exists(UNREADABLE):
            self.skipTest(f"there is no {UNREADABLE}")
        for words in (["edit", "script"], *([it] for it in ANSWERS)):
            self.assert_run(READ_FAULT, *words, UNREADABLE)
        self.assert_run(READ_FAULT, "edit", UNREADABLE, "Makefile")
        self.assert_run(READ_FAULT, "edit", "-o", "out", "script", UNREADABLE)
        self.assert_holds("out", None)

    def test_a_file_may_be_a_link(self):
        (self.room.folder / "link").symlink_to("Makefile")
        (self.room.folder / "way").symlink_to("script")
        self.assert_run(EDITED, "edit", "way", "link")

    def test_a_name_that_leads_nowhere_cannot_be_opened(self):
        (self.room.folder / "nowhere").symlink_to("absent")
        (self.room.folder / "circle").symlink_to("circle")
        with contextlib.suppress(OSError), socket.socket(socket.AF_UNIX) as it:
            it.bind(str(self.room.folder / "socket"))  # a path that is too long leaves a name without a file
        for name in ("nowhere", "circle", "socket", "Makefile/more", "x" * 300, "x/" * 3_000):
            self.assert_run(cannot_open(name), "edit", "script", name)
            self.assert_run(cannot_open(name), "edit", name, "Makefile")
            self.assert_run(cannot_open(name), "vars", name)

    def test_the_null_device_is_an_empty_file(self):
        self.assert_run(Outcome(TEXT, b"", 0), "edit", "/dev/null", "Makefile")
        self.assert_run(silent(0), "edit", "empty", "/dev/null")
        self.assert_run(silent(0), "vars", "/dev/null")

    def test_a_file_of_holes_is_too_long(self):
        with open(self.room.folder / "holes", "wb") as file:
            file.truncate(1 << 40)
        for words in (["edit", "script"], ["check"]):
            self.assert_run(TOO_LONG, *words, "holes")
        self.assert_run(TOO_LONG, "edit", "holes", "Makefile")

    def test_a_file_that_says_it_is_empty_is_read(self):
        name = "/proc/version"
        if not os.path.exists(name) or os.stat(name).st_size:
            self.skipTest(f"{name} is no such file")
        with open(name, "rb") as file:
            text = file.read()
        self.assert_run(Outcome(text, b"", 0), "edit", "empty", name)

    def test_an_unreadable_file_cannot_be_opened(self):
        self.room.copy_program()
        (self.room.folder / "locked").touch(mode=0)
        self.assert_run(cannot_open("locked"), "edit", "script", "locked", nobody=True)
        self.assert_run(cannot_open("locked"), "rules", "locked", nobody=True)

    def test_an_unreadable_script_cannot_be_opened(self):
        self.room.copy_program()
        (self.room.folder / "locked").touch(mode=0)
        self.assert_run(cannot_open("locked"), "edit", "locked", "Makefile", nobody=True)

    def test_a_file_in_a_closed_folder_cannot_be_opened(self):
        self.room.copy_program()
        (self.room.folder / "closed").mkdir()
        (self.room.folder / "closed/Makefile").write_bytes(TEXT)
        (self.room.folder / "closed").chmod(0)
        self.addCleanup((self.room.folder / "closed").chmod, 0o700)
        words = ["edit", "script", "closed/Makefile"]
        self.assert_run(cannot_open("closed/Makefile"), *words, nobody=True)

    def test_a_name_that_is_not_utf_8_gets_a_message(self):
        name = b"bad\xff"
        try:
            (self.room.folder / os.fsdecode(name)).write_bytes(TEXT)
        except OSError:
            self.skipTest("this file system has no such names")
        said = b"mkedit: word %d of the command line is not UTF-8\n"
        shut = b"mkedit: cannot open bad\\000\n"
        self.assert_run(Outcome(b"", said % 3 + shut, 3), "edit", "script", name)
        self.assert_run(Outcome(b"", said % 2, 2), "edit", name, "Makefile")
        self.assert_run(Outcome(b"", said % 3, 2), "vars", "--name", name, "Makefile")
        self.assert_run(Outcome(b"", said % 2, 2), "session", name)
        told = Outcome(b"Makefile:1:0: CC = gcc\n", said % 2 + shut, 3)
        self.assert_run(told, "vars", name, "Makefile")

    def test_empty_files_give_an_empty_text(self):
        self.assert_run(silent(0), "edit", "empty", "empty")

    def test_a_file_may_be_its_own_script(self):
        self.room.write("both", b"# set CC clang\n")
        self.assert_run(Outcome(b"# set CC clang\n", b"", 0), "edit", "both", "both")
