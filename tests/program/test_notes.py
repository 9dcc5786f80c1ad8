"""Tests of notes: with --notes, a line below a message says what the system said of which file."""

import os

from tests.lib.checks import Outcome
from tests.lib.rooms import (
    ANSWERS,
    EDITED,
    NO_COMMAND,
    READ_FAULT,
    REFUSED,
    TEXT,
    WRITE_FAULT,
    RoomCase,
    cannot_open,
)

# A name that is longer than a name can be.
LONG_NAME = "n" * 300


def noted(outcome, note):
    """The outcome with a note below its message."""
    return outcome._replace(stderr=outcome.stderr + note.encode() + b"\n")


class Notes(RoomCase):
    def assert_noted(self, outcome, note, *words, **how):
        """With --notes the note stands below the message, and without it the message alone."""
        self.assert_run(outcome, *words, **how)
        self.assert_run(noted(outcome, note), *words, "--notes", **how)

    def test_a_file_that_is_not_there(self):
        note = "absent: note: no such file"
        self.assert_noted(cannot_open("absent"), note, "edit", "script", "absent")
        self.assert_noted(cannot_open("absent"), note, "edit", "absent", "Makefile")
        self.assert_noted(cannot_open("absent"), note, "edit", "-i", "script", "absent")
        self.assert_noted(cannot_open("absent"), note, "edit", "-e", "unset CC", "absent")
        for query in ANSWERS:
            self.assert_noted(cannot_open("absent"), note, query, "absent")

    def test_a_file_that_may_not_be_read(self):
        self.room.copy_program()
        self.room.write("secret", TEXT, mode=0)
        note = "secret: note: permission denied"
        self.assert_noted(cannot_open("secret"), note, "vars", "secret", nobody=True)
        self.assert_noted(cannot_open("secret"), note, "edit", "secret", "Makefile", nobody=True)
        (self.room.folder / "secret").chmod(0o644)

    def test_a_path_through_a_file(self):
        note = "Makefile/x: note: a part of the path is no directory"
        self.assert_noted(cannot_open("Makefile/x"), note, "vars", "Makefile/x")

    def test_a_link_to_itself(self):
        os.symlink("loop", self.room.folder / "loop")
        note = "loop: note: too many symbolic links"
        self.assert_noted(cannot_open("loop"), note, "vars", "loop")

    def test_a_name_that_is_too_long(self):
        note = f"{LONG_NAME}: note: the name is too long"
        self.assert_noted(cannot_open(LONG_NAME), note, "vars", LONG_NAME)

    def test_a_directory_that_is_read(self):
        self.assert_noted(READ_FAULT, ".: note: is a directory", "vars", ".")
        self.assert_noted(READ_FAULT, ".: note: is a directory", "edit", "script", ".")
        self.assert_noted(READ_FAULT, "..: note: is a directory", "edit", "..", ".")
        self.assert_noted(READ_FAULT, ".: note: is a directory", "edit", "-i", "script", ".")

    def test_a_directory_as_standard_input(self):
        note = "standard input: note: is a directory"
        folder = os.open(self.room.folder, os.O_RDONLY)
        self.addCleanup(os.close, folder)
        self.assert_noted(READ_FAULT, note, "vars", stdin=folder)
        self.assert_noted(READ_FAULT, note, "edit", "script", stdin=folder)
        self.assert_noted(READ_FAULT, note, "edit", "-", "Makefile", stdin=folder)

    def test_an_output_that_is_full(self):
        note = "standard output: note: no space left"
        with open("/dev/full", "wb") as full:
            self.assert_noted(WRITE_FAULT, note, "vars", "Makefile", stdout=full)
            self.assert_noted(WRITE_FAULT, note, "edit", "script", "Makefile", stdout=full)
        note = "/dev/full: note: no space left"
        self.assert_noted(WRITE_FAULT, note, "edit", "-o", "/dev/full", "script", "Makefile")

    def test_an_output_that_cannot_be_opened(self):
        words = ("edit", "script", "Makefile", "-o")
        self.assert_noted(WRITE_FAULT, ".: note: is a directory", *words, ".")
        self.assert_noted(WRITE_FAULT, "absent/out: note: no such file", *words, "absent/out")
        self.assert_noted(WRITE_FAULT, ": note: no such file", *words, "")

    def test_an_output_without_room(self):
        self.assert_noted(
            WRITE_FAULT, "out: note: the file is too large",
            "edit", "script", "Makefile", "-o", "out", greatest_file=0,
        )  # fmt: skip

    def test_a_makefile_that_cannot_be_replaced(self):
        self.room.copy_program()
        (self.room.folder / "closed").mkdir()
        self.room.write("closed/Makefile", TEXT)
        (self.room.folder / "closed").chmod(0o555)
        note = "closed/Makefile: note: no new file beside it: permission denied"
        words = ("edit", "-i", "script", "closed/Makefile")
        self.assert_noted(WRITE_FAULT, note, *words, nobody=True)
        (self.room.folder / "closed").chmod(0o755)

    def test_a_makefile_that_is_no_regular_file(self):
        self.assert_noted(
            WRITE_FAULT, "/dev/null: note: is no regular file", "edit", "-i", "empty", "/dev/null"
        )

    def test_an_old_file_that_cannot_be_kept(self):
        (self.room.folder / "Makefile.old").mkdir()
        note = "Makefile: note: the old file is not kept: is a directory"
        words = ("edit", "-i", "--backup", ".old", "script", "Makefile")
        self.assert_noted(WRITE_FAULT, note, *words)

    def test_what_has_no_cause_of_the_system_has_no_note(self):
        for words, outcome in (
            (("edit", "script", "Makefile"), EDITED),
            (("edit", "undo", "Makefile"), REFUSED),
            (("vars", "Makefile"), Outcome(b"1:0: CC = gcc\n", b"", 0)),
        ):
            self.assert_run(outcome, *words, "--notes", noted="undo")

    def test_a_line_that_is_no_command(self):
        for words, place, given in (
            (("edit", "st", "Makefile"), "st:1:1", b""),
            (("edit", "-i", "st", "Makefile"), "st:1:1", b""),
            (("edit", "--diff", "st", "Makefile"), "st:1:1", b""),
            (("edit", "-i", "st", "Makefile", "Makefile"), "st:1:1", b""),
            (("edit", "-e", "st CC clang", "Makefile"), "-e 1:1", b""),
            (("edit", "-i", "-e", "st CC clang", "Makefile", "Makefile"), "-e 1:1", b""),
            (("edit", "-", "Makefile"), "standard input:1:1", b"st CC clang\n"),
        ):
            self.room.write("st", b"st CC clang\n")
            note = f"{place}: note: there is no such command; did you mean `set`?"
            with self.subTest(words):
                self.assert_noted(NO_COMMAND, note, *words, given=given)

    def test_exchanged_files_are_told(self):
        self.room.write("config.mk", b"CC := gcc\nall:\n\tcc\n")
        self.room.write("use-clang", b"# a comment\n\nset CC clang\n")
        told = "config.mk:1:1: note: there is no such command; did you mean `set`?\n"
        told += "config.mk: note: this is not a script, but use-clang is: did you swap SCRIPT and FILE?"
        for words in (
            ("edit", "config.mk", "use-clang"),
            ("edit", "-i", "config.mk", "use-clang"),
            ("edit", "-i", "config.mk", "use-clang", "Makefile"),
            ("edit", "--diff", "config.mk", "use-clang"),
            ("edit", "--diff", "config.mk", "use-clang", "absent"),
        ):
            with self.subTest(words):
                self.assert_noted(NO_COMMAND, told, *words)
        given = (self.room.folder / "config.mk").read_bytes()
        told = told.replace("config.mk:", "standard input:")
        self.assert_noted(NO_COMMAND, told, "edit", "-", "use-clang", given=given)

    def test_files_that_are_not_exchanged_have_no_such_note(self):
        self.room.write("config.mk", b"CC := gcc\n")
        self.room.write("comments", b"# set CC clang\n\n")
        self.room.write("half", b"set CC clang\nCC = gcc\n")
        self.room.write("long", b"undo\n" + b"\n" * 16_777_212)
        os.mkfifo(self.room.folder / "pipe")
        note = "config.mk:1:1: note: there is no such command; did you mean `set`?"
        for name in ("Makefile", "empty", "comments", "half", "long", "."):
            with self.subTest(name):
                self.assert_noted(NO_COMMAND, note, "edit", "config.mk", name)
        self.assert_noted(NO_COMMAND, note, "edit", "-i", "config.mk", "Makefile", "script")
        self.assert_noted(NO_COMMAND, note, "edit", "-i", "config.mk", "pipe", "script")
        self.assert_noted(NO_COMMAND, note, "edit", "config.mk", given=b"set CC clang\n")
        self.assert_noted(NO_COMMAND, note.replace("config.mk:", "-e "), "edit", "-e", "CC := gcc", "script")
        self.assert_run(EDITED, "edit", "--notes", "script", "Makefile")

    def test_notes_stand_beside_files_that_are_read_alone(self):
        self.assert_bad_command_line("explain", "--notes", "4")
        self.assert_bad_command_line("--notes", "vars", "Makefile")
        self.assert_bad_command_line("vars", "--notes", "--notes", "Makefile")
        self.assert_bad_command_line("vars", "--notes=yes", "Makefile")
