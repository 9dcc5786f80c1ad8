"""Tests of `--backup`: the old file is kept beside a FILE that `-i` replaces."""

import os
import signal
import subprocess
from collections import Counter

from tests.lib.checks import SECONDS, Outcome
from tests.lib.rooms import EDITED, READ_FAULT, REFUSED, TEXT, WRITE_FAULT, RoomCase, cannot_open, silent

WORDS = ("edit", "-i", "--backup", "~", "script", "Makefile")
# A time that no file of a test has by itself.
TIME = 1_000_000_000


class Backups(RoomCase):
    def stat(self, name):
        return os.lstat(self.room.folder / name)

    def traced(self, *options):
        """Runs the edit under strace."""
        self.need_strace()
        words = ["strace", "-f", "-qq", *options, self.room.program.path, *WORDS]
        ran = subprocess.run(words, cwd=self.room.folder, capture_output=True, timeout=SECONDS)
        return Outcome(ran.stdout, ran.stderr, ran.returncode)

    def calls(self, *options):
        """The calls of the edit, which has to be done."""
        self.assertEqual(self.traced("-o", "calls", *options), silent(0))
        lines = (self.room.folder / "calls").read_text().splitlines()
        (self.room.folder / "calls").unlink()
        # strace makes the first call, which starts the program
        return [line.split("(")[0].split()[-1] for line in lines if "(" in line][1:]

    def test_the_old_file_is_kept_beside_the_new_one(self):
        there = self.names()
        for words in (
            WORDS,
            ("edit", "-i", "--backup=~", "script", "./Makefile"),
            ("edit", "--backup", "~", "-ie", "set CC clang", "Makefile"),
            ("edit", "-i", "--backup", "~", "script", str(self.room.folder / "Makefile")),
        ):
            self.room.write("Makefile", TEXT, mode=0o640)
            os.utime(self.room.folder / "Makefile", (TIME, TIME))
            old = self.stat("Makefile")
            self.assert_run(silent(0), *words)
            self.assert_holds("Makefile", EDITED.stdout)
            self.assert_holds("Makefile~", TEXT)
            kept, new = self.stat("Makefile~"), self.stat("Makefile")
            self.assertEqual((kept.st_ino, kept.st_mtime, kept.st_mode), (old.st_ino, TIME, old.st_mode))
            self.assertEqual(oct(new.st_mode), oct(old.st_mode))
            self.assertEqual(self.names(), sorted([*there, "Makefile~"]))
            (self.room.folder / "Makefile~").unlink()

    def test_a_suffix_may_be_any_text(self):
        for suffix in (".orig", " ", "~1~", ".", "-a", "é", "x" * 200):
            self.room.write("Makefile", TEXT)
            self.assert_run(silent(0), "edit", "-i", f"--backup={suffix}", "script", "Makefile")
            self.assert_holds("Makefile", EDITED.stdout)
            self.assert_holds(f"Makefile{suffix}", TEXT)

    def test_an_older_backup_is_replaced(self):
        self.room.write("Makefile~", b"older\n")
        self.assert_run(silent(0), *WORDS)
        self.assert_holds("Makefile~", TEXT)
        self.assert_run(silent(0), "edit", "-i", "--backup", "~", "-e", "set CC tcc", "Makefile")
        self.assert_holds("Makefile~", EDITED.stdout)
        self.assert_holds("Makefile", b"CC = tcc # c\n")

    def test_a_link_of_that_name_is_replaced_and_not_followed(self):
        self.room.write("other", b"other\n")
        os.symlink("other", self.room.folder / "Makefile~")
        self.assert_run(silent(0), *WORDS)
        self.assertFalse((self.room.folder / "Makefile~").is_symlink())
        self.assert_holds("Makefile~", TEXT)
        self.assert_holds("Makefile", EDITED.stdout)

    def test_a_link_to_the_makefile_is_followed(self):
        os.mkdir(self.room.folder / "below")
        os.symlink("../Makefile", self.room.folder / "below/link")
        self.assert_run(silent(0), "edit", "-i", "--backup", "~", "script", "below/link")
        self.assert_holds("Makefile", EDITED.stdout)
        self.assert_holds("Makefile~", TEXT)
        self.assertEqual(os.listdir(self.room.folder / "below"), ["link"])

    def test_a_backup_that_is_the_makefile_itself_stays(self):
        there = self.names()
        os.link(self.room.folder / "Makefile", self.room.folder / "Makefile~")
        self.assert_run(silent(0), *WORDS)
        self.assert_holds("Makefile", EDITED.stdout)
        self.assert_holds("Makefile~", TEXT)
        self.assertEqual(self.names(), sorted([*there, "Makefile~"]))

    def test_nothing_is_kept_where_nothing_is_replaced(self):
        self.room.write("Makefile~", b"older\n")
        there = self.names()
        words = ("edit", "-i", "--backup", "~")
        self.assert_run(REFUSED, *words, "undo", "Makefile")
        self.assert_run(silent(0), *words, "empty", "Makefile")
        self.assert_run(silent(0), *words, "-e", "set CC gcc", "Makefile")
        self.assert_run(cannot_open("absent"), *words, "script", "absent")
        self.assert_run(READ_FAULT, *words, "script", ".")
        self.assertEqual(self.names(), there)

    def test_a_backup_that_cannot_be_had_leaves_the_file_as_it_was(self):
        os.mkdir(self.room.folder / "Makefile~")
        there = self.names()
        self.assert_run(WRITE_FAULT, *WORDS)
        self.assert_run(WRITE_FAULT, "edit", "-i", "--backup", "x" * 300, "script", "Makefile")
        self.assertEqual(self.names(), there)

    def test_an_older_backup_stays_where_the_file_cannot_be_replaced(self):
        there = self.names()
        # the first name that changes is that of the backup
        what = ("-o", "/dev/null", "-e", "inject=rename:error=EBUSY:when=2")
        got = self.traced(*what)
        self.assertEqual((got.stdout, got.status), (b"", WRITE_FAULT.status))
        self.assertEqual(self.names(), there)
        self.room.write("Makefile~", b"older\n", mode=0o600)
        older = self.stat("Makefile~")
        got = self.traced(*what)
        self.assertEqual((got.stdout, got.status), (b"", WRITE_FAULT.status))
        self.assertEqual(self.names(), sorted([*there, "Makefile~"]))
        self.assertEqual(self.stat("Makefile~").st_ino, older.st_ino)

    def test_where_a_file_gets_no_second_name_a_copy_is_kept(self):
        there = self.names()
        self.room.write("Makefile", TEXT + b"# more\n" * 10_000, mode=0o640)
        options = ("-e", "trace=execve,link,fsync,rename", "-e", "inject=link:error=EPERM")
        # the copy is on the disk before it has its name, and last of all the folder
        self.assertEqual(self.calls(*options), ["fsync", "link", "fsync", "rename", "rename", "fsync"])
        self.assert_holds("Makefile", EDITED.stdout + b"# more\n" * 10_000)
        self.assert_holds("Makefile~", TEXT + b"# more\n" * 10_000)
        self.assertEqual(oct(self.stat("Makefile~").st_mode & 0o7777), oct(0o640))
        self.assertEqual(self.names(), sorted([*there, "Makefile~"]))

    def test_a_process_that_ends_before_any_of_its_calls_leaves_the_file_whole(self):
        for name, many in Counter(self.calls()).items():
            for count in range(1, many + 1):
                # (the two may be names of one file)
                for it in ("Makefile", "Makefile~"):
                    (self.room.folder / it).unlink()
                self.room.write("Makefile", TEXT)
                self.room.write("Makefile~", b"older\n")
                what = f"inject={name}:signal=KILL:when={count}"
                got = self.traced("-o", "/dev/null", "-e", what)
                self.assertEqual(got, silent(-signal.SIGKILL), what)
                new = (self.room.folder / "Makefile").read_bytes()
                kept = (self.room.folder / "Makefile~").read_bytes()
                # the new file is there only after the old one is kept
                wanted = ((TEXT, b"older\n"), (TEXT, TEXT), (EDITED.stdout, TEXT))
                self.assertIn((new, kept), wanted, what)
                self.assert_holds("Makefile", new)
                self.assert_holds("Makefile~", kept)
                for left in self.room.folder.glob(".mkedit-*"):
                    left.unlink()

    def test_a_suffix_needs_in_place(self):
        for words in (
            ("--backup", "~", "script", "Makefile"),
            ("--backup", "~", "-o", "out", "script", "Makefile"),
            ("--backup", "~", "-e", "set CC clang"),
        ):
            got = self.room.run("edit", *words)
            self.assertEqual((got.stdout, got.status), (b"", 2), words)
            for it in (b"--backup", b"--in-place"):
                self.assertIn(it, got.stderr, words)
        self.assert_holds("out", None)

    def test_a_bad_suffix_is_told(self):
        for suffix in ("", "/", "a/b", "/old", "old/"):
            got = self.room.run("edit", "-i", f"--backup={suffix}", "script", "Makefile")
            self.assertEqual((got.stdout, got.status), (b"", 2), suffix)
            self.assertIn(b"--backup", got.stderr, suffix)
        for words in (
            ("-i", "--backup"),
            ("-i", "script", "Makefile", "--backup"),
            ("-i", "--backup", "a", "--backup", "b", "script", "Makefile"),
        ):
            self.assert_bad_command_line("edit", *words)
        self.assert_bad_command_line("vars", "--backup", "~", "Makefile")
