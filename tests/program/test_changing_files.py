"""Tests of files that another process changes while the program reads them, or before it replaces them."""

import fcntl
import os
import re
import subprocess
import threading
import time
from pathlib import Path

from tests.lib.checks import SECONDS, Outcome
from tests.lib.rooms import EDITED, TEXT, TOO_LONG, RoomCase, silent

LIMIT = 16_777_216
LINE = b"# a comment of forty bytes, and its end\n"


class Another:
    """A thread that does something over and over as long as a program runs."""

    def __init__(self, does):
        self.does = does

    def __call__(self, process):
        def run():
            while process.poll() is None and self.does():
                pass

        threading.Thread(target=run, daemon=True).start()


CHANGED = Outcome(b"", b"mkedit: Makefile has changed meanwhile\n", 3)
OTHER = b"CC = tcc\n"


def wait_until(holds):
    """Waits until something holds."""
    until = time.monotonic() + SECONDS
    while not holds():
        if time.monotonic() > until:
            raise TimeoutError
        time.sleep(0.001)


def grow(path, line, bound):
    """What puts a line at a file's end, until the file has so many bytes."""
    file = os.open(path, os.O_WRONLY | os.O_APPEND)

    def does():
        os.write(file, line)
        if os.fstat(file).st_size < bound:
            return True
        os.close(file)
        return False

    return Another(does)


class ChangingFiles(RoomCase):
    def test_a_file_that_grows_is_read_to_an_end_that_it_had(self):
        path = self.room.folder / "grows"
        for _ in range(10):
            path.write_bytes(LINE * 50_000)
            got = self.room.run("edit", "empty", "grows", meanwhile=grow(path, LINE, LIMIT - len(LINE)))
            text = path.read_bytes()
            is_prefix = text.startswith(got.stdout) and len(got.stdout) >= len(LINE) * 50_000
            self.assertTrue(is_prefix, f"{len(got.stdout)} bytes are no prefix of the file")
            self.assertEqual(got[1:], (b"", 0))

    def test_a_file_that_grows_without_end_is_too_long(self):
        path = self.room.folder / "grows"
        path.write_bytes(LINE * 400_000)
        size = path.stat().st_size
        # in one step from below the limit to above it, wherever the program is by then
        meanwhile = grow(path, b"#" * (LIMIT + 1 - size), LIMIT)
        got = self.room.run("edit", "empty", "grows", meanwhile=meanwhile)
        shorter = Outcome(LINE * 400_000, b"", 0)
        self.assertTrue(got in (TOO_LONG, shorter), f"neither whole nor too long: {got[1:]}")

    def test_a_file_that_is_emptied_is_read_to_where_it_ends(self):
        path, text = self.room.folder / "shrinks", LINE * 50_000
        for _ in range(10):
            path.write_bytes(text)

            def empty():
                os.truncate(path, 0)

            got = self.room.run("edit", "empty", "shrinks", meanwhile=Another(empty))
            self.assertTrue(text.startswith(got.stdout), "what came is no prefix of the file")
            self.assertEqual(got[1:], (b"", 0))

    def test_a_file_whose_name_is_taken_away_is_read_whole(self):
        path, text = self.room.folder / "leaves", LINE * 50_000
        path.write_bytes(text)

        def remove():
            path.unlink()

        got = self.room.run("edit", "empty", "leaves", meanwhile=Another(remove))
        gone = Outcome(b"", b"mkedit: cannot open leaves\n", 3)
        whole = Outcome(text, b"", 0)
        self.assertTrue(got in (gone, whole), f"neither whole nor gone: {got[1:]}")


class ChangedBeforeReplaced(RoomCase):
    """Another process changes FILE after `-i` has read it."""

    def setUp(self):
        super().setUp()
        self.makefile = self.room.folder / "Makefile"
        self.room.write("other", OTHER)

    def run_and_change(self, change, *words, given=b""):
        """Runs the program, which waits once its text is in the new file, and then changes something."""
        self.need_strace()
        tool = ["strace", "-f", "-qq", "-o", "/dev/null"]
        wait = ("-e", "inject=fsync:delay_enter=500000:when=1")
        streams = {it: subprocess.PIPE for it in ("stdin", "stdout", "stderr")}
        words = [*tool, *wait, self.room.program.path, *words]
        process = subprocess.Popen(words, cwd=self.room.folder, **streams)
        process.stdin.write(given)
        process.stdin.flush()
        wait_until(lambda: any(it.stat().st_size for it in self.room.folder.glob(".mkedit-*")))
        change()
        out, err = process.communicate(timeout=SECONDS)
        return Outcome(out, err, process.returncode)

    def append(self):
        """Another process writes into the file that is there."""
        with open(self.makefile, "ab") as file:
            file.write(b"X = 1\n")

    def replace(self, text=OTHER):
        """Another process puts a file of its own into FILE's place."""
        (self.room.folder / "new").write_bytes(text)
        os.rename(self.room.folder / "new", self.makefile)

    def link(self):
        """Another process puts a link into FILE's place."""
        os.unlink(self.makefile)
        os.symlink("other", self.makefile)

    def test_a_file_with_other_bytes_is_left_as_it_is(self):
        there = self.names()
        for change, wanted in ((self.append, TEXT + b"X = 1\n"), (self.replace, OTHER)):
            for words in (("-i",), ("-i", "--backup", "~"), ("-ik",)):
                self.room.write("Makefile", TEXT)
                got = self.run_and_change(change, "edit", *words, "script", "Makefile")
                self.assertEqual(got, CHANGED, words)
                self.assert_holds("Makefile", wanted)
                self.assertEqual(self.names(), there, words)

    def test_another_file_with_the_same_bytes_is_left_as_it_is(self):
        number = self.makefile.stat().st_ino
        got = self.run_and_change(lambda: self.replace(TEXT), "edit", "-i", "script", "Makefile")
        self.assertEqual(got, CHANGED)
        self.assert_holds("Makefile", TEXT)
        self.assertNotEqual(self.makefile.stat().st_ino, number)

    def test_a_file_whose_name_was_taken_away_is_not_made(self):
        got = self.run_and_change(self.makefile.unlink, "edit", "-i", "script", "Makefile")
        self.assertEqual(got, CHANGED)
        self.assert_holds("Makefile", None)

    def test_a_file_that_has_become_a_link_is_left_as_it_is(self):
        got = self.run_and_change(self.link, "edit", "-i", "script", "Makefile")
        self.assertEqual(got, CHANGED)
        self.assertEqual(os.readlink(self.makefile), "other")
        self.assert_holds("Makefile", OTHER)

    def test_a_link_that_leads_elsewhere_meanwhile_is_not_followed(self):
        os.mkfifo(self.room.folder / "pipe")
        there = self.names()

        def change(process):
            with open(self.room.folder / "pipe", "wb") as pipe:
                folder = Path(f"/proc/{process.pid}/fd")
                wait_until(lambda: self.makefile in [it.resolve() for it in folder.iterdir()])
                self.link()
                pipe.write(b"set CC clang\n")

        self.assert_run(CHANGED, "edit", "-i", "pipe", "Makefile", meanwhile=change)
        self.assertEqual(self.names(), there)
        self.assertEqual(os.readlink(self.makefile), "other")
        self.assert_holds("Makefile", OTHER)

    def test_the_older_backup_stays(self):
        self.room.write("Makefile~", b"older\n")
        there = self.names()
        got = self.run_and_change(self.append, "edit", "-i", "--backup", "~", "script", "Makefile")
        self.assertEqual(got, CHANGED)
        self.assert_holds("Makefile", TEXT + b"X = 1\n")
        self.assertEqual(self.names(), there)

    def test_one_of_several_that_has_changed_is_told_by_its_name(self):
        got = self.run_and_change(self.append, "edit", "-i", "script", "Makefile", "other")
        self.assertEqual(got, CHANGED._replace(stderr=b"Makefile: " + CHANGED.stderr))
        self.assert_holds("Makefile", TEXT + b"X = 1\n")
        self.assert_holds("other", b"CC = clang\n")

    def test_a_note_says_what_has_changed(self):
        got = self.run_and_change(self.append, "edit", "-i", "--notes", "script", "Makefile")
        note = b"Makefile: note: is another file than was read, has other bytes, or is locked\n"
        self.assertEqual(got, CHANGED._replace(stderr=CHANGED.stderr + note))
        self.assert_holds("Makefile", TEXT + b"X = 1\n")

    def test_a_file_that_another_program_has_locked_is_left_as_it_is(self):
        there = self.names()
        for how in (fcntl.LOCK_SH, fcntl.LOCK_EX):
            with open(self.makefile, "rb") as file:
                fcntl.flock(file, how)
                self.assert_run(CHANGED, "edit", "-i", "script", "Makefile")
                self.assert_run(silent(0), "edit", "-i", "empty", "Makefile")
                self.assert_well(self.room.changed())
                self.assertEqual(self.names(), there)
        self.assert_run(silent(0), "edit", "-i", "script", "Makefile")
        self.assert_holds("Makefile", EDITED.stdout)

    def test_a_file_is_locked_when_its_name_is_taken(self):
        self.need_strace()
        tool = ["strace", "-f", "-qq", "-o", "calls", "-e", "trace=flock,rename", self.room.program.path]
        subprocess.run([*tool, "edit", "-i", "script", "Makefile"], cwd=self.room.folder, timeout=SECONDS, check=True)
        calls = re.findall(r"(flock|rename)\(.*= 0$", (self.room.folder / "calls").read_text(), re.M)
        self.assertEqual(calls, ["flock", "rename"])
        self.assert_holds("Makefile", EDITED.stdout)

    def test_a_session_does_not_write_over_what_has_changed(self):
        given = b"set CC clang\nwrite\n"
        got = self.run_and_change(self.append, "session", "Makefile", given=given)
        self.assertTrue(got.stdout.endswith(b"fault Makefile has changed\n"), got)
        self.assert_holds("Makefile", TEXT + b"X = 1\n")
        given = b"set CC clang\nwrite!\n"
        got = self.run_and_change(self.append, "session", "Makefile", given=given)
        self.assertTrue(got.stdout.endswith(b"ok\n"), got)
        self.assert_holds("Makefile", EDITED.stdout + b"X = 1\n")
