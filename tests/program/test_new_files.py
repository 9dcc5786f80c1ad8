"""Tests of a file that a session makes: it is there with its whole text, or not at all."""

import contextlib
import os
import re
import signal
import subprocess
import time

from tests.lib.checks import SECONDS, Outcome
from tests.lib.rooms import EDITED, TEXT, RoomCase

CALL = re.compile(r"^(?:\d+ +)?(\w+)\(", re.M)
# The words of a session, what it is given, and the file that it makes with its text.
SESSIONS = (
    (("--new", "new"), b"assign bottom X = 1\nwrite\n", b"X = 1\n"),
    (("Makefile",), b"set CC clang\nwrite new\n", EDITED.stdout),
)


class NewFiles(RoomCase):
    def setUp(self):
        super().setUp()
        self.need_strace()

    def traced(self, words, given, *options, meanwhile=None):
        """Runs a session under strace."""
        command = ["strace", "-f", "-qq", *options, self.room.program.path, "session", *words]
        streams = {it: subprocess.PIPE for it in ("stdin", "stdout", "stderr")}
        process = subprocess.Popen(command, cwd=self.room.folder, **streams)
        with contextlib.suppress(BrokenPipeError):
            process.stdin.write(given)
            process.stdin.flush()
        if meanwhile:
            meanwhile()
        out, err = process.communicate(timeout=SECONDS)
        return Outcome(out, err, process.returncode)

    def injected(self, words, given, what, **how):
        return self.traced(words, given, "-o", "/dev/null", "-e", f"inject={what}", **how)

    def calls(self, words, given):
        """The calls of a session, each as its name and how many there were of it, with this one."""
        self.traced(words, given, "-o", "calls")
        # strace makes the first call, which starts the program
        found = CALL.findall((self.room.folder / "calls").read_text())[1:]
        (self.room.folder / "calls").unlink()
        return [(name, found[: at + 1].count(name)) for at, name in enumerate(found)]

    def test_a_process_that_ends_before_any_of_its_calls_leaves_no_part_of_a_file(self):
        new = self.room.folder / "new"
        for words, given, text in SESSIONS:
            made = self.calls(words, given)
            self.assert_holds("new", text)
            met = set()
            for name, count in made:
                new.unlink(missing_ok=True)
                got = self.injected(words, given, f"{name}:signal=KILL:when={count}")
                self.assertEqual(got.status, -signal.SIGKILL, f"call {count} of {name}")
                found = new.read_bytes() if new.exists() else None
                self.assertIn(found, (None, text), f"call {count} of {name}")
                met.add(found)
                for left in self.room.folder.glob(".mkedit-*"):
                    left.unlink()
            self.assertEqual(met, {None, text})
            new.unlink()

    def test_the_text_and_the_folder_are_on_the_disk_before_the_reply(self):
        for words, given, _ in SESSIONS:
            steps = [name for name, _ in self.calls(words, given) if name in ("fsync", "link", "write")]
            self.assertEqual(steps[-4:], ["fsync", "link", "fsync", "write"])
            (self.room.folder / "new").unlink()

    def test_a_file_that_another_process_makes_meanwhile_stays(self):
        new = self.room.folder / "new"

        def make():
            until = time.monotonic() + SECONDS
            while not any(it.stat().st_size for it in self.room.folder.glob(".mkedit-*")):
                self.assertLess(time.monotonic(), until)
                time.sleep(0.001)
            new.write_bytes(b"of another\n")

        for words, given, _ in SESSIONS:
            there = self.names()
            got = self.injected(words, given, "fsync:delay_enter=500000:when=1", meanwhile=make)
            self.assertTrue(got.stdout.endswith(b"ok\nfault new has changed\n"), got)
            self.assert_holds("new", b"of another\n")
            new.unlink()
            self.assertEqual(self.names(), there)

    def test_where_a_file_gets_no_second_name_it_is_made_all_the_same(self):
        for words, given, text in SESSIONS:
            there = self.names()
            got = self.injected(words, given, "link:error=EPERM")
            self.assertTrue(got.stdout.endswith(b"ok\nok\n"), got)
            self.assert_holds("new", text)
            (self.room.folder / "new").unlink()
            got = self.injected(words, given, "rename,link:error=EPERM")
            self.assertTrue(got.stdout.endswith(b"ok\nfault cannot write new\n"), got)
            self.assertEqual(self.names(), there)

    def test_a_new_file_has_the_mode_of_any_new_file(self):
        umask = os.umask(0o027)
        self.addCleanup(os.umask, umask)
        for words, given, text in SESSIONS:
            self.room.run("session", *words, given=given)
            self.assert_holds("new", text)
            self.assertEqual(oct((self.room.folder / "new").stat().st_mode & 0o7777), oct(0o640))
            (self.room.folder / "new").unlink()
        self.assert_holds("Makefile", TEXT)
