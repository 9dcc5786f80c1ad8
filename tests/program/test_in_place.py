"""Tests of `-i`: FILE is the old file or the new one at every moment, and keeps its mode and its links."""

import os
import random
import re
import signal
import struct
import subprocess
import time

from tests.lib.checks import NOBODY, SECONDS, Outcome
from tests.lib.rooms import EDITED, READ_FAULT, REFUSED, TEXT, WRITE_FAULT, RoomCase, cannot_open, silent

WORDS = ("edit", "-i", "script", "Makefile")
CALL = re.compile(r"^(?:\d+ +)?(\w+)\(", re.M)
# A group that nobody else is in.
GROUP = 54_321
# An access list, as Linux keeps it: the owner and the user nobody may write, and nobody else may read.
LIST = "system.posix_acl_access"
ENTRIES = ((1, 6, -1), (2, 6, NOBODY), (4, 0, -1), (16, 6, -1), (32, 0, -1))
ACCESS = struct.pack("<I", 2) + b"".join(struct.pack("<HHi", *it) for it in ENTRIES)


def traced(room, *options):
    """Runs an edit in place under strace."""
    words = ["strace", "-f", "-qq", *options, room.program.path, *WORDS]
    ran = subprocess.run(words, cwd=room.folder, capture_output=True, timeout=SECONDS)
    return Outcome(ran.stdout, ran.stderr, ran.returncode)


def injected(room, what):
    """Runs an edit in place with something injected into its calls."""
    return traced(room, "-o", "/dev/null", "-e", f"inject={what}")


def calls(room):
    """The calls of an edit in place, each as its name and how many there were of it, with this one."""
    traced(room, "-o", "calls")
    # strace makes the first call, which starts the program
    names_of_calls = CALL.findall((room.folder / "calls").read_text())[1:]
    return [(name, names_of_calls[: at + 1].count(name)) for at, name in enumerate(names_of_calls)]


def become_nobody():
    """Makes this process one of the user nobody, who is in GROUP too."""
    os.setgroups([GROUP])
    os.setgid(NOBODY)
    os.setuid(NOBODY)


class InPlace(RoomCase):
    def assert_stays(self, wanted, *words, **how):
        """Runs the program, which may neither change the makefile nor leave a file behind."""
        makefile, there = self.room.folder / "Makefile", self.names()
        number = makefile.stat().st_ino
        self.assert_run(wanted, *words, **how)
        self.assert_well(self.room.changed())
        self.assertEqual(makefile.stat().st_ino, number, "the makefile is another file")
        self.assertEqual(self.names(), there)

    def test_the_file_gets_the_text(self):
        there = self.names()
        for words in (
            WORDS,
            ("edit", "--in-place", "script", "Makefile"),
            ("edit", "script", "Makefile", "-i"),
            ("edit", "-ie", "set CC clang", "Makefile"),
            ("edit", "-ki", "script", "./Makefile"),
            ("edit", "-i", "script", str(self.room.folder / "Makefile")),
        ):
            self.room.write("Makefile", TEXT)
            self.assert_run(silent(0), *words)
            self.assert_holds("Makefile", EDITED.stdout)
        self.assertEqual(self.names(), there)

    def test_a_long_text_and_an_empty_one_get_into_place(self):
        text = b"# a comment of forty bytes, and its end\n" * 100_000
        self.room.write("long", text + TEXT)
        self.assert_run(silent(0), "edit", "-i", "script", "long")
        self.assert_holds("long", text + EDITED.stdout)
        self.assert_run(silent(0), "edit", "-i", "empty", "script")
        self.assert_holds("script", b"set CC clang\n")
        self.room.write("nothing", b"")
        self.assert_run(silent(0), "edit", "-i", "empty", "nothing")
        self.assert_holds("nothing", b"")

    def test_a_file_whose_bytes_do_not_change_is_left_alone(self):
        self.room.write("both", b"undo\nset CC gcc\n")
        for words in (
            ("empty", "Makefile"),
            ("-e", "set CC gcc", "Makefile"),
            ("-e", "set CC clang\nundo", "Makefile"),
            ("--backup", "~", "empty", "Makefile"),
        ):
            self.assert_stays(silent(0), "edit", "-i", *words)
        self.assert_stays(REFUSED, "edit", "-ki", "both", "Makefile")

    def test_a_file_of_any_size_is_compared_to_its_end(self):
        for size in (0, 1, 8_191, 8_192, 8_193, 16_384, 100_000):
            text = TEXT + b"#" * size
            self.room.write("Makefile", text)
            self.assert_stays(silent(0), "edit", "-i", "empty", "Makefile")
            self.assert_run(silent(0), "edit", "-i", "-e", "assign bottom X = 1", "Makefile")
            self.assert_holds("Makefile", text + (b"\n" if size else b"") + b"X = 1\n")
            self.assert_run(silent(0), "edit", "-i", "-e", "unset X", "Makefile")
            self.assert_holds("Makefile", text + (b"\n" if size else b""))

    def test_the_mode_stays(self):
        for mode in (0o755, 0o640, 0o600, 0o444, 0o666, 0o777):
            self.room.write("Makefile", TEXT, mode=mode)
            self.assert_run(silent(0), *WORDS)
            found = (self.room.folder / "Makefile").stat().st_mode & 0o7777
            self.assertEqual(oct(found), oct(mode))
            self.assert_holds("Makefile", EDITED.stdout)

    def test_an_access_list_stays_in_an_output_and_goes_in_place(self):
        makefile = self.room.folder / "Makefile"
        for options, wanted in ((("-o", "Makefile"), [LIST]), (("-i",), [])):
            self.room.write("Makefile", TEXT, mode=0o600)
            try:
                os.setxattr(makefile, LIST, ACCESS)
            except OSError:
                self.skipTest("this file system has no access lists")
            self.assert_run(silent(0), "edit", *options, "script", "Makefile")
            self.assertEqual([it for it in os.listxattr(makefile) if it == LIST], wanted)
            # (its group now has what the list gave to the user nobody)
            self.assertEqual(oct(makefile.stat().st_mode & 0o7777), oct(0o660))
            self.assert_holds("Makefile", EDITED.stdout)

    def test_the_owner_stays_where_that_is_allowed(self):
        if os.geteuid():
            self.skipTest("only root may give a file away")
        self.room.write("Makefile", TEXT, mode=0o4755)
        os.chown(self.room.folder / "Makefile", NOBODY, NOBODY)
        os.chmod(self.room.folder / "Makefile", 0o4755)
        self.assert_run(silent(0), *WORDS)
        found = os.stat(self.room.folder / "Makefile")
        self.assertEqual((found.st_uid, found.st_gid), (NOBODY, NOBODY))
        self.assertEqual(oct(found.st_mode & 0o7777), oct(0o4755))
        self.assert_holds("Makefile", EDITED.stdout)

    def test_the_group_stays_where_only_the_owner_may_not(self):
        if os.geteuid():
            self.skipTest("only root may give a file away")
        self.room.copy_program()
        os.chmod(self.room.folder, 0o777)
        self.room.write("Makefile", TEXT, mode=0o664)
        os.chown(self.room.folder / "Makefile", 0, GROUP)
        how = {"cwd": self.room.folder, "capture_output": True, "timeout": SECONDS}
        ran = subprocess.run([self.room.program.path, *WORDS], preexec_fn=become_nobody, **how)
        self.assertEqual(Outcome(ran.stdout, ran.stderr, ran.returncode), silent(0))
        found = os.stat(self.room.folder / "Makefile")
        self.assertEqual((found.st_uid, found.st_gid), (NOBODY, GROUP))
        self.assertEqual(oct(found.st_mode & 0o7777), oct(0o664))
        self.assert_holds("Makefile", EDITED.stdout)

    def test_another_group_gets_no_more_than_everybody_had(self):
        if os.geteuid():
            self.skipTest("only root may give a file away")
        self.room.copy_program()
        os.chmod(self.room.folder, 0o777)
        for mode, wanted in ((0o664, 0o644), (0o640, 0o600), (0o2775, 0o755), (0o666, 0o666), (0o604, 0o604)):
            self.room.write("Makefile", TEXT)
            os.chown(self.room.folder / "Makefile", NOBODY, GROUP)
            os.chmod(self.room.folder / "Makefile", mode)
            # (the user nobody is not in GROUP)
            self.assert_run(silent(0), *WORDS, nobody=True)
            found = os.stat(self.room.folder / "Makefile")
            self.assertEqual((found.st_uid, found.st_gid), (NOBODY, NOBODY))
            self.assertEqual(oct(found.st_mode & 0o7777), oct(wanted), oct(mode))
            self.assert_holds("Makefile", EDITED.stdout)

    def test_the_new_file_is_its_owners_alone_until_it_has_the_mode(self):
        self.need_strace()
        self.addCleanup(os.umask, os.umask(0))
        self.room.write("Makefile", TEXT, mode=0o666)
        for call in ("fchown", "fchmod"):
            got = injected(self.room, f"{call}:signal=KILL:when=1")
            self.assertEqual(got, silent(-signal.SIGKILL), call)
            (left,) = self.room.folder.glob(".mkedit-*")
            self.assertEqual(oct(left.stat().st_mode & 0o7777), oct(0o600), call)
            left.unlink()

    def test_a_file_of_another_owner_may_be_edited_in_place(self):
        self.room.copy_program()
        os.chmod(self.room.folder, 0o777)
        self.assert_run(silent(0), *WORDS, nobody=True)
        self.assert_holds("Makefile", EDITED.stdout)

    def test_a_link_is_followed(self):
        os.mkdir(self.room.folder / "below")
        os.symlink("../Makefile", self.room.folder / "below/link")
        os.symlink("below/link", self.room.folder / "link")
        self.assert_run(silent(0), "edit", "-i", "script", "link")
        for name in ("link", "below/link"):
            self.assertTrue((self.room.folder / name).is_symlink(), f"{name} is no link any more")
        self.assert_holds("Makefile", EDITED.stdout)

    def test_a_second_name_keeps_the_old_text(self):
        os.link(self.room.folder / "Makefile", self.room.folder / "second")
        self.assert_run(silent(0), *WORDS)
        self.assert_holds("Makefile", EDITED.stdout)
        self.assert_holds("second", TEXT)

    def test_a_run_without_a_text_touches_nothing(self):
        self.room.write("both", b"undo\nset CC clang\n")
        self.assert_stays(REFUSED, "edit", "-i", "undo", "Makefile")
        self.assert_stays(REFUSED, "edit", "-i", "both", "Makefile")
        self.assert_stays(cannot_open("absent"), "edit", "-i", "absent", "Makefile")
        self.assert_stays(cannot_open("absent"), "edit", "-i", "script", "absent")
        self.assert_stays(READ_FAULT, "edit", "-i", "script", ".")
        self.assert_run(REFUSED, "edit", "-ki", "both", "Makefile")
        self.assert_holds("Makefile", EDITED.stdout)

    def test_what_is_no_regular_file_is_a_write_fault(self):
        os.mkfifo(self.room.folder / "pipe")
        self.assert_stays(WRITE_FAULT, "edit", "-i", "empty", "/dev/null")
        pipe = os.open(self.room.folder / "pipe", os.O_RDWR)
        os.set_blocking(pipe, False)
        self.assert_stays(WRITE_FAULT, "edit", "-i", "empty", "/dev/stdin", given=b"")
        os.close(pipe)

    def test_a_folder_that_may_not_be_written_is_a_write_fault(self):
        self.room.copy_program()
        self.assert_stays(WRITE_FAULT, *WORDS, nobody=True)

    def test_a_text_without_room_is_a_write_fault(self):
        text = b"# a comment of forty bytes, and its end\n" * 1_000
        self.room.write("Makefile", text)
        for size in (0, 1, 4_096, len(text) - 1):
            words = ("edit", "-i", "empty", "Makefile")
            self.assert_stays(WRITE_FAULT, *words, greatest_file=size)

    def test_too_few_descriptors_leave_the_file_whole(self):
        there = self.names()
        met = set()
        for many in range(4, 12):
            self.room.write("Makefile", TEXT)
            got = self.room.run("edit", "-i", "-e", "set CC clang", "Makefile", files=many)
            met.add(got)
            self.assert_holds("Makefile", EDITED.stdout if got == silent(0) else TEXT)
            self.assertEqual(self.names(), there)
        self.assertLessEqual({WRITE_FAULT, silent(0)}, met)

    def test_standard_streams_are_not_needed(self):
        for closed in ((0,), (1,), (2,), (0, 1, 2)):
            self.room.write("Makefile", TEXT)
            self.assert_run(silent(0), *WORDS, closed=closed)
            self.assert_holds("Makefile", EDITED.stdout)

    def test_names_that_are_taken_beforehand_stop_nothing(self):
        for number in range(10_000):
            os.symlink("absent", self.room.folder / f".mkedit-{number}.tmp")
        there = self.names()
        self.assert_run(silent(0), *WORDS)
        self.assert_holds("Makefile", EDITED.stdout)
        self.assertEqual(self.names(), there)

    def test_each_run_takes_a_name_of_its_own(self):
        self.need_strace()
        met = set()
        for _ in range(3):
            self.assertEqual(injected(self.room, "fsync:signal=KILL:when=1"), silent(-signal.SIGKILL))
            met |= {it.name for it in self.room.folder.glob(".mkedit-*")}
        self.assertEqual(len(met), 3)
        for name in met:
            self.assertRegex(name, r"^\.mkedit-[0-9a-f]{16}\.tmp$")

    def test_without_a_file_or_beside_o_it_is_a_bad_command_line(self):
        for words in (
            ("edit", "-i", "script"),
            ("edit", "-i", "-e", "undo"),
            ("edit", "-i", "script", "-"),
            ("edit", "-i", "-e", "undo", "-"),
            ("edit", "-i", "-o", "out", "script", "Makefile"),
            ("edit", "-i", "-o", "Makefile", "-e", "undo", "Makefile"),
            ("edit", "-i", "-i", "script", "Makefile"),
            ("edit", "--in-place=yes", "script", "Makefile"),
            ("vars", "-i", "Makefile"),
        ):
            self.assert_bad_command_line(*words)
            self.assert_holds("out", None)

    def test_a_process_that_ends_before_any_of_its_calls_leaves_the_file_whole(self):
        self.need_strace()
        made = calls(self.room)
        renamed = made.index(("rename", 1))
        for at, (name, count) in enumerate(made):
            self.room.write("Makefile", TEXT)
            got = injected(self.room, f"{name}:signal=KILL:when={count}")
            self.assertEqual(got, silent(-signal.SIGKILL), f"call {count} of {name}")
            self.assert_holds("Makefile", TEXT if at <= renamed else EDITED.stdout)
            for left in self.room.folder.glob(".mkedit-*"):
                left.unlink()

    def test_the_text_is_on_the_disk_before_the_name_changes(self):
        self.need_strace()
        steps = [name for name, _ in calls(self.room) if name in ("write", "fsync", "rename")]
        # at last the folder
        self.assertEqual(steps, ["write", "fsync", "rename", "fsync"])
        self.assert_holds("Makefile", EDITED.stdout)

    def test_a_folder_that_cannot_be_put_on_the_disk_has_the_new_file(self):
        self.need_strace()
        there = self.names()
        self.assertEqual(injected(self.room, "fsync:error=EINVAL:when=2"), silent(0))
        self.assert_holds("Makefile", EDITED.stdout)
        self.assertEqual(self.names(), there)

    def test_a_call_that_fails_leaves_the_file_whole(self):
        self.need_strace()
        there = self.names()
        for call in ("write:error=ENOSPC", "fsync:error=EIO", "rename:error=EXDEV", "fchmod:error=EPERM"):
            got = injected(self.room, call)
            self.assertEqual((got.stdout, got.status), (b"", WRITE_FAULT.status), call)
            self.assert_well(self.room.changed())
            self.assertEqual(self.names(), there, call)
        # a file that may not be given away has another owner
        self.assertEqual(injected(self.room, "fchown:error=EPERM"), silent(0))
        self.assert_holds("Makefile", EDITED.stdout)

    def test_a_process_that_is_killed_at_any_time_leaves_the_file_whole(self):
        above = b"# a comment of forty bytes, and its end\n" * 50_000
        text, edited = above + TEXT, above + EDITED.stdout
        times = random.Random(18)
        for _ in range(30):
            self.room.write("Makefile", text)
            with subprocess.Popen([self.room.program.path, *WORDS], cwd=self.room.folder) as process:
                time.sleep(times.uniform(0, 0.05))
                process.kill()
            found = (self.room.folder / "Makefile").read_bytes()
            ended = f"a process that ends with {process.returncode} leaves {len(found)} bytes"
            self.assertTrue(found in (text, edited), ended)
            self.assert_holds("Makefile", found)
