"""Tests of OUT, the file that `-o` names: when it is opened and emptied, and what it holds then."""

import os
import select
import shutil
import subprocess

from tests.lib.checks import SECONDS, Outcome
from tests.lib.rooms import (
    EDITED,
    NO_COMMAND,
    READ_FAULT,
    REFUSED,
    TEXT,
    TOO_LONG,
    WRITE_FAULT,
    RoomCase,
    cannot_open,
    silent,
)


def reader_of(room, name):
    """Makes a pipe with a name, and opens it to be read, without waiting for what writes it."""
    os.mkfifo(room.folder / name)
    return open(os.open(room.folder / name, os.O_RDONLY | os.O_NONBLOCK), "rb", buffering=0)


class Outputs(RoomCase):
    def test_the_text_goes_to_out_and_not_to_standard_output(self):
        self.assert_run(silent(0), "edit", "-o", "out", "script", "Makefile")
        self.assert_holds("out", EDITED.stdout)

    def test_the_long_form_of_o_is_output(self):
        self.assert_run(silent(0), "edit", "--output", "out", "script", "Makefile")
        self.assert_holds("out", EDITED.stdout)
        self.assert_run(silent(0), "edit", "--output=more", "script", "Makefile")
        self.assert_holds("more", EDITED.stdout)

    def test_out_may_stand_last(self):
        self.assert_run(silent(0), "edit", "script", "Makefile", "-oout")
        self.assert_holds("out", EDITED.stdout)

    def test_out_may_be_the_makefile(self):
        self.assert_run(silent(0), "edit", "-o", "Makefile", "script", "Makefile")
        self.assert_holds("Makefile", EDITED.stdout)

    def test_out_may_be_the_makefile_by_another_name(self):
        (self.room.folder / "link").symlink_to("Makefile")
        self.assert_run(silent(0), "edit", "-o", "link", "script", "Makefile")
        self.assertTrue((self.room.folder / "link").is_symlink(), "the link is no link any more")
        self.assert_holds("Makefile", EDITED.stdout)

    def test_out_may_be_the_script(self):
        self.assert_run(silent(0), "edit", "-o", "script", "script", "Makefile")
        self.assert_holds("script", EDITED.stdout)

    def traced(self, out, *options):
        """Runs an edit into OUT under strace."""
        words = ["strace", "-f", "-qq", *options, self.room.program.path, "edit", "-o", out, "script", "Makefile"]
        ran = subprocess.run(words, cwd=self.room.folder, capture_output=True, timeout=SECONDS)
        return Outcome(ran.stdout, ran.stderr, ran.returncode)

    def test_the_text_is_on_the_disk_when_the_run_ends(self):
        tool = ["strace", "-qq", "-o", "/dev/null", "true"]
        if not shutil.which("strace") or subprocess.run(tool, capture_output=True).returncode:
            self.skipTest("there is no strace, or it may not trace")
        self.assertEqual(self.traced("out", "-o", "calls", "-e", "trace=write,fsync"), silent(0))
        calls = [line.split("(")[0].split()[-1] for line in (self.room.folder / "calls").read_text().splitlines()]
        self.assertEqual(calls, ["write", "fsync"])
        for error in ("ENOSPC", "EIO", "EDQUOT"):
            got = self.traced("out", "-o", "/dev/null", "-e", f"inject=fsync:error={error}")
            self.assertEqual((got.stdout, got.status), (b"", WRITE_FAULT.status), error)
        # a pipe has no disk
        with reader_of(self.room, "pipe") as pipe:
            self.assertEqual(self.traced("pipe", "-o", "/dev/null"), silent(0))
            self.assertEqual(pipe.read(), EDITED.stdout)

    def test_a_longer_out_is_emptied_first(self):
        self.room.write("out", b"# an older text, longer than the new one\n" * 1000)
        self.assert_run(silent(0), "edit", "-o", "out", "script", "Makefile")
        self.assert_holds("out", EDITED.stdout)

    def test_an_empty_text_empties_out(self):
        self.room.write("out", TEXT)
        self.assert_run(silent(0), "edit", "-o", "out", "empty", "empty")
        self.assert_holds("out", b"")
        self.assert_run(silent(0), "edit", "-o", "new", "empty", "empty")
        self.assert_holds("new", b"")

    def test_a_long_text_goes_to_out_whole(self):
        text = b"# a comment of forty bytes, and its end\n" * 100_000
        self.room.write("long", text)
        self.assert_run(silent(0), "edit", "-o", "long", "empty", "long")
        self.assert_holds("long", text)

    def test_a_text_of_several_writes_goes_to_out_whole(self):
        half = b"# a comment of forty bytes, and its end\n" * 1_000
        self.room.write("long", half + TEXT + half)
        self.assert_run(silent(0), "edit", "-o", "out", "script", "long")
        self.assert_holds("out", half + EDITED.stdout + half)

    def test_a_refused_run_leaves_out_alone(self):
        self.room.write("out", b"older\n")
        self.assert_run(REFUSED, "edit", "-o", "out", "undo", "Makefile")
        self.assert_run(REFUSED, "edit", "-o", "Makefile", "undo", "Makefile")
        self.assert_run(REFUSED, "edit", "-o", "new", "undo", "Makefile")
        self.assert_holds("new", None)

    def test_a_run_that_keeps_going_writes_out(self):
        self.room.write("both", b"undo\nset CC clang\n")
        self.assert_run(REFUSED, "edit", "-k", "-o", "out", "both", "Makefile")
        self.assert_holds("out", EDITED.stdout)

    def test_a_run_that_fails_before_its_text_leaves_out_alone(self):
        for wanted, script, file in (
            (NO_COMMAND, "bad", "Makefile"),
            (READ_FAULT, "script", "."),
            (READ_FAULT, ".", "Makefile"),
            (TOO_LONG, "script", "/dev/zero"),
            (cannot_open("absent"), "script", "absent"),
            (cannot_open("absent"), "absent", "Makefile"),
        ):
            self.room.write("out", b"older\n")
            self.assert_run(wanted, "edit", "-o", "out", script, file)
            self.assert_well(self.room.changed())
            self.assert_run(wanted, "edit", "-o", "new", script, file)
            self.assert_holds("new", None)

    def test_an_out_in_a_folder_that_is_not_there_is_a_write_fault(self):
        self.assert_run(WRITE_FAULT, "edit", "-o", "absent/out", "script", "Makefile")
        self.assert_run(WRITE_FAULT, "edit", "-o", "absent/out", "empty", "empty")

    def test_an_out_that_cannot_be_opened_is_no_fault_where_nothing_goes_out(self):
        self.assert_run(REFUSED, "edit", "-o", "absent/out", "undo", "Makefile")

    def test_a_directory_as_out_is_a_write_fault(self):
        self.assert_run(WRITE_FAULT, "edit", "-o", ".", "script", "Makefile")

    def test_an_empty_name_of_out_is_a_write_fault(self):
        self.assert_run(WRITE_FAULT, "edit", "-o", "", "script", "Makefile")

    def test_a_full_device_as_out_is_a_write_fault(self):
        self.assert_run(WRITE_FAULT, "edit", "-o", "/dev/full", "script", "Makefile")

    def test_a_device_as_out_takes_the_text(self):
        self.assert_run(EDITED, "edit", "-o", "/dev/stdout", "script", "Makefile")

    def test_a_dash_as_out_is_the_name_of_a_file(self):
        self.assert_run(silent(0), "edit", "-o", "-", "script", "Makefile")
        self.assert_holds("-", EDITED.stdout)

    def test_an_out_that_may_not_be_written_is_a_write_fault(self):
        self.room.copy_program()
        self.room.write("locked", b"older\n", mode=0o444)
        self.assert_run(WRITE_FAULT, "edit", "-o", "locked", "script", "Makefile", nobody=True)

    def test_the_mode_of_out_stays(self):
        self.room.write("out", b"older\n", mode=0o640)
        self.assert_run(silent(0), "edit", "-o", "out", "script", "Makefile")
        mode = (self.room.folder / "out").stat().st_mode & 0o777
        self.assertEqual(oct(mode), oct(0o640))
        self.assert_holds("out", EDITED.stdout)

    def test_a_new_out_may_be_read_by_its_owner(self):
        self.assert_run(silent(0), "edit", "-o", "out", "script", "Makefile")
        mode = (self.room.folder / "out").stat().st_mode & 0o777
        umask = os.umask(0)
        os.umask(umask)
        self.assertEqual(oct(mode), oct(0o666 & ~umask))

    def test_out_needs_no_standard_output(self):
        self.assert_run(silent(0), "edit", "-o", "out", "script", "Makefile", closed=(1,))
        self.assert_holds("out", EDITED.stdout)

    def test_out_beside_standard_input(self):
        self.assert_run(silent(0), "edit", "-o", "out", "script", given=TEXT)
        self.assert_holds("out", EDITED.stdout)
        self.assert_run(silent(0), "edit", "-o", "out", "empty", given=b"")
        self.assert_holds("out", b"")

    def test_out_may_be_the_makefile_by_a_second_name(self):
        os.link(self.room.folder / "Makefile", self.room.folder / "second")
        self.assert_run(silent(0), "edit", "-o", "second", "script", "Makefile")
        names = self.room.folder / "Makefile", self.room.folder / "second"
        self.assertTrue(os.path.samefile(*names), "the two names are of two files")
        self.assert_holds("Makefile", EDITED.stdout)

    def test_out_may_be_the_file_of_standard_input(self):
        with open(self.room.folder / "Makefile", "rb") as stdin:
            self.assert_run(silent(0), "edit", "-o", "Makefile", "script", stdin=stdin)
        self.assert_holds("Makefile", EDITED.stdout)

    def test_a_link_as_out_makes_the_file_that_it_names(self):
        (self.room.folder / "link").symlink_to("made")
        self.assert_run(REFUSED, "edit", "-o", "link", "undo", "Makefile")
        self.assert_holds("made", None)
        self.assert_run(silent(0), "edit", "-o", "link", "script", "Makefile")
        self.assert_holds("made", EDITED.stdout)

    def test_an_out_that_leads_nowhere_is_a_write_fault(self):
        (self.room.folder / "circle").symlink_to("circle")
        for name in ("circle", "Makefile/out", "x" * 300, "x/" * 3_000):
            self.assert_run(WRITE_FAULT, "edit", "-o", name, "script", "Makefile")
            self.assert_run(REFUSED, "edit", "-o", name, "undo", "Makefile")

    def test_an_out_in_a_folder_that_may_not_be_written_is_a_write_fault(self):
        self.room.copy_program()
        words = ["edit", "-o", "out", "script", "Makefile"]
        self.assert_run(WRITE_FAULT, *words, nobody=True)
        self.assert_holds("out", None)

    def test_a_program_that_runs_is_no_out(self):
        self.room.copy_program()
        bytes_before = self.room.program.path.read_bytes()
        self.assert_run(WRITE_FAULT, "edit", "-o", "mkedit", "script", "Makefile")
        self.assert_holds("mkedit", bytes_before)

    def test_out_may_be_a_pipe(self):
        with reader_of(self.room, "pipe") as pipe:
            self.assert_run(silent(0), "edit", "-o", "pipe", "script", "Makefile")
            came = pipe.read()
        self.assertEqual(came, EDITED.stdout)

    def test_an_out_whose_reader_leaves_early_is_a_write_fault(self):
        self.room.write("long", b"# a comment of forty bytes, and its end\n" * 25_000)
        pipe = reader_of(self.room, "pipe")

        def leave(_):
            with pipe:
                select.select([pipe], [], [], SECONDS)
                pipe.read(1)

        self.assert_run(WRITE_FAULT, "edit", "-o", "pipe", "empty", "long", meanwhile=leave)

    def test_an_out_without_room_has_the_beginning_of_the_text(self):
        text = b"# a comment of forty bytes, and its end\n" * 1_000
        self.room.write("long", text)
        for size in (1, 4_096, 30_000, len(text) - 1):
            words = ["edit", "-o", "out", "empty", "long"]
            self.assert_run(WRITE_FAULT, *words, greatest_file=size)
            self.assert_holds("out", text[:size])
        self.assert_run(silent(0), *words, greatest_file=len(text))
        self.assert_holds("out", text)

    def test_an_out_with_room_for_three_bytes_has_three(self):
        words = ["edit", "-o", "out", "script", "Makefile"]
        self.assert_run(WRITE_FAULT, *words, greatest_file=3)
        self.assert_holds("out", b"CC ")
        self.assert_run(REFUSED, "edit", "-ko", "out", "undo", "empty", greatest_file=0)
        self.assert_holds("out", b"")

    def test_a_file_without_room_as_standard_output_is_a_write_fault(self):
        text = b"NAME = a value, and a line of forty bytes\n" * 1_000
        self.room.write("long", text)
        for words in (["edit", "empty", "long"], ["vars", "long"]):
            with open(self.room.folder / "out", "wb") as out:
                self.assert_run(WRITE_FAULT, *words, stdout=out, greatest_file=10_000)
            self.assertEqual((self.room.folder / "out").stat().st_size, 10_000)

    def test_the_null_device_as_out_takes_the_text(self):
        self.assert_run(silent(0), "edit", "-o", "/dev/null", "script", "Makefile")
