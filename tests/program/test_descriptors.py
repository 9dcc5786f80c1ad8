"""Tests of the standard streams: which the program starts without, and which do not wait."""

import itertools
import os
import time

from tests.lib.checks import Outcome
from tests.lib.rooms import (
    ANSWERS,
    EDITED,
    READ_FAULT,
    REFUSED,
    TEXT,
    WRITE_FAULT,
    RoomCase,
    cannot_open,
    silent,
)

# Longer than what a pipe holds, and than what any buffer does.
LONG = b"# a comment of forty bytes, and its end\n" * 25_000


def missing():
    """Each choice of standard streams, to be left out."""
    return [it for many in range(4) for it in itertools.combinations((0, 1, 2), many)]


def nobody_reads():
    """A pipe to be written to that has no reader."""
    reader, writer = os.pipe()
    os.close(reader)
    return open(writer, "wb", buffering=0)


class Descriptors(RoomCase):
    def test_an_edit_of_files_needs_no_standard_streams(self):
        for closed in missing():
            self.assert_run(silent(0), "edit", "-o", "out", "script", "Makefile", closed=closed)
            self.assert_holds("out", EDITED.stdout)
            (self.room.folder / "out").unlink(missing_ok=True)

    def test_a_refused_run_writes_no_file_whatever_streams_it_lacks(self):
        self.room.write("both", b"undo\nset CC clang\n")
        for closed in missing():
            # without standard error the report cannot be written, which is a fault of writing
            wanted = silent(3) if 2 in closed else REFUSED
            self.assert_run(wanted, "edit", "-o", "out", "undo", "Makefile", closed=closed)
            self.assert_holds("out", None)
            wanted = silent(3) if 2 in closed else REFUSED
            self.assert_run(wanted, "edit", "-ko", "out", "both", "Makefile", closed=closed)
            self.assert_holds("out", None if 2 in closed else EDITED.stdout)
            (self.room.folder / "out").unlink(missing_ok=True)

    def test_without_standard_output_nothing_is_written_elsewhere(self):
        for closed in missing():
            if 1 in closed:
                wanted = silent(3) if 2 in closed else WRITE_FAULT
                self.assert_run(wanted, "edit", "script", "Makefile", closed=closed)
                self.assert_run(wanted, "vars", "queried", closed=closed)

    def test_without_standard_input_no_other_file_is_the_makefile(self):
        for closed in missing():
            if 0 in closed:
                wanted = silent(3) if 2 in closed else READ_FAULT
                self.assert_run(wanted, "edit", "script", closed=closed)
                self.assert_run(wanted, "edit", "-o", "out", "script", closed=closed)
                self.assert_holds("out", None)

    def test_an_input_that_does_not_wait_is_a_read_fault(self):
        for words in (["edit", "script"], *([it] for it in ANSWERS)):
            reader, writer = os.pipe()
            os.set_blocking(reader, False)
            os.write(writer, TEXT)
            self.assert_run(READ_FAULT, *words, stdin=reader)
            os.close(reader)
            os.close(writer)

    def test_an_output_that_does_not_wait_is_a_write_fault(self):
        self.room.write("long", LONG)
        reader, writer = os.pipe()
        os.set_blocking(writer, False)
        self.assert_run(WRITE_FAULT, "edit", "empty", "long", stdout=writer)
        os.close(writer)
        with open(reader, "rb") as pipe:
            came = pipe.read()
        self.assertTrue(LONG.startswith(came), "what came is no prefix of the text")

    def test_a_reader_that_takes_its_time_gets_the_whole_text(self):
        self.room.write("long", LONG)
        reader, writer = os.pipe()
        came = []

        def take(_):
            os.close(writer)
            with open(reader, "rb", buffering=0) as pipe:
                for part in iter(lambda: pipe.read(10_000), b""):
                    came.append(part)
                    time.sleep(0.001)

        self.assert_run(silent(0), "edit", "empty", "long", stdout=writer, meanwhile=take)
        self.assertTrue(b"".join(came) == LONG, "what came is not the text")

    def test_a_report_that_nobody_reads_is_a_write_fault(self):
        self.room.write("both", b"undo\nset CC clang\n")
        with nobody_reads() as gone:
            self.assert_run(silent(3), "edit", "undo", "Makefile", stderr=gone)
            self.assert_run(silent(3), "edit", "-k", "both", "Makefile", stderr=gone)
            self.assert_run(silent(3), "edit", "-ko", "out", "both", "Makefile", stderr=gone)
            self.assert_holds("out", None)

    def test_a_message_that_nobody_reads_changes_no_status(self):
        with nobody_reads() as gone, open("/dev/full", "wb") as full:
            for stderr in (gone, full):
                for status, words in (
                    (2, ["edit", "bad", "Makefile"]),
                    (2, ["edit", "-d", "0", "script", "Makefile"]),
                    (2, ["frobnicate"]),
                    (3, ["edit", "script", "absent"]),
                    (3, ["edit", "script", "."]),
                    (3, ["vars", "/dev/zero"]),
                ):
                    self.assert_run(silent(status), *words, stderr=stderr)

    def test_both_outputs_may_be_gone(self):
        with nobody_reads() as gone:
            self.assert_run(silent(3), "edit", "script", "Makefile", stdout=gone, stderr=gone)
            for query in ANSWERS:
                self.assert_run(silent(0), query, "queried", stdout=gone, stderr=gone)

    def test_one_stream_may_be_the_input_and_the_output(self):
        reader, writer = os.pipe()
        os.write(writer, TEXT)
        os.close(writer)
        # the end of the pipe that is read takes no bytes
        self.assert_run(WRITE_FAULT, "edit", "script", stdin=reader, stdout=reader)
        os.close(reader)
        with open(self.room.folder / "both", "w+b") as both:
            both.write(TEXT)
            both.seek(0)
            self.assert_run(silent(0), "edit", "script", stdin=both, stdout=both)
        self.assert_holds("both", TEXT + EDITED.stdout)

    def test_a_script_may_be_standard_input(self):
        self.assert_run(EDITED, "edit", "/dev/stdin", "Makefile", given=b"set CC clang\n")
        # the script is read to its end, so nothing is there for the makefile
        wanted = Outcome(b"", b"1: refused 4 NoSuch\n", 1)
        self.assert_run(wanted, "edit", "/dev/stdin", given=b"set CC clang\n")

    def test_script_and_makefile_may_be_pipes_without_names(self):
        readers = []
        for content in (b"set CC clang\n", TEXT):
            reader, writer = os.pipe()
            os.write(writer, content)
            os.close(writer)
            readers.append(reader)
        names = [f"/dev/fd/{it}" for it in readers]
        self.assert_run(EDITED, "edit", *names, pass_fds=readers)
        for reader in readers:
            os.close(reader)

    def test_too_few_files_at_once_are_told(self):
        clean = (cannot_open("script"), cannot_open("Makefile"), WRITE_FAULT, silent(0))
        words = ["edit", "-o", "out", "script", "Makefile"]
        got = [self.room.run(*words, files=many) for many in range(4, 12)]
        self.assertLessEqual({*got}, {*clean})
        more_do_more = got[-1] == silent(0) and sorted(got, key=clean.index) == got
        self.assertTrue(more_do_more, f"more files do less: {got}")
        self.assert_holds("out", EDITED.stdout)

    def test_an_out_that_is_not_written_for_want_of_descriptors_keeps_its_bytes(self):
        words = ["edit", "-o", "out", "-e", "set CC clang", "Makefile"]
        older = TEXT * 1_000
        met = set()
        for many in range(4, 12):
            (self.room.folder / "out").write_bytes(older)
            got = self.room.run(*words, files=many)
            met.add(got)
            self.assert_holds("out", EDITED.stdout if got == silent(0) else older)
        self.assertLessEqual({WRITE_FAULT, silent(0)}, met)
