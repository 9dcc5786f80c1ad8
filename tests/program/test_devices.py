"""Tests of pipes and devices: bytes that come slowly or for ever, outputs that fail or go away."""

import os
import select
import signal
import time

from tests.lib.checks import SECONDS, Outcome
from tests.lib.rooms import ANSWERS, EDITED, QUERIED, REFUSED, TEXT, TOO_LONG, WRITE_FAULT, RoomCase, silent


def feed(path, content, pause=0.0, stop=None):
    """Returns what writes a fifo byte by byte, and may stop its reader half way for a time."""

    def meanwhile(process):
        until = time.monotonic() + 10
        while True:
            try:
                fifo = os.open(path, os.O_WRONLY | os.O_NONBLOCK)
                break
            except OSError:
                if process.poll() is not None or time.monotonic() > until:
                    return
                time.sleep(0.001)
        try:
            for at, byte in enumerate(content):
                if stop and at == len(content) // 2:
                    process.send_signal(signal.SIGSTOP)
                    time.sleep(0.05)
                    process.send_signal(signal.SIGCONT)
                os.write(fifo, bytes([byte]))
                time.sleep(pause)
        except BrokenPipeError:
            pass
        finally:
            os.close(fifo)

    return meanwhile


class Devices(RoomCase):
    def test_a_pipe_that_gives_single_bytes_is_read_to_its_end(self):
        os.mkfifo(self.room.folder / "pipe")
        meanwhile = feed(self.room.folder / "pipe", TEXT, pause=0.005)
        self.assert_run(EDITED, "edit", "script", "pipe", meanwhile=meanwhile)

    def test_a_script_may_be_a_pipe(self):
        os.mkfifo(self.room.folder / "pipe")
        meanwhile = feed(self.room.folder / "pipe", b"set CC clang\n", pause=0.005)
        self.assert_run(EDITED, "edit", "pipe", "Makefile", meanwhile=meanwhile)

    def test_a_program_that_is_stopped_and_goes_on_loses_nothing(self):
        os.mkfifo(self.room.folder / "pipe")
        meanwhile = feed(self.room.folder / "pipe", TEXT, pause=0.005, stop=True)
        self.assert_run(EDITED, "edit", "script", "pipe", meanwhile=meanwhile)

    def test_a_query_reads_a_pipe_to_its_end(self):
        for query, answer in ANSWERS.items():
            path = self.room.folder / f"pipe-{query}"
            os.mkfifo(path)
            meanwhile = feed(path, QUERIED, pause=0.002)
            self.assert_run(Outcome(answer, b"", 0), query, path.name, meanwhile=meanwhile)

    def test_standard_input_may_be_a_pipe_that_gives_single_bytes(self):
        reader, writer = os.pipe()

        def write(_):
            os.close(reader)
            for byte in TEXT:
                os.write(writer, bytes([byte]))
                time.sleep(0.005)
            os.close(writer)

        self.assert_run(EDITED, "edit", "script", stdin=reader, meanwhile=write)

    def test_an_endless_file_is_too_long(self):
        for words in (["edit", "script"], *([it] for it in ANSWERS)):
            self.assert_run(TOO_LONG, *words, "/dev/zero")

    def test_an_endless_script_is_too_long(self):
        self.assert_run(TOO_LONG, "edit", "/dev/zero", "Makefile")

    def test_a_full_device_is_a_write_fault(self):
        with open("/dev/full", "wb") as full:
            self.assert_run(WRITE_FAULT, "edit", "script", "Makefile", stdout=full)

    def test_a_query_to_a_full_device_is_a_write_fault(self):
        for query in ANSWERS:
            with open("/dev/full", "wb") as full:
                self.assert_run(WRITE_FAULT, query, "queried", stdout=full)

    def test_a_query_without_lines_needs_no_room(self):
        for query in ANSWERS:
            with open("/dev/full", "wb") as full:
                self.assert_run(silent(0), query, "empty", stdout=full)

    def test_a_closed_output_is_a_write_fault(self):
        self.assert_run(WRITE_FAULT, "edit", "script", "Makefile", closed=(1,))
        for query in ANSWERS:
            self.assert_run(WRITE_FAULT, query, "queried", closed=(1,))

    def test_an_output_that_nobody_reads_is_a_write_fault(self):
        reader, writer = os.pipe()
        os.close(reader)
        self.assert_run(WRITE_FAULT, "edit", "script", "Makefile", stdout=writer)
        os.close(writer)

    def assert_left(self, wanted, *words):
        """Runs the program, whose reader leaves after the first byte."""
        reader, writer = os.pipe()

        def leave(_):
            os.close(writer)
            if select.select([reader], [], [], SECONDS)[0]:
                os.read(reader, 1)
            os.close(reader)

        self.assert_run(wanted, *words, stdout=writer, meanwhile=leave)

    def test_a_reader_that_leaves_early_is_a_write_fault(self):
        self.room.write("long", b"# a comment of forty bytes, and its end\n" * 25_000)
        self.assert_left(WRITE_FAULT, "edit", "empty", "long")

    def test_a_query_whose_reader_leaves_early_is_done(self):
        self.room.write("long", b"NAME = a value, and a line of forty bytes\n" * 25_000)
        self.room.write("rules", b"all: main.o and a line of forty bytes in all\n" * 25_000)
        self.room.write("rough", b"all: a\\\\ b \\c and a line of forty bytes in all\n" * 25_000)
        self.room.write("caveats", b"\tNAME = a value, and a line of forty bytes\n" * 25_000)
        for query, name in (("vars", "long"), ("rules", "rules"), ("check", "rough"), ("caveats", "caveats")):
            self.assert_left(silent(0), query, name)

    def test_a_query_and_help_that_nobody_reads_are_done(self):
        asked = [(query, *notes, "queried") for query in ANSWERS for notes in ((), ("--notes",))]
        helped = [("help", "edit"), ("help", "set"), ("edit", "--help"), ("-h",), ("-V",), ("explain", "NoSuch")]
        for words in (*asked, *helped):
            reader, writer = os.pipe()
            os.close(reader)
            self.assert_run(silent(0), *words, stdout=writer)
            os.close(writer)

    def test_a_refused_script_needs_no_output(self):
        self.assert_run(REFUSED, "edit", "undo", "Makefile", closed=(1,))

    def test_an_edit_needs_no_standard_error(self):
        self.assert_run(EDITED, "edit", "script", "Makefile", closed=(2,))

    def test_a_bad_script_without_standard_error_keeps_its_status(self):
        self.assert_run(silent(2), "edit", "bad", "Makefile", closed=(2,))

    def test_a_missing_file_without_standard_error_keeps_its_status(self):
        self.assert_run(silent(3), "edit", "script", "absent", closed=(2,))

    def test_a_report_that_cannot_be_written_is_a_write_fault(self):
        with open("/dev/full", "wb") as full:
            self.assert_run(silent(3), "edit", "undo", "Makefile", stderr=full)
        self.assert_run(silent(3), "edit", "undo", "Makefile", closed=(2,))
