"""Tests of a session that threads share, and of calls that an exception breaks off."""

import signal
import threading
import unittest

import mkedit

from .cases import MAKEFILE, ClientCase

THREADS, CALLS = 8, 40
# What the calls of a thread may take.
SECONDS = 60
# Sends a signal to the client, and replies after that.
LATE = """\
if line == "print":
    os.kill(os.getppid(), signal.{name})
    time.sleep(0.2)
    say(b'| {{"text":"late"}}\\n')
say(b"ok\\n")
"""


class Threads(ClientCase):
    def test_each_call_has_its_own_reply(self):
        makefile, lines, right = self.open(), MAKEFILE.splitlines(True), []

        def ask(first):
            for number in range(first, first + CALLS):
                number = 1 + number % len(lines)
                right.append(makefile.lines(number, number) == lines[number - 1])

        threads = [threading.Thread(target=ask, args=(first,), daemon=True) for first in range(THREADS)]
        for thread in threads:
            thread.start()
        for thread in threads:
            thread.join(SECONDS)
        self.assertEqual(right, [True] * THREADS * CALLS)

    def test_no_edit_comes_between_the_two_requests_of_a_call(self):
        makefile, found = self.open(), []
        thread = threading.Thread(target=lambda: found.extend(len(makefile.recipes()) for _ in range(CALLS)))
        thread.start()
        while thread.is_alive():
            makefile.assign(mkedit.before_var("CC"), "Y", "=", "1")
            makefile.undo()
        self.assertEqual(found, [2] * CALLS)

    def test_a_session_is_closed_after_the_call_of_another_thread(self):
        program = self.talker("""note("asked", line); time.sleep(0.3); say(b"ok\\n"); note("told", line)""")
        makefile, faults = self.open(program), []

        def edit():
            try:
                makefile.undo()
            except mkedit.Error as fault:
                faults.append(fault)

        thread = threading.Thread(target=edit)
        thread.start()
        while not (self.folder / "asked").exists():
            self.assertTrue(thread.is_alive())
        makefile.close()
        thread.join()
        self.assertEqual((faults, (self.folder / "told").read_text()), ([], "undo"))


class Interrupts(ClientCase):
    def on(self, number, handler):
        """Has a signal handled so for this test."""
        before = signal.signal(number, handler)
        self.addCleanup(signal.signal, number, before)

    def assert_ended(self, makefile):
        """The session has ended, and says so."""
        for call in (makefile.undo, makefile.text):
            with self.assertRaises(mkedit.Ended):
                call()
        self.assert_program_is_gone()

    def test_an_interrupt_within_a_call_ends_the_session(self):
        self.on(signal.SIGINT, signal.default_int_handler)
        makefile = self.open(self.talker(LATE.format(name="SIGINT")))
        makefile.undo()
        with self.assertRaises(KeyboardInterrupt):
            makefile.text()
        self.assert_ended(makefile)
        with self.assertRaisesRegex(mkedit.Ended, "broken off"):
            makefile.undo()

    def test_so_does_any_exception_of_a_signal_handler(self):
        def handle(*_):
            raise LookupError("ours")

        self.on(signal.SIGUSR1, handle)
        makefile = self.open(self.talker(LATE.format(name="SIGUSR1")))
        with self.assertRaisesRegex(LookupError, "ours"):
            makefile.text()
        self.assert_ended(makefile)

    def test_a_signal_handler_can_close_the_session(self):
        self.on(signal.SIGUSR1, lambda *_: makefile.close())
        makefile = self.open(self.talker(LATE.format(name="SIGUSR1")))
        with self.assertRaises(mkedit.Ended):
            makefile.text()
        self.assert_ended(makefile)

    def test_a_signal_handler_asks_nothing_within_a_call(self):
        told = []

        def handle(*_):
            try:
                makefile.undo()
            except mkedit.Ended as fault:
                told.append(fault)

        self.on(signal.SIGUSR1, handle)
        makefile = self.open(self.talker(LATE.format(name="SIGUSR1")))
        self.assertEqual(makefile.text(), "late\n")
        self.assertEqual((len(told), self.sent()), (1, "print\n"))
        makefile.undo()

    def test_an_interrupt_between_calls_ends_nothing(self):
        self.on(signal.SIGINT, signal.default_int_handler)
        makefile = self.open()
        with self.assertRaises(KeyboardInterrupt):
            with makefile.group():
                makefile.set("CC", "clang")
                signal.raise_signal(signal.SIGINT)
        self.assertEqual(makefile.text(), MAKEFILE)


if __name__ == "__main__":
    unittest.main()
