"""A terminal with a user at its other side."""

import contextlib
import os
import pty
import termios
import tty

END, INTERRUPT = b"\x04", b"\x03"


@contextlib.contextmanager
def terminal(lines=True):
    """A terminal's two sides, the user's first; it gives whole lines, and shows none of them."""
    user, program = pty.openpty()
    tty.setraw(program)
    if lines:
        modes = termios.tcgetattr(program)
        modes[3] |= termios.ICANON | termios.ISIG
        modes[6][termios.VEOF], modes[6][termios.VINTR] = END, INTERRUPT
        termios.tcsetattr(program, termios.TCSANOW, modes)
    try:
        yield user, program
    finally:
        os.close(program)
        with contextlib.suppress(OSError):
            os.close(user)


def all_shown(user, program):
    """All that a terminal was shown: closes the program's side, and reads the user's to its end."""
    null = os.open(os.devnull, os.O_RDWR)
    os.dup2(null, program)
    os.close(null)
    found = b""
    # (the end of a terminal is an error)
    with contextlib.suppress(OSError):
        while part := os.read(user, 10_000):
            found += part
    return found
