"""Texts of many bytes that are never held whole: lists of pieces.

A piece is a unit and how often it stands there. The unit is some bytes, or a function from the
number of each time, counted from 0, to the bytes that stand there then.
"""

CHUNK = 65_536


def chunks(pieces):
    """The bytes of pieces in their order, cut so that no cut is much longer than CHUNK."""
    for unit, count in pieces:
        many = 1_000 if callable(unit) else max(1, CHUNK // max(1, len(unit)))
        for first in range(0, count, many):
            times = range(first, min(first + many, count))
            yield b"".join(map(unit, times)) if callable(unit) else unit * len(times)


def whole(pieces):
    """All bytes of pieces, for those that are few."""
    return b"".join(chunks(pieces))


def write(path, pieces):
    """Writes a file that holds pieces."""
    with open(path, "wb") as file:
        file.writelines(chunks(pieces))


def is_held(path, pieces):
    """Whether a file holds exactly the bytes of pieces."""
    with open(path, "rb") as file:
        return all(file.read(len(it)) == it for it in chunks(pieces)) and not file.read(1)
