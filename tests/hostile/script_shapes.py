"""Hostile scripts of any size over a small makefile, and what docs/EDITS.md says of each."""

from .scenes import Job, Scene

MAKEFILE = b"CC = gcc # c\nall: a\n\tb\n"
SET = MAKEFILE.replace(b"gcc", b"clang")


def job(name, script, out=MAKEFILE, report=(), status=0, flags=()):
    """A job over the small makefile; what comes out is pieces, or bytes."""
    out = [(out, 1)] if isinstance(out, bytes) else out
    return Job(name, ("edit", *flags), script, out, list(report), status)


def no_command(name, *script, line=1):
    """A script one line of which is no command."""
    message = b"mkedit: script line %d is not a command\n" % line
    return job(name, list(script), b"", [(message, 1)], 2)


def refused(name, *script, report):
    """A script whose first command is refused."""
    return job(name, list(script), b"", [(b"1: refused " + report, 1)], 1)


def valued(unit, count):
    """The makefile with a unit over and over for CC's value."""
    return [(b"CC = ", 1), (unit, count), (MAKEFILE[len(b"CC = gcc") :], 1)]


def quotes(size):
    """Quotes that are never closed, and quotes that are none."""
    yield no_command("a quote never closed", (b'set CC "', 1), (b"a", size))
    yield no_command("escapes, a quote never closed", (b'set CC "', 1), (b'\\"', size // 2))
    lines = [(b"# one\n", 1), (b'set CC "', 1), (b" ", size)]
    yield no_command("blanks, a quote never closed", *lines, line=2)
    yield no_command("a quote in a field", (b'set CC "a"', 1), (b"a", size))
    yield no_command("empty fields", (b'"" ', size // 3))


def words(size):
    """One line of one field or of many."""
    yield no_command("one word", (b"x", size))
    yield no_command("words", (b"x ", size // 2))
    yield no_command("NUL", (b"\0", size))
    yield no_command("digits", (b"nth ", 1), (b"0", size), (b"1 set CC clang\n", 1))
    yield job("blanks", [(b" ", size)])
    yield job("blanks in a command", [(b"set", 1), (b" ", size), (b"CC clang", 1)], SET)


def lines(size):
    """Lines that are no commands, and are skipped."""
    yield job("one comment", [(b"#", size), (b"\nset CC clang\n", 1)], SET)
    yield job("comments", [(b"#\n", size // 2), (b"set CC clang\n", 1)], SET)
    yield job("empty lines", [(b"\n", size), (b"set CC clang", 1)], SET)
    yield job("CR LF lines", [(b"\r\n", size // 2), (b"set CC clang\r\n", 1)], SET)


def long_fields(size):
    """Fields of many bytes, of which an edit takes one or refuses it."""
    yield job("a long value", [(b"set CC ", 1), (b"x", size)], valued(b"x", size))
    half = size // 2
    yield job("escaped quotes", [(b'set CC "', 1), (b'\\"', half), (b'"', 1)], valued(b'"', half))
    report = b"1 BadArgument value\n"
    yield refused("backslashes", (b'set CC "', 1), (b"\\\\", half), (b'"', 1), report=report)
    yield refused("open references", (b"set CC ", 1), (b"$(", half), report=report)
    yield refused("hashes", (b"set CC ", 1), (b"#", size), report=report)
    closed = [(b"$(", half // 2), (b")", half // 2)]
    out = [(b"CC = ", 1), *closed, (MAKEFILE[len(b"CC = gcc") :], 1)]
    yield job("closed references", [(b"set CC ", 1), *closed], out)
    out = [(MAKEFILE, 1), (b"t ", half - 1), (b"t:\n", 1)]
    yield job("targets", [(b'rule bottom "', 1), (b"t ", half), (b'" : ""\n', 1)], out)
    out = [(MAKEFILE, 1), (b"t:", 1), (b" p", half), (b"\n", 1)]
    yield job("prerequisites", [(b'rule bottom t : "', 1), (b"p ", half), (b'"\n', 1)], out)
    out = [(MAKEFILE, 1), (b"\t", 1), (b"x", size), (b"\n", 1)]
    yield job("a long recipe line", [(b"recipe all ", 1), (b"x", size)], out)
    out = [(b"CC = gcc # c\n", 1), (b"x", size), (b": a\n\tb\n", 1)]
    yield job("a long new name", [(b"rename all ", 1), (b"x", size)], out)


def blocks(size):
    """Blocks of many lines, of long lines or without an end, and very many blocks."""
    head, half = (b"insert bottom <<E\n", 1), size // 2
    yield job("lines of a block", [head, (b"#\n", half), (b"E\n", 1)], [(MAKEFILE, 1), (b"#\n", half)])
    yield job("empty lines of a block", [head, (b"\n", size), (b"E\n", 1)], [(MAKEFILE, 1), (b"\n", size)])
    yield job("a long line of a block", [head, (b"#", size), (b"\nE\n", 1)], [(MAKEFILE, 1), (b"#", size), (b"\n", 1)])
    yield job("lines nearly the word", [head, (b"E \n", size // 3), (b"E", 1)], [(MAKEFILE, 1), (b"E \n", size // 3)])
    word = [(b"E", half), (b"\n", 1)]
    yield job("a long word", [(b"insert top <<", 1), *word, (b"#\n", 1), *word], b"#\n" + MAKEFILE)
    yield no_command("a block without an end", head, (b"#\n", half))
    mark = [(b"<", size), (b"\n", 1)]  # (no word behind `<<`: this is a line as any other)
    yield job("marks without words", [(b"insert top ", 1), *mark], [*mark, (MAKEFILE, 1)])
    yield no_command("marks", (b"line-remove", 1), (b" <<E", size // 4), (b"\n", 1))
    yield job("blocks", [(b"insert bottom <<E\n#\nE\nundo\n", size // 27)])


def no_undo(at):
    """The report of the refused `undo` of a line."""
    return b"%d: refused 16 NothingToUndo\n" % (at + 1)


def commands(size):
    """Very many commands, on a makefile where each takes no time."""
    count = size // 5
    yield job("undo", [(b"undo\n", count)], report=[(no_undo, count)], status=1, flags=("-k",))
    yield job("set", [(b"set CC clang\n", size // 13)], SET)
    yield job("set and undo", [(b"set CC clang\nundo\n", size // 18)])
    yield job("begin and end", [(b"begin\nend\n", size // 10)])
    group = [(b"begin\n", 1), (b"set CC clang\n", size // 13)]
    yield job("one group", group, SET)
    yield job("one group, undone", [*group, (b"end\nundo\n", 1)])
    yield job("one group, cancelled", [*group, (b"cancel\n", 1)])


def scenes(size):
    """A scene for each script of about so many bytes."""
    for jobs in (quotes, words, lines, long_fields, blocks, commands):
        for it in jobs(size):
            yield Scene(f"script: {it.name}", [(MAKEFILE, 1)], [it])
