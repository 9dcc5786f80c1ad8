"""A case as rows of tests/cases: what has to come of its run, and of a query that differs."""

from .judge import answered

ESCAPES = {9: "\\t", 10: "\\n", 13: "\\r", 92: "\\\\"}


def column(text):
    """A text as a column has it."""
    plain = range(0x20, 0x7F)
    return "".join(ESCAPES.get(it) or (chr(it) if it in plain else f"\\x{it:02x}") for it in text)


def rows_of(name, case, problems):
    """The row of the run, and one for each query that differs; before them what the judge left out."""
    out, err, status = case.verdict.outcome
    makefile, flags = column(case.makefile), " ".join(case.flags)
    rows = [[name, makefile, column(case.script), flags, column(out), column(err), str(status)]]
    for file, text in (("Makefile", case.makefile), ("edited", out)):
        if any(it.startswith(f"{case.query} of {file}:") for it in problems):
            rows.append([name, case.query, column(text), column(answered(case.query, text).stdout)])
    return [*left_out(case), *("\t".join(row) for row in rows)]


def left_out(case):
    """Says what the program got beside the makefile of the row."""
    if case.padding:
        yield f"with {case.padding} bytes # before each makefile and text:"
    if case.filling:
        yield f"with the lines of {case.filling} between those of the makefile:"
