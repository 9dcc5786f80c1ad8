"""An input of the fuzzer: a script, a line `%%`, and a makefile. harness.c says it in full."""

import re

from tests.lib import reading
from tests.soak.cases import USUAL_DEPTH, Case, problems_of, wrong_query
from tests.soak.rows import rows_of
from tests.soak.shrinking import shrunk

SEPARATOR = re.compile(rb"^%%([1-9]?)(![0-9]{1,3})?\n", re.M)
QUERIES = list(reading.QUERIES)


def is_plain(data):
    """Whether no growth of memory is refused in an input's runs."""
    found = SEPARATOR.search(data)
    return not (found and found[2])


def case_of(data):
    """The case that an input stands for, with ample memory. Without a separator it is a makefile."""
    found = SEPARATOR.search(data)
    if not found:
        return Case(data, b"", USUAL_DEPTH, True, QUERIES[0])
    depth = int(found[1]) if found[1] else USUAL_DEPTH
    return Case(data[found.end() :], data[: found.start()], depth, True, QUERIES[0])


def input_of(case):
    """The input that stands for a case, where there is one, else None."""
    script = case.script + b"\n" * (case.script[-1:] not in (b"", b"\n"))
    depth = b"" if case.depth == USUAL_DEPTH else b"%d" % case.depth
    alone, both = case.makefile, script + b"%%" + depth + b"\n" + case.makefile
    wanted = (case.makefile, script, case.depth)
    return next((it for it in (alone, both) if it and case_of(it)[:3] == wanted), None)


def problems_in(room, case):
    """What is wrong with the program's runs of a case, and with each query of its makefile."""
    problems = problems_of(room, case, case.verdict)
    for query in QUERIES:
        if query != case.query:
            problems += wrong_query(room, query, "Makefile", case.makefile)
    return problems


def wrong(room, case):
    """The case with a query by which something is wrong, and what; or None."""
    verdict = case.verdict
    for query in QUERIES:
        asked = case._replace(query=query)
        problems = problems_of(room, asked, verdict)
        if problems:
            return asked, problems
    return None


def difference(room, name, case):
    """How the program's runs of a case differ from the judge's, once it is shrunk, with its rows."""
    found = wrong(room, case)
    if not found:
        return []
    small = shrunk(found[0], lambda it: bool(problems_of(room, it, it.verdict)))
    problems = problems_of(room, small, small.verdict)
    return [*problems, *rows_of(name, small, problems)]
