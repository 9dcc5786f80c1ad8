"""The table of the inputs that are kept here: few and short ones that go where the fuzzer has been.

tests/cases/fuzzed.tsv has a makefile, a script and flags in each row, and no answers: the judge gives
them.
"""

import heapq
import os
import shutil
import subprocess

from tests.lib.tables import CASES, rows, unescape
from tests.soak.cases import USUAL_DEPTH, Case
from tests.soak.rows import column

from .inputs import QUERIES, case_of, input_of, is_plain

TABLE = "fuzzed"
COLUMNS = ("name", "makefile", "script", "flags")
LONGEST = 300
MOST = 300


def cases():
    """The name and the case of each row."""
    for _, row in rows(TABLE):
        flags = row["flags"].split()
        depth = int(flags[flags.index("-d") + 1]) if "-d" in flags else USUAL_DEPTH
        files = unescape(row["makefile"]), unescape(row["script"])
        yield row["name"], Case(*files, depth, "-k" in flags, QUERIES[0])


def inputs():
    """The rows as inputs."""
    found = (input_of(case) for _, case in cases())
    return [it for it in found if it is not None]


def edges_of(program, given, folder):
    """The edges that each input takes, by afl-showmap, however often it does."""
    shutil.rmtree(folder, ignore_errors=True)
    (folder / "given").mkdir(parents=True)
    for number, data in enumerate(given):
        (folder / "given" / f"{number:05}").write_bytes(data)
    words = ["afl-showmap", "-q", "-e", "-i", "given", "-o", "edges", "-t", "5000", "--", str(program)]
    how = {"stdout": subprocess.DEVNULL, "stderr": subprocess.STDOUT}
    env = {**os.environ, "AFL_QUIET": "1"}
    subprocess.run(words, cwd=folder, env=env, check=False, **how)
    return [
        frozenset((folder / "edges" / f"{number:05}").read_text().split())
        for number in range(len(given))
    ]


def small(program, given, folder):
    """Few short inputs that take the edges of all short ones, those first that add most."""
    given = {it for it in given if len(it) <= LONGEST and is_plain(it)}
    given = sorted(given, key=lambda it: (len(it), it))
    edges = edges_of(program, given, folder)
    # What an input adds gets less with each one chosen, so most stay where they are in the heap.
    heap = [(-len(it), number) for number, it in enumerate(edges)]
    heapq.heapify(heap)
    taken, chosen = set(), []
    while heap and len(chosen) < MOST:
        said, number = heap[0]
        adds = len(edges[number] - taken)
        if adds < -said:
            heapq.heapreplace(heap, (-adds, number))
        elif adds:
            chosen.append(given[heapq.heappop(heap)[1]])
            taken |= edges[number]
        else:
            break
    return chosen


def write(chosen):
    """Writes the table."""
    lines = ["\t".join(COLUMNS)]
    for number, data in enumerate(sorted(chosen, key=lambda it: (len(it), it)), 1):
        case = case_of(data)
        files = column(case.makefile), column(case.script)
        lines.append("\t".join([f"fuzzed-{number:03}", *files, " ".join(case.flags)]))
    (CASES / f"{TABLE}.tsv").write_text("\n".join(lines) + "\n", encoding="utf-8")
