"""A fuzzer with feedback over mkedit: afl-fuzz of afl++, for as long as you like.

Builds the program with a count at each edge of its code and with traps where something is undefined
(target.py), and has afl-fuzz run it over scripts and makefiles: no run may crash, hang or end
with a status that it may not have, and the makefile has to come out where all is undone. Then the built
program runs over each input that afl-fuzz kept, and a judge in Python that shares no line with it says
what has to come, as in tests.soak. What differs is shrunk and printed as a row. The status is 1 where
anything was found.

    python3 -m tests.fuzz --minutes 60
    python3 -m tests.fuzz --minutes 60 --write      and puts few of the inputs into tests/cases/fuzzed.tsv

afl-fuzz takes one processor, the judge all. afl-fuzz begins with short inputs from the tables of
tests/cases, fuzzed.tsv among them. It is in the package afl++ of Debian; rt has to be in PATH.
"""

import contextlib
import multiprocessing
import os
import shutil
import sys
import tempfile
import time
from pathlib import Path

from tests.lib.checks import command
from tests.lib.rooms import Room
from tests.soak.rows import column
from tests.unproved import NotBuilt

from . import corpus, target
from .campaign import Campaign
from .inputs import case_of, difference

NEEDED = ("afl-fuzz", "afl-clang-fast", "afl-showmap", "afl-tmin")
# A process of the judge ends after this number of inputs that differ: they most often have one cause.
MOST_DIFFERENCES = 3


def arguments():
    parser = command("tests.fuzz", "Runs afl-fuzz over mkedit.")
    parser.add_argument("--minutes", type=float, default=1, help="how long (default: 1)")
    parser.add_argument("--seed", type=int, help="the seed of afl-fuzz (default: from the clock)")
    parser.add_argument("--write", action="store_true", help="write tests/cases/fuzzed.tsv")
    folder = "keep what is built and found in this folder (default: keep nothing)"
    parser.add_argument("--folder", type=Path, help=folder)
    processes = "how many processes judge"
    parser.add_argument("--processes", type=int, default=os.cpu_count(), help=processes)
    return parser.parse_args()


@contextlib.contextmanager
def working_folder(given):
    """The folder that is kept, or one that is removed."""
    if given.folder is None:
        with tempfile.TemporaryDirectory(prefix="mkedit-fuzz-") as folder:
            yield Path(folder)
    else:
        given.folder.mkdir(parents=True, exist_ok=True)
        yield given.folder.resolve()


def counts_of(campaign):
    """What afl-fuzz counted, in words."""
    found = campaign.statistics()
    return (
        f"afl-fuzz: {int(found['execs_done']):,} inputs in {int(found['run_time']) // 60} minutes, "
        f"{int(found['corpus_count']):,} kept, which take {int(found['edges_found']):,} of "
        f"{int(found['total_edges']):,} edges (stability {found['stability']}); "
        f"crashes {len(campaign.found('crashes'))}, hangs {len(campaign.found('hangs'))}"
    )


def ill_ends(campaign):
    """What is to be said of the inputs that crash or hang, made small, if they still do."""
    for data in campaign.found("crashes") + campaign.found("hangs"):
        how = campaign.ends_ill(data)
        if how:
            yield f"FOUND {how}: {column(campaign.made_small(data))}"


def share(given, inputs, index):
    """One process's share of the judge's work. Hands out how many inputs it judged, how many differ."""
    judged = differing = 0
    with Room(given.program) as room:
        for number in range(index, len(inputs), given.processes):
            if differing == MOST_DIFFERENCES:
                break
            judged += 1
            try:
                found = difference(room, f"fuzz-{number}", case_of(inputs[number]))
            except Exception as fault:
                raise RuntimeError(f"the judge on {column(inputs[number])}") from fault
            if found:
                differing += 1
                print("\n".join([f"DIFFERS {column(inputs[number])}", *found]), flush=True)
    return judged, differing


def judge(given, inputs):
    """Has the judge judge the program on inputs. Hands out how many differ."""
    with multiprocessing.Pool(given.processes) as pool:
        shares = pool.starmap(share, [(given, inputs, it) for it in range(given.processes)])
    judged, differing = map(sum, zip(*shares))
    print(f"the judge: {judged:,} inputs, differing {differing}", flush=True)
    return differing


def fuzz(given, folder):
    """Builds, fuzzes, judges. Hands out how much was found."""
    seed = int(time.time()) if given.seed is None else given.seed
    print(f"seed {seed}", flush=True)
    campaign = Campaign(folder / "campaign", target.built(folder / "target"))
    campaign.run(given.minutes, seed)
    print(counts_of(campaign), flush=True)
    ends = list(dict.fromkeys(ill_ends(campaign)))
    print("".join(f"{it}\n" for it in ends), end="", flush=True)
    kept = campaign.found("queue")
    differing = judge(given, kept + campaign.found("crashes") + campaign.found("hangs"))
    if given.write:
        chosen = corpus.small(campaign.program, kept, folder / "corpus")
        corpus.write(chosen)
        print(f"tests/cases/{corpus.TABLE}.tsv has {len(chosen)} of them", flush=True)
    return len(ends) + differing


def main():
    given = arguments()
    if not all(map(shutil.which, NEEDED)):
        sys.exit("afl++ is not installed: on Debian it is the package afl++ (apt install afl++)")
    with working_folder(given) as folder:
        try:
            return 1 if fuzz(given, folder) else 0
        except (NotBuilt, OSError) as fault:
            sys.exit(f"fuzz: {fault}")


if __name__ == "__main__":
    sys.exit(main())
