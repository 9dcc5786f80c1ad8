"""Random work for the built program, for as long as you like.

Draws makefiles and scripts from a seed, runs the program over them, and compares what it prints with
the answers of a judge that shares no line with it; tests/soak/__init__.py says which module does what.
Prints the seed, how many cases were run, how many met each refusal and accepted each edit, and how many
had a diff. A case that differs is shrunk, and printed as a row for tests/cases; the status is 1 then.

    python3 -m tests.soak --minutes 15
    python3 -m tests.soak --seed 1790000000 --first 4711 --cases 1     one case again
"""

import multiprocessing
import os
import sys
import time
from collections import Counter

from tests.lib.checks import command
from tests.lib.rooms import Room

from .work import Work, numbers, table_of

# A process ends after this number of cases that differ: they most often have one cause.
MOST_DIFFERENCES = 3


def arguments():
    parser = command("tests.soak", "Random work for the built program mkedit.")
    parser.add_argument("--minutes", type=float, default=1, help="how long (default: 1)")
    parser.add_argument("--cases", type=int, help="how many cases at most (default: no limit)")
    parser.add_argument("--seed", help="the seed (default: from the clock)")
    parser.add_argument("--first", type=int, default=0, help="the first case (default: 0)")
    parser.add_argument("--processes", type=int, default=os.cpu_count(), help="how many processes")
    return parser.parse_args()


def share(given, seed, index):
    """One process's share. Hands out how many cases it ran, what they met, and how many differ."""
    with Room(given.program) as room:
        work, differing = Work(room, seed), 0
        end = time.monotonic() + 60 * given.minutes
        for number in numbers(given.first, index, given.processes, given.cases):
            if time.monotonic() > end or differing == MOST_DIFFERENCES:
                break
            difference = difference_of(work, number)
            if difference:
                differing += 1
                print("\n".join(difference), flush=True)
        return work.count, work.met, differing


def difference_of(work, number):
    """How a case differs, below a line that names it. A fault of the judge names it too."""
    name = f"case {number} of the seed {work.seed}"
    try:
        difference = work.difference(number)
    except Exception as fault:
        raise RuntimeError(name) from fault
    return difference and [f"DIFFERS {name}", *difference]


def main():
    given = arguments()
    seed = given.seed or str(int(time.time()))
    print(f"seed {seed}", flush=True)
    with multiprocessing.Pool(given.processes) as pool:
        shares = pool.starmap(share, [(given, seed, it) for it in range(given.processes)])
    counts, met, differing = zip(*shares)
    print("\n".join([f"cases {sum(counts)}", *table_of(sum(met, Counter()))]))
    print(f"differing {sum(differing)}")
    return 1 if sum(differing) else 0


if __name__ == "__main__":
    sys.exit(main())
