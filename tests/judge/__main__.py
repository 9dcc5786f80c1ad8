"""Has GNU make judge mkedit: fixed and random makefiles, and examples/makefiles, before and after edits.

make prints its data base of a makefile before and after an edit (database.py), and both have to be
what the reading of mkedit and the stated change of the edit let expect (expected.py, stated.py). What
differs is in a group of groups.py, where make is known to read otherwise, or it is a finding: it is
shrunk and printed as a row, and the status is 1.

    python3 -m tests.judge --minutes 15
"""

import random
import sys
import time

from tests.lib.checks import command
from tests.lib.rooms import Room

from .cases import Counts, check_fixed, examples, random_cases
from .database import Make
from .verdicts import Judge


def arguments():
    parser = command("tests.judge", "Has GNU make judge the edits of mkedit.")
    parser.add_argument("--minutes", type=float, default=1, help="how long (default: 1)")
    parser.add_argument("--makefiles", type=int, help="how many random makefiles, in place of minutes")
    parser.add_argument("--seed", type=int, help="of the random makefiles (default: a random one)")
    return parser.parse_args()


def cases(given, seed):
    """The examples, then random makefiles until the time or the number is reached."""
    yield from examples(seed)
    end = time.monotonic() + 60 * given.minutes
    for number, case in enumerate(random_cases(seed)):
        if number >= given.makefiles if given.makefiles is not None else time.monotonic() > end:
            return
        yield case


def main():
    given = arguments()
    seed = random.randrange(10**9) if given.seed is None else given.seed
    with Make() as make, Room(given.program) as room:
        if not make.is_gnu():
            sys.exit("GNU make 4 is not there")
        print("seed {}, GNU make {}.{}".format(seed, *make.version()), flush=True)
        counts = Counts(Judge(room, make))
        problems = check_fixed(counts.judge)
        for problem in problems:
            print(f"FOUND {problem}", flush=True)
        for case in cases(given, seed):
            for row in counts.take(*case):
                print(f"FOUND {row}", flush=True)
    print("\n".join(counts.table()))
    return 1 if problems or counts.found() else 0


if __name__ == "__main__":
    sys.exit(main())
