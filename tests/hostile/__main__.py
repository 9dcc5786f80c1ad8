"""Hostile use at full size: shapes of 16 MB, memory that ends, and valgrind. Some minutes long.

    python3 -m tests.hostile [--rounds N] [--only WORD] [--share K/N] [PROGRAM]

1. Every job over every shape of makefile_shapes.py and script_shapes.py, with 4 and with 16 MB and
   a stack of 1 MiB. Each output is compared with what has to come; and the processor time, the
   least of the runs, and the peak of memory may grow at most fivefold. Prints a table.
2. Rows under an address space that grows in steps (address_space.py).
3. Rows under valgrind, where it is installed (memcheck.py).

A check that fails has one line; the last line is 'N passed, M failed', and the status is 0 only
where nothing failed. --only names one part (`shapes`, `memory`, `valgrind`), or a word that is in
the names of the shapes to be run. --share 2/3 runs the second shape of each three, so that three
processes can share the shapes, and no other part.
"""

import sys

from tests.lib.checks import Tally, command

from . import address_space, large_shapes, memcheck

# The program as rt links it.
BUILT = "crates/mkedit/out/mkedit"
PARTS = ("shapes", "memory", "valgrind")


def share_of(word):
    """The two numbers of a share, as `2/3`."""
    number, _, count = word.partition("/")
    if not 1 <= int(number) <= int(count):
        raise ValueError(word)
    return int(number), int(count)


def arguments():
    parser = command("tests.hostile", "Tests mkedit with hostile texts of 16 MB.", BUILT)
    rounds = "runs of each job beside the first (default: 1)"
    parser.add_argument("--rounds", type=int, default=1, help=rounds)
    only = "shapes, memory, valgrind, or a word of a shape's name"
    parser.add_argument("--only", metavar="WORD", help=only)
    share = "every N-th shape, from the K-th on, and nothing else"
    parser.add_argument("--share", type=share_of, metavar="K/N", help=share)
    return parser.parse_args()


def main():
    given = arguments()
    tally = Tally()
    chosen = (given.only,) if given.only in PARTS else PARTS if given.only is None else ()
    if given.share:
        chosen = ("shapes",)
    if "shapes" in chosen or not chosen:
        word = "" if chosen else given.only
        large_shapes.run(given.program, tally, given.rounds, word, given.share or (1, 1))
    if "memory" in chosen:
        address_space.run(given.program, tally)
    if "valgrind" in chosen:
        memcheck.run(given.program, tally)
    print(tally)
    return 1 if tally.failed else 0


if __name__ == "__main__":
    sys.exit(main())
