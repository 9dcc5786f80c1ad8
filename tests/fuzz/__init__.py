"""A fuzzer with feedback over mkedit: afl-fuzz, and the judge of tests/soak for each input that it keeps.

afl-fuzz changes inputs at random, and keeps one that takes the program along an edge of its code that
no input took before, or takes it more often. So it finds its way into corners that nobody drew.

    inputs.py      an input as bytes and as a case, and what is wrong with the program's runs of it
    seeds.py       what afl-fuzz begins with: inputs from the tables, and a dictionary
    corpus.py      the table of the inputs that are kept here, and how it is made small
    target.py      builds what afl-fuzz runs: the program with a count at each edge, and harness.c
    harness.c      runs the program over one input after another, in one process
    campaign.py    a run of afl-fuzz, and what it says of itself
"""
