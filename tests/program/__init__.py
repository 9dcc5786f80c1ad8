"""Tests of the built program as its user meets it: standard output, standard error and exit status.

They are unittest cases, each in a room of its own (tests/lib/rooms.py). A table, a document or random
work is one test, and each of its cases a subtest.

    python3 -m tests.program [PROGRAM]                           all of them
    python3 -m unittest tests.program.test_in_place              those of a file
    python3 -m unittest tests.program.test_in_place.InPlace.test_the_mode_stays

The program is $MKEDIT, else the one that `make` builds. Expected values come from the definitions of
the project, never from the program.
"""
