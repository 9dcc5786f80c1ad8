"""The tests of mkedit. They are run at the top of the repository, as `python3 -m tests.program`.

    gate/          what has to pass before a change lands: tests.gate
    program/       tests of the built program, as unittest cases: tests.program runs them all
    hostile/       hostile texts of full size, memory that ends, valgrind: tests.hostile
    soak/          random work beside a judge in Python: tests.soak
    fuzz/          a fuzzer with feedback: tests.fuzz
    judge/         GNU make as the judge of edits: tests.judge
    lib/           what several of these share
    cases/         tables of cases
    definitions/   scripts that make rows of the tables, for the prover to compute
"""

import sys
from pathlib import Path

TOP = Path(__file__).resolve().parent.parent

# So that no __pycache__ is left.
sys.dont_write_bytecode = True
