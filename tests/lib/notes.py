"""Standard error where there are notes: a sentence stands there in the place of each line of a report."""

import re


def reported(stderr, script):
    """Standard error with the line of a report in the place of each sentence on a refusal of a script.

    Of a sentence only its form is known here: `script:3: error: .. [4 NoSuch]` stands for `3: refused 4
    NoSuch`. What it says is tested by tests/cases/sentences.tsv. A line of a report itself is none that is
    wanted, and is marked.
    """
    stderr = re.sub(rb"(?m)^(\S*\d+: refused )", rb"no sentence: ", stderr)
    place = b"-e " if script == "-e" else re.escape(script.encode()) + b":"
    return re.sub(rb"(?m)^%s(\d+): error: .+ \[(\d+ .+)\]$" % place, rb"\1: refused \2", stderr)
