#!/usr/bin/env python3
"""Writes a script of many `set` for a makefile, and the text that it has to give.

    make_sets.py COUNT MAKEFILE SCRIPT WANTED

It cuts the list of the makefile's variables into COUNT equal parts, and picks the last one of each, so
where COUNT is 1 the last of all. Each has a name of its own, as those of make_makefile.py have. It is
a process of its own, so that the bench stays small: see shared.cost().
"""

import re
import sys
from functools import partial
from pathlib import Path

SETTING = re.compile(rb"(?m)^([A-Z][A-Z0-9_]*) ([:?+]*=) [^\\\n#]*$")


def changed(chosen, setting):
    """The line of a setting with its new value, if it has one."""
    return b"%s %s value" % setting.groups() if setting[1] in chosen else setting[0]


def main():
    count, makefile, script, wanted = int(sys.argv[1]), *map(Path, sys.argv[2:])
    text = makefile.read_bytes()
    names = [name for name, _ in SETTING.findall(text)]
    if len(names) < count:
        sys.exit(f"make_sets.py: the makefile has only {len(names)} such lines")
    chosen = [names[(it + 1) * len(names) // count - 1] for it in range(count)]
    script.write_bytes(b"".join(b"set %s value\n" % name for name in chosen))
    wanted.write_bytes(SETTING.sub(partial(changed, set(chosen)), text))


if __name__ == "__main__":
    main()
