"""What git says of the folder that the repository lies in, where it is a checkout."""

import subprocess
from pathlib import Path

TOP = Path(__file__).resolve().parent.parent
# How many digits of a commit's name a program tells.
DIGITS = 12


def said(words, top):
    """What git says; None where there is no git, or it ends with another status than 0."""
    try:
        ran = subprocess.run(["git", "-C", top, *words], stdin=subprocess.DEVNULL, capture_output=True, text=True)
    except OSError:
        return None
    return ran.stdout.strip() if ran.returncode == 0 else None


def is_checkout(top):
    """Whether the folder is the top of a checkout, and not a folder in another one."""
    found = said(["rev-parse", "--show-toplevel"], top)
    return found is not None and Path(found).resolve() == Path(top).resolve()


def commit(top=TOP):
    """The first digits of the commit's name; None where the files are not those of a commit."""
    if not is_checkout(top) or said(["status", "--porcelain", "--untracked-files=no"], top) != "":
        return None
    name = said(["rev-parse", "HEAD"], top)
    return name and name[:DIGITS]


def time_of_commit(top=TOP):
    """When the last commit was made, in seconds since 1970; None outside a checkout."""
    told = said(["log", "-1", "--format=%ct"], top) if is_checkout(top) else None
    return int(told) if told else None
