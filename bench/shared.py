"""What the benches share: the texts, which they make where they are not there yet, and the cost of a command."""

import os
import resource
import shutil
import signal
import statistics
import subprocess
import time
from pathlib import Path

BENCH = Path(__file__).resolve().parent
DATA = BENCH / "data"
SEED = 1
# The largest leaves an edit room below mkedit's limit, 16,777,216 bytes.
LARGE, QUARTER, SMALL, START = 16_000_000, 4_000_000, 300_000, 3_000
GREATEST_RATIO = 5
# sed and cat are fastest, so hardest to keep up with, where a character is a byte.
ENVIRONMENT = {**os.environ, "LC_ALL": "C"}
SED = ["sed", "s/^CC = .*/CC = clang/"]
# How many seconds each round may wait until the machine is quiet: PATIENCE=60 bench/aims
PATIENCE = float(os.environ.get("PATIENCE", "0"))


# A static program starts sooner.
RUSTC = "rustc -O -C codegen-units=1 -C panic=abort -C target-feature=+crt-static --edition 2024".split()


def is_made(path, *sources):
    """Whether a file is there, and none of what it is made from is younger."""
    return path.exists() and all(it.stat().st_mtime <= path.stat().st_mtime for it in sources)


def text_of(kind, size):
    """The file with the text, made where it is not there yet, or made by an older generator.

    Another process makes it, so that this one stays small: see cost().
    """
    DATA.mkdir(exist_ok=True)
    path = DATA / f"{kind}-{size}"
    made_by = BENCH / "make_makefile.py"
    if not is_made(path, made_by):
        new = DATA / "new-text"
        with open(new, "wb") as out:
            subprocess.run([made_by, "--kind", kind, str(SEED), str(size)], stdout=out, check=True)
        new.replace(path)
    return path


def built(name):
    """The program of the folder NAME_program, which rustc builds where a source of such a folder is younger."""
    program = DATA / name
    if not shutil.which("rustc"):
        raise SystemExit(f"{name}: there is no rustc")
    if not is_made(program, Path(__file__), *BENCH.glob("*_program/*.rs")):
        subprocess.run([*RUSTC, BENCH / f"{name}_program/main.rs", "-o", program], check=True)
    return program


def cost(words, out=os.devnull, bound=None):
    """Runs a command, and returns its processor time in seconds and its peak of memory in bytes.

    What it puts out goes into the file `out`. The kernel counts into the peak what this process had
    resident when it started the command, some 10 MB, so the peak is only told of the large texts.

    A command that takes the processor for so many seconds as the bound is killed, and costs None.
    """
    flags = os.O_WRONLY | os.O_CREAT | os.O_TRUNC
    to_out = [(os.POSIX_SPAWN_OPEN, 1, str(out), flags, 0o666)]
    words = [str(it) for it in words]
    pid = os.posix_spawnp(words[0], words, ENVIRONMENT, file_actions=to_out)
    if bound:
        resource.prlimit(pid, resource.RLIMIT_CPU, (bound, bound))
    _, status, used = os.wait4(pid, 0)
    seconds = used.ru_utime + used.ru_stime
    if bound and status == signal.SIGKILL and seconds > bound - 1:
        return None
    if status:
        raise SystemExit(f"{' '.join(words)} ended with the wait status {status}")
    return seconds, used.ru_maxrss * 1024


class Pace:
    """How fast a loop runs that only counts. Where others use the processors too, that is at times half as fast."""

    def __init__(self):
        self.full = 0.0

    def look(self):
        """How often the loop turns in a second, seen for 2 milliseconds."""
        turns, begun = 0, time.perf_counter()
        while (passed := time.perf_counter() - begun) < 0.002:
            turns += 1
        return turns / passed

    def is_full(self):
        """Whether the loop runs as fast as it ever did, or nearly so, for most of 40 milliseconds."""
        looks = [self.look() for _ in range(20)]
        self.full = max(self.full, *looks)
        return statistics.median(looks) > 0.95 * self.full

    def wait(self):
        """Waits until the machine is quiet, but no longer than PATIENCE."""
        ends = time.monotonic() + PATIENCE
        while time.monotonic() < ends and not self.is_full():
            time.sleep(0.1)


PACE = Pace()


def best(commands, rounds):
    """The least time and the greatest peak of each command, over rounds in which each runs once."""
    runs = []
    for _ in range(rounds):
        PACE.wait()
        runs.append([cost(it) for it in commands])
    return [(min(time for time, _ in each), max(peak for _, peak in each)) for each in zip(*runs)]


def in_a_row(commands, starts, rounds):
    """The time of many runs of each command in a row, the least over rounds in which each has its turn."""
    sums = []
    for _ in range(rounds):
        PACE.wait()
        sums.append([sum(cost(it)[0] for _ in range(starts)) for it in commands])
    return [min(it) for it in zip(*sums)]


def milliseconds(seconds):
    return f"{seconds * 1000:.1f}"


def row(*columns):
    print(f"| {' | '.join(columns)} |", flush=True)
