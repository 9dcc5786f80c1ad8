"""Every job over hostile makefiles and scripts of 4 and of 16 MB: output, time, memory and stack.

This process holds no large text, since the kernel counts what it had resident when it started a
program into that program's peak.
"""

import os
import resource
import tempfile
from pathlib import Path
from typing import NamedTuple

from bench.shared import GREATEST_RATIO, LARGE, QUARTER, milliseconds, row
from tests.lib.checks import small_stack

from . import makefile_shapes, pieces, script_shapes
from .scenes import QUERIES

# The greatest processor time of one run, in seconds; the kernel ends a longer one.
GREATEST_TIME = 300
# So many rounds more may show that a time was the machine's other work.
MORE_ROUNDS = 12
# What is shorter, in seconds, or less, in bytes, is not told from noise. Past some 8 MB a text does
# not stay in the processor's cache, so a job whose time is a few passes over it grows by more than
# four: one that takes 50 ms for the whole is quick, however it grows.
LEAST_TIME, LEAST_PEAK = 0.010, 16_000_000
MAKEFILE_COLUMNS = (
    f"Makefile, {LARGE:,} bytes",
    "no command, ms",
    "slowest edit, ms",
    "slowest query, ms",
    "greatest ratio to a quarter",
    "greatest peak, in texts",
)
SCRIPT_COLUMNS = (
    f"Script, {LARGE:,} bytes",
    "ms",
    "ratio to a quarter",
    "peak, in scripts",
)


class Ran(NamedTuple):
    """What a run gave: its exit status, below 0 the signal that ended it, and what it took."""

    status: int
    seconds: float
    peak: int


class Measured(NamedTuple):
    """A job with 4 and with 16 MB: the least times, and the peaks."""

    name: str
    quarter: Ran
    whole: Ran

    def ratio(self):
        """The ratio that is shown: of the times as they were measured."""
        return self.whole.seconds / self.quarter.seconds

    def judged_ratio(self):
        """The ratio that is judged, in which a quarter takes LEAST_TIME at least."""
        return self.whole.seconds / max(self.quarter.seconds, LEAST_TIME)

    def growth(self):
        """How many times the memory the whole takes, above what a small run takes."""
        return self.whole.peak / max(self.quarter.peak, LEAST_PEAK)


class Site(NamedTuple):
    """A folder in which the jobs of a scene run."""

    program: Path
    folder: Path

    def prepare(self, job):
        """Writes the job's script, and returns the words of the run."""
        if job.script is None:
            return [str(self.program), *job.words, str(self.folder / "text")]
        pieces.write(self.folder / "job", job.script)
        return [str(self.program), *job.words, str(self.folder / "job"), str(self.folder / "text")]

    def run(self, words, out=os.devnull, report=os.devnull):
        """Runs the program, with its outputs to files."""
        flags = os.O_WRONLY | os.O_CREAT | os.O_TRUNC
        to = [(os.POSIX_SPAWN_OPEN, at, str(it), flags, 0o600) for at, it in ((1, out), (2, report))]
        pid = os.posix_spawn(words[0], words, os.environ, file_actions=to)
        resource.prlimit(pid, resource.RLIMIT_CPU, (GREATEST_TIME, GREATEST_TIME + 1))
        _, status, used = os.wait4(pid, 0)
        ended = -os.WTERMSIG(status) if os.WIFSIGNALED(status) else os.WEXITSTATUS(status)
        return Ran(ended, used.ru_utime + used.ru_stime, used.ru_maxrss * 1024)

    def tried(self, job):
        """Runs a job once, and returns what it took and what is wrong with what comes."""
        out, report = self.folder / "out", self.folder / "report"
        ran = self.run(self.prepare(job), out, report)
        wrong = [f"status {ran.status}, wanted {job.status}"] if ran.status != job.status else []
        for path, wanted in ((out, job.out), (report, job.report)):
            if not pieces.is_held(path, wanted):
                with open(path, "rb") as file:
                    start = file.read(80)
                wrong.append(f"the {path.name} has {path.stat().st_size} bytes: {start!r} ..")
            path.unlink()
        return ran, wrong


def site(program, folder, name, scene):
    """A new folder with the scene's makefile."""
    (folder / name).mkdir()
    pieces.write(folder / name / "text", scene.makefile)
    return Site(program.path, folder / name)


def better(ran, other):
    """The least time of two runs, and the greater peak."""
    return Ran(ran.status, min(ran.seconds, other.seconds), max(ran.peak, other.peak))


def measured(sites, jobs, rounds, firsts):
    """Measures a job at both sizes, in turn: for longer where it seems to grow too much, since the
    machine may have other work."""
    lines = [it.prepare(job) for it, job in zip(sites, jobs)]
    runs = list(firsts)
    for number in range(rounds + MORE_ROUNDS):
        found = Measured(jobs[0].name, *runs)
        if number >= rounds and found.judged_ratio() <= GREATEST_RATIO:
            break
        runs = [better(ran, it.run(line)) for ran, it, line in zip(runs, sites, lines)]
    return Measured(jobs[0].name, *runs)


def judge(sites, jobs, name, rounds, tally):
    """Tries a job at both sizes, and measures it where what comes is right."""
    tried = [it.tried(job) for it, job in zip(sites, jobs)]
    wrong = [it for _, problems in tried for it in problems]
    if wrong:
        tally.add(name, wrong)
        return None
    found = measured(sites, jobs, rounds, [ran for ran, _ in tried])
    for what, ratio in (("time", found.judged_ratio()), ("memory", found.growth())):
        if ratio > GREATEST_RATIO:
            wrong.append(f"four times the text takes {ratio:.2f} times the {what}")
    tally.add(name, wrong)
    return found


def slowest(jobs):
    """The time of the slowest of some jobs, and its name."""
    it = max(jobs, key=lambda it: it.whole.seconds)
    return f"{milliseconds(it.whole.seconds)} ({it.name})"


def peak(job):
    return f"{job.whole.peak / LARGE:.1f}"


def show_makefile(name, jobs):
    """Prints the row of a makefile whose jobs were measured."""
    queries = [it for it in jobs if it.name in QUERIES]
    edits = [it for it in jobs[1:] if it not in queries]
    worst, largest = max(jobs, key=Measured.ratio), max(jobs, key=lambda it: it.whole.peak)
    row(
        name,
        milliseconds(jobs[0].whole.seconds),
        slowest(edits),
        slowest(queries),
        f"{worst.ratio():.2f} ({worst.name})",
        f"{peak(largest)} ({largest.name})",
    )


def show_script(name, jobs):
    """Prints the row of a script that was measured."""
    (job,) = jobs
    row(job.name, milliseconds(job.whole.seconds), f"{job.ratio():.2f}", peak(job))


def run_scenes(program, tally, rounds, pairs, show):
    """Runs every job of some scenes at both sizes, and shows what it took where all was right."""
    with small_stack():
        for scenes in pairs:
            with tempfile.TemporaryDirectory(prefix="mkedit-hostile-") as name:
                sites = [site(program, Path(name), *it) for it in zip(("quarter", "whole"), scenes)]
                tried = [
                    judge(sites, jobs, f"{scenes[0].name}: {jobs[0].name}", rounds, tally)
                    for jobs in zip(*(it.jobs for it in scenes))
                ]
            if all(tried):
                show(scenes[0].name, tried)
    print(flush=True)


def pairs_of(scenes, word, share):
    """Scenes at both sizes, those in whose names the word is, of which a share is every N-th."""
    number, count = share
    pairs = [it for it in zip(scenes(QUARTER), scenes(LARGE)) if word in it[0].name]
    return pairs[number - 1 :: count]


def run(program, tally, rounds, word, share):
    """Runs every job of a share of the shapes in whose names a word is, and prints tables of them."""
    makefiles = pairs_of(makefile_shapes.scenes, word, share)
    scripts = pairs_of(script_shapes.scenes, word, share)
    if makefiles:
        row(*MAKEFILE_COLUMNS)
        row("---", *["---:"] * 5)
        run_scenes(program, tally, rounds, makefiles, show_makefile)
    if scripts:
        row(*SCRIPT_COLUMNS)
        row("---", *["---:"] * 3)
        run_scenes(program, tally, rounds, scripts, show_script)
