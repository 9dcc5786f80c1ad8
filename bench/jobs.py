"""The jobs that mkedit gets, each with what it has to put out."""

import filecmp
import subprocess
from pathlib import Path
from typing import NamedTuple, Union

from make_many import OF_COUNTED
from shared import BENCH, DATA, cost, is_made, text_of

OUT_OF_MKEDIT, OUT_BESIDE = DATA / "out-of-mkedit", DATA / "out-beside"
QUERIES = ("vars", "rules", "check", "caveats")
READER = BENCH.parent / "tests/lib/reading.py"


class Job(NamedTuple):
    """What mkedit does to the text of a kind and size."""

    name: str
    kind: str
    size: int
    words: list
    # the words of a sed or of another program that has to put out the same, or a file that has it
    wanted: Union[list, Path]

    def text(self):
        return text_of(self.kind, self.size)

    def command(self, program):
        return [program, *self.words, self.text()]


def script(name, lines):
    """A file of bench/data with these lines."""
    path = DATA / name
    path.write_bytes(b"".join(line + b"\n" for line in lines))
    return path


def edit(name, kind, size, commands, of_sed):
    """A script of commands, and a script of sed that does the same."""
    file = name.replace(" ", "-")
    words = ["edit", script(file, commands)]
    return Job(name, kind, size, words, ["sed", "-f", script(file + ".sed", of_sed)])


def no_command(kind, size):
    return edit("no command", kind, size, [], [b""])


def one_set(kind, size):
    """A `set` in the first line."""
    return edit("one set", kind, size, [b"set CC clang"], [b"s/^CC = .*/CC = clang/"])


def sets(count, size):
    """A script that sets variables all over a makefile. sed would take minutes for as many `s`."""
    commands, wanted = DATA / f"{count}-set-{size}", DATA / f"{count}-set-{size}-wanted"
    making = [BENCH / "make_sets.py", str(count), text_of("makefile", size), commands, wanted]
    subprocess.run(making, check=True)
    return Job(f"{count:,} set", "makefile", size, ["edit", commands], wanted)


def assigns(count, size):
    """A script that puts in variables at the end of a makefile."""
    lines = [b"NEW_%d = value" % it for it in range(count)]
    commands = script(f"{count}-assign", [b"assign bottom " + it for it in lines])
    added = script(f"{count}-assigned", lines)
    words = ["edit", commands]
    return Job(f"{count:,} assign bottom", "makefile", size, words, ["sed", f"$r {added}"])


def rename(size):
    """A rename of an order-only prerequisite of a third of the rules: some 13,500 lines of 16 MB."""
    commands = [b'rule bottom build : ""', b"rename build output"]
    of_sed = [b"s/ | build$/ | output/", b"$a\\", b"output:"]
    return edit("rename", "makefile", size, commands, of_sed)


def values_subst(size):
    """A text replaced in the values of some 120,000 lines of 16 MB."""
    return edit("values-subst", "settings", size, [b"values-subst -W -w"], [b"/^#/!s/-W/-w/g"])


def recipes_subst(size):
    """A text replaced in some 160,000 recipe lines of 16 MB."""
    return edit("recipes-subst", "pairs", size, [b'recipes-subst "-c -o" -o'], [b"/^\t/s/-c -o/-o/g"])


def many(kind, count, size):
    """A script of commands of a kind, whose names stand all over a makefile of pairs; or of one edit of so many lines.

    What it has to put out is what the plain program puts out, which has to be built.
    """
    commands = DATA / f"many-{kind.replace(' ', '-')}-{count}-{size}"
    of_text = f"every-{count}" if kind.startswith("all ") else "counted" if kind in OF_COUNTED else "pairs"
    text, made_by = text_of(of_text, size), BENCH / "make_many.py"
    if not is_made(commands, text, made_by):
        subprocess.run([made_by, kind, str(count), text, commands], check=True)
    words = ["edit", commands]
    return Job(f"{count:,} {kind}", of_text, size, words, [DATA / "plain", *words])


def query(name, size):
    """A query over a makefile. What it has to print takes a minute to make, and stays in bench/data."""
    text, made_by = text_of("makefile", size), BENCH / "make_answers.py"
    wanted = text.with_name(f"{text.name}.{name}")
    if not is_made(wanted, text, made_by, READER):
        subprocess.run([made_by, text], check=True)
    return Job(name, "makefile", size, [name], wanted)


def checked(program, job, bound=None):
    """What a job costs whose output is compared with the one that has to come, and goes into a file.

    Ends the bench where it is another. Where the bound ends the job (cost), nothing is compared.
    """
    used, wanted = cost(job.command(program), OUT_OF_MKEDIT, bound), job.wanted
    if used is None:
        return None
    if isinstance(wanted, list):
        cost([*wanted, job.text()], OUT_BESIDE)
        wanted = OUT_BESIDE
    if not filecmp.cmp(OUT_OF_MKEDIT, wanted, shallow=False):
        raise SystemExit(f"wrong output: {job.name}, {job.kind}, {job.size:,} bytes")
    return used
