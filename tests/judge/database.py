"""GNU make's data base of a makefile: make run so that nothing else runs, and what it prints, read.

Only a makefile that is_safe() is given to make. make reads it with `-p -n -q -r -R`, with nothing in its
environment, in a folder without a file, within a time limit. The makefile is its own goal, since make
would else try to make it anew, and -n and -q say nothing of that.
"""

import re
import shutil
import subprocess
import tempfile
from pathlib import Path
from typing import NamedTuple

SECONDS = 10

# What would run a program or read a file, and what would change how make runs. `call` may only name a
# variable, since `$(call $(a)ll,x)` could be any function. A recipe line with a `+` is run in spite
# of -n.
UNSAFE = re.compile(
    rb"\b(?:shell|eval|guile|file|s?include|load|MAKE|MAKEFILES|GNUMAKEFLAGS|M(?:AKE)?FLAGS)\b|!="
    rb"|call(?![ \t]+[A-Za-z0-9_.-]+[,)}])|\+(?!=)"
)
ORIGIN = re.compile(
    r"# (automatic|default|environment|makefile|environment under -e|command line|'override' directive)"
    r"( private)?(?: \(from '.*', line \d+\))?"
)
SECTIONS = ("variables", "targets", "patterns", "target_variables")
# Variables that make itself sets, or that follow from the first rule.
OF_MAKE = set(
    "MAKEFLAGS CURDIR MAKEFILE_LIST MFLAGS GNUMAKEFLAGS MAKECMDGOALS MAKELEVEL .DEFAULT_GOAL".split()
)
SECTION = re.compile(r"^# (Variables|Pattern-specific Variable Values|Implicit Rules|Files)\n", re.M)
VARIABLE = re.compile(r"(.*?) (\+|:|)= ?(.*)", re.S)
ENTRY = re.compile(r"(.*?)(::?)(?: (.*))?")
STOP = re.compile(r"\S*:\d+: (?:\*\*\* (.*?)\.? +Stop\.|(?:\*\*\* )?(mixed implicit and .*))")


class Variable(NamedTuple):
    """What make knows of a variable: who set it, whether it is private, its flavor, its value."""

    origin: str
    is_private: bool
    flavor: str
    value: str


class Rule(NamedTuple):
    """What make knows of a target by one of its entries: the recipe has the lines without prefix."""

    separator: str
    prerequisites: tuple
    order_only: tuple
    recipe: tuple


class Database(NamedTuple):
    """What make knows of a makefile.

    Names of variables, targets and patterns (each a tuple of the patterns of one rule) lead to what make
    knows of them. target_variables has pairs of a target or a pattern and a name. fault is the
    message with which make stopped reading, or None.
    """

    variables: dict
    targets: dict
    patterns: dict
    target_variables: dict
    fault: object

    def content(self, key):
        """What make knows of a key, a section and a name: None where it is not there."""
        return getattr(self, key[0]).get(key[1])

    def keys(self):
        """All keys."""
        return {(section, name) for section in SECTIONS for name in getattr(self, section)}


def is_safe(text):
    """Whether make may read this: it names nothing that would run a program or read a file."""
    return not UNSAFE.search(text)


class Make:
    """GNU make, with a folder for its makefile and an empty one that it runs in."""

    def __init__(self):
        self.path = shutil.which("make")
        self.folder = Path(tempfile.mkdtemp(prefix="mkedit-judge-"))
        self.empty = self.folder / "empty"
        self.empty.mkdir()
        self.makefile = str(self.folder / "judged")

    def __enter__(self):
        return self

    def __exit__(self, *_):
        shutil.rmtree(self.folder, ignore_errors=True)

    def version(self):
        """The number of GNU make's version, or None where this is no GNU make."""
        if not self.path:
            return None
        found = re.match(rb"GNU Make (\d+)\.(\d+)", self.run("--version").stdout)
        return found and tuple(map(int, found.groups()))

    def run(self, *words):
        """Runs make with nothing in its environment."""
        return subprocess.run(
            [self.path, *words],
            cwd=self.empty,
            env={},
            stdin=subprocess.DEVNULL,
            capture_output=True,
            timeout=SECONDS,
        )

    def is_gnu(self):
        """Whether this is GNU make 4 or later."""
        return (self.version() or (0, 0)) >= (4, 0)

    def database(self, text):
        """make's data base of a makefile. A ValueError says that it is not safe, or took too long."""
        if not is_safe(text):
            raise ValueError("not safe to give to make")
        Path(self.makefile).write_bytes(text)
        try:
            ran = self.run("-p", "-n", "-q", "-r", "-R", "-f", self.makefile, self.makefile)
        except subprocess.TimeoutExpired:
            raise ValueError("make took too long") from None
        found = STOP.search(ran.stderr.decode("latin-1"))
        return read(ran.stdout.decode("latin-1"), self.makefile, found and (found[1] or found[2]))


def read(printed, makefile, fault):
    """The data base that make printed."""
    sections = SECTION.split(printed)
    named = dict(zip(sections[1::2], sections[2::2]))
    variables = {
        name: it
        for name, it in variables_of(named.get("Variables", ""))
        if it.origin in ("makefile", "'override' directive") and name not in OF_MAKE
    }
    target_variables = pattern_variables(named.get("Pattern-specific Variable Values", ""))
    last = variables.get(".RECIPEPREFIX")
    prefix = last.value[:1] if last and last.value else "\t"
    patterns, targets = {}, {}
    for name, rule in entries(named.get("Implicit Rules", ""), {}, prefix):
        patterns.setdefault(tuple(name.split()), []).append(rule)
    for name, rule in entries(named.get("Files", ""), target_variables, prefix):
        if not name.startswith(makefile):
            targets.setdefault(name, []).append(rule)
    return Database(variables, targets, patterns, target_variables, fault)


def variables_of(section):
    """The variables of a section, each with its name."""
    held, origin = [], None
    for line in [*section.split("\n"), "# default"]:
        found = ORIGIN.fullmatch(line)
        if found or line.startswith("# variable set hash-table stats"):
            if origin and held:
                yield variable("\n".join(held), origin)
            held, origin = [], found
        elif origin:
            held.append(line)


def variable(text, origin):
    """The variable that some lines show, with its name."""
    found = re.fullmatch(r"define (.*?)\n(.*)\nendef", text.rstrip("\n"), re.S)
    if found:
        return found[1], Variable(origin[1], bool(origin[2]), "", found[2])
    name, flavor, value = VARIABLE.fullmatch(text).groups()
    blank = re.fullmatch(r"\$\(subst ,,(\s*)\)", value)
    value = blank[1] if blank else value.replace("$$", "$") if flavor == ":" else value
    return name, Variable(origin[1], bool(origin[2]), flavor, value)


def pattern_variables(section):
    """The values of the variables of patterns, by pattern and name; make shows all of them as simple."""
    found, pattern = {}, None
    for line in section.split("\n"):
        if line.endswith(" :") and not line.startswith("#"):
            pattern = line[:-2]
        elif pattern and re.match(r"# \S+ [:+]?=", line):
            name, _, value = VARIABLE.fullmatch(line[2:]).groups()
            found.setdefault((pattern, name), []).append(value.replace("$$", "$"))
    return found


def entries(section, target_variables, prefix):
    """The entries of targets or of patterns in a section, each with its name.

    Variables of targets, which stand above their entries, are put into target_variables. The prefix
    is that of recipe lines until the section says another.
    """
    lines, at = section.split("\n"), 0
    is_target, origin = True, None
    while at < len(lines):
        line = lines[at]
        at += 1
        if line.startswith(".RECIPEPREFIX = "):
            prefix = line[len(".RECIPEPREFIX = ") :] or "\t"
        elif line == "# Not a target:":
            is_target = False
        elif origin:
            target, text = line.split(": ", 1)
            name, it = variable(text, origin)
            target_variables[target, name] = it
            origin = None
        elif ORIGIN.fullmatch(line):
            origin = ORIGIN.fullmatch(line)
        elif line and not line.startswith("#"):
            recipe, at = recipe_below(lines, at, prefix)
            found = entry(line, recipe)
            if is_target and found:
                yield found
            is_target = True


def entry(line, recipe):
    """The target or the patterns that a line of the data base shows, and its rule."""
    found = ENTRY.fullmatch(line)
    if not found:
        return None
    name, separator, rest = found.groups()
    normal, bar, order = (" " + (rest or "") + " ").partition(" | ")
    return name, Rule(separator, tuple(normal.split()), tuple(order.split()) if bar else (), recipe)


def recipe_below(lines, at, prefix):
    """The recipe of an entry whose line stands above this place, and the place below the recipe.

    A recipe that is not there is None; a line of it that goes over several lines is one.
    """
    while at < len(lines) and lines[at].startswith("#"):
        at += 1
        if re.match(r"#  recipe to execute ", lines[at - 1]):
            recipe = []
            while at < len(lines) and lines[at].startswith(prefix):
                held = [lines[at][1:]]
                at += 1
                while len(re.search(r"\\*\Z", held[-1]).group()) % 2 and at < len(lines):
                    held.append(lines[at])
                    at += 1
                recipe.append("\n".join(held))
            return tuple(recipe), at
    return None, at
