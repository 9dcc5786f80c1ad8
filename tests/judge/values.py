"""What make has to know of variables, after assignments, defines and directives that it reads.

Values are text; what stands in makefiles is given as bytes, in the parts that reading.py finds.
"""

import re

from tests.lib import reading

from .database import Variable

UNKNOWN = "unknown"
PLAIN = re.compile(r"[A-Za-z0-9_.-]+")
SUBSTITUTION = re.compile(r"([A-Za-z0-9_.-]+):([^$%:=(){}]+)=([^$%:=(){}]*)")
# Variables that make defines by itself, so that `?=` and `ifdef` find them.
DEFINED_BY_MAKE = set(
    "MAKE MAKE_COMMAND MAKE_VERSION MAKE_HOST SHELL SUFFIXES CURDIR .SHELLFLAGS .FEATURES .VARIABLES "
    ".INCLUDE_DIRS .LIBPATTERNS .LOADED .DEFAULT_GOAL MAKEFILES MAKEFILE_LIST MAKELEVEL MAKECMDGOALS "
    "MAKEFLAGS MFLAGS GNUMAKEFLAGS MAKE_TERMOUT MAKE_TERMERR".split()
)


class Unknown(Exception):
    """What this reading does not follow."""


def shown(text):
    return text.decode("latin-1")


def joined(body):
    """The joined text of a line that is given without its line end."""
    return reading.joined(body + b"\n")[0]


def cut_units(body):
    """The units of a line before its comment; the line is given without its line end."""
    return reading.before(reading.units(joined(body)), b"#")


def value_of(item):
    """The value of an item as make has it: with the blanks after it, and with `#` for each `\\#`."""
    out = b""
    for unit in reading.units(item.parts[-1]):
        if unit == rb"\#":
            backslashes = len(out) - len(out.rstrip(b"\\"))
            out = out[: len(out) - backslashes] + b"\\" * (backslashes // 2) + b"#"
        else:
            out += unit
    return shown(out + item.tail)


def body_line(body):
    """A line of a define as make keeps it: folds are spaces, and an `endef` in it has no comment."""
    units = reading.units(joined(body))
    is_end = reading.after_first_word(units)[0] == b"endef"
    return shown(b"".join(reading.before(units, b"#") if is_end else units))


class Variables:
    """The variables of a makefile by their names: each a Variable, UNKNOWN, or None once undefined.

    is_known says whether all variables are among them, be it as UNKNOWN.
    """

    def __init__(self):
        self.by_name = {}
        self.is_known = True

    def is_defined(self, name):
        """Whether the value of a variable is not empty, as `ifdef` asks."""
        it = self.by_name.get(name)
        if it == UNKNOWN or name in DEFINED_BY_MAKE or not self.is_known:
            raise Unknown
        return bool(it and it.value)

    def may_be_private(self):
        """Whether there may be a private variable."""
        return any(it and (it == UNKNOWN or it.is_private) for it in self.by_name.values())

    def expand(self, text, depth=0):
        """The text with its references replaced. Unknown where one is not plain."""
        if depth > 30:
            raise Unknown
        out = ""
        for unit in map(shown, reading.units(text.encode("latin-1"))):
            if unit[:1] != "$":
                out += unit
            elif unit == "$$":
                out += "$"
            else:
                name = unit[2:-1] if unit[1:2] in ("(", "{") else unit[1:]
                out += self.referred(name, depth)
        return out

    def referred(self, name, depth):
        """What a reference to a plain name stands for, or one such as `OBJ:.c=.o`."""
        found = SUBSTITUTION.fullmatch(name)
        if found:
            name, old, new = found.groups()
            words = self.referred(name, depth).split()
            return " ".join(it[: len(it) - len(old)] + new if it.endswith(old) else it for it in words)
        if not PLAIN.fullmatch(name) or name in DEFINED_BY_MAKE or not self.is_known:
            raise Unknown
        it = self.by_name.get(name)
        if it == UNKNOWN:
            raise Unknown
        if it is None:
            return ""
        return it.value if it.flavor == ":" else self.expand(it.value, depth + 1)

    def expanded_name(self, name):
        """The name of a variable, or None where it is not known; then no variable is."""
        try:
            return self.expand(name).strip(" \t")
        except Unknown:
            self.is_known = False
            return None

    def assign(self, modifiers, name, operator, value):
        """Follows an assignment, as the manual's chapter on variables says."""
        name = self.expanded_name(name)
        if name is None:
            return
        origin = "'override' directive" if b"override" in modifiers else "makefile"
        old = self.by_name.get(name)
        is_private = b"private" in modifiers or (old not in (None, UNKNOWN) and old.is_private)
        if old == UNKNOWN or name in DEFINED_BY_MAKE and operator in ("?=", "+="):
            self.by_name[name] = UNKNOWN
            return
        if old and (operator == "?=" or origin == "makefile" != old.origin):
            if b"private" in modifiers:
                self.by_name[name] = UNKNOWN  # what this does is not in the manual
            return
        try:
            flavor, value = self.new_value(old, operator, value)
            if operator == "+=" and old and value == old.value:
                origin = old.origin
            self.by_name[name] = Variable(origin, is_private, flavor, value)
        except Unknown:
            self.by_name[name] = UNKNOWN

    def new_value(self, old, operator, value):
        """The flavor and value after an assignment that counts."""
        if operator in (":=", "::="):
            return ":", self.expand(value)
        if operator == "+=" and old:
            more = self.expand(value) if old.flavor == ":" else value
            both = f"{old.value} {more}" if old.value else more
            return old.flavor, both if more else old.value
        if operator in ("=", "?=", "+="):
            return "", value
        raise Unknown

    def expanded_words(self, words):
        """The words of a list after its references are replaced."""
        found = []
        for word in map(shown, words):
            expanded = self.expand(word)
            if expanded != word and re.search(r"[:;=#|%&\\\t~?*[]", expanded):
                raise Unknown
            found += expanded.split()
        return found

    def final_words(self, words):
        """The words of a list as the variables stand at the end; as they are where that is not known."""
        try:
            return self.expanded_words(words)
        except Unknown:
            return list(map(shown, words))

    def define(self, head, body):
        """Follows a define: its first line and its body's lines, without line ends."""
        words = list(map(shown, reading.texts(cut_units(head))))
        modifiers = [it.encode() for it in words[: words.index("define")]]
        rest = " ".join(words[words.index("define") + 1 :])
        found = re.fullmatch(r"(\S+?)(?: ?(=|:=|::=|\?=|\+=))?", rest)
        if found and PLAIN.fullmatch(found[1]):
            self.assign(modifiers, found[1], found[2] or "=", "\n".join(map(body_line, body)))
        else:
            self.is_known = False

    def direct(self, body):
        """Follows a directive: `export`, `unexport` and `undefine` of plain names are known."""
        words = list(map(shown, reading.texts(cut_units(body))))
        is_override = words[0] == "override"
        word, *names = words[1:] if is_override else words
        if word not in ("export", "unexport", "undefine"):
            return
        if not all(map(PLAIN.fullmatch, names)) or word == "undefine" and len(names) != 1:
            self.is_known = False
            return
        for name in names:
            old = self.by_name.get(name)
            if word != "undefine" and old is None and name not in DEFINED_BY_MAKE:
                self.by_name[name] = Variable("makefile", False, ":", "")
            elif word == "undefine" and old not in (None, UNKNOWN):
                if is_override or old.origin == "makefile":
                    self.by_name[name] = None
