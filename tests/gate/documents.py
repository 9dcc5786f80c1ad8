"""What the documents name in the repository, and whether it is there.

    paths        a path in backticks, also of a definition: `mk_edit/specs/Planned.IsRefusal`
    definitions  a definition in backticks, as `EditSpans.spans_of`, where some crate has such a file
    commands     what stands behind `make` and `python3 -m`, and the documents themselves
    crates       the table of crates in docs/ARCHITECTURE.md, and what each is built on
"""

import re
from functools import lru_cache

from tests import TOP

from .listed import listed, with_below

CODE = re.compile(r"`([^`\n]+)`")
PATH = re.compile(r"[\w.-]+(?:/[\w.-]+)+/?")
DEFINITION = re.compile(r"([A-Z]\w+)\.([A-Za-z_]\w*)")
MODULE = re.compile(r"python3 -m (tests\.[\w.]*\w)")
DOCUMENT = re.compile(r"\b[A-Z]+\.md\b")
MAKE = re.compile(r"`make ([a-z][a-z-]*)[` ]")
# The documents that are looked at beside those of docs/.
BESIDE = ("README.md", "CONTRIBUTING.md", "bench/README.md")
# Elsewhere `make` is the user's.
OF_DEVELOPERS = (*BESIDE, "docs/ARCHITECTURE.md", "docs/PROOFS.md")
# A folder that is made, or a word that stands for others.
PLACEHOLDER = re.compile(r"/out/|[A-Z]{4}")


def declares(text, name):
    """Whether a file of definitions or lemmas declares a name."""
    return re.search(rf"^ *(?:[a-z]+ )*{re.escape(name)}(?=[ :({{]|$)", text, re.M) is not None


class Repository:
    """The files that documents may name."""

    def __init__(self, top):
        self.top, self.crates = top, listed(top)
        self.tops = {*self.crates, *(it.name for it in top.iterdir() if it.is_dir())}
        self.targets = {*re.findall(r"^([a-z-]+):", (top / "Makefile").read_text(encoding="utf-8"), re.M)}

    @lru_cache(maxsize=None)
    def texts(self, pattern):
        return "\n".join(it.read_text(encoding="utf-8") for it in self.top.glob(pattern))

    def is_there(self, path):
        """Whether there is such a path, at the top or below crates/; its suffix may lack, and a definition follow."""
        places = [self.top / folder / f"{path}{suffix}" for folder in ("", "crates") for suffix in ("", ".antt", ".edit", ".rt")]
        stem, _, name = path.rpartition(".")
        return any(it.exists() for it in places) or any(declares(self.texts(f"{it}{stem}.antt"), name) for it in ("", "crates/"))

    def path_problems(self, text):
        for path in sorted({*CODE.findall(text)}):
            if PATH.fullmatch(path) and path.split("/")[0] in self.tops and not PLACEHOLDER.search(path):
                if not self.is_there(path.rstrip("/")):
                    yield f"there is no {path}"

    def definition_problems(self, text):
        for file, name in sorted({it.groups() for it in map(DEFINITION.fullmatch, CODE.findall(text)) if it}):
            found = self.texts(f"crates/*/*/**/{file}.antt")
            if name != "antt" and found and not declares(found, name):
                yield f"{file}.antt declares no {name}"

    def command_problems(self, text, is_of_developers):
        named = {*MAKE.findall(text)} if is_of_developers else set()
        yield from (f"there is no target {it} in the Makefile" for it in sorted(named - self.targets))
        for module in sorted({*MODULE.findall(text)}):
            at = self.top / module.replace(".", "/")
            if not (at / "__main__.py").exists() and not at.with_suffix(".py").exists():
                yield f"there is no module {module}"
        for document in sorted({*DOCUMENT.findall(text)}):
            if not (self.top / document).exists() and not (self.top / "docs" / document).exists():
                yield f"there is no document {document}"

    def crate_problems(self, text):
        """Compares the table of crates with crates.txt."""
        table = text[text.find("| Crate | Contents |") :].partition("\n\n")[0].splitlines()[2:]
        cells = [[CODE.findall(it) for it in row.split("|")[1:-1]] for row in table]
        rows, crates = {row[0][0]: row[2] for row in cells}, self.crates
        yield from (f"its table of crates is wrong on {it}" for it in sorted({*rows} ^ {*crates}))
        for name in (it for it in rows if it in crates):
            if with_below(crates, [it for it in rows[name] if it in crates]) != with_below(crates, crates[name].uses):
                yield f"{name} is built on {', '.join(crates[name].uses) or 'nothing'}"


def problems(top=TOP):
    """What is wrong with the documents, a line for each."""
    ours = Repository(top)
    for path in [*(top / it for it in BESIDE), *sorted((top / "docs").glob("*.md"))]:
        name, text = path.relative_to(top).as_posix(), path.read_text(encoding="utf-8")
        found = [*ours.path_problems(text), *ours.definition_problems(text)]
        found += ours.command_problems(text, name in OF_DEVELOPERS)
        found += ours.crate_problems(text) if path.name == "ARCHITECTURE.md" else ()
        yield from (f"{name}: {it}" for it in found)
