"""What a reader of one file does not see: python3 -m tests.gate.lint

    texts      documents and completions that have other texts than their source (tools/texts)
    documents  what documents name, and is not there (documents.py)
    twins      definitions and lemmas of some length that are equal but for their names
    uncited    definitions and lemmas that no source, row, law or answer to the prover is built on
    pub        what is `pub`, and no other file names
    parts      files of definitions in the wrong part of specs/Lib.antt (believed.py)

A finding has one line; the last line is 'N passed, M failed', where N counts definitions and lemmas. The
definitions of rows, which compute others on examples, are not searched, but what they import is cited.
"""

import re
import subprocess
import sys
from collections import defaultdict

from tests import TOP
from tests.lib.checks import Tally

from . import antt, believed, documents
from .names import Names, citations

GHOST_USE = re.compile(r"ghost use ([^;]*);")
USING = re.compile(r"\busing\(([^)]*)\)")
# What a statement has whose proofs are not compared, and how many words may stand twice.
CLAIMS = ("≡", "≢", "≤", "<", "⊥")
SHORT = 20


def text_problems(top=TOP):
    """What tools/texts says of the files that have other texts than their source."""
    words = [sys.executable, "-B", "tools/texts", "--check", "--top", top]
    ran = subprocess.run(words, cwd=TOP, stdout=subprocess.PIPE, stderr=subprocess.STDOUT, text=True)
    return ran.stdout.splitlines() or ["tools/texts says nothing and fails"] * ran.returncode


def is_answer(file, declaration):
    """Whether the prover asks for a declaration by its name."""
    if file.is_answer and file.module.endswith(".Proof"):
        return True
    goals = {use.local for use in file.uses if use.module.rpartition(".")[2] in ("Goals", "Given")}
    return bool(goals & {word.partition(".")[0] for word in declaration.statement})


def cited_by_source(names, crate, text):
    """What the clauses of a source name, and the lemmas that it hands to the prover's search."""
    for item in GHOST_USE.findall(text):
        for use in antt.uses_of(antt.tokens_of("use " + item)):
            fields = re.findall(rf"(?<![\w.-]){re.escape(use.local)}\.([^\s(){{}}.;,]+)", text)
            for name in fields if use.name is None else [use.name]:
                yield names.origin(use.module, name)
    for lemma in (it for lemmas in USING.findall(text) for it in lemmas.split(",")):
        module, _, name = lemma.strip().replace("::", ".").rpartition(".")
        yield "Rattle." + re.sub(r"^crate\b", crate, module), name


class Citations:
    """The files of definitions and lemmas, and what each of them cites."""

    def __init__(self, top=TOP):
        self.files = antt.files_of(top)
        self.names = Names(self.files)
        self.owners, self.cites, self.users = {}, {}, defaultdict(set)
        for path in top.glob("crates/*/src/**/*.rt"):
            crate = path.relative_to(top / "crates").parts[0]
            for pair in cited_by_source(self.names, crate, path.read_text(encoding="utf-8")):
                self.users[pair].add("a source")
        self.roots = {*self.users}
        for file in self.files.values():
            self.add_file(file)

    def add_file(self, file):
        """Notes which declaration each name of a file is of, and what the file cites."""
        for pair in self.names.scopes[file.module].values() if file.is_rows else ():
            self.roots.add(pair)
            self.users[pair].add(file.module)
        for word in file.opened:
            meaning = self.names.meaning(file.module, word)
            self.roots.update({meaning[0]} if meaning else ())
        for declaration in file.declarations:
            pairs = [(file.module, name) for name in declaration.own]
            self.owners.update((pair, pairs[0]) for pair in pairs)
            self.cites[pairs[0]] = citations(self.names, file, declaration)
            for pair in self.cites[pairs[0]]:
                self.users[pair].add(file.module)
            if file.is_rows or is_answer(file, declaration):
                self.roots.add(pairs[0])

    def searched(self):
        """All declarations but those of rows, with their files and places."""
        for file in self.files.values():
            for it in file.declarations if not file.is_rows else ():
                yield file, it, f"{file.shown}:{it.line} {it.own[0]}"

    def twins(self):
        """Declarations that say the same, in the same words."""
        groups = defaultdict(list)
        for file, it, place in self.searched():
            if it.kind != "ruleset" and not is_answer(file, it):
                is_claim = it.kind == "lemma" and any(word in CLAIMS for word in it.statement)
                body = [] if is_claim else it.body
                words = [self.names.meaning(file.module, word) or word for word in it.parameters + it.statement + body]
                own = (file.module, it.own[0]), ""
                if len(words) > SHORT:
                    groups[tuple("itself" if word == own else word for word in words)].append(place)
        yield from (", ".join(group) for group in groups.values() if len(group) > 1)

    def uncited(self):
        """Declarations that nothing is built on."""
        reached, waiting = set(), list(self.roots)
        while waiting:
            pair = self.owners.get(waiting.pop())
            if pair is not None and pair not in reached:
                reached.add(pair)
                waiting.extend(self.cites[pair])
        for file, it, place in self.searched():
            if (file.module, it.own[0]) not in reached:
                yield place

    def shown_by(self, file):
        """What other files meet in what is `pub` in a file: signatures, types, rule sets, and what unfolds by itself."""
        by_name = {name: it for it in file.declarations for name in it.own}
        shown, waiting = set(), [it for it in file.declarations if it.is_pub]
        while waiting:
            it = waiting.pop()
            unfolds = it.kind in ("abbrev", "data", "record", "ruleset")
            for word in it.parameters + it.statement + (it.body if unfolds else []):
                other = by_name.get(word.partition(".")[0])
                if other is not None and other.own[0] not in shown:
                    shown.add(other.own[0])
                    waiting.extend([other] if other.kind == "abbrev" else [])
        return shown

    def needlessly_pub(self):
        """Declarations that are `pub`, and that no other file names or meets."""
        shown = {file.module: self.shown_by(file) for file in self.files.values()}
        for file, it, place in self.searched():
            users = set().union(*(self.users[file.module, name] for name in it.own)) - {file.module}
            is_met = it.own[0] in shown[file.module] and it.kind != "abbrev"
            if it.is_pub and not users and not is_met and not is_answer(file, it):
                yield place


def main():
    cited, tally = Citations(), Tally()
    for title, found in (
        ("texts", text_problems()),
        ("documents", documents.problems()),
        ("twins", cited.twins()),
        ("uncited", cited.uncited()),
        ("pub", cited.needlessly_pub()),
        ("parts", believed.problems(cited.files)),
    ):
        for problem in found:
            tally.add(title, [problem])
    tally.passed = sum(1 for _ in cited.searched())
    print(tally)
    return 1 if tally.failed else 0


if __name__ == "__main__":
    sys.exit(main())
