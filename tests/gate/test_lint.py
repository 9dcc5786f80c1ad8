"""Tests of the lint: a repository with one fault for each thing that it finds.

    python3 -m tests.gate.test_lint       the last line is 'N passed, M failed'
"""

import os
import shutil
import sys
import tempfile
import unittest
from pathlib import Path

from tests import TOP
from tests.lib.checks import Tally

from . import believed, documents, lint, names

FILES = {
    "crates.txt": "low:\nhigh: low\n",
    "Makefile": "check:\n",
    "README.md": "`make check`, `make cheek`, LOST.md, `python3 -m tests.lost`\n",
    "CONTRIBUTING.md": "`make chuck`\n",
    "bench/README.md": "`bench/lost`\n",
    "docs/ARCHITECTURE.md": "| Crate | Contents | Builds on |\n|---|---|---|\n"
    "| `low` | a | |\n| `high` | b | |\n| `lost` | c | |\n",
    "docs/PROOFS.md": "`low/src/outer.rt`, `low/src/lost.rt`, `low/specs/Said.IsSaid`, `low/specs/Said.IsLost`, `Said.IsGone`\n",
    "crates/low/src/lib.rt": "mod inner;\npub mod outer;\n",
    "crates/low/src/outer.rt": "ghost use Rattle.low.specs.Said.{IsSaid, Seen};\nghost use Rattle.low.specs.Held.{IsHeld};\n"
    "pub struct Shown;\nimpl Model for Shown {\n    ghost Value = { Seen };\n\n    ghost invariant = { λ s. IsHeld s };\n}\n"
    "pub fn call(shown: &Shown) -> u8\n    ensures { IsSaid result }\n{\n    crate::inner::call(shown)\n}\n",
    "crates/low/src/inner.rt": "ghost use Rattle.low.specs.Held.{IsHeld};\n"
    "pub fn call(shown: &Shown) -> u8\n    ensures { IsHeld result }\n{\n    7\n}\n",
    "crates/low/specs/Lib.antt": f"-- # {believed.PUBLIC}\npub mod Base\npub mod Held\n-- # {believed.PRIVATE}\npub mod Said\n",
    "crates/low/specs/Base.antt": "use Rattle.low.specs.Held.{IsHeld}\n\nabbrev pub base : ℕ → ℕ\nbase n = n\n\n"
    "abbrev pub spare : ℕ\nspare = 1\n",
    "crates/low/specs/Said.antt": "use Rattle.low.specs.Base.{base}\n\n-- it is said\nabbrev pub IsSaid : ℕ → Type 0\n"
    "IsSaid n = base n ≡ n\n\nabbrev pub Seen : Type 0\nSeen = ℕ\n",
    "crates/low/specs/Held.antt": "abbrev pub IsHeld : ℕ → Type 0\nIsHeld n = n ≡ 7\n",
    "crates/low/proofs/One.antt": "one-more : (m n : ℕ) → m ≡ n → (suc m) ≡ (suc n) → ℕ → ℕ → ℕ → ℕ → m ≡ n\none-more m n = a\n",
    "crates/low/proofs/Two.antt": "two-more : (m n : ℕ) → m ≡ n → (suc m) ≡ (suc n) → ℕ → ℕ → ℕ → ℕ → m ≡ n\ntwo-more m n = b\n",
}


class Lint(unittest.TestCase):
    def setUp(self):
        folder = tempfile.TemporaryDirectory(prefix="lint-test-")
        self.addCleanup(folder.cleanup)
        self.room = Path(folder.name)

    def write_all(self):
        for name, text in FILES.items():
            path = self.room / name
            path.parent.mkdir(parents=True, exist_ok=True)
            path.write_text(text, encoding="utf-8")

    def test_each_name_in_a_document_that_is_not_there_is_found(self):
        self.write_all()
        wanted = [
            "README.md: there is no target cheek in the Makefile",
            "README.md: there is no module tests.lost",
            "README.md: there is no document LOST.md",
            "CONTRIBUTING.md: there is no target chuck in the Makefile",
            "bench/README.md: there is no bench/lost",
            "docs/ARCHITECTURE.md: its table of crates is wrong on lost",
            "docs/ARCHITECTURE.md: high is built on low",
            "docs/PROOFS.md: there is no low/specs/Said.IsLost",
            "docs/PROOFS.md: there is no low/src/lost.rt",
            "docs/PROOFS.md: Said.antt declares no IsGone",
        ]
        self.assertEqual([*documents.problems(self.room)], wanted)

    def test_each_declaration_that_is_not_needed_is_found(self):
        self.write_all()
        cited = lint.Citations(self.room)
        one, two = "crates/low/proofs/One.antt:1 one-more", "crates/low/proofs/Two.antt:1 two-more"
        spare = "crates/low/specs/Base.antt:6 spare"
        self.assertEqual([*cited.twins()], [f"{one}, {two}"])
        self.assertEqual([*cited.uncited()], [spare, one, two])
        self.assertEqual([*cited.needlessly_pub()], [spare])

    def test_what_public_contracts_need_is_found(self):
        self.write_all()
        found = believed.Believed(self.room)
        shares = [(it.module.rpartition(".")[2], it.names, it.lines) for it in found.shares(found.of_call("low::call"))]
        self.assertEqual(shares, [("Base", ("base",), 2), ("Said", ("IsSaid", "Seen"), 4)])
        lib = "crates/low/specs/Lib.antt"
        wanted = [f"{lib}: Held belongs below `{believed.PRIVATE}`", f"{lib}: Said belongs below `{believed.PUBLIC}`"]
        self.assertEqual([*believed.problems(top=self.room)], wanted)

    def test_the_name_of_a_field_cites_nothing(self):
        made = ["record", "{", "base", "=", "n", ";", "spare", "=", "base", "}"]
        self.assertEqual([*names.cited_words(made)], ["record", "{", "=", "n", ";", "=", "base", "}"])
        self.assertEqual([*names.cited_words(["pub", "base", ":", "spare"])], ["pub", ":", "spare"])

    def test_a_text_that_is_not_that_of_its_source_is_found(self):
        for it in TOP.iterdir():
            os.symlink(it, self.room / it.name)
        (self.room / "docs").unlink()
        shutil.copytree(TOP / "docs", self.room / "docs")
        self.assertEqual(lint.text_problems(self.room), [])
        page = self.room / "docs/EDITS.md"
        page.write_text(page.read_text(encoding="utf-8").replace("**8 `Taken`**", "**8 `Took`**"), encoding="utf-8")
        self.assertEqual([it.split()[0] for it in lint.text_problems(self.room)], ["docs/EDITS.md"])


def main():
    tally = Tally()
    for test in unittest.defaultTestLoader.loadTestsFromTestCase(Lint):
        result = unittest.TestResult()
        test.run(result)
        tally.add(test.id(), [text.strip().splitlines()[-1] for _, text in result.failures + result.errors])
    print(tally)
    return 1 if tally.failed else 0


if __name__ == "__main__":
    sys.exit(main())
