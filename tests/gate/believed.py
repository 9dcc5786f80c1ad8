"""What one has to believe of mkedit: the definitions that its public contracts stand on.

Believed is what the contract of a public call names, what those definitions name, and so on down; likewise
what the types of its values show, and what it asks of devices (surface.py). All other definitions are vocabulary:
contracts within a crate speak of them, and no public contract does. So specs/Lib.antt of each crate has its
modules in two parts, below these headings, and each module of which a public contract needs some
definition stands in the first.
"""

import re
from functools import cached_property
from typing import NamedTuple, Tuple

from tests import TOP

from . import antt
from .names import Names, citations
from .surface import Named, Place, Surface

PUBLIC, PRIVATE = "What the public contracts say", "Vocabulary of private contracts"


class Share(NamedTuple):
    """What is believed of one file: the names of its definitions, in their order, and how many lines they have."""

    shown: str
    module: str
    names: Tuple[str, ...]
    lines: int


class Believed:
    """The definitions and the contracts of all crates, and what these need of those."""

    def __init__(self, top=TOP, files=None):
        self.top, self.files = top, files or antt.files_of(top, ["specs"])
        names, self.surface = Names(self.files), Surface(top)
        self.named = Named(self.surface, names)
        self.owners, self.cites, self.lines = {}, {}, {}
        for file in self.files.values():
            for it in file.declarations:
                own = file.module, it.own[0]
                self.owners.update(((file.module, name), own) for name in it.own)
                self.cites[own] = citations(names, file, it)
                self.lines[own] = len(it.lines)
        self.calls = {
            f"{crate}::{path}": (source, block, function)
            for crate in self.surface.crates
            for source, block, function, path in self.surface.public_calls(crate)
        }
        self.types = {}

    def type_of(self, pair):
        """The type of ours that the prover hands to definitions under a name, or None."""
        module, name = pair
        parts = module.split(".")
        if parts[2:4] != ["specs", "declared"] or parts[1] not in self.surface.crates:
            return None
        below = [*parts[4:], name]
        at = next((place for place, it in enumerate(below) if it[:1].isupper()), 0)
        return self.surface.item(parts[1], tuple(below[:at]), below[at])

    def below_type(self, place):
        """What a type shows, as definitions and types."""
        if place not in self.types:
            self.types[place] = self.named.of_type(place)
        return self.types[place]

    def reached(self, waiting):
        """All definitions and types that some of them stand on."""
        found, waiting = set(), [*waiting]
        while waiting:
            it = waiting.pop()
            if not isinstance(it, Place):
                it = self.owners.get(it) or self.type_of(it)
            if it is not None and it not in found:
                found.add(it)
                waiting += self.below_type(it) if isinstance(it, Place) else self.cites[it]
        return found

    def of_call(self, name):
        """What is believed of a public call."""
        return self.reached(self.named.of_call(*self.call(name)))

    def of_all(self):
        """What is believed of all public calls and types."""
        waiting = set()
        for call in self.calls.values():
            waiting |= self.named.of_call(*call)
        for crate in self.surface.crates:
            waiting |= self.surface.public_types(crate) | self.named.of_impls(crate)
        return self.reached(waiting)

    def call(self, name):
        """The public call of a name, which may leave out modules below the crate; ValueError if there is not one."""
        crate, _, path = name.partition("::")
        found = [it for it in self.calls if it.startswith(f"{crate}::") and f"::{it}".endswith(f"::{path}")]
        if len(found) != 1:
            raise ValueError(f"{len(found)} public calls have the name {name}")
        return self.calls[found[0]]

    def modules_told(self, crate):
        """The modules of a crate's definitions, in the order of its Lib.antt."""
        file = self.top / "crates" / crate / "specs/Lib.antt"
        return re.findall(r"^pub mod (\w+)", file.read_text(encoding="utf-8"), re.M) if file.is_file() else []

    @cached_property
    def reading_order(self):
        """The modules of definitions: each behind those that it names, else as crates.txt and Lib.antt have them."""
        order = []

        def put(module):
            if module in order or module not in self.files:
                return
            for use in self.files[module].uses:
                put(use.module)
            order.append(module)

        for crate in self.surface.crates:
            for module in self.modules_told(crate):
                put(f"Rattle.{crate}.specs.{module}")
        return order

    def shares(self, found):
        """What is believed of each file, lowest first."""
        for module in self.reading_order:
            own = [(module, it.own[0]) for it in self.files[module].declarations]
            names = tuple(it[1] for it in own if it in found)
            if names:
                yield Share(self.files[module].shown, module, names, sum(self.lines[module, it] for it in names))


def problems(files=None, top=TOP):
    """Each module that is in the wrong part of its Lib.antt."""
    needed = {it[0] for it in Believed(top, files).of_all() if not isinstance(it, Place)}
    for file in sorted(top.glob("crates/*/specs/Lib.antt")):
        module = f"Rattle.{file.parent.parent.name}.specs"
        parts = file.read_text(encoding="utf-8").partition(f"-- # {PRIVATE}")
        for part, wanted, other in ((parts[0], PUBLIC, PRIVATE), (parts[2], PRIVATE, PUBLIC)):
            for name in re.findall(r"^pub mod (\w+)", part, re.M):
                if (f"{module}.{name}" in needed) != (wanted == PUBLIC):
                    yield f"{file.relative_to(top)}: {name} belongs below `{other}`"
