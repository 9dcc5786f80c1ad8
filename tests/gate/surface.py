"""What users of a crate meet: its public calls and types, and what the contracts of these name.

A call is public if it is a `pub` function of a public module, if the crate hands it out by `pub use`, or if
it is a function of a public type or trait. Its contract is what its clauses say of the values that it takes and
gives. What such a value is says its type: a type with a model shows itself as the model's value, which its
view gives; another one as its fields. What a trait asks of a device is a premise of each call that takes one.

The sources are read in the layout that `rt fmt` gives: an item begins a line, deeper than the block that it
is in. A type is found by its name: in its file, or, where the file imports the name, in its crate or the nearest
crate below that has it.
"""

import re
from typing import NamedTuple, Tuple

from tests import TOP

from . import antt
from .listed import listed, with_below

NO_CODE = re.compile(r"""\bb?r(#*)"[\s\S]*?"\1|b?'(?:\\[\s\S]|[^'\\])'|"(?:\\[\s\S]|[^"\\])*"|//[^\n]*""")
ITEM = re.compile(
    r"^(?P<indent> *)(?P<pub>pub )?(?:pub\([^)]*\) )?(?:(?:unsafe|const|default|extern) +)*"
    r"(?P<kind>fn|struct|enum|trait|impl|mod|use|ghost|const|static|type)\b",
    re.M,
)
IMPL = re.compile(r"impl(?:<.*?>)? (?:(?:\w+::)*(\w+)(?:<.*?>)? for )?&?(?:mut )?(?:'\w+ )?(?:\w+::)*(\w+)")
NAMED = re.compile(r"(?:fn|struct|enum|trait|mod|ghost) (\w+)")
CLAUSE = re.compile(r"^\s+(?:requires|ensures|decreases)\b", re.M)
HANDED_OUT = re.compile(r"\bpub use ([^;]*);")
TYPE = re.compile(r"\b[A-Z]\w*")
# A field of a struct that users see.
FIELD = re.compile(r"\bpub \w+: ([^\n]*)")
MODEL = "Model"
# What a model has for the prover alone: what holds of each value, and the steps of a proof. No reader of a
# contract meets it.
INNER = ("use", "invariant", "inverse", "size", "size_decreases")


class Place(NamedTuple):
    """A type or a trait of a crate: its module and its name."""

    crate: str
    module: tuple
    name: str


class Function(NamedTuple):
    """A function, and what stands before its body."""

    name: str
    is_pub: bool
    contract: str


class Block(NamedTuple):
    """A type, a trait, or a block of functions: its ghost members and its functions."""

    kind: str
    trait: str
    name: str
    text: str
    ghosts: Tuple[str, ...]
    functions: Tuple[Function, ...]


def function_of(item, text):
    body = re.search(rf"^{item['indent']}\{{$", text, re.M)
    end = body.start() if body else len(text) if CLAUSE.search(text) else text.find("{")
    return Function(NAMED.search(text)[1], bool(item["pub"]), text[:end])


class Source:
    """A source of a crate: its module, and its items in blocks."""

    def __init__(self, folder, path):
        self.crate, self.shown = folder.name, path.relative_to(folder.parent).as_posix()
        names = path.relative_to(folder / "src").with_suffix("").parts
        self.module = names[:-1] if names[-1] in ("lib", "main", "mod") else names
        self.code = NO_CODE.sub("", path.read_text(encoding="utf-8"))
        self.uses = {}
        for item in re.findall(r"\bghost use ([^;]*);", self.code):
            self.uses.update((it.local, it) for it in antt.uses_of(antt.tokens_of("use " + item)))
        self.functions, self.blocks = [], []
        self.modules = re.findall(r"^pub mod (\w+)", self.code, re.M)
        self.imports = {word for use in re.findall(r"\buse ([^;]*);", self.code) for word in re.findall(r"\w+", use)}
        self.read([*ITEM.finditer(self.code)])

    def text_of(self, items, at):
        """An item up to the next one that is not deeper."""
        ends = (it.start() for it in items[at + 1 :] if len(it["indent"]) <= len(items[at]["indent"]))
        return self.code[items[at].start() : next(ends, len(self.code))]

    def read(self, items):
        deepest = {}
        for at, item in enumerate(items):
            indent, text = len(item["indent"]), self.text_of(items, at)
            deepest = {it: block for it, block in deepest.items() if it < indent}
            owner = deepest[max(deepest)] if deepest else None
            if item["kind"] == "fn":
                (owner.functions if owner else self.functions).append(function_of(item, text))
            elif item["kind"] == "ghost" and owner and NAMED.search(text)[1] not in INNER:
                owner.ghosts.append(text)
            elif item["kind"] in ("struct", "enum", "trait", "impl"):
                trait, name = IMPL.search(text).groups("") if item["kind"] == "impl" else ("", NAMED.search(text)[1])
                deepest[indent] = Block(item["kind"], trait, name, text, [], [])
                self.blocks.append(deepest[indent])


class Surface:
    """The sources of all crates, and what is public in them."""

    def __init__(self, top=TOP):
        self.crates = listed(top)
        self.sources, self.places, self.handed_out = {}, {}, {}
        for name, crate in self.crates.items():
            found = [Source(crate.folder, it) for it in sorted((crate.folder / "src").rglob("*.rt"))]
            self.sources[name] = {it.module: it for it in found}
            blocks = ((it, block) for it in found for block in it.blocks if block.kind != "impl")
            self.places[name] = [Place(name, it.module, block.name) for it, block in blocks]
            self.handed_out[name] = {word for it in found for use in HANDED_OUT.findall(it.code) for word in re.findall(r"\w+", use)}

    def item(self, crate, module, name):
        """The type or trait that a name means in a module, or None."""
        if Place(crate, module, name) in self.places[crate]:
            return Place(crate, module, name)
        source = self.sources[crate].get(module)
        crates = reversed(with_below(self.crates, [crate])) if source and name in source.imports else ()
        return next((it for owner in crates for it in self.places[owner] if it.name == name), None)

    def is_public(self, crate, module, name):
        opened = all(it in self.sources[crate][module[:at]].modules for at, it in enumerate(module))
        is_program = (self.crates[crate].folder / "src/main.rt").is_file()
        return not is_program and (opened or name in self.handed_out[crate])

    def blocks_of(self, crate):
        """All blocks of a crate, each with its source and the place of what it is a block of."""
        for source in self.sources[crate].values():
            for block in source.blocks:
                yield source, block, self.item(crate, source.module, block.name)

    def public_types(self, crate):
        return {it for it in self.places[crate] if self.is_public(*it)}

    def public_calls(self, crate):
        """The public functions of a crate, each with its source, its block and its path below the crate."""
        for source in self.sources[crate].values():
            for it in source.functions:
                if it.is_pub and self.is_public(crate, source.module, it.name):
                    yield source, None, it, "::".join((*source.module, it.name))
        for source, block, place in self.blocks_of(crate):
            is_foreign = place is None or place.crate != crate
            for it in block.functions if is_foreign or self.is_public(*place) else ():
                if block.kind == "trait" or block.trait or it.is_pub:
                    owner = f"{block.name} as {block.trait}" if block.trait else block.name
                    yield source, block, it, "::".join((*source.module, owner, it.name))


def shown_by(block):
    """The texts of a block that tell its users what a value is, or what a device has to do."""
    if block.trait == MODEL or block.kind == "trait":
        return [*block.ghosts, *(it.contract for it in block.functions)]
    return [block.text] if block.kind == "enum" else FIELD.findall(block.text) if block.kind == "struct" else []


class Named:
    """What the contracts name: definitions, as pairs of a module and a name, and types, as places."""

    def __init__(self, surface, names):
        self.surface, self.names = surface, names

    def of_texts(self, source, texts):
        """The definitions that texts of a source name, and the types and traits of ours."""
        found = set()
        for text in texts:
            for word in antt.words_of(antt.tokens_of(text)):
                head, _, fields = word.partition(".")
                use = source.uses.get(head)
                if use is not None and (use.name or fields):
                    found.add(self.names.origin(use.module, use.name or fields.partition(".")[0]))
            kinds = {*TYPE.findall(text)} - {*source.uses}
            found |= {self.surface.item(source.crate, source.module, it) for it in kinds} - {None}
        return found

    def of_type(self, place):
        """What a type or a trait is to those who use it."""
        own = [(source, block) for source, block, it in self.surface.blocks_of(place.crate) if it == place]
        models = [it for it in own if it[1].trait == MODEL]
        return set().union(*(self.of_texts(source, shown_by(block)) for source, block in models or own)) - {place}

    def of_call(self, source, block, function):
        """What the contract of a call names, and the type that it is a function of."""
        owner = self.surface.item(source.crate, source.module, block.name) if block else None
        return self.of_texts(source, [function.contract]) | ({owner} - {None})

    def of_impls(self, crate):
        """What the public types of a crate say of themselves where they have a trait, as devices do."""
        found, public = set(), self.surface.public_types(crate)
        for source, block, place in self.surface.blocks_of(crate):
            if block.kind == "impl" and block.trait not in ("", MODEL) and place in public:
                found |= self.of_texts(source, block.ghosts)
        return found
