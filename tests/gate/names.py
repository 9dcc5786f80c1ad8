"""What the names of files of definitions and lemmas mean, and what their declarations cite."""


class Names:
    """What the names of each file mean."""

    def __init__(self, files):
        self.files = files
        self.crates = {file.crate for file in files.values()}
        self.scopes = {module: self.scope_of(file) for module, file in files.items()}

    def origin(self, module, name):
        """The declaration that a module has under a name, or where it takes that from, as a pair.

        Names of libraries stand by themselves, since a library hands the same thing out in several
        modules. Those that the prover makes of a source of ours belong to their module.
        """
        file = self.files.get(module)
        if file is None:
            ours = self.crates.intersection(module.split(".")[1:2])
            return (module if ours else "", name)
        for declaration in file.declarations:
            if name in declaration.own:
                return (module, name)
        for use in file.uses:
            if use.is_pub and use.local == name:
                return self.origin(use.module, use.name)
        return (module, name)

    def scope_of(self, file):
        """What each name of a file means: a pair, or the name of a module."""
        scope = {}
        for use in file.uses:
            scope[use.local] = use.module if use.name is None else self.origin(use.module, use.name)
        for declaration in file.declarations:
            for name in declaration.own:
                scope[name] = (file.module, name)
        return scope

    def meaning(self, module, word):
        """What a word of a file means: a pair and the fields behind it, or None."""
        head, _, fields = word.partition(".")
        found = self.scopes[module].get(head)
        while isinstance(found, str) and fields:
            name, _, fields = fields.partition(".")
            within = f"{found}.{name}"
            found = within if within in self.files else self.origin(found, name)
        return None if found is None or isinstance(found, str) else (found, fields)


def cited_words(words):
    """The words that may name a declaration: all but the names of fields, of a record that is declared or made."""
    for before, word, after in zip(["", *words], words, [*words[1:], ""]):
        if not (before == "pub" and after == ":" or before in ("{", ";") and after == "="):
            yield word


def citations(names, file, declaration):
    """What a declaration names, apart from itself."""
    meanings = (names.meaning(file.module, word) for word in cited_words(declaration.parameters + declaration.statement + declaration.body))
    own = {(file.module, name) for name in declaration.own}
    return {meaning[0] for meaning in meanings if meaning} - own
