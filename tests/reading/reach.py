"""What the names in definitions, laws and contracts mean, and what is reached by following them."""

import re

import source
import specs
from words import NotRead

# The language's own words and names.
OWN = set("→ × ¬ ⊥ Type Unit tt absurd elim _".split())
# A clause of the code names these without an import.
VARIANTS = {"Some", "None", "Ok", "Err"}
LIMIT = re.compile(r"[iu](8|16|32|64|128|size)\.(MIN|MAX|BITS)")
# Where the files with definitions and with laws are.
SPECS = ("crates/*/specs/*.antt", "crates/*/proofs/Laws/*.antt")


class Definitions:
    """All files of specs/, of proofs/Laws/ and of src/, and what the names in them mean."""

    def __init__(self, tree):
        paths = [path for pattern in SPECS for path in tree.below(pattern)]
        self.modules = {path: specs.parsed(path, tree.text(path)) for path in paths}
        self.files = {path: source.parsed(path, tree.text(path)) for path in tree.below("crates/*/src/*.rt")}
        self.types = {}
        for path, file in self.files.items():
            for name, kind in file.types.items():
                if (path.split("/")[1], name) in self.types:
                    raise NotRead(f"{kind.where()}: a second type of this name in the crate")
                self.types[path.split("/")[1], name] = kind
        self.impls = self.spoken()  # of a trait or a type

    def spoken(self):
        """The impls that say something, by their trait, or, where the trait is the library's, by their type; and by
        both where both are ours."""
        impls = {}
        for file in self.files.values():
            for impl in file.impls:
                for thing in self.declared(impl, (impl.trait or set()) | impl.target):
                    if impl.speaks():
                        impls.setdefault(thing, set()).add(impl)
        return impls

    def declared(self, thing, names):
        """The types and traits that these names of the code mean; names of the library's mean none of ours."""
        file, crate = self.files[thing.path], thing.path.split("/")[1]
        found = set()
        for name in names:
            *path, last = name.split("::")
            home = file.crates.get(path[0] if path else last, crate)
            if path and (path[0], last) in self.types:
                home = path[0]
            found.add(self.types.get((home, last)))
        return found - {None}

    def items(self):
        return [item for module in self.modules.values() for item in module.items.values()]

    def located(self, module, name):
        """What a name of a module is: an item or a declared type, and whether it is a constructor of it; (None, ..)
        where the module is the library's."""
        found = re.fullmatch(r"Rattle\.(\w+)\.(specs|proofs)\.(.*)", module)
        if not found and module.startswith("Rattle."):
            raise NotRead(f"the module '{module}' has another form than Rattle.CRATE.specs.FILE")
        if not found or found[1] == "std":
            return None, False
        crate, room, below = found.groups()
        if room == "specs" and below.startswith("declared."):
            kind = below.removesuffix(".TheVariants").split(".")[-1]
            if (crate, kind) in self.types:
                return self.types[crate, kind], below.endswith(".TheVariants")
        path = f"crates/{crate}/{room}/{below.replace('.', '/')}.antt"
        if path in self.modules:
            item, constructs = own(self.modules[path], name)
            if item:
                return item, constructs
        raise NotRead(f"nothing declares '{name}' of {module}")

    def meaning(self, module, word):
        """What a word of a file is; (None, ..) where it is the library's or the language's."""
        head, _, rest = word.partition(".")
        if rest and head in module.modules:
            return self.located(module.modules[head], rest.split(".")[0])
        known = head in module.imported or head in module.items
        name = head if known else operators(module).get(head.strip("◌"), head)
        item, constructs = own(module, name)
        if item:
            return item, constructs
        if name in module.imported:
            return self.located(*module.imported[name])
        if name in OWN or name[0].isdigit():
            return None, False
        raise NotRead(f"'{word}' is bound, declared and imported nowhere")

    def meaning_in(self, thing):
        """The meaning of the words of a declaration, or of a contract: there also of variants, which need no import."""
        if isinstance(thing, specs.Item):
            return lambda word: self.meaning(self.modules[thing.path], word)
        file = self.files[thing.path]
        near = self.declared(thing, {*thing.types, *file.types, *file.crates})

        def meaning(word):
            try:
                return self.meaning(file.ghosts, word)
            except NotRead:
                kinds = [kind for kind in near if kind.kind == "enum" and word in kind.members]
                if len(kinds) > 1 or not (kinds or word in VARIANTS or LIMIT.fullmatch(word)):
                    raise
                return (kinds or [None])[0], not LIMIT.fullmatch(word)

        return meaning

    def constructs(self, thing):
        meaning = self.meaning_in(thing)

        def test(word):
            try:
                return meaning(word)[1]
            except NotRead:
                return False

        return test

    def uses(self, thing, statement_only=False):
        """The items and types that a declaration or a contract names."""
        try:
            if isinstance(thing, specs.Item):
                words = specs.names_of(thing, self.constructs(thing), statement_only)
                return self.named(thing, words) - {thing}
            found = self.declared(thing, thing.types) | self.impls.get(thing, set())
            words = source.names_of(thing, self.constructs(thing), self.proved(thing))
            return (found | self.named(thing, words)) - {thing}
        except NotRead as why:
            raise NotRead(f"{thing.where()}: {why}") from None

    def proved(self, thing):
        """The ghost members of an impl that are its trait's laws: their text is a proof."""
        if not isinstance(thing, source.Impl):
            return set()
        traits = self.declared(thing, thing.trait or set())
        return {law for trait in traits if isinstance(trait, source.Trait) for law in trait.laws()}

    def library(self, item):
        """The library's and the language's names that a declaration uses."""
        words = specs.names_of(item, self.constructs(item))
        return {word for word in words if self.meaning_in(item)(word)[0] is None}

    def named(self, thing, words):
        meaning = self.meaning_in(thing)
        return {meaning(word)[0] for word in words} - {None}


def own(module, name):
    """The item of a module that a name is or belongs to as a constructor, and whether it is a constructor."""
    if name in module.items:
        return module.items[name], False
    return module.constructors().get(name), True


def operators(module):
    """The signs of the operators that a file imports or declares."""
    names = [name for name in (*module.imported, *module.items) if "◌" in name]
    return {sign: name for name in names for sign in specs.signs(name)}


def is_apart(thing):
    """Whether it stands among the laws or the aids of the proofs."""
    return bool(re.search(r"/(specs/Aids|proofs/Laws)/", thing.path))


def reached(definitions, roots, unread):
    """All that the roots reach, each with what named it first. Of the things in `unread` only the statement is
    followed; what stands among laws and aids is not followed at all."""
    found = {root: None for root in roots}
    waiting = list(roots)
    while waiting:
        thing = waiting.pop()
        for used in sorted(definitions.uses(thing, thing in unread), key=lambda used: (used.path, used.name)):
            if used not in found:
                found[used] = thing
                waiting += [] if is_apart(used) else [used]
    return found
