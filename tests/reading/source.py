"""The code in src/: the functions with their contracts, the types and traits that it declares, and what its impls say."""

import functools
import re

import items
from specs import Module, add_import
from words import Names, NotRead, nested

CAPITAL = re.compile(r"(?:\b[a-z]\w*::)*\b[A-Z]\w*")
GHOST = re.compile(r"\s*ghost (\w+)\s*(?::\s*\{(.*)\}|=\s*\{(.*)\})\s*", re.DOTALL)
TYPE = re.compile(r"(?:pub )?(struct|enum) (\w+)(<[^()]*>)?\s*(\(.*\))?\s*", re.DOTALL)
TRAIT = re.compile(r"(?:pub )?trait (\w+)(<.*>)?\s*(?::(.*))?\s*", re.DOTALL)
# A member of a struct or an enum, up to its comma.
MEMBER = re.compile(r"(?:#\[[^\]]*\]\s*)*(?:pub )?([A-Za-z_]\w*)\s*(?::.*|\(.*\)|\{.*\}|= \w+)?", re.DOTALL)


class Function:
    def __init__(self, item, within=None):
        if not item.inside and not (within and within.is_trait()):
            item.source.refuse("a function without a body", item.start)
        self.name = item.name
        self.given = item.given  # what comes in, as it is written
        self.answered = item.answered
        self.public = item.public
        self.for_c = item.for_c
        self.parameters = {"self", "result"} | set(re.findall(r"(\w+)\s*:(?!:)", item.given)) | bound_by(item.generics)
        self.types = capitals(item.generics + item.given + item.answered)  # names with a capital letter
        self.clauses = item.clauses  # (requires or ensures, text)
        self.path = item.source.path
        if within:
            self.parameters |= within.parameters
            self.types |= within.types if "Self" in self.types or re.search(r"\bself\b", self.given) else set()

    def promises(self):
        return any(what == "ensures" for what, _ in self.clauses)

    def asks(self):
        return any(what == "requires" for what, _ in self.clauses)

    def said(self, proved=frozenset()):
        """(text, the names bound in it) of all that it says by definitions."""
        return [(text, self.parameters) for _, text in self.clauses]

    def says(self, definitions):
        """What comes in, what is answered and what is asked and promised, by the word; and what these words mean."""
        words = [self.given, self.answered, *(word for clause in self.clauses for word in clause)]
        return [word.split() for word in words], definitions.uses(self)

    def where(self):
        return f"the contract of '{self.name}' in {self.path}"


class Declared:
    """What src/ declares beside functions: a struct, an enum, a trait, or an impl of a trait."""

    def __init__(self, kind, name, item, lines):
        self.kind = kind
        self.name = name
        self.members = []  # fields, variants, ghost members
        self.types = set()
        self.lines = len([line for line in lines.split("\n") if line.strip()])
        self.path = item.source.path

    def said(self, proved=frozenset()):
        return []

    def where(self):
        return f"'{self.name}' in {self.path}"


class Type(Declared):
    """A struct or an enum."""

    def __init__(self, item):
        found = TYPE.fullmatch(item.head)
        if not found:
            item.source.refuse("a type's head of a form that is not known", item.start)
        super().__init__(found[1], found[2], item, item.text())
        self.types = capitals(item.text()) - {self.name}
        for text in parts_of(item):
            member = MEMBER.fullmatch(text)
            if not member:
                item.source.refuse(f"a member of '{self.name}' of a form that is not known: '{text}'", item.start)
            self.members.append(member[1])


class Within(Declared):
    """A trait, or an impl: its functions and its ghost members, which say what holds of them."""

    def __init__(self, kind, name, item):
        if not item.inside:
            item.source.refuse(f"'{name}' has no braces", item.start)
        self.items = list(items.items(item.source, *item.inside, items.WITHIN))
        super().__init__(kind, name, item, item.head + "\n" + "\n".join(self.lines_of(item.source)))
        self.ghosts = {}  # name -> text: in a trait its type, in an impl what it is
        self.parameters = {"Self"}
        for member in self.items:
            if member.kind == "ghost":
                self.add_ghost(member)
            elif member.kind == "type":
                self.types |= capitals(member.head)

    def lines_of(self, source):
        """Of a function the head alone is to be read; in an impl of a trait the trait's contract stands for it."""
        for member in self.items:
            if member.kind == "fn":
                yield member.head if self.is_trait() or member.clauses else ""
            else:
                yield member.text()

    def is_trait(self):
        return False

    def add_ghost(self, member):
        found = GHOST.fullmatch(member.head)
        text = found and found[2 if self.is_trait() else 3]
        if text is None or found[1] in self.ghosts:
            member.source.refuse("a ghost member of a form that is not known there", member.start)
        self.ghosts[found[1]] = text
        self.members.append(found[1])

    def add_functions(self, public):
        self.functions = [Function(member, self) for member in self.items if member.kind == "fn"]
        for function in self.functions:
            function.public = function.public or public

    def said(self, proved=frozenset()):
        """What its ghost members are, and its functions' contracts. Of a member that is proved the text says nothing."""
        ghosts = [(text, self.parameters) for name, text in self.ghosts.items() if name not in proved]
        return ghosts + [said for function in self.functions for said in function.said()]


class Trait(Within):
    def __init__(self, item):
        found = TRAIT.fullmatch(item.head)
        if not found:
            item.source.refuse("a trait's head of a form that is not known", item.start)
        super().__init__("trait", found[1], item)
        self.parameters |= set(self.ghosts) | bound_by(found[2] or "")
        self.types |= capitals((found[2] or "") + (found[3] or ""))
        self.add_functions(item.public)
        for function in self.functions:
            self.types |= function.types - {"Self"}
        self.types -= {self.name}

    def is_trait(self):
        return True

    def laws(self):
        """The ghost members behind its last function are facts: each impl proves them."""
        last = max((at for at, member in enumerate(self.items) if member.kind == "fn"), default=len(self.items))
        return {GHOST.fullmatch(member.head)[1] for member in self.items[last + 1 :] if member.kind == "ghost"}


class Impl(Within):
    """What it is for says which type; `trait` is none where the functions are the type's own."""

    def __init__(self, item):
        generics, rest = generics_of(item)
        trait, is_of_trait, target = rest.rpartition(" for ")
        super().__init__("impl", " ".join(rest.split()), item)
        self.trait = capitals(re.sub(r"<.*>", "", trait)) if is_of_trait else None
        self.target = capitals(re.sub(r"<.*>", "", target))
        self.types |= capitals(rest + generics)
        self.parameters |= bound_by(generics)
        if self.ghosts and not is_of_trait:
            item.source.refuse("a ghost member in an impl of no trait", item.start)
        self.add_functions(False)

    def speaks(self):
        """Whether it says more than its functions do, or than the trait says already."""
        types = any(member.kind == "type" for member in self.items)
        return self.trait is not None and bool(self.said() or types)


class File:
    def __init__(self):
        self.functions = []
        self.types = {}  # structs, enums and traits
        self.impls = []
        self.crates = {}  # what it imports -> its crate
        self.ghosts = Module()  # what its contracts import
        self.constants = []


def capitals(text):
    return set(CAPITAL.findall(text))


def bound_by(generics):
    """The names that <..> binds: types and constants, without lifetimes."""
    flat, left = generics.replace("->", "")[1:-1], None
    while flat != left:
        flat, left = re.sub(r"<[^<>]*>|\([^()]*\)", "", flat), flat
    return set(re.findall(r"(?:^|,)\s*(?:const )?(\w+)", flat))


def generics_of(item):
    """<..> of an impl, and what stands behind it."""
    head = item.head.removeprefix("impl")
    if not head.startswith("<"):
        return "", head.strip()
    at = item.source.closed(item.start + len("impl"))
    return item.source.text[item.start + len("impl") : at], item.source.text[at : item.start + len(item.head)].strip()


def parts_of(item):
    """The members of a type's braces, between their commas."""
    if not item.inside:
        return
    at, end = item.inside
    while at < end:
        after = at
        while after < end and item.source.plain[after] != ",":
            after = item.source.closed(after) if item.source.plain[after] in "({[<" else after + 1
        if text := item.source.text[at:after].strip():
            yield text
        at = after + 1


@functools.lru_cache(maxsize=None)
def parsed(path, text):
    source, file = items.Source(path, text), File()
    for item in items.items(source, 0, len(source.text), items.TOP):
        READ[item.kind](file, item)
    return file


def read_import(file, item):
    crate, names = imported(item.head.removeprefix("pub ").removeprefix("use "))
    here = item.source.path.split("/")[1]
    file.crates |= dict.fromkeys(names, here if crate == "crate" else crate)


def read_ghost_import(file, item):
    add_import(file.ghosts, item.head.removeprefix("ghost "))


def read_constant(file, item):
    found = re.match(r"(?:pub )?const (\w+)\s*:", item.head)
    if not found:
        item.source.refuse("a constant of a form that is not known", item.start)
    file.constants.append(found[1])


def read_type(file, item):
    declared = Trait(item) if item.kind == "trait" else Type(item)
    if declared.name in file.types:
        item.source.refuse(f"'{declared.name}' is declared twice", item.start)
    file.types[declared.name] = declared
    if item.kind == "trait":
        file.functions += declared.functions


def read_impl(file, item):
    impl = Impl(item)
    file.impls.append(impl)
    file.functions += impl.functions
    for member in impl.items:
        if member.kind == "const":
            read_constant(file, member)


READ = {
    **{"use": read_import, "ghost use": read_ghost_import, "const": read_constant, "mod": lambda file, item: None},
    **{"struct": read_type, "enum": read_type, "trait": read_type, "impl": read_impl},
    "fn": lambda file, item: file.functions.append(Function(item)),
}


def imported(text):
    """The crate that an import names, and the names that stand in it: `CRATE::NAME`, `CRATE::{NAME, MODULE::NAME}`,
    `CRATE::MODULE::{NAME, NAME}`."""
    path, inside, names = "".join(text.split()).partition("{")
    names = names.removesuffix("}").split(",") if inside else [path.split("::")[-1]]
    named = [name for name in names if name]
    if " as " in text or any(re.search(r"[^\w:]", name) for name in (path, *named)):
        raise NotRead(f"the import '{text}'")
    return path.split("::")[0], [name.split("::")[-1] for name in named]


def names_of(thing, constructs, proved=frozenset()):
    """The names that a contract, a trait or an impl uses from outside; without those of the members that are proved."""
    names = Names(constructs)
    for text, bound in thing.said(proved):
        names.read(nested(text), frozenset(bound))
    return names.used
