"""The definitions of specs/ and the laws: what each file declares and imports, and the names that each declaration uses."""

import functools
import re

from words import Names, NotRead, cut, nested, without_comments

MARKS = {"pub", "abbrev", "unfoldable"}
# Lines that declare nothing to be read.
OTHER = {"mod", "infix", "infixl", "infixr", "unfolding", "ruleset", "open"}


class Item:
    """A definition, a record or a data type; among the laws a theorem."""

    def __init__(self, name, kind, sections, statement):
        self.name = name
        self.kind = kind
        self.sections = sections  # the parameters of the modules that it stands in
        self.parameters = ""  # of a record or a data type
        self.statement = statement  # its type
        self.clauses = []
        self.members = []  # fields or constructors: (name, type)
        self.lines = 0
        self.path = None

    def where(self):
        return f"'{self.name}' in {self.path}"


class Module:
    """What a file declares, and what it imports."""

    def __init__(self):
        self.items = {}
        self.imported = {}  # name here -> (module, name there)
        self.modules = {}  # name here -> module

    def constructors(self):
        return {name: item for item in self.items.values() if item.kind == "data" for name, _ in item.members}


@functools.lru_cache(maxsize=None)
def parsed(path, text):
    """The module that a file is."""
    module = Module()
    lines = [line.rstrip() for line in without_comments(text).split("\n")]
    last = None
    for sections, block in blocks([line for line in lines if line], ()):
        try:
            last = add(module, sections, block, last)
        except NotRead as why:
            raise NotRead(f"{path}: {why}, at: {block[0].strip()}") from None
    for item in module.items.values():
        item.path = path
    return module


def signs(name):
    """The parts of a name between its arguments: of an operator its signs, of any other name itself."""
    return [sign for sign in name.split("◌") if sign]


def indent(line):
    return len(line) - len(line.lstrip())


def goes_on(first, line):
    """Whether a line belongs to the block of the first one: it is deeper, or closes a bracket."""
    return indent(line) > indent(first) or line.lstrip()[0] in ")}]"


def blocks(lines, sections):
    """The declarations and clauses of a file: each is a line with the deeper ones after it, and the parameters of the
    modules `module _ (..) where` that it stands in."""
    at = 0
    while at < len(lines):
        end = at + 1
        while end < len(lines) and goes_on(lines[at], lines[end]):
            end += 1
        block = lines[at:end]
        if block[0].split()[0] == "module":
            head = next(n for n, line in enumerate(block) if line.endswith("where")) + 1
            parameters = " ".join(block[:head]).split(None, 2)[2][: -len("where")]
            yield from blocks(block[head:], (*sections, parameters))
        else:
            yield sections, block
        at = end


def add(module, sections, block, last):
    """Adds a block to the module: an import, a declaration, or a clause of the last one, which is given back."""
    text = "\n".join(block).strip()
    first = next(word for word in text.split() if word not in MARKS)
    if first in OTHER:
        return last
    if first == "use":
        add_import(module, text)
        return last
    item = declared(sections, text)
    if item is None:
        if last is None or not set(signs(last.name)) & set(text.split()):
            raise NotRead("neither a declaration nor a clause of the one above")
        last.clauses.append(text)
        last.lines += len(block)
        return last
    if item.name in module.items:
        raise NotRead(f"'{item.name}' is declared twice")
    item.lines = len(block)
    module.items[item.name] = item
    return item


def add_import(module, text):
    found = re.fullmatch(r"(?:unfoldable )?(?:pub )?use (\S+?)(?:\.\{(.*)\}| as (\S+))?", text, re.DOTALL)
    path, names, alias = found.groups()
    if names is None:
        module.modules[alias or path.split(".")[-1]] = path
        return
    for entry in names.split(","):
        there, _, here = entry.strip().partition(" as ")
        module.imported[here or there] = (path, there)


def declared(sections, text):
    """The declaration that a block is; none where it is a clause."""
    while (word := text.split(None, 1))[0] in MARKS:
        text = word[1]
    kind = word[0] if word[0] in {"record", "data"} else "definition"
    if kind != "definition":
        head, of, body = re.fullmatch(r"\S+\s+(.*?)\s:\s([^:]*?)\bwhere\b(.*)", text, re.DOTALL).groups()
        name, _, parameters = head.partition(" ")
        item = Item(name, kind, sections, of)
        item.parameters = parameters
        item.members = list(members(body))
        return item
    found = re.match(r"(\S+)(?:\s+\{[^}:=]*\})?\s+:\s(.*)", text, re.DOTALL)
    return Item(found[1], kind, sections, found[2]) if found else None


def members(body):
    """The fields of a record or the constructors of a data type: (name, type)."""
    for _, block in blocks([line for line in body.split("\n") if line.strip()], ()):
        found = re.match(r"\s*(?:pub )?(\S+)\s+:\s(.*)", "\n".join(block), re.DOTALL)
        if not found:
            raise NotRead("a member without a type")
        yield found[1], found[2]


def names_of(item, constructs, statement_only=False):
    """The names that a declaration uses from outside. Of a theorem the statement alone is read."""
    names = Names(constructs)
    bound = frozenset()
    for parameters in (*item.sections, item.parameters):
        bound = names.bind_all(nested(parameters), bound)
    names.read(nested(item.statement), bound)
    for name, kind in item.members:
        names.read(nested(kind), bound)
        if item.kind == "record":
            bound = bound | {name}
    for clause in () if statement_only else item.clauses:
        left, right = cut(nested(clause), "=")
        if right is None:
            raise NotRead(f"a clause without '=': {clause.strip()}")
        names.read(right, bound | names.variables(left))
    return names.used
