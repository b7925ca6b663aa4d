"""Whether docs/READING.md has all that a reader must read, and whether the papers cite what there is.

What must be read is what the contracts of the public calls, the promises, the worked numbers and the theorems about
tests reach (roots.py says which). A definition that none of these reaches belongs in specs/Aids/. Who reads a trait reads its impls
too: what its ghost members are at each type.
"""

import floors
import page
import reach
import roots
from papers import Paper, named_in, quoted
from source import Function
from tally import Tally

READING = "docs/READING.md"
UNIQUENESS = "docs/UNIQUENESS.md"
PAPERS = [READING, UNIQUENESS, "docs/TARE.md"]
HEADER = "include/balladmoor.h"
# The head of the column of enums in READING.md; and the library's enums, which stand in it too.
ENUMS = "Enum: its cases"
LIBRARY = {"Option", "Result"}


class Reading:
    """A tree's definitions and papers, what must be read, and what is wrong."""

    def __init__(self, tree):
        self.tree = tree
        self.tally = Tally()
        self.definitions = reach.Definitions(tree)
        self.papers = {path: Paper(path, tree.text(path)) for path in PAPERS}
        self.reached = self.follow()
        self.to_read = {}  # by file
        for thing in self.reached:
            self.to_read.setdefault(thing.path, []).append(thing)
        self.check_rooms()
        self.check_enums()
        self.check_citations()
        page.check(self.papers[READING], self.to_read, self.tally)
        page.check_order(self.papers[READING], self.named_files(), self.tally)
        floors.check(tree.text("crates.txt"), Paper("README.md", tree.text("README.md")), self.tally)

    def follow(self):
        """What must be read, each with what named it first."""
        listed = {cite for row in self.papers[UNIQUENESS].table("Call") for cite in named_in(row.cells["Call"])}
        self.calls = roots.calls(self.definitions, self.tree.text(HEADER), listed, self.tally)
        statements = roots.statements(self.definitions, self.tally)
        laws, self.unread = roots.theorems(self.definitions, self.papers[READING], self.tally)
        found = reach.reached(self.definitions, [*self.calls, *statements, *laws], self.unread | set(laws))
        return {thing: by for thing, by in found.items() if thing not in laws and not isinstance(thing, Function)}

    def named_files(self):
        """The files whose definitions each file names, in what is read of it."""
        named = {}
        for thing in self.reached:
            used = set() if reach.is_apart(thing) else self.definitions.uses(thing, thing in self.unread)
            named.setdefault(thing.path, set()).update(other.path for other in used if other.path != thing.path)
        return named

    def check_rooms(self):
        """A definition is beside the laws and aids exactly where it must be read, and then READING.md cites it."""
        cited = {(path, name) for _, path, name in self.papers[READING].names}
        for item in self.definitions.items():
            if not reach.is_apart(item):
                needless = f"{item.where()} is reached by no contract and no promise: it belongs in specs/Aids/"
                self.tally.check(item in self.reached, needless)
        for thing, by in self.reached.items():
            named = f"{by.where() if by else 'a promise'} names {thing.where()}"
            self.tally.check(not reach.is_apart(thing), f"{named}, so that it must be read, and is no aid and no law")
            is_cited = (thing.path, thing.name) in cited
            self.tally.check(is_cited, f"{thing.where()} must be read, and no row of {READING} cites it")

    def check_enums(self):
        """Each enum that must be read, or that is the library's and is named in what must be read, stands in the table of
        enums, with definitions that go by its cases."""
        paper, of_row, said = self.papers[READING], [], set()
        for row in paper.table(ENUMS):
            of_row = quoted(row.cells[ENUMS]) or of_row
            for path, name in row.cites():
                items = self.definitions.modules[path].items if path in self.definitions.modules else {}
                used = self.spoken_of(items[name]) if name in items else set()
                said |= used & set(of_row)
                speaks = f"{paper.path}, line {row.line}: '{name}' of {path} does not speak of {' and '.join(of_row)}"
                self.tally.check(used & set(of_row) or not items, speaks)
        for thing in self.reached:
            if thing.path.endswith(".rt") and thing.kind == "enum":
                self.tally.check(thing.name in said, f"{thing.where()} is an enum that {READING} has in no row of '{ENUMS}'")
        read = [thing for thing in self.reached if not thing.path.endswith(".rt") and not reach.is_apart(thing)]
        for name in sorted(LIBRARY & {word for thing in read for word in self.definitions.library(thing)}):
            self.tally.check(name in said, f"'{name}' of the library is an enum that {READING} has in no row of '{ENUMS}'")

    def spoken_of(self, item):
        """The names of our types and of the library's enums that a definition uses."""
        return {thing.name for thing in self.definitions.uses(item)} | LIBRARY & self.definitions.library(item)

    def check_citations(self):
        for paper in self.papers.values():
            self.tally.check(paper.names, f"{paper.path}: no name is cited in the whole paper")
            names = {name for _, _, name in paper.names}
            for line, path, name in paper.names:
                here = f"{paper.path}, line {line}"
                self.tally.check(self.declares(path, name), f"{here}: '{name}' is not declared in {path}")
            for line, what in paper.others:
                here = f"{paper.path}, line {line}"
                known = what in names or what in LIBRARY or self.tree.has(what)
                self.tally.check(known, f"{here}: '{what}' is no file here, and no row cites it with its file")
            for row in paper.rows:
                empty = "Name" in row.cells and not quoted(row.cells["Name"])
                self.tally.check(not empty, f"{paper.path}, line {row.line}: a row without a name")

    def declares(self, path, name):
        """Whether a file of specs/ or src/ declares the name: also a field, a constructor, a variant or a constant."""
        if path in self.definitions.modules:
            items = self.definitions.modules[path].items.values()
            return any(name == item.name or name in dict(item.members) for item in items)
        if path in self.definitions.files:
            file = self.definitions.files[path]
            things = [*file.types.values(), *file.impls]
            members = [member for thing in things for member in (thing.name, *thing.members)]
            return name in [function.name for function in file.functions] + [*members, *file.constants]
        return False
