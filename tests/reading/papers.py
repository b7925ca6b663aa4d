"""The papers in docs/: their tables, and what they cite in backticks.

- In a table with the columns Crate, File and Name, each name must be declared in crates/CRATE/FILE.
- In a table with the column Open, `CRATE/FILE` is crates/CRATE/specs/FILE.antt, and `CRATE/src/FILE.rt` itself.
- `NAME`, `crates/PATH` (or `NAME` of `crates/PATH`, `NAME` in `crates/PATH`): the name must be declared in that file.
- `crate::module::name`: the name must be declared in crates/CRATE/src/MODULE.rt, without a module in src/lib.rt;
  `crate::module::Type::name` too, which is a function of the type.
- Anything else must be a file or a folder here, or a name that the same paper cites in one of these ways.
"""

import re

IN_FILE = re.compile(r"`([^` /]+)`(?:,| of|, in| in) `(crates/[^`]+)`")
IN_CODE = re.compile(r"[a-z_]+(::[a-z_]+)*(::[A-Z]\w*)?::[a-z_]+")


class Row:
    """A row of a table: its cells by the heads of their columns."""

    def __init__(self, line, cells):
        self.line = line
        self.cells = cells

    def cites(self):
        """(path, name) of each name that its columns Crate, File and Name cite."""
        if not {"Crate", "File", "Name"} <= self.cells.keys():
            return []
        crate, file = quoted(self.cells["Crate"]), quoted(self.cells["File"])
        return [(f"crates/{''.join(crate)}/{''.join(file)}", name) for name in quoted(self.cells["Name"])]

    def opens(self):
        """The files that its column Open names."""
        return [opened(short) for short in quoted(self.cells.get("Open", ""))]

    def text(self):
        """What else it says."""
        read = {"Open"} | ({"Crate", "File", "Name"} if self.cites() else set())
        return " | ".join(cell for head, cell in self.cells.items() if head not in read)


class Paper:
    def __init__(self, path, text):
        self.path = path
        self.lines = text.split("\n")
        self.rows = list(rows_of(self.lines))
        self.names = []  # (line, path of a file, name in it)
        self.others = []  # (line, what else stands in backticks)
        in_tables = {row.line for row in self.rows}
        for row in self.rows:
            self.names += [(row.line, path, name) for path, name in row.cites()]
            self.read(row.line, row.text())
        for number, line in enumerate(self.lines, 1):
            if number not in in_tables:
                self.read(number, line)

    def read(self, number, text):
        self.names += [(number, path, name) for path, name in named_in(text)]
        rest = quoted(IN_FILE.sub("", text))
        self.others += [(number, other) for other in rest if not IN_CODE.fullmatch(other)]

    def table(self, *heads):
        """The rows of the tables that have these columns."""
        return [row for row in self.rows if set(heads) <= row.cells.keys()]


def quoted(text):
    """What stands in backticks."""
    return re.findall(r"`([^`]*)`", text)


def opened(short):
    if short.endswith(".rt"):
        return f"crates/{short}"
    crate, _, file = short.partition("/")
    return f"crates/{crate}/specs/{file}.antt"


def named_in(text):
    """(path, name) of each name that a text cites with its file."""
    found = [(path, name) for name, path in IN_FILE.findall(text)]
    for other in quoted(IN_FILE.sub("", text)):
        if IN_CODE.fullmatch(other):
            crate, *modules, name = other.split("::")
            modules = [module for module in modules if module.islower()]
            found.append((f"crates/{crate}/src/{modules[0] if modules else 'lib'}.rt", name))
    return found


def rows_of(lines):
    heads = None
    for number, line in enumerate(lines, 1):
        cells = [cell.strip() for cell in line.strip().strip("|").split("|")]
        if not line.startswith("|"):
            heads = None
        elif heads is None:
            heads = cells
        elif not re.fullmatch(r"[-| ]+", line):
            yield Row(number, dict(zip(heads, cells)))
