"""The first page of READING.md: which files to open, step by step, with how many definitions and lines each step has.

A row that opens nothing has sums of the rows above it: of all; or, where it speaks of document 01, without the steps in
italics, which are beyond that paper.
"""

HEADS = ("Step", "Open", "Definitions", "Lines")


def counted(paper, to_read):
    """(row, its cells by their heads as they are today) of each row. to_read has what is to be read, by its file."""
    above = []
    for row in paper.table(*HEADS):
        if row.opens():
            above.append(row)
            definitions, lines = size_of([row], to_read)
            yield row, {"Definitions": f"{definitions:,}", "Lines": f"{lines:,}"}
        else:
            summed = [step for step in above if "document 01" not in row.cells["Step"] or step.cells["Step"][0] != "*"]
            definitions, lines = size_of(summed, to_read)
            files = sum(len(step.opens()) for step in summed)
            yield row, {"Open": f"{files} files", "Definitions": f"{definitions:,}", "Lines": f"{lines:,}"}


def size_of(steps, to_read):
    """How many definitions and lines are to be read in the files that these steps open."""
    things = [thing for step in steps for path in step.opens() for thing in to_read.get(path, [])]
    return len(things), sum(thing.lines for thing in things)


def rewritten(paper, to_read):
    """The paper's text with today's numbers."""
    text = list(paper.lines)
    for row, cells in counted(paper, to_read):
        row_now = {**row.cells, **cells}
        text[row.line - 1] = "| " + " | ".join(row_now.values()) + " |"
    return "\n".join(text)


def check(paper, to_read, tally):
    """Each file that has something to be read is opened once, and the numbers are today's."""
    opened = {}
    for row, cells in counted(paper, to_read):
        here = f"{paper.path}, line {row.line}"
        for path in row.opens():
            tally.check(path not in opened, f"{here}: {path} is opened in line {opened.get(path)} too")
            tally.check(path in to_read, f"{here}: {path} has nothing that must be read: open it nowhere")
            opened[path] = row.line
        for head, now in cells.items():
            was = row.cells[head]
            tally.check(was == now, f"{here}: '{was}' is '{now}' today; tests/reading/run --write puts it there")
    for path in sorted(to_read):
        names = ", ".join(thing.name for thing in to_read[path])
        tally.check(path in opened, f"{paper.path}: no step of the first page opens {path}, which has {names}")


def check_order(paper, named, tally):
    """A file is opened after those whose definitions it names: named has these for each file. (The types of the code
    stand together, wherever they are named.)"""
    opened = [path for row in paper.table(*HEADS) for path in row.opens() if path.endswith(".antt")]
    for at, path in enumerate(opened):
        later = sorted(named.get(path, set()) & set(opened[at + 1 :]))
        tally.check(not later, f"{paper.path}: the first page opens {path} before {', '.join(later)}, which it names")
