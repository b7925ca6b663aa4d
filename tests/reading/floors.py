"""The floors of crates.txt: each crate uses only those above it, and README.md shows the same crates by the same floors."""

import re

from papers import quoted

# A crate's line: its name, what it is if not a library of Rattle alone, and the crates that it uses.
LINE = re.compile(r"(\w+)(?: staticlib)?:(.*)")
HEADS = ("Floor", "What it is", "Its crates")


def listed(text):
    """(floor, what it is, its crates) by the comments of crates.txt: '# FLOOR: WHAT IT IS.' stands above its lines."""
    floors = []
    for line in text.split("\n")[1:]:
        if found := re.fullmatch(r"# (.*?): (.*)\.", line):
            floors.append((found[1], found[2], []))
        elif line and floors:
            floors[-1][2].append(named(line))
    return floors


def named(line):
    """The crate that a line is for; the line itself where it is none."""
    found = LINE.fullmatch(line)
    return found[1] if found else line


def check(text, readme, tally):
    above = set()
    crates = {found[1] for line in text.split("\n") if (found := LINE.fullmatch(line))}
    for line in text.split("\n"):
        if found := LINE.fullmatch(line):
            later = sorted(set(found[2].split()) & crates - above)
            tally.check(not later, f"crates.txt: {found[1]} stands above {', '.join(later)}, which it uses")
            above.add(found[1])
    shown = [(*(row.cells[head] for head in HEADS[:2]), quoted(row.cells[HEADS[2]])) for row in readme.table(*HEADS)]
    for floor in listed(text):
        tally.check(floor in shown, f"{readme.path} shows the floor '{floor[0]}' otherwise than crates.txt: {floor}")
    count = sum(len(floor[2]) for floor in listed(text))
    tally.check(count == len(crates) > 0, "crates.txt: a crate stands on no floor")
    tally.check(len(shown) == len(listed(text)), f"{readme.path} shows floors that crates.txt has not")
