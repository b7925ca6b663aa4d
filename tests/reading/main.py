"""The checks on this repository, and the tests of these checks. --write puts today's numbers on READING.md's first page
before."""

import os
import sys

import page
import tried
from reading import READING, Reading
from tree import Tree
from words import NotRead

ROOT = os.path.join(os.path.dirname(os.path.abspath(__file__)), "..", "..")


def write_numbers():
    found = Reading(Tree(ROOT))
    text = page.rewritten(found.papers[READING], found.to_read)
    with open(os.path.join(ROOT, READING), "w", encoding="utf8") as file:
        file.write(text)


def main():
    try:
        if sys.argv[1:] == ["--write"]:
            write_numbers()
        found = Reading(Tree(ROOT))
        tried.try_all(found)
    except NotRead as why:
        print(f"tests/reading does not read this form: {why}")
        print("0 passed, 1 failed")
        return 1
    for what in found.tally.wrong:
        print(what)
    lines = sum(thing.lines for thing in found.reached)
    print(f"to be read: {len(found.reached)} definitions and types, {lines} lines, in {len(found.to_read)} files")
    print(f"{found.tally.passed} passed, {len(found.tally.wrong)} failed")
    return 1 if found.tally.wrong else 0


sys.exit(main())
