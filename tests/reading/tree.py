"""The files of the repository. A test of this program may give some of them another text."""

import fnmatch
import os


class Tree:
    def __init__(self, root, changed=None):
        self.root = root
        self.changed = changed or {}
        self.read = {}

    def text(self, path):
        if path in self.changed:
            return self.changed[path]
        if path not in self.read:
            with open(os.path.join(self.root, path), encoding="utf8") as file:
                self.read[path] = file.read()
        return self.read[path]

    def has(self, path):
        return path in self.changed or os.path.exists(os.path.join(self.root, path))

    def below(self, pattern):
        """The files of crates/ whose path fits the pattern, in order; without crates/NAME/out/, which the checker makes."""
        found = set(self.changed)
        crates = os.path.join(self.root, "crates")
        for folder, below, names in os.walk(crates):
            if os.path.dirname(folder) == crates and "out" in below:
                below.remove("out")
            found.update(os.path.relpath(os.path.join(folder, name), self.root) for name in names)
        return sorted(fnmatch.filter(found, pattern))

    def with_text(self, path, text):
        """The same tree, but for the text of one file."""
        return Tree(self.root, {**self.changed, path: text})
