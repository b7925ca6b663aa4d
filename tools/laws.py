#!/usr/bin/env python3
"""Moves the laws of every crate from specs/ to proofs/, with no word of them changed but their imports.

usage: python3 tools/laws.py [FOLDER]    in the repository, or over FOLDER: moves and rewrites the files in place, once

specs/Laws.antt and specs/Laws/ become proofs/Laws.antt and proofs/Laws/, and every path that names them says so. An edit of a
definition is then refused by the laws that rest on it: while they stood in specs/, the definitions themselves could not be read.
"""

import os
import re
import sys


def files(root):
    for folder, dirs, names in os.walk(os.path.join(root, "crates")):
        dirs[:] = sorted(d for d in dirs if d != "out")
        for n in sorted(names):
            if n.endswith((".antt", ".rt", ".edit")):
                yield os.path.join(folder, n)


def rewrite(path, change):
    with open(path, encoding="utf-8") as f:
        text = f.read()
    changed = change(text)
    if changed != text:
        with open(path, "w", encoding="utf-8") as f:
            f.write(changed)


def move(crate):
    specs, proofs = os.path.join(crate, "specs"), os.path.join(crate, "proofs")
    if not os.path.isdir(os.path.join(specs, "Laws")):
        return False
    os.makedirs(proofs, exist_ok=True)
    os.rename(os.path.join(specs, "Laws"), os.path.join(proofs, "Laws"))
    os.rename(os.path.join(specs, "Laws.antt"), os.path.join(proofs, "Laws.antt"))
    root = os.path.join(specs, "Lib.antt")
    rewrite(root, lambda t: re.sub(r"(?m)^pub mod Laws\n", "", t))
    with open(root, encoding="utf-8") as f:
        left = [line for line in f if not line.startswith("--") and line.strip()]
    if not left:
        # definitions there are none: the laws were all that it had
        os.remove(root)
        os.rmdir(specs)
    node = os.path.join(proofs, "Lib.antt")
    if os.path.exists(node):
        rewrite(node, lambda t: t.rstrip("\n") + "\npub mod Laws\n")
    else:
        with open(node, "w", encoding="utf-8") as f:
            f.write("-- What the proofs rest on: the laws of the definitions in specs/, in the same order.\npub mod Laws\n")
    return True


def main(argv):
    root = argv[0] if argv else "."
    top = os.path.join(root, "crates")
    moved = [c for c in sorted(os.listdir(top)) if move(os.path.join(top, c))]
    for p in files(root):
        rewrite(p, lambda t: re.sub(r"(Rattle\.\w+)\.specs\.Laws\b", r"\1.proofs.Laws", re.sub(r"(?m)^file: specs/Laws", "file: proofs/Laws", t)))
    print(f"{len(moved)} crates")
    return 0


if __name__ == "__main__":
    raise SystemExit(main(sys.argv[1:]))
