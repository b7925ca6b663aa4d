#!/usr/bin/env python3
"""Brings the repository's own definitions and lemmas to snake case, and its types to camel case.

usage: python3 tools/spelling.py [FOLDER]    in the repository, or over FOLDER: rewrites the files in place, once

It reads every name that a file of specs/ or proofs/ declares or binds, leaves the names of the libraries alone, and renames the
others wherever they stand: definitions, laws, clauses, imports, must-fail edits, and in backticks on the pages of docs/.
A lemma whose new name a definition takes gets _lem after it.
"""

import collections
import os
import re
import sys

TOKEN = re.compile(r"[^\s:(){},;λ←→↦=.\"\[\]|⟦⟧`]+")
SPLIT = re.compile(r"([^\s:(){},;λ←→↦=.\"\[\]|⟦⟧`]+)")
DECLARED = re.compile(r"^(\s*)((?:unfoldable |abbrev |pub |ruleset |data |record )*)([^\s:(){},;λ←→↦=.\"\[\]|]+)((?: [^:=]*)?)\s*:\s(.*)$")
USE = re.compile(r"(?:pub )?(?:ghost )?use (.*?)(?:\.\{([^}]*)\})?(?: as \S+)?;?$")
# Names that say a type and begin with a small letter, two whose parts are no words, and a field: a definition has its name too, but
# never in the same file.
BY_HAND = {
    "markedUnlessBad": "MarkedUnlessBad",
    "marksIf": "MarksIf",
    "walkedBy": "WalkedBy",
    "visitedBy": "VisitedBy",
    "The-row": "TheRow",
    "not-Free": "not_free",
    "is-file": "is_file",
}


def files(root, *endings):
    for top in ("crates",):
        for folder, dirs, names in os.walk(os.path.join(root, top)):
            dirs[:] = sorted(d for d in dirs if d != "out")
            for n in sorted(names):
                if n.endswith(endings):
                    yield os.path.join(folder, n)


def read(path):
    with open(path, encoding="utf-8") as f:
        return f.read()


def parts(line):
    """The line cut into code, texts in quotes, and a comment: each with its kind."""
    m = re.match(r"^\s*(--|//)", line)
    if m:
        return [("comment", line)]
    found, at = [], 0
    for m in re.finditer(r'"(?:[^"\\]|\\.)*"|(?:(?<=\s)--|//).*$', line):
        found.append(("code", line[at : m.start()]))
        found.append(("text" if m.group(0).startswith('"') else "comment", m.group(0)))
        at = m.end()
    found.append(("code", line[at:]))
    return found


def mixed(t):
    if "◌" in t or t.startswith("-") or re.match(r"^\d", t):
        return False
    return ("-" in t) or bool(re.match(r"^[a-z]\w*[A-Z]", t)) or t in BY_HAND


def is_walk(path):
    return path.endswith("Proof.antt")


def gather(root):
    """What the files of specs/ and proofs/ declare, and what they take from libraries."""
    own = set(os.listdir(os.path.join(root, "crates")))
    declared, foreign, tokens = {}, set(), collections.defaultdict(set)
    for p in files(root, ".antt"):
        if is_walk(p):
            continue
        for line in read(p).split("\n"):
            s = line.strip()
            m = USE.match(s)
            if m and re.match(r"(pub )?use ", s):
                steps = m.group(1).split(".")
                mine = steps[0] == "Rattle" and len(steps) > 1 and steps[1] in own
                if m.group(2) and not mine:
                    foreign |= {n.strip().split(" as ")[0] for n in m.group(2).split(",")}
                if m.group(2):
                    tokens[p] |= {n.strip() for n in m.group(2).split(",")}
                continue
            m = DECLARED.match(line)
            if m:
                declared.setdefault(m.group(3), []).append((p, m.group(2)))
            for kind, text in parts(line):
                if kind == "code":
                    tokens[p] |= set(TOKEN.findall(text))
    return declared, foreign, tokens


def snake(t, facts):
    if t in BY_HAND:
        return BY_HAND[t]
    said = []
    for part in t.split("-"):
        said.append(part if part in facts else re.sub(r"(?<=[a-z0-9])([A-Z])", r"_\1", part).lower())
    return "_".join(said)


def renaming(root):
    declared, foreign, tokens = gather(root)
    facts = {n for n in declared if re.match(r"^[A-Z]\w*[a-z]", n)}
    every = set().union(*tokens.values())
    old = sorted(t for t in every if mixed(t) and t not in foreign)
    new = {t: snake(t, facts) for t in old}
    by = collections.defaultdict(list)
    for t, n in new.items():
        by[n].append(t)
    for n, olds in by.items():
        lemmas = [t for t in olds if "-" in t and t not in BY_HAND]
        if len(olds) > 1:
            for t in lemmas:
                new[t] = n + "_lem"
        elif n in declared and n not in new and not set(olds) & set(BY_HAND):
            # a lemma that has the name already gives it up to a definition, and keeps it before another lemma
            if lemmas:
                new[lemmas[0]] = n + "_lem"
            else:
                new[n] = n + "_lem"
    return new, foreign, tokens


def turn(text, new, skip=()):
    pieces = SPLIT.split(text)
    for i in range(1, len(pieces), 2):
        t = pieces[i]
        if t in new and t not in skip:
            pieces[i] = new[t]
    return "".join(pieces)


def turn_comment(text, new):
    """In a comment only names that can be no plain words: those with a capital inside."""
    return turn(text, {t: n for t, n in new.items() if "-" not in t and t != n and re.match(r"^[a-z]\w*[A-Z]", t)})


def turn_line(line, new, skip=()):
    return "".join(turn_comment(t, new) if kind == "comment" else t if kind == "text" else turn(t, new, skip) for kind, t in parts(line))


def turn_proof(text, new):
    """A proof that names its goals: what it declares of them, and what stands behind a goal's context, keeps its name."""
    goals = set(re.findall(r"(?m)^(?:abbrev |pub )*([^\s:]+) : (?:\{M : Type 1\} → )?(?:tie\.|statement)", text))
    kept = []
    for line in text.split("\n"):
        held = {}

        def hold(m):
            held[f"⟨{len(held)}⟩"] = m.group(0)
            return f"⟨{len(held) - 1}⟩"

        line = re.sub(r"\b(?:tie|[cwvu])\.[^\s(){},;\[\]|]+", hold, line)
        line = turn_line(line, new, goals)
        for k, v in held.items():
            line = line.replace(k, v)
        kept.append(line)
    return "\n".join(kept)


def turn_source(text, new):
    """In code only what a clause or an import says: names with a capital inside, which code has none of."""
    camel = {t: n for t, n in new.items() if re.match(r"^[a-z]\w*[A-Z]", t) and "-" not in t}
    said, clause = [], False
    for line in text.split("\n"):
        if line.startswith("ghost use"):
            said.append(turn_line(line, new))
        else:
            said.append(turn_line(line, camel))
    return "\n".join(said)


def turn_edit(text, new):
    said = []
    for l in text.split("\n"):
        if re.match(r"(old|new): ", l):
            l = re.sub(r"Rattle·(\w+)(?:·(?:specs|proofs))?\.(specs|proofs)\.", r"Rattle.\1.\2.", l)
            l = re.sub(r"(?<=[\w)'′]) \.(?=[a-z0-9])", ".", l) if "specs/" in text else l
            if "specs/" in text:
                l = re.sub(r"\(([a-z]\w*\.\w+)\)", r"\1", l)
            l = re.sub(r"\b_([-+*/%])_", r"◌\1◌", l)
            l = turn_line(l.replace("getD ", "get_or ").replace("′", "'"), new)
        else:
            l = turn_comment(l, new)
        said.append(l)
    return "\n".join(said)


def older_words(root, new):
    """Names that stand in snake case in specs/ already, as an edit or a page may still have them."""
    declared, foreign, tokens = gather(root)
    every = set(declared) | set().union(*tokens.values()) | set(new.values())
    said = dict(new)
    for p in [*files(root, ".edit"), *pages(root)]:
        for t in TOKEN.findall(read(p)):
            if mixed(t) and t not in said and t not in foreign:
                n = snake(t, ())
                if n in every:
                    said[t] = n
    return said


def pages(root):
    docs = os.path.join(root, "docs")
    return [os.path.join(docs, n) for n in sorted(os.listdir(docs)) if n.endswith(".md") and not n.startswith("PORT")] if os.path.isdir(docs) else []


def turn_page(text, new):
    return re.sub(r"`[^`\n]*`", lambda m: turn(m.group(0), new), text)


def main(argv):
    root = argv[0] if argv else "."
    new, foreign, tokens = renaming(root)
    for p, ts in sorted(tokens.items()):
        # a name that a file gets and has already
        here = {new[t] for t in ts if t in new and new[t] != t}
        both = sorted(n for n in here if n in ts and n not in new)
        if both:
            print("look:", os.path.relpath(p, root), *both)
    told = older_words(root, new)
    count = 0
    for p in files(root, ".antt", ".rt", ".edit"):
        text = read(p)
        if is_walk(p):
            turned = turn_proof(text, new)
        elif p.endswith(".rt"):
            turned = turn_source(text, new)
        elif p.endswith(".edit"):
            turned = turn_edit(text, told)
        else:
            turned = "\n".join(turn_line(l, new) for l in text.split("\n"))
        if turned != text:
            count += 1
            with open(p, "w", encoding="utf-8") as f:
                f.write(turned)
    for p in pages(root):
        text = read(p)
        turned = turn_page(text, told)
        if turned != text:
            count += 1
            with open(p, "w", encoding="utf-8") as f:
                f.write(turned)
    print(f"{len([t for t in new if new[t] != t])} names, {count} files")
    return 0


if __name__ == "__main__":
    raise SystemExit(main(sys.argv[1:]))
