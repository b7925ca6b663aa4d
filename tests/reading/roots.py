"""Where reading begins: the contracts of the public calls, the promises and worked numbers that are proved, and the theorems that say what a
test means."""

import re

from papers import quoted
from reach import is_apart
from specs import Item
from words import nested

# The files of the calls in Rattle, over a table of bytes and over lent records: each public function there is a call.
# The calls for C are found by their mark. Each exports the function of its name in the crate below its own: of scale, where
# it stands in scale_c.
CALLS = [
    *("formatting/src/format.rt", "sound/src/lib.rt", "freespace/src/free_space.rt", "entries/src/entry.rt", "matching/src/find.rt"),
    *("opening/src/open.rt", "creating/src/create.rt", "reading/src/read.rt", "writing/src/write.rt"),
    *("seeking/src/seek.rt", "closing/src/close.rt", "deleting/src/delete.rt", "renaming/src/rename.rt"),
    *("marking/src/mode.rt", "viewing/src/view.rt", "rescuing/src/rescue.rt"),
    *("lent/src/lib.rt", "single/src/held.rt", "lending/src/lib.rt"),
]
# The file with equations over worked numbers; and the folders of promises and worked numbers that the laws there prove.
EQUATIONS = "crates/lines/specs/Worked.antt"
PROMISES = ["crates/matching/specs", "crates/history/specs", "crates/reset/specs", "crates/worked/specs"]
# The head of the column of tests in READING.md.
TESTS = "Test: what it means"


def public_in(definitions, file):
    found = definitions.files.get(f"crates/{file}")
    return [function for function in found.functions if function.public] if found else []


def exported_by(definitions, function, tally):
    """The function that one for C exports, which has the same contract, word for word."""
    crate = function.path.split("/")[1].removesuffix("_c")
    below = [path for path in definitions.files if path.startswith(f"crates/{crate}/src/") and path != function.path]
    found = [other for path in below for other in definitions.files[path].functions if other.public and other.name == function.name]
    one = tally.check(len(found) == 1, f"{function.where()}: {len(found)} public functions of crates/{crate} have this name")
    same = one and function.says(definitions) == found[0].says(definitions)
    tally.check(same, f"{function.where()} is not that of the function of crates/{crate} that it exports")
    return found


def calls(definitions, header, listed, tally):
    """The public calls. header is the text of the header for C, listed has (path, name) of each call in
    UNIQUENESS.md."""
    for_c = [function for file in definitions.files.values() for function in file.functions if function.for_c]
    found = [call for function in for_c for call in (function, *exported_by(definitions, function, tally))]
    declared = set(re.findall(r"\b(bm_\w+)\(", header))
    missing = declared - {function.name for function in for_c}
    tally.check(declared and not missing, f"the header declares {sorted(missing)}, which no function for C is")
    for file in CALLS:
        public = public_in(definitions, file)
        tally.check(public, f"crates/{file} has no public function: tests/reading/roots.py names the calls' files")
        found += public
    there = {(call.path, call.name) for call in found}
    for path, name in sorted(there | listed):
        tally.check((path, name) in listed, f"'{name}' of {path} is missing among the calls in UNIQUENESS.md")
        tally.check((path, name) in there, f"'{name}' of {path} is a call in UNIQUENESS.md, and none in roots.py")
    for call in found:
        tally.check(not call.asks(), f"{call.where()} asks for something: a public call takes anything")
        named = [thing for thing in definitions.uses(call) if isinstance(thing, Item)]
        tally.check(call.promises() and named, f"{call.where()} promises nothing by our definitions")
    return found


def statements(definitions, tally):
    """The equations over worked numbers, and the promises: what a law of their own folder proves as it stands."""
    items = definitions.modules[EQUATIONS].items.values() if EQUATIONS in definitions.modules else []
    found = [item for item in items if "≡" in nested(item.statement)]
    tally.check(found, f"{EQUATIONS} has no equation over worked numbers")
    for folder in PROMISES:
        rooms = folder.replace("/specs", "/proofs/Laws/")
        laws = [(module, law) for module in modules_in(definitions, rooms) for law in module.items.values()]
        proved = {proved_by(definitions, module, law, folder) for module, law in laws} - {None}
        tally.check(proved, f"no law in {rooms} proves a promise")
        found += sorted(proved, key=lambda item: (item.path, item.name))
    return found


def modules_in(definitions, folder):
    return [module for path, module in definitions.modules.items() if path.startswith(folder)]


def proved_by(definitions, module, law, folder):
    """The promise in this folder that a law proves: the law's statement is its name, perhaps with what it is about."""
    words = nested(law.statement)
    if law.kind != "definition" or law.sections or not all(isinstance(word, str) for word in words):
        return None
    if words[0] not in module.imported or not {"→", "≡", "×"}.isdisjoint(words):
        return None
    item, _ = definitions.meaning(module, words[0])
    return item if item and item.path.startswith(f"{folder}/") and not is_apart(item) else None


def theorems(definitions, paper, tally):
    """The theorems of the table of tests, and the tests whose body it says is not read."""
    found, unread = [], set()
    rows = paper.table(TESTS, "Crate", "File", "Name")
    tally.check(rows, f"{paper.path} has no table with the column '{TESTS}'")
    for row in rows:
        here, said = f"{paper.path}, line {row.line}", {}
        for path, name in row.cites():
            law = definitions.modules[path].items.get(name) if path in definitions.modules else None
            if tally.check(law and "/proofs/Laws/" in path, f"{here}: '{name}' is no theorem in {path}"):
                found.append(law)
                said |= {thing.name: thing for thing in definitions.uses(law, statement_only=True)}
        test, _, meaning = row.cells[TESTS].partition(":")
        tally.check(quoted(test) and quoted(meaning), f"{here}: a row has a test, a colon, and what it means")
        for name in quoted(test) + quoted(meaning):
            tally.check(name in said, f"{here}: no theorem of this row speaks of '{name}'")
        if "body not read" in test:
            unread |= {said[name] for name in quoted(test) if name in said}
    return found, unread
