#!/usr/bin/env python3
"""edits.py PAPER CRATES LOG: each must-fail edit is refused at the fact that the paper names for it.

PAPER is docs/GATE.md. It says 'at least N edits', and has a row for each: its name, the rule that it breaks, and the function
and its goal, or the law and its file, at which the prover stops first. CRATES has the edits and the sources, LOG what `rt ci`
printed, with a line for each edit. The rows and the edits must be the same. Each edit that is as it must be is one passed.
"""

import pathlib
import re
import sys

ROW = re.compile(r"\| `(\w+/\w+)` \| .+ \| (.+) \|")
LEAST = re.compile(r"\bat least\s+([1-9]\d*)\s+edits\b")
TRIED = re.compile(r"rt: must-fail (\w+/\w+)\.edit: (.*)")
REFUSED = "refused, as it must be: "
ERROR = re.compile(r"\./(\S+?):\d+:\d+: error(?:\[\S+\])?: (.*)")
DECLARED = re.compile(r"`([^`]+)`: (.*)")
# A goal that the checker tried by itself: the place in the source says of which function.
UNPROVED = re.compile(r"note: (?:\./)?(src/\S+?\.rt):(\d+):\d+: it is not proved that .*?\(`([^`]+)`\)")
FUNCTION = re.compile(r"(\s*)(?:pub(?:\([^)]*\))? )?(?:(?:const|unsafe|extern \"C\") )*fn (\w+)")
METHODS = re.compile(r"impl\b.*?(\w+)(?:<[^{]*>)?\s*\{")
# A law or a proof names what the edit took away: nothing was asked of the prover.
TAKEN_AWAY = re.compile(r"`[^`]+` is not (?:in scope|a field of|a constructor)|.*\b(?:has no (?:field )?`|names no constructor\b)")


class NoFact(Exception):
    """The prover did not stop at a fact; says why."""


def function_at(crate, path, number):
    """The function whose source has this line, as the checker names it within its crate. An attribute is of the function below it."""
    lines = (crate / path).read_text().splitlines()
    while number < len(lines) and lines[number - 1].lstrip().startswith("#["):
        number += 1
    lines = lines[:number]
    found = [(at, line) for at, line in enumerate(map(FUNCTION.match, lines)) if line]
    if not found:
        raise NoFact(f"no function stands at {path}:{number}")
    at, function = found[-1]
    owners = [owner.group(1) for owner in map(METHODS.match, lines[:at]) if owner] if function.group(1) else []
    modules = pathlib.PurePath(path).with_suffix("").parts[1:]
    return "::".join([part for part in modules if part not in ("lib", "main")] + owners[-1:] + [function.group(2)])


def fact_of(path, words, changed):
    """The fact that an error with these words in this file of the crate is about. In a law or proof that the edit changes
    nothing is shown."""
    declared = DECLARED.match(words)
    if not declared or TAKEN_AWAY.match(declared.group(2)):
        raise NoFact(f"nothing was asked of the prover: {path}: {words}")
    if path in changed and not path.startswith("src/"):
        raise NoFact(f"it is refused in a file that it changes: {path}: {words}")
    name = declared.group(1)
    parts = pathlib.PurePath(path).with_suffix("").parts
    if parts[0] == "proofs" and parts[-1] == "Answers":
        return f"`{'::'.join(parts[1:-1])}`: `{name}`"
    if parts[:2] == ("proofs", "Laws"):
        return f"the law `{name}` of `{'/'.join(parts[1:])}`"
    raise NoFact(f"what is refused is neither a law nor a function's goal: {path}: {words}")


def first_fact(crate, said, changed):
    """The fact at which the prover stopped first, by what was said of the edit."""
    if not said.startswith(REFUSED):
        raise NoFact(f"it is not refused by the prover at a fact: {said}")
    why = said.removeprefix(REFUSED)
    unproved = UNPROVED.match(why)
    if unproved:
        path, number, goal = unproved.groups()
        return f"`{function_at(crate, path, int(number))}`: `{goal}`"
    error = ERROR.match(why)
    if not error:
        raise NoFact(f"what is said of it names no fact: {why}")
    return fact_of(*error.groups(), changed)


def changed_by(file):
    """The files that an edit changes: code or definitions. It may change the law that follows a definition along with it."""
    changed = [line.removeprefix("file: ") for line in file.read_text().splitlines() if line.startswith("file: ")]
    if not any(re.match(r"(?:src|specs)/", path) for path in changed):
        raise NoFact(f"it changes {', '.join(changed)}, which is neither code nor a definition")
    return changed


def see(edit, named, file, said):
    """Whether an edit is refused at the fact that is named for it."""
    try:
        changed = changed_by(file)
        if not said:
            raise NoFact("it was not tried")
        if len(said) > 1:
            raise NoFact("it is told of more than once")
        found = first_fact(file.parents[1], said[0], changed)
        if found != named:
            raise NoFact(f"it is refused at {found}, and its row says {named}")
    except NoFact as why:
        print(f"FAILED: {edit}: {why}")
        return False
    return True


def see_table(text, rows, files):
    """What is wrong with the paper's table as a whole, a line for each."""
    named = [edit for edit, _ in rows]
    least = LEAST.search(text)
    wrong = [f"{edit}: it has two rows" for edit in sorted(set(named)) if named.count(edit) > 1]
    wrong += [f"{edit}: it has a row, and there is no such edit" for edit in sorted(set(named) - set(files))]
    wrong += [f"{edit}: it has no row" for edit in sorted(set(files) - set(named))]
    if not least:
        wrong.append("the paper does not say 'at least N edits'")
    elif len(files) < int(least.group(1)):
        wrong.append(f"there are {len(files)} edits, and at least {least.group(1)} are wanted")
    for line in wrong:
        print(f"FAILED: {line}")
    return len(wrong)


def main():
    paper, crates, log = map(pathlib.Path, sys.argv[1:])
    text = paper.read_text()
    rows = [row.groups() for row in map(ROW.fullmatch, text.splitlines()) if row]
    files = {f"{file.parts[-3]}/{file.stem}": file for file in crates.glob("*/must-fail/*.edit")}
    tried = [line.groups() for line in map(TRIED.fullmatch, log.read_text(errors="replace").splitlines()) if line]
    failed = see_table(text, rows, files)
    told = {edit: [said for name, said in tried if name == edit] for edit in files}
    seen = [see(edit, named, files[edit], told[edit]) for edit, named in sorted(rows) if edit in files]
    failed += seen.count(False)
    print(f"{seen.count(True)} passed, {failed} failed")
    return 0 if failed == 0 else 1


if __name__ == "__main__":
    sys.exit(main())
