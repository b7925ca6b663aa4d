"""Tests of these checks: the scopes of names in a small crate; forms of code that are not read; and edits of this
repository, made in memory, that must be found."""

import re

import page
import source
from papers import quoted
from reach import Definitions, is_apart
from reading import ENUMS, HEADER, READING, UNIQUENESS, Reading
from roots import TESTS
from tree import Tree
from words import NotRead

RULES = "crates/a/src/rules.rt"
# A crate with a definition for each way in which a name is bound.
CRATE = {
    "crates/a/specs/Used.antt": """
use Rattle.std.specs.Prelude.{ℕ}

-- what the other file imports
abbrev pub used : ℕ
used = 0

pub data Used : Type 0 where
  one : ℕ → Used
  «in» : Used

infix 4 ◌or◌
abbrev pub ◌or◌ : ℕ → ℕ → ℕ
x or y = x
""",
    "crates/a/specs/Uses.antt": """
use Rattle.std.specs.Prelude.{ℕ, ◌+◌}
use Rattle.a.specs.Used.{used, Used, one, ◌or◌}
use Rattle.a.specs.Used as words
use Rattle.a.specs.declared.Found.TheVariants.{At}
use Rattle.a.specs.Used.{used as alias}

abbrev pub plainly : ℕ
plainly = used + 1 -- not «in» a comment: Used

abbrev pub by_alias : ℕ
by_alias = alias

abbrev pub by_module : ℕ
by_module = words.used

abbrev pub by_operator : ℕ
by_operator = 0 or 1

abbrev pub in_pattern : ℕ → ℕ
in_pattern used = used

abbrev pub in_lambda : ℕ → ℕ
in_lambda = λ used. used

abbrev pub after_lambda : ℕ × ℕ
after_lambda = (λ used. used, used)

abbrev pub in_let : ℕ
in_let = let used = 0 in used

abbrev pub before_let : ℕ
before_let = let used = used in used

abbrev pub in_type : (used : ℕ) → used + used
in_type x = x

abbrev pub in_case : ℕ
in_case = elim 0 [ used ↦ used | x ↦ 1 ]

abbrev pub after_case : ℕ
after_case = elim 0 [ used ↦ used | x ↦ used ]

abbrev pub as_field : ℕ
as_field = record { used = 0 } .used

abbrev pub by_argument : ℕ
by_argument = plainly {used = 0}

pub record InRecord (used : ℕ) : Type 0 where
  pub first : used
  pub alias : first
  pub last : alias

abbrev pub constructed : Used
constructed = one 0

abbrev pub taken : Used → ℕ
taken (one used) = used

abbrev pub variant : ℕ
variant = At 0
""",
    "crates/a/src/lib.rt": """
use crate::{Kind, words};
ghost use Rattle.std.specs.Prelude.{◌≡◌};
ghost use Rattle.a.specs.Used.{used, Used};

// What a search found: used
pub enum Found {
    At(Kind),
    Nothing,
}

pub struct Kind {
    pub byte: u8,
}

pub fn given<'a>(used: &'a [u8]) -> Kind
    ensures { result ≡ used }
{
    used
}

pub fn found(k: Kind) -> Found
    requires first_of { used ≡ k }
    ensures taken { {x = result} used }
{
    Used
}
""",
    RULES: """
use crate::{Found, Kind};
use std::array;
ghost use Rattle.std.specs.Prelude.{◌≡◌, ForSome};
ghost use Rattle.a.specs.Used.{used, Used};
ghost use Rattle.a.specs.Uses.{plainly, by_alias, by_module, by_operator, by_argument, taken};

pub struct Plain;

pub struct Pair(pub u8, pub Kind);

#[derive(Clone, Copy)]
pub struct Part<'a> {
    pub core: &'a [u8],
    pub of: Kind,
}

impl Part<'_> {
    const OPEN: u8 = b'{';

    #[tactic(auto, unfolding(crate::specs::Used::used))]
    pub fn byte(&self, i: usize) -> u8
        ensures { result ≡ plainly }
    {
        self.core.get(i).map_or(b'\\'', |&c| if c == b'{' { b'"' } else { c })
    }
}

// How parts are read: { Kind }
pub trait Rule {
    ghost good: { Used → Self → Type 0 };

    ghost filler: { Type 0 };

    // The part of t
    fn part(t: &[u8]) -> Option<Part<'_>>
        ensures good { good by_alias t.now }
        ensures filler { result ≡ filler };

    ghost as_said: { filler ≡ by_module };
}

impl Rule for Plain {
    ghost good = { λ used. taken };

    ghost filler = { used };

    fn part(t: &[u8]) -> Option<Part<'_>> {
        t.strip_suffix(b"}").map(|core| Part { core, of: Kind { byte: 0 } })
    }

    ghost as_said = { by_operator };
}

impl TryFrom<u8> for Kind {
    type Error = Found;

    ghost try_from_gives = { by_argument };

    fn try_from(byte: u8) -> Result<Self, Found> {
        Ok(Kind { byte })
    }
}

pub fn spelled<R: Rule, F: Fn(u8, used) -> u8, const N: usize>(s: &[u8; N], by: used::F) -> Result<[u8; 11], Pair>
    ensures { result ≡ R.good s.now N used }
{
    array::from_fn(|i| f(s[i]))
}

fn limited(n: usize) -> Option<usize>
    ensures { ForSome result (elim [ Some n ↦ n ≡ usize.MAX | At k ↦ Ok used ]) }
{
    Some(n)
}

fn hidden() -> (&[u8], Plain) {
    (b"", Plain)
}
""",
    "crates/b/src/lib.rt": """
use a::rules::{Part, Rule};

pub mod below;

pub fn afar<'a, R: Rule>(p: Part<'a>, k: a::Kind) -> Option<(u8, [u8; 11])> {
    None
}
""",
}
# Forms of code that are not read.
STRANGE = [
    *("pub union Odd {\n    a: u8,\n}", "macro_rules! odd {}", "static ODD: u8 = 0;", "pub(crate) fn odd() {}"),
    *("const fn odd() -> u8 {\n    0\n}", "unsafe fn odd() {}", "async fn odd() {}", "/* a comment */"),
    *("use a::*;", "use a as b;", "use a::{b::{c}};", "pub fn odd() -> u8\nwhere\n    u8: Copy,\n{\n    0\n}"),
    *("pub struct Odd {\n    pub n: u8,\n    ghost is: { n ≡ 0 },\n}", "pub struct Odd;\npub enum Odd {}"),
    *("impl Kind {\n    ghost good = { 0 };\n}", "impl Rule for Kind {\n    ghost good: { Type 0 };\n}"),
    *("pub trait Odd {\n    ghost good = { 0 };\n}", "pub trait Odd {\n    law good: { 0 };\n}", "ghost good = { 0 };"),
    *("fn odd() {\n    ghost let x = { 0 };\n}", "fn odd() {\n    fn inner() {}\n}", "fn odd() {\n    impl Rule for Kind {}\n}"),
    *("fn odd() {", "pub trait Odd", "fn odd()\n    promises { 0 }\n{\n}", "fn odd()\n    ensures { 0 };"),
    *("impl Rule for Kind {\n    struct Odd;\n}", "pub type Odd = u8;"),
]
# A name in a clause or a ghost member, and what is not read where it is declared nowhere.
NOWHERE = {"≡ plainly": "byte", "usize.MAX": "limited", "Ok used": "limited", "good by_alias": "Rule", "λ used. taken": "Rule for Plain"}
# A trait with ghost members, and a call's file that does not name it.
RULE = ("crates/names/src/lib.rt", "names::Rule")
OPEN = "crates/opening/src/open.rt"
# The law that proves the worked numbers.
WORKED = "crates/worked/proofs/Laws/Worked.antt"
# What each of its definitions, types and contracts names.
USES = {
    **{"plainly": "used", "by_alias": "used", "by_module": "used", "by_operator": "◌or◌", "by_argument": "plainly"},
    **{"in_pattern": "", "in_lambda": "", "in_let": "", "in_type": "", "in_case": "", "as_field": "", "InRecord": ""},
    **{"after_lambda": "used", "before_let": "used", "after_case": "used"},
    **{"constructed": "Used", "taken": "Used", "variant": "Found"},
    **{"Found": "Kind", "given": "Kind", "found": "Found Kind used"},
    **{"Pair": "Kind", "Part": "Kind", "byte": "Part plainly", "hidden": "Plain", "Plain": "Rule for Plain"},
    **{"Rule": "Part Rule for Plain Used by_alias by_module", "Rule for Plain": "Plain Rule taken used"},
    **{"Kind": "TryFrom<u8> for Kind", "TryFrom<u8> for Kind": "Found Kind by_argument"},
    **{"limited": "Found used", "spelled": "Pair Rule used", "afar": "Kind Part Rule"},
}


def try_all(found):
    """Adds what is tried to the tally of what was found in the repository."""
    definitions = Definitions(Tree("nowhere", CRATE))
    code = definitions.files.values()
    declared = [thing for file in code for thing in [*file.functions, *file.types.values(), *file.impls]]
    things = {thing.name: thing for thing in [*definitions.items(), *declared]}
    for name, uses in USES.items():
        got = " ".join(sorted(thing.name for thing in definitions.uses(things[name])))
        found.tally.check(got == uses, f"tests/reading/tried.py: '{name}' names '{got}', and not '{uses}'")
    for name, of in NOWHERE.items():
        text = CRATE[RULES].replace(name, "nowhere")
        found.tally.check(not is_known(text, of), f"tests/reading/tried.py: '{of}' names what is nowhere")
    for text in STRANGE:
        found.tally.check(not is_read(text), f"tests/reading/tried.py: this form is read: {text}")
    for what, path, text, expected in edits(found):
        tally = Reading(found.tree.with_text(path, text)).tally
        new = set(tally.wrong) - set(found.tally.wrong)
        found.tally.check(any(expected in wrong for wrong in new), f"tests/reading/tried.py: {what} is not found")


def is_read(text):
    try:
        source.parsed("crates/a/src/lib.rt", f"{text}\n")
        return True
    except NotRead:
        return False


def is_known(text, of):
    """Whether every name in what is declared is known, if a file of the small crate has this text."""
    definitions = Definitions(Tree("nowhere", {**CRATE, RULES: text}))
    file = definitions.files[RULES]
    things = [thing for thing in [*file.functions, *file.types.values(), *file.impls] if thing.name == of]
    try:
        return [definitions.uses(thing) for thing in things] != []
    except NotRead:
        return False


def edits(found):
    """(what, the file, its text then, what must be found) of each edit."""
    yield from edits_of_code(found)
    paper = found.papers[READING]
    row = lonely_row(found)
    yield "a row removed", READING, without(paper, row.line), "must be read, and no row"
    name = quoted(row.cells["Name"])[0]
    yield "a name misspelt", READING, with_line(paper, row, f"`{name}`", f"`{name}-`"), f"'{name}-' is not declared in"
    yield "a name from nowhere", READING, "\n".join([*paper.lines, "`needless`"]), "'needless' is no file here"
    test = paper.table(TESTS)[0]
    name = quoted(test.cells[TESTS])[0]
    yield "another test in a row", READING, with_line(paper, test, f"| `{name}`", "| `World`"), "speaks of 'World'"
    unread = next(row for row in paper.table(TESTS) if "body not read" in row.cells[TESTS])
    yield "a body read after all", READING, with_line(paper, unread, "body not read", "body read"), "must be read"
    yield "an enum left out", READING, without(paper, paper.table(ENUMS)[0].line), "is an enum that"
    steps = paper.table(*page.HEADS)
    yield "an old number", READING, with_line(paper, steps[0], f"| {steps[0].cells['Lines']} |", "| 0 |"), "today"
    yield "a step set apart", READING, with_line(paper, steps[0], "| 1.", "| *1."), "today"
    file = quoted(steps[0].cells["Open"])[0]
    yield "a file left out", READING, with_line(paper, steps[0], f"`{file}`, ", ""), "no step of the first page opens"
    yield "steps out of order", READING, without(paper, steps[0].line, behind=steps[-2].line), "which it names"
    uniqueness = found.papers[UNIQUENESS]
    call = uniqueness.table("Call")[0]
    yield "a call left out", UNIQUENESS, without(uniqueness, call.line), "is missing among the calls"


def edits_of_code(found):
    item = next(item for item in found.reached if item.path.endswith(".antt"))
    text = found.tree.text(item.path) + "\nabbrev pub needless : ℕ\nneedless = 0\n"
    yield "a needless definition", item.path, text, "'needless' in"
    call = found.calls[0]
    text = found.tree.text(call.path)
    aid = next(item for item in found.definitions.items() if is_apart(item) and item.name not in text)
    module = ".".join(aid.path.removesuffix(".antt").split("/")[1:])
    used = f"ghost use Rattle.{module}.{{{aid.name}}};\n{text}"
    yield "an aid in a contract", call.path, in_contract(used, call, r"ensures \{", f"ensures {{ {aid.name}"), f"{aid.where()}, so that"
    yield "no promise", call.path, in_contract(text, call, r"ensures \{.*?\}\n", ""), "promises nothing"
    asking = "requires { 0 }\n    ensures"
    yield "a condition", call.path, in_contract(text, call, "ensures", asking), "asks for something"
    generic = f"pub fn needless<R: {RULE[1]}>(s: &[u8]) -> bool\n    ensures {{ R.good s.now }}\n{{\n    true\n}}\n"
    generic = f"{found.tree.text(OPEN)}\n{generic}"
    yield "a trait in a contract", OPEN, generic, f"'Rule' in {RULE[0]} must be read, and no row"
    yield "what its ghost members are at a type", OPEN, generic, f"'Rule for Plain' in {RULE[0]} must be read, and no row"
    export = next(call for call in found.calls if call.for_c and len(call.clauses) == 1)
    text = found.tree.text(export.path)
    yield "another promise for C", export.path, in_contract(text, export, r" result", " 0"), "that it exports"
    yield "an export of nothing", export.path, text.replace(f"fn {export.name}(", "fn bm_format_twice("), "0 public functions"
    text = found.tree.text(WORKED).replace(" : WorkedNumbers", " : Scene → WorkedNumbers")
    yield "worked numbers that nothing proves", WORKED, text, "'WorkedNumbers' in"
    floors = found.tree.text("crates.txt") + "\n# Cellar: nothing.\n"
    yield "a floor that README.md has not", "crates.txt", floors, "the floor 'Cellar'"
    header = found.tree.text(HEADER) + "\nuint64_t bm_needless(void);\n"
    yield "a call without a function", HEADER, header, "bm_needless"


def in_contract(text, call, pattern, instead):
    """The text with another contract: what fits the pattern first, after the function's name, is replaced."""
    head, name, rest = text.partition(f"fn {call.name}(")
    return head + name + re.sub(pattern, lambda _: instead, rest, count=1, flags=re.DOTALL)


def lonely_row(found):
    """A row of READING.md that alone cites what must be read."""
    paper = found.papers[READING]
    cited = [(path, name) for _, path, name in paper.names]
    to_read = {(thing.path, thing.name) for thing in found.reached}
    rows = [row for row in paper.table("Sentence") if row.cites()]
    return next(row for row in rows if all(cite in to_read and cited.count(cite) == 1 for cite in row.cites()))


def with_line(paper, row, old, new):
    lines = list(paper.lines)
    lines[row.line - 1] = lines[row.line - 1].replace(old, new)
    return "\n".join(lines)


def without(paper, line, behind=None):
    """The paper without a line, or with it behind another one."""
    lines = list(paper.lines)
    moved = lines.pop(line - 1)
    if behind:
        lines.insert(behind - 1, moved)
    return "\n".join(lines)
