"""A file of src/ cut into its items: imports, constants, functions with their clauses, types, traits and impls."""

import re

from words import NotRead

# Comments, and what stands between quotes: a bracket in these closes nothing.
COMMENT = re.compile(r"""//[^\n]*|(b?"(?:\\.|[^"\\])*"|b?'(?:\\[^'\n]+|\\'|[^'\\\n])')""", re.DOTALL)
QUOTED = re.compile(r"""b?"(?:\\.|[^"\\])*"|b?'(?:\\[^'\n]+|\\'|[^'\\\n])'""", re.DOTALL)
SPACE = re.compile(r"\s*(?:#!?(?=\[))?")
HEAD = re.compile(r'(pub )?(ghost use|use|ghost|const|type|mod|struct|enum|trait|impl|(extern "C" )?fn)\b')
# Where these end: at a semicolon, whatever brackets stand before it.
LINES = {"ghost use", "use", "ghost", "const", "type", "mod"}
# What may stand at the top of a file, and in a trait or an impl.
TOP = {"ghost use", "use", "const", "mod", "fn", "struct", "enum", "trait", "impl"}
WITHIN = {"ghost", "const", "type", "fn"}
NAMED = re.compile(r"\s*(\w+)\s*")
# What a function answers, up to its clauses or its body.
ANSWERED = re.compile(r"\s*(?:->(?:\[[^\[\]]*\]|[^{};\[\]\n])*?)?(?=\s*(?:requires\b|ensures\b|\{|;))")
BODY = re.compile(r"\s*([{;])")
CLAUSE = re.compile(r"\s*(requires|ensures)(?: \w+)?\s*(?=\{)")
# In a body these declare something that this program does not follow.
INNER = re.compile(r"^ *(?:pub )?(?:ghost (?!use )|trait |impl\b|struct |enum |fn )[^\n]*", re.MULTILINE)
CLOSING = {"(": ")", "{": "}", "[": "]", "<": ">"}


class Source:
    """A file's text without comments, and the same with blanks for what is quoted: places are the same in both."""

    def __init__(self, path, text):
        self.path = path
        self.text = COMMENT.sub(lambda found: found[1] or " " * len(found[0]), text)
        self.plain = QUOTED.sub(lambda found: '"' + " " * (len(found[0]) - 2) + '"', self.text)
        if "/*" in self.plain:
            raise NotRead(f"{path}: a comment between /* and */")

    def closed(self, at):
        """The place after the bracket that closes the one at this place."""
        bracket, depth, start = self.plain[at], 0, at
        while at < len(self.plain):
            arrow = self.plain[at - 1 : at + 1] in {"->", "=>"}
            depth += 0 if arrow else {bracket: 1, CLOSING[bracket]: -1}.get(self.plain[at], 0)
            at += 1
            if depth == 0:
                return at
        raise NotRead(f"{self.path}: a bracket '{bracket}' that nothing closes, at: {self.line(start)}")

    def line(self, at):
        return self.text[at:].split("\n", 1)[0].strip()

    def refuse(self, why, at):
        raise NotRead(f"{self.path}: {why}, at: {self.line(at)}")


class Item:
    """An item from `start` to `end`: `head` is what stands before its body, `inside` the places between its braces. Of a
    function also what comes in and is answered, and its clauses."""

    def __init__(self, found, source):
        self.source = source
        self.public = bool(found[1])
        self.kind = "fn" if found[2].endswith("fn") else found[2]
        self.for_c = bool(found[3])
        self.start = found.start()
        self.head = ""
        self.inside = None
        self.end = found.end()

    def text(self):
        return self.source.text[self.start : self.end]


def items(source, at, end, known):
    """The items from one place to another; each must be of a kind that is known there."""
    while True:
        at = SPACE.match(source.plain, at, end).end()
        if at >= end:
            return
        if source.plain[at - 1] == "#" or source.plain[at - 2 : at] == "#!":
            at = source.closed(at)
            continue
        found = HEAD.match(source.text, at, end)
        if not found or found[2].split()[-1] not in known and found[2] not in known:
            source.refuse("an item of a form that is not known there", at)
        item = Item(found, source)
        read_item(item)
        at = item.end
        yield item


def read_item(item):
    if item.kind == "fn":
        read_function(item)
    elif item.kind in LINES:
        item.end = stop(item.source, item.end, ";")
        item.head = item.source.text[item.start : item.end - 1]
    else:
        read_block(item)


def stop(source, at, marks):
    """The place after the first of these marks that stands in no brackets."""
    start = at
    while at < len(source.plain):
        if source.plain[at] in marks:
            return at + 1
        at = source.closed(at) if source.plain[at] in "({[" else at + 1
    return source.refuse(f"none of '{marks}' ends this", start)


def read_block(item):
    """A type, a trait or an impl: it ends with its braces, or with a semicolon where it has none."""
    source = item.source
    at = stop(source, item.end, ";{")
    item.head = source.text[item.start : at - 1]
    item.end = at
    if source.plain[at - 1] == "{":
        item.end = source.closed(at - 1)
        item.inside = (at, item.end - 1)


def read_function(item):
    """NAME<..>(..) -> ANSWER, its clauses, and a body or a semicolon."""
    source = item.source
    named = NAMED.match(source.plain, item.end)
    if not named:
        source.refuse("a function without a name", item.start)
    item.name, at = named[1], named.end()
    item.generics = ""
    if source.plain[at : at + 1] == "<":
        item.generics, at = source.text[at : source.closed(at)], source.closed(at)
    if source.plain[at : at + 1] != "(":
        source.refuse("a function's head that is not NAME<..>(..)", item.start)
    item.given, at = source.text[at + 1 : source.closed(at) - 1], source.closed(at)
    answered = ANSWERED.match(source.plain, at)
    if not answered:
        source.refuse(f"what stands between the head of '{item.name}' and its body", item.start)
    item.answered = source.text[at : answered.end()]
    read_body(item, read_clauses(item, answered.end()))


def read_clauses(item, at):
    """What it asks and promises: (requires or ensures, text) of each clause. Gives the place behind them."""
    source = item.source
    item.clauses = []
    while clause := CLAUSE.match(source.plain, at):
        at = source.closed(clause.end())
        item.clauses.append((clause[1], source.text[clause.end() + 1 : at - 1]))
    return at


def read_body(item, at):
    source = item.source
    body = BODY.match(source.plain, at)
    if not body:
        source.refuse(f"what stands between the head of '{item.name}' and its body", item.start)
    item.head, item.end = source.text[item.start : body.start()], body.end()
    if body[1] == "{":
        item.end = source.closed(body.end() - 1)
        item.inside = (body.end(), item.end - 1)
    if inner := INNER.search(source.plain, body.end(), item.end):
        source.refuse(f"the body of '{item.name}' declares something", inner.start())
