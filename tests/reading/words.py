"""A piece of antt text: its words, and which of its names are bound in it and which come from outside."""

import re

NAME = r'(?:«[^»]*»|[^\s(){}.;,@"«»]+)'
WORD = re.compile(rf'"(?:\\.|[^"\\])*"|\.{NAME}|{NAME}(?:\.{NAME})*|[(){{}}.;,@]')
COMMENT = re.compile(r'("(?:\\.|[^"\\])*")|--[^\n]*|\{-.*?-\}', re.DOTALL)
ENDS = {"(": ")", "{": "}", "[": "]"}
# Forms that a definition here does without: this program does not follow their scopes.
STRANGE = {"do", "open", "mutual", "where", "unfold", "∀"}


class NotRead(Exception):
    """Text in a form that this program does not read."""


def without_comments(text):
    return COMMENT.sub(lambda found: found[1] or "", text)


def nested(text):
    """The words of a text as a list, with a list in it for each pair of brackets; a bracket's list begins with it."""
    open_lists = [[]]
    for word in WORD.findall(text):
        if word in ENDS:
            open_lists.append([word])
        elif word in ENDS.values():
            closed = open_lists.pop()
            if not open_lists or ENDS[closed[0]] != word:
                raise NotRead(f"a bracket '{word}' that nothing opens")
            open_lists[-1].append(closed)
        else:
            open_lists[-1].append(word)
    if len(open_lists) != 1:
        raise NotRead(f"a bracket '{open_lists[-1][0]}' that nothing closes")
    return open_lists[0]


def cut(words, mark):
    """What stands before the first such word, and what stands after it (None where there is no such word)."""
    if mark not in words:
        return words, None
    at = words.index(mark)
    return words[:at], words[at + 1 :]


def parts(words, marks):
    """The parts of a list between these words."""
    part = []
    for word in words:
        if isinstance(word, str) and word in marks:
            yield part
            part = []
        else:
            part.append(word)
    yield part


def is_list(word, *brackets):
    return isinstance(word, list) and word[0] in brackets


class Names:
    """The names that a text uses from outside. `constructs` says whether a name is a constructor: such a name in a
    pattern is no variable."""

    def __init__(self, constructs):
        self.constructs = constructs
        self.used = []

    def read(self, words, bound):
        """An expression or a type. A binder reaches as far right as it can: to the end of its brackets, or to a comma,
        a semicolon or a bar."""
        for part in parts(words, {",", ";", "|"}):
            self.read_part(part, bound)

    def read_part(self, words, bound):
        at = 0
        while at < len(words):
            word = words[at]
            at += 1
            if word == "λ":
                binders, rest = cut(words[at:], ".")
                if rest is None:
                    raise NotRead("'λ' without its dot")
                bound = self.bind_all(binders, bound)
                at = len(words) - len(rest)
            elif word == "let":
                at, bound = self.read_let(words, at, bound)
            elif word == "record" and at < len(words) and is_list(words[at], "{"):
                self.read_fields(words[at][1:], bound)
                at += 1
            elif isinstance(word, str):
                self.read_name(word, bound)
            else:
                bound = self.read_brackets(word, bound)

    def read_name(self, word, bound):
        if word in STRANGE:
            raise NotRead(f"'{word}'")
        if word[0] in '."' or word.split(".")[0] in bound:
            return
        self.used.append(word)

    def read_let(self, words, at, bound):
        """let PATTERN : TYPE = VALUE in the rest: where the rest begins, and what is bound there."""
        depth, end = 1, at
        while depth:
            if end == len(words):
                raise NotRead("'let' without 'in'")
            depth += {"let": 1, "in": -1}.get(words[end], 0) if isinstance(words[end], str) else 0
            end += 1
        left, value = cut(words[at : end - 1], "=")
        pattern, kind = cut(left, ":")
        self.read(kind or [], bound)
        self.read(value or [], bound)
        return end, self.bind_all(pattern, bound)

    def read_fields(self, words, bound):
        """record { field = value; .. }, or record { field : type; .. }, where later types may name earlier fields."""
        for field in parts(words, {";"}):
            if not field:
                continue
            if field[1] == ":":
                self.read(field[2:], bound)
                bound = bound | {field[0]}
            elif field[1] == "=":
                self.read(field[2:], bound)
            else:
                raise NotRead(f"a field '{field[0]}' with neither type nor value")

    def read_brackets(self, words, bound):
        """What is bound after them: (x y : TYPE) binds x and y; all others bind nothing."""
        inside = words[1:]
        if words[0] == "[":
            for case in parts(inside, {"|"}):
                pattern, body = cut(case, "↦")
                if case and body is None:
                    raise NotRead("square brackets without cases")
                self.read(body or [], bound | self.variables(pattern))
            return bound
        names, kind = cut(inside, ":")
        if kind is not None:
            self.read(kind, bound)
            return bound | set(names)
        # {x = VALUE} gives an argument by its name
        self.read(inside[2:] if words[0] == "{" and "=" in inside[1:2] else inside, bound)
        return bound

    def bind_all(self, binders, bound):
        """The binders of a λ, of a let or of a declaration: names, names with a type, patterns."""
        for binder in binders:
            if isinstance(binder, str):
                bound = bound | {binder}
            elif ":" in binder:
                bound = self.read_brackets(binder, bound)
            else:
                bound = bound | self.variables(binder[1:])
        return bound

    def variables(self, pattern):
        """The variables of a pattern; its constructors are used."""
        found = set()
        for word in pattern:
            if isinstance(word, list):
                found |= self.variables(word[1:])
            elif self.constructs(word):
                self.used.append(word)
            elif word not in {",", ";", "=", "record", "_"}:
                found.add(word)
        return found
