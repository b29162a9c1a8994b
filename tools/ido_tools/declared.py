"""What a text declares, as far as it can be read: also of a text that the program refuses."""

import bisect
import collections
import re

from ido_tools.source import REFERENCE, TOKEN, TYPE_WORDS, Token, literal
from ido_tools.words import RESERVED

# What a name stands for. `sort` is "mutex", "variable", "function", "thread" or "local"; `at` is the number of the token that declares it, and `begins`
# of the first one from which on it is known. `type` is that of a variable, of a local, or of what a function gives; `refers` the array that a reference
# of this type refers to. `guard` is a mutex, and `is_each` says whether each element has its own; `parameters` are locals.
Named = collections.namedtuple("Named", "sort name place at begins type refers length guard is_each parameters")

Body = collections.namedtuple("Body", "owner opens closes")

OPENING = {"(": ")", "[": "]", "{": "}"}

def lexemes(text):
    """The tokens of a text; a byte that begins none is one by itself, of the kind `other`."""
    found, at = [], 0
    while at < len(text):
        match = TOKEN.match(text, at)
        if match is None:
            found.append(Token("other", text[at : at + 1].decode("latin-1"), at, at + 1))
            at += 1
            continue
        if match.lastgroup != "space":
            found.append(Token(match.lastgroup, match[0].decode("ascii"), at, match.end()))
        at = match.end()
    return found


def number_of(text):
    """The number of a literal, or None where it is none."""
    return literal(text) if re.fullmatch(r"(0[xX][0-9A-Fa-f]+|[1-9][0-9]*|0[0-7]*)[uUlL]{0,2}", text) else None


class Declared:
    """What a text declares."""

    def __init__(self, text):
        self.text, self.tokens = text, lexemes(text)
        self.starts = [it.start for it in self.tokens]
        self.line_starts = [0] + [it.end() for it in re.finditer(rb"\n", text)]
        self.partners = self.brackets()
        self.items, self.bodies, self.locals = {}, [], {}
        self.read_items()

    # ---- Tokens

    def look(self, at):
        """The text of a token; nothing where there is none."""
        return self.tokens[at].text if 0 <= at < len(self.tokens) else ""

    def is_name(self, at):
        """Whether a token is a name, and no word of the language."""
        return 0 <= at < len(self.tokens) and self.tokens[at].kind == "word" and self.tokens[at].text not in RESERVED

    def index_of(self, place):
        """The number of the first token that begins at a byte or behind it."""
        return bisect.bisect_left(self.starts, place)

    def place_text(self, place):
        """The place of a byte, as the program writes it."""
        line = bisect.bisect_right(self.line_starts, place)
        return f"{line}:{place - self.line_starts[line - 1] + 1}"

    def spelled(self, first, last):
        """The text from one token to before another, on one line."""
        if first >= last:
            return ""
        return " ".join(self.text[self.tokens[first].start : self.tokens[last - 1].end].decode("utf-8", "replace").split())

    def brackets(self):
        """Of each bracket that is opened and closed the number of its partner."""
        found, opened = {}, []
        for at, it in enumerate(self.tokens):
            if it.text in OPENING:
                opened.append(at)
            elif opened and it.text == OPENING[self.tokens[opened[-1]].text]:
                found[opened[-1]] = at
                found[at] = opened.pop()
        return found

    def closing(self, at):
        """Where what is opened here is closed; the end of the text where it is not, and where nothing is opened."""
        return self.partners.get(at, len(self.tokens)) if self.look(at) in OPENING else len(self.tokens)

    def type_at(self, at):
        """The type that begins at a token: its text, the array of a reference, and the number of the token behind it; None where there is none."""
        if self.look(at) == REFERENCE and self.look(at + 1) == "(" and self.look(at + 3) == ")":
            return f"ref({self.look(at + 2)})", self.look(at + 2), at + 4
        end = at
        while self.look(end) in TYPE_WORDS:
            end += 1
        return (self.spelled(at, end), None, end) if end > at else None

    def ends(self, at):
        """Where the declaration or the assignment ends that goes on at a token: at its `;`, or before what closes around it."""
        while at < len(self.tokens) and self.look(at) not in (";", ")", "}", "]"):
            at = self.closing(at) + 1 if self.look(at) in OPENING else at + 1
        return min(at, len(self.tokens))

    # ---- Declarations

    def named(self, sort, at, begins=0, **more):
        """What the name at a token stands for."""
        token = self.tokens[at]
        known = {"type": None, "refers": None, "length": None, "guard": None, "is_each": False, "parameters": (), **more}
        return Named(sort, token.text, token.start, at, begins, **known)

    def add(self, item):
        """Notes an item; the first of a name counts."""
        self.items.setdefault(item.name, item)

    def length_at(self, at):
        """The length that stands at a token in brackets, or None."""
        return (number_of(self.look(at + 1)) or 0) if self.look(at) == "[" else None

    def read_items(self):
        """Notes what is declared outside of functions and threads."""
        at = 0
        while at < len(self.tokens):
            at = self.read_item(at)

    def read_item(self, at):
        """Notes an item; answers where to go on."""
        word = self.look(at)
        if word in ("mutex", "thread") and self.is_name(at + 1):
            self.add(self.named(word, at + 1, length=self.length_at(at + 2) if word == "mutex" else None))
            return self.read_body(at + 1, at + 2, ()) if word == "thread" else at + 2
        if word == "persistent" and self.look(at + 1) == "(":
            return self.read_variable(at)
        type_here = ("void", None, at + 1) if word == "void" else self.type_at(at)
        if type_here and self.is_name(type_here[2]) and self.look(type_here[2] + 1) == "(":
            return self.read_function(type_here)
        if word == "{":
            return self.closing(at) + 1
        return at + 1

    def read_variable(self, at):
        """Notes a variable."""
        after = self.closing(at + 1)
        type_here = self.type_at(after + 1)
        if type_here is None or not self.is_name(type_here[2]):
            return at + 1
        name = type_here[2]
        how = {"type": type_here[0], "refers": type_here[1], "length": self.length_at(name + 1)}
        self.add(self.named("variable", name, guard=self.look(at + 2), is_each=self.look(at + 3) == "[", **how))
        return name + 1

    def read_function(self, type_here):
        """Notes a function."""
        name = type_here[2]
        opens, closes = name + 1, self.closing(name + 1)
        parameters, at = [], opens + 1
        while at < closes:
            of = self.type_at(at)
            if of and self.is_name(of[2]):
                parameters.append(self.named("local", of[2], opens, type=of[0], refers=of[1]))
            at = of[2] + 1 if of else at + 1
        self.add(self.named("function", name, type=type_here[0], refers=type_here[1], parameters=tuple(parameters)))
        return self.read_body(name, closes + 1, parameters)

    def read_body(self, name, opens, parameters):
        """Notes the body of a thread or of a function; answers where to go on."""
        if self.look(opens) != "{":
            return opens
        closes = self.closing(opens)
        self.bodies.append(Body((self.tokens[name], tuple(parameters)), opens, closes))
        return closes + 1

    # ---- Locals

    def body_at(self, at):
        """The body that a token stands in, or None."""
        return next((it for it in self.bodies if it.opens <= at <= it.closes), None)

    def declared_in(self, body):
        """The locals of a body: each with the numbers of the tokens between which it is known."""
        if body.opens not in self.locals:
            self.locals[body.opens] = self.read_locals(body)
        return self.locals[body.opens]

    def read_locals(self, body):
        """The same, read."""
        found = [(it, body.opens, body.closes) for it in body.owner[1]]
        scopes = []
        at = body.opens
        while at < min(body.closes, len(self.tokens)):
            while scopes and at > scopes[-1]:
                scopes.pop()
            if self.look(at) == "{":
                scopes.append(self.closing(at))
            elif self.look(at) == "for" and self.look(at + 1) == "(":
                head = self.closing(at + 1)
                scopes.append(self.closing(head + 1) if self.look(head + 1) == "{" else head)
            of = self.type_at(at)
            if of is None:
                at += 1
                continue
            if self.is_name(of[2]):
                begins = self.ends(of[2] + 1)
                found.append((self.named("local", of[2], begins, type=of[0], refers=of[1]), begins, scopes[-1] if scopes else body.closes))
            at = of[2]
        return found

    def local_at(self, name, at):
        """The local that a name stands for at a token, or None."""
        body = self.body_at(at)
        known = [it for it, begins, ends in self.declared_in(body) if it.name == name and begins <= at <= ends] if body else []
        return known[-1] if known else None

    def meaning(self, name, at):
        """What a name stands for at a token, or None."""
        return self.local_at(name, at) or self.items.get(name)

    def locals_named(self, name):
        """All locals of a name."""
        return [it for body in self.bodies for it, _, _ in self.declared_in(body) if it.name == name]

    def first(self, sort, wanted=lambda it: True):
        """The name of the first item of a sort, or None."""
        return next((it.name for it in self.items.values() if it.sort == sort and wanted(it)), None)
