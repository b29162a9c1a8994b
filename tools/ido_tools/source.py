"""What a source that the program accepts declares, and the nodes of its threads' flow graphs.

The program says whether a source is accepted; nothing is checked here that it checks.
"""

import bisect
import collections
import re

from ido_tools.fault import BadInput

TOKEN = re.compile(
    rb"(?P<space>[ \t\r\n]+|//[^\n]*|/\*.*?\*/)"
    rb"|(?P<word>[A-Za-z_][A-Za-z0-9_]*)|(?P<number>[0-9][A-Za-z0-9_]*)"
    rb"|(?P<mark><<=|>>=|\+\+|--|<<|>>|<=|>=|==|!=|&&|\|\||\+=|-=|\*=|/=|%=|&=|\|=|\^=|[-()\[\]{};,?:=+*/%&|^~!<>])",
    re.DOTALL,
)
TYPE_WORDS = frozenset("char short int long signed unsigned".split())
REFERENCE = "ref"
CHANGES = frozenset("= += -= *= /= %= &= |= ^= <<= >>=".split())
BYTES = {"char": 1, "short": 2, "int": 4, "long": 8}

# Where the variables begin in memory.
VARIABLES_FROM = 0x1000_0000

# What a node costs, and each number, name, element, operator or cast of its expressions.
NODE_PRICE = 96
EXPRESSION_PRICE = 16
HELD_PRICE = 8

Token = collections.namedtuple("Token", "kind text start end")
Kind = collections.namedtuple("Kind", "bytes signed")
# A type: its kind, and of a reference the name of the array that it refers to.
Type = collections.namedtuple("Type", "kind refers")

# `guard` is the name of a mutex, with `[]` of an array of them; `refers` the array that a reference refers to, or None. `after_name` is where an
# initialiser would stand, `initial` where one stands: from its `=` to its end.
Variable = collections.namedtuple("Variable", "name kind refers length guard place address after_name initial")
Thread = collections.namedtuple("Thread", "name place body closing")
# `parameters` is how many there are, `locals` what these are.
Function = collections.namedtuple("Function", "name place parameters body result locals")
# A local: its name, its type, and the function that declares it (None of a thread's own).
Local = collections.namedtuple("Local", "name type function")

# Statements. `start` and `end` are bytes of the text; expressions are the numbers of their parts.
Target = collections.namedtuple("Target", "is_local index_parts local", defaults=(None,))
Assign = collections.namedtuple("Assign", "place end target parts")
Call = collections.namedtuple("Call", "place end name arguments target")
If = collections.namedtuple("If", "place arms otherwise")
While = collections.namedtuple("While", "place end parts body")
Do = collections.namedtuple("Do", "place end parts body")
Locking = collections.namedtuple("Locking", "kind place end lock")
# What is locked, as it is spelled, and how many parts its key has (None without a key).
Lock = collections.namedtuple("Lock", "spelling key_parts")
Arm = collections.namedtuple("Arm", "end parts body")

# A node: its kind, its place, the end of its text, the parts of its expressions, the locks that are held there, the local that it gives a number,
# and the calls that it stands in, the outermost first.
Node = collections.namedtuple("Node", "kind place end parts held local calls", defaults=(None, ()))
Called = collections.namedtuple("Called", "place name")


def tokens_of(text):
    """The tokens of a text."""
    tokens, at = [], 0
    while at < len(text):
        match = TOKEN.match(text, at)
        if match is None:
            raise BadInput(f"byte {at} of the source begins no token")
        if match.lastgroup != "space":
            tokens.append(Token(match.lastgroup, match[0].decode("ascii"), at, match.end()))
        at = match.end()
    return tokens


def literal(text):
    """The number of a literal."""
    digits = text.lower().rstrip("ul")
    if digits.startswith("0x"):
        return int(digits, 16)
    return int(digits, 8) if digits.startswith("0") else int(digits)


def price_of(node):
    """What a node adds to its thread's price."""
    held = sum(HELD_PRICE + EXPRESSION_PRICE * (it.key_parts or 0) for it in node.held)
    return NODE_PRICE + EXPRESSION_PRICE * node.parts + held


class Reader:
    """Reads an accepted source, token by token."""

    def __init__(self, text):
        self.tokens = tokens_of(text)
        self.at = 0
        self.scopes, self.owner = [], None
        self.mutexes, self.variables, self.threads, self.functions = [], [], [], {}

    def look(self, ahead=0):
        """The text of a token that comes."""
        at = self.at + ahead
        return self.tokens[at].text if at < len(self.tokens) else ""

    def take(self, text=None):
        """The next token, which has this text."""
        if self.at >= len(self.tokens) or (text is not None and self.look() != text):
            raise BadInput(f"the source has no {text or 'token'} where it should have one")
        self.at += 1
        return self.tokens[self.at - 1]

    def taken(self, text):
        """Whether the next token has this text; it is taken then."""
        if self.look() != text:
            return False
        self.at += 1
        return True

    def last_end(self):
        """Where the last token that was taken ends."""
        return self.tokens[self.at - 1].end

    def comes_type(self):
        """Whether a type comes."""
        return self.look() in TYPE_WORDS or self.look() == REFERENCE

    def type(self):
        """A type."""
        if self.taken(REFERENCE):
            self.take("(")
            array = self.take().text
            self.take(")")
            return Type(Kind(8, False), array)
        return Type(self.kind(), None)

    def kind(self):
        """A kind of numbers."""
        words = set()
        while self.look() in TYPE_WORDS:
            words.add(self.take().text)
        base = next((it for it in ("char", "short", "long") if it in words), "int")
        signed = "unsigned" not in words and (base != "char" or "signed" in words)
        return Kind(BYTES[base], signed)

    def parts(self):
        """How many numbers, names, operators and casts an expression has; it is taken. The `*` of `*p` and the `&` of `&a[e]` are none."""
        count, depth, begins = 0, 0, True
        while depth or self.look() not in (")", "]", ";", ","):
            token = self.take()
            if token.text == "(" and self.look() in TYPE_WORDS:
                self.kind()
                self.take(")")
                count += 1
            elif token.text in ("(", "["):
                depth += 1
            elif token.text in (")", "]"):
                depth -= 1
            elif token.text != ":" and not (begins and token.text in ("*", "&")):
                count += 1
            begins = token.kind == "mark" and token.text not in (")", "]")
        return count

    def is_local(self, name):
        """Whether a name is that of a local here."""
        return any(name in it for it in self.scopes)

    def local(self, name):
        """The local of a name here, or None."""
        found = next((it[name] for it in reversed(self.scopes) if name in it), None)
        return None if found is None else Local(name, found, self.owner)

    def target(self):
        """What is assigned."""
        if self.taken("*"):
            self.take()
            return Target(False, None)
        name = self.take().text
        index = None
        if self.taken("["):
            index = self.parts()
            self.take("]")
        return Target(self.is_local(name), index, self.local(name))

    def arguments(self):
        """The arguments of a call, in their parentheses."""
        self.take("(")
        found = []
        while not self.taken(")"):
            found.append(self.parts())
            self.taken(",")
        return found

    def is_call(self):
        """Whether a call comes."""
        return self.at < len(self.tokens) and self.tokens[self.at].kind == "word" and self.look(1) == "("

    def updated(self, target, parts):
        """The parts of `target operator value`."""
        before = 1 + (target.index_parts or 0)
        return before + 1 + parts

    def assignment(self):
        """An assignment without its `;`."""
        start = self.tokens[self.at].start
        if self.look() in ("++", "--"):
            self.take()
            target = self.target()
            return Assign(start, self.last_end(), target, self.updated(target, 1))
        target = self.target()
        change = self.take().text
        if change in ("++", "--"):
            return Assign(start, self.last_end(), target, self.updated(target, 1))
        if change == "=" and self.is_call():
            name = self.take().text
            return Call(start, self.last_end(), name, self.arguments(), target)._replace(end=self.last_end())
        parts = self.parts()
        return Assign(start, self.last_end(), target, parts if change == "=" else self.updated(target, parts))

    def declaration(self):
        """A declaration of a local, without its `;`."""
        start = self.tokens[self.at].start
        own_type = self.type()
        name = self.take().text
        target = Target(True, None, Local(name, own_type, self.owner))
        made = Assign(start, self.last_end(), target, 1)
        if self.taken("="):
            if self.is_call():
                called = self.take().text
                arguments = self.arguments()
                made = Call(start, self.last_end(), called, arguments, target)
            else:
                parts = self.parts()
                made = Assign(start, self.last_end(), target, parts)
        self.scopes[-1][name] = own_type
        return made

    def block(self):
        """The statements of a block, in a scope of their own."""
        self.take("{")
        self.scopes.append({})
        made = self.statements()
        self.scopes.pop()
        self.take("}")
        return made

    def statements(self):
        """Statements up to a closing brace or a `return`."""
        made = []
        while self.look() not in ("}", "return", ""):
            made.extend(self.statement())
        return made

    def statement(self):
        """A statement, as those that it becomes."""
        first = self.look()
        readers = {"{": self.block, "if": self.choice, "while": self.while_loop, "do": self.do_loop, "for": self.for_loop}
        if first in readers:
            return readers[first]()
        if self.taken(";"):
            return []
        if first in ("lock", "unlock"):
            made = self.locking()
        elif self.comes_type():
            made = self.declaration()
        elif self.is_call():
            token = self.take()
            arguments = self.arguments()
            made = Call(token.start, self.last_end(), token.text, arguments, None)
        else:
            made = self.assignment()
        self.take(";")
        return [made]

    def locking(self):
        """A `lock` or an `unlock`."""
        word = self.take()
        self.take("(")
        start = self.at
        self.take()
        key_parts = None
        if self.taken("["):
            key_parts = self.parts()
            self.take("]")
        spelling = " ".join(it.text for it in self.tokens[start : self.at])
        self.take(")")
        return Locking(word.text, word.start, self.last_end(), Lock(spelling, key_parts))

    def condition(self):
        """A condition in its parentheses."""
        self.take("(")
        parts = self.parts()
        self.take(")")
        return parts

    def choice(self):
        """An `if` with all that belongs to it."""
        place = self.tokens[self.at].start
        arms, otherwise = [], []
        while True:
            self.take("if")
            parts = self.condition()
            end = self.last_end()
            arms.append(Arm(end, parts, self.block()))
            if not self.taken("else"):
                break
            if self.look() != "if":
                otherwise = self.block()
                break
        return [If(place, arms, otherwise)]

    def while_loop(self):
        """A `while`."""
        place = self.take("while").start
        parts = self.condition()
        end = self.last_end()
        return [While(place, end, parts, self.block())]

    def do_loop(self):
        """A `do`."""
        place = self.take("do").start
        body = self.block()
        self.take("while")
        parts = self.condition()
        self.take(";")
        return [Do(place, self.last_end(), parts, body)]

    def for_loop(self):
        """A `for`, as its first part and a loop."""
        place = self.take("for").start
        self.take("(")
        self.scopes.append({})
        first = []
        if self.look() != ";":
            first = [self.declaration() if self.comes_type() else self.assignment()]
        self.take(";")
        parts = 1 if self.look() == ";" else self.parts()
        self.take(";")
        last = [] if self.look() == ")" else [self.assignment()]
        self.take(")")
        end = self.last_end()
        body = self.block() + [it._replace(place=place, end=end) for it in last]
        self.scopes.pop()
        return [it._replace(place=place, end=end) for it in first] + [While(place, end, parts, body)]

    def function(self):
        """A function."""
        if not self.taken("void"):
            self.type()
        name = self.take()
        self.scopes, self.owner = [{}], name.text
        parameters = self.parameters()
        parameter_locals = [Local(it, kind, name.text) for it, kind in self.scopes[0].items()]
        self.take("{")
        body = self.statements()
        result = None
        if self.taken("return"):
            result = None if self.look() == ";" else self.parts()
            self.take(";")
        self.take("}")
        self.scopes, self.owner = [], None
        self.functions[name.text] = Function(name.text, name.start, parameters, body, result, parameter_locals)

    def parameters(self):
        """How many parameters a function has; they are noted as locals."""
        self.take("(")
        count = 0
        while not self.taken(")"):
            if self.taken("void"):
                continue
            own_type = self.type()
            self.scopes[-1][self.take().text] = own_type
            self.taken(",")
            count += 1
        return count

    def thread(self):
        """A thread."""
        self.take("thread")
        name = self.take()
        self.scopes = []
        body = self.block()
        self.threads.append(Thread(name.text, name.start, body, self.tokens[self.at - 1].start))

    def next_address(self, kind):
        """Where the next variable of this kind stands."""
        end = VARIABLES_FROM
        if self.variables:
            last = self.variables[-1]
            end = last.address + last.kind.bytes * (last.length or 1)
        return -(-end // kind.bytes) * kind.bytes

    def variable(self):
        """A variable."""
        self.take("persistent")
        self.take("(")
        guard = self.take().text
        if self.taken("["):
            self.take("]")
            guard += "[]"
        self.take(")")
        kind, refers = self.type()
        name = self.take()
        length = None
        if self.taken("["):
            length = literal(self.take().text)
            self.take("]")
        after_name = self.last_end()
        initial = None
        if self.look() == "=":
            start = self.take().start
            while self.look() not in (";", ""):
                self.take()
            initial = (start, self.last_end())
        self.take(";")
        address = self.next_address(kind)
        self.variables.append(Variable(name.text, kind, refers, length, guard, name.start, address, after_name, initial))

    def mutex(self):
        """A mutex, or an array of mutexes, each with a name of its own."""
        self.take("mutex")
        name = self.take().text
        if self.taken("["):
            self.mutexes.extend(f"{name}[{it}]" for it in range(literal(self.take().text)))
            self.take("]")
        else:
            self.mutexes.append(name)
        self.take(";")

    def items(self):
        """All items of the source."""
        while self.at < len(self.tokens):
            first = self.look()
            if first == "mutex":
                self.mutex()
            elif first == "persistent":
                self.variable()
            elif first == "thread":
                self.thread()
            else:
                self.function()


class Source:
    """An accepted source: its declarations, and the nodes of its threads."""

    def __init__(self, text):
        self.text = text
        self.line_starts = [0] + [it.end() for it in re.finditer(rb"\n", text)]
        reader = Reader(text)
        reader.items()
        self.mutexes, self.variables = reader.mutexes, reader.variables
        self.threads, self.functions = reader.threads, reader.functions
        self.sizes = {}

    def place(self, at):
        """The line and the column of a byte of the text, from 1."""
        line = bisect.bisect_right(self.line_starts, at)
        return line, at - self.line_starts[line - 1] + 1

    def place_text(self, at):
        """The place of a byte of the text, as the program writes it."""
        line, column = self.place(at)
        return f"{line}:{column}"

    def line(self, number):
        """The text of a line, from 1."""
        start = self.line_starts[number - 1]
        end = self.line_starts[number] if number < len(self.line_starts) else len(self.text)
        return self.text[start:end].decode("utf-8", "replace").rstrip("\r\n")

    def excerpt(self, node, most=60):
        """The text of a node on one line."""
        text = " ".join(self.text[node.place : node.end].decode("utf-8", "replace").split())
        return text if len(text) <= most else text[: most - 3] + "..."

    def size(self, name):
        """How many statements that do something a function has, its calls included."""
        if name not in self.sizes:
            function = self.functions[name]
            self.sizes[name] = 0
            self.sizes[name] = sum(self.statement_size(it) for it in function.body)
        return self.sizes[name]

    def statement_size(self, statement):
        """Whether a statement does something: more than 0 then."""
        if isinstance(statement, Call):
            return len(statement.arguments) + self.size(statement.name) + (statement.target is not None)
        return 1

    def nodes(self, thread):
        """The nodes of a thread, in their order."""
        found = []
        self.held, self.calls = (), ()
        self.add_statements(thread.body, found)
        self.add("end", thread.closing, thread.closing + 1, 0, self.held, found)
        return found

    def add(self, kind, place, end, parts, held, found, local=None):
        """Adds a node."""
        found.append(Node(kind, place, end, parts, held, local, self.calls))

    def add_statements(self, statements, found):
        """Adds the nodes of statements."""
        for it in statements:
            self.add_statement(it, found)

    def add_statement(self, statement, found):
        """Adds the nodes of a statement."""
        if isinstance(statement, Assign):
            self.add_assignment(statement.place, statement.end, statement.target, statement.parts, found)
        elif isinstance(statement, Call):
            self.add_call(statement, found)
        elif isinstance(statement, If):
            self.add_choice(statement, found)
        elif isinstance(statement, While):
            self.add("test", statement.place, statement.end, statement.parts, self.held, found)
            self.add_statements(statement.body, found)
        elif isinstance(statement, Do):
            self.add_statements(statement.body, found)
            self.add("test", statement.place, statement.end, statement.parts, self.held, found)
        else:
            lock = statement.lock
            others = tuple(it for it in self.held if it != lock)
            self.add(statement.kind, statement.place, statement.end, lock.key_parts or 0, (*others, lock), found)
            self.held = found[-1].held if statement.kind == "lock" else others

    def add_choice(self, statement, found):
        """Adds the nodes of an `if`."""
        before = self.held
        for arm in statement.arms:
            self.held = before
            self.add("test", statement.place, arm.end, arm.parts, before, found)
            self.add_statements(arm.body, found)
        self.held = before
        self.add_statements(statement.otherwise, found)

    def add_assignment(self, place, end, target, parts, found):
        """Adds the nodes of an assignment."""
        self.add("eval", place, end, parts + (target.index_parts or 0), self.held, found, target.local)
        if not target.is_local:
            self.add("store", place, end, 0, self.held, found)

    def add_call(self, call, found):
        """Adds the nodes that a call becomes."""
        if self.statement_size(call) == 0:
            return
        function, outer = self.functions[call.name], self.calls
        self.calls = (*outer, Called(call.place, call.name))
        for parts, local in zip(call.arguments, function.locals):
            self.add("eval", call.place, call.end, parts, self.held, found, local)
        self.add_statements(function.body, found)
        self.calls = outer
        if call.target is not None:
            self.add_assignment(call.place, call.end, call.target, function.result or 0, found)


def read_source(program, text):
    """The source, where the program accepts it; else its refusal is a fault of the input."""
    program.ask_well(["regions"], text)
    return Source(text)
