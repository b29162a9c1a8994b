"""Which mutexes are held where a rule of locks is broken, and by which calls the text there is reached.

The walk goes through the threads as the compiler's does, calls replaced by bodies, up to the rule and the place that the program has told. It looks
for these alone: what it finds elsewhere is no fault."""

import collections

from ido_tools.source import literal

# A mutex that is held: its name, its key as it is compared and as it is spelled (None without one), and the place of its `lock`.
Held = collections.namedtuple("Held", "name key spelled place")

MOST_TOKENS = 500_000
CHANGES = frozenset("= += -= *= /= %= &= |= ^= <<= >>= ++ --".split())


class Found(Exception):
    """The fault is found; the text says what it is about."""


class TooLong(Exception):
    """The walk is given up."""


def spelled_lock(it):
    """A held mutex, as it is locked."""
    return f"`{it.name}[{it.spelled}]`" if it.spelled is not None else f"`{it.name}`"


def listed(held):
    """Held mutexes, in words."""
    texts = [spelled_lock(it) for it in held]
    return " and ".join([", ".join(texts[:-1]), texts[-1]] if len(texts) > 1 else texts) or "none"


class Walk:
    """A walk through threads up to a fault."""

    def __init__(self, declared, rule, place):
        self.declared, self.rule, self.place = declared, rule, place
        self.held, self.given, self.calls, self.result = [], {}, [], None
        self.scopes, self.numbers, self.left = [], 0, MOST_TOKENS
        self.bodies = {it.owner[0].text: it for it in declared.bodies}

    def hints(self):
        """What there is to say of the fault, in lines; none where the walk doesn't come to it."""
        try:
            for body in self.declared.bodies:
                item = self.declared.items.get(body.owner[0].text)
                if item is not None and item.sort == "thread":
                    self.thread(item, body)
        except Found as found:
            return [str(found), *self.way()]
        except TooLong:
            pass
        return []

    def way(self):
        """By which calls the text is reached, where it stands in a function."""
        if len(self.calls) < 2:
            return []
        steps = [f"thread `{self.calls[0][0]}`"]
        steps += [f"`{name}` at {self.declared.place_text(place)}" for name, place in self.calls[1:]]
        if len(steps) > 5:
            steps = [*steps[:2], f"{len(steps) - 4} more", *steps[-2:]]
        return [f"called by {steps[0]}: {', there '.join(steps[1:])}"]

    def is_here(self, rule, place):
        """Whether this is the fault."""
        return rule == self.rule and place == self.place

    def when(self, place):
        """A place, in words."""
        return self.declared.place_text(place)

    # ---- Tokens

    def look(self, at):
        """The text of a token."""
        self.left -= 1
        if self.left < 0:
            raise TooLong
        return self.declared.look(at)

    def start(self, at):
        """Where a token begins."""
        return self.declared.tokens[at].start

    def is_local(self, name):
        """The number of the local that a name stands for, and the array that it refers to; None where it is none."""
        return next((it[name] for it in reversed(self.scopes) if name in it), None)

    def declare(self, name, array):
        """A new local of this name."""
        self.numbers += 1
        self.scopes[-1][name] = (self.numbers, array)

    def key(self, first, last):
        """A key or an index, as two of them are compared."""
        while self.look(first) == "(" and self.declared.closing(first) == last - 1:
            first, last = first + 1, last - 1
        found = []
        for at in range(first, last):
            token = self.declared.tokens[at]
            local = self.is_local(token.text)
            if token.kind == "number":
                found.append((literal(token.text), "".join(sorted(it for it in token.text.lower() if it in "ul"))))
            else:
                found.append((token.text, local[0] if local else None))
        return tuple(found)

    # ---- Threads, blocks, statements

    def thread(self, item, body):
        """A thread, to its end."""
        self.held, self.calls, self.scopes = [], [(item.name, item.place)], []
        self.block(body.opens)
        if self.held and self.is_here("L5", self.start(body.closes)):
            since = ", ".join(f"{spelled_lock(it)} since {self.when(it.place)}" for it in self.held)
            raise Found(f"held at the end of thread `{item.name}`: {since}")

    def block(self, opens):
        """The statements of a block, in a scope of their own."""
        self.scopes.append({})
        after = self.statements(opens)
        self.scopes.pop()
        return after

    def statements(self, opens):
        """The statements of a block; answers where it is over."""
        at, closes = opens + 1, self.declared.closing(opens)
        while at < closes:
            at = self.statement(at)
        return closes + 1

    def statement(self, at):
        """A statement; answers where the next one begins."""
        word = self.look(at)
        walks = {"{": self.block, "if": self.choice, "while": self.while_loop, "do": self.do_loop, "for": self.for_loop}
        walk = {**walks, "lock": self.lock, "unlock": self.unlock}.get(word)
        if walk is not None:
            return walk(at)
        if word == ";":
            return at + 1
        ends = self.declared.ends(at)
        if word == "return":
            self.result = (at + 1, ends)
        else:
            self.simple(at, ends)
        return ends + 1

    def simple(self, at, ends):
        """A declaration, a call or an assignment, without its `;`."""
        of = self.declared.type_at(at)
        if of is not None:
            name = of[2]
            self.frozen(self.look(name), self.start(at))
            if self.look(name + 1) == "=":
                self.value(name + 2, ends, None)
            self.declare(self.look(name), of[1])
        elif self.declared.is_name(at) and self.look(at + 1) == "(":
            self.call(at, None)
        elif at < ends:
            self.assignment(at, ends)

    def assignment(self, at, ends):
        """An assignment."""
        target = at + 1 if self.look(at) in ("++", "--") else at
        after = target + 2 if self.look(target) == "*" else target + 1
        after = self.declared.closing(after) + 1 if self.look(after) == "[" else after
        if self.look(after) == "=":
            self.value(after + 1, ends, (target, after))
            return
        self.reads(target, after)
        if self.look(after) in CHANGES and self.look(after) not in ("++", "--"):
            self.reads(after + 1, ends)
        self.target(target, after)

    def value(self, first, last, target):
        """The value of an assignment, or the call that gives it; then its target."""
        if self.declared.is_name(first) and self.look(first + 1) == "(":
            self.call(first, target)
            return
        self.reads(first, last)
        if target is not None:
            self.target(*target)

    def target(self, first, last):
        """The target of an assignment."""
        name = self.look(first)
        if name != "*" and self.is_local(name):
            self.frozen(name, self.start(first))
        else:
            self.reads(first, last)

    def call(self, at, target):
        """A call, replaced by its body."""
        name, closes = self.look(at), self.declared.closing(at + 1)
        first = at + 2
        while first < closes:
            last = first
            while last < closes and self.look(last) != ",":
                last = self.declared.closing(last) + 1 if self.look(last) in ("(", "[") else last + 1
            self.reads(first, last)
            first = last + 1
        function, body = self.declared.items.get(name), self.bodies.get(name)
        if function is None or function.sort != "function" or body is None:
            return
        outside, self.scopes, self.result = self.scopes, [{}], None
        self.calls.append((name, self.start(at)))
        for it in function.parameters:
            self.declare(it.name, it.refers)
        self.statements(body.opens)
        if self.result is not None and function.type != "void":
            self.reads(*self.result)
        self.calls.pop()
        self.scopes, self.result = outside, None
        if target is not None:
            self.target(*target)

    def choice(self, at):
        """An `if` with all that belongs to it."""
        place, before, ends = self.start(at), list(self.held), []
        has_otherwise = False
        while True:
            condition = at + 1
            self.reads(condition + 1, self.declared.closing(condition))
            opens = self.declared.closing(condition) + 1
            self.held = list(before)
            at = self.block(opens)
            ends.append((self.start(opens), self.held))
            self.held = list(before)
            if self.look(at) != "else":
                break
            if self.look(at + 1) != "if":
                opens = at + 1
                at = self.block(opens)
                ends.append((self.start(opens), self.held))
                has_otherwise = True
                break
            at += 1
        if not has_otherwise:
            ends.append((None, before))
        if self.is_here("L4", place):
            texts = [f"{'the block at ' + self.when(start) if start is not None else 'without an `else`'}: {listed(held)}" for start, held in ends]
            raise Found("held at the ends of the blocks: " + "; ".join(texts))
        self.held = ends[0][1]
        return at

    def round(self, place, before):
        """The end of a round of a loop."""
        if self.is_here("L4", place):
            raise Found(f"held before the loop: {listed(before)}; held at the end of its block: {listed(self.held)}")
        self.held = before

    def while_loop(self, at):
        """A `while`."""
        closes = self.declared.closing(at + 1)
        self.reads(at + 2, closes)
        before = list(self.held)
        after = self.block(closes + 1)
        self.round(self.start(at), before)
        return after

    def do_loop(self, at):
        """A `do`."""
        before = list(self.held)
        after = self.block(at + 1)
        self.reads(after + 2, self.declared.closing(after + 1))
        self.round(self.start(at), before)
        return self.declared.closing(after + 1) + 2

    def for_loop(self, at):
        """A `for`."""
        closes = self.declared.closing(at + 1)
        self.scopes.append({})
        first = self.declared.ends(at + 2)
        self.simple(at + 2, first)
        second = self.declared.ends(first + 1)
        self.reads(first + 1, second)
        before = list(self.held)
        after = self.block(closes + 1)
        if second + 1 < closes:
            self.assignment(second + 1, closes)
        self.scopes.pop()
        self.round(self.start(at), before)
        return after

    # ---- Mutexes

    def named(self, at):
        """The mutex of a `lock` or an `unlock`, and where its statement ends."""
        name, closes = self.look(at + 2), self.declared.closing(at + 1)
        if self.look(at + 3) != "[":
            return Held(name, None, None, self.start(at)), closes + 2
        key = self.key(at + 4, self.declared.closing(at + 3))
        return Held(name, key, self.declared.spelled(at + 4, self.declared.closing(at + 3)), self.start(at)), closes + 2

    def same(self, wanted):
        """The held mutex that is spelled so, or None."""
        return next((it for it in self.held if (it.name, it.key) == (wanted.name, wanted.key)), None)

    def lock(self, at):
        """A `lock`."""
        wanted, after = self.named(at)
        same = self.same(wanted)
        if same is not None and self.is_here("L2", wanted.place):
            raise Found(f"{spelled_lock(same)} is held since {self.when(same.place)}")
        if self.is_here("K10", wanted.place):
            raise Found(f"held already: {listed(self.held)}")
        if self.is_here("L7", wanted.place):
            since = ", ".join(f"{spelled_lock(it)} since {self.when(it.place)}" for it in self.held)
            raise Found(f"held where {spelled_lock(wanted)} is locked: {since}")
        if same is None:
            self.held.append(wanted)
        return after

    def unlock(self, at):
        """An `unlock`."""
        wanted, after = self.named(at)
        same = self.same(wanted)
        if same is None and self.is_here("L3", wanted.place):
            raise Found(self.not_held(wanted))
        if same is not None:
            self.held.remove(same)
            self.given[(wanted.name, wanted.key)] = wanted.place
        return after

    def not_held(self, wanted):
        """Why a mutex isn't held."""
        other = next((it for it in self.held if it.name == wanted.name), None)
        if other is not None:
            return f"held here is {spelled_lock(other)}, locked at {self.when(other.place)}: a key is spelled as in its `lock`, by the same locals"
        given = self.given.get((wanted.name, wanted.key))
        since = f"; {spelled_lock(wanted)} was given back at {self.when(given)}" if given is not None else ""
        return f"held here: {listed(self.held)}{since}"

    def frozen(self, name, place):
        """An assignment or a declaration of a local."""
        local = self.is_local(name)
        if local is None or not self.is_here("L6", place):
            return
        for it in self.held:
            if it.key is not None and (name, local[0]) in it.key:
                raise Found(f"`{name}` is in the key of {spelled_lock(it)}, which is held since {self.when(it.place)}")

    # ---- Reads and stores

    def reads(self, first, last):
        """What an expression or a target reads and names, from left to right."""
        for at in range(first, last):
            if self.rule != "L1":
                return
            word = self.look(at)
            is_first = at == first or self.look(at - 1) not in (")", "]") and self.declared.tokens[at - 1].kind == "mark"
            if word == "*" and is_first:
                local = self.is_local(self.look(at + 1))
                if local is not None and self.is_here("L1", self.start(at)):
                    self.unheld(self.declared.items.get(local[1]), None, f"`*{self.look(at + 1)}` is an element of `{local[1]}`, which")
            elif self.declared.is_name(at) and self.start(at) == self.place and not self.is_local(word):
                index = (at + 2, self.declared.closing(at + 1)) if self.look(at + 1) == "[" else None
                self.unheld(self.declared.items.get(word), index, f"`{word}`")

    def unheld(self, variable, index, what):
        """A variable whose mutex isn't held."""
        if variable is None or variable.sort != "variable":
            return
        if not variable.is_each:
            if any(it.name == variable.guard for it in self.held):
                return
            given = self.given.get((variable.guard, None))
            since = f"; `{variable.guard}` was given back at {self.when(given)}" if given is not None else ""
            raise Found(f"{what} is guarded by `{variable.guard}`; held here: {listed(self.held)}{since}")
        key, spelled = self.key(*index), self.declared.spelled(*index)
        others = [it for it in self.held if it.name == variable.guard]
        if any(it.key == key for it in others):
            return
        name = variable.name
        if others:
            held = others[-1]
            raise Found(
                f"`{name}[{spelled}]` is guarded by `{variable.guard}[{spelled}]`; held here: {listed(self.held)}. The index is spelled as the key:"
                f" `{name}[{held.spelled}]`" + (", by the same locals" if held.spelled == spelled else "")
            )
        given = self.given.get((variable.guard, key))
        since = f"; `{variable.guard}[{spelled}]` was given back at {self.when(given)}" if given is not None else ""
        raise Found(f"`{name}[{spelled}]` is guarded by `{variable.guard}[{spelled}]`; held here: {listed(self.held)}{since}")


def lock_hints(code, declared, place):
    """What there is to say of a rule of locks that is broken at a place."""
    return Walk(declared, code, place).hints() if code in ("L1", "L2", "L3", "L4", "L5", "L6", "L7", "K10") else []
