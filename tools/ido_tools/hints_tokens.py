"""What may be meant by a byte or a token that no program has there, and what to write instead."""

import re

from ido_tools.source import TYPE_WORDS
from ido_tools.words import RESERVED as RESERVED_WORDS

RESERVED = frozenset(RESERVED_WORDS)
TYPES = TYPE_WORDS | {"void", "ref"}
UPDATES = frozenset("= += -= *= /= %= &= |= ^= <<= >>= ++ --".split())
TEXT = re.compile(rb'"((?:[^"\\\n]|\\.)*)"')
CHARACTER = re.compile(rb"'((?:[^'\\\n]|\\.)+)'")
ESCAPES = {"n": 10, "t": 9, "r": 13, "0": 0, "a": 7, "b": 8, "f": 12, "v": 11}
# A text of more characters isn't spelled out.
MOST_SPELLED = 40

LOCKS_OF_C = re.compile(r"(?:pthread_|mtx_|std_)?(?:mutex_|spin_)?(lock|unlock|acquire|release)$")


# ---- The words around a token


def statement_from(declared, at):
    """The number of the first token of the statement that a token stands in."""
    first = at
    while first > 0 and declared.look(first - 1) not in (";", "{", "}"):
        first -= 1
    return first


def is_outside(declared, at):
    """Whether a token stands outside of every block."""
    depth = 0
    for it in range(at):
        depth += (declared.look(it) == "{") - (declared.look(it) == "}")
    return depth <= 0


def open_brace(declared, at):
    """The place of the innermost brace that is open before a token, or None."""
    opened = []
    for it in range(at):
        if declared.look(it) == "{":
            opened.append(declared.tokens[it].start)
        elif declared.look(it) == "}" and opened:
            opened.pop()
    return opened[-1] if opened else None


def mutex_of(declared):
    """A mutex that the text declares, for an example."""
    return declared.first("mutex", lambda it: it.length is None) or "m"


def array_of(declared):
    """An array that the text declares, for an example."""
    return declared.first("variable", lambda it: it.length is not None and not it.is_each) or "a"


def opener(declared, closes):
    """Where the parenthesis was opened that a token closes, or None."""
    return declared.partners.get(closes) if declared.look(closes) == ")" else None


def header_before(declared, at):
    """Whether a loop or an `if` ends before a token, which a block has to follow."""
    if declared.look(at - 1) in ("else", "do"):
        return True
    opened = opener(declared, at - 1)
    return opened is not None and declared.look(opened - 1) in ("if", "while", "for") and not ends_do(declared, opened - 1)


def ends_do(declared, at):
    """Whether the `while` at a token ends a `do`."""
    opened = declared.partners.get(at - 1) if declared.look(at) == "while" and declared.look(at - 1) == "}" else None
    return opened is not None and declared.look(opened - 1) == "do"


# ---- Bytes


def characters(spelled):
    """The numbers of the characters of a text of C, without the one that ends it."""
    found, at = [], 0
    text = spelled.decode("latin-1")
    while at < len(text):
        if text[at] == "\\" and at + 1 < len(text):
            found.append(ESCAPES.get(text[at + 1], ord(text[at + 1])))
            at += 2
        else:
            found.append(ord(text[at]))
            at += 1
    return found


def spelled_text(declared, place, length=None):
    """The initialiser that stands for the text which begins at a byte, or None. A text that fills its array has no 0 at its end, as in C."""
    match = TEXT.match(declared.text, place)
    if match is None:
        return None
    found = characters(match[1]) + [0]
    found = found[:-1] if length is not None and len(found) == length + 1 else found
    return "{" + ", ".join(map(str, found)) + "}" if len(found) <= MOST_SPELLED else None


def preprocessor(declared, place):
    """A `#`."""
    line = declared.text[place:].split(b"\n")[0].decode("utf-8", "replace").strip()
    defined = re.match(r"#\s*define\s+([A-Za-z_]\w*)\s+(\S.*)$", line, re.ASCII)
    if defined:
        return f"there is no preprocessor: write `{defined[2].strip()}` wherever `{defined[1]}` stands, and leave this line away"
    if re.match(r"#\s*include\b", line):
        return "there is no preprocessor and no library: leave this line away"
    return "there is no preprocessor: leave this line away"


def quoted(declared, at, place):
    """A `"`."""
    if declared.look(at - 1) in ("=", "{", ","):
        name = declared.items.get(declared.look(at - 5)) if declared.look(at - 2) == "]" else None
        spelled = spelled_text(declared, place, name.length if name else None)
        return "there are no texts: an array of `char` has numbers" + (f", `{spelled}` here" if spelled else "")
    if declared.look(at - 1) == "(" and declared.is_name(at - 2):
        return "there are no texts, and threads print nothing: keep in a variable what the report is to show"
    return "there are no texts: an array of `char` has numbers"


def bad_byte(declared, place):
    """A byte that begins no token."""
    at = declared.index_of(place)
    byte = declared.text[place : place + 1]
    if byte == b"#":
        return preprocessor(declared, place)
    if byte == b'"':
        return quoted(declared, at, place)
    if byte == b"'":
        match = CHARACTER.match(declared.text, place)
        found = characters(match[1]) if match else []
        if len(found) != 1:
            return "there are no characters: write the number"
        return f"there are no characters: the number of `'{match[1].decode('latin-1')}'` is {found[0]}"
    if byte == b"." and declared.is_name(at - 1):
        return "there are no fields: keep each field in an array of its own, and the number of the element in place of the struct"
    if byte == b".":
        return "there are no fractions: count in a smaller unit, as thousandths"
    if byte == b"/":
        return "this comment is not closed by `*/`"
    return None


# ---- Tokens


def unfinished(declared, at):
    """The end of the text."""
    brace = open_brace(declared, at)
    if brace is not None:
        return f"the text ends here, and the block that begins at {declared.place_text(brace)} is open"
    if not declared.tokens:
        return "a program has at least one mutex, variable, function or thread"
    return semicolon(declared, at)


def semicolon(declared, at):
    """Where a `;` is missing before a token."""
    last = declared.tokens[at - 1]
    place = declared.place_text(last.end)
    return f"a `;` is missing behind `{last.text}`, at {place}"


def wants_semicolon(declared, at):
    """Whether a statement or a declaration is whole before a token that begins another."""
    before, there = declared.look(at - 1), declared.look(at)
    if at == 0 or before in (";", "{", "}", ",", "(", "[") or declared.tokens[at - 1].kind == "mark" and before not in (")", "]", "++", "--", "}"):
        return False
    if before in RESERVED and before != "null":
        return False
    first = statement_from(declared, at)
    if is_outside(declared, at) and declared.look(first) not in ("mutex", "persistent"):
        return False
    begins = there in ("}", "") or there in RESERVED - {"null", "ref"} or there == "ref" or declared.is_name(at) or there in ("++", "--", "{")
    if there in ("++", "--") or not begins:
        return False
    is_alone = at - first == 1 and declared.is_name(first)
    is_header = declared.look(first) in ("if", "while", "for", "thread") and not ends_do(declared, first)
    return not is_alone and not is_header and (there, before) != ("{", ")")


def no_type(declared, at):
    """Two names side by side: the first is meant as a type."""
    name = declared.look(at - 1)
    unsigned = re.match(r"(u?)int(8|16|32|64)_t$", name)
    if unsigned:
        word = {"8": "char", "16": "short", "32": "int", "64": "long"}[unsigned[2]]
        sign = "unsigned " if unsigned[1] else ("signed " if word == "char" else "")
        return f"`{name}` is `{sign}{word}` here"
    known = {
        "size_t": "unsigned long", "ssize_t": "long", "uintptr_t": "unsigned long", "intptr_t": "long", "ptrdiff_t": "long", "bool": "int", "_Bool": "int",
        "double": "long", "float": "int", "pthread_mutex_t": "mutex", "mtx_t": "mutex", "pthread_spinlock_t": "mutex",
    }  # fmt: skip
    if known.get(name) == "mutex":
        where = "" if is_outside(declared, at) else ", outside of threads"
        return f"a mutex is declared by `mutex {declared.look(at)};`{where}"
    if name in ("double", "float"):
        return f"there are no fractions: count in a smaller unit, in a `{known[name]}`"
    if name in known:
        return f"`{name}` is `{known[name]}` here"
    return f"`{name}` is no type: types are `char`, `short`, `int` and `long`, `signed` or `unsigned`, and `ref(..)`"


BEGINNINGS_OF_C = {
    "struct": "there are no structs: keep each field in an array of its own, with one number for what belongs together",
    "union": "there are no unions: keep each field in a variable of its own",
    "enum": "there are no enums: write numbers, and say in a comment what they mean",
    "typedef": "types have no other names: write the type itself",
    "switch": "there is no `switch`: write `if`, `else if` and `else`",
    "goto": "there is no `goto`: write a loop",
    "break": "there is no `break`: let the condition of the loop end it",
    "continue": "there is no `continue`: put what follows in an `if`",
}
QUALIFIERS = frozenset("const static volatile register auto extern inline restrict constexpr".split())


def word_of_c(declared, at):
    """A word of C that is none here, at a token or close before it."""
    first = statement_from(declared, at)
    begin = declared.look(first)
    if begin in BEGINNINGS_OF_C:
        return BEGINNINGS_OF_C[begin]
    if begin in QUALIFIERS:
        return f"leave `{begin}` away"
    if "sizeof" in (declared.look(at), declared.look(at - 1), declared.look(at - 2)):
        return "there is no `sizeof`: `char` has 1 byte, `short` 2, `int` 4, `long` 8"
    return None


def pointer(declared, at):
    """A `*` behind a type."""
    first = statement_from(declared, at)
    array = array_of(declared)
    name = declared.look(at + 1) if declared.is_name(at + 1) else "p"
    if is_outside(declared, at) and declared.look(first) == "persistent":
        return f"there are no pointers: `ref({array})` is the type of what refers to an element of the array `{array}`"
    if is_outside(declared, at) and opener_before(declared, at) is None:
        return f"there are no pointers: `persistent({mutex_of(declared)}) ref({array}) {name};` refers to an element of the array `{array}`"
    return f"there are no pointers: `ref({array}) {name}` refers to an element of the array `{array}`"


def opener_before(declared, at):
    """The number of a `(` that is open before a token since the last `;` or brace, or None."""
    depth = 0
    for it in range(at - 1, -1, -1):
        word = declared.look(it)
        if word in (";", "{", "}"):
            return None
        depth += (word == ")") - (word == "(")
        if depth < 0:
            return it
    return None


def in_head(declared, at):
    """Whether a token stands in the parentheses of a `for`."""
    depth = 0
    for it in range(at - 1, -1, -1):
        word = declared.look(it)
        if word in ("{", "}"):
            return False
        depth += (word in (")", "]")) - (word in ("(", "["))
        if depth < 0:
            return word == "(" and declared.look(it - 1) == "for"
    return False


def unguarded(declared, at):
    """What is declared outside of threads without its mutex."""
    first = statement_from(declared, at)
    end = declared.ends(at)
    spelled = declared.spelled(first, end)
    equals = next((it for it in range(at, end) if declared.look(it) == "="), None)
    if equals is not None and declared.text[declared.tokens[equals].end :].lstrip()[:1] == b'"':
        place = declared.text.index(b'"', declared.tokens[equals].end)
        length = declared.length_at(at)
        value = spelled_text(declared, place, length) or "{..}"
        spelled = f"{declared.spelled(first, equals)} = {value}"
    if declared.look(at) == ",":
        spelled = declared.spelled(first, at)
    return f"a variable outside of threads is guarded by a mutex: `persistent({mutex_of(declared)}) {spelled};`"


def second_length(declared, at):
    """A second index or length."""
    opened = declared.partners.get(at - 1)
    name = opened - 1
    first, second = declared.spelled(opened + 1, at - 1), declared.spelled(at + 1, declared.closing(at))
    words = (declared.look(opened + 1), declared.look(at + 1))
    is_declared = declared.look(statement_from(declared, at)) in TYPES | {"persistent"}
    if is_declared and all(it.isdigit() for it in words):
        whole = int(words[0]) * int(words[1])
        return f"an array has one length: `{declared.look(name)}[{whole}]`, whose element [i][j] is `{declared.look(name)}[i * {second} + j]`"
    if is_declared:
        return "an array has one length, the product of both"
    row = first if opened + 2 == at - 1 else f"({first})"
    return f"an array has one index: `{declared.look(name)}[{row} * n + {second}]`, where n is the length of a row"


def is_call(declared, at):
    """Whether a call whose result is assigned ends before a token."""
    opened = opener(declared, at - 1)
    return opened is not None and declared.is_name(opened - 1) and declared.look(opened - 2) == "="


def statement_call(declared, at):
    """A call that stands within an expression."""
    name = declared.look(at - 1)
    given = declared.spelled(at + 1, declared.closing(at))
    locks = LOCKS_OF_C.match(name)
    if "trylock" in name.replace("_", ""):
        return f"`lock({given.lstrip('&') or 'm'});` waits until the mutex is free; there is no lock that is only tried"
    if locks:
        return f"`{'lock' if locks[1] in ('lock', 'acquire') else 'unlock'}({given.lstrip('&') or 'm'});` is a statement of its own"
    return f"a call is a statement of its own, or the whole value that is assigned: `int r = {name}(..);`"


def locked_by_address(declared, at):
    """A mutex that is named by its address, as in C."""
    opened = at - 1 if declared.look(at) == "&" else opener_before(declared, at)
    if opened is None or declared.look(opened) != "(":
        return None
    word, mutex = declared.look(opened - 1), declared.look(opened + 2)
    locks = LOCKS_OF_C.match(word)
    if declared.look(opened + 1) != "&" or not locks or not declared.is_name(opened + 2):
        return None
    name = "lock" if locks[1] in ("lock", "acquire") else "unlock"
    return f"a mutex is named by itself, without `&`: `{name}({mutex});`"


# Behind these a value or a name follows.
BEFORE_VALUES = UPDATES - {"++", "--"} | frozenset("( , + - * / % [ < > <= >= == != && || & | ^".split())


def reserved_name(declared, at):
    """A word of the language where a name is wanted."""
    word, before = declared.look(at), declared.look(at - 1)
    is_reference = before == ")" and declared.look((opener(declared, at - 1) or 0) - 1) == "ref"
    wants_name = is_reference or before in TYPES | {"mutex", "thread"}
    if word in RESERVED - TYPE_WORDS and wants_name:
        return f"`{word}` is a word of the language: take another name"
    if word in RESERVED - TYPES - {"null", "return"} and before in BEFORE_VALUES:
        return f"`{word}` is a word of the language: take another name"
    if before in RESERVED - TYPES - {"return", "else", "do"} and word in UPDATES | {"[", ";", ".", ")"}:
        return f"`{before}` is a word of the language: take another name"
    return None


class Spot:
    """A token, what stands around it, and what is meant by it: each of `FINDERS` looks for one mistake."""

    def __init__(self, declared, at):
        self.declared, self.at = declared, at
        self.there, self.before = declared.look(at), declared.look(at - 1)
        self.first = statement_from(declared, at)
        self.begin = declared.look(self.first)
        self.words = [declared.look(it) for it in range(self.first, at)]
        self.is_outside = is_outside(declared, at)
        self.is_typed = self.begin in TYPES and "(" not in self.words[2:] and self.words[1:2] != ["("]
        if self.begin == "ref":
            self.is_typed = "(" not in self.words[2:]

    def arrow(self):
        """A field behind a pointer."""
        if (self.there == "-" and self.declared.look(self.at + 1) == ">") or (self.there == ">" and self.before == "-"):
            return "a reference has no fields: keep each field in an array of its own, as `next[i]`, and the element's number `i` in place of the pointer"
        return None

    def address(self):
        """A mutex that is named by its address."""
        return locked_by_address(self.declared, self.at)

    def long_long(self):
        """`long long`."""
        return "`long` has 64 bits already: one `long` is enough" if (self.before, self.there) == ("long", "long") else None

    def words_of_c(self):
        """A word of C that is none here."""
        return word_of_c(self.declared, self.at)

    def no_guard(self):
        """A `persistent` without its mutex."""
        if self.before != "persistent" or self.there == "(":
            return None
        rest = self.declared.spelled(self.at, self.declared.ends(self.at))
        return f"behind `persistent` stands the mutex that guards it: `persistent({mutex_of(self.declared)}) {rest};`"

    def rows(self):
        """A second index or length."""
        return second_length(self.declared, self.at) if (self.before, self.there) == ("]", "[") else None

    def no_initialiser(self):
        """An initialiser of a persistent reference."""
        if self.begin == "persistent" and self.before == "=" and self.there == "null":
            return "a persistent reference begins as null and has no initialiser: leave `= null` away"
        return None

    def pointers(self):
        """A `*` behind a type, or behind what is meant as one."""
        if self.there != "*":
            return None
        behind_type = self.before in TYPES and (self.begin in TYPES | {"persistent"} or "(" in self.words)
        return pointer(self.declared, self.at) if behind_type or (len(self.words) == 1 and self.declared.is_name(self.at - 1)) else None

    def reserved(self):
        """A word of the language as a name."""
        return reserved_name(self.declared, self.at)

    def no_mutex(self):
        """A variable outside of threads that nothing guards."""
        if self.is_outside and self.is_typed and self.there in (";", "=", ",", "[") and self.declared.is_name(self.at - 1):
            return unguarded(self.declared, self.at)
        return None

    def no_body(self):
        """A function that is declared without its body."""
        if self.is_outside and self.begin in TYPES and self.there == ";" and self.before == ")":
            return "a function is declared with its body, before or behind its calls: leave this line away"
        return None

    def parameters(self):
        """An array as a parameter."""
        if self.is_outside and self.begin in TYPES and self.there == "[" and "(" in self.words:
            return "a parameter is a number or a reference: a function names an array itself, and takes an index"
        return None

    def braces(self):
        """A block without its braces."""
        if self.there != "{" and header_before(self.declared, self.at):
            return "a block has its braces, also where it has one statement: `{ .. }`"
        return None

    def local_array(self):
        """An array inside of a thread or of a function."""
        if self.there != "[" or not self.is_typed:
            return None
        spelled = self.declared.spelled(self.first, self.declared.closing(self.at) + 1)
        return f"arrays are persistent variables: `persistent({mutex_of(self.declared)}) {spelled};` outside of threads"

    def types(self):
        """A name that is meant as a type."""
        at = self.at if self.words else self.at + 1
        if at - self.first == 1 and self.declared.is_name(at - 1) and (self.declared.is_name(at) or self.declared.look(at) in TYPES):
            return no_type(self.declared, at)
        return None

    def two_names(self):
        """A declaration of two names."""
        if self.there == "," and self.is_typed:
            return "a declaration has one name"
        if self.there == "," and in_head(self.declared, self.at):
            return "each part of a `for` has one assignment: put another one before the loop, or at the end of its block"
        return None

    def calls(self):
        """A call within an expression."""
        if is_call(self.declared, self.at) and self.there not in ("}", "") and not self.declared.is_name(self.at) and self.there not in RESERVED:
            return "a call is a statement of its own, or the whole value that is assigned: `int r = f(..);`"
        if self.there == "(" and self.declared.is_name(self.at - 1) and len(self.words) > 1:
            return statement_call(self.declared, self.at)
        return None

    def assignments(self):
        """An assignment within another or within an expression."""
        if self.there in UPDATES and {"=", "(", "["} & set(self.words) and self.begin != "persistent":
            return "an assignment is a statement of its own"
        return None

    def returns(self):
        """A `return` before the end."""
        return "`return` is the last statement of a function, and a thread has none" if self.there == "return" else None

    def casts(self):
        """A statement that drops a value, as C does by `(void) x;`."""
        return "a statement is an assignment, a call or a declaration: a value alone is none" if self.there == "(" and not self.words else None

    def choices(self):
        """A `?:` as a statement."""
        if self.there == "?" and len(self.words) == 1:
            return "a statement is an assignment, a call or a declaration: in place of `?:` write `if` and `else`"
        return None

    def semicolons(self):
        """A `;` that is missing."""
        return semicolon(self.declared, self.at) if wants_semicolon(self.declared, self.at) else None

    def operators(self):
        """Two operands side by side."""
        kinds = (self.declared.tokens[self.at - 1].kind if self.at else "", self.declared.tokens[self.at].kind)
        if kinds[1] == "number" and kinds[0] in ("number", "word") and self.before not in RESERVED:
            return "an operator or a `;` is missing before this"
        return None


FINDERS = (
    Spot.arrow, Spot.address, Spot.long_long, Spot.words_of_c, Spot.no_guard, Spot.rows, Spot.no_initialiser, Spot.pointers, Spot.reserved, Spot.no_mutex,
    Spot.no_body, Spot.parameters, Spot.braces, Spot.local_array, Spot.types, Spot.two_names, Spot.calls, Spot.assignments, Spot.returns, Spot.casts,
    Spot.choices, Spot.semicolons, Spot.operators,
)  # fmt: skip


def bad_token(declared, place):
    """A token that no program has after those before it."""
    at = declared.index_of(place)
    if at >= len(declared.tokens):
        return unfinished(declared, at)
    spot = Spot(declared, at)
    return next((said for said in (find(spot) for find in FINDERS) if said), None)


def bad_number(declared, place):
    """A number that isn't spelled as one."""
    at = declared.index_of(place)
    word = declared.look(at)
    plain = word.rstrip("uUlL")
    if re.fullmatch(r"0[0-9]+", plain):
        return f"a number that begins with 0 is octal: {plain.lstrip('0') or '0'} without it"
    if re.fullmatch(r"0[bB][01]+", plain):
        return f"there are no binary numbers: {int(plain[2:], 2)}"
    if re.fullmatch(r"[0-9]+[eE][0-9]+", plain) and int(re.split("[eE]", plain)[1]) < 19:
        base, power = re.split("[eE]", plain)
        return f"numbers have no exponent: {int(base) * 10 ** int(power)}"
    if re.fullmatch(r"[0-9]+|0[xX][0-9A-Fa-f]+", plain) and len(word) - len(plain) > 1 and word[len(plain) :].lower() not in ("ul", "lu"):
        suffix = "ul" if "u" in word[len(plain) :].lower() else "l"
        return f"a suffix is `u`, `l`, `ul` or `lu`: {plain}{suffix}"
    if re.fullmatch(r"[1-9][0-9]*", word) and int(word) < 2**64:
        return f"a number above 9223372036854775807 needs a `u`: {word}u"
    return None


HINTS = {"S1": bad_byte, "S2": bad_number, "S3": bad_token}


def token_hint(code, declared, place):
    """What may be meant by what stands at a place, or None."""
    return HINTS[code](declared, place) if code in HINTS else None
