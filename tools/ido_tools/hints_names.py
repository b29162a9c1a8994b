"""What may be meant where a name is refused: what it stands for, and what to write instead."""

import difflib

# Of C's and other words for the same thing what to write, where a name isn't known.
NAMES_OF_C = {
    "true": "`true` is 1 here",
    "false": "`false` is 0 here",
    "assert": "nothing is asserted in a thread: look at the report, or let `tools/crash-map` look at an `// invariant:`",
    "printf": "threads print nothing: keep in a variable what the report is to show",
    "puts": "threads print nothing: keep in a variable what the report is to show",
    "abort": "a thread ends at its closing brace alone",
    "exit": "a thread ends at its closing brace alone",
}
WAITING = "`lock({0});` waits until `{0}` is free; there is no lock that is only tried"
TAKEN = "`lock({0});` takes a mutex"
GIVEN = "`unlock({0});` gives a mutex back"
ALLOCATED = "nothing is allocated: elements of a persistent array are taken from a list of free ones (docs/language.md#references)"
CALLS_OF_C = {
    "malloc": ALLOCATED,
    "calloc": ALLOCATED,
    "free": ALLOCATED,
}
LOCKS_OF_C = {"lock", "acquire", "mtx_lock", "pthread_mutex_lock", "mutex_lock", "spin_lock", "pthread_spin_lock"}
UNLOCKS_OF_C = {"unlock", "release", "mtx_unlock", "pthread_mutex_unlock", "mutex_unlock", "spin_unlock", "pthread_spin_unlock"}

COMPARISONS = ("==", "!=")
UPDATES = frozenset("+= -= *= /= %= &= |= ^= <<= >>= ++ --".split())


def article(noun):
    """A noun with its article."""
    return f"an {noun}" if noun[0] in "aeiou" else f"a {noun}"


def about(declared, it):
    """What a name stands for, in words."""
    if it.sort == "mutex":
        return "a mutex" if it.length is None else f"an array of {it.length} mutexes"
    if it.sort == "variable":
        return f"a persistent variable of the type `{it.type}`" if it.length is None else f"an array of {it.length} elements"
    if it.sort == "function":
        return "a function"
    if it.sort == "thread":
        return "a thread"
    return f"a local of the type `{it.type}`, declared at {declared.place_text(it.place)}"


def guard_of(it, key="e"):
    """The mutex that guards a variable, as it is locked."""
    return f"{it.guard}[{key}]" if it.is_each else it.guard


def mutex_named(spelled):
    """The name of a mutex that is given as in C, by its address."""
    return spelled.lstrip("&").strip() or "m"


# ---- Names that aren't known


def call_of_c(declared, at):
    """A call of what C's library has, as it is written here; None where it is none."""
    name = declared.look(at)
    if declared.look(at + 1) != "(":
        return None
    given = mutex_named(declared.spelled(at + 2, declared.closing(at + 1)))
    if "trylock" in name.replace("_", ""):
        return WAITING.format(given)
    if name in LOCKS_OF_C:
        return TAKEN.format(given)
    if name in UNLOCKS_OF_C:
        return GIVEN.format(given)
    return CALLS_OF_C.get(name)


def is_reference_beside(declared, at):
    """Whether what is compared or assigned beside a token is a reference; None where that can't be told."""
    before = at - 1
    if declared.look(before) not in ("=", *COMPARISONS):
        return None
    if declared.look(before - 1) == "]":
        before = declared.partners.get(before - 1, before)
    of = declared.meaning(declared.look(before - 1), before - 1)
    if of is None and declared.is_name(before - 1):
        of_type = declares(declared, before - 1)
        return None if of_type is None else of_type[1] is not None
    return None if of is None else of.refers is not None


def unknown(declared, at):
    """What may be meant by a name that isn't known."""
    name = declared.look(at)
    if name in ("NULL", "nullptr"):
        is_reference = is_reference_beside(declared, at)
        if is_reference is None:
            return "a reference that refers to nothing is `null`, and a number is 0"
        return "a reference that refers to nothing is `null`" if is_reference else "a number is 0 here"
    said = call_of_c(declared, at) or NAMES_OF_C.get(name)
    if said:
        return said
    if declared.look(at - 2) == "persistent" or (declared.look(at - 2) in ("lock", "unlock") and declared.look(at - 1) == "("):
        return f"no mutex `{name}` is declared: `mutex {name};` outside of threads{close_to(declared, name, ('mutex',))}"
    elsewhere = declared.locals_named(name)
    before = [it for it in elsewhere if it.at < at]
    if before:
        where = declared.place_text(before[-1].place)
        same = declared.body_at(before[-1].at) == declared.body_at(at)
        return f"the `{name}` that is declared at {where} is known " + ("to the end of its block alone" if same else "in its own function or thread alone")
    if elsewhere and declared.body_at(elsewhere[0].at) == declared.body_at(at):
        return f"`{name}` is declared behind this, at {declared.place_text(elsewhere[0].place)}: move that before its first use"
    if declared.look(at + 1) == "(":
        return f"no function `{name}` is declared{close_to(declared, name, ('function',))}"
    return f"nothing named `{name}` is declared{close_to(declared, name, ('variable', 'local', 'function'))}"


def close_to(declared, name, sorts):
    """A name that is spelled nearly so, as a question; nothing where there is none."""
    names = [it.name for it in declared.items.values() if it.sort in sorts]
    if "local" in sorts:
        names += [it.name for body in declared.bodies for it, _, _ in declared.declared_in(body)]
    found = difflib.get_close_matches(name, sorted(set(names)), 1, 0.6)
    return f" (is `{found[0]}` meant?)" if found else ""


def twice(declared, at):
    """Where the name was declared first."""
    name = declared.look(at)
    of = declared.items.get(name)
    body = declared.body_at(at)
    if body is not None:
        earlier = [it for it, begins, ends in declared.declared_in(body) if it.name == name and it.at < at and begins <= at <= ends]
        of = earlier[-1] if earlier else of
    return f"`{name}` is {about(declared, of)}" + (f", declared at {declared.place_text(of.place)}" if of.sort != "local" else "") if of else None


# ---- References


def refers(declared, first, last, at):
    """What a value refers to: an array, "null", "whole ARRAY", or None of a number. `at` is where its names are known."""
    while declared.look(first) == "(" and declared.closing(first) == last - 1:
        first, last = first + 1, last - 1
    word = declared.look(first)
    if word == "null" and last == first + 1:
        return "null"
    if word == "&" and declared.closing(first + 2) == last - 1:
        return declared.look(first + 1)
    if word == "*" and last == first + 2:
        local = declared.local_at(declared.look(first + 1), at)
        array = declared.items.get(local.refers) if local else None
        return array.refers if array else None
    of = declared.meaning(word, at) if declared.is_name(first) else None
    if of is None:
        return None
    if last == first + 1:
        return of.refers if of.length is None or of.sort != "variable" else f"whole {word}"
    if declared.closing(first + 1) == last - 1 and (declared.look(first + 1) == "[") == (of.sort == "variable"):
        return of.refers
    return None


def value_hint(declared, wanted, name, first, last, at):
    """Why a value isn't one for a name with a reference to an array (`wanted`), or with a number (None)."""
    given = refers(declared, first, last, at)
    value = declared.spelled(first, last)
    if wanted is None:
        if given is None:
            return None
        if given.startswith("whole "):
            return f"`{given[6:]}` is the whole array: `{given[6:]}[e]` names an element"
        if given == "null":
            return f"`{name}` is a number, and `null` is a reference: 0 is the number"
        return f"`{name}` is a number, and `{value}` refers to an element of `{given}`: give it the type `ref({given})`, or keep the element's number"
    if given is not None and given.startswith("whole "):
        return f"`{given[6:]}` is the whole array: `&{given[6:]}[0]` refers to its first element"
    if given is None:
        if last == first + 1 and declared.look(first) in ("0", "NULL"):
            return f"a reference that refers to nothing is `null`: `{name} = null`"
        return f"`{name}` refers to an element of `{wanted}`, and `{value}` is a number: `&{wanted}[e]` refers to the element `e`"
    if given != wanted:
        return f"`{name}` refers to elements of `{wanted}`, and `{value}` to those of `{given}`: a reference goes to its own array alone"
    return None


def declares(declared, at):
    """The type of the local that is declared by the name at a token, or None."""
    found = [declared.type_at(it) for it in range(max(at - 5, 0), at)]
    return next((it for it in found if it and it[2] == at), None)


def target_type(declared, at):
    """The array that the target whose name is at a token refers to, and how the target is spelled; None where nothing is known of it."""
    name = declared.look(at)
    of_type = declares(declared, at)
    if of_type is not None:
        return of_type[1], name
    it = declared.meaning(name, at)
    if it is None:
        return None
    if declared.look(at - 1) != "*":
        return it.refers, name
    array = declared.items.get(it.refers)
    return (array.refers if array else None), f"*{name}"


def given_hint(declared, at):
    """Why the target whose name is at a token doesn't get its value."""
    of = target_type(declared, at)
    if of is None:
        return None
    wanted, name = of
    equals = declared.closing(at + 1) + 1 if declared.look(at + 1) == "[" else at + 1
    if declared.look(equals) in UPDATES or declared.look(at - 1) in ("++", "--"):
        return "a reference has no arithmetic: keep the number of the element beside it, or in its place" if wanted else None
    if declared.look(equals) != "=":
        return None
    first, last = equals + 1, declared.ends(equals + 1)
    if declared.is_name(first) and declared.look(first + 1) == "(" and wanted is None:
        function = declared.items.get(declared.look(first))
        if function and function.refers:
            mended = f"`ref({function.refers}) {name} = {declared.spelled(first, last)};`"
            return f"`{function.name}` gives a reference to an element of `{function.refers}`: {mended}"
    return value_hint(declared, wanted, name, first, last, at)


def argument_hint(declared, at):
    """Which argument of the call at a token isn't what its parameter is."""
    function = declared.items[declared.look(at)]
    first, closes = at + 2, declared.closing(at + 1)
    for parameter in function.parameters:
        last = first
        while last < closes and declared.look(last) != ",":
            last = declared.closing(last) + 1 if declared.look(last) in ("(", "[") else last + 1
        said = value_hint(declared, parameter.refers, parameter.name, first, last, at)
        if said:
            return f"{said} (the parameter `{parameter.name}` of `{function.name}`)"
        first = last + 1
    return None


def operand_end(declared, at):
    """The token behind a simple operand."""
    if declared.look(at) == "&":
        return declared.closing(at + 2) + 1
    if declared.look(at) == "*":
        return at + 2
    return declared.closing(at + 1) + 1 if declared.look(at + 1) in ("[", "(") else at + 1


def not_a_number(declared, at, spelled):
    """What to write where a reference stands and a number is wanted."""
    before = declared.look(at - 1)
    behind = declared.look(operand_end(declared, at))
    if behind in COMPARISONS:
        other = operand_end(declared, at) + 1
        first, second = refers(declared, at, other - 1, at), refers(declared, other, operand_end(declared, other), at)
        if second is None:
            return f"a reference is compared with `null` or with another one: `{spelled} {behind} null`"
        if second.startswith("whole "):
            return f"`{second[6:]}` is the whole array: `&{second[6:]}[0]` refers to its first element"
        if first and first != second:
            return f"`{spelled}` refers to elements of `{first}`, and the other side to those of `{second}`: only references to one array are compared"
    if before == "[" and behind == "]":
        return "a reference is no index: where an index is wanted, keep the number of the element in place of the reference"
    if before == "!":
        return f"a reference has no truth: `{spelled} == null`"
    if (before == "(" and behind == ")") or "&&" in (before, behind) or "||" in (before, behind) or behind == "?" or (before == ";" and behind == ";"):
        return f"a reference has no truth: `{spelled} != null`"
    if before in ("=", "(", ",", "return") and behind in (";", ",", ")"):
        return None
    return "a reference has no arithmetic and no order: keep the number of the element where one is wanted"


# ---- Names of the wrong sort


def locked(declared, at):
    """A name in the parentheses of `lock` or `unlock`."""
    word, name = declared.look(at - 2), declared.look(at)
    it = declared.meaning(name, at)
    if it is None:
        return None
    if it.sort == "mutex":
        if it.length is not None:
            return f"`{name}` is {about(declared, it)}: a key says which one, as in `{word}({name}[i % {max(it.length, 1)}u]);`"
        return f"`{name}` is one mutex and has no key: `{word}({name});`"
    hidden = declared.items.get(name)
    if it.sort == "local" and hidden is not None and hidden.sort == "mutex":
        return f"`{name}` is {about(declared, it)}, which hides the mutex: rename the local"
    if it.sort == "variable":
        return f"`{name}` is {about(declared, it)}, guarded by `{guard_of(it)}`: `{word}({guard_of(it)});`"
    return f"`{name}` is {about(declared, it)}, and `{word}` takes a mutex"


def guarding(declared, at):
    """A name in the parentheses of `persistent`."""
    name = declared.look(at)
    it = declared.items.get(name)
    if it is None:
        return None
    if it.sort != "mutex":
        return f"`{name}` is {about(declared, it)}, and a variable is guarded by a mutex"
    if it.length is None:
        return f"`{name}` is one mutex: `persistent({name})`"
    return f"`{name}` is {about(declared, it)}: `persistent({name}[])` gives each element of an array of {it.length} its own"


def referred(declared, at):
    """A name in the parentheses of `ref`."""
    name = declared.look(at)
    it = declared.meaning(name, at)
    if it is None:
        return None
    if it.sort == "variable" and it.length is not None:
        why = f"each element of `{name}` has a mutex of its own, and a reference doesn't tell which"
        return f"{why}: guard the array by one mutex, or keep the element's number"
    return f"`{name}` is {about(declared, it)}: a reference refers to elements of an array, as in `persistent(m) long {name}[8];`"


def initialised(declared, at):
    """The first token of an initialiser."""
    name = at - 2 if declared.look(at - 2) != "]" else declared.partners.get(at - 2, at) - 1
    it = declared.items.get(declared.look(name))
    if it is None or it.sort != "variable":
        return None
    value = declared.spelled(at, declared.ends(at))
    if it.refers is not None:
        return f"a persistent reference begins as null and has no initialiser: leave `= {value}` away, or assign it in a thread"
    return f"the numbers of an array stand in braces: `= {{{value}}}`; elements without one begin as 0"


def given_back(declared, at):
    """The name of a function that gives what its type isn't."""
    function = declared.items[declared.look(at)]
    body = next((it for it in declared.bodies if it.owner[0].start == function.place), None)
    returns = [it for it in range(body.opens, body.closes) if declared.look(it) == "return"] if body else []
    if not returns:
        return None
    said = value_hint(declared, function.refers, function.name, returns[-1] + 1, declared.ends(returns[-1] + 1), returns[-1])
    return said and f"what `{function.name}` returns has another type: {said}"


def key_around(declared, at):
    """Whether a token stands in the key of a `lock` or an `unlock`."""
    opened = at
    while opened > 0 and declared.look(opened) not in (";", "{", "}"):
        opened -= 1
        if declared.look(opened) in ("lock", "unlock") and declared.look(opened + 1) == "(" and declared.look(opened + 3) == "[":
            return opened + 3 < at < declared.closing(opened + 3)
    return False


def called(declared, at):
    """The name of a call."""
    name = declared.look(at)
    it = declared.meaning(name, at)
    if it is None:
        return None
    if it.sort != "function":
        return f"`{name}` is {about(declared, it)} and no function"
    call = declared.spelled(at, declared.closing(at + 1) + 1)
    if it.type == "void" and declared.look(at - 1) == "=":
        return f"`{name}` is `void` and gives no result: `{call};` is a statement of its own"
    if it.type != "void" and declared.look(at - 1) in (";", "{", "}"):
        return f"`{name}` gives a result, which is taken: `{it.type} r = {call};`"
    return argument_hint(declared, at)


def used(declared, at):
    """A name in an expression, or that of a target."""
    name, is_indexed = declared.look(at), declared.look(at + 1) == "["
    it = declared.meaning(name, at)
    if it is None:
        return None
    if it.sort == "mutex":
        return f"`{name}` is {about(declared, it)}, which has no value: `lock({name});` and `unlock({name});` are all that is done with it"
    if it.sort == "thread":
        return f"`{name}` is a thread, which has no value"
    if it.sort == "function":
        return f"`{name}` is a function: " + (f"`{it.type} r = {name}(..);` takes its result" if it.type != "void" else f"`{name}(..);` calls it")
    if declared.look(at - 1) == "*" and declared.look(at - 2) not in (")", "]") and not declared.is_name(at - 2):
        if it.sort == "variable" and it.refers is not None:
            return f"`*` follows a local alone: `ref({it.refers}) p = {name};`, and `*p` where `p` isn't null"
        if it.refers is None:
            return f"`{name}` is {about(declared, it)} and no reference: `*` follows a local of a type `ref(..)`"
    if it.sort == "variable" and it.length is not None and not is_indexed:
        return f"`{name}` is an array of {it.length} elements, and one is named by its index: `{name}[e]`"
    if is_indexed and it.length is None:
        return f"`{name}` is {about(declared, it)} and no array: it has no index"
    is_target = declared.look(at - 1) in (";", "{", "}", "*", "++", "--", ")")
    said = given_hint(declared, at) if is_target else None
    if said is None and it.refers is not None:
        said = not_a_number(declared, at, declared.spelled(at, operand_end(declared, at)))
    return said or assigned_number(declared, at)


def assigned_number(declared, at):
    """A reference that is the value of a number, told at the reference."""
    if declared.look(at - 1) not in ("=", *COMPARISONS):
        return None
    target = at - 2
    if declared.look(target) == "]":
        target = declared.partners.get(target, target) - 1
    if declared.look(at - 1) in COMPARISONS:
        return f"only references to one array and `null` are compared with a reference, and `{declared.look(target)}` is none"
    return value_hint(declared, None, declared.look(target), at, declared.ends(at), at)


def wrong_sort(declared, at):
    """What stands at a token where something else is wanted."""
    before, word = declared.look(at - 2), declared.look(at)
    if declared.look(at - 1) == "(" and declared.is_name(at):
        if before in ("lock", "unlock"):
            return locked(declared, at)
        if before == "persistent":
            return guarding(declared, at)
        if before == "ref":
            return referred(declared, at)
    body = declared.body_at(at)
    item = declared.items.get(word)
    if body is None and item is not None and item.at == at:
        if item.sort == "function":
            return given_back(declared, at)
        return f"`{item.guard}[]` gives each element of an array its own mutex, and `{word}` is no array: `{word}[8]`, or guard it by one mutex"
    if body is None:
        return initialised(declared, at)
    if key_around(declared, at):
        if word == "*":
            return "a key follows no reference: take the number in a local before the `lock`"
        of = declared.meaning(word, at)
        if of is not None and of.sort == "variable":
            if declared.look(at - 1) == "&":
                return "a key has no element's address: name the mutex by the element's number"
            return f"a key reads no variable: take `{word}` in a local before, where `{guard_of(of)}` is held"
    if declared.is_name(at) and declared.look(at + 1) == "(":
        return called(declared, at)
    if word in ("null", "&"):
        spelled = declared.spelled(at, operand_end(declared, at))
        return assigned_number(declared, at) or not_a_number(declared, at, spelled)
    return given_hint(declared, at) if declares(declared, at) else used(declared, at)


# ---- Numbers of arguments and elements


def counted(declared, at):
    """What has how many of which too few or too many are given."""
    name = declared.look(at)
    it = declared.items.get(name)
    if it is not None and it.sort == "function" and declared.body_at(at) is not None:
        many = len(it.parameters)
        listed = ", ".join(f"{one.type} {one.name}" for one in it.parameters)
        return f"`{name}` has {many or 'no'} parameter{'s' if many != 1 else ''}" + (f": `{name}({listed})`" if many else "")
    return None


def indexed(declared, at):
    """The array that an index may lie outside of, and an index that fits."""
    opened = at
    while opened > 0 and declared.look(opened) != "[":
        opened -= 1
    name = declared.look(opened - 1)
    it = declared.meaning(name, opened - 1)
    if it is None or not it.length or opened + 1 != at:
        return None
    index = declared.spelled(at, declared.closing(opened))
    is_simple = declared.closing(opened) == at + 1
    inner = index if is_simple else f"({index})"
    fitting = f"{name}[{inner} & {it.length - 1}]" if it.length & (it.length - 1) == 0 else f"{name}[(unsigned int) {inner} % {it.length}u]"
    what = "mutexes" if it.sort == "mutex" else "elements"
    return f"`{name}` has {it.length} {what}, 0 to {it.length - 1}, and `{index}` may be another number: `{fitting}` fits, whatever it is"


HINTS = {"N1": unknown, "N2": twice, "N3": wrong_sort, "N5": counted, "X1": indexed}


def name_hint(code, declared, place):
    """What may be meant by the name at a place, or None."""
    at = declared.index_of(place)
    return HINTS[code](declared, at) if code in HINTS and at < len(declared.tokens) else None
