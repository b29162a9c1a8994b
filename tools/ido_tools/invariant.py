"""Invariants that a user gives: expressions over variables, read as Python's and evaluated here, never by Python."""

import ast
import operator
import re

from ido_tools.fault import BadInput

# No number in an invariant has more bits, and no text of one more bytes, brackets or deeper nesting.
MOST_BITS = 4096
MOST_BYTES = 10_000
MOST_BRACKETS = 80
MOST_DEPTH = 100

BINARY = {
    ast.Add: operator.add,
    ast.Sub: operator.sub,
    ast.Mult: operator.mul,
    ast.FloorDiv: operator.floordiv,
    ast.Mod: operator.mod,
    ast.BitAnd: operator.and_,
    ast.BitOr: operator.or_,
    ast.BitXor: operator.xor,
    ast.LShift: operator.lshift,
    ast.RShift: operator.rshift,
}
UNARY = {ast.USub: operator.neg, ast.UAdd: operator.pos, ast.Not: operator.not_, ast.Invert: operator.invert}
COMPARISONS = {
    ast.Eq: operator.eq,
    ast.NotEq: operator.ne,
    ast.Lt: operator.lt,
    ast.LtE: operator.le,
    ast.Gt: operator.gt,
    ast.GtE: operator.ge,
    ast.In: lambda left, right: left in right,
    ast.NotIn: lambda left, right: left not in right,
}
# The number of a reference that is null, and how an invariant names it.
NULL, NULL_NUMBER = "null", -1

# No invariant looks at more numbers on its way.
MOST_LOOKS = 1_000_000

KNOWN = (
    "there are + - * // % << >> & | ^ ~, comparisons, in, and or not, if else, a[i], a[list], [.. for i in list if ..],"
    " sum min max len abs all any range walk distinct ascending count"
)
HEAD = re.compile(r"[ \t]*// invariant: (.+?)\r?\Z")


def walked(start, *links):
    """The elements that are come to from one by links, each before those behind it: up to null, to a number that is no element, or to the
    plain number that is given last. The first that comes a second time is the last that is told."""
    ends = {NULL_NUMBER}
    if links and isinstance(links[-1], int):
        *links, end = links
        ends = {end}
    if not isinstance(start, int) or not links or not all(isinstance(it, list) for it in links):
        raise TypeError("walk takes an element and arrays of links, as walk(head, next), and perhaps the number that ends it")
    found, seen, waiting = [], set(), [start]
    while waiting:
        at = waiting.pop()
        if at in ends:
            continue
        found.append(at)
        if at in seen or len(found) > MOST_LOOKS:
            break
        seen.add(at)
        waiting.extend(it[at] for it in reversed(links) if 0 <= at < len(it))
    return found


def numbers_below(*ends):
    """A list as Python's range, which isn't long."""
    if not all(isinstance(it, int) and abs(it) <= MOST_LOOKS for it in ends):
        raise ValueError("range takes small numbers")
    return list(range(*ends))


def is_distinct(numbers):
    """Whether no number comes twice."""
    return len(set(numbers)) == len(numbers)


def is_ascending(numbers):
    """Whether each number is above the one before it."""
    return all(left < right for left, right in zip(numbers, numbers[1:]))


CALLS = {
    "sum": sum,
    "min": min,
    "max": max,
    "len": len,
    "abs": abs,
    "all": all,
    "any": any,
    "range": numbers_below,
    "walk": walked,
    "distinct": is_distinct,
    "ascending": is_ascending,
    "count": lambda numbers, number: numbers.count(number),
}


class Invariant:
    """An expression over the variables of a source."""

    def __init__(self, text, variables):
        self.text = text
        self.variables = variables
        self.looks = 0
        if len(text) > MOST_BYTES or text.count("(") + text.count("[") > MOST_BRACKETS:
            raise BadInput("an invariant is too long")
        try:
            self.tree = ast.parse(text.strip(), mode="eval").body
        except (SyntaxError, ValueError, RecursionError, MemoryError) as error:
            raise BadInput(f"the invariant {text!r} can't be read") from error
        self.look(self.tree, 0, frozenset())

    def refuse(self, why):
        """What the text has and an invariant may not have."""
        raise BadInput(f"the invariant {self.text!r}: {why}")

    def look(self, tree, depth, bound):
        """Refuses all that isn't known; nothing is evaluated. `bound` are the names that stand for numbers of lists."""
        if depth > MOST_DEPTH:
            self.refuse("too deep")
        if isinstance(tree, ast.Constant):
            if type(tree.value) not in (int, bool):
                self.refuse("only whole numbers are known")
        elif isinstance(tree, ast.Name):
            if tree.id not in self.variables and tree.id != NULL and tree.id not in bound:
                self.refuse(f"the source has no variable {tree.id}")
        elif isinstance(tree, (ast.ListComp, ast.GeneratorExp)):
            for it in tree.generators:
                if not isinstance(it.target, ast.Name) or it.is_async or it.target.id in self.variables or it.target.id == NULL:
                    self.refuse("a list is made by a name of its own, as [a[i] for i in range(4)]")
                self.look(it.iter, depth + 1, bound)
                bound = bound | {it.target.id}
                for test in it.ifs:
                    self.look(test, depth + 1, bound)
            self.look(tree.elt, depth + 1, bound)
        else:
            for it in self.children(tree):
                self.look(it, depth + 1, bound)

    def children(self, tree):
        """The parts of an expression of a known form."""
        if isinstance(tree, ast.BinOp) and type(tree.op) in BINARY:
            return [tree.left, tree.right]
        if isinstance(tree, ast.UnaryOp):
            return [tree.operand]
        if isinstance(tree, ast.BoolOp):
            return tree.values
        if isinstance(tree, ast.Compare) and all(type(it) in COMPARISONS for it in tree.ops):
            return [tree.left, *tree.comparators]
        if isinstance(tree, ast.IfExp):
            return [tree.test, tree.body, tree.orelse]
        if isinstance(tree, (ast.List, ast.Tuple)) and isinstance(tree.ctx, ast.Load):
            return tree.elts
        if isinstance(tree, ast.Subscript):
            return [tree.value, self.index_of(tree)]
        if isinstance(tree, ast.Call) and isinstance(tree.func, ast.Name) and tree.func.id in CALLS and not tree.keywords:
            return tree.args
        return self.refuse(f"{type(tree).__name__} is not known ({KNOWN})")

    def index_of(self, tree):
        """The index of an element; older trees have it one deeper."""
        return getattr(tree.slice, "value", tree.slice) if type(tree.slice).__name__ == "Index" else tree.slice

    def holds(self, numbers):
        """Whether it isn't 0 where the variables have these numbers."""
        self.looks = 0
        names = {}
        for name, is_array in self.variables.items():
            found = [NULL_NUMBER if it is None else it for it in numbers[name]]
            names[name] = found if is_array else found[0]
        try:
            return bool(self.value(self.tree, {NULL: NULL_NUMBER, **names}))
        except (ArithmeticError, ValueError, TypeError, IndexError) as error:
            raise BadInput(f"the invariant {self.text!r}: {error}") from error

    def value(self, tree, names):
        """The value of an expression: a number, or a list of them."""
        self.looks += 1
        if self.looks > MOST_LOOKS:
            raise ValueError("it looks at too many numbers")
        if isinstance(tree, ast.Constant):
            return int(tree.value)
        if isinstance(tree, ast.Name):
            return names[tree.id]
        if isinstance(tree, ast.BinOp):
            return self.combined(type(tree.op), self.value(tree.left, names), self.value(tree.right, names))
        if isinstance(tree, ast.UnaryOp):
            return UNARY[type(tree.op)](self.value(tree.operand, names))
        if isinstance(tree, ast.Compare):
            return self.compared(tree, names)
        if isinstance(tree, (ast.List, ast.Tuple)):
            return [self.value(it, names) for it in tree.elts]
        if isinstance(tree, (ast.ListComp, ast.GeneratorExp)):
            return self.listed(tree, 0, names)
        return self.chosen(tree, names)

    def listed(self, tree, number, names):
        """The numbers of a list that is made by others, from one of these on."""
        if number == len(tree.generators):
            return [self.value(tree.elt, names)]
        maker, found = tree.generators[number], []
        numbers = self.value(maker.iter, names)
        if not isinstance(numbers, list):
            raise TypeError("a number is no list")
        for it in numbers:
            inner = {**names, maker.target.id: it}
            if all(self.value(test, inner) for test in maker.ifs):
                found.extend(self.listed(tree, number + 1, inner))
        return found

    def chosen(self, tree, names):
        """The value of an expression of which perhaps not all is evaluated, of an element, or of a call."""
        if isinstance(tree, ast.BoolOp):
            wanted = isinstance(tree.op, ast.And)
            results = (bool(self.value(it, names)) for it in tree.values)
            return all(results) if wanted else any(results)
        if isinstance(tree, ast.IfExp):
            return self.value(tree.body if self.value(tree.test, names) else tree.orelse, names)
        if isinstance(tree, ast.Subscript):
            return self.element(self.value(tree.value, names), self.value(self.index_of(tree), names), tree.value)
        return CALLS[tree.func.id](*[self.value(it, names) for it in tree.args])

    def element(self, array, index, tree):
        """An element of a list, or those at all indexes of a list."""
        if isinstance(index, list):
            return [self.element(array, it, tree) for it in index]
        if not isinstance(array, list) or not isinstance(index, int) or not 0 <= index < len(array):
            raise IndexError(f"{tree.id if isinstance(tree, ast.Name) else 'a list'} has no element {index}")
        return array[index]

    def combined(self, kind, left, right):
        """Two numbers, combined by an operator."""
        if kind is ast.Add and isinstance(left, list) and isinstance(right, list):
            return left + right
        if not isinstance(left, int) or not isinstance(right, int):
            raise TypeError("an array isn't a number: name an element, or sum it")
        if kind is ast.LShift and right > MOST_BITS:
            raise ValueError("a number is too large")
        result = BINARY[kind](left, right)
        if result.bit_length() > MOST_BITS:
            raise ValueError("a number is too large")
        return result

    def compared(self, tree, names):
        """A chain of comparisons."""
        left = self.value(tree.left, names)
        for kind, right in zip(tree.ops, tree.comparators):
            right = self.value(right, names)
            if not COMPARISONS[type(kind)](left, right):
                return False
            left = right
        return True


def told_invariants(text):
    """The expressions in lines `// invariant: EXPRESSION` of a source."""
    found = [HEAD.match(it) for it in text.decode("utf-8", "replace").split("\n")]
    return [it[1] for it in found if it]


def invariants_of(texts, source):
    """The invariants that were given, over the variables of a source."""
    variables = {it.name: it.length is not None for it in source.variables}
    return [Invariant(it, variables) for it in texts]
