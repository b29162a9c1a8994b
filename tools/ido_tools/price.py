"""What a thread costs, and which lines and calls cost it most: also of one that is refused for its price."""

import collections

from ido_tools.limits import MOST_PRICE
from ido_tools.source import EXPRESSION_PRICE, NODE_PRICE, Assign, Call, Do, If, While, price_of

# The price of a thread; whether what held mutexes add is in it; of each line its price and how many nodes it has; of each function how often
# it is called and what a call costs, calls in it too.
Price = collections.namedtuple("Price", "total has_held lines calls")

# What a statement costs by itself: how many nodes, and how many parts of expressions.
Own = collections.namedtuple("Own", "nodes parts")


def assignment_cost(target, parts):
    """What an assignment costs."""
    return Own(1 if target.is_local else 2, parts + (target.index_parts or 0))


def own_cost(source, statement):
    """What a statement costs, without blocks inside it and without the body of what it calls."""
    if isinstance(statement, Assign):
        return assignment_cost(statement.target, statement.parts)
    if isinstance(statement, Call):
        given = Own(len(statement.arguments), sum(statement.arguments))
        if statement.target is None:
            return given
        taken = assignment_cost(statement.target, source.functions[statement.name].result or 0)
        return Own(given.nodes + taken.nodes, given.parts + taken.parts)
    if isinstance(statement, If):
        return Own(len(statement.arms), sum(it.parts for it in statement.arms))
    if isinstance(statement, (While, Do)):
        return Own(1, statement.parts)
    return Own(1, statement.lock.key_parts or 0)


def all_statements(statements):
    """These statements and those in their blocks."""
    waiting = list(reversed(statements))
    while waiting:
        it = waiting.pop()
        yield it
        inside = it.body if isinstance(it, (While, Do)) else []
        if isinstance(it, If):
            inside = [one for arm in it.arms for one in arm.body] + list(it.otherwise)
        waiting.extend(reversed(inside))


def callees_first(source, body):
    """The names of the functions that a body calls, and of those that these call, each after those that it calls."""
    found, entered = [], set()
    waiting = [(it.name, False) for it in all_statements(body) if isinstance(it, Call)]
    while waiting:
        name, is_left = waiting.pop()
        if is_left:
            found.append(name)
        elif name not in entered:
            entered.add(name)
            waiting.append((name, True))
            waiting.extend((it.name, False) for it in all_statements(source.functions[name].body) if isinstance(it, Call))
    return found


def numbers_of_calls(source, body, order):
    """How often each function is called from a body, calls in calls too."""
    times = collections.Counter(it.name for it in all_statements(body) if isinstance(it, Call))
    for name in reversed(order):
        for it in all_statements(source.functions[name].body):
            if isinstance(it, Call):
                times[it.name] += times[name]
    return times


def price_without_held(source, thread):
    """The price of a thread without what held mutexes add, however often functions are called."""
    order = callees_first(source, thread.body)
    times, each, lines = numbers_of_calls(source, thread.body, order), {}, {}
    for name, body, count in [(it, source.functions[it].body, times[it]) for it in order] + [(None, thread.body, 1)]:
        whole = 0
        for it in all_statements(body):
            own = own_cost(source, it)
            price = NODE_PRICE * own.nodes + EXPRESSION_PRICE * own.parts
            line = source.place(it.place)[0]
            before = lines.get(line, (0, 0))
            lines[line] = (before[0] + count * price, before[1] + count * own.nodes)
            whole += price + (each[it.name] if isinstance(it, Call) else 0)
        each[name] = whole
    line = source.place(thread.closing)[0]
    before = lines.get(line, (0, 0))
    lines[line] = (before[0] + NODE_PRICE, before[1] + 1)
    calls = {it: (times[it], each[it]) for it in order}
    return Price(each[None] + NODE_PRICE, False, lines, calls)


def price_of_thread(source, thread):
    """The price of a thread. What held mutexes add is left out where it is too dear without: its nodes may be too many to be walked then."""
    without = price_without_held(source, thread)
    if without.total > MOST_PRICE:
        return without
    lines = {}
    for it in source.nodes(thread):
        line = source.place(it.place)[0]
        before = lines.get(line, (0, 0))
        lines[line] = (before[0] + price_of(it), before[1] + 1)
    return Price(sum(it[0] for it in lines.values()), True, lines, without.calls)
