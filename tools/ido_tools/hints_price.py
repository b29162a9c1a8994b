"""What a thread costs that is refused for its price, and what in it is dearest."""

from ido_tools.limits import MOST_PRICE
from ido_tools.price import price_of_thread
from ido_tools.source import Source

MOST_ROWS = 3


def count(number, noun):
    """So many of a thing."""
    return f"{number:,} {noun}{'' if number == 1 else 's'}"


def price_hints(text, place):
    """The price of the thread whose name stands at a byte, and its dearest calls and lines."""
    source = Source(text)
    thread = next((it for it in source.threads if it.place == place), None)
    if thread is None:
        return []
    price = price_of_thread(source, thread)
    more = "" if price.has_held else ", without what held mutexes add"
    found = [f"thread `{thread.name}` costs {price.total:,}{more}; {MOST_PRICE:,} is the most"]
    calls = sorted(price.calls.items(), key=lambda it: -it[1][0] * it[1][1])
    for name, (times, each) in calls[:MOST_ROWS]:
        found.append(f"{count(times, 'call')} of `{name}` cost {times * each:,}, {each:,} each" if times > 1 else f"the call of `{name}` costs {each:,}")
    lines = sorted(price.lines.items(), key=lambda it: -it[1][0])
    for number, (whole, nodes) in lines[:MOST_ROWS]:
        found.append(f"line {number} costs {whole:,}, by {count(nodes, 'step')}: {shortened(source.line(number))}")
    return found


def shortened(line, most=60):
    """A line, as far as it is shown."""
    text = " ".join(line.split())
    return text if len(text) <= most else text[: most - 3] + "..."
