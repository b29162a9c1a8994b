"""Scripts event by event: how many events each line makes, beginnings, and what brings a recovery to its end."""

import re

from ido_tools.fault import BadInput
from ido_tools.limits import MOST_EVENTS, MOST_SWEEP_EVENTS
from ido_tools.program import said_by
from ido_tools.texts import Line, join_input, line_text, script_bytes

# The lines whose events the program counts.
COUNTED = ("b", "f", "g")

# A line that passes a limit, and where a later life can't begin.
PAST = re.compile(rb"refused (E1|E7) at (\d+):1\n\Z")
EARLY = b"refused E6 "

# So many steps each line has that comes first behind a script of more events than a sweep takes.
COARSE = 2_000

# The steps of each hart in a round of a recovery that are tried first, and by how many times more are tried next.
FIRST_ROUND = 2_000
MORE = 20

CRASH, START = Line("c", None, None), Line("r", None, None)


def with_count(line, count):
    """A line of `s` or `g` with another number of steps."""
    return line._replace(first=count) if line.letter == "g" else line._replace(second=count)


def count_in(line):
    """The number of steps that a line of `s` or `g` says, or None."""
    return {"s": line.second, "g": line.first}.get(line.letter)


class Steps:
    """The events of a script, one by one."""

    def __init__(self, program, source, lines, counts=None):
        self.program, self.source, self.lines = program, source, lines
        self.ends = {}
        if counts is None:
            waiting = [it + 1 for it, line in enumerate(lines) if line.letter in COUNTED]
            self.ends = dict(zip(waiting, program.pool.map(lambda it: self.events_of(lines[:it]), waiting))) if waiting else {}
        self.starts = [0]
        for number, line in enumerate(lines):
            plain = line.second if line.letter == "s" else 1
            more = plain if counts is None else counts[number]
            self.starts.append(self.ends.get(number + 1, self.starts[-1] + more))

    def total(self):
        """How many events there are."""
        return self.starts[-1]

    def events_of(self, lines):
        """How many events these lines make: as many as leave room for so many more before the program's limit."""
        if not self.source.threads:
            return sum(it.letter in ("c", "e", "r") for it in lines)
        singles = [Line("s", 0, 1)] * (MOST_SWEEP_EVENTS + 1)
        found = self.passes("sweep", lines, singles)
        if found is not None:
            return MOST_SWEEP_EVENTS - found
        coarse = self.passes("play", lines, [Line("s", 0, COARSE)] * (MOST_EVENTS // COARSE + 1))
        whole = [Line("s", 0, COARSE * coarse)]
        fine = self.passes("play", [*lines, *whole], singles[: COARSE + 1])
        return MOST_EVENTS - COARSE * coarse - fine

    def passes(self, command, lines, more):
        """How many of the lines of steps behind a script stay within the limit of a command, or None where the script itself doesn't."""
        own = self.input(lines)
        answer = self.program.start([command], own + script_bytes(more))
        match = PAST.match(answer.output)
        if match is None:
            raise BadInput(f"the program refuses the script: {said_by(answer)}")
        at = int(match[2]) - own.count(b"\n") - 1
        return at if at >= 0 else None

    def input(self, lines):
        """The input of a play of this source by these lines."""
        return join_input(self.source.text, script_bytes(lines))

    def line_at(self, event):
        """The number of the line that makes an event, from 0, and how many events it has made before."""
        for number in range(len(self.lines)):
            if event < self.starts[number + 1]:
                return number, event - self.starts[number]
        raise IndexError(event)

    def what(self, event):
        """What an event is: a step of a hart (of None where the program chooses it), an eviction, a crash or a start."""
        line = self.lines[self.line_at(event)[0]]
        if line.letter == "g":
            return Line("s", None, 1)
        return Line("s", line.first, 1) if line.letter in ("s", "b", "f") else line

    def between(self, first, last):
        """Lines of the events from one to before another."""
        found = []
        for number, line in enumerate(self.lines):
            start, end = self.starts[number], self.starts[number + 1]
            begin, finish = max(first, start), min(last, end)
            if begin < finish:
                found.append(self.part(line, finish - begin))
        return found

    def part(self, line, count):
        """So many of the events of a line."""
        if line.letter in ("s", "g"):
            return with_count(line, count)
        return Line("s", line.first, count) if line.letter in ("b", "f") else line

    def beginning(self, events):
        """Lines of the first so many events."""
        return self.between(0, events)

    def stops(self):
        """The numbers of events after which a crash or a start comes."""
        return [self.starts[it] for it, line in enumerate(self.lines) if line.letter in ("c", "r")]


def recovery_lines(threads, steps):
    """Rounds of steps of all harts: a hart that waits for another finds it further on in the next round."""
    return [Line("s", hart, steps) for _ in range(threads + 1) for hart in range(threads)] if threads else []


def shown(lines):
    """A script on one line."""
    return "; ".join(line_text(it) for it in lines) or "(no line)"
