"""What becomes of a run where power is lost after each of its events: the reports after recovery, and the state of each thread's section."""

import collections
import concurrent.futures
import hashlib

from ido_tools.fault import BadInput
from ido_tools.files import log_word, parse_image
from ido_tools.limits import MOST_EVENTS, MOST_SWEEP_EVENTS
from ido_tools.program import said_by
from ido_tools.steps import CRASH, FIRST_ROUND, MORE, START, Steps, recovery_lines, shown
from ido_tools.texts import Line, join_input, parse_report, parse_table, parse_unsettled, schedules_text, script_bytes

# What became of a thread's section, or where the thread stands.
BETWEEN, WAITS, LOST, RESUMED, DONE = ".w-r#"

# A thread's state from one event to before another.
Span = collections.namedtuple("Span", "first past sign")

# What recovery has left: its report (None where it came to no end), and what the program has written.
Left = collections.namedtuple("Left", "report output")


class Checker:
    """Plays scripts, and compares what they leave with the source's own run and the invariants."""

    def __init__(self, program, source, invariants):
        self.program, self.source, self.invariants = program, source, invariants
        self.judged = {}

    def input(self, lines):
        """The input of a play."""
        return join_input(self.source.text, script_bytes(lines))

    def recovered(self, lines, told=None):
        """Of each list of lines the same with a recovery after it, and the answer to its play."""
        count, steps = len(self.source.threads), FIRST_ROUND
        found = {}
        waiting = list(range(len(lines)))
        while waiting:
            whole = [lines[it] + recovery_lines(count, steps) for it in waiting]
            answers = self.program.ask_all([(["play"], lambda it=it: self.input(it)) for it in whole], told)
            for number, script, answer in zip(waiting, whole, answers):
                if answer.status in (0, 3) or number not in found:
                    found[number] = (script, answer)
            steps *= MORE
            is_over = steps * count * (count + 1) > MOST_EVENTS
            waiting = [] if is_over else [it for it in waiting if found[it][1].status == 3]
            told = None
        return [found[it] for it in range(len(lines))]

    def faults(self, left):
        """The faults of what recovery has left."""
        key = hashlib.sha256(left.output).digest()
        if key not in self.judged:
            self.judged[key] = list(self.judge(left))
        return self.judged[key]

    def judge(self, left):
        """Each fault of what recovery has left."""
        if left.report is None:
            yield f"recovery doesn't come to its end: {left.output.decode('utf-8', 'replace').strip()}"
            return
        own = self.program.ask(["source"], join_input(self.source.text, schedules_text(left.report.schedules).encode()))
        if (own.status, own.output) != (0, left.output):
            yield f"the source itself, by the schedule that is printed, leaves something else: {said_by(own)}"
        for it in self.invariants:
            if not it.holds(left.report.variables):
                yield f"not so: {it.text}"

    def faults_of(self, lines):
        """The faults that a play of these lines shows where it settles."""
        answer = self.program.ask(["play"], self.input(lines))
        return self.faults(Left(parse_report(answer.output), answer.output)) if answer.status == 0 else []


class Reports:
    """What recovery leaves after a crash at events of a script: by one sweep where the program takes so many events, else by a play of each."""

    def __init__(self, checker, steps):
        self.checker, self.steps = checker, steps
        self.table, self.played = None, {}
        if steps.total() <= MOST_SWEEP_EVENTS:
            answer = checker.program.start(["sweep"], steps.input(steps.lines))
            if answer.status not in (0, 3):
                raise BadInput(f"the program refuses the script: {said_by(answer)}")
            self.table = parse_table(answer.output)
            if self.table[-1].last != steps.total():
                raise BadInput(f"the program sweeps {self.table[-1].last} events, and not {steps.total()}")

    def ask(self, events, told=None):
        """Plays what no sweep has told of these events."""
        missing = [it for it in events if it not in self.played and (self.table is None or self.row(it).report is None)]
        beginnings = [[*self.steps.beginning(it), CRASH] for it in missing]
        for event, (lines, answer) in zip(missing, self.checker.recovered(beginnings, told)):
            if answer.status not in (0, 3):
                raise BadInput(f"the program refuses the script {shown(lines)}: {said_by(answer)}")
            report = parse_report(answer.output) if answer.status == 0 else None
            self.played[event] = Left(report, answer.output)

    def row(self, event):
        """The part of the table that has an event."""
        low, high = 0, len(self.table) - 1
        while low < high:
            middle = (low + high) // 2
            low, high = (middle + 1, high) if self.table[middle].last < event else (low, middle)
        return self.table[low]

    def at(self, event):
        """What recovery leaves after a crash at an event."""
        if self.table is not None and event not in self.played:
            row = self.row(event)
            if row.report is not None:
                return Left(row.report, row.output)
        self.ask([event])
        return self.played[event]

    def ended(self, event, hart):
        """How many sections of a hart have ended after recovery; none are told where that comes to no end."""
        report = self.at(event).report
        return report.ended[hart] if report else None

    def script(self, event):
        """The script of a crash at an event, and of a recovery."""
        return self.checker.recovered([[*self.steps.beginning(event), CRASH]])[0][0]


def runs_of(first, last, ask):
    """Where something is the same from one event on: pairs of an event and what is so from it on. It is asked where it may change alone: it has to be
    the same between two events at which it is."""
    known = {first: ask(first), last: ask(last)}
    starts, waiting = [first], [(first, last)]
    while waiting:
        low, high = waiting.pop()
        if known[low] == known[high]:
            continue
        if high == low + 1:
            starts.append(high)
            continue
        middle = (low + high) // 2
        known[middle] = ask(middle)
        waiting += [(middle, high), (low, middle)]
    return [(it, known[it]) for it in sorted(starts)]


def joined(starts):
    """The same without a start at which nothing changes."""
    return [it for number, it in enumerate(starts) if number == 0 or it[1] != starts[number - 1][1]]


def spans_of(starts, past):
    """Pairs of events and values as spans."""
    ends = [it for it, _ in starts[1:]] + [past]
    return [Span(first, end, value) for (first, value), end in zip(starts, ends)]


class States:
    """What became of each thread's section at each event of a run, by a few plays.

    Between two crashes or starts of the script, and while as many of a hart's sections have ended after recovery, the hart is first resumed, if at all, then
    done, then between sections, then inside the next one, of which nothing is durable. Only where one of these ends is asked for."""

    def __init__(self, checker, steps, reports, first, last):
        self.checker, self.steps, self.reports = checker, steps, reports
        self.first, self.last = first, last
        self.source = checker.source
        self.harts = range(len(self.source.threads))
        self.asked = {}

    def unsettled(self, event, is_crashed):
        """The harts that aren't settled after an event, or after a crash there."""
        key = (event, is_crashed)
        if key not in self.asked:
            lines = self.steps.beginning(event) + ([CRASH] if is_crashed else [])
            answer = self.checker.program.ask(["play"], self.checker.input(lines))
            self.asked[key] = frozenset(parse_unsettled(answer.output) if answer.status == 3 else [])
        return self.asked[key]

    def parts(self, hart):
        """The longest spans without a crash or a start in which as many sections of a hart have ended."""
        stops = sorted({it for it in self.steps.stops() if self.first < it <= self.last} | {self.first})
        for first, past in zip(stops, [*stops[1:], self.last + 1]):
            for it in spans_of(runs_of(first, past - 1, lambda event: self.reports.ended(event, hart)), past):
                yield it.first, it.past - 1

    def spans(self, hart):
        """The spans of a hart, in order."""
        found = []
        for first, last in self.parts(hart):
            found.extend(it for it in self.spans_of_part(hart, first, last) if it.first < it.past)
        return found

    def spans_of_part(self, hart, first, last):
        """The spans of a hart where as many of its sections have ended."""
        at = first
        is_resumed = self.unsettled(first, True)
        if hart in is_resumed:
            starts = runs_of(first, last, lambda event: hart in self.unsettled(event, True))
            at = starts[1][0] if len(starts) > 1 else last + 1
            yield Span(first, at, RESUMED)
            left = self.left(hart, at, last)
            yield Span(at, left, DONE)
            at = left
        if at <= last:
            starts = runs_of(at, last, lambda event: hart in self.unsettled(event, False))
            for it in spans_of(starts, last + 1):
                yield Span(it.first, it.past, LOST if it.sign else BETWEEN)

    def left(self, hart, first, last):
        """The first event from one on at which a hart is inside no section; it comes soon, by a step of its own."""
        own = (it for it in range(first, last + 1) if it == first or self.steps.what(it - 1).first in (hart, None))
        return next((it for it in own if hart not in self.unsettled(it, False)), last + 1)

    def all_spans(self, told):
        """The spans of each hart; those between sections are parted by whether another hart has what is wanted next."""
        with concurrent.futures.ThreadPoolExecutor(max(1, len(self.harts))) as pool:
            found = []
            for number, it in enumerate(pool.map(self.spans, self.harts), 1):
                found.append(it)
                told(number, len(self.harts) + 1)
            changes = sorted({it.first for spans in found for it in spans})
            return list(pool.map(lambda hart: self.with_waits(hart, found[hart], changes), self.harts))

    def with_waits(self, hart, spans, changes):
        """The spans of a hart, those between sections parted."""
        made = []
        for it in spans:
            if it.sign == BETWEEN and len(self.harts) > 1:
                made.extend(spans_of(self.waits_from(hart, it, changes), it.past))
            else:
                made.append(it)
        return made

    def waits_from(self, hart, span, changes):
        """From which event on a hart waits or doesn't. It is looked where any hart's state changes, and halved where the answers differ."""
        looked = sorted({span.first, span.past - 1} | {it for it in changes if span.first < it < span.past})
        starts = []
        for first, last in zip(looked, looked[1:] or looked):
            starts += runs_of(first, last, lambda event: WAITS if waits(self.steps, event, hart) else BETWEEN)
        return joined(starts)


def waits(steps, event, hart):
    """Whether a hart by steps of its own comes to no boundary any more, as another has the mutex that it wants: a line of `b` makes its most events then, more
    than a sweep takes. Where the run itself has more, that isn't told."""
    if event >= MOST_SWEEP_EVENTS:
        return False
    lines = [*steps.beginning(event), Line("b", hart, None)]
    answer = steps.program.ask(["sweep"], steps.input([*lines, START, START]))
    return answer.output == f"refused E7 at {steps.input(lines).count(10)}:1\n".encode()


class Places:
    """Where recovery would resume a hart, by images that crashes would leave."""

    def __init__(self, checker, steps, compiled):
        self.checker, self.steps, self.compiled = checker, steps, compiled
        self.images = {}

    def image(self, event):
        """What a crash would leave of the logs and the schedule."""
        if event not in self.images:
            content = self.checker.program.ask_well(["image"], self.steps.input(self.steps.beginning(event)))
            made = parse_image(content, len(self.checker.source.threads))
            self.images[event] = (made.logs, made.runs)
        return self.images[event]

    def kept(self, event, hart):
        """How many steps of a hart are kept: a commit keeps more."""
        return sum(count for owner, count in self.image(event)[1] if owner == hart)

    def point(self, event, hart):
        """The durable point of a hart."""
        return log_word(self.image(event)[0][hart], 0) & ~1

    def lines(self, hart, span):
        """From which events on which line of the source is resumed."""
        found = []
        for event, _ in runs_of(span.first, span.past - 1, lambda event: self.kept(event, hart)):
            address = self.point(event, hart)
            if address:
                found.append((event, self.compiled.where(hart, address)))
        return found
