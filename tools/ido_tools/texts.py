"""The texts that the program reads and writes: inputs of two parts, reports, schedules, scripts."""

import collections
import re

from ido_tools.fault import BadInput
from ido_tools.words import MARK, SCHEDULE, SCRIPT_LINES

Input = collections.namedtuple("Input", "source rest")

# A report: the numbers of each variable by name (None is that of a reference that is null), the ended sections by thread, and of each life the runs of its
# schedule.
Report = collections.namedtuple("Report", "variables ended schedules")

VARIABLE_LINE = re.compile(r"([A-Za-z_]\w*) =((?: (?:-?\d+|null))+)\Z", re.ASCII)
NULL = "null"
ENDED_LINE = re.compile(r"ended (\d+) (\d+)\Z", re.ASCII)
REFUSAL = re.compile(rb"refused ([A-Z][0-9]+|words|limit)(?: (.*))?\n\Z")
FROM_LINE = re.compile(rb"^from (\d+) to (\d+)\n", re.MULTILINE)
RUN = re.compile(r"(\d+)\*(\d+)\Z", re.ASCII)

SCRIPT_LINE = re.compile(rb"([a-z])((?: [0-9]+)*)\Z")

# How many numbers each line of a script has.
COUNTS = {letter: len(numbers.split()) for letter, numbers, _ in SCRIPT_LINES}

Line = collections.namedtuple("Line", "letter first second")


def split_input(content):
    """The source and what stands after the first line that is just `%%`; that is None where there is no such line."""
    start = 0
    while start <= len(content):
        end = content.find(b"\n", start)
        line = content[start:] if end < 0 else content[start:end]
        if (line[:-1] if end >= 0 and line.endswith(b"\r") else line) == MARK.encode():
            return Input(content[:start], b"" if end < 0 else content[end + 1 :])
        if end < 0:
            break
        start = end + 1
    return Input(content, None)


def join_input(source, rest):
    """The input that `split_input` splits into these."""
    between = b"" if source.endswith(b"\n") or not source else b"\n"
    return source + between + MARK.encode() + b"\n" + rest


def source_and_script(content, script):
    """The source of a file, and the script of another, or that of the same where no other is given."""
    both = split_input(content)
    if script is not None:
        return Input(both.source, script)
    if both.rest is None:
        raise BadInput("there is no script: give one as a second file, or after a line %%")
    return both


def parse_run(word):
    """The thread and the steps of a word as `0*4`."""
    match = RUN.match(word)
    if match is None or int(match[2]) == 0:
        raise BadInput(f"{word!r} is no run of a schedule")
    return int(match[1]), int(match[2])


def parse_schedule(text):
    """The runs of a schedule."""
    words = text.split()
    if words and words[0] == SCHEDULE:
        words = words[1:]
    return [parse_run(it) for it in words]


def schedule_text(runs):
    """The line of a schedule."""
    return " ".join([SCHEDULE, *(f"{thread}*{steps}" for thread, steps in runs)])


def schedules_text(schedules):
    """The lines of the schedules of lives, one after another."""
    return "".join(schedule_text(it) + "\n" for it in schedules)


def parse_ended(line, ended):
    """Whether the line tells how many sections of the next thread have ended; notes it."""
    match = ENDED_LINE.match(line)
    if match is None or int(match[1]) != len(ended):
        return False
    ended.append(int(match[2]))
    return True


def parse_report(output):
    """The report that these bytes are; else a fault of the input."""
    lines = output.decode("utf-8", "replace").splitlines()
    end = len(lines)
    while end > 0 and lines[end - 1].split(" ")[0] == SCHEDULE:
        end -= 1
    if end == len(lines):
        first = lines[0] if lines else "nothing"
        raise BadInput(f"no report: {first}")
    variables, ended = {}, []
    for line in lines[:end]:
        match = VARIABLE_LINE.match(line)
        if match and not ended and match[1] not in variables:
            variables[match[1]] = [None if it == NULL else int(it) for it in match[2].split()]
        elif not parse_ended(line, ended):
            raise BadInput(f"no line of a report: {line}")
    return Report(variables, ended, [parse_schedule(it) for it in lines[end:]])


# What a sweep tells of the points of a script from one to another: the report of each of them, or the harts that aren't settled, and its text.
Swept = collections.namedtuple("Swept", "first last report unsettled output")


def parse_table(output):
    """The parts of the table that a sweep prints."""
    starts = [it.start() for it in FROM_LINE.finditer(output)]
    if not starts or starts[0] != 0:
        raise BadInput("no table of a sweep")
    found = []
    for start, end in zip(starts, [*starts[1:], len(output)]):
        match = FROM_LINE.match(output, start)
        text = output[match.end() : end]
        is_settled = not text.startswith(b"unsettled")
        report, harts = (parse_report(text), []) if is_settled else (None, parse_unsettled(text))
        found.append(Swept(int(match[1]), int(match[2]), report, harts, text))
        if found[-1].first != (found[-2].last + 1 if len(found) > 1 else 0) or found[-1].last < found[-1].first:
            raise BadInput("a table of a sweep whose points don't follow one another")
    return found


def parse_unsettled(output):
    """The harts that an answer of status 3 names."""
    words = output.decode("utf-8", "replace").split()
    if words[:1] != ["unsettled"] or not all(it.isdigit() for it in words[1:]):
        raise BadInput("an answer of status 3 that names no harts")
    return [int(it) for it in words[1:]]


def parse_refusal(output):
    """The word of a refusal, as a rule or `words`, and what stands behind it; None where there is none."""
    match = REFUSAL.match(output)
    return None if match is None else (match[1].decode(), (match[2] or b"").decode("utf-8", "replace"))


def parse_line(line):
    """A line of a script, or None where it is none."""
    match = SCRIPT_LINE.match(line)
    if match is None:
        return None
    letter, numbers = match[1].decode(), [int(it) for it in match[2].split()]
    if len(numbers) != COUNTS.get(letter):
        return None
    return Line(letter, *(numbers + [None, None])[:2])


def parse_script(script):
    """The lines of a script, without the empty ones."""
    lines = []
    for number, line in enumerate(script.split(b"\n"), 1):
        line = line[:-1] if line.endswith(b"\r") else line
        if not line:
            continue
        parsed = parse_line(line)
        if parsed is None:
            raise BadInput(f"line {number} of the script is none: {line.decode('utf-8', 'replace')}")
        lines.append(parsed)
    return lines


def line_text(line):
    """The text of a line of a script."""
    return " ".join(str(it) for it in line if it is not None)


def script_bytes(lines):
    """A script of these lines."""
    return "".join(line_text(it) + "\n" for it in lines).encode()
