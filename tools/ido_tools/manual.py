"""The manual page, docs/ido.1, of the list of words."""

import re

from ido_tools.words import COMMANDS, OPTIONS, SCHEMES, SCRIPT_LINES, SCRIPTED, STATUSES

HEAD = r"""
.TH IDO 1
.SH NAME
ido \- compile, run, crash and recover programs whose persistent data is guarded by locks
.SH SYNOPSIS
.B ./ido
[\fB\-\-explain\fR] \fICOMMAND\fR < \fIINPUT\fR > \fIOUTPUT\fR
.SH DESCRIPTION
"""

DESCRIPTION = """
The input is read from standard input, and the answer written to standard output. A source that breaks a rule is refused by the rule and the place.
All else that can be wrong with an input is refused in the same way. The machine that runs the compiled source is simulated.
"""

WORDS = """
TURNS is a number from 0 to 1000000: so many events each thread makes at most between crashes, or so many draws. N is one from 1 to 10000, in `load` to
100. SEED is one up to 4294967295 in `make` and `load`, and up to 18446744073709551615 in `seeded` and behind `--evict`. With `--evict` one thread more
makes evictions, which are drawn of that seed. CRASH is a number from 0 to 4000000, at most 1000 of them. In `seeded` it is one of draws, after which a
crash comes, 0 before the first. In `live` it is one of events since the last crash, after which the next one comes, or once all threads have stopped.
`%%` is a line of its own. What stands before the first one is the source; where there is none, all is the source.
"""

SCHEME = """
SCHEME says how the compiled code logs. The option stands once at most, anywhere before a `--`, also as `--scheme=justdo`. An object file and an image file
tell by their version which it is.
"""

OWN_WORDS = """
They stand before the command, and are those of the script `./ido`. The program itself takes none but those that stand behind a command above.
"""

SWEEP = """
`sweep` looks at each point of the script's run: before its first event, and after each one. There power is lost, and all harts step in turn, in the order
of their numbers, until all are done with their recovery, or 1000000 steps are made. Points one after another that leave the same report are told once,
behind a line `from A to B`. A point at which some hart isn't settled has the line `unsettled` in place of a report; then the status is 3. The script has
at most 10000 events: steps of harts that wait or have ended count as well.
"""

LIVES = """
A run has one life or several. In the first each thread runs from its beginning, on the initial values. A line `r` begins the next one where each hart has
stopped between sections, as after a recovery: each thread runs from its beginning again, with fresh locals, on what the variables are then. The report has
a line `schedule` for each life.
"""

SCHEDULES = """
A schedule, for `source`, is words `T*N`: N steps of thread T. The word `schedule` begins the schedule of a life; the first may lack it. The last lines of a
report are such.
"""

TAIL = r"""
.SH FILES
.TP
.I docs/errors.md
each refusal, with an example and how to mend it
.TP
.I docs/language.md
the source language
.TP
.I docs/formats.md
scripts, schedules, object files and image files
.SH EXAMPLES
.nf
\&./ido play < examples/bank_transfer.ido
\&./ido \-\-explain compile < mine.ido > mine.object
\&./ido image < examples/bank_transfer.ido > left; ./ido recover 1000 < left
\&./ido sweep < examples/add_one.ido
.fi
"""


def roff(text):
    """A text for a manual page."""
    text = text.replace("\\", "\\e").replace("-", "\\-").replace("'", "\\(aq")
    text = re.sub(r"`([^`]*)`", lambda it: "\\fB" + it[1] + "\\fR", text)
    return "\\&" + text if text.startswith(".") else text


def lines_of(text):
    """The lines of a part that stands above as it is."""
    return text.strip().split("\n")


def paragraph(text):
    """The lines of a paragraph."""
    return [roff(it) for it in lines_of(text)]


def entry(name, words, meaning):
    """A name, the words behind it, and what it means."""
    return [".TP", f".B {roff(name)}" + (f" \\fI{roff(words)}\\fR" if words else ""), roff(meaning)]


def manual(made_by):
    """The manual page."""
    lines = [f'.\\" {made_by}', *lines_of(HEAD), *paragraph(DESCRIPTION), ".SH COMMANDS"]
    for name, words, given, answer in COMMANDS:
        lines += entry(name, words, f"From {given}: {answer}.")
    lines += [".PP", *paragraph(WORDS), ".SH SCHEMES", *paragraph(SCHEME)]
    for name, meaning in SCHEMES:
        lines += entry(name, "", meaning[0].upper() + meaning[1:] + ".")
    lines += [".SH OPTIONS", *paragraph(OWN_WORDS)]
    for name, meaning in OPTIONS:
        lines += entry(name, "", meaning)
    commands = [f"`{it}`" for it in SCRIPTED]
    lines += [".SH SCRIPTS", roff(f"What {', '.join(commands[:-1])} and {commands[-1]} run, one line for each:")]
    for letter, words, meaning in SCRIPT_LINES:
        lines += entry(letter, words, meaning)
    lines += [".SH LIVES", *paragraph(LIVES), ".SH SCHEDULES", *paragraph(SCHEDULES), ".SH SWEEPS", *paragraph(SWEEP), ".SH EXIT STATUS"]
    for number, meaning in STATUSES:
        lines += entry(str(number), "", meaning)
    return "\n".join([*lines, *lines_of(TAIL)]) + "\n"
