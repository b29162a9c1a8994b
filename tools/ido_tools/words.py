"""The words of the language, of scripts and of the program: the one list that tools, files for editors, shells and manuals are made of."""

DECLARATIONS = "mutex persistent thread".split()
LOCKS = "lock unlock".split()
TYPES = "char short int long signed unsigned void ref".split()
CONTROLS = "if else while do for return".split()
CONSTANTS = ["null"]
RESERVED = DECLARATIONS + LOCKS + TYPES + CONTROLS + CONSTANTS

PUNCTUATORS = (
    "<<= >>= << >> <= >= == != && || ++ -- += -= *= /= %= &= |= ^="
    " ( ) [ ] { } ; , ? : = + - * / % & | ^ ~ ! < >"
).split()

# Lines of scripts: the letter, the numbers behind it, and what the line does.
SCRIPT_LINES = (
    ("s", "HART N", "so many steps of the hart"),
    ("b", "HART", "steps of the hart up to the first that stores its point"),
    ("f", "HART", "steps of the hart up to the first that finishes a fence"),
    ("g", "N", "so many steps, each of the least hart that neither waits nor has stopped"),
    ("e", "LINE MASK", "the words of the line of memory that the mask chooses become durable"),
    ("c", "", "a crash"),
    ("r", "", "a start: another life begins, in which each thread runs again, on what the variables are"),
)
SCRIPT_LETTERS = [it[0] for it in SCRIPT_LINES]

# A line that splits an input in two: what stands before the first one is the source.
MARK = "%%"
# The word with which the schedule of a life begins.
SCHEDULE = "schedule"

# What an input is of which the program takes the part before a line `%%` as the source.
WITH_SCRIPT = f"a source, a line `{MARK}`, a script"
WITH_SCHEDULE = f"a source, a line `{MARK}`, a schedule"

# The option of the commands that compile a source to write or run it, and the words that stand for SCHEME: how the compiled code logs.
SCHEME = "[--scheme SCHEME]"
SCHEMES = (
    ("ido", "a record for each region of a section; this one where none is told"),
    ("justdo", "a record for each write of a section"),
)

# Each command with the words behind it, its input and its output.
COMMANDS = (
    ("compile", SCHEME, "a source", "its object file"),
    ("list", "", "an object file", "the listing of its code"),
    ("regions", "[--least]", "a source", "its nodes, and the boundaries chosen among them; with `--least` how few there are in straight code too"),
    ("order", "", "a source", "`ordered`, or the first lock that is taken out of order"),
    ("play", f"[--fences] {SCHEME}", WITH_SCRIPT, "the report of a run of the compiled source; with `--fences` how many fences each hart has finished too"),
    ("image", SCHEME, WITH_SCRIPT, "the image file that a crash after that run would leave"),
    ("recover", "TURNS", "an image file", "the report of the run that goes on from it, on threads"),
    ("upgrade", "TURNS", "an image file of an older version", "the image file of the newest that is left of that run, where it is settled"),
    ("source", "", WITH_SCHEDULE, "the report of the source's own run"),
    ("seeded", f"SEED TURNS [CRASH]... [--journal] {SCHEME}", "a source", "the report of a run of it that is drawn from the seed, or with `--journal` that run, as an input of `play`"),
    ("live", f"TURNS [CRASH]... [--evict SEED] [--journal] {SCHEME}", "a source", "the report of a run of it on threads, or with `--journal` that run, as an input of `play`"),
    ("make", "N SEED", "no input", "a source of four threads, which make N rounds each"),
    ("load", f"N SEED {SCHEME}", "no input", "that source is run on threads to its end, and what it left summed up"),
    ("sweep", SCHEME, WITH_SCRIPT, "the reports after a crash at each point of that run, equal ones told once"),
)
SCHEMED = [name for name, behind, _, _ in COMMANDS if SCHEME in behind]
# The commands that take a script, a schedule, and either of them: their inputs split.
SCRIPTED = [name for name, _, given, _ in COMMANDS if given == WITH_SCRIPT]
SCHEDULED = [name for name, _, given, _ in COMMANDS if given == WITH_SCHEDULE]
SPLITS = SCRIPTED + SCHEDULED

# Words that the script ./ido takes before a command.
OPTIONS = (
    ("--explain", "Runs the command that follows, and says on standard error what a refusal means, where it stands, and what to write instead."),
    ("--help", "Says which words are taken."),
    ("--version", "Says which kit the repository is proved with."),
)

STATUSES = (
    (0, "No fault; of a report, that the run is settled."),
    (1, "The source breaks a rule: `refused RULE at LINE:COLUMN`."),
    (2, "The words name no command: `refused words`."),
    (3, "The run isn't settled: `unsettled`, and the harts or threads that aren't."),
    (4, "The input could not be read."),
    (5, "The output could not be written."),
    (6, "The script, the schedule or the file is refused, or is too long."),
    (7, "Memory is wanting."),
    (70, "The script `./ido` could neither start the program nor make it."),
)
