"""Finding and calling the program `ido`."""

import collections
import concurrent.futures
import hashlib
import os
import subprocess
import sys

from ido_tools.fault import BadInput
from ido_tools.logs import SCHEME_LOGS
from ido_tools.words import SCHEMED, SCHEMES

TOP = os.path.dirname(os.path.dirname(os.path.dirname(os.path.realpath(__file__))))
PROVED = os.path.join(TOP, "crates", "ido", "out", "ido")
LAUNCHER = os.path.join(TOP, "ido")

# The status by which ./ido says that it could not start the program.
NOT_STARTED = 70

# A variable of the environment that says how many calls of the program a tool makes at once.
JOBS = "IDO_JOBS"

# Answers of more bytes are not kept for another time.
MOST_KEPT = 4096

Answer = collections.namedtuple("Answer", "status output")


def find_program(path=None):
    """The path that was given, or of the two places the first where a program stands."""
    candidates = [PROVED, LAUNCHER] if path is None else [path]
    for it in candidates:
        if os.path.isfile(it) and os.access(it, os.X_OK):
            if path is None and it == LAUNCHER:
                print("no proved program stands: ./ido runs an unproved one, which it makes once, in about two minutes", file=sys.stderr)
            return os.path.abspath(it)
    raise BadInput(f"no program at {candidates[-1]}")


def workers(most):
    """How many calls of the program run at once: as many as there are processors, or as the environment's IDO_JOBS says."""
    given = os.environ.get(JOBS, "")
    return int(given) if given.isdigit() and 0 < int(given) <= 64 else max(2, min(most, os.cpu_count() or 2))


class Program:
    """The program, with the short answers that it has given. It compiles sources for one scheme of logging."""

    def __init__(self, path=None, scheme=SCHEMES[0][0]):
        self.path = find_program(path)
        self.scheme, self.log = scheme, SCHEME_LOGS[scheme]
        self.answers = {}
        self.calls = 0
        self.pool = concurrent.futures.ThreadPoolExecutor(max_workers=workers(8))

    def start(self, words, content):
        """One call of the program, whatever was answered before."""
        told = ["--scheme", self.scheme] if self.scheme != SCHEMES[0][0] and words[0] in SCHEMED else []
        try:
            done = subprocess.run([self.path, *words, *told], input=content, stdout=subprocess.PIPE, stderr=subprocess.PIPE, check=False)
        except OSError as error:
            raise BadInput(f"{self.path} does not start: {error.strerror}") from error
        if done.returncode < 0 or done.returncode == NOT_STARTED:
            said = done.stderr.decode("utf-8", "replace").strip().splitlines()
            why = said[-1] if said else f"signal {-done.returncode}"
            raise BadInput(f"{self.path} {words[0]} could not be run: {why}")
        self.calls += 1
        return Answer(done.returncode, done.stdout)

    def ask(self, words, content):
        """The answer to these words and this input, which may be a function that makes it. Short answers are kept."""
        content = content() if callable(content) else content
        key = (tuple(words), hashlib.sha256(content).digest())
        answer = self.answers.get(key) or self.start(words, content)
        if len(answer.output) <= MOST_KEPT:
            self.answers[key] = answer
        return answer

    def ask_all(self, requests, told=None):
        """The answers to pairs of words and input, in order. `told` hears how many have come."""
        waiting = [self.pool.submit(self.ask, words, content) for words, content in requests]
        answers = []
        try:
            for number, it in enumerate(waiting, 1):
                answers.append(it.result())
                if told is not None:
                    told(number, len(waiting))
        finally:
            for it in waiting:
                it.cancel()
        return answers

    def ask_well(self, words, content):
        """The output of a call that has status 0; any other status is a fault of the input."""
        answer = self.ask(words, content)
        if answer.status != 0:
            raise BadInput(f"ido {words[0]}: {said_by(answer)}")
        return answer.output


def said_by(answer):
    """What an answer that is a refusal says, in one line."""
    text = answer.output.decode("utf-8", "replace").strip()
    first = text.splitlines()[0] if text else "nothing"
    return f"{first} (status {answer.status})"
