"""How far a tool has come, told to a person who waits: on a terminal alone, and only once it has taken two seconds."""

import sys
import time

QUIET_SECONDS = 2.0
BETWEEN_SECONDS = 0.2


class Progress:
    """One line of standard error, written over and over."""

    def __init__(self, tool, what):
        self.tool, self.what = tool, what
        self.began, self.last, self.width = time.monotonic(), 0.0, 0
        self.is_shown = sys.stderr.isatty()

    def __call__(self, done, total):
        """So much is done of all."""
        self.say(f"{self.what}: {done} of {total}")

    def seconds(self, about=""):
        """Nothing is known but how long it takes."""
        self.say(f"{self.what}: {int(time.monotonic() - self.began)} s{about}")

    def say(self, text):
        """Writes the line anew, where it is time to."""
        now = time.monotonic()
        if not self.is_shown or now - self.began < QUIET_SECONDS or now - self.last < BETWEEN_SECONDS:
            return
        self.last = now
        line = f"{self.tool}: {text}"
        print(f"\r{line:<{self.width}}", end="", file=sys.stderr, flush=True)
        self.width = len(line)

    def done(self):
        """Takes the line away."""
        if self.width:
            print(f"\r{'':<{self.width}}\r", end="", file=sys.stderr, flush=True)
        self.width = 0

    def __enter__(self):
        return self

    def __exit__(self, *_):
        self.done()
