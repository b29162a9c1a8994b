"""Faults of an input, and the frame in which a tool runs."""

import argparse
import os
import sys

from ido_tools.words import SCHEMES


class BadInput(Exception):
    """What a tool was given can't be used; the text says why."""


class Parser(argparse.ArgumentParser):
    """A parser of words whose faults end a tool with status 2."""

    def __init__(self, description, **more):
        super().__init__(description=description, formatter_class=argparse.RawDescriptionHelpFormatter, **more)
        self.add_argument("--program", metavar="PATH", help="the program ido (else crates/ido/out/ido where it stands, else ./ido)")

    def add_scheme(self):
        """Takes the scheme by which sources are compiled."""
        names = [it for it, _ in SCHEMES]
        about = f"compile for this scheme of logging: {' or '.join(names)} ({names[0]})"
        self.add_argument("--scheme", metavar="SCHEME", choices=names, default=names[0], help=about)


def read_bytes(path):
    """The bytes of a file; of standard input where the path is `-`."""
    try:
        if path == "-":
            return sys.stdin.buffer.read()
        with open(path, "rb") as it:
            return it.read()
    except OSError as error:
        raise BadInput(f"can't read {path}: {error.strerror}") from error


def write_bytes(path, content):
    """Makes a file of these bytes."""
    try:
        with open(path, "wb") as it:
            it.write(content)
    except OSError as error:
        raise BadInput(f"can't write {path}: {error.strerror}") from error


def leave_quietly():
    """Standard output has no reader any more: nothing is written to it when the tool ends."""
    os.dup2(os.open(os.devnull, os.O_WRONLY), sys.stdout.fileno())


def run_tool(name, main):
    """Ends with the status that `main` answers, or with 2 and one line on standard error where an input can't be used."""
    for stream in (sys.stdout, sys.stderr):
        if hasattr(stream, "reconfigure"):
            stream.reconfigure(encoding="utf-8", errors="replace")
    try:
        status = main()
        sys.stdout.flush()
    except BadInput as error:
        print(f"{name}: {error}", file=sys.stderr)
        status = 2
    except RecursionError:
        print(f"{name}: the input nests, or its calls go, too deep to be read here", file=sys.stderr)
        status = 2
    except BrokenPipeError:
        leave_quietly()
        status = 2
    except KeyboardInterrupt:
        status = 130
    sys.exit(status)
