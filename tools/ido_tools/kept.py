"""The program `ido` without its proofs, made once for ./ido, which keeps it until a source is newer."""

import contextlib
import fcntl
import os
import sys
import threading
import time

if __name__ == "__main__":
    sys.dont_write_bytecode = True
    sys.path.insert(0, os.path.dirname(os.path.dirname(os.path.realpath(__file__))))

from ido_tools.fault import BadInput
from ido_tools.program import NOT_STARTED, TOP
from ido_tools.progress import BETWEEN_SECONDS, Progress
from ido_tools.unproved import make

ABOUT = " of some 100, this once"


@contextlib.contextmanager
def counted(tool, what="compiling without proofs", about=ABOUT):
    """Counts on a terminal the seconds that something takes."""
    over = threading.Event()

    def count():
        with Progress(tool, what) as shown:
            while not over.wait(BETWEEN_SECONDS):
                shown.seconds(about)

    counting = threading.Thread(target=count)
    counting.start()
    try:
        yield
    finally:
        over.set()
        counting.join()


@contextlib.contextmanager
def alone(path):
    """Lets one process at a time go on."""
    with open(path, "wb") as lock:
        try:
            fcntl.flock(lock, fcntl.LOCK_EX | fcntl.LOCK_NB)
        except BlockingIOError:
            with counted("ido", "waiting for another ./ido, which compiles without proofs"):
                fcntl.flock(lock, fcntl.LOCK_EX)
        yield


def sources():
    """The files that the program is made of."""
    yield os.path.join(TOP, "crates.txt")
    for folder, folders, names in os.walk(os.path.join(TOP, "crates")):
        folders[:] = [it for it in folders if it != "out"]
        yield from (os.path.join(folder, it) for it in names if it.endswith((".rt", ".antt")))


def is_fresh(path):
    """Whether the program stands there, and no source is newer."""
    return os.path.isfile(path) and all(os.stat(it).st_mtime_ns <= os.stat(path).st_mtime_ns for it in sources())


def keep(path):
    """Makes the program, where no other process has meanwhile. It is as old as the sources that it is made of."""
    os.makedirs(os.path.dirname(path), exist_ok=True)
    with alone(path + ".lock"):
        if is_fresh(path):
            return
        began, made = time.time(), f"{path}.{os.getpid()}"
        try:
            with counted("ido"):
                make(made)
            os.utime(made, (began, began))
            os.replace(made, path)
        finally:
            with contextlib.suppress(FileNotFoundError):
                os.remove(made)


def main():
    try:
        keep(sys.argv[1])
    except (BadInput, OSError) as error:
        print(f"ido: {error}", file=sys.stderr)
        return NOT_STARTED
    except KeyboardInterrupt:
        return NOT_STARTED
    return 0


if __name__ == "__main__":
    sys.exit(main())
