"""How threads log, by the versions of objects and images, and by the schemes that a source is compiled for."""

import collections

from ido_tools.limits import LINE_BYTES, LOCAL_REGISTERS

WORD_BYTES = 8
MOST_LISTED = 16
REGISTERS = 32

# The registers of the address and the value of the write that comes first.
PENDING_REGISTERS = (28, 29)

# How many bytes an image has of a thread's log; where its two banks stand; from which word of a bank the list of held locks goes (None where the first word
# is a mask of them); the words of a bank with the address and the value of the write that comes first; and where the frame of locals stands, or None.
Log = collections.namedtuple("Log", "bytes banks listed pending frame")

OF_MASKS = Log(1024, (64, 320), None, PENDING_REGISTERS, None)
OF_REGIONS = Log(2048, (64, 1088), REGISTERS, PENDING_REGISTERS, None)
OF_WRITES = Log(2048, (64, 1088), 4, (1, 2), 512)

OBJECT_LOGS = {1: OF_MASKS, 2: OF_REGIONS, 3: OF_WRITES}
IMAGE_LOGS = {1: OF_MASKS, 2: OF_REGIONS, 3: OF_REGIONS, 4: OF_WRITES}
SCHEME_LOGS = {"ido": OF_REGIONS, "justdo": OF_WRITES}

# The version of images from which on they have several lives.
VERSION_OF_LIVES = 3


def lines_from(start, words):
    """The lines that so many words stand in, from a byte of a log on."""
    return range(start // LINE_BYTES, -(-(start + WORD_BYTES * words) // LINE_BYTES))


def lines_of(log):
    """The lines of a log that its banks and its frame stand in."""
    words = REGISTERS if log.listed is None else log.listed + MOST_LISTED
    found = [line for start in log.banks for line in lines_from(start, words)]
    return found if log.frame is None else [*found, *lines_from(log.frame, LOCAL_REGISTERS)]


def scheme_of(log):
    """The scheme by which a source is compiled for code that logs so, or None where it is compiled so no more."""
    return next((scheme for scheme, it in SCHEME_LOGS.items() if it == log), None)
