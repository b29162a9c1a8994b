"""Object files of versions 1 to 3, image files of versions 1 to 4, and what the words of an image are."""

import collections
import struct

from ido_tools.fault import BadInput
from ido_tools.limits import LINE_BYTES, LOG_LINES, VARIABLE_LINES
from ido_tools.logs import IMAGE_LOGS, MOST_LISTED, OBJECT_LOGS, VERSION_OF_LIVES, WORD_BYTES, lines_of
from ido_tools.source import VARIABLES_FROM
from ido_tools.texts import NULL

OBJECT_HEAD = b"IDO-OBJ\n"
IMAGE_HEAD = b"IDO-IMG\n"
# Of a variable of more elements only so many are told.
MOST_NUMBERS = 64

# What a thread's log holds, and how it logs.
Kept = collections.namedtuple("Kept", "log content")

Object = collections.namedtuple("Object", "log mutexes initial code")


class Image(collections.namedtuple("Image", "version source variables logs lives")):
    """What an image has; of each life the runs of its schedule."""

    @property
    def runs(self):
        """The runs of all lives, one life after another."""
        return [run for life in self.lives for run in life]


class Fields:
    """Reads the fields of a file one by one."""

    def __init__(self, content, what):
        self.content, self.what, self.at = content, what, 0

    def take(self, count):
        """The next bytes."""
        if self.at + count > len(self.content):
            raise BadInput(f"no {self.what}: cut at byte {len(self.content)}")
        self.at += count
        return self.content[self.at - count : self.at]

    def number(self):
        """The next number of four bytes."""
        return struct.unpack("<I", self.take(4))[0]

    def head(self, expected, versions):
        """The version, after the beginning."""
        if self.take(len(expected)) != expected:
            raise BadInput(f"no {self.what}: another beginning")
        version = self.number()
        if version not in versions:
            raise BadInput(f"{self.what} of version {version}")
        return version

    def done(self):
        """All bytes were taken."""
        if self.at != len(self.content):
            raise BadInput(f"no {self.what}: more bytes from byte {self.at}")


def parse_object(content):
    """The object that these bytes are."""
    fields = Fields(content, "object file")
    version = fields.head(OBJECT_HEAD, OBJECT_LOGS)
    threads, mutexes, count = fields.number(), fields.number(), fields.number()
    initial = fields.take(count)
    code = []
    for _ in range(threads):
        words = fields.number()
        code.append(list(struct.unpack(f"<{words}I", fields.take(4 * words))))
    fields.done()
    return Object(OBJECT_LOGS[version], mutexes, initial, code)


def image_source(content):
    """The log of an image's threads, and its source."""
    fields = Fields(content, "image file")
    version = fields.head(IMAGE_HEAD, IMAGE_LOGS)
    return IMAGE_LOGS[version], fields.take(fields.number())


def parse_image(content, threads):
    """The image that these bytes are, of a source with so many threads."""
    fields = Fields(content, "image file")
    version = fields.head(IMAGE_HEAD, IMAGE_LOGS)
    source = fields.take(fields.number())
    variables = fields.take(fields.number())
    log = IMAGE_LOGS[version]
    logs = [Kept(log, fields.take(log.bytes)) for _ in range(threads)]
    count = fields.number() if version >= VERSION_OF_LIVES else 1
    lives = [[(fields.number(), fields.number()) for _ in range(fields.number())] for _ in range(count)]
    fields.done()
    return Image(version, source, variables, logs, lives)


def element_number(variable, element, content):
    """The number of an element, of the bytes of all variables; of a reference that of the element to which it refers, None where it is null."""
    start = variable.address - VARIABLES_FROM + element * variable.kind.bytes
    number = int.from_bytes(content[start : start + variable.kind.bytes], "little", signed=variable.kind.signed)
    if variable.refers is None:
        return number
    return number - 1 if number else None


def variable_numbers(variable, content):
    """The numbers of a variable, of the bytes of all variables."""
    return [element_number(variable, it, content) for it in range(variable.length or 1)]


def number_text(variable, number):
    """A number of a variable as a text; of a reference the element, or null."""
    if variable.refers is None:
        return str(number)
    return NULL if number is None else f"{variable.refers}[{number}]"


def numbers_text(variable, numbers):
    """A variable and its numbers, of which only the first are told where there are many."""
    more = f" .. ({len(numbers)} elements)" if len(numbers) > MOST_NUMBERS else ""
    return f"{variable.name} = {' '.join(number_text(variable, it) for it in numbers[:MOST_NUMBERS])}{more}"


def changed_elements(source, before, after):
    """The elements that differ, of the bytes of all variables before and after: their names, and the texts of their numbers after."""
    found = []
    for it in source.variables if before != after else ():
        start, size = it.address - VARIABLES_FROM, it.kind.bytes
        end = start + size * (it.length or 1)
        if before[start:end] == after[start:end]:
            continue
        for at in range(it.length or 1):
            if element_number(it, at, before) != element_number(it, at, after):
                name = it.name if it.length is None else f"{it.name}[{at}]"
                found.append((name, number_text(it, element_number(it, at, after))))
    return found


def element_at(source, address):
    """The variable that has an element at an address, and that element as the source names it; or None."""
    for it in source.variables:
        offset = address - it.address
        if 0 <= offset < it.kind.bytes * (it.length or 1) and offset % it.kind.bytes == 0:
            return it, it.name if it.length is None else f"{it.name}[{offset // it.kind.bytes}]"
    return None


def kept_text(typed, number):
    """A register that was kept, as the number of a variable or of a local's type that it has; of a reference the element, or null."""
    if typed.refers is not None:
        return number_text(typed, number - 1 if number else None)
    bits = 8 * typed.kind.bytes
    low = number % (1 << bits)
    return str(low - (low >> bits - 1 << bits) if typed.kind.signed else low)


def log_word(kept, offset):
    """A word of a thread's log."""
    return struct.unpack_from("<Q", kept.content, offset)[0]


def point_of(kept):
    """The address where a log's thread is resumed (0: it isn't) and the number of the bank."""
    point = log_word(kept, 0)
    return point & ~1, point & 1


def slot_of(kept, bank, slot):
    """A slot of a bank."""
    return log_word(kept, kept.log.banks[bank] + WORD_BYTES * slot)


def pending_of(kept, bank):
    """The address and the value of the write that a bank tells."""
    return tuple(slot_of(kept, bank, it) for it in kept.log.pending)


def frame_word(kept, number):
    """A word of the frame."""
    return log_word(kept, kept.log.frame + WORD_BYTES * number)


def locks_of(mask):
    """The numbers of the locks in a mask."""
    return [bit for bit in range(64) if mask >> bit & 1]


def held_in(kept, bank):
    """The numbers of the locks that a bank tells, which a list has in its own order."""
    first, listed = slot_of(kept, bank, 0), kept.log.listed
    if listed is None:
        return locks_of(first)
    return [slot_of(kept, bank, listed + it) for it in range(min(first, MOST_LISTED))]


def mutexes_of(source, locks):
    """The names of mutexes by their numbers; one that is none's is told by its number."""
    return [source.mutexes[it] if it < len(source.mutexes) else f"lock {it}" for it in locks]


def variable_lines(source):
    """The lines of memory that the variables stand in."""
    end = max((it.address + it.kind.bytes * (it.length or 1) - VARIABLES_FROM for it in source.variables), default=0)
    return list(range(-(-end // LINE_BYTES)))


def record_lines(thread, log):
    """The lines of memory that the banks and the frame of a thread's log stand in."""
    return [point_line(thread) + it for it in lines_of(log)]


def lines_in_use(source, log):
    """The lines of memory that are used: of variables, of points, and of what else logs have, each kind by itself."""
    threads = range(len(source.threads))
    return [variable_lines(source), [point_line(it) for it in threads], [line for it in threads for line in record_lines(it, log)]]


def point_line(thread):
    """The line of memory that a thread's point stands in."""
    return VARIABLE_LINES + LOG_LINES * thread
