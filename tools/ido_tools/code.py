"""The compiled code of a source: its listing, and which words belong to which node.

The program tells nodes (`ido regions`) and words (`ido list`), but not which words a node has. A store, a lock, an unlock, an
end and a boundary can be told by their words, and so can an assignment of a local that stands in a frame. Other neighbouring
evaluations and tests can't always: where the words between two of the others can be given to them in more than one way, they
stay one piece.
"""

import collections
import re

from ido_tools.fault import BadInput
from ido_tools.limits import LINE_BYTES, LOG_LINES
from ido_tools.logs import OF_REGIONS, WORD_BYTES

# A node as `ido regions` tells it.
Told = collections.namedtuple("Told", "number kind place is_cut")
Word = collections.namedtuple("Word", "address word name operands")

# A boundary: its words from `start` to `end`, the numbers of the mutexes (None of one with a key, which its words compute) and registers that it keeps (those
# of the write that comes next, where locals stand in a frame), and where it is resumed (None where it ends a section).
Boundary = collections.namedtuple("Boundary", "start end locks live resume")

# The words from `start` to `end` of the nodes from `first` to `last`, numbered within their thread.
Piece = collections.namedtuple("Piece", "first last start end boundary")

REGION_LINE = re.compile(r"(\d+) (eval|store|test|lock|unlock|end) (\d+):(\d+)( cut)?\Z")
WORD_LINE = re.compile(r"([0-9a-f]{8}) ([0-9a-f]{8}) (\S+) ?(.*)\Z")
BRANCHES = frozenset("beq bne blt bge bltu bgeu".split())
STORES = frozenset("sb sh sw sd".split())
WITHOUT_RESULT = BRANCHES | STORES | {"cbo.clean", "fence", "ecall"}

TEMPORARIES = frozenset("x5 x6 x7 x30 x31".split())
PENDING = frozenset(("x28", "x29"))
LOCALS = frozenset(f"x{it}" for it in [*range(8, 28)] if it not in (10, 17))

# The first words of boundaries and calls.
FLIP = ("xori", ["x3", "x3", "1024"])
# By these the address of a frame's word begins, and by no other node's words.
FRAMED = "lui", "x28"
CALL_NUMBERS = {"lock": "1", "unlock": "2", "end": "3"}

# No more ways to give words to nodes than this are told apart.
SEVERAL = 2

# So many words are looked at, at most, to tell neighbouring evaluations and tests apart.
MOST_LOOKED_AT = 1_000_000


class NoLayout(Exception):
    """Which words a thread's nodes have can't be told."""


def parse_regions(output):
    """Of each thread its name and its nodes."""
    threads = []
    for line in output.decode("utf-8", "replace").splitlines():
        match = REGION_LINE.match(line)
        if line.startswith("thread "):
            threads.append((line[7:], []))
        elif match and threads:
            threads[-1][1].append(Told(int(match[1]), match[2], (int(match[3]), int(match[4])), bool(match[5])))
        else:
            raise BadInput(f"no line of ido regions: {line}")
    return threads


def parse_listing(output):
    """Of each thread its words."""
    threads = []
    for line in output.decode("utf-8", "replace").splitlines():
        match = WORD_LINE.match(line)
        if line.startswith("thread "):
            threads.append([])
        elif match and threads:
            operands = match[4].split(", ") if match[4] else []
            threads[-1].append(Word(int(match[1], 16), int(match[2], 16), match[3], operands))
        else:
            raise BadInput(f"no line of ido list: {line}")
    return threads


def word_text(word):
    """A word as the listing has it."""
    return f"{word.address:08x} {word.word:08x} {word.name} {', '.join(word.operands)}".rstrip()


def target_of(word):
    """The address that a branch or a jump leads to, or None."""
    if word.name in BRANCHES or word.name == "jal":
        return int(word.operands[-1], 16)
    return None


def result_of(word):
    """The register that a word gives a number, or None."""
    return None if word.name in WITHOUT_RESULT else word.operands[0]


def memory_operand(word):
    """The offset and the register of an operand as `8(x30)`."""
    offset, register = word.operands[1].rstrip(")").split("(")
    return int(offset), register


def constant(words, register):
    """The number that these words give the register, modulo 2^64."""
    number = 0
    for it in words:
        if it.name == "lui":
            number = int(it.operands[1], 16) << 12
            number -= (number & 0x8000_0000) << 1
        elif it.name in ("addi", "addiw"):
            number = (0 if it.operands[1] == "x0" else number) + int(it.operands[2])
        elif it.name == "slli":
            number <<= int(it.operands[2])
        else:
            raise NoLayout(f"{it.name} in a constant of {register}")
    return number % (1 << 64)


class ThreadCode:
    """The words of a thread, given to its nodes."""

    def __init__(self, words, nodes, log=OF_REGIONS):
        self.words = words
        self.nodes = nodes
        self.log = log
        self.pieces = []
        self.at = 0
        self.give_all()
        self.by_address = {it.address: number for number, it in enumerate(words)}

    def is_at(self, at, name, operands=None):
        """Whether an instruction stands there."""
        if not 0 <= at < len(self.words):
            return False
        word = self.words[at]
        return word.name == name and (operands is None or word.operands == operands)

    def need(self, at, name, operands=None):
        """The word there, which has this name."""
        if not self.is_at(at, name, operands):
            raise NoLayout(f"no {name} at word {at}")
        return self.words[at]

    def past(self, at, register):
        """The position past the words that make a constant in the register."""
        while at < len(self.words) and self.words[at].name in ("lui", "addi", "addiw", "slli") and result_of(self.words[at]) == register:
            at += 1
        return at

    def boundary(self, at):
        """The boundary that begins there."""
        return self.keeping(at) if self.is_at(at, *FLIP) else self.ending(at)

    def ending(self, start):
        """A boundary that ends a section."""
        at = self.past(start, "x31")
        self.need(at, "fence")
        self.need(at + 1, "sd", ["x0", "0(x31)"])
        self.need(at + 2, "cbo.clean", ["(x31)"])
        self.need(at + 3, "fence")
        return Boundary(start, at + 4, [], [], None)

    def keeping(self, start):
        """A boundary that keeps mutexes, and registers or which write comes next."""
        at = self.past(start + 1, "x31")
        self.need(at, "add", ["x30", "x31", "x3"])
        slot = self.past(at + 1, "x7")
        count = constant(self.words[at + 1 : slot], "x7")
        self.need(slot, "sd", ["x7", self.banked(0)])
        at = slot + 1
        locks = []
        for it in range(count):
            past = self.listed_at(at, self.banked(self.log.listed + it))
            is_plain = self.past(at, "x5") == past and self.words[at].operands[1] in ("x0", "0")
            locks.append(constant(self.words[at:past], "x5") if is_plain else None)
            at = past + 1
        live = []
        while self.is_banked(at) or self.is_at(at, "addi") and self.words[at].operands[:2] == ["x7", "x0"]:
            if self.is_banked(at) and self.words[at].operands[0] != "x7":
                live.append(int(self.words[at].operands[0][1:]))
            at += 1
        while self.is_at(at, "addi") and self.is_at(at + 1, "cbo.clean", ["(x7)"]):
            at += 2
        self.need(at, "fence")
        upper, lower = self.need(at + 1, "auipc"), self.need(at + 2, "addi")
        high = int(upper.operands[1], 16) << 12
        resume = (upper.address + high + int(lower.operands[2])) % (1 << 32)
        self.need(at + 5, "sd", ["x30", "0(x31)"])
        self.need(at + 7, "fence")
        return Boundary(start, at + 8, locks, live, resume)

    def banked(self, word):
        """The operand of a word of the bank."""
        return f"{self.log.banks[0] + WORD_BYTES * word}(x30)"

    def is_banked(self, at):
        """Whether a word of the bank is stored there."""
        return self.is_at(at, "sd") and memory_operand(self.words[at])[1] == "x30"

    def listed_at(self, at, slot):
        """Where the number of a lock is stored, after the words that compute it."""
        while at < len(self.words) and not self.is_at(at, "sd"):
            at += 1
        self.need(at, "sd", ["x5", slot])
        return at

    def give_all(self):
        """Gives each word to a node."""
        number = 0
        while number < len(self.nodes):
            if self.nodes[number].kind in ("eval", "test") and not self.is_framed(number):
                number = self.give_soft(number)
            else:
                self.give_hard(number)
                number += 1
        if self.at != len(self.words):
            raise NoLayout("words are left")

    def is_before_store(self, number):
        """Whether a node is followed by a store, whose address and value it computes then."""
        return number + 1 < len(self.nodes) and self.nodes[number + 1].kind == "store"

    def is_framed(self, number):
        """Whether a node assigns a local that stands in the frame."""
        return self.log.frame is not None and self.nodes[number].kind == "eval" and not self.is_before_store(number)

    def chosen(self, number):
        """The boundary before the core of a node: where locals stand in registers a chosen one, else that of a write; or None."""
        node = self.nodes[number]
        if self.log.frame is not None:
            return self.boundary(self.at) if node.kind == "store" else None
        return self.boundary(self.at) if node.is_cut and node.kind != "unlock" else None

    def skip_jump(self, at):
        """The position past a jump, where one stands."""
        return at + 1 if self.is_at(at, "jal") else at

    def give_hard(self, number):
        """Gives words to a store, a lock, an unlock, an end, or an assignment of a local in the frame."""
        kind, start = self.nodes[number].kind, self.at
        boundary = self.chosen(number)
        at = boundary.end if boundary else start
        if kind == "store":
            at = self.store_end(at)
        elif kind == "unlock":
            boundary = self.boundary(at)
            at = self.call_end(boundary.end, kind)
        elif kind == "lock":
            at = self.call_end(at, kind)
            boundary = self.boundary(at)
            at = boundary.end
        elif kind == "eval":
            boundary, at = self.assigned_from(at)
        else:
            at = self.call_end(at, kind)
        self.at = at if kind == "end" else self.skip_jump(at)
        self.pieces.append(Piece(number, number, start, self.at, boundary))

    def begins_framed(self, at):
        """Whether the words of an assignment of a local in the frame begin there."""
        return self.log.frame is not None and self.is_at(at, FRAMED[0]) and result_of(self.words[at]) == FRAMED[1]

    def assigned_from(self, start):
        """The boundary in the words of such an assignment, or None outside sections, and the position past them."""
        at, boundary = self.past(start, FRAMED[1]), None
        while at < len(self.words) and not (self.is_store(at) or self.is_at(at, *FLIP)):
            at += 1
        if self.is_at(at, *FLIP):
            boundary = self.keeping(at)
            at = boundary.end
        return boundary, self.store_end(at)

    def frame_word(self, piece):
        """The number of the frame's word that a piece assigns, or None."""
        if not self.is_framed(piece.first):
            return None
        address = constant(self.words[piece.start : self.past(piece.start, FRAMED[1])], FRAMED[1])
        return (address % (LINE_BYTES * LOG_LINES) - self.log.frame) // WORD_BYTES

    def store_end(self, at):
        """The position past a store."""
        if not self.is_store(at):
            raise NoLayout(f"no store at word {at}")
        return at + 2 if self.is_at(at + 1, "cbo.clean", ["(x28)"]) else at + 1

    def is_store(self, at):
        """Whether the pending store is made there."""
        return self.words[at].name in STORES and self.words[at].operands == ["x29", "0(x28)"]

    def call_end(self, at, kind):
        """The position past a call."""
        if kind != "end":
            while at < len(self.words) and result_of(self.words[at]) != "x10":
                at += 1
            self.need(at, "addi")
            at += 1
        self.need(at, "addi", ["x17", "x0", CALL_NUMBERS[kind]])
        self.need(at + 1, "ecall")
        return at + 2

    def next_hard(self, at):
        """Where the next words stand that are no evaluation's and no test's."""
        while at < len(self.words):
            if self.is_at(at, *FLIP) or self.is_store(at) or self.begins_framed(at):
                return at
            if self.is_at(at, "fence"):
                return at - 1 if self.is_at(at - 1, "lui") else at - 2
            if self.is_at(at, "ecall"):
                return at - 1 if self.is_at(at - 1, "addi", ["x17", "x0", "3"]) else self.numbered_from(at - 2)
            at += 1
        return at

    def numbered_from(self, at):
        """Where the words begin that give a call its lock's number, of which the last stands there: those of a key give numbers to temporaries alone."""
        if self.words[at].operands[1] == "x0":
            return at
        while at > 0 and result_of(self.words[at - 1]) in TEMPORARIES:
            at -= 1
        return at

    def give_soft(self, number):
        """Gives words to evaluations and tests up to the next words that are none's. Answers the number of the next node."""
        start = self.at
        boundary = self.chosen(number)
        first = boundary.end if boundary else start
        last = number + 1
        while last < len(self.nodes) and self.nodes[last].kind in ("eval", "test") and not (self.nodes[last].is_cut or self.is_framed(last)):
            last += 1
        end = self.next_hard(first)
        ends = self.split(number, last, first, end)
        if ends is None:
            self.pieces.append(Piece(number, last - 1, start, end, boundary))
        else:
            starts = [start, *ends[:-1]]
            for offset, (begin, finish) in enumerate(zip(starts, ends)):
                self.pieces.append(Piece(number + offset, number + offset, begin, finish, None if offset else boundary))
        self.at = end
        return last

    def split(self, number, last, first, end):
        """Where the words of each of these nodes end, or None where there isn't exactly one way that is known."""
        count = last - number
        reached = [{} for _ in range(count + 1)]
        reached[0][first] = (1, None)
        looked_at = 0
        for step in range(count):
            # Each node that comes after has a word at least.
            most = end - (count - step - 1)
            for begin, (ways, _) in list(reached[step].items()):
                looked_at += most - begin
                for finish in self.ends_of(number + step, begin, most) if looked_at < MOST_LOOKED_AT else ():
                    before, _ = reached[step + 1].get(finish, (0, None))
                    reached[step + 1][finish] = (min(SEVERAL, before + ways), begin)
        ways, _ = reached[count].get(end, (0, None))
        return self.way_back(reached, end) if ways == 1 else None

    def way_back(self, reached, end):
        """The ends along the only way to give words."""
        ends = []
        for step in range(len(reached) - 1, 0, -1):
            ends.append(end)
            end = reached[step][end][1]
        return ends[::-1]

    def ends_of(self, number, begin, end):
        """Where the words of a node that begin there may end."""
        if self.nodes[number].kind == "test":
            return self.test_ends(begin, end)
        return self.value_ends(begin, end, PENDING if self.is_before_store(number) else None)

    def inner_end(self, at, end, begin):
        """The position that a branch within an evaluation leads to, or None where it leads out."""
        target = (target_of(self.words[at]) - self.words[begin].address) // 4 + begin
        return target if at < target <= end else None

    def value_ends(self, begin, end, wanted):
        """Where an evaluation may end: once its registers have their numbers, and no branch leads further. `wanted` is None
        for some local's register, which is given nothing where it has its number already."""
        found, own, reach = [], set(), begin
        for at in range(begin, end):
            word = self.words[at]
            is_jump = word.name in BRANCHES or word.name == "jal"
            if is_jump:
                inner = self.inner_end(at, end, begin)
                if inner is None:
                    break
                reach = max(reach, inner)
            elif result_of(word) not in TEMPORARIES:
                own.add(result_of(word))
            if not self.may_own(own, wanted):
                break
            ends_here = reach == at + 1 if is_jump else result_of(word) in own and reach <= at + 1
            if ends_here and (wanted is None or own == wanted):
                found.append(at + 1)
                if at + 1 < end and self.is_at(at + 1, "jal"):
                    found.append(at + 2)
        return found

    def may_own(self, own, wanted):
        """Whether an evaluation may give numbers to these registers."""
        return own <= wanted if wanted else len(own) <= 1 and own <= LOCALS | {"x0"}

    def test_ends(self, begin, end):
        """Where a test may end: with a branch out of it, perhaps over a jump, and perhaps a jump after it."""
        found, reach = [], begin
        for at in range(begin, end):
            word = self.words[at]
            result = result_of(word)
            if result is not None and result not in TEMPORARIES and word.name != "jal":
                break
            if word.name in BRANCHES and at >= reach:
                found.extend(self.past_branch(at, end))
            if word.name in BRANCHES or word.name == "jal":
                inner = self.inner_end(at, end, begin)
                if inner is None:
                    break
                reach = max(reach, inner)
        return sorted(set(found))

    def past_branch(self, at, end):
        """The positions past a branch, and past a jump that may belong to it."""
        found = [at + 1]
        for _ in range(2):
            if found[-1] < end and self.is_at(found[-1], "jal"):
                found.append(found[-1] + 1)
        return found

    def piece_of(self, node):
        """The piece that has a node."""
        return next(it for it in self.pieces if it.first <= node <= it.last)

    def node_at(self, address):
        """The numbers of the nodes whose words an address is among, or None."""
        at = self.by_address.get(address)
        found = [it for it in self.pieces if at is not None and it.start <= at < it.end]
        return (found[0].first, found[0].last) if found else None

    def begins_piece(self, address):
        """Whether an address is where a piece begins, or where it goes on after its boundary."""
        at = self.by_address.get(address)
        return any(at == it.start or (it.boundary is not None and at == it.boundary.end) for it in self.pieces)

    def resumed_at(self, address):
        """The boundary that is resumed at an address, or None."""
        return next((it.boundary for it in self.pieces if it.boundary and it.boundary.resume == address), None)

    def next_pieces(self, number):
        """The numbers of the pieces that may come after a piece."""
        piece = self.pieces[number]
        if self.nodes[piece.last].kind == "end":
            return set()
        starts = {self.words[it.start].address: other for other, it in enumerate(self.pieces)}
        found = set() if self.is_at(piece.end - 1, "jal") else {number + 1}
        for it in self.words[piece.start : piece.end]:
            if target_of(it) in starts:
                found.add(starts[target_of(it)])
        return found

    def goal(self, at):
        """The address that is come to from a position, jumps followed."""
        seen = set()
        while self.is_at(at, "jal") and at not in seen:
            seen.add(at)
            at = self.by_address.get(target_of(self.words[at]), len(self.words))
        return self.words[at].address if at < len(self.words) else None
