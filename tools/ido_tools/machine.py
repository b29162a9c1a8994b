"""The machine beneath the program, stepped here: harts of RV64IM over memory in lines, with locks, crashes and recoveries.

It runs the words of an object as `ido list` tells them, by the rules of docs/formats.md, and answers no question that the program
answers: it is there to count what each step does."""

import collections

from ido_tools.code import memory_operand
from ido_tools.fault import BadInput
from ido_tools.limits import LINE_BYTES, LOG_LINES, MOST_EVENTS, MOST_STEPS_TO, VARIABLE_LINES
from ido_tools.logs import MOST_LISTED, PENDING_REGISTERS, REGISTERS, WORD_BYTES
from ido_tools.source import VARIABLES_FROM

LOGS_FROM = 0x2000_0000
LINE_WORDS = LINE_BYTES // WORD_BYTES
MOST_QUEUED = 16
ALL_BITS = (1 << 64) - 1

# What a step is replied, as docs/formats.md has it, and with what it was done: an instruction's position among the words of its thread.
MOVED, DRAINED, WAITS, BARRIER, STILL = "moved", "drained", "waits", "barrier", "still"
Step = collections.namedtuple("Step", "reply at")
STOPPED = ("done", "ended")


class Stuck(BadInput):
    """A hart can't go on: compiled code never comes to this."""


def signed(number, bits=64):
    """The number that these bits are, in two's complement."""
    number &= (1 << bits) - 1
    return number - (number >> (bits - 1) << bits)


def quotient(a, b, bits):
    """A signed quotient, rounded to zero; that by 0 is -1."""
    a, b = signed(a, bits), signed(b, bits)
    return -1 if b == 0 else abs(a) // abs(b) * (1 if (a < 0) == (b < 0) else -1)


def remainder(a, b, bits):
    """What a signed quotient leaves; that by 0 leaves all."""
    a, b = signed(a, bits), signed(b, bits)
    return a if b == 0 else abs(a) % abs(b) * (-1 if a < 0 else 1)


def low(number):
    """The lowest 32 bits."""
    return number & 0xFFFF_FFFF


OPERATIONS = {
    "add": lambda a, b: a + b,
    "sub": lambda a, b: a - b,
    "sll": lambda a, b: a << (b & 63),
    "slt": lambda a, b: int(signed(a) < signed(b)),
    "sltu": lambda a, b: int(a < b),
    "xor": lambda a, b: a ^ b,
    "srl": lambda a, b: a >> (b & 63),
    "sra": lambda a, b: signed(a) >> (b & 63),
    "or": lambda a, b: a | b,
    "and": lambda a, b: a & b,
    "mul": lambda a, b: a * b,
    "mulh": lambda a, b: signed(a) * signed(b) >> 64,
    "mulhsu": lambda a, b: signed(a) * b >> 64,
    "mulhu": lambda a, b: a * b >> 64,
    "div": lambda a, b: quotient(a, b, 64),
    "divu": lambda a, b: a // b if b else ALL_BITS,
    "rem": lambda a, b: remainder(a, b, 64),
    "remu": lambda a, b: a % b if b else a,
    "addw": lambda a, b: signed(a + b, 32),
    "subw": lambda a, b: signed(a - b, 32),
    "sllw": lambda a, b: signed(a << (b & 31), 32),
    "srlw": lambda a, b: signed(low(a) >> (b & 31), 32),
    "sraw": lambda a, b: signed(a, 32) >> (b & 31),
    "mulw": lambda a, b: signed(a * b, 32),
    "divw": lambda a, b: signed(quotient(a, b, 32), 32),
    "divuw": lambda a, b: signed(low(a) // low(b) if low(b) else ALL_BITS, 32),
    "remw": lambda a, b: signed(remainder(a, b, 32), 32),
    "remuw": lambda a, b: signed(low(a) % low(b) if low(b) else a, 32),
}
# Those with a number in place of the second register.
WITH_NUMBERS = {
    **{f"{it}i": OPERATIONS[it] for it in ("add", "slt", "xor", "or", "and", "sll", "srl", "sra")},
    **{f"{it[:-1]}iw": OPERATIONS[it] for it in ("addw", "sllw", "srlw", "sraw")},
    "sltiu": OPERATIONS["sltu"],
}
CONDITIONS = {
    "beq": lambda a, b: a == b,
    "bne": lambda a, b: a != b,
    "blt": lambda a, b: signed(a) < signed(b),
    "bge": lambda a, b: signed(a) >= signed(b),
    "bltu": lambda a, b: a < b,
    "bgeu": lambda a, b: a >= b,
}
LOADS = {"lb": (1, True), "lh": (2, True), "lw": (4, True), "ld": (8, False), "lbu": (1, False), "lhu": (2, False), "lwu": (4, False)}
STORES = {"sb": 1, "sh": 2, "sw": 4, "sd": 8}


def register(text):
    """The number of a register."""
    return int(text[1:])


def number_of(text):
    """A number of the listing, decimal or hexadecimal."""
    return int(text, 0)


class Hart:
    """What a hart has: registers, where it is, its phase, and the lines that it has cleaned and not written back."""

    def __init__(self, pc, phase):
        self.registers = [0] * REGISTERS
        self.pc = pc
        self.phase = phase
        self.queue = collections.deque()

    def set(self, number, value):
        """A register's new value; x0 stays 0."""
        if number:
            self.registers[number] = value & ALL_BITS


class Memory:
    """Words with a live and a durable value, and how often each was stored to before that value."""

    def __init__(self, initial, threads):
        count = LINE_WORDS * (VARIABLE_LINES + LOG_LINES * threads)
        padded = initial + bytes(-len(initial) % WORD_BYTES)
        self.live = [int.from_bytes(padded[it : it + WORD_BYTES], "little") for it in range(0, len(padded), WORD_BYTES)]
        self.live += [0] * (count - len(self.live))
        self.durable = list(self.live)
        self.version, self.kept = [0] * count, [0] * count

    @staticmethod
    def byte(address):
        """The number of the byte at an address, over all lines."""
        return address - VARIABLES_FROM if address < LOGS_FROM else LINE_BYTES * VARIABLE_LINES + address - LOGS_FROM

    def word(self, address):
        """The number of the word at an address."""
        return self.byte(address) // WORD_BYTES

    def load(self, address, count):
        """What so many bytes hold now."""
        byte = self.byte(address)
        return self.live[byte // WORD_BYTES] >> 8 * (byte % WORD_BYTES) & ((1 << 8 * count) - 1)

    def store(self, address, count, value):
        """Stores so many bytes."""
        byte = self.byte(address)
        number, shift, mask = byte // WORD_BYTES, 8 * (byte % WORD_BYTES), (1 << 8 * count) - 1
        self.live[number] = self.live[number] & ~(mask << shift) | (value & mask) << shift
        self.version[number] += 1

    def snapshot(self, line):
        """What a clean queues: the words of a line, with their versions."""
        return line, [(self.version[it], self.live[it]) for it in range(LINE_WORDS * line, LINE_WORDS * (line + 1))]

    def write_back(self, number, version, value):
        """Makes a word durable, where a later value isn't so already."""
        if version >= self.kept[number]:
            self.kept[number], self.durable[number] = version, value

    def drain(self, entry):
        """Writes a queued line back."""
        line, words = entry
        for at, (version, value) in enumerate(words):
            self.write_back(LINE_WORDS * line + at, version, value)

    def evict(self, line, mask):
        """Makes the words of a line durable that a mask chooses."""
        for at in range(LINE_WORDS):
            if mask >> at & 1:
                number = LINE_WORDS * line + at
                self.write_back(number, self.version[number], self.live[number])

    def crash(self):
        """Leaves what is durable."""
        self.live = list(self.durable)
        self.version, self.kept = [0] * len(self.live), [0] * len(self.live)


class Machine:
    """Harts that run the words of their threads, from an object's start."""

    def __init__(self, made, words):
        self.words = words
        self.logs = made.log
        self.starts = [it[0].address for it in words]
        self.memory = Memory(made.initial, len(words))
        self.holders = [None] * made.mutexes
        self.recovering = False
        self.harts = [Hart(it, "run") for it in self.starts]
        # The address of the last store.
        self.stored_at = None
        self.doing = [[self.meaning(it) for it in thread] for thread in words]

    # ---- What a word does

    def meaning(self, word):
        """What a word does to a hart, as a function that answers whether it is done."""
        name, operands = word.name, word.operands
        after = word.address + 4
        if name in OPERATIONS:
            return self.going(OPERATIONS[name], *map(register, operands), after)
        if name in WITH_NUMBERS:
            return self.going_by(WITH_NUMBERS[name], register(operands[0]), register(operands[1]), number_of(operands[2]) & ALL_BITS, after)
        if name in CONDITIONS:
            return self.branching(CONDITIONS[name], register(operands[0]), register(operands[1]), int(operands[2], 16), after)
        if name in LOADS:
            return self.loading(*LOADS[name], register(operands[0]), word, after)
        if name in STORES:
            return self.storing(STORES[name], register(operands[0]), word, after)
        return self.rare_meaning(word, name, operands, after)

    def rare_meaning(self, word, name, operands, after):
        """That of the words that no form has in common."""
        if name in ("lui", "auipc"):
            base = word.address if name == "auipc" else 0
            return self.giving(register(operands[0]), base + signed(number_of(operands[1]) << 12, 32), after)
        if name == "jal":
            return self.giving(register(operands[0]), after, int(operands[1], 16))
        if name == "cbo.clean":
            return self.cleaning(register(operands[0].strip("()")), after)
        if name == "fence":
            return self.fencing(after)
        if name == "ecall":
            return self.calling(after)
        if name == "jalr":
            return self.returning(register(operands[0]), *self.based(word), after)
        raise BadInput(f"no instruction that is known: {name}")

    @staticmethod
    def based(word):
        """The register and the offset of an operand as `8(x30)`."""
        offset, base = memory_operand(word)
        return register(base), offset

    @staticmethod
    def going(operation, target, first, second, after):
        def go(hart):
            hart.set(target, operation(hart.registers[first], hart.registers[second]))
            hart.pc = after
            return True

        return go

    @staticmethod
    def going_by(operation, target, first, number, after):
        def go(hart):
            hart.set(target, operation(hart.registers[first], number))
            hart.pc = after
            return True

        return go

    @staticmethod
    def giving(target, value, to):
        def go(hart):
            hart.set(target, value)
            hart.pc = to
            return True

        return go

    @staticmethod
    def returning(target, base, offset, after):
        def go(hart):
            to = (hart.registers[base] + offset) & ALL_BITS & ~1
            hart.set(target, after)
            hart.pc = to
            return True

        return go

    @staticmethod
    def branching(condition, first, second, to, after):
        def go(hart):
            hart.pc = to if condition(hart.registers[first], hart.registers[second]) else after
            return True

        return go

    def loading(self, count, is_signed, target, word, after):
        base, offset = self.based(word)

        def go(hart):
            value = self.memory.load(hart.registers[base] + offset & ALL_BITS, count)
            hart.set(target, signed(value, 8 * count) if is_signed else value)
            hart.pc = after
            return True

        return go

    def storing(self, count, value, word, after):
        base, offset = self.based(word)

        def go(hart):
            self.stored_at = hart.registers[base] + offset & ALL_BITS
            self.memory.store(self.stored_at, count, hart.registers[value])
            hart.pc = after
            return True

        return go

    def drains(self, hart):
        """Writes the oldest line back."""
        self.memory.drain(hart.queue.popleft())
        return False

    def cleaning(self, base, after):
        def go(hart):
            if len(hart.queue) >= MOST_QUEUED:
                return self.drains(hart)
            hart.queue.append(self.memory.snapshot(self.memory.byte(hart.registers[base]) // LINE_BYTES))
            hart.pc = after
            return True

        return go

    def fencing(self, after):
        def go(hart):
            if hart.queue:
                return self.drains(hart)
            hart.pc = after
            return True

        return go

    def calling(self, after):
        """A call: the answer is None where the hart has to wait."""

        def go(hart):
            number, lock, own = hart.registers[17], hart.registers[10], self.harts.index(hart)
            if number == 1 and self.holders[lock] is not None:
                return None
            if number == 1:
                self.holders[lock] = own
            elif number == 2 and self.holders[lock] == own:
                self.holders[lock] = None
            elif number == 3 and own not in self.holders:
                hart.phase = "ended"
            else:
                raise Stuck(f"hart {own} is stuck at a call {number} of lock {lock}")
            hart.pc = after
            return True

        return go

    # ---- Steps

    def step(self, number):
        """A step of a hart."""
        hart = self.harts[number]
        if hart.phase == "run":
            return self.run(number, hart)
        if hart.phase in STOPPED:
            return Step(STILL, None)
        return Step(self.recover(number, hart), None)

    def run(self, number, hart):
        """A step of a hart that executes instructions."""
        at = hart.pc - self.starts[number] >> 2
        did = self.doing[number][at](hart)
        if did is None:
            return Step(WAITS, None)
        if did and self.recovering and self.is_released(number, at):
            hart.phase = "done"
        return Step(MOVED if did else DRAINED, at)

    def is_released(self, number, at):
        """Whether the word that a hart has executed gave back its last lock."""
        return self.words[number][at].name == "ecall" and self.harts[number].registers[17] == 2 and number not in self.holders

    def recover(self, number, hart):
        """A step of a hart's recovery."""
        if hart.phase == "take":
            missing = [it for it in self.recorded(number) if self.holders[it] != number]
            if not missing:
                hart.phase = "wait"
            elif self.holders[min(missing)] is not None:
                return WAITS
            else:
                self.holders[min(missing)] = number
        elif hart.phase == "wait":
            if any(it.phase == "take" for it in self.harts):
                return BARRIER
            hart.phase = "resume"
        else:
            hart.registers = self.resumed(number, self.point(number) & 1)
            hart.pc, hart.phase = self.point(number) & ~1, "run"
        return MOVED

    # ---- Logs

    def log(self, number):
        """The number of the first word of a thread's log."""
        return LINE_WORDS * (VARIABLE_LINES + LOG_LINES * number)

    def point(self, number):
        """A thread's durable point."""
        return self.memory.durable[self.log(number)]

    def slot(self, number, bank, slot):
        """A slot of a bank, as it is durable."""
        return self.memory.durable[self.log(number) + self.logs.banks[bank] // WORD_BYTES + slot]

    def resumed(self, number, bank):
        """The registers that a thread is resumed with: where locals stand in the frame, these are those of the write that comes first."""
        registers = [0] * REGISTERS
        if self.logs.frame is None:
            registers = [self.slot(number, bank, it) for it in range(REGISTERS)]
            registers[0] = 0
        else:
            for register_number, it in zip(PENDING_REGISTERS, self.logs.pending):
                registers[register_number] = self.slot(number, bank, it)
        registers[3] = bank * (self.logs.banks[1] - self.logs.banks[0])
        return registers

    def recorded(self, number):
        """The locks that a thread's durable record has."""
        bank = self.point(number) & 1
        count = min(self.slot(number, bank, 0), MOST_LISTED) if self.point(number) else 0
        return [self.slot(number, bank, self.logs.listed + it) for it in range(count)]

    # ---- Other events

    def crash(self):
        """Power is lost."""
        self.memory.crash()
        self.holders = [None] * len(self.holders)
        self.recovering = True
        self.harts = [Hart(start, "take" if self.point(number) else "done") for number, start in enumerate(self.starts)]

    def is_settled(self, number):
        """Whether a hart holds nothing and has no point, live or durable."""
        return number not in self.holders and not self.point(number) and not self.memory.live[self.log(number)]

    def can_start(self):
        """Whether another life may begin."""
        return all(it.phase in STOPPED for it in self.harts) and all(map(self.is_settled, range(len(self.harts))))

    def start(self):
        """Another life begins."""
        self.recovering = False
        for hart, start in zip(self.harts, self.starts):
            hart.registers, hart.pc, hart.phase = [0] * REGISTERS, start, "run"

    def is_idle(self, number):
        """Whether the next step of a hart would wait, or find that it has stopped."""
        hart = self.harts[number]
        if hart.phase == "run":
            word = self.words[number][hart.pc - self.starts[number] >> 2]
            return word.name == "ecall" and hart.registers[17] == 1 and self.holders[hart.registers[10]] is not None
        if hart.phase == "take":
            return any(self.holders[it] not in (None, number) for it in self.recorded(number))
        return hart.phase in STOPPED or (hart.phase == "wait" and any(it.phase == "take" for it in self.harts))


class Script:
    """A script that a machine is stepped by. Who counts hears of each step (hart and what it did), of each crash before it comes, and of starts."""

    def __init__(self, machine, stepped, crashing, started):
        self.machine = machine
        self.stepped, self.crashing, self.started = stepped, crashing, started
        self.events = 0

    def one(self, number):
        """One step of a hart."""
        self.events += 1
        if self.events > MOST_EVENTS:
            raise BadInput(f"the script makes more than {MOST_EVENTS:,} events")
        did = self.machine.step(number)
        self.stepped(number, did)
        return did

    def until(self, number, is_last):
        """Steps of a hart up to one of a kind."""
        for _ in range(MOST_STEPS_TO):
            if self.machine.harts[number].phase in STOPPED or is_last(self.one(number)):
                return

    def is_point(self, number, did):
        """Whether a step has stored a hart's point."""
        return self.is_of(number, did, "sd") and self.machine.stored_at == LOGS_FROM + LINE_BYTES * LOG_LINES * number

    def is_of(self, number, did, name):
        """Whether a step has executed an instruction of this name."""
        return did.reply == MOVED and did.at is not None and self.machine.words[number][did.at].name == name

    def enabled(self, count):
        """So many steps, each of the least hart that neither waits nor has stopped."""
        for _ in range(count):
            able = next((it for it in range(len(self.machine.harts)) if not self.machine.is_idle(it)), None)
            if able is None:
                return
            self.one(able)

    def line(self, line):
        """The events of a line."""
        hart = line.first
        if line.letter == "s":
            for _ in range(line.second):
                self.one(hart)
        elif line.letter == "b":
            self.until(hart, lambda did: self.is_point(hart, did))
        elif line.letter == "f":
            self.until(hart, lambda did: self.is_of(hart, did, "fence"))
        elif line.letter == "g":
            self.enabled(line.first)
        elif line.letter == "e":
            self.machine.memory.evict(line.first, line.second)
        elif line.letter == "c":
            self.crashing()
            self.machine.crash()
        elif line.letter == "r":
            self.machine.start()
            self.started()

    def play(self, lines):
        """All lines."""
        for it in lines:
            self.line(it)
