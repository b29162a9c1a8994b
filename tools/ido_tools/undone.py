"""What a crash would undo: of each thread the steps of the source that have begun and aren't kept.

The program tells which steps are kept, and not which have begun: so the object is stepped here. Where the program tells another number of kept steps, that is
a fault."""

from ido_tools.fault import BadInput
from ido_tools.files import parse_image, parse_object, point_of
from ido_tools.limits import LINE_BYTES, LOG_LINES
from ido_tools.machine import LOGS_FROM, MOVED, Machine, Script

# So many steps of a thread are shown at most.
MOST_SHOWN = 100


def marks_of(code):
    """By the position of the word that begins a piece's step the piece: of a lock that is its call, of any other what comes after a boundary before it."""
    found = {}
    for number, piece in enumerate(code.pieces):
        kind = code.nodes[piece.first].kind
        if kind == "lock":
            at = next(it for it in range(piece.start, piece.end) if code.words[it].name == "ecall")
        else:
            at = piece.boundary.end if piece.boundary and kind != "unlock" else piece.start
        found[at] = number
    return found


class Begun:
    """The steps that have begun since the last crash or start, as the pieces of code that make them."""

    def __init__(self, compiled, lines):
        self.machine = Machine(parse_object(compiled.content), [it.words for it in compiled.threads])
        self.marks = [marks_of(it) for it in compiled.threads]
        self.begin()
        Script(self.machine, self.stepped, self.begin, self.begin).play(lines)

    def begin(self):
        """Power is lost, or another life begins: no step has begun that may be undone."""
        self.pieces = [[] for _ in self.marks]
        # Of each store of the thread's point how often the point was stored to, and how many steps had begun.
        self.points = [[] for _ in self.marks]

    def stepped(self, hart, did):
        """A step was made."""
        if did.reply != MOVED or did.at is None:
            return
        piece = self.marks[hart].get(did.at)
        if piece is not None:
            self.pieces[hart].append(piece)
        is_store = self.machine.words[hart][did.at].name == "sd"
        if is_store and self.machine.stored_at == LOGS_FROM + LINE_BYTES * LOG_LINES * hart:
            self.points[hart].append((self.machine.memory.version[self.machine.log(hart)], len(self.pieces[hart])))

    def kept(self, hart):
        """How many of a thread's steps are kept: those that had begun when its durable point was stored."""
        durable = self.machine.memory.kept[self.machine.log(hart)]
        return max((count for version, count in self.points[hart] if version <= durable), default=0)


def told_kept(program, steps, threads, event):
    """The image that a crash after so many events leaves, and how many steps of each thread the last life has kept, as the program tells them."""
    image = parse_image(program.ask_well(["image"], steps.input(steps.beginning(event))), threads)
    last = image.lives[-1] if image.lives else []
    return image, [sum(count for owner, count in last if owner == hart) for hart in range(threads)]


def piece_text(compiled, hart, number):
    """The step that a piece of code makes, in the source's lines."""
    piece = compiled.threads[hart].pieces[number]
    node = compiled.nodes[hart][piece.first]
    more = piece.last - piece.first
    others = f", and perhaps {more} more that can't be told apart" if more else ""
    return f"{compiled.source.place_text(node.place)}, {node.kind}: {compiled.source.excerpt(node)}{others}"


def undone_lines(program, compiled, steps, event):
    """What a crash after so many events would undo, line by line."""
    threads = compiled.source.threads
    image, kept = told_kept(program, steps, len(threads), event)
    since = max((it + 1 for it in steps.stops() if it < event), default=0)
    before = told_kept(program, steps, len(threads), since)[1]
    begun = Begun(compiled, steps.beginning(event))
    for hart, thread in enumerate(threads):
        pieces = begun.pieces[hart]
        is_exact = all(it.first == it.last for it in compiled.threads[hart].pieces)
        if is_exact and begun.kept(hart) != kept[hart] - before[hart]:
            raise BadInput(f"the program keeps {kept[hart] - before[hart]} steps of thread {hart}, and not {begun.kept(hart)}")
        undone = pieces[begun.kept(hart) :]
        address, _ = point_of(image.logs[hart])
        where = f"is resumed at {compiled.where(hart, address).split(',')[0]}" if address else "isn't resumed"
        yield f"{thread.name}: {len(undone) or 'no'} step{'' if len(undone) == 1 else 's'}, and it {where}"
        for it in undone[:MOST_SHOWN]:
            yield f"  {piece_text(compiled, hart, it)}"
        if len(undone) > MOST_SHOWN:
            yield f"  .. ({len(undone) - MOST_SHOWN} more)"
