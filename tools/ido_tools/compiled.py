"""A source beside its nodes and its code, as the program tells them."""

from ido_tools.code import LOCALS, NoLayout, ThreadCode, parse_listing, parse_regions, result_of
from ido_tools.fault import BadInput
from ido_tools.files import parse_object
from ido_tools.source import Source


class Compiled:
    """A source, its nodes, and the code of its threads."""

    def __init__(self, program, text):
        regions = parse_regions(program.ask_well(["regions"], text))
        self.content = program.ask_well(["compile"], text)
        self.log = parse_object(self.content).log
        listing = parse_listing(program.ask_well(["list"], self.content))
        self.source = Source(text)
        # Boundaries are chosen where locals stand in registers alone.
        self.told = [[it._replace(is_cut=it.is_cut and self.log.frame is None) for it in nodes] for _, nodes in regions]
        self.nodes = [self.matching(number, nodes) for number, nodes in enumerate(self.told)]
        self.threads = [self.code_of(number, words) for number, words in enumerate(listing)]

    def matching(self, number, told):
        """The nodes of a thread as they are read of the source, which must be those that the program tells."""
        nodes = self.source.nodes(self.source.threads[number])
        read = [(it.kind, self.source.place(it.place)) for it in nodes]
        if read != [(it.kind, it.place) for it in told]:
            raise BadInput(f"thread {number} has other nodes than are read of its source")
        return nodes

    def code_of(self, number, words):
        """The words of a thread, given to its nodes."""
        try:
            return ThreadCode(words, self.told[number], self.log)
        except NoLayout as error:
            raise BadInput(f"the words of thread {number} can't be given to its nodes: {error}") from error

    def locals_at(self, number, boundary):
        """The locals that stand in registers, or in the frame, at a boundary of a thread, by the numbers of the registers or words; one that can't be told is
        left out."""
        code = self.threads[number]
        at = next(it for it, piece in enumerate(code.pieces) if piece.boundary is boundary)
        given = [self.given_by(number, it) for it in code.pieces]
        before = [None] * len(code.pieces)
        before[0], waiting = {}, [0]
        while waiting:
            piece = waiting.pop()
            after = {**before[piece], **given[piece]}
            for it in code.next_pieces(piece):
                old = before[it]
                met = after if old is None else {key: old.get(key, frozenset()) | after.get(key, frozenset()) for key in old.keys() | after.keys()}
                if met != old:
                    before[it] = met
                    waiting.append(it)
        return {register: next(iter(it)) for register, it in (before[at] or {}).items() if len(it) == 1}

    def assigned_after(self, number, boundary):
        """The local in the frame whose assignment a boundary of a thread stands in, or None."""
        code = self.threads[number]
        piece = next(it for it in code.pieces if it.boundary is boundary)
        return None if code.frame_word(piece) is None else self.nodes[number][piece.first].local

    def given_by(self, number, piece):
        """Which locals may stand in registers, or in the frame's word, to which a piece has given numbers."""
        code = self.threads[number]
        if code.frame_word(piece) is not None:
            return {code.frame_word(piece): frozenset([self.nodes[number][piece.first].local])}
        written = [int(it[1:]) for it in map(result_of, code.words[piece.start : piece.end]) if it in LOCALS]
        named = [it.local for it in self.nodes[number][piece.first : piece.last + 1] if it.local is not None]
        apart = [it for at, it in enumerate(written) if at == 0 or it != written[at - 1]]
        if len(named) == len(apart):
            return {register: frozenset([local]) for register, local in zip(apart, named)}
        return {register: frozenset(named) if len(set(named)) == 1 else frozenset([*named, None]) for register in written}

    def where(self, number, address):
        """The place of the source that an address of a thread's code belongs to."""
        code = self.threads[number]
        at = code.by_address.get(address)
        goal = None if at is None else code.goal(at)
        nodes = None if goal is None else code.node_at(goal)
        if nodes is None:
            return "no place of its code"
        node = self.nodes[number][nodes[0]]
        is_first = nodes[0] == nodes[1] or code.begins_piece(goal)
        about = "" if is_first else " or a little after it"
        return f"{self.source.place_text(node.place)}{about}, {node.kind}: {self.source.excerpt(node)}"


def compile_source(program, text):
    """The source beside its code, where the program accepts it; else its refusal is a fault of the input."""
    return Compiled(program, text)
