"""A saved state: see ../FORMAT.md."""
import struct

KIND, PARENT, PREV, NEXT, FIRST, LAST, TIE, SPACE, NAME, MARK, START, COUNT, PIECE, END = range(14)
DOCUMENT, ELEMENT, TEXT, COMMENT, CONTENTS = 1, 2, 3, 4, 5
MARKER = 65535
STACK = 512
LARGEST = (4096, 256, 64, 8192, 4096)


class Saved:
    """Capacities (room) and counts (used) are of nodes, list, modes, pieces, pairs. nodes[0] is node 1."""
    __slots__ = ("room", "used", "depth", "foster", "head", "context", "stack", "nodes", "list", "modes", "pieces", "pairs")

    def held(self, i):
        return min(self.used[i], self.room[i])

    def words(self):
        out = [*self.room, *self.used, self.depth, self.foster, self.head]
        out += (1, *self.context) if self.context is not None else (0, 0, 0, 0)
        out += self.stack
        for node in self.nodes:
            out += node
        out += self.list
        out += self.modes
        for piece in self.pieces:
            out += piece
        for pair in self.pairs:
            out += pair
        return out

    def pack(self):
        words = self.words()
        return struct.pack("<%dH" % len(words), *words)


def read(data):
    """The state at the start of data, and where it ends; an error where the words end too early."""
    s = Saved()
    head = struct.unpack_from("<17H", data, 0)
    s.room, s.used = head[0:5], head[5:10]
    s.depth, s.foster, s.head = head[10:13]
    s.context = tuple(head[14:17]) if head[13] else None
    depth = min(s.depth, STACK)
    sizes = (depth, 14 * s.held(0), s.held(1), s.held(2), 2 * s.held(3), 2 * s.held(4))
    words = struct.unpack_from("<%dH" % sum(sizes), data, 34)
    parts, at = [], 0
    for size in sizes:
        parts.append(words[at:at + size])
        at += size
    s.stack, s.list, s.modes = list(parts[0]), list(parts[2]), list(parts[3])
    s.nodes = [list(parts[1][i:i + 14]) for i in range(0, sizes[1], 14)]
    s.pieces = [list(parts[4][i:i + 2]) for i in range(0, sizes[4], 2)]
    s.pairs = [list(parts[5][i:i + 2]) for i in range(0, sizes[5], 2)]
    return s, 34 + 2 * at


def size_of(data):
    """How many bytes the state at the start of data has, by its counts."""
    head = struct.unpack_from("<11H", data)
    nodes, entries, modes, pieces, pairs = (min(room, used) for room, used in zip(head[:5], head[5:10]))
    return 34 + 2 * (min(head[10], STACK) + 14 * nodes + entries + modes + 2 * pieces + 2 * pairs)


def empty(room=LARGEST):
    """What a caller lends before its first begin: nothing is used, which isn't sound."""
    s = Saved()
    s.room, s.used = tuple(room), (0, 0, 0, 0, 0)
    s.depth = s.foster = s.head = 0
    s.context = None
    s.stack, s.nodes, s.list, s.modes, s.pieces, s.pairs = [], [], [], [], [], []
    return s
