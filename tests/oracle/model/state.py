"""The state as the standard speaks of it: a tree with lists of children, a stack, a list. Module 2's operations are those of lists."""
from .names import HTML, PAPER, TEMPLATE
from .saved import (COMMENT, CONTENTS, COUNT, ELEMENT, END, FIRST, KIND, LAST, MARKER, NAME, NEXT, PARENT, PIECE,
                    PREV, SPACE, STACK, TEXT, TIE, Saved)


class Refused(Exception):
    """A call is refused with this number. Raised before anything is changed."""

    def __init__(self, answer):
        self.answer = answer


class Node:
    __slots__ = ("number", "kind", "parent", "children", "tie", "space", "name", "mark", "start", "count", "pieces", "comment")

    def __init__(self, number, kind):
        self.number, self.kind = number, kind
        self.parent = self.tie = None
        self.children, self.pieces = [], []
        self.space = self.name = self.mark = self.start = self.count = self.comment = 0

    @property
    def tag(self):
        return (self.space, self.name)


class State:
    # Where an element without attributes starts its span: at the pairs used when it is made, or at 0.
    empty_start_zero = False

    def __init__(self, room, rules=PAPER):
        self.room, self.rules = tuple(room), rules
        self.nodes = []             # nodes[0] is node 1
        self.stack = []             # open elements, the root first, the current node last
        self.list = []              # active formatting elements, and None for a marker
        self.modes = []
        self.texts = []             # the text number of piece 1, 2 ..
        self.pairs = []             # (name, text number)
        self.foster = self.head = 0
        self.context = None

    # ---- what is left
    def free_nodes(self):
        return self.room[0] - len(self.nodes)

    def free_pieces(self):
        return self.room[3] - len(self.texts)

    def free_pairs(self):
        return self.room[4] - len(self.pairs)

    def free_places(self):
        return STACK - len(self.stack)

    def need(self, nodes=0, places=0, pieces=0, pairs=0):
        """Refuse with the lowest number that applies; what isn't needed is never lacking."""
        if nodes > self.free_nodes():
            raise Refused(4)
        if places > self.free_places():
            raise Refused(5)
        if pieces > self.free_pieces():
            raise Refused(7)
        if pairs > self.free_pairs():
            raise Refused(8)

    # ---- new nodes
    def new_node(self, kind):
        node = Node(len(self.nodes) + 1, kind)
        self.nodes.append(node)
        return node

    def new_element(self, space, name, mark=0, pairs=()):
        node = self.new_node(ELEMENT)
        node.space, node.name, node.mark = space, name, mark
        node.start, node.count = len(self.pairs), len(pairs)
        if not pairs and self.empty_start_zero:
            node.start = 0
        self.pairs.extend(pairs)
        if node.tag == TEMPLATE:
            node.tie = self.new_node(CONTENTS)
            node.tie.tie = node
        return node

    def new_copy(self, entry):
        """An element for the token for which entry was created: it shares the stored attributes."""
        node = self.new_node(ELEMENT)
        node.space, node.name = HTML, entry.name
        node.start, node.count = entry.start, entry.count
        return node

    def new_text(self, number):
        node = self.new_node(TEXT)
        self.add_piece(node, number)
        return node

    def add_piece(self, node, number):
        self.texts.append(number)
        node.pieces.append(len(self.texts))

    def new_comment(self, number):
        node = self.new_node(COMMENT)
        node.comment = number
        return node

    def attributes(self, node):
        return self.pairs[node.start:node.start + node.count]

    # ---- from and to a saved state
    @classmethod
    def load(cls, s, rules=PAPER):
        """The state of a sound saved state."""
        st = cls(s.room, rules)
        st.nodes = nodes = [Node(i + 1, f[KIND]) for i, f in enumerate(s.nodes)]
        for node, f in zip(nodes, s.nodes):
            if f[PARENT]:
                node.parent = nodes[f[PARENT] - 1]
            if f[TIE]:
                node.tie = nodes[f[TIE] - 1]
            c = f[FIRST]
            while c:
                node.children.append(nodes[c - 1])
                c = s.nodes[c - 1][NEXT]
            if node.kind == ELEMENT:
                node.space, node.name, node.mark, node.start, node.count = f[SPACE:COUNT + 1]
            elif node.kind == COMMENT:
                node.comment = f[NAME]
            elif node.kind == TEXT:
                i = f[PIECE]
                while i:
                    node.pieces.append(i)
                    i = s.pieces[i - 1][1]
        st.stack = [nodes[n - 1] for n in s.stack]
        st.list = [None if e == MARKER else nodes[e - 1] for e in s.list]
        st.modes = list(s.modes)
        st.texts = [p[0] for p in s.pieces]
        st.pairs = [tuple(p) for p in s.pairs]
        st.foster, st.head, st.context = s.foster, s.head, s.context
        return st

    def save(self):
        s = Saved()
        s.room = self.room
        s.used = (len(self.nodes), len(self.list), len(self.modes), len(self.texts), len(self.pairs))
        s.depth, s.foster, s.head, s.context = len(self.stack), self.foster, self.head, self.context
        s.stack = [n.number for n in self.stack]
        s.list = [MARKER if e is None else e.number for e in self.list]
        s.modes = list(self.modes)
        nexts = [0] * len(self.texts)
        s.nodes = fields = []
        for n in self.nodes:
            f = [n.kind, 0, 0, 0, 0, 0, 0, n.space, n.name, n.mark, n.start, n.count, 0, 0]
            if n.parent is not None:
                f[PARENT] = n.parent.number
            if n.tie is not None:
                f[TIE] = n.tie.number
            if n.kind == COMMENT:
                f[NAME] = n.comment
            elif n.kind == TEXT:
                p = n.pieces
                f[PIECE], f[END] = p[0], p[-1]
                for i, j in zip(p, p[1:]):
                    nexts[i - 1] = j
            fields.append(f)
        for n in self.nodes:
            kids = n.children
            if kids:
                fields[n.number - 1][FIRST], fields[n.number - 1][LAST] = kids[0].number, kids[-1].number
                for a, b in zip(kids, kids[1:]):
                    fields[a.number - 1][NEXT], fields[b.number - 1][PREV] = b.number, a.number
        s.pieces = list(zip(self.texts, nexts))
        s.pairs = list(self.pairs)
        return s


# ---- module 2: append, insert before, detach, move all children

def detach(node):
    if node.parent is not None:
        node.parent.children.remove(node)
        node.parent = None


def append(parent, node):
    """As the last child; a node that has a parent leaves it first."""
    detach(node)
    parent.children.append(node)
    node.parent = parent


def insert_before(sibling, node):
    detach(node)
    parent = sibling.parent
    parent.children.insert(parent.children.index(sibling), node)
    node.parent = parent


def move_children(old, new):
    for child in list(old.children):
        append(new, child)

