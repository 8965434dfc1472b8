"""Random sound states, reached by records or not, with a request that means something to them."""
import struct

from model import saved
from model.names import FORMATTING_NAMES, HTML, NUMBER, TEMPLATE
from model.saved import (COMMENT, CONTENTS, COUNT, DOCUMENT, ELEMENT, END, FIRST, KIND, LARGEST, LAST, MARK, MARKER, NAME, NEXT, PARENT, PIECE,
                         PREV, SPACE, STACK, START, TEXT, TIE)
from model.serve import BEGIN, BODY, FOREIGN, RESET, RUN, SINGLE, TOKENIZER

from .records import (ANNOTATION_XML, ATTRIBUTES, B, BLOCKS, DIFFERENT, DIV, FEW_FORMATTING, FORMATTING, HTML_NAME, P, PLAIN, TABLES,
                      Choice, names, record)
from .streams import begin_request, stream_record, wrong_record


class Made:
    """A node of a random state, before it has a number."""

    def __init__(self, kind):
        self.kind, self.parent, self.children, self.tie = kind, None, [], None
        self.space = self.name = self.mark = self.start = self.count = 0
        self.pieces, self.number = [], 0

    def up(self):
        return self.tie if self.kind == CONTENTS else self.parent

    def ancestors(self):
        node = self.up()
        while node is not None:
            yield node
            node = node.up()


def element(c, space, name):
    node = Made(ELEMENT)
    node.space, node.name, node.mark = space, name, c.mark(space, name)
    return node


def state_nodes(c, size):
    """A document and a root, and size other nodes put anywhere below what is there, or nowhere."""
    document, root = Made(DOCUMENT), element(c, HTML, HTML_NAME)
    document.children.append(root)
    root.parent = document
    rest, places = [], [root, root]
    tables, paragraphs, inline = c.chance(0.3), c.chance(0.2), c.chance(0.25)
    while len(rest) < size:
        what = c.weighted({"element": 80, "text": 10, "comment": 4, "template": 8})
        new = []
        if what == "text":
            node = Made(TEXT)
        elif what == "comment":
            node = Made(COMMENT)
            node.name = c.below(300)
        elif what == "template":
            node = element(c, *TEMPLATE)
            node.tie = Made(CONTENTS)
            node.tie.tie = node
            new = [node.tie, node]
            rest.append(node.tie)
        else:
            space, name = c.tag()
            if tables and c.chance(0.4):
                space, name = HTML, c.pick(TABLES[:4])
            elif inline and c.chance(0.8):
                space, name = HTML, c.pick(FORMATTING + PLAIN + PLAIN)
            elif paragraphs and c.chance(0.5):
                space, name = c.pick(DIFFERENT + [(HTML, P)] * 12)
            elif c.chance(0.4):
                space, name = HTML, c.pick(FEW_FORMATTING)
            node = element(c, space, name)
            if (space, name) == TEMPLATE:
                node.tie = Made(CONTENTS)
                node.tie.tie = node
                new = [node.tie]
                rest.append(node.tie)
            new.append(node)
        rest.append(node)
        if c.chance(0.85):
            parent = places[-1] if c.chance(0.9 if inline else 0.6) else c.pick(places)
            if node.kind in (TEXT, COMMENT) and c.chance(0.1):
                parent = document
            node.parent = parent
            parent.children.insert(len(parent.children) if c.chance(0.7) else c.below(len(parent.children) + 1), node)
        places += new
    return document, root, rest


def open_table(c):
    """A table to be opened last, without a parent, or right under a template element or in its contents; perhaps a row."""
    template, table = element(c, *TEMPLATE), element(c, HTML, NUMBER["table"])
    template.tie = Made(CONTENTS)
    template.tie.tie = template
    under = c.pick([None, template, template.tie])
    if under is not None:
        table.parent = under
        under.children.append(table)
    opened = [template, table]
    if c.chance(0.5):
        row = element(c, HTML, NUMBER["tr"])
        row.parent = table
        table.children.append(row)
        opened.append(row)
    return opened


def state_stack(c, root, elements, most):
    """The root, and others so that none is an ancestor of an earlier one."""
    wanted = c.rng.sample(elements, min(len(elements), c.below(most + 1)))
    if c.chance(0.5) and elements:          # the way to one element, as a builder would have it
        node = c.pick(elements)
        wanted += [n for n in [node, *node.ancestors()] if n.kind == ELEMENT and n is not root and n not in wanted]
    stack, left = [root], wanted
    while left:
        now = set(map(id, left))
        ready = [n for n in left if not any(id(a) in now for a in n.ancestors())]
        node = ready[0] if c.chance(0.4) else c.pick(ready)
        left.remove(node)
        stack.append(node)
    return stack


def state_list(c, elements, stack):
    found = [n for n in elements if n.space == HTML and n.name in FORMATTING_NAMES and c.chance(0.75)]
    if c.chance(0.5):
        found.sort(key=lambda n: stack.index(n) if n in stack else c.below(len(stack) + 1))
    else:
        c.rng.shuffle(found)
    out = []
    for n in found:
        if c.chance(0.1):
            out.append(None)
        out.append(n)
    if c.chance(0.06):
        out.append(None)
    return out


def state_pairs(c, elements):
    """Spans, often shared or overlapping; some pairs that no element has."""
    pairs = []
    for n in elements:
        how = c.weighted({"none": 60, "own": 25, "shared": 15})
        if how == "own":
            new = c.pairs(1.0)
            n.start, n.count = len(pairs), len(new)
            pairs += new
        elif how == "shared" and pairs:
            n.start = c.below(len(pairs))
            n.count = c.below(min(16, len(pairs) - n.start) + 1)
            while len({p[0] for p in pairs[n.start:n.start + n.count]}) < n.count:
                n.count -= 1
        else:
            n.start = c.below(len(pairs) + 1)
        if c.chance(0.03):
            pairs.append((c.pick(ATTRIBUTES), 7))
    return pairs


def over(c, used, most, steps):
    return min(most, used + c.pick(steps))


def sound_state(rng, size=None):
    c = Choice(rng)
    if size is None:
        size = c.weighted({c.below(5): 20, 3 + c.below(10): 60, 8 + c.below(20): 18, 40: 2})
    document, root, rest = state_nodes(c, size)
    last = open_table(c) if c.chance(0.06) else []
    rest += [n for node in last for n in (node, node.tie) if n is not None]
    if c.chance(0.6):
        c.rng.shuffle(rest)
    all_nodes = [document, root] + rest
    for i, node in enumerate(all_nodes):
        node.number = i + 1
    elements = [n for n in rest if n.kind == ELEMENT]
    stack = state_stack(c, root, [n for n in elements if n not in last], 8) + last
    entries = state_list(c, elements, stack)
    pairs = state_pairs(c, elements)
    texts = [n for n in rest if n.kind == TEXT]
    pieces = list(range(1, 1 + sum(1 + c.below(3) for _ in texts)))     # at least one for each text node
    c.rng.shuffle(pieces)
    for i, n in enumerate(texts):
        n.pieces.append(pieces[i])
    for p in pieces[len(texts):]:
        c.pick(texts).pieces.append(p)
    return saved_of(c, all_nodes, stack, entries, pairs, len(pieces))


def fields_of(node):
    def of(other):
        return other.number if other is not None else 0
    kids = node.parent.children if node.parent is not None else []
    at = next((i for i, k in enumerate(kids) if k is node), 0)
    f = [0] * 14
    f[KIND], f[PARENT], f[TIE] = node.kind, of(node.parent), of(node.tie)
    f[PREV] = of(kids[at - 1]) if at else 0
    f[NEXT] = of(kids[at + 1]) if at + 1 < len(kids) else 0
    if node.children:
        f[FIRST], f[LAST] = of(node.children[0]), of(node.children[-1])
    f[SPACE], f[NAME], f[MARK], f[START], f[COUNT] = node.space, node.name, node.mark, node.start, node.count
    if node.pieces:
        f[PIECE], f[END] = node.pieces[0], node.pieces[-1]
    return f


def saved_of(c, all_nodes, stack, entries, pairs, pieces):
    s = saved.Saved()
    modes = [1 + c.below(21) for _ in range(c.weighted({0: 60, 1: 25, 2: 10, 3: 5}))]
    s.used = (len(all_nodes), len(entries), len(modes), pieces, len(pairs))
    if c.chance(0.7):
        s.room = (LARGEST[0],) + LARGEST[1:]
    else:
        s.room = (over(c, s.used[0], 4096, [0, 1, 2, 5, 31, 32, 33, 60]), over(c, s.used[1], 256, [0, 0, 1, 9]),
                  over(c, s.used[2], 64, [0, 1]), over(c, s.used[3], 8192, [0, 1]), over(c, s.used[4], 4096, [0, 1, 2, 9]))
    s.depth, s.foster, s.head = len(stack), int(c.chance(0.45)), c.below(2)
    s.context = c.context()
    s.stack = [n.number for n in stack]
    s.list = [MARKER if n is None else n.number for n in entries]
    s.modes = modes
    s.nodes = [fields_of(n) for n in all_nodes]
    nexts = {}
    for n in all_nodes:
        nexts.update(zip(n.pieces, n.pieces[1:]))
    s.pieces = [[c.below(9), nexts.get(i + 1, 0)] for i in range(pieces)]
    s.pairs = [list(p) for p in pairs]
    return s


def deep_state(rng):
    """A chain of open elements up to the last places of the stack, and a list that may be full too."""
    c = Choice(rng)
    document, root = Made(DOCUMENT), element(c, HTML, HTML_NAME)
    chain, entries = [root], []
    document.children.append(root)
    root.parent = document
    for _ in range(507 + c.below(9)):
        node = element(c, HTML, c.pick(FEW_FORMATTING) if c.chance(0.5) else c.pick(BLOCKS))
        node.parent = chain[-1]
        chain[-1].children.append(node)
        chain.append(node)
        if node.name in FORMATTING_NAMES and len(entries) < 256 and c.chance(0.9):
            entries.append(node)
    all_nodes = [document] + chain
    for i, node in enumerate(all_nodes):
        node.number = i + 1
    stack = chain[:min(STACK, len(chain) - c.below(4))]
    return saved_of(c, all_nodes, stack, entries, [], 0)


def state_record(c, s):
    """A call with arguments that mean something to this state."""
    call = c.weighted({8: 26, 9: 8, 4: 10, 7: 10, 10: 9, 11: 5, 12: 4, 2: 9, 1: 6, 3: 3, 13: 4, 6: 2, 5: 2, 14: 2, 15: 1, 16: 1, 17: 1, 18: 1})
    if c.chance(0.02):
        return wrong_record(c)
    opened = [s.nodes[n - 1] for n in s.stack]
    listed = [s.nodes[e - 1] for e in s.list if e != MARKER]

    def formatting():
        near = [f[NAME] for f in opened + listed + listed if f[SPACE] == HTML and f[NAME] in FORMATTING_NAMES]
        return c.pick(near) if near and c.chance(0.9) else c.pick(FORMATTING)

    def open_name():
        return c.pick(opened)[NAME] if c.chance(0.8) else c.name()

    if call == 4:
        if listed and c.chance(0.6):        # a tag that is there, its attributes in order or not
            f = c.pick(listed)
            pairs = [tuple(p) for p in s.pairs[f[START]:f[START] + f[COUNT]]]
            if c.chance(0.3):
                c.rng.shuffle(pairs)
            return record(4, f[NAME], pairs=pairs)
        return record(4, formatting(), pairs=c.pairs())
    if call == 8:
        return record(8, formatting())
    if call == 10:
        name = open_name()
        return record(10, name if name != HTML_NAME or c.chance(0.05) else P)
    if call == 13:
        return record(13, c.below(2), c.pick([0, P, c.pick(opened)[NAME]]))
    if call == 16:
        return record(16, 1 + c.below(21))
    if call in (15, 18):
        return record(call, c.below(2))
    if call == 1 and c.chance(0.2):
        return record(1, c.below(3), NUMBER["template"], c.below(2), pairs=[])
    if call in (1, 2, 3):
        while True:
            r = stream_record(c, "tables" if c.chance(0.5) else "foreign")
            if r[0] == call:
                return r
    return record(call)


def request(rng, s):
    c = Choice(rng)
    what = c.weighted({SINGLE: 84, RUN: 5, RESET: 4, FOREIGN: 4, BODY: 1, TOKENIZER: 1, BEGIN: 1})
    if what == SINGLE:
        return bytes([SINGLE]) + state_record(c, s)
    if what == RUN:
        return bytes([RUN]) + b"".join(state_record(c, s) for _ in range(1 + c.below(4)))
    if what == FOREIGN:
        kind = c.below(7)
        want = kind < 2 if c.chance(0.95) else kind >= 2
        name = c.pick(names("svg mglyph malignmark p")) if c.chance(0.8) else c.name()
        return bytes([FOREIGN]) + struct.pack("<2H", kind, name if want else 0)
    if what == TOKENIZER:
        return bytes([TOKENIZER]) + struct.pack("<H", c.below(3))
    if what == BEGIN:
        context = c.context()
        return begin_request(c.pick([context, context, (3, P, 0), (0, 400, 0), (0, P, 1), (1, ANNOTATION_XML, 2)]))
    return bytes([what])


def state_item(rng, deep=0.004):
    if rng.random() < deep:
        s = deep_state(rng)
        full = rng.choice([record(7), record(7), record(4, B, pairs=[]), record(1, 0, DIV, 1, pairs=[]), record(8, B), None])
        return s.pack() + (bytes([SINGLE]) + full if full else request(rng, s))
    s = sound_state(rng)
    return s.pack() + request(rng, s)
