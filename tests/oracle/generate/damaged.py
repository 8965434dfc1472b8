"""Damaged states: bytes or words changed at random, or one rule broken while the links still agree."""
import struct

from model.names import HTML, TABLE, TEMPLATE
from model.saved import COMMENT, CONTENTS, ELEMENT, KIND, LARGEST, MARKER, NAME, STACK, TEXT
from model.saved import size_of as saved_size
from model.serve import BODY, CHECK, RESET, RUN, SINGLE, TOKENIZER
from model.state import State, append

from .records import ANNOTATION_XML, B, BODY_NAME, DIV, HTML_NAME, P, Choice, record
from .states import deep_state, sound_state


def damaged_item(rng):
    """A sound state with one to three changed bytes or words, or with one rule broken while the links still agree. Counts may change
    too: the words after them then follow the new counts."""
    c = Choice(rng)
    if c.chance(0.3):
        return changed_bytes(c, sound_state(rng, c.below(9)).pack()) + bytes([CHECK])
    if c.chance(0.002):
        s = deep_state(rng)
        s.depth = c.pick([s.depth, s.depth + 1, STACK + 1, 65535])
        refit(c, s)
    else:
        s = sound_state(rng, c.below(9))
        if c.chance(0.4):
            s = c.pick(BREAKS)(c, State.load(s))
            refit(c, s)
        else:
            for _ in range(1 + c.below(3)):
                damage(c, s)
    ask = bytes([CHECK]) if c.chance(0.9) else request_for_damaged(c)
    return s.pack() + ask


def changed_bytes(c, data):
    """One to three bytes, any of them, to any value, but no room over the largest; then as many bytes as the counts say, new ones 0."""
    data = bytearray(data)
    for _ in range(1 + c.below(3)):
        at = c.below(len(data))
        data[at] = c.pick([data[at] ^ 1 << c.below(8), data[at] + 1 & 255, data[at] - 1 & 255, 0, c.below(256)])
    struct.pack_into("<5H", data, 0, *map(min, struct.unpack_from("<5H", data), LARGEST))
    size = saved_size(data)
    return bytes(data[:size]).ljust(size, b"\0")


# Each takes a state apart in one way that changed words alone seldom reach. Where there is nothing to break it stays sound.

def some(c, s, *kinds):
    """A node of these kinds past the root, or None."""
    found = [n for n in s.nodes[2:] if n.kind in kinds]
    return c.pick(found) if found else None


def break_circle(c, s):
    x = some(c, s, ELEMENT)
    if x is not None:
        below, todo = [], list(x.children) + ([x.tie] if x.tie else [])
        while todo:
            n = todo.pop()
            below.append(n)
            todo += n.children + ([n.tie] if n.kind == ELEMENT and n.tie else [])
        places = [n for n in below if n.kind in (ELEMENT, CONTENTS)] or [x]
        append(c.pick(places), x)
    return s.save()


def break_parent(c, s):
    """Something under a node that may not have it, with all links in order."""
    child = c.pick([some(c, s, ELEMENT), some(c, s, CONTENTS), s.nodes[0], s.nodes[1], some(c, s, TEXT, COMMENT)])
    parent = c.pick([s.nodes[0], some(c, s, TEXT), some(c, s, COMMENT), some(c, s, ELEMENT), some(c, s, CONTENTS)])
    if child is not None and parent is not None and child is not parent:
        append(parent, child)
    return s.save()


def break_root(c, s):
    root = s.nodes[1]
    how = c.below(4)
    if how == 0:
        s.nodes[0].children.remove(root)
        root.parent = None
    elif how == 1:
        root.space = c.pick([1, 2])
    elif how == 2:
        root.name = c.pick([BODY_NAME, DIV])
    else:
        other = some(c, s, ELEMENT)
        if other is not None:
            other.space, other.name = HTML, HTML_NAME
            s.stack[0] = other
    return s.save()


def break_template(c, s):
    """Contents shared, missing, or of what is no template."""
    template = next((n for n in s.nodes if n.kind == ELEMENT and n.tie is not None), None)
    other = some(c, s, ELEMENT)
    how = c.below(4)
    if how == 0 and template is not None and other is not None and other is not template:
        other.space, other.name = TEMPLATE
        other.tie = template.tie
    elif how == 1 and other is not None:
        other.space, other.name = TEMPLATE
    elif how == 2 and template is not None:
        template.name = DIV
    elif template is not None:
        template.space = c.pick([1, 2])
    return s.save()


def break_stack(c, s):
    how = c.below(4)
    i, j = c.below(len(s.stack)), c.below(len(s.stack))
    if how == 0:
        s.stack[i], s.stack[j] = s.stack[j], s.stack[i]
    elif how == 1:
        s.stack.append(s.stack[i])
    elif how == 2:
        n = some(c, s, ELEMENT, TEXT, CONTENTS, COMMENT)
        if n is not None:
            s.stack.insert(c.below(len(s.stack) + 1), n)
    else:
        s.stack.clear()
    return s.save()


def break_list(c, s):
    found = [n for n in s.list if n is not None]
    how = c.below(4)
    if how == 0 and found:
        s.list.append(c.pick(found))
    elif how == 1 and found:
        c.pick(found).space = c.pick([1, 2])
    elif how == 2 and found:
        c.pick(found).name = c.pick([DIV, 600])
    else:
        n = some(c, s, ELEMENT, TEXT, CONTENTS, COMMENT)
        if n is not None:
            s.list.append(n)
    return s.save()


def break_texts(c, s):
    """A piece in two nodes, or in none, or a text node without one; the chains are whole."""
    texts = [n for n in s.nodes if n.kind == TEXT]
    how = c.below(4)
    if how == 0 and len(texts) > 1:
        a, b = c.rng.sample(texts, 2)
        a.pieces = a.pieces + b.pieces
    elif how == 1:
        s.texts.append(3)
    elif how == 2:
        out = s.save()
        for f in out.nodes:
            if f[KIND] == COMMENT:
                f[KIND], f[NAME] = TEXT, 0
                break
        return out
    else:
        spare = [n for n in texts if len(n.pieces) > 1]
        if spare:
            c.pick(spare).pieces.pop()
    return s.save()


def break_pairs(c, s):
    n = some(c, s, ELEMENT)
    how = c.below(3)
    if n is not None and how == 0:
        n.start, n.count = len(s.pairs), c.pick([16, 17])
        s.pairs += [(1 + i, 0) for i in range(n.count)]
    elif n is not None and how == 1:
        n.start, n.count = len(s.pairs), 2
        s.pairs += [(5, 0), (c.pick([5, 6]), 1)]
    elif n is not None:
        n.start, n.count = len(s.pairs) + c.below(2), c.below(2)
    return s.save()


def break_tag(c, s):
    n = some(c, s, ELEMENT)
    if n is not None and n.tie is None:
        n.space, n.name, n.mark = c.pick([0, 1, 2, 3]), c.pick([DIV, ANNOTATION_XML, 0, len(TABLE), len(TABLE) + 1, 511, 512]), c.pick([0, 1, 1, 2])
    return s.save()


BREAKS = [break_circle, break_circle, break_parent, break_parent, break_root, break_template, break_stack, break_list, break_texts,
          break_pairs, break_tag]


def request_for_damaged(c):
    return c.pick([bytes([SINGLE]) + record(8, B), bytes([RUN]), bytes([RUN]) + b"\x80", bytes([RESET]), bytes([BODY]),
                   bytes([TOKENIZER]) + b"\x07\x00", bytes([SINGLE]) + record(14)])


def damage(c, s):
    used = s.used[0]

    def value(old):
        return c.pick([0, 1, 2, c.below(used + 2), used, used + 1, max(old - 1, 0), min(old + 1, 65535), c.below(30), 65535,
                       c.below(65536)])

    what = c.weighted({"node": 60, "stack": 8, "list": 6, "piece": 6, "pair": 4, "mode": 2, "count": 8, "flag": 2, "context": 2,
                       "room": 2})
    if what == "node" and s.nodes:
        node = c.pick(s.nodes)
        f = c.below(14)
        node[f] = value(node[f])
    elif what == "stack" and s.stack:
        i = c.below(len(s.stack))
        s.stack[i] = value(s.stack[i])
    elif what == "list" and s.list:
        i = c.below(len(s.list))
        s.list[i] = value(s.list[i])
    elif what == "piece" and s.pieces:
        p = c.pick(s.pieces)
        p[1] = value(p[1])
    elif what == "pair" and s.pairs:
        p = c.pick(s.pairs)
        p[0] = value(p[0])
    elif what == "mode" and s.modes:
        s.modes[c.below(len(s.modes))] = c.pick([0, 1, 21, 22, 65535])
    elif what == "flag":
        if c.chance(0.5):
            s.foster = c.pick([0, 1, 2, 65535])
        else:
            s.head = c.pick([0, 1, 2, 65535])
    elif what == "context":
        s.context = c.pick([(3, P, 0), (0, 0, 0), (0, 400, 0), (1, ANNOTATION_XML, 1), (1, ANNOTATION_XML, 2), (2, ANNOTATION_XML, 1), (0, 600, 0)])
    elif what == "room":
        i = c.below(5)
        room = min(c.pick([0, max(s.used[i] - 1, 0), s.used[i]]), LARGEST[i])
        s.room = tuple(room if j == i else r for j, r in enumerate(s.room))
    elif what == "count":
        i = c.below(6)
        step = c.pick([-1, 1, 2, 600])
        if i == 5:
            s.depth = max(0, s.depth + step)
        else:
            s.used = tuple(max(0, u + step) if j == i else u for j, u in enumerate(s.used))
    refit(c, s)


def refit(c, s):
    """As many words as the counts say; new ones hold what lay in the memory before."""
    def fit(all_words, size, new):
        del all_words[size:]
        while len(all_words) < size:
            all_words.append(new())
    small = lambda: c.pick([0, 0, 1, 2, c.below(12)])
    fit(s.stack, min(s.depth, STACK), small)
    fit(s.nodes, s.held(0), lambda: [c.pick([0, 2, 4])] + [0] * 7 + [small()] + [0] * 5)
    fit(s.list, s.held(1), lambda: c.pick([0, 2, MARKER]))
    fit(s.modes, s.held(2), small)
    fit(s.pieces, s.held(3), lambda: [1, 0])
    fit(s.pairs, s.held(4), lambda: [small(), 0])
