"""Smaller inputs that show the same thing."""
import copy

from model import saved
from model.saved import CONTENTS, COUNT, DOCUMENT, ELEMENT, KIND, LARGEST, START, TEXT
from model.sound import sound
from model.state import State


def smaller_states(s):
    """The state with one thing fewer, in every way that is tried."""
    for name, size in (("list", len(s.list)), ("stack", len(s.stack)), ("modes", len(s.modes))):
        for i in range(1 if name == "stack" else 0, size):
            t = copy.deepcopy(s)
            del getattr(t, name)[i]
            yield recounted(t)
    for name in ("foster", "head", "context"):
        if getattr(s, name):
            t = copy.deepcopy(s)
            setattr(t, name, None if name == "context" else 0)
            yield t
    if tuple(s.room) != LARGEST:
        t = copy.deepcopy(s)
        t.room = LARGEST
        yield t
    for i, node in enumerate(s.nodes):
        if node[KIND] == ELEMENT and (node[COUNT] or node[START]):
            t = copy.deepcopy(s)
            t.nodes[i][START] = t.nodes[i][COUNT] = 0
            yield t
    used = max([n[START] + n[COUNT] for n in s.nodes if n[KIND] == ELEMENT], default=0)
    if used < len(s.pairs):
        t = copy.deepcopy(s)
        del t.pairs[used:]
        yield recounted(t)
    for n in range(len(s.nodes), 2, -1):
        t = without_node(s, n)
        if t is not None:
            yield t


def recounted(t):
    t.used = (len(t.nodes), len(t.list), len(t.modes), len(t.pieces), len(t.pairs))
    t.depth = len(t.stack)
    return t


def without_node(s, n):
    """Without a node that isn't open or listed: its children take its place, its pieces go too, a template's contents go too."""
    st = State.load(s)
    node = st.nodes[n - 1]
    if node in st.stack or node in st.list or node.kind in (DOCUMENT, CONTENTS):
        return None
    children = (node.tie.children if node.tie is not None else []) + node.children
    for child in children:
        child.parent = node.parent
    if node.parent is not None:
        at = node.parent.children.index(node)
        node.parent.children[at:at + 1] = children
    st.nodes = [x for x in st.nodes if x is not node and x is not node.tie]
    for i, x in enumerate(st.nodes):
        x.number = i + 1
    if node.kind == TEXT:
        left = [i for i in range(1, len(st.texts) + 1) if i not in node.pieces]
        st.texts = [st.texts[i - 1] for i in left]
        for x in st.nodes:
            x.pieces = [left.index(i) + 1 for i in x.pieces]
    return st.save()


def shrink_item(item, shows, rounds=400):
    """The item with a state as small as this finds that still shows it. Only sound states are tried."""
    for _ in range(rounds):
        s, at = saved.read(item)
        for t in smaller_states(s):
            if sound(t) and shows(t.pack() + item[at:]):
                item = t.pack() + item[at:]
                break
        else:
            return item
    return item


def shrink_records(records, shows):
    """Fewer records that still show it."""
    records = list(records)
    i = 0
    while i < len(records):
        fewer = records[:i] + records[i + 1:]
        if shows(fewer):
            records, i = fewer, 0
        else:
            i += 1
    return records
