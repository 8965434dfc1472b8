"""Inputs that leave nothing to chance: every name in every place where a set decides, and every short stream over a few records."""
import struct

from gen import A, ANNOTATION_XML, B, DIV, P, begin_request, record
from model import builder, runs, saved
from model.names import HTML, ISINDEX, MATHML, NUMBER, SVG, TABLE
from model.saved import LARGEST
from model.serve import BODY, CHECK, FOREIGN, RESET, SINGLE, TOKENIZER
from model.state import State, append

ALL_NAMES = list(range(0, len(TABLE) + 3)) + [511, 512, ISINDEX, 65535]


def opened(tags, listed=(), context=None, foster=0, modes=(), mark=0):
    """Elements open one in the other; those at the places of listed are in the list; the last one may have a mark."""
    s = State(LARGEST)
    builder.begin(s, None)
    for space, name in tags:
        node = s.new_element(space, name)
        append(s.stack[-1], node)
        s.stack.append(node)
    s.stack[-1].mark = mark
    s.list = [s.stack[i + 1] for i in listed]
    s.context, s.foster, s.modes = context, foster, list(modes)
    return s.save().pack()


def single(*args, pairs=None):
    return bytes([SINGLE]) + record(*args, pairs=pairs)


def every_name():
    """Each name in each namespace, the unknown ones too (a state with such an element isn't sound), in each place."""
    b, p, td, table = (HTML, B), (HTML, P), (HTML, NUMBER["td"]), (HTML, NUMBER["table"])
    empty = saved.empty().pack()
    for space in (HTML, MATHML, SVG, 3):
        for name in ALL_NAMES:
            x = (space, name)
            for mark in (0, 1):
                yield opened([x], mark=mark) + bytes([CHECK])
                yield empty + begin_request((space, name, mark))
                yield opened([]) + single(1, space, name, 1 + 2 * mark, pairs=[])
                yield opened([], context=(space, name, mark)) + bytes([CHECK])
                for kind in range(7):
                    for token in (0, P, NUMBER["svg"], NUMBER["mglyph"], NUMBER["malignmark"]):
                        ask = bytes([FOREIGN]) + struct.pack("<2H", kind, token)
                        if (kind < 2) == (token != 0):
                            yield opened([x], mark=mark) + ask
                            yield opened([], context=(space, name, mark)) + ask
            # special, default scope
            yield opened([b, x]) + single(10, B)
            yield opened([b, x], listed=[0]) + single(8, B)
            yield opened([b, (HTML, DIV), x], listed=[0]) + single(8, B)
            yield opened([(HTML, A), x], listed=[0]) + single(9)
            # button and table scope, closing
            yield opened([p, x]) + single(11)
            yield opened([td, x]) + single(12)
            # implied end tags
            for kind in (0, 1):
                for but in (0, name, P):
                    yield opened([x, x]) + single(13, kind, but)
            # fostering
            for tags in ([x], [table, x], [(HTML, DIV), table, x]):
                for call in (single(2, 5), single(1, 0, DIV, 1, pairs=[])):
                    yield opened(tags, foster=1) + call
            # end tags, pops
            if space == HTML:
                yield opened([x, (HTML, NUMBER["span"])]) + single(10, name)
                yield opened([x]) + single(8, name)
                yield opened([]) + single(4, name, pairs=[])
                yield opened([]) + single(4, B, pairs=[(name, 1)])
                yield opened([x, x], listed=[0]) + bytes([CHECK])
                yield opened([(MATHML, NUMBER["mi"])]) + bytes([FOREIGN]) + struct.pack("<2H", 0, name)
                yield opened([(MATHML, ANNOTATION_XML)]) + bytes([FOREIGN]) + struct.pack("<2H", 0, name)
                yield opened([(MATHML, ANNOTATION_XML)]) + bytes([FOREIGN]) + struct.pack("<2H", 1, name)
            # dispatch
            for modes in ([], [7]):
                yield opened([x], modes=modes) + bytes([RESET])
                yield opened([], context=(space, name, 0), modes=modes) + bytes([RESET])
                yield opened([x], context=(HTML, NUMBER["td"], 0), modes=modes) + bytes([RESET])
            yield opened([x]) + bytes([BODY])
            for flag in (0, 1, 2):
                yield opened([], context=(space, name, 0)) + bytes([TOKENIZER]) + struct.pack("<H", flag)


ALPHABETS = {
    "misnested": [record(4, B, pairs=[]), record(4, NUMBER["i"], pairs=[]), record(1, 0, P, 1, pairs=[]), record(8, B),
                  record(8, NUMBER["i"]), record(14), record(7), record(2, 1)],
    "tables": [record(1, 0, NUMBER["table"], 1, pairs=[]), record(1, 0, NUMBER["tr"], 1, pairs=[]),
               record(1, 0, NUMBER["template"], 1, pairs=[]), record(15, 1), record(2, 1), record(4, B, pairs=[]), record(8, B),
               record(14)],
    "links": [record(4, A, pairs=[]), record(9), record(1, 0, DIV, 1, pairs=[]), record(8, A), record(5), record(6), record(7),
              record(14)],
}


def every_stream(depth):
    """Every stream of that many records or fewer over each alphabet: each record as a single call on the state before it."""
    for alphabet in ALPHABETS.values():
        begun = State(LARGEST)
        builder.begin(begun, None)
        start = begun.save()
        level, seen = [start], {start.pack()}
        for _ in range(depth):
            below = []
            for before in level:
                packed = before.pack()
                for r in alphabet:
                    yield packed + bytes([SINGLE]) + r
                    s = State.load(before)
                    runs.single(s, r)
                    after = s.save()
                    key = after.pack()
                    if key not in seen:
                        seen.add(key)
                        below.append(after)
            level = below


