"""Record streams from a begin: misnested formatting, tables with fostering, templates, foreign elements, attributes, deep nesting,
little room; and runs with mistakes in their bytes."""
import struct

from model import builder, runs, saved
from model.names import HTML, NUMBER, PAPER
from model.saved import LARGEST
from model.serve import BEGIN, RUN, SINGLE, begun, written
from model.state import Refused, State

from .records import (A, ANNOTATION_XML, B, BLOCKS, BODY_NAME, BOUNDARIES, DIFFERENT, DIV, FEW_FORMATTING, FORMATTING, HTML_NAME, IMPLIED,
                      INLINE, NOT_NAMES, P, PLAIN, TABLES, Choice, names, number, record)

# ---- records by theme: the weight of each call, and how names are chosen

THEMES = {
    "misnested": {1: 22, 2: 10, 4: 26, 8: 18, 9: 4, 7: 5, 10: 5, 11: 3, 14: 4, 5: 1, 6: 1, 3: 1, 13: 1},
    "tables": {1: 34, 2: 12, 3: 3, 4: 12, 5: 2, 6: 1, 7: 4, 8: 10, 9: 2, 10: 3, 12: 4, 13: 2, 14: 6, 15: 8},
    "templates": {1: 34, 2: 10, 3: 3, 4: 12, 5: 2, 7: 3, 8: 8, 10: 3, 13: 2, 14: 6, 15: 5, 16: 6, 17: 4, 18: 1},
    "foreign": {1: 40, 2: 6, 4: 12, 7: 2, 8: 12, 9: 2, 10: 12, 11: 6, 12: 2, 13: 2, 14: 6, 15: 2},
    "attributes": {1: 8, 2: 3, 4: 50, 5: 3, 6: 1, 7: 8, 8: 12, 9: 4, 14: 6, 10: 3},
    "list": {1: 12, 4: 30, 5: 4, 6: 2, 7: 14, 8: 10, 9: 8, 14: 14, 10: 4, 12: 2},
    "closing": {1: 50, 4: 6, 10: 12, 11: 8, 12: 6, 13: 10, 14: 4, 5: 3},
    "all": {c: 5 for c in range(1, 19)},
}

POOLS = {
    "misnested": [FEW_FORMATTING, BLOCKS, BLOCKS, PLAIN],
    "tables": [TABLES, TABLES, TABLES, BLOCKS, PLAIN, [NUMBER["template"]]],
    "templates": [[NUMBER["template"]], TABLES, BLOCKS, PLAIN],
    "closing": [IMPLIED, IMPLIED, BLOCKS, BOUNDARIES, TABLES],
    "foreign": [INLINE, INLINE, BLOCKS],
}


def stream_record(c, theme):
    call = c.weighted(THEMES[theme])
    if c.chance(0.01):
        return wrong_record(c)
    pools = POOLS.get(theme)
    pick_name = (lambda: c.pick(c.pick(pools))) if pools and c.chance(0.85) else c.name
    if call == 1:
        space, name = c.tag(0.6 if theme == "foreign" else 0.06)
        if space == HTML and (HTML, name) not in DIFFERENT:
            name = pick_name()
            if name == HTML_NAME:
                name = DIV
        return record(1, space, name, int(c.chance(0.85)) + 2 * c.mark(space, name), pairs=c.pairs(0.15))
    if call == 2:
        return record(2, c.pick([1, 2, 3, 300, 65535, c.below(65536)]))
    if call == 3:
        return record(3, c.weighted({0: 6, 1: 2, 2: 2}), c.below(300))
    if call == 4:
        if theme in ("attributes", "list"):
            return record(4, c.weighted({B: 4, A: 1}), pairs=c.pairs(0.8 if theme == "attributes" else 0.2))
        return record(4, c.pick(FEW_FORMATTING) if c.chance(0.8) else c.pick(FORMATTING), pairs=c.pairs(0.15))
    if call == 8:
        return record(8, c.pick(FEW_FORMATTING) if c.chance(0.9) else c.pick(FORMATTING))
    if call == 10:
        name = pick_name() if c.chance(0.7) else c.pick(FEW_FORMATTING)
        return record(10, name if name != HTML_NAME else P)
    if call == 13:
        return record(13, c.below(2), c.pick([0, P, NUMBER["li"], NUMBER["td"], c.name()]))
    if call == 15:
        return record(15, int(c.chance(0.8)))
    if call == 16:
        return record(16, 1 + c.below(21))
    if call == 18:
        return record(18, c.below(2))
    return record(call)


def wrong_record(c):
    """One that is refused with 2, whatever the state is."""
    return c.pick([
        lambda: record(1, 3, DIV, 1, pairs=[]),
        lambda: record(1, 0, c.pick(NOT_NAMES), 1, pairs=[]),
        lambda: record(1, 0, HTML_NAME, 1, pairs=[]),
        lambda: record(1, 0, DIV, 4, pairs=[]),
        lambda: record(1, c.pick([0, 2]), ANNOTATION_XML, 3, pairs=[]),
        lambda: record(1, 0, DIV, 1, pairs=c.wrong_pairs()),
        lambda: record(3, 3 + c.below(5), 1),
        lambda: record(4, c.pick([DIV, 600] + NOT_NAMES), pairs=[]),
        lambda: record(4, B, pairs=c.wrong_pairs()),
        lambda: record(8, c.pick([DIV, 600] + NOT_NAMES)),
        lambda: record(10, c.pick([HTML_NAME] + NOT_NAMES)),
        lambda: record(13, 2 + c.below(3), 0),
        lambda: record(13, c.below(2), c.pick(NOT_NAMES[1:])),
        lambda: record(15, 2),
        lambda: record(16, c.pick([0, 22, 600])),
        lambda: record(18, 2),
        lambda: number(c.pick([0, 19, 32, 36, 65535])),
    ])()


def room(c, tight):
    if not tight:
        return LARGEST
    return (2 + c.below(40) if c.chance(0.5) else 34 + c.below(30), c.below(6) if c.chance(0.6) else 256, c.below(3), c.below(6) if c.chance(0.6) else 100,
            c.below(6) if c.chance(0.6) else 100)


def stream(rng, deep=0.001):
    """A room, a context and records."""
    c = Choice(rng)
    if c.chance(deep):
        return deep_stream(c)
    theme = c.pick(list(THEMES))
    records = [record(1, 0, BODY_NAME, 1, pairs=[])] if c.chance(0.8) else []
    if theme == "misnested" and c.chance(0.4):
        records += many_inner_nodes(c) if c.chance(0.25) else inner_nodes(c)
    for _ in range(c.below(40) + 3):
        records.append(stream_record(c, theme if c.chance(0.93) else "all"))
    # Pop all and reconstruct: what the dump alone would hide.
    if c.chance(0.2):
        records += [record(14)] * c.below(12) + [record(7)]
    return room(c, c.chance(0.15)), c.context(), records


def many_inner_nodes(c):
    """b, then nine times i u s div, end b: 32 nodes in one call."""
    inner = [record(4, n, pairs=[(1, k)] if c.chance(0.9) else []) for k in (c.below(9),) for n in names("i u s")]
    rounds = []
    for k in range(9):
        rounds += [record(4, n, pairs=[(1, k)]) for n in names("i u s")] + [record(1, 0, DIV, 1, pairs=[])]
    return [record(4, B, pairs=[])] + inner[:c.below(2)] + rounds + [record(8, B)]


def inner_nodes(c):
    """A formatting element, others and plain ones below it, a block, and its end."""
    first = c.pick(FEW_FORMATTING)
    records = [record(4, first, pairs=[])]
    for _ in range(1 + c.below(8)):
        records.append(record(4, c.pick(FORMATTING), pairs=[]) if c.chance(0.65) else record(1, 0, c.pick(PLAIN), 1, pairs=[]))
    return records + [record(1, 0, c.pick(BLOCKS), 1, pairs=[]), record(2, 1), record(8, first)]


def deep_stream(c):
    records = [record(1, 0, c.pick([DIV, P, NUMBER["span"]]), 1, pairs=[]) for _ in range(500 + c.below(12))]
    records += [record(4, c.pick(FEW_FORMATTING), pairs=[]) for _ in range(6)]
    for _ in range(14):
        records.append(stream_record(c, "misnested"))
    return LARGEST, None, records


def begin_request(context):
    there = (1, *context) if context is not None else (0, 0, 0, 0)
    return bytes([BEGIN]) + struct.pack("<4H", *there)


def broken(c, data):
    """Records with a mistake in their bytes: cut, a changed byte, or one put in."""
    data = bytearray(data)
    for _ in range(1 + c.below(2)):
        if not data:
            break
        at = c.below(len(data))
        how = c.below(5)
        if how == 0:
            del data[at:]
        elif how == 1:
            data[at] = c.below(256)
        elif how == 2:
            data[at] |= 128
        elif how == 3:
            data.insert(at, c.pick([0, 128, 255]))
        else:
            data[at:at + 1] = c.pick([b"\x80\x00", b"\xff\xff\x03", b"\xff\xff\x04", b"\x80\x80\x04", b"\x80\x80\x80\x00", b"\x81\x00"])
    return bytes(data)


def run_bytes(rng):
    """Records for one run from a begun document, often with a mistake; sometimes a long pair list."""
    c = Choice(rng)
    _, _, records = stream(rng, deep=0)
    data = b"".join(records[:c.below(len(records)) + 1])
    if c.chance(0.1):
        many = c.pick([16, 17, 300])
        data += record(4, B, pairs=[(1 + i % 300, i) for i in range(many)])
    return broken(c, data) if c.chance(0.8) else data


# ---- streams as items

def stream_items(the_stream):
    """The begin and each record as a single call on the model's state before it; each item with the model's answer to it."""
    the_room, context, records = the_stream
    empty = saved.empty(the_room)
    asked = begin_request(context)
    answer, after = begun(empty, asked, 1, PAPER)
    yield empty.pack() + asked, written(answer, None, after)
    if answer:
        return
    s = State.load(after, PAPER)
    before = after.pack()
    for r in records:
        answer, result = runs.single(s, r)
        after = s.save()
        now = after.pack()
        middle = "" if result is None else "result %d\n" % result
        yield before + bytes([SINGLE]) + r, "answer %d\n%s%s\n" % (answer, middle, now.hex())
        before = now


def run_item(the_stream, keep_refused=True):
    """The whole stream as one run from its begin; None where the begin is refused. Refused records may be left out."""
    the_room, context, records = the_stream
    s = State(the_room)
    try:
        builder.begin(s, context)
    except Refused:
        return None
    begun = s.save().pack() + bytes([RUN])
    if not keep_refused:
        records = [r for r in records if runs.single(s, r)[0] == 0]
    return begun + b"".join(records)
