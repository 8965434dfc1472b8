"""Module 9: records, single calls, runs, the program and its dump."""
from . import builder
from .names import MATHML, PAPER, SVG, text_of
from .saved import CONTENTS, ELEMENT, LARGEST, TEXT
from .state import Refused, State

# What each call takes: how many numbers, whether pairs follow, and its function.
CALLS = {
    1: (3, True, builder.call_1_element),
    2: (1, False, builder.call_2_text),
    3: (2, False, builder.call_3_comment),
    4: (1, True, builder.call_4_create_formatting_element),
    5: (0, False, builder.call_5_marker),
    6: (0, False, builder.call_6_clear_to_marker),
    7: (0, False, builder.call_7_reconstruct),
    8: (1, False, builder.call_8_adoption),
    9: (0, False, builder.call_9_misnested_a),
    10: (1, False, builder.call_10_process_end_tag_in_body),
    11: (0, False, builder.call_11_close_p_element),
    12: (0, False, builder.call_12_close_the_cell),
    13: (2, False, builder.call_13_implied_end_tags),
    14: (0, False, builder.call_14_pop),
    15: (1, False, builder.call_15_foster),
    16: (1, False, builder.call_16_push_mode),
    17: (0, False, builder.call_17_pop_mode),
    18: (1, False, builder.call_18_head),
}


def read_number(data, at):
    """An unsigned LEB128 number, shortest form only, at most 65,535: the number and what follows it, or refused with 9."""
    value = shift = 0
    while True:
        if at >= len(data):
            raise Refused(9)                                    # cut short
        byte = data[at]
        at += 1
        value += (byte & 127) << shift
        shift += 7
        if byte < 128:
            break
        if shift > 14:
            raise Refused(9)                                    # three bytes hold every number up to 65,535
    if value > 65535 or byte == 0 and shift > 7:
        raise Refused(9)                                        # too large, or not the shortest form
    return value, at


def read_record(data, at):
    """The call's function and arguments, and where the next record starts. The whole record is read first: 9 before 2, but an
    unknown call number gives 2 whatever follows it."""
    call, at = read_number(data, at)
    if call not in CALLS:
        raise Refused(2)
    numbers, has_pairs, function = CALLS[call]
    args = []
    for _ in range(numbers):
        x, at = read_number(data, at)
        args.append(x)
    if has_pairs:
        count, at = read_number(data, at)
        pairs = []
        for _ in range(count):
            name, at = read_number(data, at)
            value, at = read_number(data, at)
            pairs.append((name, value))
        args.append(pairs)
    return function, args, at


def single(s, data):
    """The answer and the result of the call whose record is data. A refused call changes nothing."""
    try:
        function, args, _ = read_record(data, 0)
        return 0, function(s, *args)
    except Refused as refused:
        return refused.answer, None


def run(s, data):
    """The answer and how many records were done. The calls before a refused one stand."""
    at = done = 0
    while at < len(data):
        try:
            function, args, at = read_record(data, at)
            function(s, *args)
        except Refused as refused:
            return refused.answer, done
        done += 1
    return 0, done


# ---- the program

INPUT = 16384
ROOM = (2048,) + LARGEST[1:]


def program(data, rules=PAPER):
    s = State(ROOM, rules)
    builder.begin(s, None)
    answer, done = run(s, data[:INPUT])
    if answer == 0 and len(data) > INPUT:
        answer = 9
    return "".join(dump_lines(s)) + "records %d answer %d\n" % (done, answer)


def dump_lines(s):
    """In document order; without recursion, as trees may be deep."""
    rest = [(node, 0) for node in reversed(s.nodes[0].children)]
    while rest:
        node, level = rest.pop()
        for depth, thing in lines_of(s, node):
            yield "| " + "  " * (level + depth) + thing + "\n"
        below = ([node.tie] if node.kind == ELEMENT and node.tie is not None else []) + node.children
        rest.extend((child, level + 1) for child in reversed(below))


def lines_of(s, node):
    if node.kind == ELEMENT:
        prefix = {MATHML: "math ", SVG: "svg "}.get(node.space, "")
        yield 0, "<%s%s>" % (prefix, text_of(node.name))
        for name, value in s.attributes(node):
            yield 1, "@%d=#%d" % (name, value)
    elif node.kind == CONTENTS:
        yield 0, "content"
    elif node.kind == TEXT:
        yield 0, " ".join("#%d" % s.texts[i - 1] for i in node.pieces)
    else:
        yield 0, "<!-- #%d -->" % node.comment
