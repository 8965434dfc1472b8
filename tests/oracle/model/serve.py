"""Requests on a saved state, and their answers: see ../FORMAT.md."""
import struct

from . import builder, runs, saved
from .names import PAPER
from .sound import sound
from .state import Refused, State

CHECK, BEGIN, SINGLE, RUN, RESET, FOREIGN, BODY, TOKENIZER = range(8)


def words_at(data, at, count):
    return struct.unpack_from("<%dH" % count, data, at)


def asked(s, request, data, at):
    """The answer and the result of a request on a sound state."""
    try:
        if request == CHECK:
            return 0, None
        if request == SINGLE:
            return runs.single(s, data[at:])
        if request == RUN:
            return runs.run(s, data[at:])
        if request == RESET:
            return 0, builder.reset_insertion_mode(s)
        if request == FOREIGN:
            return 0, builder.is_foreign(s, *words_at(data, at, 2))
        if request == BODY:
            return 0, builder.body_elem(s)
        if request == TOKENIZER:
            return 0, builder.tokenizer_state_for_context_elem(s, *words_at(data, at, 1))
        raise ValueError("no such request")
    except Refused as refused:
        return refused.answer, None


def begun(old, data, at, rules):
    """The answer to a begin, and the state after it."""
    there, space, name, mark = words_at(data, at, 4)
    s = State(old.room, rules)
    try:
        builder.check_flag(there)
        builder.begin(s, (space, name, mark) if there else None)
        return 0, s.save()
    except Refused as refused:
        return refused.answer, old


def serve(data, rules=PAPER):
    """The text of the answer to one item of a batch."""
    old, at = saved.read(data)
    request = data[at]
    at += 1
    if request == BEGIN:
        answer, after = begun(old, data, at, rules)
        return written(answer, None, after)
    if not sound(old):
        return written(1, 0 if request == RUN else None, old)
    s = State.load(old, rules)
    answer, result = asked(s, request, data, at)
    return written(answer, result, s.save())


def written(answer, result, state):
    middle = "" if result is None else "result %d\n" % result
    return "answer %d\n%s%s\n" % (answer, middle, state.pack().hex())


def items(batch):
    at = 0
    while at + 4 <= len(batch):
        length, = struct.unpack_from("<I", batch, at)
        yield batch[at + 4:at + 4 + length]
        at += 4 + length


def batch_of(all_items):
    return b"".join(struct.pack("<I", len(item)) + item for item in all_items)
