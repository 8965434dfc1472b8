"""The program `probe` against the model, on streams from a begin, random sound states and damaged states.

    python3 tests/oracle/probe.py target/bin/probe [SEED [COUNT]]

Each request is a process of its own, as a host would start it; check.sh asks the same functions far more in one process. Both read the
same saved state and request (FORMAT.md), and must write the same text. Many states are asked one of module 8's questions besides. The
last line is `N requests, M differ`."""
import random
import struct
import subprocess
import sys

import gen
from model import saved
from model.names import NUMBER
from model.serve import BODY, FOREIGN, RESET, TOKENIZER, serve


def question(rng, item):
    """The state of an item with one of module 8's questions."""
    _, at = saved.read(item)
    what = rng.choice((RESET, FOREIGN, FOREIGN, BODY, TOKENIZER))
    words = []
    if what == FOREIGN:
        kind = rng.choice((0, 0, 0, 1, 2, 3, 4, 5, 6))
        named = kind < 2 if rng.random() < 0.9 else kind >= 2
        words = [kind, NUMBER[rng.choice(("svg", "mglyph", "malignmark", "p"))] if named else 0]
    if what == TOKENIZER:
        words = [rng.choice((0, 1, 1, 2))]
    return item[:at] + bytes([what]) + struct.pack("<%dH" % len(words), *words)


def inputs(seed, count):
    for i in range(count):
        for kind in ("streams", "states", "damaged"):
            rng = random.Random("%d %s %d" % (seed, kind, i))
            if kind == "streams":
                items = [item for item, _ in gen.stream_items(gen.stream(rng))]
                asked = rng.sample(items, min(4, len(items)))
            else:
                items = [gen.state_item(rng) if kind == "states" else gen.damaged_item(rng)]
                asked = items
            yield from items
            yield from (question(rng, item) for item in asked)


def main():
    probe = sys.argv[1]
    seed = int(sys.argv[2]) if len(sys.argv) > 2 else 1
    count = int(sys.argv[3]) if len(sys.argv) > 3 else 300
    asked = differ = 0
    for item in inputs(seed, count):
        asked += 1
        got = subprocess.run([probe], input=item, stdout=subprocess.PIPE, timeout=60).stdout.decode()
        expected = serve(item)
        if got != expected:
            differ += 1
            if differ <= 5:
                print(f"request {item.hex()}\n  model {expected!r}\n  probe {got!r}")
    print(f"{asked} requests, {differ} differ")
    return 1 if differ else 0


if __name__ == "__main__":
    sys.exit(main())
