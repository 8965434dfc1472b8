"""Inputs for the comparison, from a seed: record streams from a begin, random sound states, damaged states.

python3 gen.py streams|states|damaged SEED COUNT FILE writes them as a batch file."""
import random
import sys

from generate.damaged import damaged_item
from generate.records import A, ANNOTATION_XML, B, DIV, P, record
from generate.states import state_item
from generate.streams import begin_request, run_bytes, run_item, stream, stream_items
from model.saved import LARGEST
from model.serve import batch_of

__all__ = ["A", "ANNOTATION_XML", "B", "DIV", "LARGEST", "P", "begin_request", "damaged_item", "record", "run_bytes", "run_item", "state_item",
           "stream", "stream_items"]


def main():
    kind, seed, count, path = sys.argv[1], int(sys.argv[2]), int(sys.argv[3]), sys.argv[4]
    with open(path, "wb") as f:
        for i in range(count):
            rng = random.Random("%d %s %d" % (seed, kind, i))
            if kind == "streams":
                f.write(batch_of(item for item, _ in stream_items(stream(rng))))
            elif kind == "states":
                f.write(batch_of([state_item(rng)]))
            elif kind == "damaged":
                f.write(batch_of([damaged_item(rng)]))
            else:
                sys.exit("streams, states or damaged")


if __name__ == "__main__":
    main()
