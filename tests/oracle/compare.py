"""The model against the oracle (html5ever's own tree builder), and any other implementation against the model.

Each difference between model and oracle must be one of the list "Where the Rust differs". It is recognised by turning that one
rule of the model round: the answer must then be the Rust's to the last word, and the state must be one where the rule matters.
Other implementations, executables that read a batch file, must agree with the model everywhere.

python3 compare.py --seed 1 --streams 20000 --states 20000 --damaged 20000 --runs 5000 --programs 200
    --records N        streams until that many records have been compared, in place of --streams
    --oracle PATH      the oracle's binary
    --other PATH       another implementation (may be given again)
    --program PATH     another program that runs standard input and prints the dump (may be given again)
    --names            every name in every place where a set decides
    --every DEPTH      every stream of that many records over a few alphabets
    --smallest         shrink the smallest input of each listed kind and print it
    --first            end at the first difference, as it is"""
import argparse
import itertools
import os
import random
import subprocess
import sys
import tempfile
import time
from collections import Counter

import every
import gen
from model import runs, saved
from model.names import ANNOTATION, FOREIGN_SPECIAL, HTML, ISINDEX, NUMBER, RUST, TABLE_TAG, TEMPLATE, Rules, text_of
from model.saved import COUNT, ELEMENT, KIND, MARKER, NAME, PARENT, SPACE, START
from model.serve import RESET, RUN, SINGLE, TOKENIZER, batch_of, serve
from model.sound import sound
from model.state import State
from shrink import shrink_item, shrink_records

HERE = os.path.dirname(os.path.abspath(__file__))

KINDS = {
    1: "special lacks the MathML and SVG names",
    2: "special lacks keygen and search",
    3: "special has isindex (host number 699 here)",
    4: "scopes lack MathML annotation-xml",
    5: "scopes have select",
    6: "tags are equal with attributes in any order",
    7: "a parentless table above a template: its contents aren't used",
    8: "a table directly under a template element: its contents aren't used",
    "panic at reset": "answer 3: a template is open, and there is no template mode",
    "panic at tokenizer state": "answer 3: there is no context",
}


# ---- asking an implementation

def ask(command, items):
    """The answers of an implementation to these items."""
    folder = os.path.join(HERE, "target")
    os.makedirs(folder, exist_ok=True)
    with tempfile.NamedTemporaryFile(dir=folder, suffix=".batch") as f:
        f.write(batch_of(items))
        f.flush()
        out = subprocess.run(command + [f.name], stdout=subprocess.PIPE, check=True).stdout.decode("ascii")
    answers = out.split("--\n")
    if answers.pop() != "" or len(answers) != len(items):
        sys.exit("%s: %d answers to %d items" % (command[0], len(answers), len(items)))
    return answers


def same(ours, theirs, item):
    """Equal, but for the result line of a refused call other than a run: it may be there or not."""
    if ours == theirs:
        return True
    a, b = ours.split("\n"), theirs.split("\n")
    refused = a[0] == b[0] and a[0] != "answer 0" and request_of(item) != RUN
    return refused and [x for x in a if x[:6] != "result"] == [x for x in b if x[:6] != "result"]


def rest_of(item):
    """The request of an item, with its arguments."""
    return item[saved.size_of(item):]


def request_of(item):
    return rest_of(item)[0]


# ---- which listed difference it is

def call_of(item, at):
    """The call number of a single call; None for a run, in which any call may matter."""
    return runs.read_number(item, at + 1)[0] if item[at] == SINGLE else None


def matters(kind, item):
    """The state is one where this difference can be seen at this call."""
    s, at = saved.read(item)
    if item[at] == RUN:
        return True
    call = call_of(item, at)
    opened = [tuple(s.nodes[n - 1][SPACE:NAME + 1]) for n in s.stack]
    if kind in (1, 2, 3):
        names = {1: FOREIGN_SPECIAL, 2: {(HTML, NUMBER["keygen"]), (HTML, NUMBER["search"])}, 3: {(HTML, ISINDEX)}}[kind]
        return call in (8, 9, 10) and any(tag in names for tag in opened)
    if kind in (4, 5):
        tag = {4: ANNOTATION, 5: (HTML, NUMBER["select"])}[kind]
        return call in (8, 9, 11) and tag in opened
    if kind == 6:
        _, (name, pairs), _ = runs.read_record(item, at + 1)
        return call == 4 and any(swapped(s, e, name, pairs) for e in s.list)
    tables = [i for i, tag in enumerate(opened) if tag == TABLE_TAG]
    if not s.foster or not tables or call not in (1, 2, 3, 4, 7, 8, 9):
        return False
    table = s.nodes[s.stack[tables[-1]] - 1]
    if kind == 7:
        return table[PARENT] == 0 and opened[tables[-1] - 1] == TEMPLATE
    parent = s.nodes[table[PARENT] - 1] if table[PARENT] else None
    return parent is not None and parent[KIND] == ELEMENT and tuple(parent[SPACE:NAME + 1]) == TEMPLATE


def swapped(s, entry, name, pairs):
    if entry == MARKER or s.nodes[entry - 1][NAME] != name:
        return False
    node = s.nodes[entry - 1]
    have = [tuple(p) for p in s.pairs[node[START]:node[START] + node[COUNT]]]
    return have != pairs and sorted(have) == sorted(pairs)


SUBSETS = [frozenset(x) for size in range(1, 9) for x in itertools.combinations(range(1, 9), size)]
RULES = {x: Rules(x) for x in SUBSETS}


def listed(item, ours, theirs):
    """The listed kinds that together make the Rust's answer; None if there are none."""
    if theirs == "answer panic\n":
        request = request_of(item)
        refused = ours.startswith("answer 3\n")
        if refused and request == RESET:
            return ("panic at reset",)
        if refused and request == TOKENIZER:
            return ("panic at tokenizer state",)
        return None
    for kinds in SUBSETS:
        if serve(item, RULES[kinds]) == theirs and all(matters(k, item) for k in kinds):
            return tuple(sorted(kinds))
    return None


# ---- telling

def describe(item):
    s, at = saved.read(item)
    def tag(n):
        f = s.nodes[n - 1]
        return "%s%s:%d" % (("", "math ", "svg ")[f[SPACE]], text_of(f[NAME]), n)
    lines = ["  open: " + ", ".join(tag(n) for n in s.stack),
             "  list: " + ", ".join("marker" if e == MARKER else tag(e) for e in s.list),
             "  foster %d, head seen %d, context %s, modes %s, room %s" % (s.foster, s.head, s.context, s.modes, list(s.room))]
    for i, f in enumerate(s.nodes):
        lines.append("  node %d: %s" % (i + 1, " ".join(map(str, f))) + (" " + tag(i + 1) if f[KIND] == ELEMENT else ""))
    if s.pairs:
        lines.append("  pairs: %s" % s.pairs)
    lines.append("  request: %s" % item[at:].hex())
    return "\n".join(lines)


class Report:
    def __init__(self, options):
        self.options, self.failed, self.compared, self.asked = options, 0, Counter(), 0
        self.kinds, self.where, self.smallest, self.answers = Counter(), Counter(), {}, Counter()

    def met(self, kinds, item, what):
        self.kinds[kinds] += 1
        self.where[kinds, what] += 1
        if len(kinds) == 1 and request_of(item) != RUN:
            best = self.smallest.get(kinds[0])
            if best is None or len(item) < len(best):
                self.smallest[kinds[0]] = item

    def fail(self, title, item, ours, theirs):
        self.failed += 1
        if self.options.first:
            sys.exit("DIFFERENT: %s" % title)
        if self.failed > 5:
            return
        print("DIFFERENT: %s\n%s\n  model: %s\n  other: %s\n  item: %s" % (title, describe(item), ours.strip(), theirs.strip(), item.hex()))


def oracle_differs(command, item):
    ours, theirs = serve(item), ask(command, [item])[0]
    return not same(ours, theirs, item) and listed(item, ours, theirs) is None


def compare_items(report, what, pairs, stream_of=None):
    """pairs: items with the model's answers. stream_of gives an item's stream and record, to make it smaller."""
    items = [item for item, _ in pairs]
    report.compared[what] += len(items)
    for i, (item, ours) in enumerate(pairs):
        lines = ours.split("\n")
        report.answers[what, lines[0]] += 1
        if lines[0] == "answer 0" and (i % 20 == 0 or what == "states"):
            if not sound(saved.read(bytes.fromhex(lines[-2]))[0]):
                report.fail("%s: the model's own state after it isn't sound" % what, item, ours, "")
        if len(lines) > 3 and request_of(item) == SINGLE and int(lines[1].split()[1]) > 32:
            report.fail("%s: more than 32 nodes taken" % what, item, ours, "")
    options = report.options
    if options.oracle:
        for i, theirs in enumerate(ask(options.oracle, items)):
            item, ours = pairs[i]
            if same(ours, theirs, item):
                continue
            kinds = listed(item, ours, theirs)
            if kinds is not None:
                report.met(kinds, item, what)
                continue
            differs = lambda it: oracle_differs(options.oracle, it)
            small_answers(report, "%s, not on the list" % what, item, options.oracle, differs, stream_of and stream_of(i))
    for other in options.other:
        compare_other(report, what, pairs, other, stream_of)


def compare_other(report, what, pairs, other, stream_of):
    """An implementation that must give the model's answer everywhere."""
    report.asked += len(pairs)

    def differs(item):
        return not same(serve(item), ask(other, [item])[0], item)
    for (i, (item, ours)), theirs in zip(enumerate(pairs), ask(other, [item for item, _ in pairs])):
        if not same(ours, theirs, item):
            small_answers(report, "%s, %s" % (what, other[0]), item, other, differs, stream_of and stream_of(i))


def small_answers(report, title, item, command, differs, source):
    if report.failed < 5 and not report.options.first:
        if source is not None:
            item = smaller_stream(source, differs) or item
        else:
            item = shrink_item(item, differs)
    report.fail(title, item, serve(item), ask(command, [item])[0])


def smaller_stream(source, differs):
    (room, context, records), upto = source
    def last_item(chosen):
        return list(gen.stream_items((room, context, chosen)))[-1][0]
    if upto == 0:
        return None
    records = shrink_records(records[:upto], lambda chosen: bool(chosen) and differs(last_item(chosen)))
    print("records: " + " ".join(r.hex() for r in records))
    return last_item(records)


# ---- the four comparisons

def chunks(count, size):
    for start in range(0, count, size):
        yield range(start, min(count, start + size))


def rng_of(options, kind, i):
    return random.Random("%d %s %d" % (options.seed, kind, i))


def compare_streams(report):
    options, shown = report.options, 0
    for chunk in chunks(options.streams or options.records, 200):
        done = report.compared["records of streams"]
        if options.records and done >= options.records:
            return
        if options.records and done // 250000 > shown:
            shown = done // 250000
            print("%d records, %d on no list" % (done, report.failed), flush=True)
        pairs, sources = [], []
        for i in chunk:
            stream = gen.stream(rng_of(report.options, "streams", i))
            for k, pair in enumerate(gen.stream_items(stream)):
                pairs.append(pair)
                sources.append((stream, k))
        compare_items(report, "records of streams", pairs, lambda i: sources[i])


def compare_states(report):
    for chunk in chunks(report.options.states, 2000):
        items = [gen.state_item(rng_of(report.options, "states", i)) for i in chunk]
        compare_items(report, "states", [(item, serve(item)) for item in items])


def compare_damaged(report):
    for chunk in chunks(report.options.damaged, 2000):
        items = [gen.damaged_item(rng_of(report.options, "damaged", i)) for i in chunk]
        compare_items(report, "damaged states", [(item, serve(item)) for item in items])


def compare_runs(report):
    """Whole runs from a begin: records with mistakes in their bytes, and streams as they are."""
    for chunk in chunks(report.options.runs, 500):
        items = []
        for i in chunk:
            rng = rng_of(report.options, "runs", i)
            if i % 2:
                items.append(gen.run_item((gen.LARGEST, None, [gen.run_bytes(rng)])))
            else:
                items.append(gen.run_item(gen.stream(rng), keep_refused=i % 10 == 0))
        items = [item for item in items if item is not None]
        compare_items(report, "runs", [(item, serve(item)) for item in items])


def compare_names(report):
    if report.options.names:
        compare_all(report, "items with every name", every.every_name())


def compare_every(report):
    if report.options.every:
        compare_all(report, "records of every stream", every.every_stream(report.options.every))


def compare_all(report, what, items):
    while True:
        some = list(itertools.islice(items, 5000))
        if not some:
            return
        compare_items(report, what, [(item, serve(item)) for item in some])


def program_input(rng):
    data = gen.run_bytes(rng) if rng.random() < 0.5 else b"".join(gen.stream(rng, deep=0.05)[2])
    how = rng.random()
    if how < 0.1:       # at and past the 16,384 bytes
        text = gen.record(2, 5)
        data = data + text * (16384 // 2)
        data = data[:16384 + rng.choice([-1, 0, 1, 2])]
    elif how < 0.15:    # past 2,048 nodes
        data = gen.record(1, 0, gen.DIV, 0, pairs=[]) * (2040 + rng.randrange(12)) + data
    return data


def compare_programs(report):
    options = report.options
    for i in range(options.programs):
        data = program_input(rng_of(options, "programs", i))
        wanted = [(options.oracle + ["--program"], lambda d: runs.program(d, RUST))] if options.oracle else []
        wanted += [(other, runs.program) for other in options.program]
        for command, model in wanted:
            report.compared["programs"] += 1
            out = subprocess.run(command, input=data, stdout=subprocess.PIPE).stdout.decode("ascii", "replace")
            ours = model(data)
            if out != ours:
                report.failed += 1
                if options.first:
                    sys.exit("DIFFERENT: program")
                if report.failed <= 5:
                    print("DIFFERENT: program %s\n  input: %s\n--- model\n%s--- other\n%s" % (command[0], data.hex(), ours[-2000:], out[-2000:]))


def show_smallest(report):
    for kind, item in sorted(report.smallest.items(), key=lambda x: str(x[0])):
        def still(it, kind=kind):
            theirs = ask(report.options.oracle, [it])[0]
            ours = serve(it)
            return not same(ours, theirs, it) and listed(it, ours, theirs) == (kind,)
        item = shrink_item(item, still)
        print("smallest of %s: %s\n%s" % (kind, KINDS[kind], describe(item)))


def main():
    parser = argparse.ArgumentParser()
    parser.add_argument("--seed", type=int, default=1)
    for name in ("streams", "states", "damaged", "runs", "programs"):
        parser.add_argument("--" + name, type=int, default=0)
    parser.add_argument("--records", type=int, default=0)
    parser.add_argument("--oracle", default=os.path.join(HERE, "oracle", "target", "release", "oracle"))
    parser.add_argument("--other", action="append", default=[])
    parser.add_argument("--program", action="append", default=[])
    parser.add_argument("--no-oracle", action="store_true")
    parser.add_argument("--empty-start-zero", action="store_true")
    parser.add_argument("--smallest", action="store_true")
    parser.add_argument("--names", action="store_true")
    parser.add_argument("--every", type=int, default=0)
    parser.add_argument("--first", action="store_true")
    options = parser.parse_args()
    State.empty_start_zero = options.empty_start_zero
    options.oracle = None if options.no_oracle else [options.oracle] + ["--empty-start-zero"] * options.empty_start_zero
    options.other = [[x] for x in options.other]
    options.program = [[x] for x in options.program]
    report = Report(options)
    start = time.time()
    for compare in (compare_states, compare_every, compare_runs, compare_streams, compare_damaged, compare_names, compare_programs):
        compare(report)
    print("compared, seed %d, %.0f s:" % (options.seed, time.time() - start))
    if options.other:
        print("  three ways: the model, the Rust, %s" % ", ".join(os.path.basename(x[0]) for x in options.other))
    for what, count in report.compared.items():
        given = sorted((a.split()[1], n) for (w, a), n in report.answers.items() if w == what)
        print("  %d %s; answers %s" % (count, what, ", ".join("%s: %d" % x for x in given)))
    if options.other:
        print("  the proved builder was asked %d of them" % report.asked)
    print("listed differences from the Rust:")
    for kinds, count in sorted(report.kinds.items(), key=lambda x: (len(x[0]), str(x[0]))):
        where = ", ".join("%d %s" % (n, what) for (k, what), n in report.where.items() if k == kinds)
        print("  %s: %d (%s)%s" % (" + ".join(map(str, kinds)), count, where, "  " + KINDS[kinds[0]] if len(kinds) == 1 else ""))
    if options.smallest and options.oracle:
        show_smallest(report)
    print("differences on no list: %d" % report.failed)
    sys.exit(1 if report.failed else 0)


if __name__ == "__main__":
    main()
