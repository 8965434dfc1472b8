"""Document 01's corners and those of its readings, row by row, on the model and on the oracle (or another implementation).

python3 corners.py [IMPLEMENTATION ...]: executables that read a batch file; without one, the model and the oracle."""
import os
import sys

import gen
from compare import HERE, ask
from gen import A, B, record
from model import builder, runs, saved
from model.names import HTML, NUMBER, text_of
from model.saved import ELEMENT, FIRST, KIND, LARGEST, MARKER, NAME, NEXT, PIECE, TEXT, TIE
from model.serve import CHECK, RESET, RUN, SINGLE, serve
from model.state import State


def el(name, push=1):
    return record(1, 0, NUMBER[name], push, pairs=[])


def fm(name, pairs=()):
    return record(4, NUMBER[name], pairs=list(pairs))


def after(*records, room=LARGEST, context=None):
    """The state after these records from a begin, in the model; none may be refused."""
    s = State(room)
    builder.begin(s, context)
    for r in records:
        answer, _ = runs.single(s, r)
        assert answer == 0, (r, answer)
    return s


def made(s, change=None):
    if change:
        change(s)
    return s.save().pack()


def tree(s, n):
    f = s.nodes[n - 1]
    if f[KIND] == TEXT:
        i, out = f[PIECE], []
        while i:
            out.append("#%d" % s.pieces[i - 1][0])
            i = s.pieces[i - 1][1]
        return " ".join(out)
    if f[KIND] != ELEMENT:
        name = {1: "document", 4: "!%d" % f[NAME], 5: "content"}[f[KIND]]
    else:
        name = text_of(f[NAME])
    kids, c = [tree(s, f[TIE])] if f[TIE] and f[KIND] == ELEMENT else [], f[FIRST]
    while c:
        kids.append(tree(s, c))
        c = s.nodes[c - 1][NEXT]
    return name + ("(%s)" % ", ".join(kids) if kids else "")


def seen(text):
    """What a row speaks of: answer, result, stack, list, tree."""
    lines = text.strip().split("\n")
    if lines[0] == "answer panic":
        return {"answer": "panic"}
    s, _ = saved.read(bytes.fromhex(lines[-1]))
    out = {"answer": int(lines[0].split()[1])}
    if len(lines) == 3:
        out["result"] = int(lines[1].split()[1])
    if s.nodes:
        name = lambda n: text_of(s.nodes[n - 1][NAME])
        out["stack"] = " ".join(name(n) for n in s.stack)
        out["list"] = " ".join("|" if e == MARKER else name(e) for e in s.list)
        out["tree"] = tree(s, 1)[len("document("):-1]
        out["nodes"] = s.used[0]
    return out


def single(state, r):
    return state + bytes([SINGLE]) + r


def rows():
    """(title, item, what must be seen)"""
    body = el("body")
    misnested = after(body, fm("b"), el("p"), record(2, 1))
    yield "* end b takes one node", single(made(misnested), record(8, B)), {"answer": 0, "result": 1, "stack": "html body p", "list": "", "tree": "html(body(b, p(b(#1))))"}
    yield "* and text after it", made(after()) + bytes([RUN]) + b"".join([body, fm("b"), el("p"), record(2, 1), record(8, B), record(2, 2)]), {
        "answer": 0, "result": 6, "tree": "html(body(b, p(b(#1), #2)))"}
    five = after(body, *(fm(n) for n in "abius"), el("p"))
    yield "* a b i u s p, end a", single(made(five), record(8, A)), {
        "answer": 0, "result": 4, "stack": "html body i u s p", "list": "i u s",
        "tree": "html(body(a(b(i(u(s)))), i(u(s(p(a))))))"}
    yield "* current b not in the list", single(made(after(body, fm("i"), el("b"))), record(8, B)), {"answer": 0, "result": 0, "stack": "html body i", "list": "i"}
    yield "* entry b not open, current not b", single(made(after(body, fm("b"), record(14), el("p"))), record(8, B)), {
        "answer": 0, "result": 0, "stack": "html body p", "list": ""}
    cell = after(body, fm("b"), *(el(n) for n in ("table", "tbody", "tr", "td")))
    yield "* b out of scope", single(made(cell), record(8, B)), {"answer": 0, "result": 0, "stack": "html body b table tbody tr td", "list": "b", "nodes": 8}
    yield "* a fourth b drops the first", single(made(after(*[fm("b")] * 3)), fm("b")), {"answer": 0, "list": "b b b", "nodes": 6}
    yield "* a marker between: none", single(made(after(fm("b"), record(5), fm("b"), fm("b"))), fm("b")), {"answer": 0, "list": "b | b b b"}
    foster = after(body, el("table"), el("tr"), record(15, 1), record(2, 1))
    yield "* fostered texts join", single(made(foster), record(2, 2)), {"answer": 0, "tree": "html(body(#1 #2, table(tr)))"}
    for context, head, mode in (("td", 0, 7), ("head", 0, 7), ("html", 0, 3), ("html", 1, 6)):
        state = after(record(18, head), context=(HTML, NUMBER[context], 0))
        yield "* reset in context %s, head %d" % (context, head), made(state) + bytes([RESET]), {"answer": 0, "result": mode}

    for free, answer in ((31, 4), (32, 0)):
        room = (2 + 4 + free,) + LARGEST[1:]
        yield "%d free nodes at 8" % free, single(made(after(body, fm("b"), el("p"), record(2, 1), room=room)), record(8, B)), {"answer": answer}
        yield "%d free nodes at 8, nothing to do" % free, single(made(after(el("p"), record(2, 1), el("p"), fm("i"), room=room)), record(8, B)), {"answer": answer}
        yield "%d free nodes at 9 without a" % free, single(made(after(el("p"), el("p"), el("p"), fm("i"), room=room)), record(9)), {"answer": 0, "result": 0}
        yield "%d free nodes at 9" % free, single(made(after(el("p"), el("p"), el("p"), fm("a"), room=room)), record(9)), {"answer": answer}
    deep = after(*[el("div")] * 510)
    yield "511 open: push", single(made(deep), el("div")), {"answer": 0, "nodes": 513}
    deep = after(*[el("div")] * 511)
    yield "512 open: push", single(made(deep), el("div")), {"answer": 5}
    yield "512 open: no push", single(made(deep), el("div", 0)), {"answer": 0}

    nine = [fm("b")] + sum([[fm(n, [(1, k)]) for n in "ius"] + [el("div")] for k in range(9)], [])
    yield "32 nodes in one call", single(made(after(*nine)), record(8, B)), {"answer": 0, "result": 32}

    def other_order(s):                     # stack html b i p, list i marker b
        s.list = [s.stack[2], None, s.stack[1]]
    yield "a later round finds no entry", single(made(after(fm("b"), fm("i"), el("p")), other_order), record(8, B)), {
        "answer": 0, "result": 2, "stack": "html i p", "list": "i b |"}

    full = after(el("p"), record(2, 1), room=(4, 256, 64, 8192, 4096))
    yield "joined text needs no node", single(made(full), record(2, 2)), {"answer": 0, "tree": "html(p(#1 #2))"}
    none = after(el("p"), room=(3, 256, 64, 0, 4096))
    yield "neither node nor piece: 4", single(made(none), record(2, 2)), {"answer": 4}
    yield "no piece: 7", single(made(after(el("p"), room=(4, 256, 64, 0, 4096))), record(2, 2)), {"answer": 7}
    three = [fm("b")] * 3
    yield "full list, a fourth b", single(made(after(*three, room=(99, 3, 64, 9, 9))), fm("b")), {"answer": 0, "list": "b b b"}
    yield "full list, another", single(made(after(*three, room=(99, 3, 64, 9, 9))), fm("i")), {"answer": 6}
    template = record(1, 0, NUMBER["template"], 1, pairs=[])
    yield "a template wants two nodes", single(made(after(room=(3, 9, 9, 9, 9))), template), {"answer": 4}
    yield "an svg template one", single(made(after(room=(3, 9, 9, 9, 9))), record(1, 2, NUMBER["template"], 1, pairs=[])), {"answer": 0, "nodes": 3}
    yield "inside a template", single(made(after(template)), el("p")), {"answer": 0, "tree": "html(template(content(p)))"}

    def begun_run(data):
        return made(after()) + bytes([RUN]) + data
    seventeen = [(1 + i, 0) for i in range(17)]
    yield "17 pairs", begun_run(fm("b", seventeen)), {"answer": 2, "result": 0}
    yield "17 pairs, cut", begun_run(fm("b", seventeen)[:-1]), {"answer": 9, "result": 0}
    yield "an unknown call", begun_run(el("p") + b"\x13\x80"), {"answer": 2, "result": 1}
    yield "a call number over 65,535", begun_run(b"\x80\x80\x04"), {"answer": 9, "result": 0}
    yield "65,535", begun_run(b"\x02\xff\xff\x03"), {"answer": 0, "result": 1}
    yield "not the shortest form", begun_run(b"\x02\x81\x00"), {"answer": 9, "result": 0}
    yield "a bad number before a bad name", begun_run(b"\x01\x07\x00\x00\x80"), {"answer": 9, "result": 0}
    yield "an empty run", begun_run(b""), {"answer": 0, "result": 0}
    yield "an empty run, not sound", saved.empty().pack() + bytes([RUN]), {"answer": 1, "result": 0}
    yield "nothing begun", saved.empty().pack() + bytes([CHECK]), {"answer": 1}
    yield "begin: one node", saved.empty((1, 9, 9, 9, 9)).pack() + gen.begin_request(None), {"answer": 4}
    yield "begin: a template, no mode", saved.empty((2, 9, 0, 9, 9)).pack() + gen.begin_request((0, NUMBER["template"], 0)), {"answer": 6}
    yield "close p: none", single(made(after(el("p"), el("button"))), record(11)), {"answer": 3}
    yield "close the cell, no marker", single(made(after(fm("b"), el("table"), el("td"), fm("i"), el("p"))), record(12)), {"answer": 0, "list": "", "stack": "html b table"}


def check(title, answers, all_rows):
    wrong = 0
    for (name, _, want), text in zip(all_rows, answers):
        got = seen(text)
        bad = {k: got.get(k) for k in want if got.get(k) != want[k]}
        if bad:
            wrong += 1
            print("%s: %s: %s, not %s" % (title, name, bad, {k: want[k] for k in bad}))
    print("%s: %d corners, %d wrong" % (title, len(all_rows), wrong))
    return wrong


def main():
    all_rows = list(rows())
    items = [item for _, item, _ in all_rows]
    wrong = 0
    others = sys.argv[1:]
    if not others:
        wrong += check("model", [serve(item) for item in items], all_rows)
        others = [os.path.join(HERE, "oracle", "target", "release", "oracle")]
    for other in others:
        wrong += check(os.path.basename(other), ask([other], items), all_rows)
    sys.exit(1 if wrong else 0)


if __name__ == "__main__":
    main()
