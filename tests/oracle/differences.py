"""Each intended difference from the Rust on its smallest input, on both sides, and each place where the Rust panics or empties its stack.

python3 differences.py [PROVED]: the model and the oracle, and the proved builder as far as it takes the call. A row says what must be
seen on each side (corners.py: answer, result, stack, list, tree); both must be seen, and they must differ."""
import os
import struct
import sys

from compare import HERE, ask
from corners import seen
from every import opened, single
from gen import B, record
from model import builder, saved
from model.names import HTML, ISINDEX, MATHML, NUMBER, TEMPLATE
from model.saved import LARGEST
from model.serve import RESET, RUN, TOKENIZER, serve
from model.state import State, append, detach

ORACLE = os.path.join(HERE, "oracle", "target", "release", "oracle")
ANNOTATION = (MATHML, NUMBER["annotation-xml"])


def html(name):
    return HTML, NUMBER[name]


def listed_three():
    """b, b, b in the list: two with href=0 id=0, the third with id=0 href=0."""
    s = State(LARGEST)
    builder.begin(s, None)
    pairs = [(NUMBER["href"], 0), (NUMBER["id"], 0)]
    for order in (pairs, pairs, pairs[::-1]):
        node = s.new_element(HTML, B, 0, order)
        append(s.stack[0], node)
        s.list.append(node)
    return s.save().pack(), pairs[::-1]


def parentless_table():
    """html, template, table open; neither of the two has a parent."""
    s, _ = saved.read(opened([TEMPLATE, html("table")], foster=1))
    s = State.load(s)
    for node in s.stack[1:]:
        detach(node)
    return s.save().pack()


def table_below_template():
    """html, table open; the table is a child of a template element."""
    s, _ = saved.read(opened([html("table")], foster=1))
    s = State.load(s)
    table = s.stack[1]
    template = s.new_element(*TEMPLATE)
    append(s.nodes[1], template)
    append(template, table)
    return s.save().pack()


def rows():
    """Number, title, item, what is seen here, what is seen of the Rust."""
    body, keygen, search = html("body"), html("keygen"), html("search")
    stays = {"answer": 0, "stack": "html b keygen"}
    yield 1, "MathML annotation-xml is special", opened([body, ANNOTATION]) + single(10, NUMBER["body"]), {"stack": "html body annotation-xml"}, {"stack": "html"}
    yield 2, "keygen is special", opened([html("b"), keygen]) + single(10, B), stays, {"stack": "html"}
    yield 2, "search is special", opened([html("b"), search]) + single(10, B), {"stack": "html b search"}, {"stack": "html"}
    yield 3, "isindex is no name", opened([html("b"), (HTML, ISINDEX)]) + single(10, B), {"stack": "html"}, {"stack": "html b ?%d" % ISINDEX}
    yield 4, "MathML annotation-xml bounds scopes", opened([html("p"), ANNOTATION]) + single(11), {"answer": 3}, {"answer": 0, "stack": "html"}
    yield 5, "select bounds no scope", opened([html("p"), html("select")]) + single(11), {"answer": 0, "stack": "html"}, {"answer": 3}
    three, pairs = listed_three()
    yield 6, "the order of pairs counts", three + single(4, B, pairs=pairs), {"list": "b b b b"}, {"list": "b b b"}
    yield 7, "a parentless table above a template", parentless_table() + single(2, 1), {"contents": "#1", "own": ""}, {"contents": "", "own": "#1"}
    yield 8, "a table directly under a template element", table_below_template() + single(2, 1), {"contents": "#1", "own": "table"}, {"contents": "", "own": "#1 table"}
    template = opened([], context=(*TEMPLATE, 0))
    yield "panic", "reset at a template without a mode", template + bytes([RESET]), {"answer": 3}, {"answer": "panic"}
    yield "panic", "tokenizer state without context", opened([]) + bytes([TOKENIZER]) + struct.pack("<H", 0), {"answer": 3}, {"answer": "panic"}


def emptied():
    """Title, state, record, the answer here: the Rust empties its stack, and panics at the next call that asks for the current node."""
    yield "pop with the root alone", opened([]), record(14), 3
    yield "close p without one in button scope", opened([]), record(11), 3
    yield "close the cell without one in table scope", opened([]), record(12), 3
    yield "end tag html", opened([]), record(10, NUMBER["html"]), 2


def look(text):
    """As in the corners, and the children of the last template: of its contents and its own."""
    out = seen(text)
    if out["answer"] == "panic":
        return out
    s = State.load(saved.read(bytes.fromhex(text.strip().split("\n")[-1]))[0]) if out.get("stack") else None
    template = next((n for n in s.nodes if n.kind == 2 and n.tag == TEMPLATE), None) if s else None
    if template is not None:
        name = lambda n: "#%d" % s.texts[n.pieces[0] - 1] if n.pieces else "table"
        out["contents"], out["own"] = (" ".join(map(name, x.children)) for x in (template.tie, template))
    return out


def shows(got, want):
    return all(got.get(k) == v for k, v in want.items())


def check(title, answer, want):
    got = look(answer)
    if shows(got, want):
        return 0
    print("%s: %s, not %s" % (title, {k: got.get(k) for k in want}, want))
    return 1


def main():
    proved = sys.argv[1:]
    wrong = asked = count = 0
    for number, title, item, here, rust in rows():
        count += 1
        label = "%s, %s" % (number, title)
        wrong += check(label + ", model", serve(item), here) + check(label + ", Rust", ask([ORACLE], [item])[0], rust)
        wrong += shows(look(serve(item)), rust)
        if proved:
            asked += 1
            wrong += check(label + ", proved", ask(proved, [item])[0], here)
    for title, state, call, answer in emptied():
        count += 1
        once, twice = (state + bytes([RUN]) + data for data in (call, call + record(2, 1)))
        wrong += check(title + ", model", serve(once), {"answer": answer, "stack": "html"})
        after, later_call = ask([ORACLE, "--unguarded"], [once, twice])
        words = saved.read(bytes.fromhex(after.strip().split("\n")[-1]))[0]
        if words.depth != 0 or not after.startswith("answer 0\n") or later_call != "answer panic\n":
            wrong += 1
            print("%s: the Rust has depth %d, then %s" % (title, words.depth, later_call.strip()))
        if proved:
            asked += 1
            wrong += check(title + ", proved", ask(proved, [once])[0], {"answer": answer, "stack": "html"})
    print("differences: %d rows on both sides, %d on the proved builder, %d wrong" % (count, asked, wrong))
    sys.exit(1 if wrong else 0)


if __name__ == "__main__":
    main()
