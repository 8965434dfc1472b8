"""Hand-made vectors: what the programs write for given records and saved states, on both sides of each boundary.

    python3 tests/vectors.py target/bin

Each row says what must come out; nothing here computes a tree. The last line is `N vectors, M wrong`."""
import pathlib
import subprocess
import sys

ROOT = pathlib.Path(__file__).resolve().parent.parent
NUMBER = {name: i + 1 for i, name in enumerate((ROOT / "names.txt").read_text().split())}
HTML, MATHML, SVG = 0, 1, 2
PUSH, MARK = 1, 2


def number(v):
    out = bytearray()
    while v > 127:
        out.append(v % 128 + 128)
        v //= 128
    out.append(v)
    return bytes(out)


def record(*numbers):
    return b"".join(number(v) for v in numbers)


def element(name, flags=PUSH, space=HTML, pairs=()):
    n = name if isinstance(name, int) else NUMBER[name]
    return record(1, space, n, flags, len(pairs), *[v for pair in pairs for v in pair])


def text(v):
    return record(2, v)


def comment(at, v):
    return record(3, at, v)


def formatting(name, pairs=()):
    return record(4, NUMBER[name], len(pairs), *[v for pair in pairs for v in pair])


def adoption(name):
    return record(8, NUMBER[name])


MARKER, CLEAR, RECONSTRUCT, MISNESTED, POP, UNMODE = record(5), record(6), record(7), record(9), record(14), record(17)
CLOSE_P, CLOSE_CELL = record(11), record(12)


def end(name):
    return record(10, NUMBER[name])


def implied(kind, name=0):
    return record(13, kind, name)


def foster(on):
    return record(15, on)


def mode(v):
    return record(16, v)


def head(on):
    return record(18, on)


EMPTY = ["| <html>"]
B = element("b", 0)
SIXTEEN = [(600 + i, 7) for i in range(16)]

# Nine times i u s div, no two tags equal: of equal ones only three stay in the list.
NINE = b"".join(formatting("i", [(600, k)]) + formatting("u", [(600, k)]) + formatting("s", [(600, k)]) + element("div") for k in range(9))

# Records, the lines of the tree (none: not looked at), records done, answer.
PROGRAM = [
    ("nothing", b"", EMPTY, 0, 0),
    ("body, b, text, pop, text", element("body") + element("b") + text(1) + POP + text(2),
     EMPTY + ["|   <body>", "|     <b>", "|       #1", "|     #2"], 5, 0),
    ("texts join", text(1) + text(65535), EMPTY + ["|   #1 #65535"], 2, 0),
    ("an element parts texts", text(1) + B + text(2), EMPTY + ["|   #1", "|   <b>", "|   #2"], 3, 0),
    ("a comment parts texts", text(1) + comment(0, 5) + text(2), EMPTY + ["|   #1", "|   <!-- #5 -->", "|   #2"], 3, 0),
    ("comments in three places", element("body") + comment(0, 1) + comment(1, 2) + comment(2, 3),
     EMPTY + ["|   <body>", "|     <!-- #1 -->", "|   <!-- #2 -->", "| <!-- #3 -->"], 4, 0),
    ("a comment in a fourth", comment(3, 1), EMPTY, 0, 2),
    ("namespaces", element("title", 0, SVG) + element("mi", 0, MATHML), EMPTY + ["|   <svg title>", "|   <math mi>"], 2, 0),
    ("a fourth namespace", element("title", 0, 3), EMPTY, 0, 2),
    ("host names", element(600, 0) + element(512, 0) + element(65535, 0), EMPTY + ["|   <?600>", "|   <?512>", "|   <?65535>"], 3, 0),
    ("a number below the host's", element(511, 0), EMPTY, 0, 2),
    ("the name 0", element(0, 0), EMPTY, 0, 2),
    ("the last name of the table", element(len(NUMBER), 0), None, 1, 0),
    ("the number after it", element(len(NUMBER) + 1, 0), EMPTY, 0, 2),
    ("html is not taken", element("html"), EMPTY, 0, 2),
    ("html in SVG is", element("html", 0, SVG), EMPTY + ["|   <svg html>"], 1, 0),
    ("a mark on annotation-xml", element("annotation-xml", MARK, MATHML), EMPTY + ["|   <math annotation-xml>"], 1, 0),
    ("a mark on anything else", element("mi", MARK, MATHML), EMPTY, 0, 2),
    ("flags 4", element("b", 4), EMPTY, 0, 2),
    ("an attribute", element("b", 0, pairs=[(600, 7)]), EMPTY + ["|   <b>", "|     @600=#7"], 1, 0),
    ("sixteen attributes", element("b", 0, pairs=SIXTEEN), None, 1, 0),
    ("seventeen", element("b", 0, pairs=SIXTEEN + [(616, 7)]), EMPTY, 0, 2),
    ("an attribute twice", element("b", 0, pairs=[(600, 7), (600, 8)]), EMPTY, 0, 2),
    ("a template", element("template", pairs=[(600, 7)]) + text(1),
     EMPTY + ["|   <template>", "|     @600=#7", "|     content", "|       #1"], 2, 0),
    ("fostering: texts join before the table", element("body") + element("table") + element("tr") + foster(1) + text(1) + text(2),
     EMPTY + ["|   <body>", "|     #1 #2", "|     <table>", "|       <tr>"], 6, 0),
    ("not without the flag", element("body") + element("table") + element("tr") + foster(1) + foster(0) + text(1),
     EMPTY + ["|   <body>", "|     <table>", "|       <tr>", "|         #1"], 6, 0),
    ("not from a cell", element("body") + element("table") + element("tr") + element("td") + foster(1) + text(1),
     EMPTY + ["|   <body>", "|     <table>", "|       <tr>", "|         <td>", "|           #1"], 6, 0),
    ("an element is fostered and pushed", element("body") + element("table") + foster(1) + element("b") + text(1),
     EMPTY + ["|   <body>", "|     <b>", "|       #1", "|     <table>"], 5, 0),
    ("a template met first", element("body") + element("table") + element("template") + element("tr") + foster(1) + text(1),
     EMPTY + ["|   <body>", "|     <table>", "|       <template>", "|         content", "|           <tr>", "|           #1"], 6, 0),
    ("no table: the root's end", element("body") + element("tr") + foster(1) + text(1), EMPTY + ["|   <body>", "|     <tr>", "|   #1"], 4, 0),
    ("flags are 0 or 1", foster(1) + head(1) + foster(2), EMPTY, 2, 2),
    ("head seen is 0 or 1", head(0) + head(2), EMPTY, 1, 2),
    ("pop leaves the root", element("body") + POP + POP, EMPTY + ["|   <body>"], 2, 3),
    ("an end tag across an open element", element("body") + element("b") + element("i") + end("b") + text(1),
     EMPTY + ["|   <body>", "|     <b>", "|       <i>", "|     #1"], 5, 0),
    ("a special element stops it", element("body") + element("b") + element("p") + end("b") + text(1),
     EMPTY + ["|   <body>", "|     <b>", "|       <p>", "|         #1"], 5, 0),
    ("so does a MathML one", element("body") + element("b") + element("mi", PUSH, MATHML) + end("b") + text(1),
     EMPTY + ["|   <body>", "|     <b>", "|       <math mi>", "|         #1"], 5, 0),
    ("nothing of that name is open", element("p") + end("b") + text(1), EMPTY + ["|   <p>", "|     #1"], 3, 0),
    ("the end tag html", end("html"), EMPTY, 0, 2),
    ("an end tag without a name", record(10, 0), EMPTY, 0, 2),
    ("a p is closed with what is in it, once", element("body") + element("p") + element("b") + CLOSE_P + text(1) + CLOSE_P,
     EMPTY + ["|   <body>", "|     <p>", "|       <b>", "|     #1"], 5, 3),
    ("a button hides it", element("body") + element("p") + element("button") + CLOSE_P,
     EMPTY + ["|   <body>", "|     <p>", "|       <button>"], 3, 3),
    ("a cell is closed, and the list cleared", MARKER * 255 + element("table") + element("tr") + element("td") + MARKER + element("b")
     + CLOSE_CELL + comment(0, 1) + MARKER + MARKER,
     EMPTY + ["|   <table>", "|     <tr>", "|       <td>", "|         <b>", "|       <!-- #1 -->"], 263, 6),
    ("no cell", element("table") + CLOSE_CELL, EMPTY + ["|   <table>"], 1, 3),
    ("a table hides it", element("table") + element("tr") + element("th") + element("table") + CLOSE_CELL, None, 4, 3),
    ("implied end tags", element("dd") + element("p") + implied(0) + text(1), EMPTY + ["|   <dd>", "|     <p>", "|   #1"], 4, 0),
    ("but one", element("p") + element("li") + implied(0, NUMBER["p"]) + text(1), EMPTY + ["|   <p>", "|     <li>", "|     #1"], 4, 0),
    ("cursorily a cell stays", element("td") + implied(0) + text(1), EMPTY + ["|   <td>", "|     #1"], 3, 0),
    ("thoroughly it does not", element("table") + element("tbody") + element("tr") + element("td") + implied(1) + comment(0, 1),
     EMPTY + ["|   <table>", "|     <tbody>", "|       <tr>", "|         <td>", "|     <!-- #1 -->"], 6, 0),
    ("a third kind", element("p") + implied(2), EMPTY + ["|   <p>"], 1, 2),
    ("an unknown exception", element("p") + implied(0, 511), EMPTY + ["|   <p>"], 1, 2),
    ("a formatting element", element("body") + formatting("b", [(600, 7)]) + text(1),
     EMPTY + ["|   <body>", "|     <b>", "|       @600=#7", "|       #1"], 3, 0),
    ("a name that is no formatting one", formatting("div"), EMPTY, 0, 2),
    ("a formatting element's attribute twice", formatting("b", [(600, 7), (600, 7)]), EMPTY, 0, 2),
    ("its seventeen attributes", formatting("b", SIXTEEN + [(616, 7)]), EMPTY, 0, 2),
    ("nothing to reconstruct", RECONSTRUCT + formatting("b") + RECONSTRUCT + text(1), EMPTY + ["|   <b>", "|     #1"], 4, 0),
    ("reconstructed with its attributes, once", element("p") + formatting("b", [(600, 7)]) + formatting("i") + CLOSE_P + RECONSTRUCT + RECONSTRUCT + text(1),
     EMPTY + ["|   <p>", "|     <b>", "|       @600=#7", "|       <i>", "|   <b>", "|     @600=#7", "|     <i>", "|       #1"], 7, 0),
    ("not past a marker", formatting("b") + POP + MARKER + RECONSTRUCT + comment(0, 1), EMPTY + ["|   <b>", "|   <!-- #1 -->"], 5, 0),
    ("not past an open one", formatting("b") + POP + formatting("i") + RECONSTRUCT + text(1), EMPTY + ["|   <b>", "|   <i>", "|     #1"], 5, 0),
    ("a fourth equal tag drops the first", element("p") + formatting("b") * 4 + CLOSE_P + RECONSTRUCT + text(1),
     EMPTY + ["|   <p>", "|     <b>", "|       <b>", "|         <b>", "|           <b>", "|   <b>", "|     <b>", "|       <b>", "|         #1"], 8, 0),
    ("with a marker between, none", element("p") + formatting("b") * 3 + MARKER + formatting("b") + CLOSE_P + CLEAR + RECONSTRUCT + text(1),
     EMPTY + ["|   <p>", "|     <b>", "|       <b>", "|         <b>", "|           <b>", "|   <b>", "|     <b>", "|       <b>", "|         #1"], 10, 0),
    ("nor with attributes in another order", element("p") + formatting("b", [(600, 1), (601, 2)]) * 3 + formatting("b", [(601, 2), (600, 1)]) + CLOSE_P
     + MARKER * 252 + MARKER, None, 258, 6),
    ("in the same order one", element("p") + formatting("b", [(600, 1), (601, 2)]) * 4 + CLOSE_P + MARKER * 253 + MARKER, None, 259, 6),
    ("the freed place counts", MARKER * 252 + formatting("b") * 3 + formatting("i") + formatting("b") + formatting("u"), None, 257, 6),
    ("a last node for a formatting element", B * 2045 + formatting("b") + formatting("b"), None, 2046, 4),
    ("a last place for one", element("i") * 510 + formatting("b") + formatting("b"), None, 511, 5),
    ("no pair for one", element("b", 0, pairs=SIXTEEN) * 256 + formatting("b") + formatting("b", [(600, 7)]), None, 257, 8),
    ("two nodes to reconstruct two", element("p") + formatting("b") + formatting("i") + CLOSE_P + B * 2041 + RECONSTRUCT, None, 2046, 0),
    ("one is too few", element("p") + formatting("b") + formatting("i") + CLOSE_P + B * 2042 + RECONSTRUCT, None, 2046, 4),
    ("a place to reconstruct one", formatting("b") + POP + element("i") * 510 + RECONSTRUCT, None, 513, 0),
    ("none", formatting("b") + POP + element("i") * 511 + RECONSTRUCT, None, 513, 5),
    ("document 01's example", element("body") + formatting("b") + element("p") + text(1) + adoption("b") + text(2),
     EMPTY + ["|   <body>", "|     <b>", "|     <p>", "|       <b>", "|         #1", "|       #2"], 6, 0),
    ("past counter 3", element("body") + b"".join(formatting(n) for n in "abius") + element("p") + adoption("a"),
     EMPTY + ["|   <body>", "|     <a>", "|       <b>", "|         <i>", "|           <u>", "|             <s>",
              "|     <i>", "|       <u>", "|         <s>", "|           <p>", "|             <a>"], 8, 0),
    ("a current node that is not in the list", element("body") + element("b") + adoption("b") + text(1), EMPTY + ["|   <body>", "|     <b>", "|     #1"], 4, 0),
    ("an entry that is not open", element("body") + formatting("b") + POP + adoption("b") + RECONSTRUCT + text(1),
     EMPTY + ["|   <body>", "|     <b>", "|     #1"], 6, 0),
    ("a bold tag closed across a cell", element("body") + formatting("b") + element("table") + element("tbody") + element("tr") + element("td") + adoption("b") + text(1),
     EMPTY + ["|   <body>", "|     <b>", "|       <table>", "|         <tbody>", "|           <tr>", "|             <td>", "|               #1"], 8, 0),
    ("no entry: the end-tag path", element("body") + element("b") + element("i") + adoption("b") + text(1),
     EMPTY + ["|   <body>", "|     <b>", "|       <i>", "|     #1"], 5, 0),
    ("an adoption in a table", element("body") + element("table") + element("tr") + foster(1) + formatting("b") + element("p") + text(1) + adoption("b") + text(2),
     EMPTY + ["|   <body>", "|     <b>", "|     <p>", "|       <b>", "|         #1", "|       #2", "|     <table>", "|       <tr>"], 9, 0),
    ("the copy shares the attributes", formatting("b", [(600, 7)]) + element("p") + adoption("b"), EMPTY + ["|   <b>", "|     @600=#7", "|   <p>", "|     <b>", "|       @600=#7"], 3, 0),
    ("an adoption of no formatting name", element("div") + adoption("div"), EMPTY + ["|   <div>"], 1, 2),
    ("32 free nodes", B * 2014 + adoption("b"), None, 2015, 0),
    ("31", B * 2015 + adoption("b"), None, 2015, 4),
    ("an adoption takes 32", formatting("b") + NINE + adoption("b") + B * 1977, None, 2015, 0),
    ("and no fewer", formatting("b") + NINE + adoption("b") + B * 1978, None, 2015, 4),
    ("no misnested a", MISNESTED + formatting("b") + MISNESTED + text(1), EMPTY + ["|   <b>", "|     #1"], 4, 0),
    ("nor does it want a node then", B * 2046 + MISNESTED, None, 2047, 0),
    ("a misnested a", element("body") + formatting("a") + MISNESTED + formatting("a") + text(1), EMPTY + ["|   <body>", "|     <a>", "|     <a>", "|       #1"], 5, 0),
    ("one across a block", element("body") + formatting("a") + element("p") + text(1) + MISNESTED + text(2),
     EMPTY + ["|   <body>", "|     <a>", "|     <p>", "|       <a>", "|         #1", "|       #2"], 6, 0),
    ("one before a marker", element("body") + formatting("a") + MARKER + MISNESTED + text(1), EMPTY + ["|   <body>", "|     <a>", "|       #1"], 5, 0),
    ("one that is out of scope leaves stack and list", element("body") + formatting("a") + element("table") + MISNESTED + POP + text(1),
     EMPTY + ["|   <body>", "|     <a>", "|       <table>", "|     #1"], 6, 0),
    ("31 free nodes for one", formatting("a") + B * 2014 + MISNESTED, None, 2015, 4),
    ("modes are 1 to 21", mode(1) + mode(21) + mode(22), EMPTY, 2, 2),
    ("mode 0", mode(0), EMPTY, 0, 2),
    ("no mode to pop", mode(1) + UNMODE + UNMODE, EMPTY, 2, 3),
    ("64 modes", mode(1) * 64, EMPTY, 64, 0),
    ("65 modes", mode(1) * 65, EMPTY, 64, 6),
    ("256 entries", MARKER * 256, EMPTY, 256, 0),
    ("257 entries", MARKER * 257, EMPTY, 256, 6),
    ("clear makes room", MARKER * 256 + CLEAR + MARKER + MARKER, EMPTY, 258, 6),
    ("512 open", element("b") * 511, None, 511, 0),
    ("513 open", element("b") * 512, None, 511, 5),
    ("a full stack takes what is not pushed", element("b") * 511 + B, None, 512, 0),
    ("2,048 nodes", B * 2046, EMPTY + ["|   <b>"] * 2046, 2046, 0),
    ("one more", B * 2047, EMPTY + ["|   <b>"] * 2046, 2046, 4),
    ("a template takes two", B * 2045 + element("template", 0), EMPTY + ["|   <b>"] * 2045, 2045, 4),
    ("text takes one", B * 2046 + text(1), None, 2046, 4),
    ("joined text takes none", B * 2045 + text(1) + text(2), None, 2047, 0),
    ("4,096 pairs", element("b", 0, pairs=SIXTEEN) * 256, None, 256, 0),
    ("one more pair", element("b", 0, pairs=SIXTEEN) * 256 + element("b", 0, pairs=[(600, 7)]), None, 256, 8),
    ("none of them", element("b", 0, pairs=SIXTEEN) * 256 + B, None, 257, 0),
    ("8,192 pieces, 16,384 bytes", text(1) * 8192, EMPTY + ["|   " + " ".join(["#1"] * 8192)], 8192, 0),
    ("a byte more", text(1) * 8192 + b"\2", None, 8192, 9),
    ("a whole record more", text(1) * 8193, None, 8192, 9),
    ("a refusal before the end stands", POP + text(1) * 8193, EMPTY, 0, 3),
    ("cut: no argument", b"\2", EMPTY, 0, 9),
    ("cut: in a number", b"\2\x80", EMPTY, 0, 9),
    ("cut: in the pairs", element("b", 0, pairs=[(600, 7)])[:-1], EMPTY, 0, 9),
    ("overlong", b"\2\x81\0", EMPTY, 0, 9),
    ("overlong in three bytes", b"\2\x81\x80\0", EMPTY, 0, 9),
    ("65,535", b"\2\xff\xff\3", EMPTY + ["|   #65535"], 1, 0),
    ("65,536", b"\2\x80\x80\4", EMPTY, 0, 9),
    ("four bytes", b"\2\xff\xff\xff\1", EMPTY, 0, 9),
    ("127 and 128", b"\2\x7f\2\x80\1", EMPTY + ["|   #127 #128"], 2, 0),
    ("call 0", b"\0", EMPTY, 0, 2),
    ("call 19, whatever follows", b"\x13\x80", EMPTY, 0, 2),
    ("what was done before stands", text(1) + b"\x13" + text(2), EMPTY + ["|   #1"], 1, 2),
]


def words(*numbers):
    return b"".join(v.to_bytes(2, "little") for v in numbers)


def state(room, used=(0, 0, 0, 0, 0), stack=(), flags=(0, 0), context=(0, 0, 0, 0), rest=()):
    return words(*room, *used, len(stack), *flags, *context, *stack, *rest)


def node(kind, parent=0, before=0, after=0, first=0, last=0, tie=0, space=0, name=0, mark=0, start=0, count=0, piece=0, end=0):
    return (kind, parent, before, after, first, last, tie, space, name, mark, start, count, piece, end)


DOCUMENT, ELEMENT, TEXT = 1, 2, 3
CHECK, BEGIN, SINGLE, RUN = b"\0", b"\1", b"\2", b"\3"
NO_CONTEXT = words(0, 0, 0, 0)


def begun(nodes=8, entries=4, modes=4, pieces=8, pairs=8, context=(0, 0, 0, 0), flags=(0, 0), first_mode=(), depth=1, root=ELEMENT):
    """The state after a begin."""
    html = node(root, parent=1, name=NUMBER["html"])
    return state((nodes, entries, modes, pieces, pairs), (2, 0, len(first_mode), 0, 0), (2,) * depth, flags, context,
                 node(DOCUMENT, first=2, last=2) + html + first_mode)


def written(nodes, pieces):
    """The state with one text of one piece, 5, below the root."""
    return state((nodes, 4, 4, pieces, 8), (3, 0, 0, 1, 0), (2,), rest=node(DOCUMENT, first=2, last=2)
                 + node(ELEMENT, parent=1, first=3, last=3, name=NUMBER["html"]) + node(TEXT, parent=2, piece=1, end=1) + (5, 0))


def fresh(nodes=8, modes=4):
    return state((nodes, 4, modes, 8, 8))


def in_context(space, name, mark=0):
    return words(1, space, name, mark)


def contexts(space, name, mark=0):
    return (1, space, name, mark)


TEMPLATE = NUMBER["template"]
TD = NUMBER["td"]

# State, request, answer, result (none: no such line), state after (none: the same).
STATES = [
    ("begin", fresh(), BEGIN + NO_CONTEXT, 0, None, begun()),
    ("begin overwrites any state", begun(flags=(1, 1)), BEGIN + NO_CONTEXT, 0, None, begun()),
    ("two nodes are enough", fresh(2), BEGIN + NO_CONTEXT, 0, None, begun(2)),
    ("one is not", fresh(1), BEGIN + NO_CONTEXT, 4, None, None),
    ("context td", fresh(), BEGIN + in_context(HTML, TD), 0, None, begun(context=contexts(HTML, TD))),
    ("context template has a mode", fresh(), BEGIN + in_context(HTML, TEMPLATE), 0, None, begun(context=contexts(HTML, TEMPLATE), first_mode=(16,))),
    ("and needs room for it", fresh(modes=0), BEGIN + in_context(HTML, TEMPLATE), 6, None, None),
    ("template in SVG does not", fresh(modes=0), BEGIN + in_context(SVG, TEMPLATE), 0, None, begun(modes=0, context=contexts(SVG, TEMPLATE))),
    ("4 before 6", fresh(1, 0), BEGIN + in_context(HTML, TEMPLATE), 4, None, None),
    ("2 before 4", fresh(1), BEGIN + in_context(3, TD), 2, None, None),
    ("a context without a name", fresh(), BEGIN + in_context(HTML, 0), 2, None, None),
    ("a mark on td", fresh(), BEGIN + in_context(HTML, TD, 1), 2, None, None),
    ("sound", begun(), CHECK, 0, None, None),
    ("flag 2", begun(flags=(2, 0)), CHECK, 1, None, None),
    ("no root on the stack", begun(depth=0), CHECK, 1, None, None),
    ("the root twice", begun(depth=2), CHECK, 1, None, None),
    ("the root is a text", begun(root=TEXT), CHECK, 1, None, None),
    ("mode 22", begun(first_mode=(22,)), CHECK, 1, None, None),
    ("mode 21", begun(first_mode=(21,)), CHECK, 0, None, None),
    ("a call on an unsound state", begun(flags=(2, 0)), SINGLE + POP, 1, None, None),
    ("a run on one", begun(flags=(2, 0)), RUN + text(5), 1, 0, None),
    ("1 before 9", begun(flags=(2, 0)), RUN + b"\2", 1, 0, None),
    ("a text", begun(3, pieces=1), SINGLE + text(5), 0, None, written(3, 1)),
    ("no node", begun(2), SINGLE + text(5), 4, None, None),
    ("no piece", begun(3, pieces=0), SINGLE + text(5), 7, None, None),
    ("neither", begun(2, pieces=0), SINGLE + text(5), 4, None, None),
    ("no piece to join", written(3, 1), SINGLE + text(6), 7, None, None),
    ("in a run the calls before it stand", begun(3, pieces=1), RUN + text(5) + text(6), 7, 1, written(3, 1)),
    ("no entry", begun(entries=0), SINGLE + MARKER, 6, None, None),
    ("no mode", begun(modes=0), SINGLE + mode(1), 6, None, None),
    ("no pair", begun(pairs=0), SINGLE + element("b", pairs=[(600, 7)]), 8, None, None),
    ("a cut record", begun(), SINGLE + b"\2", 9, None, None),
]


def run(program, given):
    return subprocess.run([program], input=given, stdout=subprocess.PIPE, timeout=60).stdout


def main():
    programs = pathlib.Path(sys.argv[1])
    wrong = 0
    for name, given, lines, done, answer in PROGRAM:
        got = run(programs / "dozenpurse", given).decode().split("\n")
        last = f"records {done} answer {answer}"
        good = got[-2:] == [last, ""] and (lines is None or got[:-2] == lines)
        if not good:
            wrong += 1
            print(f"{name}: {got[-4:]}, not {last}")
    for name, before, request, answer, result, after in STATES:
        got = run(programs / "probe", before + request).decode()
        middle = "" if result is None else f"result {result}\n"
        expected = f"answer {answer}\n{middle}{(before if after is None else after).hex()}\n"
        if got != expected:
            wrong += 1
            print(f"{name}: {got!r}, not {expected!r}")
    print(f"{len(PROGRAM) + len(STATES)} vectors, {wrong} wrong")
    return 1 if wrong else 0


if __name__ == "__main__":
    sys.exit(main())
