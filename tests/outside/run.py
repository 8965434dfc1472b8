"""The html5lib tree tests against the builder: inputs as call records, the expected tree against the dump.

    python3 tests/outside/run.py [--folder DIR] [--program PROVED] [--batch PROVED] [--oracle ORACLE] [--least N] [--show]

The tests are those of Debian's package golang-golang-x-net-dev; without it nothing is run, and that is said. Each test that calls 1
to 18 express is run on the model, on html5ever's own tree builder and on the proved program: all must print the expected tree.
Fragments begin with a context, which the program does not: they are asked of the proved builder's batches (--batch
tests/oracle/target/proved). The last line is `N tests, M differ`."""
import argparse
import collections
import os
import re
import subprocess
import sys

from tokens import Skip, tests_of, tokens
from translate import Translator

from compare import ask
from model import runs, saved
from model.serve import RUN, serve
from model.state import State

# What `test` takes for a check that could not be made.
SKIPPED = 77

FOLDER = "/usr/share/gocode/src/golang.org/x/net/html/testdata/webkit"
LINE = re.compile(r"\| ( *)(.*)")


def as_tests_have_it(t, dump):
    """The dump's lines in the form of the tests: attributes sorted by name, texts as they are."""
    out, attributes = [], []
    for line in dump.splitlines()[:-1]:
        indent, thing = LINE.fullmatch(line).groups()
        attribute = re.fullmatch(r"@(\d+)=#(\d+)", thing)
        if attribute:
            attributes.append('| %s%s="%s"' % (indent, t.name_of(int(attribute.group(1))), t.texts[int(attribute.group(2))]))
            continue
        out += sorted(attributes)
        attributes = []
        if thing.startswith("#"):
            thing = '"%s"' % "".join(t.texts[int(n[1:])] for n in thing.split(" "))
        elif thing.startswith("<!-- #"):
            thing = "<!-- %s -->" % t.texts[int(thing[6:-4])]
        elif thing.startswith("<?"):
            thing = "<%s>" % t.name_of(int(thing[2:-1]))
        out.append("| %s%s" % (indent, thing))
    return "\n".join(out + sorted(attributes))


def translated(data, context):
    t = Translator(context)
    for token in tokens(data):
        t.take(token)
    t.finish()
    return t


def found(folder):
    """Translators, names and expected trees of the tests that are translated; and why others are not."""
    tests, left_out = [], collections.Counter()
    for name in sorted(os.listdir(folder)):
        if not name.endswith(".dat"):
            continue
        for i, (data, context, expected) in enumerate(tests_of(os.path.join(folder, name))):
            try:
                t = translated(data, context)
            except Skip as why:
                left_out[str(why)] += 1
                continue
            expected = "\n".join(x for x in expected.split("\n") if not x.startswith("| <!DOCTYPE"))
            tests.append((t, "%s %d" % (name, i + 1), data, expected, context is not None))
    return tests, left_out


def differs(label, t, data, expected, dump, show):
    got = as_tests_have_it(t, dump)
    if got == expected and dump.endswith("records %d answer 0\n" % len(t.records)):
        return 0
    if show:
        print("%s: %r\n--- expected\n%s\n--- got\n%s" % (label, data, expected, got))
    return 1


def program(command):
    return lambda t: subprocess.run(command, input=b"".join(t.records), stdout=subprocess.PIPE).stdout.decode()


def batch(command):
    """A run from the begun fragment; what is below the root as a dump."""
    def run(t):
        item = t.begun + bytes([RUN]) + b"".join(t.records)
        answer, result, state = (serve(item) if command is None else ask(command, [item])[0]).strip().split("\n")
        s = State.load(saved.read(bytes.fromhex(state))[0])
        below = [line.replace("|   ", "| ", 1) for line in runs.dump_lines(s) if line != "| <html>\n"]
        return "".join(below) + "records %s %s\n" % (result.split()[1], answer)
    return run


def ways(options, t, fragment):
    """Who is asked, by name: the model, the Rust, and the proved builder."""
    if fragment:
        yield "the model", batch(None)
        if options.oracle:
            yield "the Rust", batch([options.oracle])
        if options.batch:
            yield "the proved builder", batch([options.batch])
    else:
        yield "the model", lambda t: runs.program(b"".join(t.records))
        if options.oracle:
            yield "the Rust", program([options.oracle, "--program"])
        if options.program:
            yield "the proved builder", program([options.program])


def main():
    parser = argparse.ArgumentParser()
    parser.add_argument("--folder", default=FOLDER)
    parser.add_argument("--program")
    parser.add_argument("--batch")
    parser.add_argument("--oracle")
    parser.add_argument("--least", type=int, default=40)
    parser.add_argument("--show", action="store_true")
    options = parser.parse_args()
    if not os.path.isdir(options.folder):
        print("html5lib tree tests: skipped, no folder %s (package golang-golang-x-net-dev)" % options.folder)
        return SKIPPED
    tests, left_out = found(options.folder)
    counts = collections.Counter()
    for t, label, data, expected, fragment in tests:
        for way, run in ways(options, t, fragment):
            counts[way] += 1
            counts["differ"] += differs("%s, %s" % (label, way), t, data, expected, run(t), options.show)
    print("left out: %d (%s)" % (sum(left_out.values()), ", ".join("%s %d" % x for x in left_out.most_common(12))))
    print(", ".join("%d on %s" % (n, way) for way, n in counts.items() if way != "differ"))
    print("%d tests, %d of them fragments, %d differ" % (len(tests), sum(fragment for *_, fragment in tests), counts["differ"]))
    return 1 if counts["differ"] or len(tests) < options.least else 0


if __name__ == "__main__":
    sys.exit(main())
