"""What a record of a run costs: the proved builder against plain Rust (plain.rs), in one process (bench.rs).

    tools/libraries.sh
    python3 tests/bench/measure.py [--instructions] [--leaflets N] [--without CALLS] [--limit RATIO]

For each run of records: the time of begin and run, less that for no records, over the records; the median of 41 samples of at least
2 ms that are taken by turns, in this thread's own time. The proved check of the state that was reached is given apart. Both sides must
leave the same nodes. --instructions counts what each executes, by valgrind's callgrind. With --limit the command fails where a ratio
of the insertions, of the leaflets or of instructions is over it. --without names calls to leave out, as 4,7,8,9. Needs rustc; valgrind for
the count."""
import argparse
import os
import pathlib
import re
import subprocess
import sys
import tempfile

HERE = pathlib.Path(__file__).resolve().parent
ROOT = HERE.parent.parent
sys.path.insert(0, str(HERE.parent))
sys.path.insert(0, str(HERE.parent / "oracle"))
import vectors as v  # noqa: E402
from model import names as sets  # noqa: E402

SIXTEEN = [(600 + i, 7) for i in range(16)]
INSERTIONS = {
    "elements, not pushed": v.element("b", 0) * 2000,
    "elements and pops": (v.element("b") + v.POP) * 2000,
    "texts that join": v.text(1) * 8000,
    "texts and elements": (v.text(1) + v.element("b", 0)) * 1000,
    "comments": v.comment(0, 5) * 2000,
    "fostered elements": v.element("table") + v.element("tr") + v.foster(1) + v.element("b", 0) * 1990,
    "16 attributes": v.element("b", 0, pairs=SIXTEEN) * 250,
}


def create(name):
    return v.record(4, v.NUMBER[name], 0)


def adopt(name):
    return v.record(8, v.NUMBER[name])


# Runs of the calls on stack and list, by the calls that they have.
OTHERS = {
    ("paragraphs closed", ()): (v.element("p") + v.text(1) + v.CLOSE_P) * 900,
    ("end tags through five", ()): (b"".join(v.element(n) for n in ("div", "span", "sub", "sup", "ruby")) + v.end("div")) * 400,
    ("formatting made and ended", (4, 8)): (create("b") + v.text(1) + adopt("b")) * 900,
    ("formatting reconstructed", (4, 7)): create("b") + create("i") + (v.POP + v.POP + v.record(7)) * 900,
    ("misnested: b p, end b", (4, 8)): (create("b") + v.element("p") + adopt("b") + v.POP) * 600,
    ("misnested: a b i u s p, end a", (4, 8)): (b"".join(create(n) for n in "abius") + v.element("p") + adopt("a") + v.POP * 4 + v.record(6)) * 180,
}

# The sets of names as bits, for plain.rs.
BITS = ["SPECIAL", "DEFAULT", "BUTTON", "TABLE_SCOPE", "CURSORY", "THOROUGH", "FOSTERING", "FORMATTING"]


def names_file():
    rules = sets.PAPER
    members = [rules.special, rules.default_scope, rules.button_scope, rules.table_scope, sets.CURSORY, sets.THOROUGH, sets.FOSTERING,
               frozenset((sets.HTML, n) for n in sets.FORMATTING_NAMES)]
    last = len(sets.TABLE)
    lines = ["pub const LAST: u16 = %d;" % last]
    for name in "a annotation-xml b body div font href html i li p table td template th tr u".split():
        lines.append("pub const %s: u16 = %d;" % (name.upper().replace("-", "_"), sets.NUMBER[name]))
    for k, name in enumerate(BITS):
        lines.append("pub const %s: u16 = %d;" % (name, 1 << k))
    rows = [[sum(1 << k for k, m in enumerate(members) if (space, n) in m) for n in range(last + 1)] for space in range(3)]
    lines.append("pub static SETS: [[u16; %d]; 3] = %s;" % (last + 1, rows))
    return "\n".join(lines) + "\n"


def build(folder, library):
    (folder / "names.rs").write_text(names_file())
    bench = folder / "bench"
    optimised = ["-C", "opt-level=3", "-C", "codegen-units=1"]
    linked = ["-L", library, "-l", "static=exported", "-l", "static=timed"]
    subprocess.run(["rustc", "--edition", "2021", *optimised, "-o", bench, HERE / "bench.rs", *linked], check=True, env=dict(os.environ, BENCH_NAMES=str(folder)))
    return bench


def instructions(bench, way, path, folder):
    """What begin and run execute, once."""
    function = {"proved": "timed_run", "plain": "*plain*run*"}[way]
    out = folder / "callgrind.out"
    subprocess.run(["valgrind", "--tool=callgrind", "--toggle-collect=" + function, f"--callgrind-out-file={out}", bench, way, path], check=True,
                   stdout=subprocess.DEVNULL, stderr=subprocess.PIPE)
    return int(re.search(r"^(?:totals|summary): (\d+)", out.read_text(), re.M).group(1))


def timed(bench, *args):
    """label, records, nodes, and nanoseconds: proved, plain, check, proved in a library that uses the run twice."""
    run = subprocess.run([bench, *args], stdout=subprocess.PIPE)
    if run.returncode:
        sys.exit(run.stdout.decode().strip())
    for line in run.stdout.decode().splitlines():
        label, *numbers = line.split("\t")
        yield label, *map(float, numbers)


def show_times(idle, rows, leaflets):
    """A line for each run; the worst ratio of the runs of insertions and of the leaflets."""
    worst = every = 0
    for label, records, nodes, proved, plain, check, twice in rows:
        begins = leaflets if "leaflets" in label else 1
        ours, theirs, other = ((t - begins * i) / records for t, i in zip((proved, plain, twice), (idle[0], idle[1], idle[3])))
        every = max(every, ours / theirs)
        if label in INSERTIONS or "leaflets" in label:
            worst = max(worst, ours / theirs)
        print(f"{label}: {ours:.1f} against {theirs:.1f} ns a record, ratio {ours / theirs:.2f}; {records:.0f} records, {nodes:.0f} nodes; "
              f"check {check / 1000 / begins:.1f} us; where the library uses the run twice {other:.1f} ns")
    print(f"worst ratio of time: insertions and leaflets {worst:.2f}, all {every:.2f}")
    return worst


def show_instructions(bench, paths, rows, folder):
    most = 0
    none = {way: instructions(bench, way, paths[0], folder) for way in ("proved", "plain")}
    for path, (label, records, *_) in zip(paths[1:], rows):
        cost = {way: (instructions(bench, way, path, folder) - none[way]) / records for way in none}
        most = max(most, cost["proved"] / cost["plain"])
        print(f"{label}: {cost['proved']:.0f} against {cost['plain']:.0f} instructions a record, ratio {cost['proved'] / cost['plain']:.2f}")
    print(f"worst ratio of instructions {most:.2f}")
    return most


def main():
    parser = argparse.ArgumentParser()
    parser.add_argument("--library", default=ROOT / "target" / "staticlib")
    parser.add_argument("--instructions", action="store_true")
    parser.add_argument("--leaflets", type=int, default=0)
    parser.add_argument("--without", default="", help="calls that the leaflets and runs do without")
    parser.add_argument("--limit", type=float)
    options = parser.parse_args()
    without = [int(x) for x in options.without.split(",") if x]
    runs = dict(INSERTIONS)
    runs.update({label: data for (label, calls), data in OTHERS.items() if not set(calls) & set(without)})
    with tempfile.TemporaryDirectory() as name:
        folder = pathlib.Path(name)
        bench = build(folder, options.library)
        paths = [folder / label for label in ["none", *runs]]
        for path, data in zip(paths, [b"", *runs.values()]):
            path.write_bytes(data)
        (_, _, _, *idle), *rows = timed(bench, "time", *paths)
        print("begin and a run of no records: %.0f ns against %.0f; the check in it %.0f ns" % tuple(idle[:3]))
        if options.leaflets:
            rows += timed(bench, "leaflets", str(options.leaflets), *map(str, without))
        worst = show_times(idle, rows, options.leaflets)
        if options.instructions:
            worst = max(worst, show_instructions(bench, paths, rows, folder))
    return 1 if options.limit and worst > options.limit else 0


if __name__ == "__main__":
    sys.exit(main())
