"""python3 -m model FILE: the answers to a batch file. python3 -m model --program: standard input run, and the dump."""
import sys

from .names import PAPER, RUST
from .runs import program
from .serve import items, serve
from .state import State


def main():
    args = sys.argv[1:]
    State.empty_start_zero = "--empty-start-zero" in args
    if "--program" in args:
        sys.stdout.write(program(sys.stdin.buffer.read()))
        return
    rules = RUST if "--as-the-rust" in args else PAPER
    path, = (a for a in args if not a.startswith("--"))
    with open(path, "rb") as f:
        batch = f.read()
    for item in items(batch):
        sys.stdout.write(serve(item, rules) + "--\n")


main()
