#!/usr/bin/env python3
"""Checks docs/PROMISES.md against the repository.

A row that names a theorem names it as `theorem` (crates/NAME/path.antt); the theorem must be declared in that
file, and the crate must be listed in crates.txt. A row that names a function which meets its contract names it as
`function` (crates/NAME/src/path.rt); it must stand there with an `ensures`. A row that names a line names it as
`path:line` `text`, and the text must stand there. Every other path on the page must exist, and every other name in
backticks must stand in a source, definition or proof. Every public function of a listed crate must be on the page.
"""
import os
import re
import sys

PAGE = 'docs/PROMISES.md'
CITED = re.compile(r'`([^`\s]+)` \((crates/([a-z_0-9]+)/[^)\s]+\.(?:antt|rt))\)')
PLACED = re.compile(r'`(crates/[^`:\s]+):(\d+)` `([^`]+)`')
QUOTED = re.compile(r'`([^`]+)`')
PATH = re.compile(r'\b(?:crates|docs|tests|tools)/[\w/]*(?:\.\w+)?')
COMMENT = re.compile(r'(?://|--).*')
NAME = re.compile(r"[^\W\d][\w'↔→-]*")
PUBLIC = re.compile(r'^ *pub (?:extern "C" )?fn ([a-z_0-9]+)', re.M)


def listed():
    with open('crates.txt', encoding='utf-8') as file:
        lines = (line.split('#')[0].strip() for line in file)
        return {line.split(':')[0].split()[0] for line in lines if line}


def files(folder):
    """The sources, definitions and proofs under a folder, without what is built."""
    for root, folders, names in os.walk(folder):
        folders[:] = sorted(name for name in folders if name != 'out')
        yield from (os.path.join(root, name) for name in sorted(names) if name.endswith(('.rt', '.antt')))


def declared(path, name):
    with open(path, encoding='utf-8') as file:
        text = file.read()
    if path.endswith('.rt'):
        # from the function's name up to its body, or to its end where that starts on the same line
        head = re.search(rf'(?ms)^( *)(?:pub )?(?:extern "C" )?fn {re.escape(name)}\b.*?^\1[{{}}]', text)
        return head is not None and re.search(r'(?m)^ *ensures\b', head[0]) is not None
    return re.search(rf'(?m)^ *pub (?:record |data )?{re.escape(name)}(?= )', text) is not None or \
        re.search(rf'(?m)^ *(?:abbrev |unfoldable )pub {re.escape(name)}(?= )', text) is not None


def public_functions(crates):
    for crate in sorted(crates):
        source = os.path.join('crates', crate, 'src')
        for path in files(source):
            with open(path, encoding='utf-8') as file:
                for function in PUBLIC.findall(file.read()):
                    module = os.path.relpath(path, source)[:-3].replace(os.sep, '::')
                    yield crate, module, function, path


def strange(page, crates):
    """What is quoted on the page and stands nowhere: paths, and names. A comment doesn't count."""
    known = set(crates)
    for path in files('crates'):
        with open(path, encoding='utf-8') as file:
            known.update(NAME.findall(COMMENT.sub('', file.read())))
    page = PLACED.sub('', CITED.sub('', page))
    yield from (path for path in PATH.findall(page) if not os.path.exists(path))
    yield from (quoted for quoted in QUOTED.findall(page) if '/' not in quoted and not known.issuperset(NAME.findall(quoted)))


def main():
    with open(PAGE, encoding='utf-8') as file:
        page = file.read()
    crates = listed()
    wrong = []
    for name, path, crate in CITED.findall(page):
        if crate not in crates:
            wrong.append(f'{PAGE}: {path} is in no listed crate')
        elif not os.path.exists(path):
            wrong.append(f'{PAGE}: {path} does not exist')
        elif not declared(path, name):
            wrong.append(f'{PAGE}: {path} does not declare {name}')
    for path, line, text in PLACED.findall(page):
        with open(path, encoding='utf-8') as file:
            lines = file.read().split('\n')
        if text not in lines[int(line) - 1]:
            wrong.append(f'{PAGE}: {path}:{line} has no {text}')
    for quoted in strange(page, crates):
        wrong.append(f'{PAGE}: {quoted} stands nowhere')
    for crate, _, function, path in public_functions(crates):
        if not re.search(rf'`(?:[A-Za-z_]+::)*{function}`', page):
            wrong.append(f'{PAGE}: {path}: {crate}::{function} is not on the page')
    for line in wrong:
        print(line)
    return 1 if wrong else 0


if __name__ == '__main__':
    sys.exit(main())
