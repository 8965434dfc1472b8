#!/usr/bin/env python3
"""Brings imports of the logic's own modules to std's one list of the names that proofs cite.

usage: imports.py [--dry] [REPO]

`use native.Mathlib.Omega.{arith}`, `use mathlib.Core.Path.{sym, ◌∙◌}` become `use Rattle.std.proofs.Common.{sym, ◌∙◌, arith}`; names that this
list does not have come from the module of std that passes on theirs, if there is one. Imports under another name stay as they are.
It rewrites specs/ and proofs/ of each crate. A second run changes nothing.
"""
import glob
import re
import sys

COMMON = '/opt/rattle/rattle/std/proofs/Common.antt'
MODULE = 'Rattle.std.proofs.Common'
# What passes on the names that the list does not have.
LEMMAS = {'borrow.Author.Tests': 'Rattle.std.proofs.lemmas.Bool', 'mathlib.Core.List': 'Rattle.std.proofs.lemmas.List'}
PASSED = re.compile(r'(?:native\.Mathlib|mathlib\.Core|lib|mir)\.(Nat|Numerals|Decide|Path|Logic|Bool|Dec|ListN|Seq|Pow|Facts)$')
OLD = re.compile(r'^use ((?:mathlib|native|borrow|Prim|lib|mir|denote|contract|Rattle\.std\.proofs\.Math)\.[^\s{]+)\.\{([^}]*)\}$')
STD = re.compile(r'^use (Rattle\.std\.specs\.Prelude)\.\{([^}]*)\}$')


def read(path):
    with open(path, encoding='utf-8') as file:
        return file.read()


def listed():
    names = set()
    for group in re.findall(r'(?m)^pub use \S+\.\{([^}]*)\}', read(COMMON)):
        names |= {word.strip() for word in group.split(',')}
    # std's type and not the logic's
    return names - {'String'}


def home(module):
    passed = PASSED.match(module)
    return f'Rattle.std.proofs.Math.{passed[1]}' if passed else LEMMAS.get(module, module)


def turned(text, common):
    lines = text.split('\n')
    unfolded = set(' '.join(re.findall(r'(?m)^\s*unfolding ([^\n]*)', text)).split())
    brought, out, at = [], [], None
    for line in lines:
        old = OLD.match(line)
        here = re.match(r'^use %s\.\{([^}]*)\}$' % re.escape(MODULE), line)
        if here:
            brought += [word.strip() for word in here[1].split(',')]
            at = len(out) if at is None else at
            continue
        if not old:
            out.append(line)
            continue
        names = [word.strip() for word in old[2].split(',')]
        moved = [word for word in names if word in common and word not in unfolded]
        stay = [word for word in names if word not in moved]
        brought += moved
        if moved:
            at = len(out) if at is None else at
        if stay:
            out.append(f'use {home(old[1])}.{{{", ".join(stay)}}}')
    if not brought:
        return '\n'.join(out)
    # what the file has from the Prelude is not brought a second time
    there = set()
    for line in out:
        std = STD.match(line)
        if std:
            there |= {word.strip() for word in std[2].split(',')}
    brought = [word for word in dict.fromkeys(brought) if word not in there]
    if brought:
        out.insert(at, f'use {MODULE}.{{{", ".join(brought)}}}')
    return '\n'.join(out)


def main():
    words = [word for word in sys.argv[1:] if word != '--dry']
    root = words[0] if words else '.'
    common = listed()
    changed = 0
    for path in sorted(glob.glob(root + '/crates/*/specs/**/*.antt', recursive=True) + glob.glob(root + '/crates/*/proofs/**/*.antt', recursive=True)):
        text = read(path)
        new = turned(text, common)
        if new != text:
            changed += 1
            if '--dry' not in sys.argv:
                with open(path, 'w', encoding='utf-8') as file:
                    file.write(new)
    print(f'{changed} files changed')


if __name__ == '__main__':
    main()
