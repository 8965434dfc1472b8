#!/usr/bin/env python3
"""Checks what the proofs assume, by what the check says of each program and each static library.

The check names each library that declares functions of C, whose contracts are taken as they are written, and which of them are reached.
`rt ci` refuses a crate of this repository that declares one, so the kit's are all there are. The two programs may reach those that read
and write, and the two that give the text of an error; the static libraries none."""
import os
import re
import subprocess
import sys

PROGRAMS = ('probe', 'dozenpurse')
ALLOWED = {'libc::read', 'libc::write', 'os::c::rattle_errno', 'os::c::__xpg_strerror_r'}


def run():
    """The crates of crates.txt that a machine runs: those with a `main`, and static libraries."""
    with open('crates.txt', encoding='utf-8') as file:
        heads = [line.partition(':')[0].split() for line in file if re.match(r'\w', line)]
    return [head[0] for head in heads if 'staticlib' in head or os.path.exists(f'crates/{head[0]}/src/main.rt')]


def wrong(crate):
    """What is wrong with what the crate's check says that it assumes, or nothing."""
    ran = subprocess.run(['rt', 'check'], cwd=f'crates/{crate}', stdout=subprocess.PIPE, stderr=subprocess.STDOUT, text=True)
    # libraries that were built for it have their lines before its own
    proved = re.findall(r'(?m)^logic=proved .*', ran.stdout)
    lines = re.findall(r'(?m)^axioms \w+: (.*)$', ran.stdout)
    if ran.returncode or not proved or not lines:
        return 'the check does not say that it is proved, and what is reached'
    reached = {name.strip() for line in lines if not line.startswith('none reached') for name in line.split('(')[0].split(',')}
    counted = sum(int(n) for n in re.findall(r'\baxioms=(\d+)', proved[-1]))
    if counted != len(reached) or not reached <= (ALLOWED if crate in PROGRAMS else set()):
        return f'assumes {counted}: {sorted(reached)}'
    return None


def main():
    status = 0
    for crate in run():
        found = wrong(crate)
        if found:
            print(f'{crate}: {found}')
            status = 1
    return status


if __name__ == '__main__':
    sys.exit(main())
