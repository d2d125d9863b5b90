#!/usr/bin/env python3
"""Holds the base profile to an earlier release: what its program and that of ./jslint answer for the texts of the rows, byte for byte.

    tools/compare/earlier.py [REVISION] [--texts N] [--seed N] [--jobs N]

REVISION is a commit whose release/ has the earlier program (by default that of 1.1.8, which knew no other language). N texts (2,500), in an order that looks
like none, of the rows in crates/cases/data of the base profile, accepted ones and refused ones: each command by both, with standard error and status; `verify`
is given what `cost` wrote. Status 1 where anything differs, 2 where there is no such program.
"""
import argparse
import multiprocessing
import os
import random
import subprocess
import sys
import tempfile

TOP = os.path.dirname(os.path.dirname(os.path.dirname(os.path.realpath(__file__))))
sys.dont_write_bytecode = True
sys.path.insert(0, f'{TOP}/tools/tests')
import rows
from builds import answer

REVISION, PROGRAM = 'c7f3a592', 'release/x86_64-linux/jslint'
# The commands that 1.1.8 had.
COMMANDS = ('check', 'tree', 'fix', 'unwrap', 'cost', 'verify')
MOST_BYTES = 10000


def texts():
    """The texts of the rows of the base profile; of a call on bytes, on words or on what is written down otherwise none."""
    found = set()
    for _, line in rows.rows_in(f'{TOP}/crates/cases/data'):
        language, call = rows.call_of(line)
        if language is None and call in ('fix', 'fixes', 'unwrap', 'pairs', 'items', 'tree', 'alike', 'early', 'extra', 'plan', 'check', 'spans', 'cost', 'verify', 'same', 'json', 'begins'):
            found.add(rows.meant(line.split('\t')[1]))
    return sorted(it for it in found if len(it.encode()) <= MOST_BYTES)


def of_text(given):
    """Whether a text is accepted, and the commands to which the two answer otherwise."""
    text, one, other = given
    path, differ, is_accepted, table = rows.file_of('script', text.encode()), [], False, b''
    for command in COMMANDS:
        words = [command, '--', path, *([rows.file_of('table', table)] if command == 'verify' else [])]
        mine, theirs = answer(one, words), answer(other, words)
        differ += [] if mine == theirs else [f'{command} {text[:200]!r}: {mine[0]} {mine[1][-200:]!r} {mine[2][-200:]!r}, earlier {theirs[0]} {theirs[1][-200:]!r} {theirs[2][-200:]!r}']
        if command == 'cost':
            is_accepted, table = mine[0] == 0, mine[1]
    return is_accepted, differ


def main():
    parser = argparse.ArgumentParser(description='Holds the base profile to an earlier release.')
    parser.add_argument('revision', nargs='?', default=REVISION)
    parser.add_argument('--texts', type=int, default=2500)
    parser.add_argument('--seed', type=int, default=1)
    parser.add_argument('--jobs', type=int, default=1)
    given = parser.parse_args()
    own = subprocess.run([f'{TOP}/jslint', '--program'], stdout=subprocess.PIPE, text=True).stdout[:-1]
    shown = subprocess.run(['git', '-C', TOP, 'show', f'{given.revision}:{PROGRAM}'], stdout=subprocess.PIPE, stderr=subprocess.PIPE)
    if shown.returncode or not os.access(own, os.X_OK):
        print(f'no program of ./jslint, or none in {given.revision}', file=sys.stderr)
        return 2
    with tempfile.TemporaryDirectory(prefix='jslint-earlier-') as room:
        earlier = f'{room}/jslint'
        with open(earlier, 'wb') as file:
            file.write(shown.stdout)
        os.chmod(earlier, 0o755)
        name = subprocess.run([earlier, '--version'], stdout=subprocess.PIPE, text=True).stdout.strip()
        chosen = texts()
        random.Random(given.seed).shuffle(chosen)
        with multiprocessing.Pool(given.jobs, rows.begin, (own,)) as pool:
            answers = pool.map(of_text, [(it, own, earlier) for it in chosen[:given.texts]], 16)
    differ = [it for _, some in answers for it in some]
    print(f'{len(answers)} texts, {sum(it for it, _ in answers)} of them accepted, beside {name}: {len(differ)} differences')
    print(*differ[:20], sep='\n', end='\n' if differ else '')
    return 1 if differ or not answers else 0


if __name__ == '__main__':
    sys.exit(main())
