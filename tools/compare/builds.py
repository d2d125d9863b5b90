#!/usr/bin/env python3
"""Holds another build of the program, such as that of the toolchain's other back end (`rt run --backend rattle`), to the one that ./jslint runs.

    tools/compare/builds.py PROGRAM [--scripts N] [--seed N] [--jobs N] [FOLDER ..]

First each row of crates/cases/data that the command line can say, by PROGRAM alone. Then N scripts (4,000) of the files `*.js` below the folders, of at most
1,000,000 bytes, in an order that looks like none: each command by both, byte for byte, with standard error and status; `verify` is given what `cost` wrote, `same` the script itself.
Status 1 where anything differs.
"""
import argparse
import glob
import multiprocessing
import os
import random
import subprocess
import sys

TOP = os.path.dirname(os.path.dirname(os.path.dirname(os.path.realpath(__file__))))
sys.dont_write_bytecode = True
sys.path.insert(0, f'{TOP}/tools/tests')
import rows

MOST_BYTES = 1000000


def answer(program, words):
    ran = subprocess.run([program, *words], stdin=subprocess.DEVNULL, stdout=subprocess.PIPE, stderr=subprocess.PIPE)
    return ran.returncode, ran.stdout, ran.stderr


def of_script(given):
    """Whether a script was read, and the commands to which the two answer otherwise."""
    path, one, other = given
    differ, status, table = [], 2, b''
    for command in ('check', 'tree', 'fix', 'unwrap', 'mend', 'format', 'cost', 'verify', 'same'):
        words = [command, '--', path]
        if command == 'verify':
            words.append(rows.file_of('table', table))
        if command == 'same':
            words.append(path)
        mine, theirs = answer(one, words), answer(other, words)
        differ += [] if mine == theirs else [f'{command} {path}: {mine[0]} {mine[2][:80]} {len(mine[1])} bytes, {theirs[0]} {theirs[2][:80]} {len(theirs[1])} bytes']
        if command == 'cost':
            status, table = mine[0], mine[1]
    return status == 0, differ


def scripts(folders, seed):
    paths = sorted({os.path.realpath(it) for folder in folders for it in glob.glob(f'{folder}/**/*.js', recursive=True) if os.path.isfile(it)})
    paths = [it for it in paths if os.path.getsize(it) <= MOST_BYTES]
    random.Random(seed).shuffle(paths)
    return paths


def main():
    parser = argparse.ArgumentParser(description='Holds another build of the program to the one that ./jslint runs.')
    parser.add_argument('program')
    parser.add_argument('--scripts', type=int, default=4000)
    parser.add_argument('--seed', type=int, default=1)
    parser.add_argument('--jobs', type=int, default=1)
    parser.add_argument('folders', nargs='*')
    given = parser.parse_intermixed_args()
    ran = subprocess.run([f'{TOP}/jslint', '--program'], stdout=subprocess.PIPE, text=True)
    if ran.returncode or not os.access(given.program, os.X_OK):
        print(f'no program {given.program}' if ran.returncode == 0 else 'no program of ./jslint', file=sys.stderr)
        return 2
    own, other = ran.stdout[:-1], os.path.abspath(given.program)
    with multiprocessing.Pool(given.jobs, rows.begin, (other,)) as pool:
        found = list(rows.rows_in(f'{TOP}/crates/cases/data'))
        wrong = [it for it in pool.imap_unordered(rows.try_row, found, 8) if it]
        paths = scripts(given.folders, given.seed)[:given.scripts]
        answers = pool.map(of_script, [(it, own, other) for it in paths], 4)
    wrong += [it for _, differ in answers for it in differ]
    print(f'{len(found)} rows, {len(paths)} scripts, {sum(it for it, _ in answers)} of them read, {len(wrong)} differences')
    print(*wrong[:20], sep='\n', end='\n' if wrong else '')
    return 1 if wrong else 0


if __name__ == '__main__':
    sys.exit(main())
