#!/usr/bin/env python3
"""Counts rows and edits: it writes crates/cases/stdout, which is what the program `cases` prints where each row's answer is the wanted one, and the counts in
docs/PROOF.md, of rows by the hundred and of wrong bodies in `edits` by fifty.

    python3 tools/rows/count.py            # writes, and names each file that it changed
    python3 tools/rows/count.py --check    # writes nothing: status 1 where another count stands there, or where crates/cases/args lacks a file of rows

A line of a file of rows that is empty or begins with `#` is no row. tools/docs runs --check.
"""
import glob
import itertools
import os
import re
import sys

TOP = os.path.dirname(os.path.dirname(os.path.dirname(os.path.realpath(__file__))))
CASES, PROOF = 'crates/cases', 'docs/PROOF.md'


def read(path):
    with open(f'{TOP}/{path}', encoding='utf-8', newline='') as file:
        return file.read()


def files_of_rows():
    return read(f'{CASES}/args').split()


def rows_of(name):
    """How many rows a file has."""
    return sum(1 for it in read(f'{CASES}/data/{name}').split('\n') if it and not it.startswith('#'))


def printed():
    return ''.join(f'{name}: {rows_of(name)} rows\n' for name in files_of_rows())


def edits():
    """How many wrong bodies the files of edits have."""
    return sum(len(re.findall('^refused: ', read(os.path.relpath(it, TOP)), re.M)) for it in glob.glob(f'{TOP}/edits/*.edits'))


def more_than(count, step):
    """The greatest multiple that is less, with a comma behind its thousands."""
    return f'{(count - 1) // step * step:,}'


def proof(text):
    """docs/PROOF.md with its counts."""
    own = len(glob.glob(f'{TOP}/crates/*/must-fail/*.edit'))
    rows = sum(map(rows_of, files_of_rows()))
    counts = {r'(?<=more than )[\d,]+(?=, in `crates/cases/data`)': more_than(rows, 100), r'[\d,]+(?= in `must-fail/`)': str(own), r'(?<=more than )[\d,]+(?= in `edits/`)': more_than(edits(), 50)}
    for pattern, count in counts.items():
        if len(re.findall(pattern, text)) != 1:
            sys.exit(f'{PROOF}: there is no one place for a count: {pattern}')
        text = re.sub(pattern, count, text)
    return text


def wished():
    """Each file with counts: its text, and what it should be."""
    return {f'{CASES}/stdout': (read(f'{CASES}/stdout'), printed()), PROOF: (read(PROOF), proof(read(PROOF)))}


def faults():
    """What isn't so, each with its file."""
    yield from (f'{CASES}/args: it lacks data/{it}' for it in sorted({*os.listdir(f'{TOP}/{CASES}/data')} - {*files_of_rows()}))
    for path, (old, new) in wished().items():
        pairs = itertools.zip_longest(old.splitlines(), new.splitlines(), fillvalue='')
        at = next((at for at, pair in enumerate(pairs, 1) if pair[0] != pair[1]), None)
        yield from [f'{path}:{at}: the count is another: python3 tools/rows/count.py writes it'] * (at is not None)


def write():
    for path, text in ((path, new) for path, (old, new) in wished().items() if old != new):
        with open(f'{TOP}/{path}', 'w', encoding='utf-8', newline='') as file:
            file.write(text)
        print(f'tools/rows/count.py: wrote {path}')


def main(words):
    if words not in ([], ['--check']):
        print(__doc__.strip(), file=sys.stderr)
        return 2
    found = [*faults()] if words else write() or []
    print(''.join(f'{it}\n' for it in found), end='')
    return 1 if found else 0


if __name__ == '__main__':
    sys.exit(main(sys.argv[1:]))
