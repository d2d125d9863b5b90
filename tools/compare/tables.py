#!/usr/bin/env python3
"""Holds tools/table_checker to `jslint verify`: the same line and the same status.

    tools/compare/tables.py                                            # the rows of crates/cases/data with a script and a table
    tools/compare/tables.py [--forged N] [--seed N] [--jobs N] --scripts N FOLDER ..   # forged tables of so many scripts that are read

Without --scripts each row is held to what it wants as well, and each script of a row also gets N forged tables (--forged, 3 else). With it, the scripts are
the files `*.js` below the folders, of at most 200,000 bytes, in an order that looks like none; each gets its own table in both formats and N forged ones
(12 else). In the own table of each script, each cell and the total have to be just their bounds. JSLINT names another program than that of `./jslint --program`. Status 1 where anything disagrees.
"""
import argparse
import glob
import importlib.machinery
import importlib.util
import json
import multiprocessing
import os
import random
import subprocess
import sys
from typing import NamedTuple

TOP = os.path.dirname(os.path.dirname(os.path.dirname(os.path.realpath(__file__))))
sys.dont_write_bytecode = True
sys.path.insert(0, f'{TOP}/tools/tests')
import rows

MOST_BYTES, MOST_ROWS = 200000, 20000


def load_checker(path=f'{TOP}/tools/table_checker'):
    """A checker as a module."""
    sys.setrecursionlimit(100000)
    loader = importlib.machinery.SourceFileLoader('table_checker', path)
    module = importlib.util.module_from_spec(importlib.util.spec_from_loader('table_checker', loader))
    loader.exec_module(module)
    return module


checker = load_checker()


def in_full(table):
    """A table in format 1."""
    lines = table.split(b'\n')
    return b'\n'.join([b'jslint-cost 1'] + [it + b' 0' * 8 if it.count(b' ') == 1 and not it.startswith(b'total') else it for it in lines[1:]])


def cell_changed(words, chance):
    at = chance.randrange(2, len(words))
    old = words[at]
    new = chance.choice([b'-', b'0', b'1', b'7', b'16777216', b'16777217', b'00'] + ([b'%d' % (int(old) + 1), b'%d' % max(0, int(old) - 1)] if old.isdigit() else []))
    return words[:at] + [new] + words[at + 1:]


def row_changed(lines, at, chance):
    """The lines with this one changed in a cell, in its type, its number or its spaces, taken out, doubled, or swapped with the next."""
    words = lines[at].split(b' ')
    how = chance.randrange(12)
    if how < 7 and len(words) == 10:
        return lines[:at] + [b' '.join(cell_changed(words, chance))] + lines[at + 1:]
    if how < 7:
        return lines[:at] + [lines[at] + b' 0' * 7 + chance.choice([b' 1', b' -', b' 0'])] + lines[at + 1:]
    if how == 7:
        words[1] = chance.choice([b'Identifier', b'Literal', b'CallExpression', b'Property', b'Program'])
    if how == 8:
        words[0] = b'%d' % chance.randrange(1, len(lines) + 1)
    changed = {9: [], 10: [lines[at]] * 2, 11: [lines[at] + chance.choice([b' ', b' 0', b'\r'])]}.get(how, [b' '.join(words)])
    return lines[:at] + changed + lines[at + 1:]


def forged(table, chance):
    """A table with one to three faults or understatements."""
    if chance.randrange(2):
        table = in_full(table)
    for _ in range(chance.randrange(1, 4)):
        lines = table.split(b'\n')
        how = chance.randrange(20)
        if how < 15 and len(lines) > 3:
            table = b'\n'.join(row_changed(lines, chance.randrange(1, len(lines) - 2), chance))
        elif how < 18 and lines[-2:-1] and lines[-2].startswith(b'total ') and lines[-2][6:].isdigit():
            lines[-2] = b'total %d' % max(0, int(lines[-2][6:]) + chance.choice([-1, 1, 1, 2]))
            table = b'\n'.join(lines)
        elif how == 18:
            table = table[:chance.randrange(len(table) + 1)]
        else:
            table += chance.choice([b'\n', b'1', b'total 0\n'])
    return table


def compared(script, tree, table):
    """None, or how the two answers differ."""
    said = rows.command('verify', script, table)
    theirs = (said.out + said.err, said.status)
    line, status = checker.verify(script, tree, table)
    return None if theirs == (line + '\n', status) else f'verify {theirs}, table_checker {(line, status)}'


def inexact(module, tree, table):
    """The first row of a script's own table whose cells aren't their bounds; 0 if it is the total, or if it is no table of the script; None if
    there is none."""
    try:
        check = module.Check(module.Walk(json.loads(tree)).rows, *module.read_table(table))
    except module.Fault:
        return 0
    for number, row in enumerate(check.rows[1:], 1):
        if [check.bound(row, *it) for it in module.CELLS] != check.cells[number]:
            return number
    costs = [check.least(it, True, 'Any', False) for it in check.rows[0].positions]
    return None if None not in costs and sum(costs) == check.total else 0


def tables_of(script, forgeries, seed):
    """The number of tables of a script that were compared, None where it isn't read, and what differs; also how many tables were refused."""
    tree, cost = rows.command('tree', script), rows.command('cost', script)
    if tree.status or cost.out.count('\n') > MOST_ROWS:
        return None
    own, chance, refused = cost.out.encode(), random.Random(seed), 0
    row = inexact(checker, tree.out, own)
    wrong = [] if row is None else [f'row {row} of its own table is not its bound']
    tables = [own, in_full(own)] + [forged(own, chance) for _ in range(forgeries)]
    for table in tables:
        found = compared(script, tree.out, table)
        wrong += [f'{found}\n{table[:500]!r}'] if found else []
        refused += rows.command('verify', script, table).status == 1
    return len(tables), refused, wrong


def of_file(given):
    path, forgeries, seed = given
    with open(path, 'rb') as file:
        script = file.read()
    found = tables_of(script, forgeries, f'{seed} {len(script)}')
    return found and (found[0], found[1], [f'{path}: {it}' for it in found[2]])


def compare_scripts(given, program):
    paths = sorted({os.path.realpath(it) for folder in given.folders for it in glob.glob(f'{folder}/**/*.js', recursive=True) if os.path.isfile(it)})
    paths = [it for it in paths if os.path.getsize(it) <= MOST_BYTES]
    random.Random(given.seed).shuffle(paths)
    scripts = tables = refused = tried = 0
    wrong = []
    with multiprocessing.Pool(given.jobs, rows.begin, (program,)) as pool:
        for found in pool.imap(of_file, ((it, given.forged or 12, given.seed) for it in paths)):
            tried += 1
            if found:
                scripts, tables, refused, wrong = scripts + 1, tables + found[0], refused + found[1], wrong + found[2]
            if scripts == given.scripts:
                break
    print(f'{scripts} scripts of {tried} files, {tables} tables, {refused} of them refused, {len(wrong)} disagreements')
    return wrong


class TableRow(NamedTuple):
    """A row with a script that is read and a table, and what `verify` is to answer."""
    at: str
    script: bytes
    tree: str
    table: bytes
    want: str


def table_rows():
    """The rows with a table, and the scripts of all rows of tables."""
    found, scripts = [], {}
    for at, line in rows.rows_in(f'{TOP}/crates/cases/data'):
        name, *texts, want = line.split('\t')
        if name not in ('verify', 'cost'):
            continue
        script = rows.meant(texts[0]).encode()
        tree = rows.command('tree', script)
        if tree.status == 0:
            scripts[script] = None
            found += [TableRow(at, script, tree.out, rows.meant(texts[1]).encode(), rows.meant(want))] if name == 'verify' else []
    return found, list(scripts)


def differing(module, found):
    """The rows to which a checker answers otherwise than they want."""
    wrong = []
    for it in found:
        line, status = module.verify(it.script, it.tree, it.table)
        if f'{status} {line}\n' != it.want:
            wrong.append(f'{it.at}: wanted {it.want!r}, is {status} {line}')
    return wrong


def compare_rows(given, program):
    rows.begin(program)
    found, scripts = table_rows()
    wrong = differing(checker, found) + [f'{it.at}: {differs}' for it in found for differs in [compared(it.script, it.tree, it.table)] if differs]
    tables = [tables_of(it, given.forged or 3, f'{given.seed} {number}') for number, it in enumerate(scripts)]
    wrong += [it for each in tables for it in each[2]]
    print(f'{len(found)} rows with a table, {sum(it[0] for it in tables)} tables of their {len(scripts)} scripts, {len(wrong)} disagreements')
    return wrong if found else ['no row was found']


def main():
    parser = argparse.ArgumentParser(description='Holds tools/table_checker to `jslint verify`.')
    parser.add_argument('--scripts', type=int, help='how many scripts that are read are tried')
    parser.add_argument('--forged', type=int, help='how many forged tables each gets')
    parser.add_argument('--seed', type=int, default=1)
    parser.add_argument('--jobs', type=int, default=1)
    parser.add_argument('folders', nargs='*')
    given = parser.parse_args()
    program = os.environ.get('JSLINT')
    if not program:
        ran = subprocess.run([f'{TOP}/jslint', '--program'], stdout=subprocess.PIPE, text=True)
        if ran.returncode:
            return 2
        program = ran.stdout[:-1]
    wrong = compare_scripts(given, program) if given.scripts else compare_rows(given, program)
    print(*wrong[:20], sep='\n', end='\n' if wrong else '')
    return 1 if wrong else 0


if __name__ == '__main__':
    sys.exit(main())
