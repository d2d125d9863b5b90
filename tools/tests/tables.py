"""tools/table_checker: its answers beside `verify`, by the rows and by forged tables (tools/compare/tables.py); what it does with its words and files; and that
slips in it are seen.

Each test is a function that raises where something is wrong. Its argument is a room: a folder of its own.
"""
import importlib.util
import os
import re
import subprocess
import sys

import rows
from recipes import is_well, same

TOP = os.path.dirname(os.path.dirname(os.path.dirname(os.path.realpath(__file__))))
CHECKER = f'{TOP}/tools/table_checker'
# What is planted in the checker, one at a time: each has to be seen.
SLIPS = [
    ('left Update f', 'left Unary f'), ('left Coalesce i f', 'left BitwiseOR i f'), ('right {SYMBOLS[RANK[symbol] + 1]} i', 'right {symbol} i'),
    ('left {symbol} i f', 'left {symbol} f'), ('body Assignment i NoBrace', 'body Assignment i'), ('test ShortCircuit i f', 'test Conditional i f'),
    ('expression Expression Statement', 'expression Expression NoBrace'), ('superClass LeftHandSide', 'superClass Member'), ('callee Call f', 'callee Member f'),
    ('object Own f', 'object Call f'), ('init Expression -', 'init Expression'), ('tag Own f', 'tag Own'), ('argument Unary', 'argument Update'),
    ("'Forced', [], row", "'Expression', [], row"), ('cells[0] + 1]', 'cells[0]]'), ('it[0] > it[1]', 'it[0] > it[1] + 1'), ('self.total > sum(costs)', 'self.total > sum(costs) + 1'),
    ("row.first == 'word' and start == 'Statement'", "row.first == 'word' and start != 'Any'"), ('row.is_in and not has_in', 'row.is_in and has_in'),
    ("(5 if symbol == 'Member'", "(0 if symbol == 'Member'"), ('or [0] * 8', 'or [1] * 8'), (' Shape', ' Form'), ('if at == len(lines) and not rest', 'if at == len(lines)'),
    ("lowest = len(parts) if node['optional'] else lowest", "lowest = len(parts) if node['optional'] and not lowest else lowest"),
]
# Scripts that show slips beside those of the rows.
SCRIPTS = ['f()()(); f().a; new f;', '(a ? b : c) ? d : e;', 'x = y => ({}); for (z = () => ({}); ;);', '(a ?? b) ?? c ?? d; (a && b) ?? c;', 'class A extends (a?.b) {} class B extends f() {}', '(a.b?.c)`t`; (function () {})`t`;',
           'for ((a in b); ;); for (let c = (a in b); ;);', '(() => {})(); (a, b)(); new (f())(); new (f().x)(); new (a.b)(c);', '(a?.b?.c).d; a?.(b)[c];', '(-a) ** b; (a ** b) ** c; a ** (b ** c);',
           'a - (b - c); (a - b) - c; a < (b < c); (a && b) || c; a && (b || c);', '({}).a; ({} = a); (function () {}); (class {}).a; ({}[a])`t`;']


def table_rows(room):
    """The rows and forged tables of their scripts."""
    env = {**os.environ, 'JSLINT': rows.PROGRAM}
    ran = subprocess.run([sys.executable, f'{TOP}/tools/compare/tables.py', '--forged', '1'], cwd=room.folder, env=env, stdout=subprocess.PIPE, stderr=subprocess.STDOUT, text=True)
    is_well(ran.returncode == 0 and re.fullmatch(r'[1-9]\d{3} rows with a table, [1-9]\d\d tables of their [1-9]\d\d scripts, 0 disagreements\n', ran.stdout), ran.stdout[-2000:])


def table_slips(room):
    """Each is seen by a row, or by a script's own table, and nothing where nothing is planted."""
    spec = importlib.util.spec_from_file_location('compare_tables', f'{TOP}/tools/compare/tables.py')
    tables = importlib.util.module_from_spec(spec)
    spec.loader.exec_module(tables)
    found, scripts = tables.table_rows()
    own = [(rows.command('tree', it).out, rows.command('cost', it).out.encode()) for it in [*scripts, *(it.encode() for it in SCRIPTS)] if len(it) < 2000]
    with open(CHECKER, encoding='utf-8') as file:
        text = file.read()
    unseen = []
    for old, new in [('', ''), *SLIPS]:
        is_well(not old or text.count(old) >= 1, f'{old!r} is not in the checker')
        room.put('planted', text.replace(old, new) if old else text)
        planted = tables.load_checker(room.folder + '/planted')
        wrong = tables.differing(planted, found)
        is_inexact = any(tables.inexact(planted, *it) is not None for it in own)
        is_seen = bool(wrong) or is_inexact
        unseen += [] if is_seen == bool(old) else [f'{old!r} as {new!r}: {wrong[:1]}']
    is_well(not unseen, unseen)


def call(words, **how):
    return subprocess.run([sys.executable, CHECKER, *words], stdout=how.pop('stdout', subprocess.PIPE), stderr=subprocess.PIPE, text=True, **how)


def table_words(room):
    """Its answers and refusals on the command line."""
    text = '({}).a;\n'
    room.put('a b.js', text)
    room.put('tree', rows.command('tree', text.encode()).out)
    table = rows.command('cost', text.encode()).out
    room.put('table', table)
    room.put('high', table.replace('total 1', 'total 2'))
    room.put('no tree', '{"type":"Program"}')
    files = [f'{room.folder}/{it}' for it in ('a b.js', 'tree', 'table', 'high', 'no tree', 'missing')]
    script, tree, table, high, no_tree, missing = files
    ran = call([script, tree, table])
    same((ran.returncode, ran.stdout, ran.stderr), (0, 'pairs 1 least 1\n', ''))
    ran = call([script, tree, high])
    same((ran.returncode, ran.stdout, ran.stderr), (1, '', 'jslint: bad table row 0 Total\n'))
    for given in ([], [script, tree], [script, tree, table, table], [script, no_tree, table], [script, table, table], [missing, tree, table], [room.folder, tree, table]):
        ran = call(given)
        is_well(ran.returncode == 2 and not ran.stdout and ran.stderr and 'Traceback' not in ran.stderr, (given, ran))
    with open('/dev/full', 'w', encoding='utf-8') as full:
        same(call([script, tree, table], stdout=full).returncode, 2)
    closed = subprocess.run(['sh', '-c', '"$@" >&-', 'sh', sys.executable, CHECKER, script, tree, table], stderr=subprocess.PIPE)
    same(closed.returncode, 2)


def table_lines(room):
    """That it is short enough to be read in an hour."""
    with open(CHECKER, encoding='utf-8') as file:
        is_well(len(file.readlines()) <= 300, 'more than 300 lines')


TESTS = [table_rows, table_slips, table_words, table_lines]
