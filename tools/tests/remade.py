"""Rows that tools make are those of crates/cases/data, byte for byte, when they are made anew; and what tools/rows/kinds.js makes of a file that lacks some.

`beginnings` and `mixes` take a minute each and aren't tried here: `node tools/rows/worked.js beginnings | cmp - crates/cases/data/beginnings`, and `limits.js mixes`.
"""
import json
import subprocess

from libraries import node
from recipes import same

TOP = __file__.rsplit('/tools/tests/', 1)[0]
DATA = f'{TOP}/crates/cases/data'
OF_KINDS = ['nodes', 'views', 'ranks', 'numbers', 'plans', 'trees']


def text_of(name):
    with open(f'{DATA}/{name}', encoding='utf-8') as file:
        return file.read()


def printed(*words, given=''):
    """What a script prints."""
    ran = subprocess.run([node(20), *words], input=given, stdout=subprocess.PIPE, stderr=subprocess.PIPE, encoding='utf-8')
    same((ran.returncode, ran.stderr), (0, ''), words)
    return ran.stdout


def remade_kinds(texts):
    """What tools/rows/kinds.js makes of files with these texts, by their names."""
    script = ("const { rows } = require(process.argv[1]); const texts = JSON.parse(require('fs').readFileSync(0, 'utf8'));"
              'console.log(JSON.stringify(Object.fromEntries(Object.entries(texts).map(([name, text]) => [name, rows(name, text)]))));')
    return json.loads(printed('-e', script, f'{TOP}/tools/rows/kinds.js', given=json.dumps(texts)))


def made_of_kinds(_):
    texts = {it: text_of(it) for it in OF_KINDS}
    same(remade_kinds(texts), texts)


def made_of_new_kinds(_):
    """A kind without a row gets one in each file that has one of each, and a row without its answer, or with another, gets it."""
    lacking, more, rows = {}, {}, {
        'nodes': 'node line\t(ThisExpression )\t(Program 0-2 (ThisExpression 0-1))\n',
        'views': 'node views\t(ThisExpression )\t(true, false, false)(false, false)\n',
        'ranks': 'node rank\t(ThisExpression )\t(Some(Primary), false)\n',
    }
    for name, row in rows.items():
        kind = row.split('(')[1].split(' ')[0]
        kept = [it for it in text_of(name).splitlines(True) if f'({kind} ' not in it]
        same(text_of(name).count(row), 1, name)
        lacking[name], more[name] = ''.join(kept), ''.join(kept) + row
    whole = 'plan\tnew a\tNewExpression 00000000, Identifier 00000000, total 0\n'
    for name, given in [('plans', 'plan\tnew a\n'), ('numbers', 'numbers\tnew a\t\n'), ('trees', 'tree\t(\tsyntax\n')]:
        lacking[name] = given
    more.update({'plans': whole, 'numbers': 'numbers\tnew a\tIdentifier 2;NewExpression 1;ExpressionStatement;Program;\n', 'trees': lacking['trees']})
    same(remade_kinds(lacking), more)


def made_of_worked_texts(_):
    for name in ['flat', 'failures', 'worked', 'resolved', 'calls', 'gauged']:
        same(printed(f'{TOP}/tools/rows/worked.js', name) == text_of(name), True, name)


def made_of_limits(_):
    same(printed(f'{TOP}/tools/rows/limits.js', 'limits') == text_of('limits'), True)


TESTS = [made_of_kinds, made_of_new_kinds, made_of_worked_texts, made_of_limits]
