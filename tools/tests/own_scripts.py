"""The JavaScript of this repository passes the rules that its jslint.toml turns on, those that ESLint recommends, and is laid out by its `[format]`; and a
script that doesn't pass, or isn't, is seen.

Each test is a function that raises where something is wrong. Its argument is a room: a folder of its own.
"""
import os
import re
import shutil
import subprocess
import sys

import rows
from recipes import is_well, same

TOP = __file__.rsplit('/tools/tests/', 1)[0]
sys.path.insert(0, f'{TOP}/tools')
from own_layout import MARK, unformatted  # noqa: E402


def checked(folder):
    env = {**os.environ, 'JSLINT': rows.PROGRAM}
    return subprocess.run([sys.executable, f'{TOP}/tools/jslint-files', 'check', '--project', '--summary', folder], env=env, stdout=subprocess.PIPE, stderr=subprocess.PIPE, text=True)


def own_scripts(room):
    """No report, and with one line more one."""
    ran = checked(TOP)
    same((ran.returncode, ran.stdout), (0, ''))
    is_well(re.fullmatch(r'0 reports in 1\d\d scripts\n', ran.stderr), ran.stderr)
    os.mkdir(room.folder + '/copy')
    shutil.copy(f'{TOP}/jslint.toml', room.folder + '/copy')
    with open(f'{TOP}/tools/definitions/derive.js', encoding='utf-8') as file:
        text = file.read()
    room.put('copy/derive.js', text + 'for (let i = 0; i < 3; i--) module.exports[i] = 1;\n')
    ran = checked(room.folder + '/copy')
    is_well(ran.returncode == 1 and ran.stdout.count('\n') == 1 and ' for-direction ' in ran.stdout, ran)


def own_layout(room):
    """Each script is laid out, but for tables that say so; and one that isn't is named, or what is refused."""
    env = {**os.environ, 'JSLINT': rows.PROGRAM}
    same(unformatted(TOP, env), ([], ''))
    os.mkdir(f'{room.folder}/copy')
    for it in ('jslint.toml', 'tools'):
        shutil.copy(f'{TOP}/{it}', f'{room.folder}/copy') if it.endswith('.toml') else os.symlink(f'{TOP}/{it}', f'{room.folder}/copy/{it}')
    for name, text in (('a.js', 'f();;\n'), ('table.js', f'// Its rows are {MARK}.\nf( [1,\n 2] );\n'), ('well.js', 'f();\n'), ('refused.js', 'let = ;\n')):
        room.put(f'copy/{name}', text)
    names, said = unformatted(f'{room.folder}/copy', env)
    same(names, [f'{room.folder}/copy/a.js'])
    is_well('refused.js' in said, said)


TESTS = [own_scripts, own_layout]
