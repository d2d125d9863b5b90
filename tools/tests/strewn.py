"""What `unwrap` writes of strewn texts in each language, judged by tools/compare/unwrap_judge.js: the same tree, the fewest pairs, each token and each comment in
its place, the same bytes when it is unwrapped again, and a script or module for V8 where the text was one. And that the judge sees the faults of programs
that are wrong.

Each test is a function that raises where something is wrong, and Skipped where it can't be tried. Its argument is a room: a folder of its own.
"""
import os
import re
import subprocess

import recipes
from libraries import node
from recipes import is_well

TOP = os.path.dirname(os.path.dirname(os.path.dirname(os.path.realpath(__file__))))
# How many texts of each language are judged, and how many of each program that is wrong.
TEXTS, FEW = {'base': 500, 'script': 200, 'module': 200}, 60
# Programs that are wrong: what each makes of the right answer, and the number of a fault that is to be seen then (tools/compare/unwrap_check.js).
WRONG = {
    'answers the text always': ('for it; do :; done; cat "$it"', 3),
    'leaves a pair': (r's/= *\([a-z]\)\( *[];,)}]\)/= (\1)\2/', 3),
    'drops comments': (r's,/\* c \*/,,g', 5),
    'drops blanks': ('s/  */ /g', 8),
    'writes another name': (r's/\<a\>/b/g', 2),
    'writes a text that changes again': ('s/$/ /', 4),
    'refuses': ('exit 2', None),
}


def judged(room, program, language, count):
    """The status of the judge, and what it prints."""
    words = [node(20), '--experimental-vm-modules', '--no-warnings', f'{TOP}/tools/compare/unwrap_judge.js', '--language', language, '--n', str(count), '--show', str(count)]
    env = {**os.environ, 'JSLINT': program, 'TMPDIR': room.folder}
    ran = subprocess.run(words, cwd=room.folder, env=env, stdout=subprocess.PIPE, stderr=subprocess.PIPE, text=True)
    is_well(not ran.stderr, ran.stderr[-2000:])
    return ran.returncode, ran.stdout


def strewn(room):
    """The program's answers."""
    for language, count in TEXTS.items():
        status, said = judged(room, f'{recipes.BIN}/jslint', language, count)
        is_well(status == 0 and re.fullmatch(rf'{count} texts, [1-9]\d\d changed, \d+ pairs, \d+ after, 0 faults\n', said), f'{language}: {said}')


def planted(room, name, language):
    """A program that is wrong: the judge ends with 1, and names this fault."""
    change, number = WRONG[name]
    spoils = change if change.startswith(('for ', 'exit ')) else f'"{recipes.BIN}/jslint" "$@" >answer && sed "{change}" answer'
    room.put('wrong', f'#!/bin/sh\n{spoils}\n', 0o755)
    status, said = judged(room, room.folder + '/wrong', language, FEW)
    found = re.findall(r'^(\d+ |refused: )', said, re.M)
    is_well(status == 1 and (f'{number} ' if number else 'refused: ') in found, f'{name}, {language}: status {status}, {said[-2000:]}')


def strewn_faults(room):
    for language in ('base', 'module'):
        for it in WRONG:
            planted(room, it, language)


TESTS = [strewn, strewn_faults]
