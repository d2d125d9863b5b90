"""`jslint-files` over many scripts: folders; standard input; its forms; guesses at what a refused script has; comments that turn reports off; the library and
the program; and what is in its way there.

Each test is a function that raises where something is wrong, and libraries.Skipped where it can't be tried. Its argument is a room: a folder of its own.
"""
import copy
import json
import os
import pty
import random
import re
import shutil
import signal
import sys
import time
import xml.etree.ElementTree

import recipes
import sarif
from files import as_nobody, ended, files, names_below, program, started, until
from libraries import Skipped
from recipes import RIGHT, TOP, WRONG, is_well, same

sys.path.insert(0, f'{TOP}/tools')
from jslint_files import checking, hints  # noqa: E402
from jslint_files.rule_table import MOOT, ON, RULES  # noqa: E402

BUG, CLEAN, MODULE = 'debugger;\n', 'globalThis.a = 1;\n', 'export {};\n'
FOUND_BUG = '1:1: no-debugger debugger statement\n'
NONE = 'jslint-files: no script was looked at'
REFUSED_MODULE = "m.js:1:1: syntax error (perhaps: 'export' makes this a module, which --module reads)\n"
RECORD = f'{TOP}/tools/tests/record.sarif'


def repository(room, **texts):
    os.makedirs(room.path('.git'), exist_ok=True)
    for name, text in texts.items():
        room.put(name, text)


def put(room, names, text=BUG):
    for it in names:
        room.put(it, text)


def project(room, *words, status=None, **more):
    return files(room, *words, '--project', status=status, **more)


def names_in(out):
    return [it.split(':')[0] for it in out.splitlines()]


def has_library():
    return os.path.exists(f'{os.path.dirname(recipes.BIN)}/lib/jslint/libjslint.so')


# ---- folders

def odd_folders(room):
    """Names that aren't UTF-8, hold line feeds, or look like something else; deeper than a path may be long; folders that may not be read."""
    repository(room)
    for name in (b'not\xffutf8/\xfe.js', b'line\nfeed/b.js', b'--write/c.js', '\u202ed/e.js'.encode(), b'*/f.js'):
        os.makedirs(os.path.dirname(room.path(name)))
        with open(room.path(name), 'wb') as file:
            file.write(BUG.encode())
    wanted = {'*/f.js', '--write/c.js', 'line\\x0afeed/b.js', 'not\\xffutf8/\\xfe.js', '\\u{202e}d/e.js'}
    same(set(names_in(project(room)[1])), wanted)
    for form in ('sarif', 'junit', 'json', 'github', 'pretty'):
        status, out, err = project(room, '--format', form)
        same((status, err, len(re.findall(r'debugger statement\b', out))), (1, '', 10 if form == 'junit' else 5), form)
        is_well(form == 'pretty' or 'feed/b.js' not in out.split('line')[0], form)
    same(sarif.faults(json.loads(project(room, '--format', 'sarif')[1])), [])
    same(len(xml.etree.ElementTree.fromstring(project(room, '--format', 'junit')[1].encode())[0]), 5)
    same(project(room, 'fix', '--write')[::2], (0, ''))
    same(names_in(files(room, '--project', '--', '--write', '*')[1]), ['--write/c.js', '*/f.js'])
    at = os.open(room.path('.'), os.O_RDONLY)
    for _ in range(1500):
        os.mkdir('d' * 5, dir_fd=at)
        below = os.open('d' * 5, os.O_RDONLY, dir_fd=at)
        os.close(at)
        at = below
    os.close(at)
    status, out, err = project(room, 'd' * 5)
    is_well((status, err, out.count('\n')) == (2, '', 1) and out.endswith(':1:1: read failed\n'), out[-200:])
    room.run(['rm', '-rf', 'd' * 5], status=0)


def unpermitted(room):
    for it in (os.path.dirname(room.folder), room.folder):
        os.chmod(it, 0o755)
    recipes.install(f'{room.folder}/installed')
    repository(room)
    put(room, ['a/a.js', 'a/closed/b.js', 'b/c.js'])
    room.put('b/.gitignore', '*.min.js', 0)
    os.chmod(room.path('a/closed'), 0)
    try:
        if as_nobody(room, ['jslint-files', '--version'])[0]:
            raise Skipped('nobody can run neither python3 nor the program here')
        same(as_nobody(room, ['jslint-files', '--project', 'a']), (2, f'a/a.js:{FOUND_BUG}a/closed:1:1: read failed: not permitted\n', ''))
        same(as_nobody(room, ['jslint-files', '--project', 'b']), (2, '', f'jslint-files: {os.path.realpath(room.folder)}/b/.gitignore: read failed: not permitted\n'))
        same(as_nobody(room, ['jslint-files', 'unwrap', '--diff', '--project', 'a']), (2, '', 'a/closed:1:1: read failed: not permitted\n'))
    finally:
        os.chmod(room.path('a/closed'), 0o755)


def recipe(room):
    """The commands of docs/USAGE.md as they stand in the page."""
    repository(room)
    put(room, ['src/a.js', 'b.js', 'src/out/c.js'], 'let x = (1); // kept\n')
    room.put('src/m.js', 'export default (1);\n')
    room.put('.gitignore', 'out\n')
    room.put('src/jslint.toml', 'rules = { no-unused-vars = false, prefer-const = false }\n')
    room.put('src/j.js', 'x = <a/>;\n')
    pair, jsx = 'src/a.js:1:9: no-extra-parens unnecessary parentheses\n', "src/j.js:1:5: {}syntax error{}\n"
    first, second, third = recipes.block('A project', 'sh').splitlines()
    module = 'src/m.js:1:16: no-extra-parens unnecessary parentheses\n'
    same(room.sh(first), (1, pair + jsx.format('note: ', " (perhaps: JSX isn't ECMAScript)") + module, '2 reports in 3 scripts, 1 with what the profile lacks: 2 no-extra-parens\n'))
    same(room.sh(third), (1, pair, ''))
    same(room.sh(second), (2, '', jsx.format('', '')))
    same([room.text(it) for it in ('src/a.js', 'b.js', 'src/m.js', 'src/out/c.js')], ['let x = 1; // kept\n'] * 2 + ['export default 1;\n', 'let x = (1); // kept\n'])
    same(room.sh(third), (0, '', ''))


# ---- standard input, words, streams

def standard_input(room):
    """As if it were a file of that name, which needn't be there."""
    repository(room)
    room.put('sub/jslint.toml', 'rules = { no-debugger = false }\n')
    same(files(room, '--stdin', 'sub/a.js', '--project', given=b'debugger;'), (0, '', ''))
    same(files(room, '--stdin', 'sub/a.js', given=b'debugger;'), (1, f'sub/a.js:{FOUND_BUG}', ''))
    same(files(room, '--stdin', 'a.js', given=b'a b'), (2, 'a.js:1:3: syntax error\n', ''))
    same(files(room, 'fix', '--stdin', 'a.js', given=b'let x = (1);\r\nlet y;'), (0, 'let x = 1;\r\nlet y;\r\n', ''))
    same(files(room, 'unwrap', '--stdin', 'a.js', given=b'let x = (1); // a'), (0, 'let x = 1; // a', ''))
    same(files(room, 'unwrap', '--stdin', 'a.js', '--diff', given=b'(a);\n')[:2], (1, '--- a.js\n+++ a.js\n@@ -1 +1 @@\n-(a);\n+a;\n'))
    same(files(room, 'fix', '--stdin', 'a.js', given=b'a // b'), (2, '', 'a.js:1:3: not rewritten: fix drops a comment; --drop-comments permits it, and unwrap keeps comments\n'))
    same(files(room, 'fix', '--drop-comments', '--stdin', 'a.js', given=b'a // b'), (0, 'a;\n', ''))
    same(files(room, 'fix', '--stdin', 'a.js', given=b'a b'), (2, '', 'a.js:1:3: syntax error\n'))
    same(files(room, 'fix', '--stdin', 'a.js', given=b'\xff'), (2, '', 'a.js:1:1: not UTF-8 at byte 0\n'))
    same(files(room, 'fix', '--stdin', 'a\nb.js', given=b'a b')[2], 'a\\x0ab.js:1:3: syntax error\n')
    same(room.sh('jslint-files --stdin a.js <&-'), (2, 'a.js:1:1: read failed: a folder\n', ''))
    same(room.sh('head -c 100000000 /dev/zero | jslint-files --stdin a.js')[:2], (2, 'a.js:1:1: longer than 16777216 bytes\n'))
    same(room.names(), ['.git', 'sub'])


def words(room):
    """What makes no sense is said in a line, with status 2, and nothing is read or written."""
    room.put('a.js', WRONG)
    rows = [
        ('--format x a.js', '--format is unix, pretty, json, sarif, junit or github'), ('--color x a.js', '--color is auto, always or never'), ('--unsupported x a.js', '--unsupported is error or note'),
        ('--max-warnings x a.js', '--max-warnings takes a number'), ('--max-warnings -1 a.js', '--max-warnings takes a number'), ('--ends a.js', '--ends is for --format json'), ('--project=x a.js', '--project=x is no option; a file of that name stands behind --'),
        ('--stdin b.js a.js', '--stdin stands for the only script'), ('--stdin b.js --files-from a.js', '--stdin stands for the only script'), ('fix --stdin b.js --write', '--stdin writes to standard output: --write is for files'),
        ('fix --format json a.js', '--format is for check'), ('unwrap --suppressions --write a.js', '--suppressions is for check'), ('fix --explain no-var', '--explain is for check'), ('--summary', 'no file is named (--help)'),
        ('--explain no-such', f'no-such is no rule and no early error: --explain takes one of {", ".join(RULES)}, or E1 to E37'), ('--explain E38', f'E38 is no rule and no early error: --explain takes one of {", ".join(RULES)}, or E1 to E37'),
        ('--stdin', '--stdin needs a value'), ('--max-warnings', '--max-warnings needs a value'), ('fix --write --diff a.js', 'fix wants --write or --diff, and not both'),
    ]
    for text, said in rows:
        same(files(room, *text.split(' ')), (2, '', f'jslint-files: {said}\n'), text)
    odd, shown_ = 'x\udcff\n\u202e', 'x\\xff\\x0a\\u{202e}'
    rows = [
        ([f'--{odd}'], f'--{shown_} is no option; a file of that name stands behind --'), (['--settings', odd, 'a.js'], f'{shown_}: read failed: missing'), (['--files-from', odd], f'{shown_}: read failed: missing'),
        (['--format', odd, 'a.js'], '--format is unix, pretty, json, sarif, junit or github'), (['--jobs', '\u0663', 'a.js'], '--jobs takes a number from 1 to 9999'), (['--max-warnings', '1\n', 'a.js'], '--max-warnings takes a number'),
        (['--settings', '', 'a.js'], ': read failed: missing'), (['--settings', 'a' * 300, 'a.js'], f'{"a" * 300}: read failed'),
    ]
    for given, said in rows:
        same(files(room, *given), (2, '', f'jslint-files: {said}\n'), given)
    is_well(files(room, '--explain', odd)[2].startswith(f'jslint-files: {shown_} is no rule'))
    same(files(room, '', 'a' * 300, odd), (2, f':1:1: read failed: missing\n{"a" * 300}:1:1: read failed\n{shown_}:1:1: read failed: missing\n', ''))
    same((room.text('a.js'), room.names()), (WRONG, ['a.js']))


def gone_folder(room):
    """The current folder was removed: that is said, and what needs none is done."""
    put(room, ['else/a.js'])
    gone = (2, '', 'jslint-files: the current folder is gone\n')
    rows = [
        ('--project', gone), ('--project .', gone), ('unwrap --write --project', gone), ('unwrap --write a.js', gone), ('--stdin a.js --project', gone), ('--format json a.js', gone), ('a.js', (2, 'a.js:1:1: read failed: missing\n', '')),
        ("'**/*.js'", (2, '**/*.js:1:1: read failed: missing\n', '')), ('--settings s.toml a.js', (2, '', 'jslint-files: s.toml: read failed: missing\n')), ('--stdin a.js', (1, f'a.js:{FOUND_BUG}', '')), ('unwrap --stdin a.js', (0, BUG, '')),
        ('fix --stdin a.js', (0, BUG, '')), (f'{room.folder}/else/a.js', (1, f'{room.folder}/else/a.js:{FOUND_BUG}', '')), (f'--project {room.folder}/else', (1, f'{room.folder}/else/a.js:{FOUND_BUG}', '')),
    ]
    for text, wanted in rows:
        os.makedirs(room.path('gone'))
        same(room.sh(f'cd gone && rmdir ../gone && printf "{BUG}" | jslint-files {text}', TMPDIR='/tmp'), wanted, text)


def streams(room):
    """What can't be written is said, where anybody can read that; nothing is left in the temporary folder."""
    repository(room)
    room.put('a.js', WRONG)
    os.makedirs(room.path('temporary'))
    lost, unsaid = (2, '', 'jslint-files: write failed\n'), (2, '', '')
    how = {'TMPDIR': f'{room.folder}/temporary'}
    for text in ('--format pretty a.js', '--format sarif a.js', '--format junit a.js', '--project', '--project --summary', 'unwrap --stdin b.js <a.js', 'fix --diff --stdin b.js <a.js', '--explain no-var', '--explain E7'):
        for to in ('>/dev/full', '>&-'):
            same(room.sh(f'jslint-files {text} {to}', **how), lost, f'{text} {to}')
            for other in ('2>/dev/full', '2>&-'):
                same(room.sh(f'jslint-files {text} {to} {other}', **how), unsaid, f'{text} {to} {other}')
    same(room.sh('jslint-files --summary --project 2>/dev/full')[::2], (1, ''))
    same(room.sh('jslint-files --project /dev/stdin a.js <&-')[:2], (2, '/dev/stdin:1:1: read failed: a folder\n' + files(room, 'a.js')[1]))
    same(room.names('temporary'), [])
    same(room.text('a.js'), WRONG)


def long_files(room):
    """A file of 100 MB is read no further than is needed; one that is as long as may be is answered; so is one that nests deeply."""
    room.put('long.js', '')
    os.truncate(room.path('long.js'), 100_000_000)
    for text in ('', 'fix --write', 'unwrap --diff', '--format sarif', '--format pretty'):
        status, out, err = files(room, *text.split(), 'long.js')
        is_well(status == 2 and (out + err).count('longer than 16777216 bytes') == 1 and len(out + err) < 1000 + 300 * len(RULES), text)
    room.put('a.js', 'a' * (16 << 20))
    same(files(room, 'a.js')[0], 1)
    room.put('deep.js', '(' * 1100 + '1' + ')' * 1100 + ';')
    room.put('deeper.js', '[' * 600 + ']' * 600)
    same(files(room, 'deep.js', 'deeper.js')[0::2], (2, ''))
    is_well(files(room, 'deeper.js')[1] == 'deeper.js:1:1: nested too deep\n')
    same(files(room, 'unwrap', '--write', 'deep.js'), (0, '', ''))
    same(room.text('deep.js'), '1;')


# ---- forms

ODD = 'let x = ("\t\U0001f600" == x); // <&>\n"]]>\u0001";\n'


def put_odd(room):
    room.put('a b:\u00e9.js', ODD)
    room.put('m.js', MODULE)
    room.put('ok.js', CLEAN)


def form_pretty(room):
    """The line, cut where it is long, and a mark under the place; colours where they are asked for, or on a terminal."""
    room.put('a.js', '/* \u6f22\u5b57 */\tdebugger;\n' + 'a' * 300 + '; debugger;\n\u001b[31mabc\u202e')
    lines = files(room, '--format', 'pretty', 'a.js')[1].splitlines()
    same(lines[:2], ['a.js:3:1: refused syntax error', '    3 | \\x1b[31mabc\\u{202e}'])
    room.put('a.js', '/* \u6f22\u5b57 */\tdebugger;\n' + 'a' * 300 + '; debugger;\nlet abc = 1;\n')
    lines = files(room, '--format', 'pretty', 'a.js')[1].splitlines()
    same(lines[1:3], ['    1 | /* \u6f22\u5b57 */ debugger;', '      | ' + ' ' * 11 + '^' * 9])
    same((lines[4], lines[5]), ('    2 | ' + 'a' * 100 + '\u2026', '      | ' + '^' * 100))
    is_well(lines[8].endswith('^') and lines[7].startswith('    2 | \u2026') and lines[7].endswith('; debugger;'), lines)
    same(lines[-2:], ['    3 | let abc = 1;', '      |     ^^^'])
    room.put('b.js', 'x = (1 +\n2);' + ' ' * 30 + '(a);')
    same(files(room, '--format', 'pretty', 'b.js')[1].splitlines()[4:6], ['    1 | x = (1 +', '      |     ^^^^'])
    is_well('\x1b[' not in files(room, '--format', 'pretty', 'a.js')[1])
    is_well('\x1b[32;1m^' in files(room, '--format', 'pretty', '--color', 'always', 'a.js', NO_COLOR='1')[1])
    for more, wanted in [({}, True), ({'NO_COLOR': '1'}, False), ({'NO_COLOR': ''}, True), ({'TERM': 'dumb'}, False)]:
        same(b'\x1b[' in on_terminal(room, ['--format', 'pretty', 'a.js'], **{'TERM': 'xterm', **more}), wanted, more)
    same(b'\x1b[' in on_terminal(room, ['--format', 'pretty', '--color', 'never', 'a.js'], TERM='xterm'), False)


def on_terminal(room, words, **more):
    """What a call writes to a terminal."""
    child, device = pty.fork()
    if child == 0:
        os.chdir(room.folder)
        os.execve(f'{recipes.BIN}/jslint-files', ['jslint-files', *words], {'PATH': f'{recipes.BIN}:/usr/bin:/bin:{os.path.dirname(sys.executable)}', 'LC_ALL': 'C.UTF-8', **more})
    found = b''
    while True:
        try:
            part = os.read(device, 4096)
        except OSError:
            part = b''
        if not part:
            break
        found += part
    os.close(device)
    os.waitpid(child, 0)
    return found


def progress(room):
    """On a terminal, after a second, how far it is; at the end nothing of it is left on the line."""
    put(room, ['a.js', 'b.js', 'c.js'], CLEAN)
    how = program(room, 'sleep 0.8; exec "$JSLINT_REAL" "$@"')
    found = on_terminal(room, ['--jobs', '1', 'a.js', 'b.js', 'c.js'], **how)
    is_well(b'jslint: 2 of 3 scripts' in found and found.endswith(b'\r\x1b[K'), found)
    same(on_terminal(room, ['a.js']), b'')


def form_junit(room):
    put_odd(room)
    suite = xml.etree.ElementTree.fromstring(files(room, '--format', 'junit', 'a b:\u00e9.js', 'm.js', 'ok.js', status=2)[1].encode())[0]
    same([suite.get(it) for it in ('tests', 'failures', 'errors', 'skipped')], ['3', '1', '1', '0'])
    same([(it.get('name'), [each.tag for each in it]) for it in suite], [('a b:\u00e9.js', ['failure']), ('m.js', ['error']), ('ok.js', [])])
    same(suite[0][0].get('message'), '3 reports')
    same(suite[1][0].text, "1:1 syntax error (perhaps: 'export' makes this a module, which --module reads)\n")
    same(xml.etree.ElementTree.fromstring(files(room, '--format', 'junit', '--unsupported', 'note', 'm.js', status=0)[1])[0][0][0].tag, 'skipped')


def ends_in(text, words):
    """What a text has from where to where, by rules, in the words of `--format json --ends`."""
    lines, found = re.split('\r\n|[\n\r\u2028\u2029]', text.removeprefix('\ufeff')), {}
    for rule, line, column, to_line, to_column in words:
        units = [it.encode('utf-16-le') for it in lines[line - 1:to_line]]
        units[-1] = units[-1][:2 * (to_column - 1)]
        units[0] = units[0][2 * (column - 1):]
        found.setdefault(rule, []).append('|'.join(it.decode('utf-16-le') for it in units))
    return found


def form_json_ends(room):
    """What is reported, from its start to its end, in UTF-16 units: behind characters of one to four bytes and a byte order mark, over lines of each kind,
    of pairs in pairs. Without --ends nothing of it is there."""
    rows = [
        ('\ufeff"\U0001f600"; \U00010400 == abc;\n', {'eqeqeq': ['\U00010400 == abc'], 'no-undef': ['\U00010400', 'abc']}),
        ('/* \u6f22 */ ((a +\r\n\u2028 b));\rdebugger', {'no-extra-parens': ['((a +|| b))', '(a +|| b)'], 'no-undef': ['a', 'b'], 'no-debugger': ['debugger']}),
        ('var \u00e9 = 1;\nif (\u00e9 == \u00e9 != 0) {\u2029 }\nswitch (0) {}', {'no-var': ['var \u00e9 = 1;'], 'eqeqeq': ['\u00e9 == \u00e9', '\u00e9 == \u00e9 != 0'], 'no-empty': ['{| }', 'switch (0) {}']}),
        ('let \u6f22 = 1, \U0001f600;', {}), ('(a)' + ';(a)' * 3000, {'no-extra-parens': ['(a)'] * 3001, 'no-undef': ['a'] * 3001}),
    ]
    for text, wanted in rows:
        room.put('a.js', text)
        found = json.loads(files(room, '--format', 'json', '--ends', 'a.js')[1])[0]['messages']
        is_well(all('endLine' in it for it in found if it['ruleId']), text[:50])
        same(ends_in(text, [[it[key] for key in ('ruleId', 'line', 'column', 'endLine', 'endColumn')] for it in found if it['ruleId']]), wanted, text[:50])
        is_well(all('endLine' not in it for it in json.loads(files(room, '--format', 'json', 'a.js')[1])[0]['messages']))


def ends_unknown(room):
    """Of a program that doesn't tell ends, or that tells those of other reports, there are none, and all else is as ever."""
    room.put('a.js', 'debugger;\n(a);\n')
    wanted = files(room, '--format', 'json', 'a.js')
    for says in ('exit 2', 'echo "jslint: out of memory" >&2; exit 2', 'echo "0 9 no-debugger debugger statement"; exit 1', 'printf "0 9 no-debugger debugger statement\n10 13 no-var unnecessary parentheses\n11 12 no-undef x\n"; exit 1',
                 'printf "1 9 no-debugger debugger statement\n10 13 no-extra-parens unnecessary parentheses\n11 12 no-undef \\047a\\047 is not defined\n"; exit 1', 'echo x; exit 1', 'kill -9 $$'):
        how = program(room, f'case "$*" in *--spans*) {says} ;; esac; exec "$JSLINT_REAL" "$@"')
        same(files(room, '--format', 'json', '--ends', 'a.js', **how), wanted, says)
        is_well('^\n' in files(room, '--format', 'pretty', 'a.js', **how)[1], says)


def ends_time(_):
    """No text takes long: many places of one long line, or of many lines."""
    begun = time.process_time()
    for text in ('\u00e9;' * 400_000, '\u00e9\u2028' * 200_000, '\u00e9\r\n' * 200_000):
        given = text.encode()
        places = checking.places_at(given, {*range(0, len(given), 5)} | {len(given)})
        is_well(places[0] == (1, 1) and len(places) > 100_000)
    is_well(time.process_time() - begun < 20)


def the_record():
    """The log that record.sarif stands for: before the rules of its own those that the files of rules tell, and in each result the number of its rule."""
    with open(RECORD, encoding='utf-8') as file:
        record = json.load(file)
    run = record['runs'][0]
    told = [{'id': name, 'shortDescription': {'text': text}, 'defaultConfiguration': ({} if name in ON else {'enabled': False}) | {'level': 'error'}} for name, text in RULES.items()]
    run['tool']['driver']['rules'] = told + run['tool']['driver']['rules']
    ids = [it['id'] for it in run['tool']['driver']['rules']]
    for it in run['results']:
        it['ruleIndex'] = ids.index(it['ruleId'])
    return record


def form_sarif(room):
    """The log is that of the record, and both have the structure of the standard."""
    put_odd(room)
    room.put('b.js', '\ufeffdebugger; var a; // jslint-disable-line no-var\n')
    status, out, err = files(room, '--format', 'sarif', '--suppressions', 'a b:\u00e9.js', 'b.js', 'm.js', 'ok.js', '/none.js')
    same((status, err), (2, ''))
    log = json.loads(out)
    version = room.run(['jslint', '--version'])[1].split()[1]
    record = the_record()
    same(sarif.faults(record), [])
    record['runs'][0]['tool']['driver']['semanticVersion'] = version
    same(log, record)
    run = log['runs'][0]
    same({it['locations'][0]['physicalLocation']['artifactLocation']['uri'] for it in run['results']}, {'a%20b%3A%C3%A9.js', 'b.js', 'm.js', 'file:///none.js'})
    same([it['ruleId'] for it in run['results'] if 'suppressions' in it], ['no-var'])
    same([it['locations'][0]['physicalLocation']['region']['startColumn'] for it in run['results'] if it['ruleId'] in ('no-debugger', 'no-var')], [1, 11])
    same(run['invocations'], [{'executionSuccessful': False}])
    room.put('c.js', '\ufeffx = (1 +\n2);')
    log = json.loads(files(room, '--format', 'sarif', 'c.js')[1])
    regions = [it['locations'][0]['physicalLocation']['region'] for it in log['runs'][0]['results'] if it['ruleId'] == 'no-extra-parens']
    same((regions, sarif.faults(log)), ([{'startLine': 1, 'startColumn': 5, 'endLine': 2, 'endColumn': 3}], []))


# Changes of the record, by the path to a value and what becomes of it; None takes it out.
CHANGES = [
    (['version'], '2.0.0'), (['version'], None), (['runs'], None), (['runs'], {}), (['$schema'], 'a b'), (['more'], 1), (['runs', 0, 'tool'], None), (['runs', 0, 'tool', 'driver'], None), (['runs', 0, 'tool', 'driver', 'name'], None),
    (['runs', 0, 'tool', 'driver', 'semanticVersion'], '1.2'), (['runs', 0, 'tool', 'driver', 'rules', 1, 'id'], None), (['runs', 0, 'tool', 'driver', 'rules', 1, 'id'], 'curly'), (['runs', 0, 'tool', 'driver', 'rules', 0, 'defaultConfiguration', 'level'], 'fatal'),
    (['runs', 0, 'tool', 'driver', 'rules', 0, 'shortDescription'], 'text'), (['runs', 0, 'columnKind'], 'bytes'), (['runs', 0, 'newlineSequences'], []), (['runs', 0, 'newlineSequences'], ['\n', '\n']), (['runs', 0, 'invocations', 0, 'executionSuccessful'], None),
    (['runs', 0, 'results', 0, 'message'], None), (['runs', 0, 'results', 0, 'message'], 'text'), (['runs', 0, 'results', 0, 'ruleIndex'], 1), (['runs', 0, 'results', 0, 'ruleIndex'], 99), (['runs', 0, 'results', 0, 'level'], 'fatal'), (['runs', 0, 'results', 0, 'line'], 1),
    (['runs', 0, 'results', 0, 'locations'], {}), (['runs', 0, 'results', 0, 'locations', 0, 'physicalLocation', 'artifactLocation', 'uri'], 'a b.js'), (['runs', 0, 'results', 0, 'locations', 0, 'physicalLocation', 'artifactLocation', 'uri'], '%x.js'),
    (['runs', 0, 'results', 0, 'locations', 0, 'physicalLocation', 'artifactLocation', 'uri'], 'file:///a.js'), (['runs', 0, 'results', 0, 'locations', 0, 'physicalLocation', 'region', 'startLine'], 0), (['runs', 0, 'results', 0, 'locations', 0, 'physicalLocation', 'region', 'startLine'], True),
    (['runs', 0, 'results', 0, 'locations', 0, 'physicalLocation', 'region', 'endColumn'], 1), (['runs', 0, 'results', 4, 'suppressions', 0, 'kind'], 'comment'),
]


def sarif_check(_):
    """The check refuses a log that is changed in one place: else it would say nothing."""
    record = the_record()
    is_well('suppressions' in record['runs'][0]['results'][4] and record['runs'][0]['results'][0]['locations'][0]['physicalLocation']['region']['startColumn'] > 1)
    for path, value in CHANGES:
        changed = copy.deepcopy(record)
        at = changed
        for it in path[:-1]:
            at = at[it]
        if value is None:
            del at[path[-1]]
        else:
            at[path[-1]] = value
        is_well(len(sarif.faults(changed)) >= 1, f'{path} {value!r} passes')


# ---- guesses, suppressions, counts

def hint_rows(room):
    """The rows of the language server, by the program's own places: the same table says the same in Python."""
    with open(f'{TOP}/packages/npm/test/lsp/hints.rows.json', encoding='utf-8') as file:
        rows = json.load(file)
    found = {}
    for language, words in [(None, []), ('2022', ['--edition', '2022']), ('module', ['--module'])]:
        names = {f'{number}.js': it['text'] for number, it in enumerate(rows) if it.get('language') == language}
        for name, text in names.items():
            room.put(name, text)
        found.update((it['filePath'].rsplit('/', 1)[1], it['messages']) for it in json.loads(files(room, '--format', 'json', '--hints', *words, *names)[1]))
    for number, it in enumerate(rows):
        fatal = [each for each in found[f'{number}.js'] if each.get('fatal')]
        row = hints.hint_of(it['text'], fatal[0]['message'], fatal[0]['line'], len(it['text'].encode('utf-16-le')) and column_of(it['text'], fatal[0]), [it.get('language')]) if fatal else {'id': 'accepted', 'hint': None}
        same(row and row.get('id', row.get('number')), it['id'], it['text'])
        is_well(not fatal or fatal[0].get('hint') == (row and row['hint']), it['text'])
    is_well(len(rows) > 80)


def column_of(text, message):
    """A column in characters, of one in UTF-16 units."""
    line = re.split('\r\n|[\n\r\u2028\u2029]', text)[message['line'] - 1]
    units, at = 1, 1
    for char in line:
        if units >= message['column']:
            break
        units, at = units + len(char.encode('utf-16-le', 'surrogatepass')) // 2, at + 1
    return at


def hint_time(_):
    """No text makes a guess take long."""
    begun = time.process_time()
    for text in ('class ' * 800, 'class a{' * 700 + 'b' * 4000, 'class{' + ';' * 4000, '(' * 5000 + '=>', 'async(' * 1000 + '=>', 'import ' + 'a' * 5000, '\n/=' * 2000, 'class {static ' * 400, '"\\a' * 3000, 'class A {' + 'a' * 3900 + ' ' * 90):
        for at in (len(text), len(text) - 5, len(text) // 2):
            hints.hint_of(text, 'syntax error', text.count('\n', 0, at) + 1, at - text.rfind('\n', 0, at))
    is_well(time.process_time() - begun < 20, time.process_time() - begun)


def unsupported(room):
    """A script with what the profile lacks needn't fail anything; one with a fault does."""
    put_odd(room)
    module = "m.js:1:1: {}syntax error (perhaps: 'export' makes this a module, which --module reads)\n"
    same([files(room, *it, 'm.js', 'ok.js') for it in ([], ['--hints'])], [(2, module.format(''), '')] * 2)
    same(files(room, '--unsupported', 'error', 'm.js'), (2, module.format(''), ''))
    same(files(room, '--unsupported', 'note', 'm.js', 'ok.js'), (0, module.format('note: '), ''))
    for command in ('fix', 'unwrap'):
        same(files(room, command, '--write', '--unsupported', 'note', 'm.js', 'ok.js'), (0, '', module.format('note: ')))
        same(files(room, command, '--diff', '--unsupported', 'error', 'm.js'), (2, '', module.format('')))
    same(room.text('m.js'), MODULE)
    is_well(files(room, '--unsupported', 'note', '--format', 'github', 'm.js')[1].startswith('::notice file=m.js,line=1,col=1,title=jslint::syntax error (perhaps'))
    element = json.loads(files(room, '--unsupported', 'note', '--format', 'json', 'm.js', status=0)[1])[0]
    same([element[it] for it in ('errorCount', 'fatalErrorCount', 'warningCount')] + [element['messages'][0]['severity'], 'fatal' in element['messages'][0]], [0, 0, 1, 1, False])
    run = json.loads(files(room, '--unsupported', 'note', '--format', 'sarif', 'm.js')[1])['runs'][0]
    same((run['results'][0]['level'], run['invocations'][0]['executionSuccessful']), ('note', True))
    room.put('bad.js', 'a b')
    room.put('open.js', 'f(a')
    same([files(room, '--unsupported', 'note', it)[0] for it in ('bad.js', 'open.js', 'none.js')], [2, 2, 2])
    # (a fault in a language that is read here is none of what the profile lacks; nor is a guess that this language doesn't bear out)
    faults = [('import a from "a";\nf(;\n', '2:3: syntax error'), ('async () => 1;\nlet b, b;\n', '2:8: early error E3'), ('x = #a;\n', '1:7: syntax error'), ('a; * b', '1:4: syntax error'), ('export {}; f(a', '1:15: syntax error (perhaps: the text ends too early: something is still open)')]
    for text, said in faults:
        room.put('bad.js', text)
        same(files(room, '--unsupported', 'note', 'bad.js', 'ok.js'), (2, f'bad.js:{said}\n', ''), text)
        same(files(room, 'unwrap', '--diff', '--unsupported', 'note', 'bad.js', 'ok.js'), (2, '', f'bad.js:{said}\n'), text)
    notes = [('import a from "a";\nx = <a/>;\n', "2:5: note: syntax error (perhaps: JSX isn't ECMAScript)"), ('async () => 1;\n', '1:10: note: syntax error (perhaps: async functions, which --edition 2022 and --module read)')]
    for text, said in notes:
        room.put('jsx.js', text)
        same(files(room, '--unsupported', 'note', 'jsx.js', 'ok.js'), (0, f'jsx.js:{said}\n', ''), text)
    room.put('base.toml', 'edition = 2020\n')
    same(files(room, '--unsupported', 'note', '--settings', 'base.toml', 'm.js'), (0, module.format('note: '), ''))
    room.put('latin.js', '')
    with open(room.path('latin.js'), 'wb') as file:
        file.write(b'a = "\xe9"; export {}')
    same(files(room, '--unsupported', 'note', 'latin.js'), (2, 'latin.js:1:1: not UTF-8 at byte 5\n', ''))


def suppressions(room):
    """A comment turns reports off, other words that look like one don't, and one that does nothing is reported. Without the option nothing changes."""
    room.put('a.js', 'debugger; // jslint-disable-line no-debugger -- why\n// jslint-disable-next-line\nvar a = (1);\n`\n// jslint-disable-next-line\n${b}`;\n'
             '// jslint-disable-next-line no-such\n// jslint-disable-line no-var\n// jslint-disable-line no-extra-parens\n')
    wanted = ['3:9: no-extra-parens unnecessary parentheses', "6:3: no-undef 'b' is not defined", "7:1: suppression 'no-such' is no rule", '8:1: suppression this comment turns no report off',
              '9:1: suppression no-extra-parens is not turned off: fix and unwrap take the pair all the same']
    same(files(room, '--suppressions', 'a.js'), (1, ''.join(f'a.js:{it}\n' for it in wanted), ''))
    plain = files(room, 'a.js')[1]
    same((plain.count('\n'), 'suppression' in plain), (5, False))
    rows = [
        ('debugger; // jslint-disable-line', 0), ('debugger; // jslint-disable-lines', 1), ('debugger; /* // jslint-disable-line */', 1), ('debugger; /* // jslint-disable-line\n*/', 0), ('debugger; "// jslint-disable-line"', 1),
        ('debugger; x = /[// jslint-disable-line]/', 1), ('debugger;//jslint-disable-line no-debugger,no-var', 0), ('// jslint-disable-next-line\u2028debugger;', 0), ('// jslint-disable-next-line\n\ndebugger;', 1), ('debugger; // a // jslint-disable-line', 0),
        ('debugger; // jslint-disable-line no-var', 1), ('`// jslint-disable-line`; // jslint-disable-line\ndebugger; // jslint-disable-line', 0), ('a b // jslint-disable-line', 1),
    ]
    for text, status in rows:
        room.put('b.js', f'{text}\n')
        shown = files(room, '--suppressions', 'b.js')[1]
        same(('no-debugger' in shown or 'syntax error' in shown), bool(status), f'{text!r}: {shown}')
    room.put('b.js', 'debugger; // jslint-disable-line\n')
    element = json.loads(files(room, '--suppressions', '--format', 'json', 'b.js', status=0)[1])[0]
    same((element['messages'], element['suppressedMessages'][0]['suppressions'], element['suppressedMessages'][0]['ruleId']), ([], [{'kind': 'directive', 'justification': ''}], 'no-debugger'))
    room.put('many.js', 'debugger; `' + '// jslint-disable-line\n' * 3000 + '`;')
    room.put('more.js', 'debugger; // jslint-disable-line\n' * 20000)
    same(files(room, '--suppressions', 'many.js', 'more.js')[0::2], (1, ''))
    same(files(room, '--suppressions', 'more.js'), (0, '', ''))


def counts(room):
    """--max-warnings and --summary."""
    put(room, ['a.js'], 'debugger; debugger; a;')
    room.put('ok.js', CLEAN)
    room.put('m.js', MODULE)
    same([files(room, '--max-warnings', it, 'a.js', 'ok.js')[0] for it in ('0', '2', '3', '4')], [1, 1, 0, 0])
    same([files(room, '--max-warnings', '9', '--format', it, 'a.js')[0] for it in ('json', 'sarif', 'pretty', 'junit')], [0] * 4)
    same(files(room, '--max-warnings', '9', 'a.js', 'm.js')[0], 2)
    same(files(room, '--summary', 'a.js', 'ok.js', 'm.js')[2], '3 reports in 3 scripts, 1 refused: 2 no-debugger, 1 no-undef\n')
    same(files(room, '--summary', '--unsupported', 'note', 'ok.js', 'm.js')[2], '0 reports in 2 scripts, 1 with what the profile lacks\n')
    room.put('s.js', 'debugger; // jslint-disable-line\n')
    same(files(room, '--summary', '--suppressions', 's.js')[2], '0 reports in 1 script, 1 turned off by comments\n')
    same(files(room, 'unwrap', '--diff', '--summary', 'a.js')[2], '0 of 1 script to be rewritten\n')
    room.put('w.js', WRONG)
    same(files(room, 'unwrap', '--write', '--summary', 'a.js', 'w.js', 'm.js')[2], f'{REFUSED_MODULE}1 of 3 scripts rewritten, 1 refused\n')


def explained(room):
    """Each rule and each early error, from the documents; a rule's sentence is there for each rule that the documents have."""
    pages = sorted(it[:-3] for it in os.listdir(f'{TOP}/docs/rules') if it != 'README.md')
    same(sorted([*RULES, *MOOT]), pages)
    for it in pages:
        status, out, err = files(room, '--explain', it)
        is_well((status, err) == (0, '') and out.startswith(f'# {it}\n') and '](' not in out.replace('](http', ''), it)
    for number in range(1, 22):
        same(files(room, '--explain', f'E{number}')[0::2], (0, ''))
    same(files(room, '--explain=e7')[1], "early error E7: a parameter's name is declared again by let, const or class in the body (var or a function may declare it). Its place: the name in the body.\n")


# ---- the library and the program

def library_and_program(room):
    """Both say the same, in each form and command, of files of every kind."""
    if not has_library():
        raise Skipped('the library is not installed')
    chance = random.Random(3)
    texts = [WRONG, RIGHT, MODULE, BUG, 'a b', '', '\ufeffa', 'let a;\r\nlet b = (1);\r\n', 'x = `${(a)}` // b\n', 'a == b;' * 9000, '\u2028(a)\u2029b c', 'for (x = (a in b) && (c in d);;);']
    for number in range(18):
        room.put(f'{number}.js', chance.choice(texts) + chance.choice(['', 'a;', ' // c']))
    with open(room.path('latin.js'), 'wb') as file:
        file.write(b'\xe9')
    room.put('s.toml', 'globals = ["a"]\n')
    names = [*(f'{it}.js' for it in range(18)), 'latin.js', 'none.js']
    for text in ('', '--settings s.toml', '--format json', '--format sarif', '--format pretty --suppressions', 'fix --diff', 'unwrap --diff', '--project --summary', 'fix --write --drop-comments', 'unwrap --write'):
        kept = {it: room.text(it) for it in room.names() if it.endswith('.js') and it != 'latin.js'}
        by_library = files(room, *text.split(), *names)
        written = {it: room.text(it) for it in kept}
        for it, each in kept.items():
            room.put(it, each)
        same(files(room, *text.split(), *names, JSLINT_LIBRARY=''), by_library, text)
        same({it: room.text(it) for it in kept}, written, text)


def which_library(room):
    """JSLINT_LIBRARY, or the one that is installed, unless JSLINT names a program or the program is newer."""
    room.put('a.js', BUG)
    room.put('begun', '')
    found, how = (1, f'a.js:{FOUND_BUG}', ''), program(room, 'echo >>begun; exec "$JSLINT_REAL" "$@"')
    calls = lambda: room.text('begun').count('\n')
    same((files(room, 'a.js', **how), calls()), (found, 1))
    for name in ('./none', './a.js', '/dev/null', '.', '/lib/x86_64-linux-gnu/libc.so.6'):
        same(files(room, 'a.js', JSLINT_LIBRARY=name), (2, '', f"jslint-files: JSLINT_LIBRARY in the environment can't be loaded: {name}\n"))
    if not has_library():
        raise Skipped('the library is not installed')
    path = f'{os.path.dirname(recipes.BIN)}/lib/jslint/libjslint.so'
    same((files(room, 'a.js', JSLINT_LIBRARY=path, **how), calls()), (found, 1))
    recipes.install(f'{room.folder}/installed')
    own = lambda: room.run([f'{room.folder}/installed/bin/jslint-files', 'a.js'], JSLINT_REAL=how['JSLINT_REAL'])
    shutil.copy(room.path('program'), room.path('installed/bin/jslint'))
    os.utime(room.path('installed/bin/jslint'), (1, 1))
    same((own(), calls()), (found, 1))
    os.utime(room.path('installed/bin/jslint'))
    os.utime(room.path('installed/lib/jslint/libjslint.so'), (1, 1))
    same((own(), calls()), (found, 2))


def no_build(room):
    """Where a library is named no launcher is asked, which might build a program."""
    if not has_library():
        raise Skipped('the library is not installed')
    room.put('jslint', '#!/bin/sh\necho >>ran\n', 0o755)
    room.put('a.js', BUG)
    shutil.copytree(f'{TOP}/tools/jslint_files', f'{room.folder}/tools/jslint_files')
    shutil.copy(f'{TOP}/tools/jslint-files', f'{room.folder}/tools')
    path = f'{os.path.dirname(recipes.BIN)}/lib/jslint/libjslint.so'
    for form in ('unix', 'json', 'sarif', 'junit', 'pretty', 'github'):
        same(room.run(['tools/jslint-files', '--format', form, 'a.js'], JSLINT_LIBRARY=path)[::2], (1, ''), form)
    is_well('ran' not in room.names(), 'the launcher was asked')


def shared_library(room):
    """What links the library says in a line why there is none, and leaves nothing behind."""
    for it in ('sh', 'dirname', 'uname', 'make', 'python3', 'sed', 'sha256sum', 'mktemp', 'cp', 'install', 'rm'):
        os.makedirs(room.path('path'), exist_ok=True)
        os.symlink(shutil.which(it) or '/none', room.path(f'path/{it}'))
    os.makedirs(room.path('temporary'))
    how = {'TMPDIR': f'{room.folder}/temporary'}
    why = (1, '', 'jslint-files will start the program for each script: there is no cc here\n')
    same(room.run([f'{TOP}/tools/shared-library', f'{room.folder}/a.so'], PATH=f'{room.folder}/path', **how), why)
    status, out, err = room.run([f'{TOP}/tools/shared-library', f'{room.folder}/made/a.so'], **how)
    same((status == 0, out, err.count('\n')), (has_library(), '', 0 if has_library() else 1))
    if has_library():
        room.put('closed', '')
        is_well(room.run([f'{TOP}/tools/shared-library', f'{room.folder}/closed/a.so'], **how)[0] != 0)
    same((room.names('temporary'), room.names()), ([], ['closed', 'made', 'path', 'temporary'] if has_library() else ['path', 'temporary']))


def too_long_for_memory(room):
    """What `fix` writes of some texts is far longer than they are: with the library too it isn't held in memory."""
    if not has_library():
        raise Skipped('the library is not installed')
    room.put('a.js', '{' * 300 + 'a;' * 500000 + '}' * 300)
    status, out, err = room.sh('ulimit -f 20000; jslint-files fix --diff a.js', TMPDIR=room.folder)
    is_well(status == 2 and out == '' and err.count('\n') == 1 and err.startswith('a.js:1:1: '), f'{status} {out[:200]} {err[:200]}')
    same(room.names(), ['a.js'])


def interrupted(room):
    """While the library works: nothing is left, each script is the old one or the new one, and the status is the signal's."""
    repository(room)
    text = '(a);' * 200000
    put(room, [f'{it}.js' for it in range(12)], text)
    chance, met = random.Random(1), 0
    for number in (signal.SIGINT, signal.SIGTERM):
        for words_ in (['fix', '--write'], ['unwrap', '--write'], ['--format', 'sarif']):
            known = names_below(room)
            process = started(room, [*words_, '--project', '--jobs', '2'])
            until(lambda: works(process))
            time.sleep(chance.random() / 5)
            process.send_signal(number)
            out, err = ended(process)
            is_well(process.returncode in (-number, 0, 1) and err == b'', f'{number} {words_} {process.returncode} {err}')
            met += process.returncode == -number
            same(names_below(room), known, f'{number} {words_}')
            for it in range(12):
                found = room.text(f'{it}.js')
                is_well(found in (text, 'a;' * 200000, 'a;\n' * 200000), f'{words_} {it}')
                room.put(f'{it}.js', text)
    is_well(met > 2, f'{met} of 6 were met at work')


def works(process):
    """Whether it has begun with scripts, in threads of their own, or has ended."""
    try:
        return process.poll() is not None or len(os.listdir(f'/proc/{process.pid}/task')) > 1
    except OSError:
        return True


def endless_list(room):
    """A list without an end is refused."""
    same(room.sh('jslint-files --files-from - </dev/zero'), (2, '', f'jslint-files: standard input: longer than {1 << 28} bytes\n'))
    same(room.sh('jslint-files --files-from /dev/zero'), (2, '', f'jslint-files: /dev/zero: longer than {1 << 28} bytes\n'))


TESTS = [
    endless_list, odd_folders, unpermitted, recipe, standard_input, words, gone_folder, streams, long_files, form_pretty, progress, form_junit,
    form_json_ends, ends_unknown, ends_time, form_sarif, sarif_check, hint_rows, hint_time, unsupported, suppressions, counts, explained, library_and_program, which_library, no_build, shared_library, too_long_for_memory, interrupted,
]
