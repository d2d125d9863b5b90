"""Severities by the program and by `jslint-files`: warnings in each form, `only`, names that do nothing; settings of some files, by `[[overrides]]`, --rule and
--only; --print-config and --init.

Each test is a function that raises where something is wrong, and libraries.Skipped where it can't be tried. Its argument is a room: a folder of its own.
"""
import json
import os
import xml.etree.ElementTree

from files import files
from libraries import Skipped
from recipes import is_well, same

# Two reports, of which the first may be a warning.
TEXT = 'var a = 1;\n'
FOUND = ('1:1: no-var use let or const instead of var', "1:5: no-unused-vars 'a' is never read")
MARK = ' (warning)'


def ready(room, **texts):
    """A repository with a script; the program must have severities."""
    os.makedirs(room.path('.git'), exist_ok=True)
    for name, text in {'a.js': TEXT, **{key.replace('__', '/').replace('_js', '.js').replace('_toml', '.toml').replace('_json', '.json'): it for key, it in texts.items()}}.items():
        room.put(name, text)
    room.put('only.toml', 'only = []\n')
    if room.run(['jslint', 'check', '--settings', 'only.toml', 'a.js'])[0]:
        raise Skipped('this program is of an earlier version: it has no severities')


def lines(*them, name='a.js'):
    return ''.join(f'{name}:{it}\n' for it in them)


def by_program(room):
    """The mark in a line, the status, and spans without marks."""
    ready(room, s_toml='rules.no-var = "warn"\n', w_toml='rules.no-var = 1\nrules.no-unused-vars = "warn"\n')
    check = lambda *words: room.run(['jslint', 'check', *words, 'a.js'])
    plain = [it.replace(': ', ' ', 1) for it in FOUND]
    same(check('--settings', 's.toml'), (1, f'{plain[0]}{MARK}\n{plain[1]}\n', ''))
    same(check('--settings', 'w.toml'), (0, f'{plain[0]}{MARK}\n{plain[1]}{MARK}\n', ''))
    same(check('--spans', '--settings', 'w.toml'), (0, "0 10 no-var use let or const instead of var\n4 5 no-unused-vars 'a' is never read\n", ''))
    for text in ('rules.no-var = "Warn"', 'rules.no-var = 3', 'only = ["no-var", "no-var"]', 'only = ["x"]', 'rules.no-with = "x"', 'rules.eqeqeq = { allow-comments = true }'):
        room.put('bad.toml', text)
        same(check('--settings', 'bad.toml'), (2, '', 'jslint: bad settings\n'), text)


def forms(room):
    """Each form says which reports are warnings; the status goes by errors, and by --max-warnings."""
    ready(room, s_toml='rules.no-var = "warn"\n', w_toml='rules.no-var = 1\nrules.no-unused-vars = "warn"\n')
    call = lambda settings, *words: files(room, '--settings', settings, *words, 'a.js')
    same(call('s.toml'), (1, lines(FOUND[0] + MARK, FOUND[1]), ''))
    same(call('w.toml'), (0, lines(*(it + MARK for it in FOUND)), ''))
    same([call('w.toml', '--max-warnings', it)[0] for it in '0123'], [1, 1, 0, 0])
    same([call('s.toml', '--max-warnings', it)[0] for it in '0123'], [1, 1, 0, 0])
    same([it.split(' ')[0] for it in call('s.toml', '--format', 'github')[1].splitlines()], ['::warning', '::error'])
    is_well(MARK not in call('s.toml', '--format', 'github')[1], 'the mark of a line')
    found = json.loads(call('s.toml', '--format', 'json', '--ends')[1])[0]
    same([(it['severity'], it['ruleId'], it['message'], 'endLine' in it) for it in found['messages']],
         [(1, 'no-var', 'use let or const instead of var', True), (2, 'no-unused-vars', "'a' is never read", True)])
    same((found['errorCount'], found['warningCount'], found['fatalErrorCount']), (1, 1, 0))
    results = json.loads(call('s.toml', '--format', 'sarif')[1])['runs'][0]['results']
    same([(it['level'], it['ruleId']) for it in results], [('warning', 'no-var'), ('error', 'no-unused-vars')])
    for settings, failures in (('s.toml', '1'), ('w.toml', '0')):
        suite = xml.etree.ElementTree.fromstring(call(settings, '--format', 'junit')[1].encode())[0]
        same((suite.attrib['failures'], [it.tag for it in suite[0]]), (failures, ['failure' if failures == '1' else 'system-out']))
    status, out, _ = call('w.toml', '--format', 'pretty')
    same((status, out.count(f'{MARK}\n')), (0, 2))


def moot(room):
    """Names that do nothing are taken, explained, and told apart from names of no rule."""
    ready(room, s_toml='only = ["no-with"]\nrules.no-with = "error"\n', bad_toml='rules.no-wit = "error"\n')
    same(files(room, '--settings', 's.toml', 'a.js'), (0, '', ''))
    is_well('is a syntax error' in files(room, '--explain', 'no-with')[1], 'no-with')
    same(files(room, '--settings', 'bad.toml', 'a.js')[2], 'jslint-files: bad.toml: bad settings (line 1): rules.no-wit = "error": there is no such rule\n')


def overrides(room):
    """Settings of some files: patterns of names, of folders and of paths; rules one by one, names added, others replaced."""
    ready(room, jslint_toml='''extends = "none"
env = ["node"]
rules.no-var = "warn"

[[overrides]]
files = ["test/", "*.spec.js"]
env = ["jest"]
rules.no-undef = "error"

[[overrides]]
files = ["test/x/*.js"]
rules.no-var = "off"
''', test__a_js='var a; expect; process; b;\n', test__x__a_js='var a; c;\n', b__c_js='x;\nvar a;\n')
    room.put('b/d.spec.js', 'd;\n')
    status, out, err = files(room, '--project')
    same((status, err, out), (1, '', lines(f'1:1: no-var use let or const instead of var{MARK}') + "b/c.js:2:1: no-var use let or const instead of var (warning)\n"
                              "b/d.spec.js:1:1: no-undef 'd' is not defined\n" f"test/a.js:1:1: no-var use let or const instead of var{MARK}\n"
                              "test/a.js:1:25: no-undef 'b' is not defined\n" "test/x/a.js:1:8: no-undef 'c' is not defined\n"))
    same(files(room, '--settings', 'jslint.toml', 'b/d.spec.js')[:2], (1, "b/d.spec.js:1:1: no-undef 'd' is not defined\n"))
    out = files(room, '--print-config', 'test/x/a.js')[1]
    path = os.fsdecode(os.path.realpath(room.path('jslint.toml')))
    same(out.splitlines()[1:], [f'extends = "none" # {path}', f'env = ["node", "jest"] # {path}, overrides.0', f'rules.no-var = "off" # {path}, overrides.1', f'rules.no-undef = "error" # {path}, overrides.0'])
    for line, text, why in ((1, '[[overrides]]\nenv = []\n', 'overrides.0: there is no files'), (2, '[[overrides]]\nfiles = "a"\n', 'overrides.0.files = "a": it takes an array'),
                            (3, '[[overrides]]\nfiles = []\nrules.x = 1\n', 'overrides.0.rules.x = 1: there is no such rule'), (1, 'overrides = 1\n', 'overrides = 1: it takes an array'),
                            (4, '[[overrides]]\nfiles = []\n[rules]\nx = 1\n', 'rules.x = 1: there is no such rule')):
        room.put('jslint.toml', text)
        status, out, err = files(room, '--project', 'a.js')
        same((status, out, err), (2, f'jslint.toml:{line}:1: bad settings: {why}\n', ''), text)
        same(files(room, '--print-config', 'a.js')[:2], (2, '') if why.startswith('overrides') else (0, files(room, '--print-config', 'a.js')[1]), text)


def by_words(room):
    """--rule and --only go over settings; wrong ones are one line."""
    ready(room, s_toml='rules.no-var = "off"\nallow-null = true\n')
    same(files(room, '--rule', 'no-var=warn', 'a.js'), (1, lines(FOUND[0] + MARK, FOUND[1]), ''))
    same(files(room, '--only', 'no-var', 'a.js'), (1, lines(FOUND[0]), ''))
    same(files(room, '--settings', 's.toml', '--only=no-var', '--rule=no-var=1', 'a.js'), (0, lines(FOUND[0] + MARK), ''))
    same(files(room, '--settings', 's.toml', '--rule', 'no-unused-vars=0', 'a.js'), (0, '', ''))
    same(files(room, '--project', '--only', 'no-unused-vars'), (1, lines(FOUND[1]), ''))
    for words in (['--rule', 'no-var'], ['--rule', 'no-var=3'], ['--rule', 'x=off'], ['--rule', 'no-var=off', '--rule', 'no-var=off'], ['--only', 'x'], ['--only', 'no-var', '--only', 'no-var'],
                  ['--only', ''], ['fix', '--diff', '--only', 'no-var']):
        status, out, err = files(room, *words, 'a.js')
        is_well((status, out, err.count('\n')) == (2, '', 1) and err.startswith('jslint-files: '), f'{words} {status} {out} {err}')


def first_document(room):
    """--init: the environments of sources and of tests, modules; nothing is replaced; what it writes is taken."""
    ready(room, src__a_js='process; module;\n', test__a_js='expect(1); document;\n', package_json='{"devDependencies": {"jest": "1"}}')
    same(files(room, '--init'), (0, 'jslint.toml\n', ''))
    text = room.text('jslint.toml')
    is_well('env = ["node"]\n' in text and 'env = ["browser", "jest"]\n' in text and 'source-type' not in text, text)
    same(files(room, '--project', 'src', 'test'), (0, '', ''))
    same(files(room, '--init'), (2, '', 'jslint-files: jslint.toml is there already\n'))
    same(room.text('jslint.toml'), text)


def by_lists(room):
    """Many files by one call of the program: warnings alone fail nothing, and what overrides say holds for their files alone."""
    names = {it: [f'{it}{at}.js' for at in range(5)] for it in 'xy'}
    ready(room, jslint_toml='rules.no-var = 1\nrules.no-unused-vars = "warn"\n\n[[overrides]]\nfiles = ["y*.js"]\nrules.no-var = "error"\n')
    for name in names['x'] + names['y']:
        room.put(name, TEXT)
    warned = ''.join(lines(*(found + MARK for found in FOUND), name=it) for it in names['x'])
    failed = ''.join(lines(FOUND[0], FOUND[1] + MARK, name=it) for it in names['y'])
    same(files(room, '--project', *names['x']), (0, warned, ''))
    same(files(room, '--project', *names['x'], *names['y']), (1, warned + failed, ''))


TESTS = [by_program, forms, moot, overrides, by_words, first_document, by_lists]
