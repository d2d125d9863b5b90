"""Settings at each door: sets, severities, `only` and the options of rules show in each form of `jslint-files`, in the language server and in the package for
Node what `jslint check` says; settings as JSON (`--print-layers`); the tables of options in the documents and the schema; what refused settings name.

Each test is a function that raises where something is wrong, and libraries.Skipped where it can't be tried. Its argument is a room: a folder of its own.
"""
import json
import os
import re
import time

import hooks
import libraries
import sarif
from files import files
from libraries import ran, tool
import recipes
from recipes import TOP, is_well, same
from schema import schema
from severities import ready

recipes.sys.path.insert(0, f'{TOP}/tools')
from jslint_files.layers import Layers  # noqa: E402

# A script with something for each option, in CR LF with characters of one to four bytes, and one that nothing is wrong with.
SCRIPT = '''let é = "\U0001f600", x = 1; x = (é); var debug; debugger;
x == null; x == x; typeof nowhere; undefined_name;
{} { /* why */ } if (x) ;;
function f(a, b, _c, kept) { let x = a; return x; } f();
try { f(); } catch (e) {} try { f(); } catch (_e) {}
const { _one, two, ...rest } = x; rest; let done, _done, testUnused;
a => { let debug; debug = debug; }; if (!x in f) x = undefined; while (1) ;
'''.replace('\n', '\r\n')
SCRIPTS = {'a.js': SCRIPT, 'ok.js': '"use strict";\n', 'none.js': ''}
# Settings of each sort; each is taken.
SETS = [''] + [f'extends = "{it}"\n' for it in ('nine', 'recommended', 'all', 'none')]
OPTIONS = [
    'no-unused-vars = { args = "after-used" }', 'no-unused-vars = { args = "all", severity = 1 }', 'no-unused-vars = { args = "none" }', 'no-unused-vars = { caught-errors = "all" }',
    'no-unused-vars = { args = "all", args-ignore = ["_*", "kept"] }', 'no-unused-vars = { vars-ignore = ["done", "*Unused"] }', 'no-unused-vars = { caught-errors = "all", caught-errors-ignore = ["_*"] }',
    'no-unused-vars = { ignore-rest-siblings = true }', 'no-unused-vars = { ignore-underscore = true, args = "all" }', 'no-undef = { typeof = true }', 'no-undef = { typeof = false, severity = "warn" }',
    'no-shadow = { allow = ["x", "de*"] }', 'no-shadow = { allow = [] }', 'eqeqeq = { allow-null = true }', 'no-empty = { allow-comments = true, severity = "warn" }',
]
SEVERITIES = ['"off"', '"warn"', '"error"', '0', '1', '2', 'true', 'false', '{ severity = 0 }', "{ severity = 'warn' }"]
SETTINGS = [
    *SETS, *(f'rules.{it}\n' for it in OPTIONS), *(f'{SETS[3]}[rules]\nno-var = {it}\nno-self-compare = {it}\nno-undef={it}' for it in SEVERITIES),
    'extends = "none"\nrules.no-with = 2\n', 'only = ["no-var", "eqeqeq"]\n', f'only = ["no-var", "eqeqeq"]\n{SETS[3]}rules.eqeqeq = "warn"\nrules.no-var = "off"\n', 'only = []\n',
    'extends = "all"\nonly = ["no-undefined"]\nrules.no-undefined = 1\n', 'allow-null = true\nallow-comments = true\nignore-underscore = true\nglobals = ["undefined_name"]\nenv = ["node"]\n',
    'allow-null = true\nrules.eqeqeq.allow-null = false\n', 'edition = 2022\nextends = "all"\n', '"rules"."no-v\\u0061r" = \'w\\u0061rn\'\n'.replace("'", '"'), '[rules]\r\nno-var = "warn" # \U0001f600\r\n',
]
# By Node: what the commands of the package say of each script under each settings, and what the server makes of it.
NODE = '''import { readFileSync } from 'node:fs';
import { commandsOf } from './core.mjs';
import { Jobs } from './lib/jobs.mjs';
import { Document } from './lib/document.mjs';
import { Editor } from './lib/editor.mjs';
import { Shown } from './lib/shown.mjs';
import { resultOf } from './eslint-json.mjs';
const commands = commandsOf(new WebAssembly.Module(readFileSync('jslint.wasm'))), jobs = new Jobs(commands), editor = new Editor();
editor.options.severity = 'error';
const { scripts, settings } = JSON.parse(readFileSync(0, 'utf8')), shown = new Shown(editor);
const toldOf = (text, settings) => ({
  check: commands.check(text, { settings }).map((it) => [it.line, it.column, it.rule, it.message, it.severity === 'warning']),
  eslint: resultOf('/a.js', text, { settings }).messages.map((it) => [it.line, it.column, it.ruleId, it.message, it.severity === 1]),
  server: shown.reports(new Document({ uri: 'file:///a.js', text }), jobs.check({ text, settings, kind: null, areRead: false }))
    .map((it) => [it.range.start.line + 1, it.range.start.character + 1, it.code, it.message, it.severity === 2]),
});
console.log(JSON.stringify(settings.map((each) => scripts.map((it) => toldOf(it, each)))));
'''
REPORT = re.compile(r'(\d+):(\d+) (\S+) (.*?)( \(warning\))?')


def told(out):
    """Lines of `check` as line, column, rule, text, and whether it is a warning."""
    found = [REPORT.fullmatch(it) for it in out.split('\n')[:-1]]
    return [[int(it[1]), int(it[2]), it[3], it[4], it[5] is not None] for it in found]


def by_program(room):
    """What the program says of each script under each settings, with the status, and that it is no refusal."""
    found = []
    for number, text in enumerate(SETTINGS):
        room.put(f'{number}.toml', text)
        answers = [room.run(['jslint', 'check', '--settings', f'{number}.toml', it]) for it in SCRIPTS]
        is_well(all(status in (0, 1) and not err for status, _, err in answers), f'{text}: {answers}')
        found.append([(status, told(out)) for status, out, _ in answers])
    # (each is of some use)
    is_well(len({str(it) for it in found}) > 20, len({str(it) for it in found}))
    return found


def in_units(reports, text):
    """Reports with columns in UTF-16 units."""
    rows = text.split('\r\n')
    return [[line, len(rows[line - 1][:column - 1].encode('utf-16-le')) // 2 + 1, *more] for line, column, *more in reports]


def by_forms(room):
    """Each form of `jslint-files` says what the program says: the rules, the places, the severities and the status."""
    ready(room, **{name.replace('.js', '_js'): it for name, it in SCRIPTS.items()})
    for number, answers in enumerate(by_program(room)):
        wanted = {name: answers[at][1] for at, name in enumerate(SCRIPTS)}
        call = lambda form: files(room, '--settings', f'{number}.toml', '--format', form, *SCRIPTS)
        for form in ('unix', 'json', 'sarif', 'github', 'junit', 'pretty'):
            status, out, err = call(form)
            same((status, err), (max(it for it, _ in answers), ''), f'{SETTINGS[number]} {form}')
            same(PARTS[form](out), {name: VIEWS[form](it, SCRIPTS[name]) for name, it in wanted.items() if it or form == 'json'}, f'{SETTINGS[number]} {form}')


def grouped(rows):
    found = {}
    for name, *more in rows:
        found.setdefault(name, []).append(more)
    return found


def of_lines(out):
    return {name: told(''.join(f'{line}\n' for line, in rows)) for name, rows in grouped(it.split(':', 1) for it in re.sub(r'^(\S+?:\d+:\d+): ', r'\1 ', out, flags=re.M).splitlines()).items()}


def of_json(out):
    return {os.path.basename(it['filePath']): [[one['line'], one['column'], one['ruleId'], one['message'], one['severity'] == 1] for one in it['messages']] for it in json.loads(out)}


def of_sarif(out):
    log = json.loads(out)
    same(sarif.faults(log), [])
    rules = [it['id'] for it in log['runs'][0]['tool']['driver']['rules']]
    found = []
    for it in log['runs'][0]['results']:
        place = it['locations'][0]['physicalLocation']
        is_well(rules[it['ruleIndex']] == it['ruleId'] and it['level'] in ('warning', 'error') and 'endColumn' in place['region'], it)
        found.append((place['artifactLocation']['uri'], place['region']['startLine'], place['region']['startColumn'], it['ruleId'], it['message']['text'], it['level'] == 'warning'))
    return grouped(found)


def of_github(out):
    found = [re.fullmatch(r'::(warning|error) file=([^,]*),line=(\d+),col=(\d+),title=(\S+?)::(.*)', it) for it in out.splitlines()]
    return grouped((it[2], int(it[3]), int(it[4]), it[5], it[6].replace('%25', '%'), it[1] == 'warning') for it in found)


def of_junit(out):
    import xml.etree.ElementTree
    cases = [it for it in xml.etree.ElementTree.fromstring(out.encode()).iter('testcase') if len(it)]
    kinds = {it.attrib['name']: it[0].tag for it in cases}
    found = {it.attrib['name']: told(it[0].text) for it in cases}
    same(kinds, {name: 'system-out' if all(it[4] for it in rows) else 'failure' for name, rows in found.items()})
    return found


def of_pretty(out):
    return of_lines(''.join(f'{it}\n' for it in out.split('\n') if re.match(r'\w+\.js:\d+:\d+: ', it)))


PARTS = {'unix': of_lines, 'json': of_json, 'sarif': of_sarif, 'github': of_github, 'junit': of_junit, 'pretty': of_pretty}
VIEWS = {form: in_units if form == 'json' else lambda it, _: it for form in PARTS}


def by_node(room):
    """The package's `check` and ESLint's form of it, and what the server shows, are what the program says."""
    ready(room, **{name.replace('.js', '_js'): it for name, it in SCRIPTS.items()})
    wanted, package = by_program(room), libraries.package(room.folder)
    asked = json.dumps({'scripts': [*SCRIPTS.values()], 'settings': SETTINGS})
    found = json.loads(ran([libraries.node(), '--input-type=module', '-e', NODE], cwd=package, input=asked)[0])
    for text, rows, answers in zip(SETTINGS, found, wanted):
        for script, row, (_, reports) in zip(SCRIPTS.values(), rows, answers):
            units = in_units(reports, script)
            same(row, {'check': reports, 'eslint': units, 'server': units}, text)


def own_rules(room):
    """A program with rules of its own: each form has their reports, and SARIF names no rule that isn't described."""
    ready(room)
    room.put('own', '#!/bin/sh\ncase "$*" in\n*--version*) echo jslint 9.9.9 ;;\n*--spans*) echo 0 1 my-rule a text ;;\n*--list*) echo "a.js:1:1 my-rule a text" ;;\n*) cat >/dev/null; echo 1:1 my-rule a text ;;\nesac\nexit 1\n', 0o755)
    for form in PARTS:
        status, out, err = files(room, '--format', form, 'a.js', JSLINT=room.path('own').decode(), JSLINT_LIBRARY='')
        same((status, err), (1, ''), form)
        is_well('my-rule' in out and 'a text' in out, f'{form} {out}')
        if form == 'sarif':
            same((sarif.faults(json.loads(out)), [sorted(it) for it in json.loads(out)['runs'][0]['results']]), ([], [['level', 'locations', 'message', 'ruleId']]))


# ---- settings as JSON

def print_layers(room):
    """What settings have, or why they are refused, with the place; one line of JSON in each case."""
    ready(room)
    printed = lambda text, **more: room.run(['jslint-files', '--print-layers'], text if isinstance(text, bytes) else text.encode(), **more)
    for text, wanted in (
            ('', {'settings': {}, 'overrides': []}),
            ('extends = "none"\n[rules]\nno-var = 1\n[[overrides]]\nfiles = ["é/", "a\\n"]\n[overrides.rules.eqeqeq]\nallow-null = true\n[[overrides]]\nfiles = []\nformat = { width = 90 }\n',
             {'settings': {'extends': 'none', 'rules': {'no-var': 1}}, 'overrides': [{'files': ['é/', 'a\n'], 'settings': {'rules': {'eqeqeq': {'allow-null': True}}}}, {'files': [], 'settings': {'format': {'width': 90}}}]}),
            ('[format]\r\ntabs = true\r\n', {'settings': {'format': {'tabs': True}}, 'overrides': []})):
        status, out, err = printed(text)
        same((status, json.loads(out), err, out.count('\n')), (0, wanted, '', 1), text)
    for text, line, column, words in (
            ('a = ', 1, 5, 'bad settings at 1:5'), (b'\xff', 1, 1, 'bad settings at 1:1'), ('[[overrides]]\n', 1, 1, 'bad settings (line 1): overrides.0: there is no files'),
            ('extends = "none"\r\n\r\n[[overrides]]\r\nfiles = ["a"]\r\nonly = ["no-vars"]\r\n', 5, 1, 'bad settings (line 5): overrides.0.only has "no-vars": there is no such rule'),
            ('globals = [1979-05-27]\n[[overrides]]\nfiles = []\n', 1, 1, 'bad settings (line 1): globals has "1979-05-27": it takes strings'),
            ('globals = [inf, 07:32:00]\nformat.width = 90\n', 1, 1, 'bad settings (line 1): globals has Infinity: it takes strings'),
            ('edition = 2020\n[[overrides]]\nfiles = []\n[[overrides]]\nfiles = ["*.mjs"]\nsource-type = "module"\nallow-null = true\n', 6, 1, 'with overrides.1 (line 6): bad settings: source-type = "module": there are none in edition = 2020'),
            ('#' * 16777217, 1, 1, 'longer than 16777216 bytes')):
        status, out, err = printed(text)
        same((status, json.loads(out), err), (2, {'refused': {'line': line, 'column': column, 'words': words}}, ''), text[:100])
    same(printed('', JSLINT='/none'), (2, '', 'jslint-files: there is no /none\n'))
    same(room.run(['jslint-files', 'fix', '--write', '--print-layers', 'a.js']), (2, '', 'jslint-files: --print-layers is for check\n'))
    same(room.sh('jslint-files --print-layers <&-')[:2], (2, ''))
    same(room.sh('jslint-files --print-layers >&- <only.toml')[0], 2)
    same(room.sh('jslint-files --print-layers <s.toml >/dev/full'.replace('s.toml', 'only.toml')), (2, '', 'jslint-files: write failed\n'))


def refused_lines(room):
    """The line of refused settings is named in CR LF as in LF; values that TOML alone has stay what they are where a document is made anew."""
    ready(room)
    for end in '\n', '\r\n':
        for text, line, why in (('extends = "none"\n\n[rules]\nno-vars = 1\n', 4, 'rules.no-vars = 1: there is no such rule'), ('[[overrides]]\nfiles = []\nenv = ["x"]\n', 3, 'overrides.0.env has "x": it takes'),
                                ('format.width = 90\nglobals = ["a", 1979-05-27T07:32:00Z]\n', 2, 'globals has "1979-05-27 07:32:00+00:00": it takes strings'), ('format.width = 90\nedition = 2022.0\n', 2, 'edition = 2022.0: it takes 2020 or 2022')):
            room.put('jslint.toml', text.replace('\n', end))
            status, out, err = files(room, '--project', 'a.js')
            is_well((status, err) == (2, '') and out.startswith(f'jslint.toml:{line}:1: bad settings: {why}'), f'{text}: {out}{err}')


def overrides_time(_):
    """Many scripts with many overrides don't take long: what holds for a folder is asked once. In no order do two names change what is said."""
    text = ''.join(f'[[overrides]]\nfiles = ["d{at}/", "*{at}.test.js", "/a/*/x{at}.js", "!n*.js"]\nglobals = ["g{at}"]\n' for at in range(20)).encode()
    names = [f'/p/a/d{at % 30}/{"deep/" * (at % 3)}{"xn"[at % 2]}{at}{".test" * (at % 5 == 0)}.js' for at in range(600)] + ['/p/' + 'e/' * 800 + 'x1.test.js', '/q/x1.test.js', '/x1.test.js']
    begun, made = time.process_time(), [Layers(), Layers()]
    found = [{it: layers.holding('/p/jslint.toml', text, it) for it in each} for layers, each in zip(made, (names, names[::-1] + names))]
    is_well(time.process_time() - begun < 20, time.process_time() - begun)
    same(found[0], found[1])
    same([found[0][it] for it in ('/p/a/d7/deep/n7.js', '/p/a/d5/deep/deep/n5.test.js', '/p/a/d12/x12.js', names[-3], names[-2], names[-1])], [(7,), (5,), (12,), (1,), (), ()])


# ---- the action and the hooks

# Settings by which tests may have `describe`, warnings, and what a script that has each shows of it.
PROJECT = 'extends = "none"\nrules.no-undef = "error"\nrules.no-var = "warn"\n\n[[overrides]]\nfiles = ["test/"]\nenv = ["jest"]\nrules.no-var = 0\nrules.no-debugger = 1\n'
WARNED = 'var a = 1; debugger;\n'


def with_project(room):
    ready(room, jslint_toml=PROJECT, a_js=WARNED, test__a_js=f'describe(); {WARNED}', b_js='describe();\n')


def by_action(room):
    """Notes say which reports are warnings, and these alone fail nothing; overrides hold; settings that are refused fail, and are told of where they are."""
    with_project(room)
    text, given = hooks.action()
    room.put('script', text)
    room.git('init', '-q')
    room.git('add', '.')
    call = lambda **inputs: room.run([tool('bash'), '--noprofile', '--norc', '-eo', 'pipefail', 'script'], **{**given, **inputs, 'GITHUB_ACTION_PATH': TOP, **hooks.program()})
    note = '::{} file={},line=1,col={},title={}::{}\n'.format
    warned = note('warning', 'a.js', 1, 'no-var', 'use let or const instead of var') + note('warning', 'test/a.js', 24, 'no-debugger', 'debugger statement')
    failed = note('error', 'b.js', 1, 'no-undef', "'describe' is not defined")
    same(call(FILES='a.js\ntest/*.js'), (0, warned, ''))
    same(call(FILES='a.js\ntest/*.js', ARGS='--max-warnings\n1'), (1, warned, ''))
    same(sorted(call()[1].splitlines()), sorted((warned + failed).splitlines()))
    same(call(FILES='b.js', ARGS='--rule\nno-undef=warn'), (0, failed.replace('error', 'warning'), ''))
    same(call(FILES='a.js', ARGS='--rule=no-var=2')[:2], (1, note('error', 'a.js', 1, 'no-var', 'use let or const instead of var')))
    same(call(SARIF='out.sarif')[0], 1)
    log = json.loads(room.text('out.sarif'))
    same((sarif.faults(log), sorted(it['level'] for it in log['runs'][0]['results']), log['runs'][0]['invocations']), ([], ['error', 'warning', 'warning'], [{'executionSuccessful': True}]))
    room.put('jslint.toml', PROJECT.replace('= 1', '= "warning"'))
    bad = '::error file=jslint.toml,line=9,col=1,title=jslint::bad settings: overrides.0.rules.no-debugger = "warning": it takes '
    status, out, err = call(SARIF='out.sarif')
    is_well((status, err) == (2, '') and out.startswith(bad) and out.count('\n') == 1, out)
    log = json.loads(room.text('out.sarif'))
    place = log['runs'][0]['results'][0]['locations'][0]['physicalLocation']
    same((sarif.faults(log), len(log['runs'][0]['results']), place['artifactLocation']['uri'], place['region']['startLine'], log['runs'][0]['invocations']), ([], 1, 'jslint.toml', 9, [{'executionSuccessful': False}]))
    status, out, err = call(SETTINGS='jslint.toml')
    is_well((status, out) == (2, '') and err.startswith('jslint-files: jslint.toml: bad settings (line 9): overrides.0.rules.no-debugger'), err)


def by_hooks(room):
    """The hooks: warnings alone pass, overrides hold, also for names in a folder; the one without Python refuses overrides, and takes severities."""
    with_project(room)
    hook = hooks.hooks()
    call = lambda name, *names, args=None: room.run([*hooks.words_of(hook[name], args), *names], **hooks.program())
    warned = 'a.js:1:1: no-var use let or const instead of var (warning)\ntest/a.js:1:24: no-debugger debugger statement (warning)\n'
    same(call('jslint', 'a.js', 'test/a.js'), (0, warned, ''))
    same(call('jslint', 'a.js', 'test/a.js', args=['--max-warnings', '0', '--']), (1, warned, ''))
    same(call('jslint', 'b.js', 'a.js', args=['--only', 'no-undef', '--']), (1, "b.js:1:1: no-undef 'describe' is not defined\n", ''))
    same([call(it, 'a.js', 'test/a.js', 'b.js')[0] for it in ('jslint-unwrap', 'jslint-format')], [0, 0])
    same(call('jslint-list', 'a.js', args=['--settings', 'jslint.toml', '--'])[:2], (2, ''))
    room.put('own.toml', PROJECT.partition('\n\n')[0])
    listed = 'a.js:1:1 no-var use let or const instead of var (warning)\n'
    same(call('jslint-list', 'a.js', args=['--settings', 'own.toml', '--']), (0, listed, ''))
    same(call('jslint-list', 'a.js', 'b.js', args=['--settings', 'own.toml', '--']), (1, f"{listed}b.js:1:1 no-undef 'describe' is not defined\n", ''))


# ---- documents

def options_said(_):
    """The schema has just the options that docs/rules/README.md names, each with that value and with what holds without it; each has a place in its rule's page."""
    rules = schema()['properties']['rules']['properties']
    options = lambda it: it['anyOf'][1]['properties'] if 'anyOf' in it else {}
    wanted = {name: {key: each for key, each in options(it).items() if key != 'severity'} for name, it in rules.items()}
    with open(f'{TOP}/docs/rules/README.md', encoding='utf-8') as file:
        page = file.read()
    rows, rule, found = re.findall(r'^\|(.*?)\| (`.*?`) \| (.*?) \| (.*?) \|$', page.partition('\n### Options of rules\n')[2].partition('\n## ')[0], re.M), None, {}
    for named, keys, value, without in rows:
        rule = re.match(r' \[([\w-]+)\]', named)[1] if named.strip() else rule
        found.setdefault(rule, {}).update({key: (value, without) for key in re.findall('`(.*?)`', keys)})
    said = lambda it: ('names', 'none') if it['type'] == 'array' else ('`true` or `false`', f'`{json.dumps(it.get("default", False))}`') if it['type'] == 'boolean' else None
    listed = lambda it: (' or '.join(', '.join(f'`"{each}"`' for each in it['enum']).rsplit(', ', 1)), f'`"{it["default"]}"`')
    same(found, {name: {key: listed(it) if 'enum' in it else said(it) for key, it in keys.items()} for name, keys in wanted.items() if keys})
    for name, keys in wanted.items():
        if keys:
            with open(f'{TOP}/docs/rules/{name}.md', encoding='utf-8') as file:
                text = file.read().partition('\n## Settings\n')[2].partition('\n## ')[0]
            same([key for key in keys if f'{key} = ' not in text], [], name)
    is_well(sum(map(len, wanted.values())) > 10, wanted)


TESTS = [by_forms, by_node, own_rules, print_layers, refused_lines, overrides_time, by_action, by_hooks, options_said]
