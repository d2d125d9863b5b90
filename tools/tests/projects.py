"""`jslint-files` over projects: the nearest settings, and what is said of refused ones; ignore files; in which languages scripts are read.

Each test is a function that raises where something is wrong, and libraries.Skipped where it can't be tried. Its argument is a room: a folder of its own.
"""
import json
import os
import random
import re
import sys
import time

from files import files
from libraries import tool
from many import CLEAN, FOUND_BUG, NONE, names_in, project, put, repository
from recipes import TOP, is_well, same

sys.path.insert(0, f'{TOP}/tools')
from jslint_files import ignoring  # noqa: E402


def settings_nearest(room):
    """The nearest counts, up to the folder that has .git; --settings goes before it; without --project none is looked for."""
    room.put('jslint.toml', 'rules = { no-undef = false }\n')
    put(room, ['a.js'], 'a; b;')
    repository(room)
    room.put('jslint.toml', 'globals = ["a"]\n')
    room.put('x/jslint.toml', 'rules = { no-undef = false }\n')
    room.put('clone/.git/config', '')
    put(room, ['x/2.js', 'x/y/3.js', 'z/4.js', 'clone/5.js'], 'a; b;')
    said = lambda it, *names: ''.join(f"{it}:1:{at}: no-undef '{name}' is not defined\n" for at, name in names)
    both = (1, 'a'), (4, 'b')
    same(project(room), (1, said('a.js', (4, 'b')) + said('clone/5.js', *both) + said('z/4.js', (4, 'b')), ''))
    same(project(room, 'x', 'z/4.js', 'z'), (1, said('z/4.js', (4, 'b')), ''))
    same(project(room, '--settings', 'x/jslint.toml'), (0, '', ''))
    same(files(room, 'x/2.js'), (1, said('x/2.js', *both), ''))
    same(project(room, '../room/x/y/3.js'), (0, '', ''))
    os.symlink('../x', room.path('z/linked'))
    same(project(room, 'z/linked/2.js'), (0, '', ''))


def settings_refused(room):
    """Each has a line of its own, with the key, its value and why, and the scripts of all other folders are looked at. The status is 2."""
    repository(room)
    put(room, ['a.js', 'x/b.js', 'x/y/c.js'])
    rows = [
        ('globals = [\n"a"]\nnope = 1\n', '3:1', 'bad settings: nope = 1: there is no such key'), ('x', '1:2', 'bad settings'), ('\xff = 1', '1:1', 'bad settings'), ('allow-null = true\n' * 2, '2:1', 'bad settings'),
        ('#\n' * 300 + 'x', '301:2', 'bad settings'), ('#\n' * 300 + 'x = 1', '301:1', 'bad settings: x = 1: there is no such key'), ('x = 1\n' + '#\n' * 300, '1:1', 'bad settings: x = 1: there is no such key'),
        (None, '1:1', 'read failed: a folder'), ('link', '1:1', 'read failed: links in a circle'), ('gone', '1:1', 'read failed: missing'), ('long', '1:1', 'longer than 16777216 bytes'),
    ]
    for text, place, said in rows:
        room.run(['rm', '-rf', 'x/jslint.toml'], status=0)
        if text is None:
            os.mkdir(room.path('x/jslint.toml'))
        elif text in ('link', 'gone'):
            os.symlink('jslint.toml' if text == 'link' else 'none', room.path('x/jslint.toml'))
        elif text == 'long':
            room.put('x/jslint.toml', '')
            os.truncate(room.path('x/jslint.toml'), 100_000_000)
        else:
            room.put('x/jslint.toml', text)
        line = f'x/jslint.toml:{place}: {said}\n'
        same(project(room), (2, f'{line}a.js:{FOUND_BUG}', ''), repr(text)[:60])
        # (settings say the language of what is rewritten too)
        same(project(room, 'unwrap', '--write'), (2, '', line), repr(text)[:60])
        same(project(room, '--stdin', 'x/new.js', given=b'debugger;'), (2, line, ''))
        same(project(room, 'unwrap', '--stdin', 'x/new.js', given=b'(a)'), (2, '', line))
    same(project(room, 'a.js'), (1, f'a.js:{FOUND_BUG}', ''))
    same(project(room, 'unwrap', '--write', '--edition', '2020'), (0, '', ''))


def settings_refused_in_forms(room):
    """Each form has the settings that are refused; they are no script, and how many are left for them is counted."""
    repository(room)
    put(room, ['a.js', 'x/b.js', 'x/c.js', 'y/d.js'], CLEAN)
    room.put('x/jslint.toml', '# a\nenv = ["browser", "deno"]\n')
    room.put('y/jslint.toml', '# \u6f22\n\n[rules]\nno-such = true\n')
    said = ['env has "deno": it takes "browser", "node", "commonjs", "worker", "es2022", "mocha" or "jest"', 'rules.no-such = true: there is no such rule']
    for form in ('unix', 'pretty', 'json', 'sarif', 'junit', 'github'):
        status, out, err = project(room, '--format', form, '--summary')
        same((status, err), (2, '0 reports in 1 script, 3 left for bad settings\n'), form)
        is_well(all(f'bad settings: {it}' in out.replace('\\"', '"').replace('&quot;', '"') for it in said) and 'x/jslint.toml' in out, out)
    same([(it['messages'][0]['line'], it['source'][:3]) for it in json.loads(project(room, '--format', 'json')[1])[:2]], [(2, '# a'), (4, '# \u6f22')])
    same(project(room, '--format', 'github')[1].splitlines()[0].split('::')[1], 'error file=x/jslint.toml,line=2,col=1,title=jslint')
    run = json.loads(project(room, '--format', 'sarif')[1])['runs'][0]
    same((run['invocations'][0]['executionSuccessful'], [it['locations'][0]['physicalLocation']['region']['startLine'] for it in run['results']]), (False, [2, 4]))
    # (seen from elsewhere it has its whole name)
    same(room.run(['jslint-files', '--project', '../y'], at='x')[1].split(':')[0], f'{os.path.realpath(room.folder)}/y/jslint.toml')


# Settings that are refused, and what is said of them.
UNFIT = [
    ('nope = 1', 'nope = 1: there is no such key'), ('rules.no-such = true', 'rules.no-such = true: there is no such rule'), ('rules = 1', 'rules = 1: it takes a table'), ('[rules]\nno-var = "on"', 'rules.no-var = "on": it takes true, false, "off", "warn", "error", 0, 1, 2 or a table with a severity or options'),
    ('globals = "a"', 'globals = "a": it takes an array'), ('globals = ["a", 1]', 'globals has 1: it takes strings'), ('allow-null = 1', 'allow-null = 1: it takes true or false'), ('edition = 2021', 'edition = 2021: it takes 2020 or 2022'),
    ('edition = "2022"', 'edition = "2022": it takes 2020 or 2022'), ('edition = 2020.0', 'edition = 2020.0: it takes 2020 or 2022'), ('source-type = "commonjs"', 'source-type = "commonjs": it takes "script" or "module"'),
    ('edition = 2020\nsource-type = "module"', 'source-type = "module": there are none in edition = 2020'), ('"a\u202e\\n" = 1', 'a\\u{202e}\\x0a = 1: there is no such key'), ('when = 1979-05-27', 'when = "1979-05-27": there is no such key'),
    ('rules.no-unused-vars = { args = "some" }', 'rules.no-unused-vars.args = "some": it takes "none", "after-used" or "all"'), ('rules.no-undef = { typeof = 1 }', 'rules.no-undef.typeof = 1: it takes true or false'),
    ('rules.no-shadow = { allow = ["a*", "a*b"] }', 'rules.no-shadow.allow has "a*b": it takes strings with a * at one end at most'), ('rules.no-undef = { args = "all" }', 'rules.no-undef.args = "all": there is no such option'),
    ('rules.no-shadow = { allow = [' + '"a", ' * 101 + '] }', 'rules.no-shadow.allow has 101 elements: it takes 100 at most'),
    ('x = "' + 'a' * 90 + '"', 'x = "' + 'a' * 59 + '\u2026: there is no such key'), ('env = [[1]]\nnope = 1', 'env has [1]: it takes "browser", "node", "commonjs", "worker", "es2022", "mocha" or "jest"'),
]


def settings_unfit(room):
    """The key, its value and why, also where the words ask for another language, and the line where Python reads no TOML."""
    room.put('a.js', '')
    for text, why in UNFIT:
        room.put('s.toml', text)
        status, out, err = files(room, '--settings', 's.toml', 'a.js')
        said = re.fullmatch(r'jslint-files: s\.toml: bad settings(?: \(line (\d+)\))?: (.*)\n', err)
        same((status, out, said and said[2]), (2, '', why), f'{text} {err}')
    room.put('s.toml', 'source-type = "script"\n')
    same(files(room, '--module', '--settings', 's.toml', 'a.js'), (2, '', 'jslint-files: s.toml: bad settings: source-type = "script": --module asks for another language\n'))
    room.put('s.toml', 'edition = 2020\n')
    same(files(room, '--edition', '2022', '--settings', 's.toml', 'a.js'), (2, '', 'jslint-files: s.toml: bad settings: edition = 2020: --edition 2022 asks for another language\n'))
    room.put('old/tomllib.py', 'raise ImportError\n')
    room.put('s.toml', 'allow-null = true\nenv = ["deno"]\n')
    same(files(room, '--settings', 's.toml', 'a.js', PYTHONPATH=f'{room.folder}/old'), (2, '', 'jslint-files: s.toml: bad settings (line 2): env = ["deno"]\n'))


def ignore_files(room):
    """Below a folder, and where a file is named. Links are followed to no script and no folder, so none goes round in a circle."""
    repository(room)
    put(room, ['a.js', 'b.min.js', 'out/c.js', 'node_modules/d/e.js', 'x/f.js', 'x/g.js', 'x/h.mjs', 'x/i.cjs', 'x/keep.min.js', 'inner/b.min.js', '.hidden/i.js', 'y.js/j.js'])
    room.put('.gitignore', '*.min.js\n/out/\n')
    room.put('x/.jslintignore', 'g.js\n!keep.min.js\n')
    room.put('inner/.git', 'gitdir: elsewhere\n')
    os.symlink('..', room.path('x/up'))
    os.symlink('loop', room.path('x/loop'))
    os.symlink('../a.js', room.path('x/z.js'))
    all_of = ['.hidden/i.js', 'a.js', 'inner/b.min.js', 'x/f.js', 'x/h.mjs', 'x/i.cjs', 'x/keep.min.js', 'y.js/j.js']
    below = [it for it in all_of if it.startswith('x/')]
    same(names_in(project(room)[1]), all_of)
    same(names_in(project(room, '.')[1]), all_of)
    same(names_in(project(room, 'x', 'out/c.js', 'x/f.js')[1]), below)
    same(names_in(project(room, './x/', 'x/up/inner')[1]), [*(f'./{it}' for it in below), 'x/up/inner/b.min.js'])
    same(project(room, 'out', 'node_modules/d'), (2, '', f'{NONE}: 2 names are ignored (--no-ignore looks at them all the same); --allow-none lets that pass\n'))
    same(project(room, '--no-ignore', 'out', 'node_modules/d')[:2], (1, f'out/c.js:{FOUND_BUG}node_modules/d/e.js:{FOUND_BUG}'))
    same(project(room, 'x/loop', 'none')[1], 'x/loop:1:1: read failed: links in a circle\nnone:1:1: read failed: missing\n')
    same(names_in(project(room, '--files-from', '-', given=b'x\na.js\nb.min.js\n')[1]), [*below, 'a.js'])
    same(files(room, 'x'), (2, 'x:1:1: read failed: a folder\n', ''))
    room.put('.git/info/exclude', 'f.js\na.js\n')
    room.put('x/.gitignore', '!f.js\n')
    same(names_in(project(room)[1]), [it for it in all_of if it != 'a.js'])
    room.run(['rm', '.git/info/exclude', 'x/.gitignore'], status=0)
    for name, said in [('x/.gitignore', 'links in a circle'), ('x/.jslintignore', 'a folder'), ('.git/info/exclude', 'a folder')]:
        room.run(['rm', '-f', name], status=0)
        os.symlink('.gitignore', room.path(name)) if said != 'a folder' else os.mkdir(room.path(name))
        same(project(room), (2, '', f'jslint-files: {os.path.realpath(room.folder)}/{name}: read failed: {said}\n'))
        room.run(['rm', '-rf', name], status=0)


def ignore_as_git(room):
    """Random ignore files, over 40 paths each, as `git check-ignore` has them."""
    tool('git')
    room.git('init', '-q')
    chance = random.Random(int(os.environ.get('SEED', '7')))
    parts = ['a', 'b', 'a.js', 'b.js', '*', '**', '/', '/', '?', '[ab]', '[!a]', '!', '*.js', 'c', '\\', '#', ' ', 'd/', '[[:alpha:]]', 'a*b', '\\!', '[a-b', ']', '\u00e9', '[\u00e9]', '??.js', '***', '[/]', '[^/]', '\\\\ ', '[[:space:]]', '\r']
    paths = ['/'.join(filter(None, (one, two, three))) for one in ('a', 'b', 'c', 'a.js', 'ab', '\u00e9') for two in ('', 'a', 'b.js', 'c', '\u00e9.js', 'a ') for three in ('', 'a.js', 'd', '!a', '\u00e9') if two or not three]
    differ, tried = [], 0
    for _ in range(int(os.environ.get('ROUNDS', '150'))):
        lines = chance.choice(['', '', '\ufeff']) + '\n'.join(''.join(chance.choice(parts) for _ in range(chance.randint(1, 4))) for _ in range(chance.randint(1, 4)))
        # (git compares what stands before the first wildcard by itself, and takes the `**` of `a**/b` for one at the beginning; gitignore(5) has two stars)
        if re.search(r'[^/\n]\*\*+(/|\\/|$)', lines, re.M):
            continue
        tried += 1
        room.put('.gitignore', lines + '\n')
        wanted = set(filter(None, room.run(['git', 'check-ignore', '--no-index', '-z', '--stdin'], given='\0'.join(paths).encode())[1].split('\0')))
        patterns = ignoring.patterns_of(lines.encode())
        for it in paths:
            names = ignoring.in_bytes(it).split('/')
            at = [patterns] + [[]] * len(names)
            ignored = any(ignoring.verdict(names[:count], count < len(names), at) for count in range(1, len(names) + 1))
            differ += [(lines, it)] * (ignored != (it in wanted))
    same(differ[:5], [])
    is_well(tried > 100 or 'ROUNDS' in os.environ, tried)


def languages(room):
    """A module is one by its name, by the nearest package.json, by the settings or by its text; words go before all of these. `fix` and `unwrap` read it as
    `check` does."""
    repository(room)
    module, of_2022, base = 'export let a = (1);\n', 'f(async () => (1));\n', 'async = (a);\n'
    room.put('jslint.toml', '[rules]\nno-undef = false\nprefer-const = false\n')
    put(room, ['m.mjs', 'x.js', 'esm/x.js', 'esm/in/x.mjs', 'esm/none/x.js', 'esm/old/x.js', 'esm/old/x.mjs', 'said/x.js', 'both/x.js', 'c.cjs'], module)
    put(room, ['y.js', 'new/y.js', 'esm/y.js'], of_2022)
    put(room, ['cjs/x.js', 'cjs/y.cjs', 'cjs/z.mjs'], module)
    put(room, ['cjs/y.js', 'esm/y.cjs', 'esm/old/y.cjs', 'said/y.cjs'], of_2022)
    for folder, text in [('esm', '{"type": "module"}'), ('esm/none', '{"name": "none"}'), ('both', '\ufeff{ "type" : "module", "x": [{}] }'), ('new', '{"type": ["module"]}'), ('cjs', '{"type": "commonjs"}')]:
        room.put(f'{folder}/package.json', text)
    for folder, text in [('esm/old', 'source-type = "script"'), ('said', 'source-type = "module"'), ('new', 'edition = 2022'), ('both', 'edition = 2022')]:
        room.put(f'{folder}/jslint.toml', f'{text}\nrules = {{ no-undef = false, prefer-const = false }}\n')
    is_2022 = lambda it: '/y.' in f'/{it}' and it != 'cjs/y.cjs'
    pair = lambda it: f'{it}:1:{"15" if is_2022(it) else "16"}: no-extra-parens unnecessary parentheses\n'
    why = {True: '12: syntax error (perhaps: async functions, which --edition 2022 and --module read)', False: "1: syntax error (perhaps: 'export' makes this a module, which --module reads)"}
    refused = lambda it: f'{it}:1:{why[is_2022(it)]}\n'
    verdicts = {'both/x.js': pair, 'c.cjs': refused, 'cjs/x.js': refused, 'cjs/y.cjs': refused, 'cjs/y.js': pair, 'cjs/z.mjs': pair, 'esm/in/x.mjs': pair, 'esm/none/x.js': pair, 'esm/old/x.js': refused,
                'esm/old/x.mjs': refused, 'esm/old/y.cjs': pair, 'esm/x.js': pair, 'esm/y.cjs': pair, 'esm/y.js': pair, 'm.mjs': pair, 'new/y.js': pair, 'said/x.js': pair, 'said/y.cjs': pair, 'x.js': pair,
                'y.js': pair}
    same(project(room), (2, ''.join(say(it) for it, say in verdicts.items()), ''))
    # (without --project nothing is looked for but the name)
    same(files(room, 'm.mjs', 'esm/x.js', 'c.cjs', '--settings', 'jslint.toml'), (2, pair('m.mjs') + refused('esm/x.js') + refused('c.cjs'), ''))
    same(files(room, '--settings', 'said/jslint.toml', 'x.js', 'c.cjs'), (1, pair('x.js') + pair('c.cjs'), ''))
    same(files(room, '--settings', 'esm/old/jslint.toml', 'm.mjs'), (2, refused('m.mjs'), ''))
    same(project(room, 'esm/y.js', 'm.mjs', '--edition', '2020'), (2, refused('esm/y.js') + refused('m.mjs'), ''))
    same(project(room, 'x.js', 'y.js', '--module'), (1, pair('x.js') + pair('y.js'), ''))
    # (2022 means the same as a word and in settings: scripts and modules)
    same(files(room, '--edition=2022', 'y.js', 'm.mjs', 'x.js', '--settings', 'jslint.toml'), (2, pair('y.js') + pair('m.mjs') + refused('x.js'), ''))
    same(files(room, 'y.js', 'm.mjs', 'x.js', '--settings', 'new/jslint.toml'), (2, pair('y.js') + pair('m.mjs') + refused('x.js'), ''))
    same(files(room, '--edition=2022', 'x.js', '--settings', 'said/jslint.toml'), (1, pair('x.js'), ''))
    names = ['y.js', 'm.mjs', 'x.js', 'esm/x.js', 'cjs/x.js']
    told = ''.join(map(pair, names[:-1])) + refused('cjs/x.js')
    same([project(room, *names, *it) for it in (['--edition', '2022'], ['--edition', '2022', '--settings', 'jslint.toml'], ['--settings', 'new/jslint.toml'])], [(2, told, '')] * 3)
    same(project(room, 'unwrap', '--diff', '--edition', '2022', 'm.mjs', 'x.js')[0::2], (1, ''))
    same(files(room, '--module', '--settings', 'esm/old/jslint.toml', 'x.js')[::2], (2, 'jslint-files: esm/old/jslint.toml: bad settings: source-type = "script": --module asks for another language\n'))
    same(project(room, '--stdin', 'esm/new.js', given=module.encode()), (1, pair('esm/new.js'), ''))
    same(project(room, '--stdin', 'new.js', given=module.encode()), (1, pair('new.js'), ''))
    same(project(room, 'unwrap', '--stdin', 'new.js', given=module.encode()), (0, module.replace('(1)', '1'), ''))
    same(files(room, 'unwrap', '--stdin', 'new.mjs', given=module.encode()), (0, module.replace('(1)', '1'), ''))
    for command in ('fix', 'unwrap'):
        status, out, err = project(room, command, '--diff')
        same((status, re.findall(r'^\+\+\+ (.*)$', out, re.M), err), (2, [it for it, say in verdicts.items() if say is pair], ''.join(say(it) for it, say in verdicts.items() if say is refused)))
    same(project(room, 'unwrap', '--write', 'said', 'both', 'new', 'm.mjs'), (0, '', ''))
    same([room.text(it) for it in ('said/x.js', 'both/x.js', 'm.mjs', 'new/y.js')], [module.replace('(1)', '1')] * 3 + [of_2022.replace('(1)', '1')])
    # (a package.json that can't be read is said, and nothing of its modules)
    os.symlink('package.json', room.path('old.json'))
    os.replace(room.path('old.json'), room.path('esm/package.json'))
    same(project(room, 'esm/x.js'), (2, '', f'jslint-files: {os.path.realpath(room.folder)}/esm/package.json: read failed: links in a circle\n'))
    room.put('base.js', base)
    same([files(room, *words, 'base.js')[0] for words in ([], ['--edition', '2020'], ['--edition', '2022'], ['--module'])], [1, 1, 1, 1])


# Texts in a project, without settings: the language that each is read in, which a report or a refusal tells. `<!--` and all three: what is base stays base.
BY_TEXT = [
    ('await (1);', "1:1: no-undef 'await' is not defined"), ('let x = await 2; f(x, (x));', "1:18: no-undef 'f' is not defined"), ('import.meta; (1);', '1:14: no-extra-parens unnecessary parentheses'),
    ('async () => { (1) }', '1:15: no-extra-parens unnecessary parentheses'), ('export {}; f(;', '1:14: syntax error'), ('import a from "a";\nlet a;', '2:5: early error E3'), ('function f() {} function f() {} f(); a b', '1:40: syntax error'),
    ('export {}; async () => { a b }', '1:28: syntax error'), ('x => { async () => { a b } }', '1:24: syntax error'), ('var await; @', '1:12: syntax error'), ('import("a"); a b', '1:16: syntax error'), ('import "a"; delete a;', '1:13: early error E2'),
    ('export {}; ' + '[' * 700 + ']' * 700, '1:1: nested too deep'), ('export {}; return', '1:12: syntax error'), ('/a/d; (1)', '1:7: no-extra-parens unnecessary parentheses'), ('a #b', '1:3: syntax error'),
]


def languages_by_text(room):
    """The first language counts that has a text; a refusal is that of the one that got furthest. It is the same for `unwrap`."""
    repository(room)
    for number, (text, found) in enumerate(BY_TEXT):
        room.put('a.js', text)
        status, out, err = project(room, 'a.js')
        is_well(f'a.js:{found}\n' in out and err == '', f'{text[:50]} {out} {err}')
        is_refused = 'error' in found or 'deep' in found
        same((status, out.count('\n') > 0), (2 if is_refused else 1, True), text[:50])
        if is_refused:
            same(project(room, 'unwrap', '--diff', 'a.js'), (2, '', f'a.js:{found}\n'), text[:50])


def first_lines(room):
    """A line of `#!` stays; comments turn reports off in modules too."""
    repository(room)
    text = '#!/usr/bin//env node\r\nexport let a = (1); // b\r\n'
    for name, it in [('a.mjs', text), ('b.mjs', '#!/usr/bin/env node\nexport let a = (1);\n'), ('c.mjs', '#!\u2028/* a */ export let a = (1);\n')]:
        room.put(name, it)
    lost = 'not rewritten: fix drops {}; --drop-comments permits it, and unwrap keeps comments\n'
    same(files(room, 'fix', '--write', 'a.mjs', 'b.mjs', 'c.mjs'), (2, '', ''.join(f'{name}.mjs:2:{at}: {lost.format("a comment")}' for name, at in [('a', 21), ('c', 1)])))
    same(room.text('b.mjs'), '#!/usr/bin/env node\nexport let a = 1;\n')
    same(files(room, 'unwrap', '--write', 'a.mjs'), (0, '', ''))
    same(room.text('a.mjs'), text.replace('(1)', '1'))
    same(files(room, 'fix', '--write', '--drop-comments', 'a.mjs', 'b.mjs', 'c.mjs'), (0, '', ''))
    same([room.text(f'{it}.mjs') for it in 'abc'], ['#!/usr/bin//env node\r\nexport let a = 1;\r\n', '#!/usr/bin/env node\nexport let a = 1;\n', '#!\nexport let a = 1;\n'])
    room.put('d.mjs', '#!a\ndebugger; // jslint-disable-line\nexport {};\n')
    same(files(room, '--suppressions', 'd.mjs'), (0, '', ''))
    room.put('d.js', room.text('d.mjs'))
    room.put('jslint.toml', 'source-type = "module"\n')
    same(project(room, '--suppressions', 'd.js'), (0, '', ''))
    same(files(room, '--suppressions', '--settings', 'jslint.toml', 'd.js'), (0, '', ''))
    same(files(room, '--suppressions', 'd.js'), (2, "d.js:1:1: syntax error (perhaps: a '#!' line, which --edition 2022 and --module read)\n", ''))


def no_pattern_takes_long(_):
    begun = time.process_time()
    for line in ('*a' * 60 + 'b', '/'.join(['**', '*a'] * 60), '/' + '**/' * 200 + 'b', 'a b' + '\\ ' * 20000 + 'c', 'a' + ' ' * 40000 + 'b'):
        patterns, names = ignoring.patterns_of(line.encode()), ['a' * 200] * 8
        is_well(patterns and not ignoring.verdict(names, False, [patterns] + [[]] * 8), line[:20])
    is_well(time.process_time() - begun < 20)


TESTS = [
    settings_nearest, settings_refused, settings_refused_in_forms, settings_unfit, ignore_files, ignore_as_git, languages, languages_by_text, first_lines, no_pattern_takes_long,
]
