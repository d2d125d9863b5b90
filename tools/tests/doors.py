"""What `jslint-files` leaves alone at each of its doors: ignored files, however they were named, and pairs of casts; what it says where there was nothing to look
at; guesses at another language and at `env`; the reasons of comments that turn reports off.

Each test is a function that raises where something is wrong, and libraries.Skipped where it can't be tried. Its argument is a room: a folder of its own.
"""
import json
import os
import random
import re
import sys

import recipes
import sarif
from files import files, program
from libraries import tool
from many import BUG, FOUND_BUG, NONE, names_in, project, put, repository
from recipes import TOP, WRONG, is_well, same

sys.path.insert(0, f'{TOP}/tools')
from jslint_files.project import Project  # noqa: E402

IGNORED = f'{NONE}: 1 name is ignored (--no-ignore looks at them all the same); --allow-none lets that pass\n'
NOTHING = f'{NONE}; --allow-none lets that pass\n'
LEFT = 'note: left as it is: unwrap would take the pair of a cast; --drop-casts permits it\n'


# ---- ignored files

def doors(room):
    """An ignored file stays untouched at each of them, by whichever file it is ignored; --no-ignore looks at it."""
    for number, (by, line) in enumerate([('.jslintignore', 'vendor/\n'), ('.gitignore', 'lib.js\n'), ('vendor/.gitignore', '*\n'), ('vendor/.jslintignore', 'lib.js'), ('.git/info/exclude', '/vendor\n'), (None, '')]):
        alone = recipes.Room(f'{room.folder}/{number}')
        repository(alone)
        name = 'vendor/lib.js' if by else 'node_modules/lib.js'
        alone.put(name, WRONG)
        alone.put('sub/x', '')
        if by:
            alone.put(by, line)
        given = {'given': f'{name}\n'.encode()}
        checks = [([name], {}), ([f'./{name}'], {}), ([f'{alone.folder}/{name}'], {}), ([name.replace('lib', '*')], {}), (['**/l?b.js'], {}), (['--files-from', '-'], given), ([os.path.dirname(name)], {}), ([], {})]
        # (the ways to a name are one way, whichever file ignores it)
        for words, how in checks if number in (0, 5) else checks[::3]:
            # (a folder may have nothing but what is ignored, and not be ignored itself)
            is_whole = not by or 'vendor' in line
            some = words and (words != ['vendor'] or is_whole)
            said = IGNORED if some else NOTHING
            same(project(alone, *words, **how), (2, '', said), f'{by} {words}')
            same(project(alone, '--allow-none', *words, **how), (0, '', ''), f'{by} {words}')
            same([project(alone, *it, '--write', '--allow-none', *words, **how) for it in (['fix', '--drop-comments'], ['unwrap'])], [(0, '', '')] * 2, f'{by} {words}')
            same(alone.text(name), WRONG, f'{by} {words}')
            if by or words:
                # (folders are looked through without what nobody has checked, but where one is named)
                same(project(alone, '--no-ignore', *words, **how)[::2], (1, ''), f'{by} {words}')
        same(alone.run(['jslint-files', '--project', f'../{name}'], at='sub'), (2, '', IGNORED))
        same(project(alone, '--stdin', name, given=BUG.encode()), (2, '', IGNORED))
        same([project(alone, it, '--stdin', name, '--allow-none', given=b'\xff(a)\r\n') for it in ('fix', 'unwrap')], [(0, '\udcff(a)\r\n', '')] * 2)
        same(project(alone, 'unwrap', '--stdin', name, given=b'(a)'), (2, '(a)', IGNORED))
        same(project(alone, 'unwrap', '--diff', '--stdin', name, '--allow-none', given=b'(a)'), (0, '', ''))
        same(project(alone, 'unwrap', '--no-ignore', '--stdin', name, given=b'(a)'), (0, 'a', ''))
        # (without --project nothing is looked for)
        same(files(alone, name)[::2], (1, ''))
        same(project(alone, 'unwrap', '--write', '--no-ignore', name), (0, '', ''))
        same(alone.text(name), 'let x = 1;\n')
    same(files(room, '--no-ignore', 'a.js'), (2, '', 'jslint-files: --no-ignore is for --project: no ignore file is looked for without it\n'))


def ignored_beside_others(room):
    """It gives no line, and is counted. A link counts by its own place and by that of its file, so none leads to an ignored file."""
    repository(room)
    put(room, ['a.js', 'vendor/b.js', 'inner/vendor/c.js', 'out/in/d.js'], WRONG)
    room.put('.jslintignore', 'vendor\nout/in\nl.js\n')
    room.put('inner/.git/HEAD', '')
    os.symlink('vendor/b.js', room.path('to.js'))
    os.symlink('a.js', room.path('l.js'))
    os.symlink('vendor', room.path('way'))
    same(project(room, '--summary', 'a.js', 'vendor/b.js', 'to.js', 'l.js', 'way/b.js', 'vendor', 'out/in/d.js')[2].split(':')[0], '3 reports in 1 script, 6 ignored')
    # (a repository in another one has ignore files of its own alone)
    same(names_in(project(room, 'inner/vendor/c.js')[1]), ['inner/vendor/c.js'] * 3)
    same(names_in(project(room, '../room/a.js')[1]), ['../room/a.js'] * 3)
    same(project(room, 'unwrap', '--write', 'a.js', 'to.js', 'way/b.js', 'vendor/none.js'), (0, '', ''))
    same([room.text(it) for it in ('a.js', 'vendor/b.js')], ['let x = 1;\n', WRONG])
    same(project(room, '--no-ignore', 'vendor/none.js'), (2, 'vendor/none.js:1:1: read failed: missing\n', ''))
    # (where there is no repository what lies above this folder is no reason)
    put(room, ['free/node_modules/p/a.js', 'free/node_modules/p/node_modules/q/b.js'])
    room.run(['mv', '.git', 'gone'], status=0)
    call = lambda *words: room.run(['jslint-files', '--project', *words], at='free/node_modules/p')
    same(call(), (1, f'a.js:{FOUND_BUG}', ''))
    same(call('a.js', 'node_modules/q/b.js'), (1, f'a.js:{FOUND_BUG}', ''))


def nothing_at_all(room):
    """In each form: the document is there, the warning is on standard error, and nothing is said where that is asked for."""
    repository(room)
    os.makedirs(room.path('empty'))
    for words in ('--project', '--project empty', '--files-from /dev/null', '--project --files-from /dev/null'):
        same(files(room, *words.split()), (2, '', NOTHING), words)
        same(files(room, '--allow-none', *words.split()), (0, '', ''), words)
        same(files(room, 'unwrap', '--write', *words.split()), (2, '', NOTHING), words)
    for form, begins in [('json', '[]\n'), ('sarif', '{"$schema"'), ('junit', '<?xml'), ('github', ''), ('pretty', ''), ('unix', '')]:
        status, out, err = project(room, '--format', form, '--max-warnings', '9')
        is_well((status, err) == (2, NOTHING) and out.startswith(begins), form)
        same(project(room, '--format', form, '--allow-none'), (0, out, ''))
    same(project(room, '--summary', '--allow-none'), (0, '', '0 reports in 0 scripts\n'))
    # (a name without a file is refused as ever)
    same(files(room, '--allow-none', 'none.js', '*.js')[0], 2)
    same(room.sh('jslint-files --project 2>&-'), (2, '', ''))


# The scripts below a folder, and those of some names that aren't ignored.
JUDGED = '''
import json, sys
sys.path.insert(0, sys.argv[1])
from jslint_files.project import Project
print(json.dumps([Project().scripts_below('.'), [it for it in sys.argv[2:] if not Project().is_ignored(it)]]))
'''


def as_git_has_it(room):
    """Scripts below folders of a real repository, of a second work tree and of a submodule's kind, as `git ls-files` has them: with info/exclude, core.excludesFile,
    byte order marks, and names of more bytes than characters."""
    tool('git')
    os.makedirs(room.path('home/.config/git'))
    how = {'HOME': f'{room.folder}/home', 'GIT_CONFIG_GLOBAL': f'{room.folder}/home/config'}
    room.put('home/config', '')
    git = lambda *words, at='one': room.run(['git', *words], at=at, status=0, **how)[1]
    os.makedirs(room.path('one'))
    git('init', '-q')
    names = ['a.js', 'é.js', 'ab.js', 'sub/a.js', 'sub/é.mjs', 'x/b.cjs', 'ö/c.js', 'x y.js']
    put(room, [f'one/{it}' for it in names])
    git('add', '-f', '.')
    git('commit', '-q', '-m', 'all')
    git('worktree', 'add', '-q', '../two', 'HEAD')
    git('rm', '-q', '-r', '--cached', '.')
    git('rm', '-q', '-r', '--cached', '.', at='two')
    room.run(['cp', '-r', 'one', 'three'], status=0)
    os.replace(room.path('three/.git'), room.path('moved'))
    room.put('three/.git', 'gitdir: ../moved\n')

    def holds(told):
        for top in ('one', 'two', 'three'):
            listed = room.run(['git', 'ls-files', '-z', '--others', '--exclude-standard'], at=top, **how)[1].split('\0')
            found = json.loads(room.run([sys.executable, '-c', JUDGED, f'{TOP}/tools', *names], at=top, status=0, **how)[1])
            # (a name alone is judged as a walk is)
            same([set(it) for it in found], [{it for it in listed if it.endswith('js')}] * 2, f'{told} {top}')

    rows = [
        ('one/.git/info/exclude', '?.js\n'), ('one/.git/info/exclude', '??.js\n/x\n'), ('one/.git/info/exclude', '\ufeffa.js\n'), ('moved/info/exclude', '[é].js\n'), ('home/.config/git/ignore', 'sub\n'), ('home/.config/git/ignore', '\ufeff*.cjs\n!b.cjs\n'),
        ('one/.gitignore', '\ufeff?.js\n'), ('two/.gitignore', '??.js\nö/*.js\n'), ('three/.gitignore', '!a.js\nx?y.js'),
    ]
    holds('none')
    for name, text in rows:
        room.put(name, text)
        holds((name, text))
    room.put('ignored', 'x\n/ö\n')
    for value in (f'{room.folder}/ignored', '../ignored', '~/../ignored', '', '/dev/null', f'{room.folder}/none'):
        git('config', '-f', how['GIT_CONFIG_GLOBAL'], 'core.excludesFile', value, at='.')
        holds(value)
    git('config', 'core.excludesFile', '../ignored')
    holds('of the repository')
    # (a hook is told of another repository; where git is missing its own place counts)
    same(room.run(['jslint-files', '--project', 'x/b.cjs'], at='one', **how, GIT_DIR=f'{room.folder}/moved', GIT_INDEX_FILE='none'), (2, '', IGNORED))
    for it in ('python3', 'sh', 'env', 'dirname'):
        os.makedirs(room.path('path'), exist_ok=True)
        os.symlink(recipes.shutil.which(it), room.path(f'path/{it}'))
    room.put('home/.config/git/ignore', 'sub\n')
    alone = {**how, 'PATH': f'{room.folder}/path'}
    same(room.run([f'{recipes.BIN}/jslint-files', '--project', 'sub/a.js', 'ab.js'], at='one', **alone)[1], f'ab.js:{FOUND_BUG}')
    same(room.run([f'{recipes.BIN}/jslint-files', '--project', 'x y.js'], at='one', **{**alone, 'XDG_CONFIG_HOME': '/none'})[1], f'x y.js:{FOUND_BUG}')


def names_as_walks(room):
    """Of random repositories each script that a walk finds is looked at by its name, and no other."""
    chance = random.Random(int(os.environ.get('SEED', '11')))
    parts, patterns = ['a', 'b', 'node_modules', 'c'], ['a', 'b/', '/a', '!a.js', '*.js', 'c/*', '!b', 'a/b', '**/c', 'a.js', 'b.mjs']
    for number in range(int(os.environ.get('ROUNDS', '40'))):
        alone = recipes.Room(f'{room.folder}/{number}')
        repository(alone)
        folders = {'/'.join(chance.choice(parts) for _ in range(chance.randint(0, 3))) for _ in range(6)}
        names = sorted({os.path.join(it, chance.choice(['a.js', 'b.mjs', 'c.cjs'])) for it in folders for _ in range(2)})
        put(alone, names)
        for it in [*folders][:3]:
            alone.put(os.path.join(it, chance.choice(['.gitignore', '.jslintignore'])), '\n'.join(chance.choice(patterns) for _ in range(3)))
        walk = names_in(project(alone)[1])
        same(sorted(names_in(project(alone, *names)[1])), sorted(walk), number)
        same(sorted(it for it in names if not Project().is_ignored(f'{alone.folder}/{it}')), sorted(walk), number)


# ---- casts

# Scripts, in each of which `@` is where a pair of a cast is, and `%` where one is that goes.
CASTS = [
    'let a = /** @type {T} */ @(b);', 'let a = /** @satisfies {T} */ @(b);', 'let a = /** @type {T} */@(b), c = %(d);', 'f(/** @type {T} */\n  @(b));', 'f(/** @type {T} */ /* c */ // d\n @(b));', 'f(/**\n * @type {T}\n * c */ @(b));',
    'let a = /* @type {T} */ %(b);', 'let a = /** @typedef {T} */ %(b);', 'let a = // /** @type {T} */\n %(b);', 'let a = /** type */ %(b);', 'let a = "/** @type {T} */" + %(b);', 'let a = `/** @type {T} */${%(b)}`;', 'let a = /[/** @type {T} */]/ + %(b);',
    '/** @type {T} */ @(@@).b;'.replace('@(@@)', '@(a)'), 'let a = /** @type {T} */ @(%(b));', '/** @type {T} */ let a = %(b);', '/** @type {T} */ f(%(b));', 'let a = /** @type {T} */ @(/** @type {U} */ @(b));', 'let a = /** @type {T} */ (b + c) * d;',
    'let a = /* x /** @type {T} */ %(b);', '\ufefflet a = /** @type {é} */ \u00a0\u2028@(b), c = %(d);', 'let a = /**/ %(b); // @type', 'let a = /** @type {T} */ x %(b);'.replace('x ', '- '), 'export default /** @type {T} */ @({});', '(/** @type {T} */ @(a)).b, %(c);'.replace('(/**', '%(/**', 1),
    # (this pair isn't reported, but the one around it, and `unwrap` takes the inner one)
    '%(/** @type {T} */ @(function () {})(a));', 'export default %(/** @type {T} */ @(function () {})(a))[0];',
    'let a = /** @type {T} */ (x) => %(x);', 'new %(/** @type {T} */ (a()))();',
]


def casts(room):
    """No pair of a cast is reported, in any form; all others are. `unwrap` leaves a script with one as it is, and says so."""
    repository(room)
    rules = 'rules = { no-undef = false, no-unused-vars = false, prefer-const = false }\n'
    room.put('jslint.toml', rules)
    for marked in CASTS:
        text, places, kept = marked.replace('@(', '(').replace('%(', '('), [], []
        for it in re.finditer(r'[@%]\(', marked):
            before = re.sub(r'[@%](?=\()', '', marked[:it.start()])
            lines = re.split('[\n\u2028]', before)
            (kept if it[0] == '@(' else places).append((len(lines), len(lines[-1]) + 1))
        room.put('a.js', text)
        said = ''.join(f'a.js:{line}:{column}: no-extra-parens unnecessary parentheses\n' for line, column in places)
        same(project(room, 'a.js'), (1 if places else 0, said, ''), text)
        same([(it['line'], it['ruleId']) for it in json.loads(project(room, '--format', 'json', '--ends', 'a.js')[1])[0]['messages']], [(line, 'no-extra-parens') for line, _ in places], text)
        same(project(room, '--format', 'sarif', '--suppressions', 'a.js')[1].count('"ruleId": "no-extra-parens"'), len(places), text)
        note = f'a.js:{kept[0][0]}:{kept[0][1]}: {LEFT}' if kept else ''
        same(project(room, 'unwrap', '--diff', 'a.js')[::2], (1 if places and not kept else 0, note), text)
        is_given = project(room, 'unwrap', '--stdin', 'a.js', given=text.encode())
        same((is_given[0], is_given[2], is_given[1] == text), (0, note, bool(kept) or not places), text)
        same(project(room, 'unwrap', '--write', '--summary', 'a.js')[::2], (0, f'{note}{int(bool(places and not kept))} of 1 script rewritten{", 1 left for a cast" if kept else ""}\n'), text)
        same(room.text('a.js') == text, bool(kept) or not places, text)
        room.put('a.js', text)
        same(project(room, 'unwrap', '--write', '--drop-casts', 'a.js'), (0, '', ''), text)
        same(room.text('a.js') == text, not kept and not places, text)
    same(files(room, 'fix', '--write', '--drop-casts', 'a.js'), (2, '', 'jslint-files: --drop-casts is for unwrap: fix drops all comments\n'))
    same(files(room, '--drop-casts', 'a.js'), (2, '', 'jslint-files: --drop-casts is for unwrap\n'))


def casts_unsaid(room):
    """Of a program that tells no ends, or fails meanwhile, each report stays; `fix` drops the comments with the pairs where that is asked for; settings that turn
    the rule off keep no cast from being kept."""
    text = 'f(/** @type {T} */ (b));\n'
    room.put('a.js', text)
    room.put('off.toml', 'rules = { no-extra-parens = false, no-undef = false }\n')
    how = program(room, 'case "$*" in *--spans*) exit 2 ;; esac; exec "$JSLINT_REAL" "$@"')
    is_well('a.js:1:20: no-extra-parens' in files(room, 'a.js', **how)[1])
    same(files(room, '--settings', 'off.toml', 'a.js'), (0, '', ''))
    same(files(room, 'unwrap', '--write', 'a.js'), (0, '', f'a.js:1:20: {LEFT}'))
    repository(room)
    os.replace(room.path('off.toml'), room.path('jslint.toml'))
    same(project(room, 'unwrap', '--write', 'a.js'), (0, '', f'a.js:1:20: {LEFT}'))
    same((files(room, 'fix', '--write', '--drop-comments', 'a.js'), room.text('a.js')), ((0, '', ''), 'f(b);\n'))
    # (a module is read as one for this too)
    room.put('m.js', 'export default /** @type {T} */ (b);\n')
    same(project(room, 'unwrap', '--write', 'm.js'), (0, '', f'm.js:1:33: {LEFT}'))


def casts_time(room):
    """No script takes long."""
    for number, text in enumerate(['/** @type {T} */' + '(' * 500 + 'a' + ')' * 500, 'f(/** @type {T} */ (a));' * 20000, '/**' + ' @type' * 100000 + '*/ (a);', '/** @type */' * 50000 + '(a)', '/** @type */' + ' ' * 200000 + '(a)' + ';(a)' * 20000]):
        room.put(f'{number}.js', text)
        begun = os.times()
        status = files(room, f'{number}.js')[0]
        took = os.times().children_user - begun.children_user
        is_well(status == 1 and took < 20, f'{text[:30]} {status} {took}')


# ---- what fix keeps

def heads(room):
    """`fix` keeps a byte order mark and a line of `#!`, and the text has the same tree with them; a comment is a comment all the same."""
    rows = [
        ('\ufefflet a = (1);\n', '\ufefflet a = 1;\n'), ('\ufefflet a = (1);\r\n', '\ufefflet a = 1;\r\n'), ('\ufeff', '\ufeff'), ('\ufeff\ufeff(a)', '\ufeffa;\n'), ('(a);\ufeff', 'a;\n'),
    ]
    first = [
        ('#!/usr/bin/env node\n(a);', '#!/usr/bin/env node\na;\n'), ('#!x\r\n(a);\r\n(b)', '#!x\r\na;\r\nb;\r\n'), ('#!', '#!\n'), ('#!x\n', '#!x\n'), ('#!x\u2028(a)', '#!x\na;\n'), ('#!x // y /*\n(a)', '#!x // y /*\na;\n'), ('#!\u00e9 \u2030\n(a)', '#!\u00e9 \u2030\na;\n'),
    ]
    for words, some in [([], rows), (['--module'], first), (['--edition', '2022'], first[:1])]:
        for text, wanted in some:
            room.put('a.js', text)
            same(files(room, 'fix', '--stdin', 'a.js', *words, given=text.encode()), (0, wanted, ''), repr(text))
            same(files(room, 'fix', '--diff', *words, 'a.js')[0], int(text != wanted), repr(text))
            same((files(room, 'fix', '--write', *words, 'a.js'), room.text('a.js')), ((0, '', ''), wanted), repr(text))
            same(files(room, 'fix', '--diff', *words, 'a.js'), (0, '', ''), repr(text))
    room.put('a.js', '#!x\n(a) // b')
    same(files(room, 'fix', '--write', '--module', 'a.js'), (2, '', 'a.js:2:5: not rewritten: fix drops a comment; --drop-comments permits it, and unwrap keeps comments\n'))
    same((files(room, 'fix', '--write', '--drop-comments', '--module', 'a.js'), room.text('a.js')), ((0, '', ''), '#!x\na;\n'))
    # (a program that reads the text with its head otherwise loses nothing)
    room.put('a.js', '\ufeff(a)')
    how = program(room, 'if [ -e once ]; then rm once; echo "b;"; else : >once; exec "$JSLINT_REAL" "$@"; fi')
    same(files(room, 'fix', '--write', 'a.js', **how), (2, '', "a.js:1:1: not rewritten: what it begins with can't be kept\n"))
    same(room.text('a.js'), '\ufeff(a)')


# ---- guesses

def hints_in_forms(room):
    """Each form says which language may have the text, without being asked, if that gets further; of other refusals it says what it said."""
    hint = "'export' makes this a module, which --module reads"
    room.put('m.js', 'export {};\n')
    room.put('bad.js', 'a b;\n')
    room.put('jsx.js', 'x = <a/>;\n')
    for form in ('unix', 'pretty', 'json', 'sarif', 'junit', 'github'):
        out = files(room, '--format', form, 'm.js', 'bad.js')[1].replace('&#x27;', "'")
        is_well(out.count(hint) >= 1 and out.count('erhaps') + out.count('"hint"') == out.count(hint), f'{form} {out}')
    same([it['messages'][0].get('hint') for it in json.loads(files(room, '--format', 'json', 'm.js', 'bad.js', 'jsx.js')[1])], [hint, None, None])
    same(files(room, 'm.js', 'bad.js', 'jsx.js')[1], f'm.js:1:1: syntax error (perhaps: {hint})\nbad.js:1:3: syntax error\njsx.js:1:5: syntax error\n')
    same([files(room, it, '--diff', 'm.js')[2] for it in ('fix', 'unwrap')], [f'm.js:1:1: syntax error (perhaps: {hint})\n'] * 2)
    rows = [
        ('async () => 1;', 'async functions, which --edition 2022 and --module read'), ('#!x\na', "a '#!' line, which --edition 2022 and --module read"), ('class A { #a; }', "private names ('#x'), which --edition 2022 and --module read"),
        ('function* f() {}', 'generators, which --edition 2022 and --module read'), ('import.meta;', "'import.meta' is of modules, which --module reads"), ('import a from "a"; b c', "'import' makes this a module, which --module reads"), ('/a/d', "the flag 'd' of regular expressions, which --edition 2022 and --module read"),
        # (no other language gets further)
        ('a; * b', None), ('a b', None),
    ]
    for text, wanted in rows:
        room.put('a.js', text)
        found = json.loads(files(room, '--format', 'json', 'a.js')[1])[0]['messages'][0].get('hint')
        same(found, wanted, text)
    # (what the program may say behind a place is left to this)
    how = program(room, 'echo "jslint: syntax error at 1:3 (perhaps: --module)" >&2; exit 2')
    room.put('a.js', 'a b')
    same(files(room, 'a.js', **how), (2, 'a.js:1:3: syntax error\n', ''))
    # (none of a language that was tried)
    room.put('a.js', 'async () => 1;')
    same(files(room, '--edition', '2022', 'm.js')[1], f'm.js:1:1: syntax error (perhaps: {hint})\n')
    repository(room)
    room.put('jslint.toml', 'edition = 2020\n')
    same(project(room, 'm.js', 'a.js')[1], f'm.js:1:1: syntax error (perhaps: {hint})\na.js:1:10: syntax error (perhaps: async functions, which --edition 2022 and --module read)\n')


def environments(room):
    """A first run without settings is told which `env` has a name; with settings nothing is."""
    repository(room)
    where = 'jslint.toml', 'settings (--settings, or jslint.toml with --project)'
    rows = [('require("a");', '"node"', ['require']), ('window.a = process;', '"browser", "node"', ['process', 'window']), ('document.a;', '"browser"', ['document']), ('jQuery();', None, []), ('let window; window;', None, []), ('x.require;', None, [])]
    for text, env, names in rows:
        room.put('a.js', text)
        for words, place in ([], where[1]), (['--project'], where[0]):
            said = f'jslint-files: not defined without settings: {", ".join(map(repr, names))}; perhaps env = [{env}] in {place}\n' if env else ''
            for form in ('unix', 'json', 'pretty'):
                same(files(room, *words, '--format', form, 'a.js')[2], said, text)
    same(files(room, 'unwrap', '--diff', 'a.js')[2], '')
    room.put('a.js', 'require("a"); window;')
    room.put('jslint.toml', 'rules = { no-var = false }\n')
    same([it[2] for it in (project(room, 'a.js'), files(room, '--settings', 'jslint.toml', 'a.js'))], ['', ''])
    # (what it says helps)
    room.put('jslint.toml', 'env = ["browser", "node"]\nrules = { no-unused-expressions = true }\n'.split('rules')[0])
    same(project(room, 'a.js'), (0, '', ''))


def reasons(room):
    """What stands behind `--` is in the documents; where two comments turn one report off both reasons are."""
    room.put('a.js', 'debugger; // jslint-disable-line no-debugger -- why, "that"\n// jslint-disable-next-line --- a -- b\ndebugger; // jslint-disable-line no-debugger\ndebugger; // jslint-disable-line -- \u6f22\u5b57 \n'
             '// jslint-disable-next-line -- twice\ndebugger; // jslint-disable-line -- twice\ndebugger; // jslint-disable-line no-debugger--x\n')
    wanted = [['why, "that"'], ['a -- b', ''], ['\u6f22\u5b57'], ['twice'], ['x']]
    status, out, err = files(room, '--suppressions', '--format', 'json', 'a.js')
    found = json.loads(out)[0]
    same((status, err, found['messages'], [[each['justification'] for each in it['suppressions']] for it in found['suppressedMessages']]), (0, '', [], wanted))
    same({each['kind'] for it in found['suppressedMessages'] for each in it['suppressions']}, {'directive'})
    status, out, err = files(room, '--suppressions', '--format', 'sarif', 'a.js')
    run = json.loads(out)['runs'][0]
    same((status, err, sarif.faults(json.loads(out))), (0, '', []))
    same([[each.get('justification', '') for each in it['suppressions']] for it in run['results']], wanted)
    is_well(all('justification' not in each or each['justification'] for it in run['results'] for each in it['suppressions']))


TESTS = [doors, ignored_beside_others, nothing_at_all, as_git_has_it, names_as_walks, casts, casts_unsaid, casts_time, heads, hints_in_forms, environments, reasons]
