"""What pre-commit and GitHub take from the top of the repository: `.pre-commit-hooks.yaml`, by pre-commit itself where it is here, and `action.yml`, whose
script runs as GitHub's runner has it run.

Each test is a function that raises where something is wrong, and libraries.Skipped where it can't be tried. Its argument is a room: a folder of its own.
"""
import json
import os
import re
import shlex
import shutil

import recipes
import sarif
from libraries import tool
from recipes import FOUND, KEPT, REFUSED, RIGHT, TOP, UNWRAPPED, WRONG, is_well, same

HOOKS, ACTION = '.pre-commit-hooks.yaml', 'action.yml'
MODULE = 'export {};\n'
JSX, PERHAPS = 'x = <a/>;\n', "syntax error (perhaps: JSX isn't ECMAScript)"
CAST = '/** @type {A} */ globalThis /**/; globalThis.a = /** @type {A} */ (1);\n'
UNFORMATTED, FORMATTED = 'if(a){f( (1),b ) // c\n}', 'if (a) {\n  f((1), b); // c\n}\n'
# What a hook takes from its repository. JSLINT names the program, so that no launcher is asked.
TAKEN = [HOOKS, 'tools/check-list', 'tools/jslint-files', 'tools/jslint_files', 'packages/npm/lib/hints.json', 'share/jslint/jslint.schema.json']


def text_of(name):
    with open(f'{TOP}/{name}', encoding='utf-8') as file:
        return file.read()


def hooks():
    """The hooks by their ids."""
    found = []
    for begins, key, value in re.findall(r"^(- |  )(\w+): '?(.*?)'?$", text_of(HOOKS), re.M):
        if begins == '- ':
            found.append({})
        found[-1][key] = value
    return {it['id']: it for it in found}


def words_of(hook, args=None):
    """The words with which pre-commit calls a hook of this repository, before the names."""
    program, *more = shlex.split(hook['entry'])
    return [f'{TOP}/{program}', *more, *(re.findall(r'[^\s,]+', hook['args'][1:-1]) if args is None else args)]


def program():
    return {'JSLINT': f'{recipes.BIN}/jslint', 'JSLINT_LIBRARY': ''}


def hook_words(room):
    """Each hook with the names that it is for, and no others; what a project writes as `args` takes the place of the hook's."""
    found = hooks()
    same(sorted(found), ['jslint', 'jslint-format', 'jslint-list', 'jslint-unwrap'])
    for it in found.values():
        wanted = {'language': 'script', 'types': '[file]', 'exclude_types': '[symlink]', 'args': '[--]', 'require_serial': 'true'}
        same({key: it.get(key) for key in wanted}, wanted)
        is_well(os.access(f'{TOP}/{shlex.split(it["entry"])[0]}', os.X_OK), it)
        same([bool(re.search(it['files'], name)) for name in ('a.js', 'b/c.js', '-h.js', 'a.mjs', 'a.cjs', 'a.jsx', 'a.js.txt', 'js', 'a.xjs')], [True] * 5 + [False] * 4)
    room.put('jslint.toml', '[rules]\nno-unused-vars = false\n')
    os.makedirs(room.path('.git'))
    names = ['-h.js', 'b.js', 'check']
    for it in names:
        room.put(it, KEPT)
    room.put('m.js', MODULE)
    room.put('j.js', JSX)
    call = lambda name, *names_, args=None: room.run([*words_of(found[name], args), *names_], **program())
    said = ''.join(f'{it}:2:5: prefer-const \'x\' is never reassigned\n{it}:2:9: no-extra-parens unnecessary parentheses\n' for it in names)
    same(call('jslint', *names, 'm.js', 'j.js'), (2, f'{said}j.js:1:5: syntax error\n', ''))
    # (as the comment at the head of the file says)
    args = re.findall(r'[^\s,]+', re.search(r'`args: \[(.*?)\]`', text_of(HOOKS))[1])
    same(call('jslint', 'j.js', args=args), (0, f'j.js:1:5: note: {PERHAPS}\n', ''))
    same(call('jslint-unwrap', *names), (0, '', ''))
    same([room.text(it) for it in names], [UNWRAPPED] * 3)
    same(call('jslint-unwrap', 'j.js'), (2, '', 'j.js:1:5: syntax error\n'))
    by_project = [it for it in found if it != 'jslint-list']
    for kind in ('{}', '{"type": "module"}'):
        room.put('package.json', kind)
        same([call(it, 'm.js') for it in by_project], [(0, '', '')] * 3)
    # (what is ignored stays as it is, also where nothing else is there; so does a script with a cast)
    room.put('.gitignore', 'vendor\n')
    room.put('vendor/lib.js', WRONG)
    room.put('cast.js', CAST)
    same([call(it, 'vendor/lib.js') for it in by_project], [(0, '', '')] * 3)
    same(call('jslint', 'cast.js'), (0, '', ''))
    same(call('jslint-unwrap', 'vendor/lib.js', 'cast.js', 'm.js'), (0, '', 'cast.js:1:67: note: left as it is: unwrap would take the pair of a cast; --drop-casts permits it\n'))
    same([room.text(it) for it in ('vendor/lib.js', 'cast.js')], [WRONG, CAST])


def hook_format(room):
    """It formats scripts, and takes the words of `format`."""
    hook = hooks()['jslint-format']
    os.makedirs(room.path('.git'))
    call = lambda *names, args=None: room.run([*words_of(hook, args), *names], **program())
    for args, wanted in ((None, FORMATTED), (['--indent', '4', '--'], FORMATTED.replace('  f', '    f'))):
        room.put('a.js', UNFORMATTED)
        room.put('-h.js', FORMATTED)
        room.put('m.js', 'export   {}')
        same(call('a.js', '-h.js', 'm.js', args=args), (0, '', ''))
        same([room.text(it) for it in ('a.js', 'm.js')], [wanted, 'export {};\n'])
    # (settings count, and words go over them)
    room.put('jslint.toml', '[format]\nindent = 4\n')
    for args, wanted in ((['--indent=2', '--'], FORMATTED), (None, FORMATTED.replace('  f', '    f'))):
        same(call('a.js', args=args), (0, '', ''))
        same(room.text('a.js'), wanted)
    os.remove(room.path('jslint.toml'))
    same(call('a.js', args=['--fewest', '--']), (0, '', ''))
    same(room.text('a.js'), FORMATTED.replace('(1)', '1'))


def hook_list(room):
    """One call of the program for all names, whatever they are; words before `--` are the program's; nothing else runs but a shell."""
    hook, odd = hooks()['jslint-list'], ['two words.js', '-h.js', '--', "'$(x)`.js", 'a\\nb.js', '--module']
    for it in odd:
        room.put(it, 'debugger;\n')
    room.put('m.js', 'export {};\ndebugger;\n')
    room.put('s.toml', 'rules.no-debugger = "warn"\n')
    room.put('begun', '')
    room.put('program', '#!/bin/sh\necho >>begun\nexec "$JSLINT_REAL" "$@"\n', 0o755)
    how = {'JSLINT': f'{room.folder}/program', 'JSLINT_REAL': f'{recipes.BIN}/jslint', 'PATH': '/usr/bin:/bin'}
    call = lambda *names, args=None: room.run([*words_of(hook, args), *names], **how)
    found = ''.join(f'{it}:1:1 no-debugger debugger statement\n' for it in odd)
    same((call(*odd), room.text('begun').count('\n')), ((1, found, ''), 1))
    same(call(*odd, args=['--settings', 's.toml', '--']), (0, found.replace('\n', ' (warning)\n'), ''))
    same(call('m.js', args=['--module', '--spans', '--']), (1, 'm.js:11 20 no-debugger debugger statement\n', ''))
    same(call('m.js', 'none.js'), (2, '', 'jslint: m.js: syntax error at 1:1 (perhaps: --module)\njslint: read failed: none.js: missing\n'))
    same([call(), call(args=['--settings', 'none', '--'])], [(0, '', ''), (2, '', 'jslint: read failed: none: missing\n')])
    same(room.run(['sh', '-c', '"$@" >/dev/full', 'sh', *words_of(hook), *odd], **how), (2, '', 'jslint: write failed\n'))


def by_pre_commit(room):
    """pre-commit runs the hooks from a clone: what is staged counts, links and other files are left out, and a script that was rewritten fails."""
    asked = tool('pre-commit')
    for it in TAKEN:
        os.makedirs(os.path.dirname(f'{room.folder}/hooks/{it}'), exist_ok=True)
        (shutil.copytree if os.path.isdir(f'{TOP}/{it}') else shutil.copy)(f'{TOP}/{it}', f'{room.folder}/hooks/{it}')
    git = lambda *words, at='project', status=0: room.run(['git', *words], at=at, status=status)
    git('init', '-q', at='hooks')
    git('add', '.', at='hooks')
    git('commit', '-q', '-m', 'hooks', at='hooks')
    tag = git('rev-parse', 'HEAD', at='hooks')[1].strip()
    for name, text in [('a.js', KEPT), ('-h.js', WRONG), ('two words.js', WRONG), ('b.mjs', WRONG), ('c.cjs', WRONG), ('vendor/lib.js', WRONG), ('.jslintignore', 'vendor/\n'), ('m.js', MODULE), ('jslint.toml', '[rules]\nno-unused-vars = false\nprefer-const = false\n')]:
        room.put(f'project/{name}', text)
    room.put('project/.pre-commit-config.yaml', f'repos:\n- repo: {room.folder}/hooks\n  rev: {tag}\n  hooks:\n  - id: jslint\n  - id: jslint-unwrap\n  - id: jslint-format\n'
             '  - id: jslint-list\n    args: [--settings, jslint.toml, --]\n    files: ^(a|-h)\\.js$\n')
    git('init', '-q')
    os.symlink('a.js', room.path('project/link.js'))
    git('add', '.')
    how = {'PRE_COMMIT_HOME': f'{room.folder}/cache', **program()}
    call = lambda *words: room.run([asked, 'run', '--color', 'never', '--verbose', *words], at='project', **how)
    status, out, _ = call('jslint')
    is_well(status == 1, out)
    same(sorted(it for it in out.splitlines() if 'js:' in it), sorted(f'{it}: no-extra-parens unnecessary parentheses' for it in ('-h.js:1:9', 'a.js:2:9', 'b.mjs:1:9', 'c.cjs:1:9', 'two words.js:1:9')))
    status, out, _ = call('jslint-unwrap')
    is_well(status == 1 and 'files were modified by this hook' in out, out)
    same([room.text(f'project/{it}') for it in ('a.js', '-h.js', 'two words.js', 'b.mjs', 'c.cjs', 'vendor/lib.js')], [UNWRAPPED, *['let x = 1;\n'] * 4, WRONG])
    git('add', '.')
    status, out, _ = call('jslint-format')
    is_well(status == 1 and 'files were modified by this hook' in out, out)
    same([room.text(f'project/{it}') for it in ('a.js', '-h.js', 'vendor/lib.js')], [UNWRAPPED.replace('1 /', '1; /'), 'let x = 1;\n', WRONG])
    git('add', '.')
    same([call()[0], call('--all-files')[0]], [0, 0])
    room.put('project/a.js', 'debugger;\n')
    git('add', '.')
    status, out, _ = call('jslint-list')
    is_well(status == 1 and '\na.js:1:1 no-debugger debugger statement\n' in out, out)
    room.put('project/a.js', '')
    git('add', '.')
    room.put('project/bad.js', REFUSED)
    git('add', 'bad.js')
    status, out, _ = call()
    is_well(status == 1 and out.count('bad.js:2:1: syntax error\n') == 3, out)


def action():
    """The script of the action, and its inputs with what they are without a word."""
    text = text_of(ACTION)
    script = re.search(r'^( +)run: \|\n((?:\1  .*\n|\n)+)', text, re.M)
    inputs = dict(re.findall(r"^  ([\w-]+):\n    description: .*\n    default: '?(.*?)'?$", text, re.M))
    inputs = {name: json.loads(it) if it.startswith('"') else it for name, it in inputs.items()}
    passed = dict(re.findall(r'^ +([A-Z_]+): \$\{\{ inputs\.([\w-]+) \}\}$', text, re.M))
    same(sorted(passed.values()), sorted(inputs))
    # (no input may stand in the script itself, where a shell would read it)
    is_well('${{' not in script[2] and re.search(r'^ +(?:- )?shell: bash$', text, re.M), 'an input in the script')
    return re.sub(rf'^{script[1]}  ', '', script[2], flags=re.M), {name: inputs[it] for name, it in passed.items()}


def action_script(room):
    """It checks what git has, shows what is wrong as notes, and writes SARIF beside that; its inputs are no commands."""
    bash = tool('bash')
    text, given = action()
    room.put('script', text)
    room.git('init', '-q')
    for name, content in [('a.js', KEPT), ('sub/-h.js', WRONG), ('ok.js', RIGHT), ('m.mjs', MODULE), ('m.js', MODULE), ('j.cjs', JSX), ('sub/jslint.toml', '[rules]\nprefer-const = false\n'), ('none.toml', '[rules]\nno-unused-vars = false\n')]:
        room.put(name, content)
    room.git('add', '.')
    room.put('untracked.js', WRONG)

    def call(at='.', **inputs):
        env = {**given, **inputs, 'GITHUB_ACTION_PATH': TOP, **program()}
        return room.run([bash, '--noprofile', '--norc', '-eo', 'pipefail', os.path.relpath(room.path('script').decode(), room.path(at).decode())], at=at, **env)

    note = lambda name, line, it: f'::error file={name},line={line},col={it.split(" ")[0].split(":")[1]},title={it.split(" ")[1]}::{it.split(" ", 2)[2]}\n'
    both = [''.join(note('a.js', 2, it) for it in FOUND), ''.join(note('sub/-h.js', 1, it) for it in FOUND if 'prefer' not in it)]
    plain = '*.js\n*.mjs'
    same(call(FILES=plain), (1, ''.join(both), ''))
    refusal = lambda kind: f'::{kind} file=j.cjs,line=1,col=5,title=jslint::{PERHAPS}\n'
    same(call(), (2, both[0] + refusal('error') + both[1], ''))
    same(call(FILES='sub/*.js\n\n  \nok.js\n'), (1, both[1], ''))
    same(call(FILES='ok.js'), (0, '', ''))
    same(call(FILES='no such file'), (2, '', 'jslint-files: no script was looked at; --allow-none lets that pass\n'))
    same(call(FILES='no such file', ALLOW_NONE='true'), (0, '', ''))
    same(call(FILES='ok.js', ALLOW_NONE='yes'), (2, '::error title=jslint::the input allow-none is true or false\n', ''))
    same(call(FILES=' \n'), (2, '::error title=jslint::the input files names no pattern\n', ''))
    same(call(FILES='*.mjs'), (0, '', ''))
    same(call(FILES='*.cjs'), (2, refusal('error'), ''))
    same(call(FILES='*.cjs', UNSUPPORTED='note'), (0, refusal('notice'), ''))
    same(call(FILES='*.cjs', UNSUPPORTED=''), (2, '', 'jslint-files: --unsupported is error or note\n'))
    same(call(FILES=plain, SETTINGS='none.toml')[1].count('prefer-const'), 2)
    same(call(PROJECT='sub'), (1, both[1].replace('sub/', ''), ''))
    same(call(PROJECT='none')[:2], (2, '::error title=jslint::there is no folder that the input project names\n'))
    same(call(FILES=plain, ARGS='--max-warnings\n9\n\n')[0], 0)
    same(call(FILES='ok.js', ARGS='--nope'), (2, '', 'jslint-files: --nope is no option; a file of that name stands behind --\n'))
    version = room.run(['jslint', '--version'])[1].split(' ')[1]
    same(call(FILES='ok.js', VERSION=version), (0, '', ''))
    same(call(FILES='ok.js', VERSION=version[:-1]), (2, '::error title=jslint::the program has another version than the input version\n', ''))
    room.put('.jslintignore', 'a.js\n')
    same(call(FILES=plain), (1, both[1], ''))
    room.put('.jslintignore', '')
    same(call(SETTINGS='none'), (2, '', 'jslint-files: none: read failed: missing\n'))
    for it in ('$(touch made)', '`touch made`', '"; touch made; "', '--help'):
        call(FILES=it, SETTINGS=it, UNSUPPORTED=it, PROJECT=it, ALLOW_NONE=it, ARGS=it, VERSION=it, FORMAT=it, FORMAT_ARGS=it, SARIF=f'out {it}'.replace('/', ''))
        call(FILES=it, SETTINGS=it, ARGS=it, FORMAT='true', FORMAT_ARGS=it, SARIF=f'out {it}'.replace('/', ''))
        is_well('made' not in room.names(), it)
    same(call(FILES=plain, SARIF='out.sarif'), (1, ''.join(both), ''))
    found = json.loads(room.text('out.sarif'))
    same((sarif.faults(found), len(found['runs'][0]['results'])), ([], 5))
    room.put('f/100%,a:b.js', UNFORMATTED)
    room.put('f/c.js', FORMATTED)
    room.put('f/d.js', FORMATTED.replace('  f', '    f'))
    room.git('add', '.')
    unformatted = '::error file=f/{},title=jslint::not as jslint format writes it\n'
    how = {'FILES': 'f', 'ARGS': '--only\nno-var'}
    same(call(**how), (0, '', ''))
    same(call(**how, FORMAT='true'), (1, unformatted.format('100%25%2Ca%3Ab.js') + unformatted.format('d.js'), ''))
    same(call(**how, FORMAT='true', FORMAT_ARGS='--indent=4\n'), (1, unformatted.format('100%25%2Ca%3Ab.js') + unformatted.format('c.js'), ''))
    same(call(FILES='f/c.js', ARGS=how['ARGS'], FORMAT='true', SETTINGS='none.toml'), (0, '', ''))
    room.put('lines.toml', 'format.indent = 4\n')
    same(call(**how, FORMAT='true', SETTINGS='lines.toml'), (1, unformatted.format('100%25%2Ca%3Ab.js') + unformatted.format('c.js'), ''))
    same(call(FILES='f/c.js', ARGS=how['ARGS'], FORMAT='true', SETTINGS='lines.toml', FORMAT_ARGS='--indent=2'), (0, '', ''))
    room.put('f/jslint.toml', 'format.indent = 4\n')
    same(call(FILES='f/d.js', ARGS=how['ARGS'], FORMAT='true'), (0, '', ''))
    room.put('f/jslint.toml', '')
    same(call(**how, FORMAT='yes'), (2, '::error title=jslint::the input format is true or false\n', ''))
    same(call(FILES='f/c.js', ARGS=how['ARGS'], FORMAT='true', FORMAT_ARGS='--nope'), (2, '', 'jslint-files: --nope is no option; a file of that name stands behind --\n'))
    same(call(FILES='ok.js', SARIF='/dev/full'), (2, '', 'jslint-files: write failed\n'))
    is_well(call(FILES='ok.js', SARIF='none/out.sarif')[0], 'a folder that is missing')
    room.run(['mv', '.git', 'elsewhere'], status=0)
    status, out, err = call()
    is_well(status and not out and 'not a git repository' in err, f'{status} {out} {err}')


TESTS = [hook_words, hook_format, hook_list, by_pre_commit, action_script]
