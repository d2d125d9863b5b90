"""The language server of packages/npm: its own tests, the words that it takes out of the documents, the folder for VS Code, what docs/EDITORS.md says of
installing it and of other editors' settings, and Neovim and Emacs without a screen, set up as it says; Vim with the recipes of docs/USAGE.md.

Each test is a function that raises where something is wrong, and libraries.Skipped where it can't be tried. Its argument is a room: a folder of its own.
"""
import glob
import json
import os
import re
import shutil
import subprocess

import libraries
import recipes
from debian import server_answers
from libraries import PACKAGES, TOP, Skipped, ran
from recipes import is_well, same

HERE = f'{PACKAGES}/npm/test/lsp'
# What the editors open, and what formatting makes of it after a change and the action on one pair.
SCRIPT = "'é漢😀';let x = ((1)); // (kept)\nlet y = x + (2); y;\n"
# How long an editor may take, in seconds.
MOST = 300
# Where Debian puts packages for Emacs.
ELPA = '/usr/share/emacs/site-lisp/elpa'


def text_of(path):
    with open(path, encoding='utf-8') as file:
        return file.read()


def node_tests(room, *names):
    """How many tests of the server pass, in a copy of the package that each user may read. None fails; those that need git or another user may be skipped."""
    for it in (os.path.dirname(room.folder), room.folder):
        os.chmod(it, 0o755)
    env = {**os.environ, 'JSLINT_FILES': f'{recipes.BIN}/jslint-files'}
    out, _ = ran([libraries.node(), '--test', '--test-reporter=tap', *(f'test/lsp/{it}.test.mjs' for it in names)], cwd=libraries.package(room.folder), env=env)
    found = {name: int(number) for name, number in re.findall(r'^# (pass|fail|skipped) (\d+)$', out, re.M)}
    is_well(found['fail'] == 0 and found['skipped'] <= 1, found)
    return found['pass']


def server_units(room):
    """Its parts, without a process."""
    is_well(node_tests(room, 'units') >= 27)


def server_session(room):
    """Sessions by the protocol, and the recorded one."""
    is_well(node_tests(room, 'server', 'replay') >= 31)


def server_layers(room):
    """Settings with overrides, which jslint-files reads for it."""
    is_well(node_tests(room, 'layers') >= 11)


def server_hostile(room):
    """Nonsense, clients that break off, large texts, full devices, signals, odd files."""
    is_well(node_tests(room, 'hostile') >= 18)


# ---- the words of the documents

def made_texts(top):
    """The words that the documents of a folder give, or what is wrong with them."""
    asked = f"import {{ textsOf }} from '{PACKAGES}/npm/make-texts.mjs'; console.log(JSON.stringify(textsOf(new URL('file://{top}/'))));"
    done = subprocess.run([libraries.node(), '--input-type=module', '-e', asked], stdout=subprocess.PIPE, stderr=subprocess.PIPE, text=True)
    return (json.loads(done.stdout), '') if done.returncode == 0 else (None, done.stderr)


def texts(room):
    """They are those of the documents as they are now; a rule, an early error or a refusal that the documents lose is missed. Those that an earlier
    prepack left in packages/npm aren't stale."""
    now, why = made_texts(TOP)
    is_well(now is not None, why)
    left = f'{PACKAGES}/npm/lib/texts.json'
    is_well(not os.path.exists(left) or json.loads(text_of(left)) == now, f'{left} is stale: node packages/npm/prepack.mjs')
    # (the pages that reports lead to have all that the documents have, but for links)
    asked = f"import {{ pagesOf }} from '{PACKAGES}/npm/make-texts.mjs'; console.log(JSON.stringify(pagesOf(new URL('file://{TOP}/'))));"
    pages = json.loads(ran([libraries.node(), '--input-type=module', '-e', asked])[0])
    same(sorted(pages), sorted(f'{it}.md' for it in now['rules']))
    is_well(all(text.startswith(f'# {name[:-3]}\n') and ('## What differs from ESLint' in text or '## Why it finds nothing' in text) and not re.search(r'\]\((?!http)', text) for name, text in pages.items()), 'a page of a rule')
    same(sorted(now['rules']), sorted(set(os.path.basename(it)[:-3] for it in glob.glob(f'{TOP}/docs/rules/*.md')) - {'README'}))
    early = re.findall(r'^\| \d+ \|', text_of(f'{TOP}/docs/USAGE.md').partition('The early errors')[2].partition('\n## ')[0], re.M)
    same(len(now['early']), len(early))
    is_well(all(it and '](' not in it.replace('](http', '') for group in ('rules', 'early', 'refusals') for it in now[group].values()), 'a link, or no words')
    for changed, old, new, wanted in [
            ('docs/rules/no-var.md', 'Use `let`', 'Prefer `let`', None), ('docs/rules/README.md', '| [no-var]', '| [no-vars]', 'rule no-vars'),
            ('docs/USAGE.md', '| 7 | ', '| seven | ', 'early error 7'), ('docs/USAGE.md', '| `jslint: nested too deep` |', '| `jslint: too deep` |', 'refusal nested too deep')]:
        top = f'{room.folder}/{len(os.listdir(room.folder))}'
        shutil.copytree(f'{TOP}/docs', f'{top}/docs')
        os.makedirs(f'{top}/packages/npm')
        shutil.copy(f'{PACKAGES}/npm/package.json', f'{top}/packages/npm/package.json')
        text = text_of(f'{top}/{changed}')
        is_well(text.count(old) >= 1, f'{changed}: {old}')
        with open(f'{top}/{changed}', 'w', encoding='utf-8') as file:
            file.write(text.replace(old, new, 1))
        found, why = made_texts(top)
        is_well(found['rules']['no-var'].startswith('Prefer `let`') if wanted is None else found is None and f'the documents have no {wanted}' in why, why)


# ---- VS Code

def vscode(_):
    """Its folder, which isn't tried: settings and commands are those of the server, and what the extension requires is named or put there."""
    folder = f'{PACKAGES}/vscode'
    package = json.loads(text_of(f'{folder}/package.json'))
    options = re.search(r'^const OPTIONS = \{\n(.*?)^\};', text_of(f'{PACKAGES}/npm/lib/editor.mjs'), re.M | re.S)[1]
    properties = package['contributes']['configuration']['properties']
    wanted = {f'jslint.{name}': json.loads(value.replace("'", '"')) for name, value in re.findall(r'^  (\w+): \[(\[.*?\]|[^,]*), ', options, re.M)}
    same({name: it['default'] for name, it in properties.items()}, wanted)
    page = text_of(f'{TOP}/docs/EDITORS.md')
    is_well(len(wanted) == 11 and all(f'| `{name.split(".")[1]}` | ' in page for name in wanted), wanted)
    same(package['version'], json.loads(text_of(f'{PACKAGES}/npm/package.json'))['version'])
    copied = re.fullmatch(r'cp (\S+/([\w.]+)) \.', package['scripts']['vscode:prepublish'])
    is_well(os.path.isfile(f'{folder}/{copied[1]}') and package['contributes']['tomlValidation'] == [{'fileMatch': 'jslint.toml', 'url': f'./{copied[2]}'}], package)
    code = text_of(f'{folder}/extension.js')
    same(set(re.findall(r"require\('([\w-]+)", code)), {'node', 'vscode', *package['dependencies']})
    libraries.node()
    ran([libraries.node(), '--check', f'{folder}/extension.js'])


# ---- installing it

def copy_of_package(room):
    """What docs/USAGE.md and docs/EDITORS.md need of the repository to make the package, in a copy."""
    for it in ('packages/npm', 'docs'):
        left = shutil.ignore_patterns('jslint.wasm', 'texts.json', 'LICENSE-*', '*.tgz', 'node_modules')
        shutil.copytree(f'{TOP}/{it}', f'{room.folder}/top/{it}', ignore=left)
    for it in ('LICENSE-APACHE', 'LICENSE-MIT'):
        shutil.copy(f'{TOP}/{it}', f'{room.folder}/top/{it}')
    os.makedirs(f'{room.folder}/top/release/wasm')
    shutil.copy(libraries.library('wasm/jslint.wasm'), f'{room.folder}/top/release/wasm/jslint.wasm')


def indented(page, heading):
    """The lines of the first indented block below a heading."""
    return re.search(r'(?:^    .*\n)+', text_of(f'{TOP}/docs/{page}').partition(f'\n## {heading}\n')[2], re.M)[0].replace('    ', '').splitlines()


def installed(room):
    """As docs/EDITORS.md says: by npm, and from the folder alone; so does docs/USAGE.md where the program doesn't run."""
    libraries.node()
    libraries.tool('npm')
    copy_of_package(room)
    how = {'PATH': f'{room.folder}/npm/bin:{os.environ["PATH"]}', 'npm_config_prefix': f'{room.folder}/npm', 'npm_config_cache': f'{room.folder}/cache', 'npm_config_offline': 'true', 'npm_config_update_notifier': 'false'}
    [line] = indented('EDITORS.md', 'Install it')
    room.run(['sh', '-c', line], at='top', status=0, **how)
    version = f'jslint-lsp {json.loads(text_of(f"{PACKAGES}/npm/package.json"))["version"]}\n'
    same(room.run(['jslint-lsp', '--version'], **how), (0, version, ''))
    server_answers(f'{room.folder}/npm/bin/jslint-lsp')
    shutil.rmtree(f'{room.folder}/top')
    copy_of_package(room)
    room.put('top/a.js', '(a);\n')
    first, second = indented('USAGE.md', 'Run it')
    words = re.search(r'start `node \.\.\./(\S+) --stdio`', text_of(f'{TOP}/docs/EDITORS.md'))[1]
    is_well(f'`{first}`' in text_of(f'{TOP}/docs/EDITORS.md'), first)
    room.run(['sh', '-c', first], at='top', status=0, **how)
    same(room.run(['sh', '-c', second.replace('FILE', 'a.js')], at='top', **how), (0, 'a;\n', ''))
    server_answers(f'{room.folder}/top/{words}')


def others(_):
    """The settings of editors that weren't tried are at least what their files take, and name a command that the package has."""
    page = text_of(f'{TOP}/docs/EDITORS.md').partition('\n## Others\n')[2].partition('\n## ')[0]
    commands = json.loads(text_of(f'{PACKAGES}/npm/package.json'))['bin']
    spans = re.findall(r'`([^`]+)`', page)
    named = [it for each in spans for it in re.findall(r'"(?:command|cmd)": \[?"([\w-]+)"', each) + re.findall(r"'cmd': \['([\w-]+)'", each) + re.findall(r'^command = "([\w-]+)"', each)]
    same((len(named), set(named) <= set(commands)), (2, True), named)


# ---- editors

def documented(language):
    """The code of docs/EDITORS.md in a language."""
    return re.search(rf'^```{language}\n(.*?)^```$', text_of(f'{TOP}/docs/EDITORS.md'), re.M | re.S)[1]


def project(room):
    """A folder with a script and `jslint-lsp` on the `PATH` of what runs in it: the environment."""
    program, package = libraries.node(), libraries.package(room.folder)
    room.put('project/a.js', SCRIPT)
    room.put('project/b.js', 'debugger;\n')
    room.put('project/c.cjs', ';\n')
    os.makedirs(f'{room.folder}/project/.git')
    room.put('bin/jslint-lsp', f'#!/bin/sh\nexec "{program}" "{package}/bin/jslint-lsp.mjs" "$@"\n', 0o755)
    return {**os.environ, 'PATH': f'{room.folder}/bin:{os.environ["PATH"]}', 'HOME': room.folder, 'LC_ALL': 'C.UTF-8', 'XDG_STATE_HOME': room.folder, 'XDG_CACHE_HOME': room.folder}


def ended_well(room, words, env):
    done = subprocess.run(words, cwd=f'{room.folder}/project', env=env, stdin=subprocess.DEVNULL, stdout=subprocess.PIPE, stderr=subprocess.STDOUT, text=True, timeout=MOST)
    is_well(done.returncode == 0 and done.stdout.rstrip().endswith('ok'), done.stdout[-3000:])


def neovim(room):
    """Reports behind characters of one to four bytes, a change, one pair by a code action, formatting, hover."""
    editor, env = libraries.tool('nvim'), project(room)
    room.put('init.lua', documented('lua'))
    ended_well(room, [editor, '--headless', '-u', f'{room.folder}/init.lua', '-S', f'{HERE}/nvim.lua', 'a.js'], env)


def vim(room):
    """The recipes of docs/USAGE.md in Vim, or in Neovim, which takes them too: what `:make` finds of a script and of several, and `:Unwrap`."""
    editor = libraries.tool('vim', 'nvim')
    how = ['--headless'] if editor.endswith('nvim') else ['-Nes']
    said = 'call writefile(map(filter(getqflist(), "v:val.valid"), "bufname(v:val.bufnr) . \':\' . v:val.lnum . \':\' . v:val.col . \':\' . v:val.text"), "found")'
    for name, text in [('src/a.js', recipes.WRONG), ('src/two words.js', recipes.REFUSED), ('ok.js', recipes.RIGHT)]:
        room.put(name, text)

    def call(number, *commands):
        room.put('recipe.vim', recipes.block('Vim', 'vim', number))
        words = ['source recipe.vim', *commands, 'quitall!']
        room.run([editor, *how, '-u', 'NONE', '-i', 'NONE', *(it for word in words for it in ('-c', word))], status=0)
        return room.text('found').splitlines()

    reports = [it.replace(' ', ':', 1) for it in recipes.FOUND]
    same(call(0, 'edit src/a.js', 'silent make!', said), [f'src/a.js:{it}' for it in reports])
    same(call(0, r'edit src/two\ words.js', 'silent make!', said), ['src/two words.js:2:1:syntax error'])
    same(call(0, 'edit ok.js', 'silent make!', said), [])
    same(call(1, 'silent make! src/*.js', said), [f'src/a.js:{it}' for it in reports] + ['src/two words.js:2:1:syntax error'])
    same(call(2, 'edit src/a.js', 'silent Unwrap', 'write! read', 'call writefile([g:said], "found")'), [''])
    same([room.text('src/a.js'), room.text('read')], ['let x = 1;\n'] * 2)


def emacs(room):
    """The same, but for hover, by eglot."""
    editor = libraries.tool('emacs')
    folders = [it for it in sorted(glob.glob(f'{ELPA}/*')) if re.match(r'(eglot|eldoc|flymake|jsonrpc|project|xref|external-completion|seq)-[\d.]+$', os.path.basename(it))]
    words = [editor, '-Q', '--batch', *(it for each in folders for it in ('-L', each))]
    if subprocess.run([*words, '-l', 'eglot'], stdout=subprocess.DEVNULL, stderr=subprocess.DEVNULL).returncode:
        raise Skipped('there is no eglot here')
    env = project(room)
    room.put('init.el', documented('lisp'))
    ended_well(room, [*words, '-l', f'{room.folder}/init.el', '-l', f'{HERE}/emacs.el', 'a.js'], env)


TESTS = [server_units, server_session, server_layers, server_hostile, texts, vscode, installed, others, neovim, emacs, vim]
