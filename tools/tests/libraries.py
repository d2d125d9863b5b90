"""The libraries and the packages over them: the rows by each, the examples in C and Python, the package for Node, and the page.

They are those that tools/wasm/build.py left in bin/libraries, or those of release/, where they are made of the sources here. Each test is a function
that raises where something is wrong, and Skipped where it can't be tried. Its argument is a room: a folder of its own, in which it works.
"""
import base64
import collections
import importlib.util
import json
import os
import re
import shutil
import subprocess
import sys

import rows
from jslint_files.rule_table import MOOT, RULES
from recipes import is_well, same

TOP = os.path.dirname(os.path.dirname(os.path.dirname(os.path.realpath(__file__))))
PACKAGES = f'{TOP}/packages'
SCRIPT = 'let x = (1); x; { let x = 2; x = 3; }\n'
REPORTS = "1:5 prefer-const 'x' is never reassigned\n1:9 no-extra-parens unnecessary parentheses\n1:23 no-shadow 'x' shadows an outer name\n1:23 no-unused-vars 'x' is never read\n"
# What is in the package that `npm pack` makes.
PACKED = {
    'LICENSE-APACHE', 'LICENSE-MIT', 'README.md', 'bin/eslint-json.mjs', 'bin/jslint-lsp.mjs', 'bin/jslint.mjs', 'bin/streams.mjs', 'browser.mjs', 'core.d.mts', 'core.mjs', 'eslint-json.d.mts', 'eslint-json.mjs',
    'jslint.d.mts', 'jslint.mjs', 'jslint.wasm', 'package.json', 'worker.mjs', 'lib/hints.json', 'lib/texts.json',
    *(f'lib/{it}.mjs' for it in (
        'actions', 'beside', 'casts', 'changes', 'checking', 'connection', 'document', 'editor', 'edits', 'engine', 'frames', 'git', 'hinting', 'hints', 'ignore', 'jobs', 'languages', 'layers', 'program', 'progress',
        'protocol', 'rewriting', 'server', 'settings', 'shown', 'suppressions', 'texts', 'thread', 'workspace')),
    *(f'lib/{it}.md' for it in (*RULES, *MOOT)),
}
# Where the libraries are, or why there are none.
PLACE, WHY = None, None
# tools/wasm/build.py
BUILD = None


class Skipped(Exception):
    """Why a test can't be tried here, in a few words."""


def find():
    """Looks for the libraries of the sources here."""
    global PLACE, WHY, BUILD
    spec = importlib.util.spec_from_file_location('libraries_build', f'{TOP}/tools/wasm/build.py')
    BUILD = build = importlib.util.module_from_spec(spec)
    spec.loader.exec_module(build)
    try:
        sources = build.sum_of_sources()
    except build.Refused as why:
        WHY = str(why)
        return
    for folder, made in ((build.FOLDER, f'{build.FOLDER}/MADE'), (f'{TOP}/release', f'{TOP}/release/MADE.libraries')):
        said = build.said_of(made)
        if said.get('sources') == sources and build.is_whole(folder, said):
            PLACE = folder
            return
    WHY = 'there are no libraries of the sources here: tools/wasm/build.py makes them'


def library(name):
    if PLACE is None:
        raise Skipped(WHY)
    return f'{PLACE}/{name}'


def tool(*names):
    """The path of the first of these commands that is here."""
    found = next(filter(None, map(shutil.which, names)), None)
    if found is None:
        raise Skipped(f'there is no {names[0]} here')
    return found


def toolchain():
    """The folder of the compilers of the toolchain."""
    tool('rt')
    BUILD.build.load()
    return f'{BUILD.build.RT.rtlib.KIT}/toolchain/bin'


def node(least=18):
    """The path of Node, of this version or a later one."""
    found = tool('node')
    version = subprocess.run([found, '--version'], stdout=subprocess.PIPE, text=True).stdout
    if int(re.match(r'v(\d+)', version)[1]) < least:
        raise Skipped(f'node is {version.strip()}, and this needs {least}')
    return found


def ran(words, status=0, **how):
    """Both streams of a command, which has to end with this status."""
    done = subprocess.run(words, stdout=subprocess.PIPE, stderr=subprocess.PIPE, text=True, **how)
    is_well(done.returncode == status, f'{words}: status {done.returncode}: {done.stdout[-2000:]}{done.stderr[-2000:]}')
    return done.stdout, done.stderr


# ---- C and Python

def make_c(folder, place='x86_64-linux', compiler=('cc',), **more):
    """A copy of packages/c with what `make` makes of it."""
    archive, made = library(f'{place}/libjslint.a'), f'{folder}/c'
    if place.split('-')[0] != os.uname().machine and compiler == ('cc',):
        raise Skipped(f'this machine is no {place}')
    words = [tool('make'), f'CC={tool(*compiler)}', f'LIBRARY={archive}', *(f'{name}={value}' for name, value in more.items())]
    shutil.copytree(f'{PACKAGES}/c', made)
    ran(words, cwd=made)
    return made


def c_example(room):
    """The program's words, answers and statuses."""
    program = f'{make_c(room.folder)}/jslint'
    for name, text in [('a.js', SCRIPT), ('b.js', 'a b'), ('s.toml', '[rules]\nprefer-const = false\nno-shadow = false\nno-unused-vars = false\nno-extra-parens = false\n')]:
        room.put(name, text)
    how = {'cwd': room.folder}
    same(ran([program, 'check', 'a.js'], 1, **how), (REPORTS, ''))
    same(ran([program, 'check', '--settings', 's.toml', '--', 'a.js'], **how), ('', ''))
    same(ran([program, 'fix', 'b.js'], 2, **how), ('', 'jslint: syntax error at 1:3\n'))
    same(ran([program, 'unwrap', 'a.js'], **how), (SCRIPT.replace('(1)', '1'), ''))
    same(ran([program, 'unwrap', 'b.js'], 2, **how), ('', 'jslint: syntax error at 1:3\n'))
    table, _ = ran([program, 'cost', 'a.js'], **how)
    room.put('table', table)
    same(ran([program, 'verify', 'a.js', 'table'], **how), ('pairs 1 least 0\n', ''))
    same(ran([program, 'fix', 'none'], 2, **how), ('', 'jslint: read failed\n'))
    with open('/dev/full', 'w') as full:
        done = [subprocess.run([program, it, 'a.js'], stdout=full, stderr=subprocess.PIPE, text=True, **how) for it in ('fix', 'unwrap')]
    same([(it.returncode, it.stderr) for it in done], [(2, 'jslint: write failed\n')] * 2)
    # (languages)
    room.put('m.mjs', 'export let a=(1);')
    room.put('t.js', 'async()=>(1)')
    same([ran([program, 'fix', *it], **how)[0] for it in (['--module', 'm.mjs'], ['m.mjs', '--edition', '2022', '--module'], ['t.js', '--edition', '2022'])], ['export let a = 1;\n'] * 2 + ['async () => 1;\n'])
    same([ran([program, 'fix', *it], 2, **how) for it in (['m.mjs'], ['--edition', '2022', 'm.mjs'], ['--edition', '2020', 't.js'])], [('', f'jslint: syntax error at {it}\n') for it in ('1:1 (perhaps: --module)', '1:1 (perhaps: --module)', '1:8 (perhaps: --edition 2022)')])
    for it in (['--edition', '2020', '--module'], ['--module', '--edition', '2020'], ['--edition', '2021'], ['--edition']):
        is_well(ran([program, 'fix', 'm.mjs', *it], 2, **how)[1].startswith('jslint: usage: '), it)
    # (an answer that is longer than the room at first)
    room.put('long.js', 'a==b;' * 5000)
    same(ran([program, 'check', 'long.js'], 1, **how)[0].count('\n'), 15000)


def refused_memory(room):
    """Each request for memory refused in turn: the answer, or `out of memory`."""
    folder = make_c(room.folder)
    wraps = [f'-Wl,--wrap={it}' for it in ('malloc', 'realloc', 'free')]
    ran([tool('cc'), '-O1', '-Wall', '-Wextra', '-Werror', f'-I{folder}', '-o', 'memory', f'{TOP}/tools/tests/memory.c', library('x86_64-linux/libjslint.a'), *wraps], cwd=folder)
    out, _ = ran([f'{folder}/memory'])
    is_well(int(out.split()[0]) > 1000, out)


def python_example(room):
    folder = make_c(room.folder)
    with open(f'{folder}/jslint.py', encoding='utf-8') as file:
        said = file.read()
    wanted = re.findall(r'^    (jslint\.\S.*?)  +(\S.*)$', said, re.M)
    is_well(len(wanted) == 10, wanted)
    asked = '\n'.join(f'print(repr({call}))' for call, _ in wanted)
    out, _ = ran([sys.executable, '-c', f'import jslint\n{asked}'], cwd=folder)
    for found, (call, want) in zip(out.splitlines(), wanted):
        # (the page's string shows its escapes; what comes after a value explains it)
        want = want.replace('\\\\', '\\')
        is_well(found == want or want.startswith(f'{found}:'), f'{call}: {found} where {want} is wanted')
    refused = "import jslint\ntry: jslint.fix('a b')\nexcept jslint.Refused as it: print(it, it.status)"
    same(ran([sys.executable, '-c', refused], cwd=folder), ('syntax error at 1:3 2\n', ''))
    warned = "import jslint\nfor it in jslint.check('var a; debugger;', '''only = [\"no-var\", \"no-debugger\"]\nrules.no-var = 1'''): print(it.message, it.severity)"
    same(ran([sys.executable, '-c', warned], cwd=folder), ('use let or const instead of var warning\ndebugger statement error\n', ''))
    hinted = "import jslint\nfor text in 'a b', 'export {};', 'async () => 1;':\n try: jslint.fix(text)\n except jslint.Refused as it: print(it, it.code, it.line, it.column, it.hint)"
    same(ran([sys.executable, '-c', hinted], cwd=folder), ('syntax error at 1:3 syntax 1 3 None\nsyntax error at 1:1 syntax 1 1 module\nsyntax error at 1:10 syntax 1 10 2022\n', ''))


# What each call answers or is refused as, in threads whose stack is too small for a deep text, and in one whose is not.
SMALL = '''import sys, threading
import jslint
def told(call):
    try: return call()
    except jslint.Refused as it: return it.code
deep, flat, found = '(' * 1200 + 'a' + ')' * 1200, '((a));' * 500, []
def work(): found.append((told(lambda: jslint.fix('((a))')), told(lambda: jslint.fix(deep)), len(told(lambda: jslint.unwrap(flat)))))
for size in map(int, sys.argv[1:]):
    threading.stack_size(size)
    it = threading.Thread(target=work); it.start(); it.join()
print(found)
'''


def python_refusals(room):
    """Codes and places of refusals; a small stack is refused, and the process goes on."""
    folder = make_c(room.folder)
    names = "('code', 'line', 'column', 'number', 'byte', 'row', 'reason', 'in_second')"
    asked = [('fix', 'a b'), ('fix', 'let a; let a;'), ('check', 'a', '\nx'), ('check', 'a', 'x = 1'), ('same', 'a', 'a b'), ('verify', 'a', 'x'), ('fix', 'a' * (16777216 + 1)), ('tree', '[' * 590 + ']' * 590)]
    calls = '\n'.join(f'''try: jslint.{name}(*{words!r})
except jslint.Refused as it: print([getattr(it, name) for name in {names}])''' for name, *words in asked)
    room.put('calls.py', f'import jslint\n{calls}')
    out, _ = ran([sys.executable, f'{room.folder}/calls.py'], cwd=folder, env={**os.environ, 'PYTHONPATH': folder})
    none = 'None, None, None, None, None, None'
    same(out.splitlines(), [
        "['syntax', 1, 3, None, None, None, None, False]", "['early', 1, 12, 3, None, None, None, False]", "['settings', 2, 2, None, None, None, None, False]", f"['settings', {none}, False]",
        "['syntax', 1, 3, None, None, None, None, True]", "['table', None, None, None, None, 0, 'Form', False]", f"['long', {none}, False]", f"['stack', {none}, False]",
    ])
    room.put('small.py', SMALL)
    out, _ = ran([sys.executable, f'{room.folder}/small.py', str(1 << 17), str(1 << 20), str(16 << 20)], cwd=folder, env={**os.environ, 'PYTHONPATH': folder})
    same(out, "[('a;\\n', 'stack', 5), ('a;\\n', 'stack', 5), ('a;\\n', 'a;\\n', 1000)]\n")


def documented(language):
    """The code of docs/EMBEDDING.md in a language."""
    with open(f'{TOP}/docs/EMBEDDING.md', encoding='utf-8') as file:
        return re.search(rf'^```{language}\n(.*?)^```$', file.read(), re.M | re.S)[1]


def documented_c(room):
    """The examples in C and Python of docs/EMBEDDING.md."""
    folder = make_c(room.folder)
    room.put('example.c', documented('c'))
    ran([tool('cc'), '-Wall', '-Wextra', '-Werror', f'-I{folder}', '-o', 'example', 'example.c', library('x86_64-linux/libjslint.a')], cwd=room.folder)
    same(ran([f'{room.folder}/example']), ('a;\n', ''))
    calls = re.findall(r'^(jslint\..*?) +# (.*)$', documented('python'), re.M)
    is_well(len(calls) >= 2, calls)
    out, _ = ran([sys.executable, '-c', '\n'.join(['import jslint', *(f'print(repr({call}))' for call, _ in calls)])], cwd=folder)
    same(out.splitlines(), [it for _, it in calls])


# ---- Node

def package(folder):
    """A copy of the package with its module and the words of the documents."""
    made = f'{folder}/package'
    os.makedirs(folder, exist_ok=True)
    shutil.copytree(f'{PACKAGES}/npm', made, ignore=shutil.ignore_patterns('jslint.wasm', 'texts.json', '*-*.md', 'eqeqeq.md', 'node_modules'))
    shutil.copy(library('wasm/jslint.wasm'), f'{made}/jslint.wasm')
    put = "writeFileSync('lib/texts.json', JSON.stringify(textsOf(top))); for (const [name, text] of Object.entries(pagesOf(top))) writeFileSync(`lib/${name}`, text)"
    asked = f"import {{ writeFileSync }} from 'node:fs'; import {{ pagesOf, textsOf }} from './make-texts.mjs'; const top = new URL(process.argv[1]); {put};"
    ran([node(), '--input-type=module', '-e', asked, f'file://{TOP}/'], cwd=made)
    return made


def node_tests(room):
    """The package's own tests."""
    program = node()
    out, _ = ran([program, '--test', '--test-reporter=tap', 'test/jslint.test.mjs', 'test/bin.test.mjs'], cwd=package(room.folder))
    found = dict(re.findall(r'^# (pass|fail|skipped) (\d+)$', out, re.M))
    is_well(int(found['pass']) >= 14 and found['fail'] == '0' == found['skipped'], found)


# The calls, where instances, buffers and deeper threads can be refused: what each gives, or the code of its refusal.
MEMORY = '''import { cost, fix, tree } from './jslint.mjs';
const { Instance } = WebAssembly, told = (call) => { try { return call(); } catch (error) { return error.code ?? error.message; } };
let isRefused = true;
WebAssembly.Instance = function (...words) {
  if (isRefused) throw new RangeError('WebAssembly.Instance(): Out of memory: Cannot allocate Wasm memory for new instance');
  return new Instance(...words);
};
const found = [told(() => fix('((a))')), told(() => tree('a'))];
isRefused = false;
const { decode } = TextDecoder.prototype;
TextDecoder.prototype.decode = () => { throw new TypeError('too long'); };
found.push(told(() => cost('a')));
TextDecoder.prototype.decode = decode;
found.push(told(() => fix('((a))')));
console.log(JSON.stringify(found));
'''


def node_memory(room):
    """Memory that the engine refuses is `out of memory`, and the next call works; where the system has no room for another thread, the process ends or answers."""
    program, made = node(), package(room.folder)
    same(ran([program, '--input-type=module', '-e', MEMORY], cwd=made), ('["memory","memory","memory","a;\\n"]\n', ''))


def node_pack(room):
    """What `npm pack` makes of the repository has all that it needs, and nothing else."""
    program, npm, wasm = node(), tool('npm'), library('wasm/jslint.wasm')
    for name in ('packages/npm', 'docs', 'LICENSE-APACHE', 'LICENSE-MIT'):
        copy = shutil.copytree if os.path.isdir(f'{TOP}/{name}') else shutil.copy
        os.makedirs(os.path.dirname(f'{room.folder}/{name}'), exist_ok=True)
        copy(f'{TOP}/{name}', f'{room.folder}/{name}')
    # (what an earlier run left, of documents that have changed since)
    with open(f'{room.folder}/packages/npm/lib/texts.json', 'w', encoding='utf-8') as file:
        file.write('{"version": "0", "rules": {}, "early": {}, "refusals": {}}')
    env = {**os.environ, 'JSLINT_WASM': wasm, 'HOME': room.folder, 'npm_config_update_notifier': 'false', 'npm_config_cache': f'{room.folder}/cache'}
    ran([npm, 'pack', '--offline', '--pack-destination', room.folder], cwd=f'{room.folder}/packages/npm', env=env)
    packed = next(it for it in os.listdir(room.folder) if it.endswith('.tgz'))
    ran(['tar', 'xzf', packed], cwd=room.folder)
    found = {os.path.relpath(f'{at}/{it}', f'{room.folder}/package') for at, _, names in os.walk(f'{room.folder}/package') for it in names}
    same(found, PACKED)
    os.makedirs(f'{room.folder}/user/node_modules')
    os.rename(f'{room.folder}/package', f'{room.folder}/user/node_modules/jslint-with-proofs')
    asked = "import { fix } from 'jslint-with-proofs'; import { format, resultOf } from 'jslint-with-proofs/eslint-json'; console.log(fix('((a))') + format([resultOf('a', 'a;')]));"
    out, _ = ran([program, '--input-type=module', '-e', asked], cwd=f'{room.folder}/user')
    is_well(out.startswith('a;\n[{"filePath":"a","messages":[{"ruleId":"no-undef"'), out)
    with open(f'{TOP}/packages/npm/package.json', encoding='utf-8') as file:
        version = json.load(file)['version']
    same(ran([program, f'{room.folder}/user/node_modules/jslint-with-proofs/bin/jslint-lsp.mjs', '--version']), (f'jslint-lsp {version}\n', ''))


def node_readme(room):
    """Each call of the package's README and of docs/EMBEDDING.md gives what stands after it."""
    program, made = node(), package(room.folder)
    with open(f'{made}/README.md', encoding='utf-8') as file:
        blocks = re.search(r'```js\n(.*?)```', file.read(), re.S)[1] + documented('js')
    wanted = re.findall(r'^(\w+\(.*);\s+// (\S.*)$', blocks, re.M)
    is_well(len(wanted) >= 8, wanted)
    checks = '\n'.join(f'assert.deepEqual({call}, {want});' for call, want in wanted)
    asked = f"import assert from 'node:assert/strict';\nimport {{ check, cost, fix, format, mend, same, spans, tree, unwrap, verify }} from './jslint.mjs';\n{checks}"
    ran([program, '--input-type=module', '-e', asked], cwd=made)


# What a bundle is made of: the package, and `core` with the module as bytes.
APP = '''import { check, fix } from 'jslint-with-proofs';
import { resultOf } from 'jslint-with-proofs/eslint-json';
const told = JSON.stringify([fix('((a))'), check('debugger;').length, resultOf('a', 'debugger;').errorCount]);
if (globalThis.document) document.body.textContent = told;
else console.log(told);
'''
CORE = '''import { commandsOf } from 'jslint-with-proofs/core';
import bytes from 'jslint-with-proofs/jslint.wasm';
const { fix } = commandsOf(new WebAssembly.Module(bytes));
console.log(fix('((a))'));
'''
TOLD = '["a;\\n",1,1]'


def bundled(room, name, *words):
    """Makes a bundle by esbuild, which has to find nothing wrong."""
    same(ran([tool('esbuild'), f'{name}.mjs', '--bundle', '--log-level=warning', *words], cwd=room.folder), ('', ''))


def node_bundles(room):
    """Bundles for Node and for browsers, by esbuild: with `jslint.wasm` beside them, and in each form with the module handed in."""
    tool('esbuild')
    program, made = node(), package(f'{room.folder}/node_modules/jslint-with-proofs')
    os.rename(made, f'{room.folder}/node_modules/it')
    os.rmdir(f'{room.folder}/node_modules/jslint-with-proofs')
    made = shutil.move(f'{room.folder}/node_modules/it', f'{room.folder}/node_modules/jslint-with-proofs')
    room.put('app.mjs', APP)
    room.put('core.mjs', CORE)
    for platform in ('node', 'browser'):
        bundled(room, 'app', f'--platform={platform}', '--format=esm', f'--outfile={platform}/app.mjs')
        shutil.copy(f'{made}/jslint.wasm', f'{room.folder}/{platform}/jslint.wasm')
    same(ran([program, 'node/app.mjs'], cwd=room.folder), (f'{TOLD}\n', ''))
    with open(f'{room.folder}/browser/app.mjs', encoding='utf-8') as file:
        is_well('node:' not in file.read(), 'a bundle for browsers with what only Node has')
    for form, end in (('esm', 'mjs'), ('cjs', 'cjs'), ('iife', 'cjs')):
        bundled(room, 'core', '--platform=neutral', f'--format={form}', '--loader:.wasm=binary', f'--outfile={form}/core.{end}')
        same(ran([program, f'{form}/core.{end}'], cwd=room.folder), ('a;\n\n', ''))
    room.put('browser/index.html', '<!doctype html><body><script type="module" src="app.mjs"></script>')
    in_browser(room)


def in_browser(room):
    """The bundle for browsers in headless Chromium, from a server on this machine."""
    browser = tool('chromium', 'chromium-browser', 'google-chrome')
    server = subprocess.Popen([sys.executable, '-u', '-m', 'http.server', '0', '--bind', '127.0.0.1', '--directory', f'{room.folder}/browser'], stdout=subprocess.PIPE, stderr=subprocess.DEVNULL, text=True)
    try:
        port = re.search(r'port (\d+)', server.stdout.readline())[1]
        words = ['--headless', '--no-sandbox', '--disable-gpu', f'--user-data-dir={room.folder}/profile', '--virtual-time-budget=60000', '--dump-dom', f'http://127.0.0.1:{port}/']
        done = subprocess.run([browser, *words], stdout=subprocess.PIPE, stderr=subprocess.PIPE, text=True, env={**os.environ, 'HOME': room.folder}, timeout=300)
        is_well(f'<body>{TOLD}</body>' in done.stdout, done.stdout[-500:] + done.stderr[-500:])
    finally:
        server.kill()
        server.wait()


# ---- the page

def page(room):
    """The page in headless Chromium, from a folder without a server."""
    browser, program = tool('chromium', 'chromium-browser', 'google-chrome'), node()
    made = f'{room.folder}/jslint.html'
    ran([sys.executable, f'{PACKAGES}/page/build.py', library('wasm/jslint.wasm'), made])
    out, _ = ran([program, f'{PACKAGES}/page/test.mjs', '--chromium', browser, made], env={**os.environ, 'HOME': room.folder})
    is_well(re.search(r'^(\d+) as wanted, 0 not$', out, re.M), out)


# ---- the rows

def fifth(room):
    """What the gate asks of the libraries: a fifth of the rows of each call in each file, and at least one."""
    every = [it for it in rows.rows_in(f'{TOP}/crates/cases/data') if rows.asks_command(it)]
    found, counts = rows.each_fifth(every), []
    for some in (every, found):
        counts.append(collections.Counter((it[0].split(':')[0], it[1].split('\t')[0]) for it in some))
    is_well(set(found) <= set(every) and len(set(found)) == len(found), 'rows that are no rows, or twice')
    same({key: -(-number // 5) for key, number in counts[0].items()}, dict(counts[1]))


def by_ctypes(folder):
    """Answers by libjslint.so in this process."""
    sys.path.insert(0, folder)
    import jslint

    def answers(name, text, second):
        it = jslint.run(name, text, second or b'', rows.language_name())
        said = it.bytes.decode(errors='replace')
        return rows.Answer(it.status, '' if it.is_refusal else said, said if it.is_refusal else '')
    return answers


def by_node(folder):
    """Answers by the package in a process of its own."""
    # (until the engine has compiled a function for speed, which takes longer on a busy machine, a deep text needs more stack than Node gives)
    words = [node(), '--stack-size=4000', f'{TOP}/tools/tests/answers.mjs', folder]
    process = subprocess.Popen(words, stdin=subprocess.PIPE, stdout=subprocess.PIPE, text=True)

    def answers(name, text, second):
        asked = {'command': name, 'text': base64.b64encode(text).decode(), 'second': base64.b64encode(second or b'').decode(), 'language': rows.language_name()}
        process.stdin.write(f'{json.dumps(asked)}\n')
        process.stdin.flush()
        it = json.loads(process.stdout.readline())
        return rows.Answer(it['status'], '' if it['isRefusal'] else it['text'], it['text'] if it['isRefusal'] else '')
    return answers


def by_emulator(words):
    """Answers by answers.c in a process of its own."""
    process, numbers = subprocess.Popen(words, stdin=subprocess.PIPE, stdout=subprocess.PIPE), ['check', 'tree', 'fix', 'cost', 'verify', 'unwrap', 'spans', 'same', 'format', 'mend']

    def answers(name, text, second):
        second = second or b''
        process.stdin.write(f'{rows.language_number()} {numbers.index(name)} {len(text)} {len(second)}\n'.encode() + text + second)
        process.stdin.flush()
        status, is_refusal, length = map(int, process.stdout.readline().split())
        said = process.stdout.read(length).decode(errors='replace')
        return rows.Answer(status, '' if is_refusal else said, said if is_refusal else '')
    return answers


def make_node(room):
    node()
    return package(room)


def make_aarch64(room):
    """answers.c for aarch64, with what runs it here."""
    archive, emulator = library('aarch64-linux/libjslint.a'), tool('qemu-aarch64', 'qemu-aarch64-static')
    compiler, program = tool('aarch64-linux-gnu-gcc'), f'{room}/answers'
    ran([compiler, '-O1', '-Wall', '-Wextra', '-Werror', '-static', f'-I{PACKAGES}/c', '-o', program, f'{TOP}/tools/tests/answers.c', archive])
    return [emulator, program]


def begin_c(folder):
    rows.begin(None, by_ctypes(folder))


def begin_node(folder):
    rows.begin(None, by_node(folder))


def begin_aarch64(words):
    rows.begin(None, by_emulator(words))


# By the name of who answers: what is made in a folder, and what each process begins with.
ANSWERERS = {'rows_by_c': (make_c, begin_c), 'rows_by_module': (make_node, begin_node), 'rows_on_aarch64': (make_aarch64, begin_aarch64)}

TESTS = [c_example, documented_c, refused_memory, python_example, python_refusals, node_tests, node_memory, node_pack, node_readme, node_bundles, page, fifth]
