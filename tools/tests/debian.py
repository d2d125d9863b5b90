"""The Debian packages that packages/debian/build-deb makes: the same bytes twice, lintian's word, and what runs of them in another root.

Each test is a function that raises where something is wrong, and libraries.Skipped where it can't be tried. Its argument is a room: a folder of its own.
"""
import glob
import gzip
import json
import os
import re
import shutil
import subprocess
import sys

import libraries
import recipes
from libraries import PACKAGES, Skipped, tool
from recipes import FOUND, KEPT, TOP, UNWRAPPED, WRONG, is_well, same

NEEDED = ('dpkg-deb', 'make', 'cc', 'strip', 'gzip', 'python3', 'node')
BUILD = f'{PACKAGES}/debian/build-deb'
# Of another root dpkg wants these.
ADMIN = ('updates', 'info', 'triggers')


def build(room, folder, **more):
    """The paths of the packages that it makes, by their names."""
    for it in NEEDED:
        tool(it)
    libraries.node()
    libraries.library('wasm/jslint.wasm')
    _, out, err = room.run([BUILD, folder], status=0, PATH=os.environ['PATH'], **more)
    same(err, '')
    made = {os.path.basename(it).split('_')[0]: it for it in out.splitlines()}
    same(sorted(made), ['jslint', 'jslint-lsp'])
    return made


def bytes_of(path):
    with open(path, 'rb') as file:
        return file.read()


def fields_of(path):
    return dict(re.findall(r'^ ?([\w-]+): (.*)$', libraries.ran(['dpkg-deb', '-I', path, 'control'])[0], re.M))


def same_bytes(room):
    """Twice, for another user's mask, time zone and language, into other folders; nothing stays in the temporary one. What is missing is said."""
    os.makedirs(room.path('temporary/other'))
    first = build(room, 'one', TMPDIR=f'{room.folder}/temporary')
    room.put('masked', f'#!/bin/sh\numask 077\nexec "{BUILD}" "$@"\n', 0o755)
    for it in NEEDED:
        tool(it)
    _, out, _ = room.run(['./masked', 'two words/two'], status=0, PATH=os.environ['PATH'], TMPDIR=f'{room.folder}/temporary/other', TZ='Asia/Tokyo', LC_ALL='C')
    second = {os.path.basename(it).split('_')[0]: it for it in out.splitlines()}
    for name, path in first.items():
        is_well(bytes_of(path) == bytes_of(second[name]), f'{name} has other bytes')
        same(os.path.dirname(second[name]), f'{os.path.realpath(room.folder)}/two words/two')
    same(room.names('temporary') + room.names('temporary/other'), ['other'])
    version = re.match(r'jslint ([\d.]+)', room.run(['jslint', '--version'])[1])[1]
    for name, wanted in [('jslint', {'Architecture': 'amd64', 'Depends': 'libc6 (>= 2.34)'}), ('jslint-lsp', {'Architecture': 'all', 'Depends': 'nodejs (>= 18)'})]:
        found = fields_of(first[name])
        same({it: found.get(it) for it in ('Version', 'Source', *wanted)}, {'Version': f'{version}-1', 'Source': 'jslint', **wanted}, name)
    same(room.run([BUILD], PATH=os.environ['PATH']), (1, '', 'build-deb: usage: build-deb FOLDER\n'))
    for it in ('sh', 'dirname'):
        os.makedirs(room.path('path'), exist_ok=True)
        os.symlink(shutil.which(it), room.path(f'path/{it}'))
    same(room.run([BUILD, 'three'], PATH=f'{room.folder}/path'), (1, '', 'build-deb: there is no dpkg-deb here\n'))
    is_well('three' not in room.names())


def by_lintian(room):
    """No error and no warning."""
    asked = tool('lintian')
    made = build(room, 'made')
    words = [asked, '--fail-on', 'error,warning', *(['--allow-root'] if os.geteuid() == 0 else []), *made.values()]
    same(room.run(words, PATH=os.environ['PATH']), (0, '', ''))


def frame(method, params, number=None):
    body = json.dumps({'jsonrpc': '2.0', 'method': method, 'params': params, **({} if number is None else {'id': number})}).encode()
    return b'Content-Length: %d\r\n\r\n%b' % (len(body), body)


def bodies(stream):
    """The messages that a server writes."""
    while stream:
        size = int(re.match(rb'Content-Length: (\d+)\r\n\r\n', stream)[1])
        start = stream.index(b'\r\n\r\n') + 4
        yield json.loads(stream[start:start + size])
        stream = stream[start + size:]


def server_answers(program):
    """The server reports what is in a script, as `check` does."""
    with subprocess.Popen([libraries.node(), program, '--stdio'], stdin=subprocess.PIPE, stdout=subprocess.PIPE) as server:
        server.stdin.write(frame('initialize', {'processId': None, 'rootUri': None, 'capabilities': {}}, 1) + frame('initialized', {}))
        text = {'uri': 'file:///a.js', 'languageId': 'javascript', 'version': 1, 'text': WRONG}
        server.stdin.write(frame('textDocument/didOpen', {'textDocument': text}))
        server.stdin.flush()
        # (what follows the reports would end it before they come)
        out = b''
        while b'publishDiagnostics' not in out:
            part = server.stdout.read1()
            is_well(part, f'the server ended: {out}')
            out += part
        server.stdin.write(frame('shutdown', None, 2) + frame('exit', None))
        server.stdin.close()
        out += server.stdout.read()
    same(server.returncode, 0)
    found = next(it for it in bodies(out) if it.get('method') == 'textDocument/publishDiagnostics')['params']['diagnostics']
    same([f'{it["range"]["start"]["line"] + 1}:{it["range"]["start"]["character"] + 1} {it["code"]} {it["message"]}' for it in found], FOUND)


def put_into(room, made):
    """Installs packages into another root: by dpkg, where this user may, else unpacked. What takes them out again, or None."""
    root = f'{room.folder}/root'
    if os.geteuid() or not shutil.which('dpkg'):
        for it in made.values():
            libraries.ran(['dpkg-deb', '-x', it, root])
        return None
    for it in ADMIN:
        os.makedirs(f'{root}/var/lib/dpkg/{it}')
    for it in ('status', 'available'):
        room.put(f'root/var/lib/dpkg/{it}', '')
    # (the C library and Node are those of this system, and so is the shell of the scripts)
    words = ['dpkg', f'--root={root}', '--force-depends', '--force-script-chrootless', '--force-unsafe-io', '--log=/dev/null']
    libraries.ran([*words, '--install', *made.values()])
    same(sorted(re.findall(r'^Package: (\S+)\nStatus: install ok installed$', room.text('root/var/lib/dpkg/status'), re.M)), ['jslint', 'jslint-lsp'])
    return lambda: libraries.ran([*words, '--purge', *made])


def in_another_root(room):
    """Installed there: the program, `jslint-files` with the library and the documents, pages, completions, the server. Taken out again nothing is left."""
    take_out = put_into(room, build(room, 'made'))
    root = f'{room.folder}/root/usr'
    is_well(bytes_of(f'{root}/bin/jslint') == bytes_of(f'{recipes.BIN}/jslint'), 'another program')
    same(sorted(os.listdir(f'{root}/bin')), ['jslint', 'jslint-files', 'jslint-lsp'])
    same([bytes_of(f'{root}/bin/{it}').split(b'\n')[0] for it in ('jslint-files', 'jslint-lsp')], [b'#!/usr/bin/python3', b'#!/usr/bin/node'])
    room.put('project/.git/config', '')
    room.put('project/a.js', KEPT)
    call = lambda *words, **more: room.run([sys.executable, f'{root}/bin/jslint-files', *words], at='project', PATH=f'{root}/bin:/usr/bin:/bin', **more)
    same(room.run([f'{root}/bin/jslint', 'check', 'project/a.js']), (1, ''.join(f'{it}\n' for it in FOUND).replace('1:', '2:'), ''))
    said = ''.join(f'a.js:2:{it.split(":", 1)[1].replace(" ", ": ", 1)}\n' for it in FOUND)
    same(call('--project', '--unsupported', 'note'), (1, said, ''))
    version = call('--version')
    same((version, json.loads(call('--format', 'sarif', 'a.js')[1])['runs'][0]['tool']['driver']['semanticVersion']), (room.run(['jslint', '--version']), version[1].split()[1]))
    is_well(call('--explain', 'no-var')[1].startswith('# no-var\n'))
    # (the library answers: no program is asked)
    os.chmod(f'{root}/bin/jslint', 0o644)
    same((call('unwrap', '--write', 'a.js'), room.text('project/a.js')), ((0, '', ''), UNWRAPPED))
    os.chmod(f'{root}/bin/jslint', 0o755)
    for page in ('jslint', 'jslint-files', 'jslint-lsp'):
        text = gzip.decompress(bytes_of(f'{root}/share/man/man1/{page}.1.gz')).decode()
        is_well(re.match(r'\.TH [A-Z\\-]+ 1 "\d+ \w+ \d+" "jslint [\d.]+" "User Commands"\n', text), text[:99])
        same([it for it in re.findall(r'/usr/share/\S+', text.replace('\\-', '-')) if not os.path.exists(f'{room.folder}/root{it}')], [])
    for it in ('bash-completion/completions/jslint-files', 'zsh/vendor-completions/_jslint', 'fish/vendor_completions.d/jslint.fish', 'jslint/jslint.schema.json', 'doc/jslint-lsp/copyright'):
        is_well(os.path.isfile(f'{root}/share/{it}'), it)
    server_answers(f'{root}/bin/jslint-lsp')
    is_well(glob.glob(f'{root}/share/jslint/jslint_files/__pycache__/*'), 'python3 left no bytecode, which would have to go too')
    if take_out is None:
        raise Skipped('unpacked and run; dpkg itself needs root')
    take_out()
    is_well(not os.path.exists(root), recipes.subprocess.run(['find', root], stdout=subprocess.PIPE, text=True).stdout if os.path.exists(root) else '')


TESTS = [same_bytes, by_lintian, in_another_root]
