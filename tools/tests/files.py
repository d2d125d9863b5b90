"""`jslint-files` where something is in its way: comments, line ends, streams, patterns, interruptions, names, modes; and its form `json`.

Each test is a function that raises where something is wrong, and libraries.Skipped where it can't be tried. Its argument is a room: a folder of its
own, in which it works.
"""
import base64
import json
import os
import pwd
import shutil
import signal
import stat
import subprocess
import time

import recipes
from libraries import Skipped
from recipes import FOUND, REFUSED, RIGHT, TOP, WRONG, is_well, same

FIXED = 'let x = 1;\n'
# Signals that end a program.
ENDING = (signal.SIGINT, signal.SIGTERM, signal.SIGHUP, signal.SIGQUIT)
# Scripts, and how many comments each has.
COMMENTS = [
    ('', 0), ('a // b', 1), ('a /* b */', 1), ('/**/', 1), ('/*/ a */', 1), ('/*/ // */', 1), ('//', 1), ('/* // */ /* /* */ // /* */\n/**/', 4), ('// a\r// b\r\n// c\u2028// d\u2029// e', 5),
    ('"//" + \'/*\' + "\\"//" + "\\\\//"', 0), ('"\\\n//";', 0), ('"\\\\" // a', 1), ('x = "a" //"', 1), ('`//${a}/*${`//${b}/*`}*/`', 0), ('`${a /* b */}//`', 1), ('`${`//`}${/*a*/b}//${c}` // d', 2),
    ('`\\`//${"`" /* a */}`', 1), ('x = /[/*]/', 0), ('x = /\\/\\//', 0), ('x = /[/\\]//*]/', 0), ('x = /a//b', 0), ('x = /a/ // b', 1), ('x = /a///b', 1), ('x = /a/g/* b */', 1), ('x = /a/ / /b// c / /d/', 0),
    ('x = a / b / c', 0), ('x = a++ / /b/ // c', 1), ('if (a) /b\\//.c(); // d', 1), ('x = {} / 2 // 3', 1), ('a\n// b', 1), ('\ufeff// a', 1), ('\ufeff"//"', 0), ('\'\U0001f600//\' // \u00e9', 1),
    ('({"//": 1, [`/*`]: 2})', 0), ('f`\\u{//${0}`', 0), ('x = 1 /2/ 3 // 4', 1), ('a\n<!--b // c', 1), ('a --> b', 0), ('[' * 590 + '"//"' + ']' * 590, 0), ('"//";' * 3000 + '/**/', 1),
]


def files(room, *words, status=None, **more):
    return room.run(['jslint-files', *words], status=status, **more)


def names_below(room):
    return sorted(os.path.relpath(os.path.join(at, it), room.path('.')) for at, folders, found in os.walk(room.path('.')) for it in [*folders, *found])


def program(room, text, name='program'):
    """The path of a program by a shell script, in which $JSLINT_REAL is the real one."""
    room.put(name, f'#!/bin/sh\n{text}\n', 0o755)
    return {'JSLINT': f'{room.folder}/{name}', 'JSLINT_REAL': f'{recipes.BIN}/jslint'}


# ---- the form json

# What is said of some rows that the package for Node doesn't say.
SAID_MORE = {'bad settings are said once': ' (line 1): x = 1: there is no such key'}


def put_row(room, name, content):
    os.makedirs(os.path.dirname(room.path(name)), exist_ok=True)
    if isinstance(content, str):
        room.put(name, content)
    elif 'link' in content:
        os.symlink(content['link'], room.path(name))
    else:
        with open(room.path(name), 'wb') as file:
            file.write(base64.b64decode(content['base64']) if 'base64' in content else content['text'].encode() * content['times'])


def eslint_rows(room):
    """The rows of the package for Node, with the order of the keys; one line, in ASCII."""
    with open(f'{TOP}/packages/npm/test/eslint-json.rows.json', encoding='utf-8') as file:
        rows = json.load(file)
    for number, row in enumerate(rows):
        alone = recipes.Room(os.path.realpath(f'{room.folder}/{number}'))
        for name, content in row['files'].items():
            put_row(alone, name, content)
        status, out, err = files(alone, '--format', 'json', *row['words'])
        wanted = [{**it, 'filePath': f'{alone.folder}/{it["filePath"]}'} for it in row['results']] if 'results' in row else None
        same((status, err), (row['status'], f'jslint-files: {row["said"]}{SAID_MORE.get(row["what"], "")}\n' if 'said' in row else ''), row['what'])
        same(json.dumps(json.loads(out)) if out else None, json.dumps(wanted) if wanted is not None else None, row['what'])
        is_well(out.isascii() and out.count('\n') == (wanted is not None), row['what'])
    is_well(len(rows) > 30)


def eslint_names(room):
    """A name that isn't UTF-8 has its bytes; a current folder that is gone is said."""
    with open(room.path(b'not\xffutf8.js'), 'wb') as file:
        file.write(b'debugger;')
    status, out, err = files(room, '--format', 'json', '--files-from', '-', given=b'not\xffutf8.js\n')
    same((status, os.fsencode(json.loads(out)[0]['filePath']), err), (1, os.path.realpath(room.path(b'not\xffutf8.js')), ''))
    os.makedirs(room.path('gone'))
    same(room.sh('cd gone && rmdir ../gone && jslint-files --format json a.js'), (2, '', 'jslint-files: the current folder is gone\n'))


# ---- comments, line ends

def comments(room):
    """`fix --write` loses none unasked: not of one script that has some, whatever looks like one elsewhere."""
    for number, (text, count) in enumerate(COMMENTS):
        room.put(f'{number}.js', text)
    said = files(room, 'fix', '--write', *(f'{it}.js' for it in range(len(COMMENTS))), status=2)[2].splitlines()
    for number, (text, count) in enumerate(COMMENTS):
        lines = [it.split(': ', 1)[1] for it in said if it.startswith(f'{number}.js:')]
        what = f'{count} comments' if count > 1 else 'a comment'
        same(lines, [f'not rewritten: fix drops {what}; --drop-comments permits it, and unwrap keeps comments'] if count else [], repr(text[:99]))
        is_well(not count or room.text(f'{number}.js') == text, repr(text[:99]))
    same(files(room, 'fix', '--write', '--drop-comments', *(f'{it}.js' for it in range(len(COMMENTS)))), (0, '', ''))
    is_well('//' not in room.text('6.js') and room.text('1.js') == 'a;\n')


def comments_first(room):
    """The place of the first; help says it first; `--diff` and `unwrap` need no such word, and other scripts are done."""
    room.put('a.js', "'\U0001f600';\r\n\u2028  x = (1) /* a */; // b\n")
    room.put('b.js', 'let x = (1);')
    room.put('bad.js', 'a // b\n+')
    said = 'a.js:3:11: not rewritten: fix drops 2 comments; --drop-comments permits it, and unwrap keeps comments\nbad.js:2:2: syntax error\n'
    same(files(room, 'fix', '--write', 'a.js', 'b.js', 'bad.js'), (2, '', said))
    same((room.text('b.js'), room.text('bad.js')), (FIXED, 'a // b\n+'))
    same([files(room, *it.split(), 'a.js')[::2] for it in ('fix --diff', 'unwrap --diff', 'unwrap --write')], [(1, ''), (1, ''), (0, '')])
    is_well('/* a */; // b' in room.text('a.js'))
    for words, why in [('unwrap --write --drop-comments', '--drop-comments is for fix: unwrap keeps them'), ('--drop-comments', '--drop-comments is for fix')]:
        same(files(room, *words.split(), 'a.js'), (2, '', f'jslint-files: {why}\n'))
    about = '`fix` drops comments. So `fix --write` refuses a script that has any'
    is_well(files(room, '--help')[1].split('\n\n')[1].startswith(about) and files(room, 'fix', '-h')[0] == 0)


def line_ends(room):
    """The first line's is that of all; no value of a string or a template changes."""
    rows = [
        ('let x = (1);\r\nlet y;\r\n', 'let x = 1;\r\nlet y;\r\n'), ('a;\r\nb;\nc;', 'a;\r\nb;\r\nc;\r\n'), ('a;\nb;\r\nc;', 'a;\nb;\nc;\n'), ('a;\rb;\r\n', 'a;\r\nb;\r\n'), ('a;\rb;', 'a;\nb;\n'), ('(a)', 'a;\n'),
        ('x = `a\r\nb\r\r\nc` + "d\\\r\ne\\\rf";\r\n', 'x = `a\r\nb\r\n\r\nc` + "d\\\r\ne\\\rf";\r\n'), ('\r\n', ''), ('a;\u2028b;\r\n', 'a;\r\nb;\r\n'), ('{ a }\r\n', '{\r\n  a;\r\n}\r\n'),
    ]
    for text, wanted in rows:
        room.put('a.js', text)
        shown = files(room, 'fix', '--diff', 'a.js')[1]
        tree = room.run(['jslint', 'tree', 'a.js'])[1]
        same(files(room, 'fix', '--write', 'a.js'), (0, '', ''))
        same(room.text('a.js'), wanted, repr(text))
        same(recipes.re.findall('"cooked":"[^"]*"|"value":"[^"]*"', tree), recipes.re.findall('"cooked":"[^"]*"|"value":"[^"]*"', room.run(['jslint', 'tree', 'a.js'])[1]), repr(text))
        added = [it[1:] for it in shown.split('\n')[3:] if it.startswith('+')]
        is_well(all(it in wanted.split('\n') for it in added), repr(shown))
    for text, wanted in [('(a); // b\r\n\n(c) /*\r\n*/\r\n', 'a; // b\r\n\nc /*\r\n*/\r\n'), ('f(( // a\r\n(b)))\r\n', 'f(// a\r\nb)\r\n'), ('() => { return (// a\r\n(b)) }\r\n', None)]:
        room.put('a.js', text)
        same(files(room, 'unwrap', '--write', 'a.js'), (0, '', ''))
        found = room.text('a.js')
        is_well(found == wanted if wanted else found.count('\n') == found.count('\r\n') == text.count('\r\n'), repr(found))


def line_ends_longer(room):
    """Where the longer text can't be judged any more, the script stays as it is."""
    room.put('a.js', '\r\n' + '{' * 100 + 'a;' * 82400 + '}' * 100)
    text = room.text('a.js')
    same(files(room, 'fix', '--write', 'a.js'), (2, '', 'a.js:1:1: longer than 16777216 bytes\n'))
    is_well(room.text('a.js') == text and room.names() == ['a.js'])


# ---- streams

def streams(room):
    """What can't be written is said, where anybody can read that, and never with a traceback."""
    room.put('a.js', WRONG)
    room.put('good.js', RIGHT)
    lost, unsaid = (2, '', 'jslint-files: write failed\n'), (2, '', '')
    for words in ('a.js', '--format json good.js', '--format github a.js', 'fix --diff a.js', 'unwrap --diff a.js', '--help', '--version'):
        for to in ('>/dev/full', '>&-'):
            same(room.sh(f'jslint-files {words} {to}'), lost, f'{words} {to}')
            for other in ('2>/dev/full', '2>&-', '2>&- <&-'):
                same(room.sh(f'jslint-files {words} {to} {other}'), unsaid, f'{words} {to} {other}')
    for words in ('', '--nope', '--settings none a.js', 'fix --write none.js', '--files-from -'):
        for to in ('2>/dev/full', '2>&-'):
            same(room.sh(f'jslint-files {words} {to} <&-'), unsaid, f'{words} {to}')
    same(room.sh('jslint-files good.js >&- 2>&- <&-'), (0, '', ''))
    same(room.sh('jslint-files --files-from - <&-'), (2, '', 'jslint-files: standard input: read failed: a folder\n'))
    same(room.sh('jslint-files /dev/stdin good.js <&-'), (2, '/dev/stdin:1:1: read failed: a folder\n', ''))
    same(room.sh('jslint-files --settings /dev/stdin a.js <&-'), (2, '', 'jslint-files: /dev/stdin: read failed: a folder\n'))
    same(room.sh('jslint-files fix --write none.js a.js 2>/dev/full'), unsaid)
    same(room.text('a.js'), FIXED)


def reader_gone(room):
    """A reader that has enough: nothing stays in the temporary folder."""
    os.makedirs(room.path('temporary'))
    for it in range(200):
        room.put(f'{it}.js', WRONG)
    for words in (['fix', '--diff'], [], ['--format', 'json']):
        process = started(room, [*words, *(f'{it}.js' for it in range(200))], TMPDIR=f'{room.folder}/temporary')
        process.stdout.close()
        same((process.wait(), process.stderr.read()), (2, b'jslint-files: write failed\n'), words)
        process.stderr.close()
        same(room.names('temporary'), [])


def standard_input(room):
    """A script and settings that can be read once."""
    room.put('a.js', 'debugger; a;')
    room.put('b.js', 'debugger; a;')
    same(files(room, '/dev/stdin', given=b'debugger;'), (1, '/dev/stdin:1:1: no-debugger debugger statement\n', ''))
    found = (1, 'a.js:1:11: no-undef \'a\' is not defined\nb.js:1:11: no-undef \'a\' is not defined\n', '')
    same(room.sh('printf "[rules]\nno-debugger = false\n" | jslint-files --settings /dev/stdin a.js b.js'), found)
    if shutil.which('bash'):
        same(room.run(['bash', '-c', 'jslint-files --settings <(printf "[rules]\nno-debugger = false\n") a.js b.js']), found)


def settings(room):
    """What is wrong with settings is said once, with their name, and no script is read."""
    for name in ('a.js', 'b.js'):
        room.put(name, WRONG)
    why = ' (line 1): x = 1: there is no such key'
    for name, text, place in [('bad.toml', 'x = 1\n', why), ('-bad.toml', '[', ' at 1:2'), ('line\nfeed.toml', 'globals = 1', ' (line 1): globals = 1: it takes an array')]:
        room.put(name, text)
        shown = name.replace('\n', '\\x0a')
        same(files(room, f'--settings={name}', 'a.js', 'b.js', 'none.js'), (2, '', f'jslint-files: {shown}: bad settings{place}\n'))
    same(files(room, '--settings', 'bad.toml', '--files-from', '-', given=b''), (2, '', f'jslint-files: bad.toml: bad settings{why}\n'))
    same(files(room, '--settings', 'none.toml', 'a.js'), (2, '', 'jslint-files: none.toml: read failed: missing\n'))


# ---- names, patterns, the program

def patterns(room):
    """`**` is folders, not links to some; what is hidden is left out; a pattern without a file is refused."""
    for name in ('a.js', 'src/b.js', 'src/deep/c.js', 'src/deep/two words.js', 'src/.hidden/d.js', '.e.js', 'other/f.js', 'src/[g].js', '-h.js'):
        room.put(name, 'debugger;')
    os.symlink('../other', room.path('src/linked'))
    os.symlink('..', room.path('src/deep/up'))
    os.symlink('loop', room.path('loop'))
    os.symlink('../a.js', room.path('src/z.js'))
    os.symlink('none', room.path('src/y.js'))
    found = lambda *words: [it.split(':')[0] for it in files(room, '--', *words)[1].splitlines()]
    rows = [
        ('**/*.js', ['-h.js', 'a.js', 'other/f.js', 'src/[g].js', 'src/b.js', 'src/deep/c.js', 'src/deep/two words.js', 'src/y.js', 'src/z.js']), ('src/**', ['src/[g].js', 'src/b.js', 'src/deep/c.js', 'src/deep/two words.js', 'src/y.js', 'src/z.js']),
        ('*.js', ['-h.js', 'a.js']), ('.*.js', ['.e.js']), ('src/[g].js', ['src/[g].js']), ('src/[[]g].js', ['src/[g].js']), ('src/?.js', ['src/b.js', 'src/y.js', 'src/z.js']), ('src/linked/*.js', ['src/linked/f.js']), ('./src/*/c.js', ['./src/deep/c.js']),
        (f'{room.folder}/o*/**/f.js', [f'{room.folder}/other/f.js']), ('none/**/*.js', ['none/**/*.js']), ('a.js/*', ['a.js/*']), ('**/deep/../b.js', ['src/deep/../b.js']), ('src/**/**/c.js', ['src/deep/c.js']), ('s[r]c/[!a-y].js', ['src/z.js']),
    ]
    for pattern, wanted in rows:
        same(found(pattern), wanted, pattern)
    same(found('*.js', 'a.js', 'a*'), ['-h.js', 'a.js'])
    # (a pipe that nobody writes to would be waited for)
    os.mkfifo(room.path('pipe.js'))
    os.symlink('/dev/zero', room.path('zero.js'))
    same(found('*.js', '**/z*.js'), ['-h.js', 'a.js', 'src/z.js'])
    same(files(room, 'loop')[1], 'loop:1:1: read failed: links in a circle\n')
    same(files(room, 'src/y.js')[1], 'src/y.js:1:1: read failed: missing\n')


def patterns_deep(room):
    """Deeper than Python's own limit of recursion."""
    at = os.open(room.path('.'), os.O_RDONLY)
    for _ in range(1500):
        os.mkdir('d', dir_fd=at)
        below = os.open('d', os.O_RDONLY, dir_fd=at)
        os.close(at)
        at = below
    os.close(os.open('a.js', os.O_CREAT | os.O_WRONLY, dir_fd=at))
    os.close(at)
    same(files(room, '**/*.js'), (0, '', ''))
    same(files(room, '**/a.j*', 'none.js')[1].count('\n'), 1)
    room.run(['rm', '-rf', 'd'], status=0)


def odd_names(room):
    """Each name is taken as it is, and shown in a line."""
    odd = [b'two words.js', b'line\nfeed.js', b'not\xffutf8.js', b'-h.js', b'--write', b'*.js', b'check', b'a:1:1: b.js', b"'\"$(x)`.js", '\u202e.js'.encode()]
    for command in ('fix', 'unwrap'):
        for name in odd:
            with open(room.path(name), 'wb') as file:
                file.write(WRONG.encode())
        out = files(room, command, '--diff', '--files-from', '-', given=b'\0'.join(odd) + b'\0', status=1)[1]
        same((out.count('\n'), out.count('+++ ')), (5 * len(odd), len(odd)))
        same(files(room, command, '--write', '--files-from', '-', given=b'\0'.join(odd) + b'\0'), (0, '', ''))
        for name in odd:
            with open(room.path(name), 'rb') as file:
                same(file.read(), FIXED.encode(), name)
    same(files(room, '--', *odd)[0], 1)
    same(room.names(), sorted(map(os.fsdecode, odd)))


def which_program(room):
    """JSLINT, or the program beside the command; never one of the PATH."""
    room.put('a.js', 'debugger;')
    room.put('path/jslint', '#!/bin/sh\necho >>ran\n', 0o755)
    room.put('jslint', '#!/bin/sh\necho >>ran\n', 0o755)
    os.makedirs(room.path('alone/tools'))
    for it in ('alone', 'alone/tools'):
        shutil.copy(f'{recipes.BIN}/jslint-files', f'{room.folder}/{it}')
        shutil.copytree(f'{TOP}/tools/jslint_files', f'{room.folder}/{it}/jslint_files')
    path = f'{room.folder}/path:/usr/bin:/bin:{os.path.dirname(recipes.sys.executable)}'
    alone = lambda name, **more: room.run([f'{room.folder}/{name}', 'a.js'], PATH=path, **more)
    why = ': JSLINT in the environment may name the program\n'
    same(alone('alone/jslint-files'), (2, '', f'jslint-files: there is no {os.path.realpath(room.folder)}/alone/jslint{why}'))
    same(alone('alone/tools/jslint-files'), (2, '', f'jslint-files: there is no {os.path.realpath(room.folder)}/alone/tools/jslint{why}'))
    found = (1, 'a.js:1:1: no-debugger debugger statement\n', '')
    same(alone('alone/jslint-files', JSLINT=f'{recipes.BIN}/jslint'), found)
    same(alone('alone/jslint-files', JSLINT=os.path.relpath(f'{recipes.BIN}/jslint', room.folder)), found)
    same(alone('alone/jslint-files', JSLINT='jslint'), (2, '', 'jslint-files: JSLINT in the environment is no path: jslint\n'))
    same(alone('alone/jslint-files', JSLINT='./none'), (2, '', f'jslint-files: there is no {os.path.realpath(room.folder)}/none\n'))
    for it in ('./a.js', './path'):
        same(alone('alone/jslint-files', JSLINT=it), (2, '', f"jslint-files: {os.path.realpath(room.folder)}/{it[2:]} can't be executed\n"))
    os.symlink(f'{recipes.BIN}/jslint-files', room.path('linked'))
    same(alone('linked'), found)
    shutil.copy(f'{recipes.BIN}/jslint', f'{room.folder}/alone')
    same(alone('alone/jslint-files'), found)
    os.symlink('../jslint', room.path('alone/tools/jslint'))
    same(alone('alone/tools/jslint-files'), found)
    room.put('text', 'no program', 0o755)
    same(alone('linked', JSLINT='./text')[:2], (2, 'a.js:1:1: not checked: Exec format error\n'))
    same(room.run(['./linked', '--version'], JSLINT='./text')[:2], (2, ''))
    is_well('ran' not in room.names(), 'a program of the PATH ran')


def version(room):
    wanted = room.run(['jslint', '--version'])
    same([files(room, '--version'), files(room, 'fix', '--version', 'a.js')], [wanted, wanted])
    is_well(wanted[0] == 0 and wanted[1].startswith('jslint '))


# ---- what is written

def changed_meanwhile(room):
    """A script that is another one by the time it would be replaced stays so."""
    changes = [
        ('echo "other" >a.js', 'other\n'), ('printf "let x = (2);\\n" >a.js', 'let x = (2);\n'), ('echo "other" >new; mv new a.js', 'other\n'), (': >a.js', ''), ('printf "let x = (1);\\n\\n" >a.js', 'let x = (1);\n\n'),
    ]
    for change, wanted in changes:
        for command in ('fix', 'unwrap'):
            room.put('a.js', WRONG)
            how = program(room, f'"$JSLINT_REAL" "$@"; ended=$?; {change}; exit $ended')
            same(files(room, command, '--write', 'a.js', **how), (2, '', 'a.js:1:1: not rewritten: it changed meanwhile\n'), change)
            same((room.text('a.js'), room.names()), (wanted, ['a.js', 'program']), change)
    room.put('b.js', WRONG)
    room.put('a.js', WRONG)
    how = program(room, '"$JSLINT_REAL" "$@"; ended=$?; ln -sf b.js a.js; exit $ended')
    same(files(room, 'fix', '--write', 'a.js', **how)[2], 'a.js:1:1: not rewritten: it changed meanwhile\n')
    is_well(os.path.islink(room.path('a.js')) and room.text('b.js') == WRONG)


def kept(room):
    """Mode, attributes, links; a file of two names is rewritten once. The new file is another one: a hard link keeps the old text."""
    room.put('a.js', WRONG, 0o4751)
    os.link(room.path('a.js'), room.path('hard.js'))
    os.symlink('a.js', room.path('link.js'))
    os.symlink('link.js', room.path('second.js'))
    try:
        os.setxattr(room.path('a.js'), 'user.note', b'kept')
        has_attributes = True
    except OSError:
        has_attributes = False
    same(files(room, 'fix', '--write', '--jobs', '4', 'second.js', 'link.js', 'a.js', './a.js'), (0, '', ''))
    same((room.text('a.js'), stat.S_IMODE(os.stat(room.path('a.js')).st_mode), os.readlink(room.path('second.js'))), (FIXED, 0o4751, b'link.js'))
    is_well(not has_attributes or os.getxattr(room.path('a.js'), 'user.note') == b'kept')
    same((room.names(), room.text('hard.js')), (['a.js', 'hard.js', 'link.js', 'second.js'], WRONG))


def too_little_room(room):
    """A disk that is full, as far as a limit on files is one."""
    room.put('a.js', '(a);' * 2000)
    text = room.text('a.js')
    for words in ('fix --write', 'unwrap --write', 'fix --diff'):
        status, out, err = room.sh(f'ulimit -f 2; jslint-files {words} a.js', TMPDIR=room.folder)
        is_well((status, out) == (2, '') and err.startswith('a.js:1:1: ') and err.count('\n') == 1, f'{words} {status} {out} {err}')
        same((room.text('a.js'), room.names()), (text, ['a.js']))
    same(files(room, 'fix', '--diff', 'a.js', TMPDIR=f'{room.folder}/none')[0], 1)


def as_nobody(room, words):
    """What a command gives for a user whom modes bind."""
    how = {'cwd': room.folder, 'stdin': subprocess.DEVNULL, 'stdout': subprocess.PIPE, 'stderr': subprocess.PIPE}
    how['env'] = {'PATH': f'{room.folder}/installed/bin:/usr/bin:/bin', 'HOME': room.folder, 'LC_ALL': 'C.UTF-8'}
    if os.geteuid() == 0:
        one = pwd.getpwnam('nobody')
        how.update({'user': one.pw_uid, 'group': one.pw_gid, 'extra_groups': []})
    ran = subprocess.run(words, **how)
    return ran.returncode, ran.stdout.decode(), ran.stderr.decode()


def unpermitted(room):
    """Files and folders that may not be read or written."""
    for it in (os.path.dirname(room.folder), room.folder):
        os.chmod(it, 0o755)
    recipes.install(f'{room.folder}/installed')
    for name, mode in [('a.js', 0o644), ('readonly.js', 0o444), ('secret.js', 0), ('closed/b.js', 0o644), ('open/c.js', 0o666), ('fixed/d.js', 0o666), ('s.toml', 0)]:
        room.put(name, WRONG, mode)
    if os.geteuid() == 0:
        one = pwd.getpwnam('nobody')
        for it in ('.', 'closed', 'open', 'a.js', 'readonly.js', 'secret.js', 's.toml'):
            os.chown(room.path(it), one.pw_uid, one.pw_gid)
    os.chmod(room.path('closed'), 0)
    os.chmod(room.path('fixed'), 0o555)
    try:
        if as_nobody(room, ['jslint-files', '--version'])[0]:
            raise Skipped('nobody can run neither python3 nor the program here')
        names = names_below(room)
        call = lambda *words: as_nobody(room, ['jslint-files', *words])
        same(call('secret.js', 'closed/b.js', 'closed'), (2, ''.join(f'{it}:1:1: read failed: not permitted\n' for it in ('secret.js', 'closed/b.js', 'closed')), ''))
        same(call('--settings', 's.toml', 'a.js'), (2, '', 'jslint-files: s.toml: read failed: not permitted\n'))
        lines = call('**/*.js')[1].splitlines()
        same([it for it in lines if 'not permitted' in it], [f'{it}:1:1: read failed: not permitted' for it in ('closed', 'secret.js')])
        same([it.split(':')[0] for it in lines if ': no-' in it], [it for it in ('a.js', 'fixed/d.js', 'open/c.js', 'readonly.js') for _ in range(2)])
        said = 'fixed/d.js:1:1: not rewritten: Permission denied\nreadonly.js:1:1: not rewritten: Permission denied\nsecret.js:1:1: read failed: not permitted\nclosed/b.js:1:1: read failed: not permitted\n'
        same(call('fix', '--write', 'fixed/d.js', 'readonly.js', 'secret.js', 'closed/b.js', 'open/c.js', 'a.js'), (2, '', said))
        same([room.text(it) for it in ('a.js', 'open/c.js')], [FIXED] * 2)
        os.chmod(room.path('closed'), 0o755)
        same([room.text(it) for it in ('fixed/d.js', 'readonly.js', 'secret.js', 'closed/b.js')], [WRONG] * 4)
        is_well(set(names) <= set(names_below(room)) and not any('.jslint-' in os.fsdecode(it) for it in names_below(room)))
    finally:
        os.chmod(room.path('closed'), 0o755)
        os.chmod(room.path('fixed'), 0o755)


# ---- interruptions

def started(room, words, **more):
    """A call that runs, with pipes."""
    env = {'PATH': f'{recipes.BIN}:/usr/bin:/bin:{os.path.dirname(recipes.sys.executable)}', 'HOME': room.folder, 'LC_ALL': 'C.UTF-8', **more}
    # (a shell's background and nohup have some ignored)
    ready = lambda: [signal.signal(it, signal.SIG_DFL) for it in ENDING]
    return subprocess.Popen(['jslint-files', *words], cwd=room.folder, stdin=subprocess.DEVNULL, stdout=subprocess.PIPE, stderr=subprocess.PIPE, env=env, preexec_fn=ready)


def ended(process):
    """Both streams of a call that ends; one that hangs is killed."""
    try:
        return process.communicate(timeout=300)
    except subprocess.TimeoutExpired:
        process.kill()
        raise


def until(holds):
    for _ in range(1200):
        if holds():
            return
        time.sleep(0.05)
    raise AssertionError('it does not come')


def is_running(number):
    try:
        with open(f'/proc/{number}/stat', encoding='utf-8') as file:
            return file.read().rsplit(')', 1)[1].split()[0] not in 'ZX'
    except OSError:
        return False


def interrupted(room):
    """Nothing is left behind, neither a file nor a program that runs; no script is half written; the status is the signal's."""
    names = [f'{it}.js' for it in range(6)]
    os.makedirs(room.path('temporary'))
    for number in ENDING:
        for words in ('fix --write', 'unwrap --write', 'fix --diff', 'check'):
            for it in names:
                room.put(it, WRONG)
            room.put('begun', '')
            how = program(room, 'cat >/dev/null; printf "let x"; echo $$ >>begun; exec sleep 600')
            known = names_below(room)
            process = started(room, [*words.split(), '--jobs', '2', *names], TMPDIR=f'{room.folder}/temporary', **how)
            until(lambda: room.text('begun').count('\n') == 2)
            is_well((len(names_below(room)) > len(known)) == (words != 'check'), 'there is no new file to be left')
            process.send_signal(number)
            out, err = ended(process)
            same((process.returncode, out, err, names_below(room)), (-number, b'', b'', known), f'{words} {number}')
            same([room.text(it) for it in names], [WRONG] * 6)
            until(lambda: not any(is_running(it) for it in room.text('begun').split()))


def interrupted_anywhere(room):
    """However far it was: each script is the old one or the new one."""
    names = [f'{it}.js' for it in range(40)]
    for stop in range(1, 40, 6):
        for it in names:
            room.put(it, WRONG)
        room.put('begun', '')
        how = program(room, 'echo >>begun; exec "$JSLINT_REAL" "$@"')
        known = names_below(room)
        process = started(room, ['fix', '--write', '--jobs', '3', *names], **how)
        until(lambda: room.text('begun').count('\n') >= stop)
        process.terminate()
        ended(process)
        is_well(process.returncode in (-signal.SIGTERM, 0), process.returncode)
        same(names_below(room), known)
        is_well(all(room.text(it) in (WRONG, FIXED) for it in names))


def broken_pipe_signal(room):
    """The signal of a broken pipe, without one, ends nothing half way."""
    for it in range(4):
        room.put(f'{it}.js', WRONG)
    room.put('begun', '')
    how = program(room, 'echo >>begun; until [ -e go ]; do sleep 0.05; done; exec "$JSLINT_REAL" "$@"')
    process = started(room, ['fix', '--write', '--jobs', '2', *(f'{it}.js' for it in range(4))], **how)
    until(lambda: room.text('begun').count('\n') == 2)
    process.send_signal(signal.SIGPIPE)
    room.put('go', '')
    same((*ended(process), process.returncode), (b'', b'', 0))
    same([room.text(f'{it}.js') for it in range(4)], [FIXED] * 4)
    same(room.names(), ['0.js', '1.js', '2.js', '3.js', 'begun', 'go', 'program'])


TESTS = [
    eslint_rows, eslint_names, comments, comments_first, line_ends, line_ends_longer, streams, reader_gone, standard_input, settings, patterns, patterns_deep, odd_names,
    which_program, version, changed_meanwhile, kept, too_little_room, unpermitted, interrupted, interrupted_anywhere, broken_pipe_signal,
]
