"""`jslint check --list`: the files of a list by one call of the program, with whatever may stand in a list or be in its way.

Each test is a function that raises where something is wrong, and libraries.Skipped where it can't be tried. Its argument is a room: a folder of its
own, in which it works.
"""
import os
import signal
import subprocess

import recipes
from files import ENDING, ended
from recipes import is_well, same

BUG, FINE, BROKEN = 'debugger;\n', 'f();\nfunction f() {}\n', 'let = ;\n'
FOUND = '1:1 no-debugger debugger statement\n'


def zeros(*names):
    """A list of these names, each ended by a zero byte."""
    return b''.join(os.fsencode(it) + b'\0' for it in names)


def check(room, *names, words=(), **more):
    """What `check` says of a list on standard input."""
    return room.run(['jslint', 'check', '--list', *words, '-'], given=zeros(*names), **more)


def scripts(room):
    for name, text in (('bug.js', BUG), ('fine.js', FINE), ('refused.js', BROKEN)):
        room.put(name, text)


def each_alone(room):
    """Each file is told of as if it were alone, in the order of the list: of one that is named twice, twice."""
    scripts(room)
    same(check(room), (0, '', ''))
    same(check(room, 'fine.js'), (0, '', ''))
    same(check(room, 'bug.js', 'fine.js', 'bug.js'), (1, f'bug.js:{FOUND}' * 2, ''))
    room.put('two.js', 'debugger;\n{}\n')
    for name in ('bug.js', 'fine.js', 'two.js', 'refused.js'):
        for words in ((), ('--spans',), ('--module',), ('--any',), ('--edition', '2022'), ('--edition', '2020', '--spans')):
            status, out, err = room.run(['jslint', 'check', *words, name])
            named = ''.join(f'{name}:{it}\n' for it in out.splitlines())
            same(check(room, name, words=words), (status, named, err.replace('jslint: ', f'jslint: {name}: ')), f'{name} {words}')
    room.put('list', 'bug.js\0two.js\0')
    same(room.sh('jslint check --list list'), check(room, 'bug.js', 'two.js'))


def nothing_stops(room):
    """What is refused or can't be read has a line with its name, and the files behind it are told of all the same."""
    scripts(room)
    os.makedirs(room.path('folder'))
    os.symlink('circle', room.path('circle'))
    said = ['jslint: read failed: none.js: missing', 'jslint: refused.js: syntax error at 1:5', 'jslint: read failed: folder: a folder',
            'jslint: read failed: circle: links in a circle', 'jslint: read failed: -: standard input in a list', 'jslint: read failed: : missing']
    names = ['bug.js', 'none.js', 'bug.js', 'refused.js', 'folder', 'circle', 'bug.js', '-', '', 'bug.js']
    same(check(room, *names), (2, f'bug.js:{FOUND}' * 4, ''.join(f'{it}\n' for it in said)))
    room.put('bytes.js', '')
    with open(room.path('bytes.js'), 'wb') as file:
        file.write(b'a;\xff')
    with open(room.path('long.js'), 'wb') as file:
        file.truncate((1 << 24) + 1)
    said = 'jslint: bytes.js: not UTF-8 at byte 2\njslint: long.js: longer than 16777216 bytes\n'
    same(check(room, 'bytes.js', 'long.js', 'bug.js'), (2, f'bug.js:{FOUND}', said))


def odd_names(room):
    """A line feed, what a terminal obeys, and bytes that aren't UTF-8 are escaped; a name may begin with `-`."""
    shown = {b'line\nfeed.js': 'line\\x0afeed.js', b'-h.js': '-h.js', b'a b.js': 'a b.js', b'\x1b[2J.js': '\\x1b[2J.js', '\u202e.js'.encode(): '\\u{202e}.js', '\u00e9.js'.encode(): '\u00e9.js'}
    for name in shown:
        with open(room.path(name), 'wb') as file:
            file.write(BUG.encode())
    same(check(room, *shown), (1, ''.join(f'{it}:{FOUND}' for it in shown.values()), ''))
    missing = [it + b'.none' for it in shown]
    same(check(room, *missing), (2, '', ''.join(f'jslint: read failed: {it}.none: missing\n' for it in shown.values())))
    bad = b'caf\xe9 \xc3\xa9\n\x7f~.js'
    with open(room.path(bad), 'wb') as file:
        file.write(BUG.encode())
    same(check(room, bad, '-h.js'), (2, f'-h.js:{FOUND}', 'jslint: read failed: caf\\xe9 \\xc3\\xa9\\x0a\\x7f~.js: the name is not UTF-8\n'))


def last_name(room):
    """The last name may lack its zero byte."""
    scripts(room)
    same(room.sh("printf 'fine.js\\0bug.js' | jslint check --list -"), (1, f'bug.js:{FOUND}', ''))
    same(room.sh("printf 'bug.js' | jslint check --list -"), (1, f'bug.js:{FOUND}', ''))
    same(room.sh("printf 'bug.js\\n' | jslint check --list -"), (2, '', 'jslint: read failed: bug.js\\x0a: missing\n'))


def settings(room):
    """Settings hold for each file, are read once, and refused once; a list and settings can't both be standard input."""
    scripts(room)
    room.put('s.toml', '[rules]\nno-debugger = false\n')
    room.put('bad.toml', 'x = 1\n')
    same(check(room, 'bug.js', 'bug.js', words=('--settings', 's.toml')), (0, '', ''))
    same(check(room, 'bug.js', 'bug.js', words=('--settings', 'bad.toml')), (2, '', 'jslint: bad settings\n'))
    room.put('bad.toml', '\n= 1\n')
    same(check(room, 'bug.js', 'bug.js', words=('--settings', 'bad.toml')), (2, '', 'jslint: bad settings at 2:1\n'))
    same(check(room, 'bug.js', words=('--settings', 'none.toml')), (2, '', 'jslint: read failed: none.toml: missing\n'))
    same(check(room, 'bug.js', words=('--settings', '-')), (2, '', 'jslint: read failed: -: both files are standard input\n'))
    room.put('list', 'bug.js\0bug.js')
    same(room.sh('jslint check --list list --settings - <s.toml'), (0, '', ''))


def languages(room):
    """With `--any` each file of a list is read in its own language; where none takes it, the line says which one got furthest."""
    for name, text in (('base.js', 'await (1);\n'), ('later.js', 'async () => (1);\n'), ('module.js', 'export {};\ndebugger;\n'), ('none.js', 'export {}; a b\n')):
        room.put(name, text)
    lines = "base.js:1:1 no-undef 'await' is not defined\nlater.js:1:13 no-extra-parens unnecessary parentheses\nmodule.js:2:1 no-debugger debugger statement\n"
    same(check(room, 'base.js', 'later.js', 'module.js', 'none.js', words=('--any',)), (2, lines, 'jslint: none.js: syntax error at 1:14 (as a module)\n'))
    for words in ('--any --module', '--any --edition 2022', '--edition 2019 --any'):
        same(room.sh(f'jslint check --list {words} none'), (2, '', "jslint: --any doesn't go with --edition or --module\n"))


def no_list(room):
    """A list that can't be read, or is too long, and words that make no sense beside `--list`."""
    scripts(room)
    same(room.sh('jslint check --list none'), (2, '', 'jslint: read failed: none: missing\n'))
    same(room.sh('jslint check --list .'), (2, '', 'jslint: read failed: .: a folder\n'))
    same(room.sh('jslint check --list - <&-'), (2, '', 'jslint: read failed: -\n'))
    same(room.sh('head -c 16777217 /dev/zero | jslint check --list -'), (2, '', 'jslint: longer than 16777216 bytes\n'))
    same(room.sh('jslint check --list --module --edition 2020 none')[1:], ('', "jslint: --module doesn't go with --edition 2020\n"))
    for words in ('check --list', 'fix --list bug.js', 'tree --list bug.js', 'same --list bug.js bug.js', 'check --list=yes bug.js', 'check --list --list bug.js', 'check --list bug.js bug.js'):
        status, out, err = room.sh(f'jslint {words}')
        same((status, out), (2, ''), words)
        is_well(err.startswith('error: '), err)


def very_many(room):
    """100,000 names in one call, which takes no more memory for them than for their list."""
    scripts(room)
    names = ['fine.js', 'bug.js', 'none.js', 'fine.js'] * 25_000
    status, out, err = check(room, *names)
    same((status, out == f'bug.js:{FOUND}' * 25_000, err == 'jslint: read failed: none.js: missing\n' * 25_000), (2, True, True))
    with open(room.path('list'), 'wb') as file:
        file.write(zeros(*names))
    same(room.sh('ulimit -v 40000; jslint check --list list >/dev/null 2>&1')[0], 2)


def failed_writes(room):
    """Where standard output fails, what is there is a beginning of the whole, and no more files are looked at; where standard error fails, nothing stops."""
    scripts(room)
    room.put('list', 'bug.js\0' * 1000 + 'none.js\0bug.js\0')
    same(room.sh('jslint check --list list >/dev/full'), (2, '', 'jslint: write failed\n'))
    same(room.sh('jslint check --list list >&-'), (2, '', 'jslint: write failed\n'))
    same(room.sh('jslint check --list list >/dev/full 2>/dev/full'), (2, '', ''))
    whole = f'bug.js:{FOUND}' * 1001
    same(room.sh('jslint check --list list 2>/dev/full'), (2, whole, ''))
    same(room.sh('jslint check --list list 2>&-'), (2, whole, ''))
    # (a file of at most 1 KiB or so takes a beginning)
    same(room.sh('ulimit -f 8; trap "" XFSZ; jslint check --list list >some'), (2, '', 'jslint: write failed\n'))
    is_well(0 < len(room.text('some')) < len(whole) and whole.startswith(room.text('some')), 'no beginning')
    room.put('list', 'bug.js\0' * 20_000)
    same(room.sh('{ jslint check --list list; echo $? >status; } | head -n 1'), (0, f'bug.js:{FOUND}', 'jslint: write failed\n'))
    same(room.text('status'), '2\n')


def interrupted(room):
    """A signal ends the call, and what it wrote is a beginning of the whole."""
    scripts(room)
    os.mkfifo(room.path('waits.js'))
    room.put('list', 'bug.js\0bug.js\0waits.js\0bug.js\0')
    ready = lambda: [signal.signal(it, signal.SIG_DFL) for it in ENDING]
    for number in ENDING:
        process = subprocess.Popen([f'{recipes.BIN}/jslint', 'check', '--list', 'list'], cwd=room.folder, stdin=subprocess.DEVNULL, stdout=subprocess.PIPE, stderr=subprocess.PIPE, preexec_fn=ready)
        written = b''
        while written.count(b'\n') < 2:
            written += os.read(process.stdout.fileno(), 1 << 16)
        process.send_signal(number)
        out, err = ended(process)
        same((process.returncode, err), (-number, b''), number)
        same(written + out, f'bug.js:{FOUND}'.encode() * 2)


def changed_meanwhile(room):
    """A file that goes, or grows, while the list is gone through is told of as it is when its turn comes."""
    scripts(room)
    os.mkfifo(room.path('waits.js'))
    room.put('list', 'waits.js\0gone.js\0grown.js\0')
    room.put('gone.js', BUG)
    room.put('grown.js', FINE)
    process = subprocess.Popen([f'{recipes.BIN}/jslint', 'check', '--list', 'list'], cwd=room.folder, stdin=subprocess.DEVNULL, stdout=subprocess.PIPE, stderr=subprocess.PIPE)
    with open(room.path('waits.js'), 'wb') as file:
        os.remove(room.path('gone.js'))
        room.put('grown.js', BUG)
        file.write(BUG.encode())
    out, err = ended(process)
    same((process.returncode, out.decode(), err.decode()), (2, f'waits.js:{FOUND}grown.js:{FOUND}', 'jslint: read failed: gone.js: missing\n'))


TESTS = [each_alone, nothing_stops, odd_names, last_name, settings, languages, no_list, very_many, failed_writes, interrupted, changed_meanwhile]
