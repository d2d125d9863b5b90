"""The recipes of docs/USAGE.md as they stand in the page, its examples, and what `jslint-files` answers, with the program as `make install` puts it.

Each test is a function that raises where something is wrong. Its argument is a room: a folder of its own, in which it works.
"""
import contextlib
import json
import os
import re
import shutil
import signal
import stat
import subprocess
import sys
import time

TOP = os.path.dirname(os.path.dirname(os.path.dirname(os.path.realpath(__file__))))
with open(f'{TOP}/docs/USAGE.md', encoding='utf-8') as page:
    PAGE = page.read()
WRONG = 'let x = (1);\n'
RIGHT = '"use strict";\n'
REFUSED = 'a +\n;\n'
# A script with what only `fix` changes, and what `unwrap` makes of it.
KEPT, UNWRAPPED = '// kept\nlet x = (1) /* too */\n', '// kept\nlet x = 1 /* too */\n'
FOUND = ["1:5 no-unused-vars 'x' is never read", "1:5 prefer-const 'x' is never reassigned", '1:9 no-extra-parens unnecessary parentheses']
# Where `make install` put the program.
BIN = None


def install(folder):
    """What `make install` puts into a folder."""
    ran = subprocess.run(['make', '-s', 'install', f'PREFIX={folder}'], cwd=TOP, stdout=subprocess.PIPE, stderr=subprocess.STDOUT, text=True)
    is_well(ran.returncode == 0, ran.stdout)


def begin(room):
    global BIN
    install(f'{room}/installed')
    BIN = f'{room}/installed/bin'


def blocks(heading):
    """The code blocks of a recipe: their languages and texts."""
    at = PAGE.index(f'\n### {heading}\n')
    section = re.split(r'\n##+ ', PAGE[at + 1:], maxsplit=1)[0] if at < 0 else PAGE[at + 1:]
    section = section[:(re.search(r'\n##+ ', section[4:]) or re.search(r'\Z', section[4:])).start() + 4]
    return re.findall(r'^```(\w*)\n(.*?)^```$', section, re.M | re.S)


def block(heading, language, number=0):
    return [text for it, text in blocks(heading) if it == language][number]


class Room:
    """A folder of its own, in which a test works."""

    def __init__(self, folder):
        self.folder = folder
        os.makedirs(folder)

    def path(self, name):
        return os.path.join(os.fsencode(self.folder), os.fsencode(name))

    def put(self, name, text, mode=None):
        os.makedirs(os.path.dirname(self.path(name)), exist_ok=True)
        with open(self.path(name), 'wb') as file:
            file.write(text.encode())
        if mode is not None:
            os.chmod(self.path(name), mode)

    def text(self, name):
        with open(self.path(name), 'rb') as file:
            return file.read().decode()

    def names(self, below='.'):
        return sorted(os.fsdecode(it) for it in os.listdir(self.path(below)))

    def run(self, words, given=None, status=None, at='.', **more):
        """The status and both streams of a command, which ends with this status if one is named."""
        path = os.pathsep.join([BIN, '/usr/bin', '/bin', os.path.dirname(sys.executable)])
        who = {f'GIT_{it}_{what}': 'nobody@example.org' for it in ('AUTHOR', 'COMMITTER') for what in ('NAME', 'EMAIL')}
        env = {'PATH': path, 'HOME': self.folder, 'LC_ALL': 'C.UTF-8', 'GIT_CONFIG_NOSYSTEM': '1', 'GIT_CONFIG_GLOBAL': '/dev/null', **who, **more}
        how = {'cwd': self.path(at), 'stdout': subprocess.PIPE, 'stderr': subprocess.PIPE, 'env': env}
        how.update({'input': given} if given is not None else {'stdin': subprocess.DEVNULL})
        ran = subprocess.run(words, **how)
        out, err = ran.stdout.decode(errors='surrogateescape'), ran.stderr.decode(errors='surrogateescape')
        is_well(status is None or ran.returncode == status, f'{words}: status {ran.returncode}: {out}{err}')
        return ran.returncode, out, err

    def sh(self, text, status=None, **more):
        return self.run(['sh', '-c', text], status=status, **more)

    def git(self, *words, status=0):
        return self.run(['git', *words], status=status)[1]


def is_well(holds, told=''):
    if not holds:
        raise AssertionError(told)


def same(found, wanted, told=''):
    is_well(found == wanted, f'{told} {found!r} where {wanted!r} is wanted')


def examples_of(page, room):
    """Each command of a page that stands behind a `$`, and what it prints, or how that begins where it ends in two dots."""
    for text in re.findall(r'^```\n(\$ .*?)^```$', page, re.M | re.S):
        for command, wanted in re.findall(r'^\$ (.*)\n((?:(?!\$ ).*\n)*)', text, re.M):
            name = re.fullmatch(r'cat (\S+)', command)
            if name:
                room.put(name[1], wanted.rstrip('\n') + '\n')
                continue
            _, out, err = room.sh(command)
            found, wanted = (out + err).rstrip('\n'), wanted.rstrip('\n')
            is_well(found.startswith(wanted[:-2].rstrip(' ')) if wanted.endswith(' ..') else found == wanted, f'{command}: {found!r} where {wanted!r} is wanted')


def examples(room):
    examples_of(PAGE, room)


# The languages of the code blocks of each recipe, all of which a test tries: here, in many.py, or in language_server.py (Vim).
TRIED = {
    'Standard input': ['sh'], 'In place': ['sh'], 'A folder': ['sh'], 'Many files': ['', 'sh', '', '', '', 'sh'], 'A project': ['sh'], 'A git hook': ['sh', 'sh'], 'make': ['make'],
    'GitHub Actions': ['yaml'], 'Vim': ['vim', 'vim', 'vim'], 'Emacs': [], 'VS Code': ['json'],
}


def each_is_tried(_):
    """A recipe that comes anew needs a test, and its place above."""
    same({it: [language for language, _ in blocks(it)] for it in re.findall('^### (.*)$', PAGE.partition('\n## Recipes\n')[2], re.M)}, TRIED)


def each_has_project(_):
    """No recipe calls `jslint-files` without --project: it would read modules as scripts, and look at ignored files."""
    page = PAGE.partition('\n## Recipes\n')[2]
    calls = re.findall(r'jslint-files(?:\\ |"|[^`\n|])*', ''.join(text for language, text in re.findall(r'^```(\w+)\n(.*?)^```$', page, re.M | re.S)))
    calls += re.findall(r'`M-[x!] [^`]*(jslint-files[^`]*)`', page)
    is_well(len(calls) > 14, calls)
    same([it for it in calls if '--project' not in it], [])


def readme_examples(room):
    os.symlink(f'{BIN}/jslint', room.path('jslint'))
    with open(f'{TOP}/README.md', encoding='utf-8') as file:
        examples_of(file.read(), room)


def standard_input(room):
    room.git('init', '-q')
    room.put('a.js', WRONG)
    room.git('add', 'a.js')
    room.git('commit', '-q', '-m', 'a')
    room.put('a.js', RIGHT)
    same(room.sh(block('Standard input', 'sh')), (0, ''.join(f'{it}\n' for it in [*FOUND, 'not only the layout changed']), ''))
    room.put('a.js', 'let x = 1; // b\n')
    same(room.sh(block('Standard input', 'sh')), (0, ''.join(f'{it}\n' for it in FOUND), ''))


def in_place(room):
    """Fixes; keeps the mode; follows a link; leaves what is refused; nothing stays beside it."""
    text = block('In place', 'sh')
    room.put('a.js', WRONG, 0o754)
    room.put('bad.js', REFUSED)
    room.put('-h.js', WRONG)
    room.put('my file.js', WRONG)
    os.makedirs(room.path('below'))
    os.symlink('../a.js', room.path('below/link.js'))
    names = room.names()
    room.sh(text, status=0)
    same((room.text('a.js'), stat.S_IMODE(os.stat(room.path('a.js')).st_mode)), ('let x = 1;\n', 0o754))
    for name in ('-h.js', "'my file.js'", 'below/link.js'):
        room.put('a.js', WRONG)
        room.sh(text.replace('fix_in_place a.js', f'fix_in_place {name}'), status=0)
        same(room.text(name.strip("'")), 'let x = 1;\n', name)
    is_well(os.path.islink(room.path('below/link.js')), 'the link is gone')
    same(room.sh(text.replace('fix_in_place a.js', 'fix_in_place bad.js'))[::2], (2, 'jslint: syntax error at 2:1\n'))
    same((room.text('bad.js'), room.names()), (REFUSED, names))


# What stands in the place of a command while the function runs, and the status of the function then.
FAILING = [('jslint', 'echo x; exit 2', 2), ('cp', 'exit 1', 1), ('sed', 'echo x; exit 4', 4), ('mv', 'exit 1', 1), ('mkdir', 'exit 1', 1), ('readlink', 'exit 1', 1)]


def in_place_endings(room):
    """Where a command fails, the disk is full, or a signal comes while any of the commands runs: nothing stays beside the file, which is as it was."""
    text, wrong = block('In place', 'sh'), WRONG.replace('\n', '\r\n')
    room.put('a.js', wrong, 0o640)
    path = f'{room.folder}/stubs:{BIN}:/usr/bin:/bin'

    def holds(told, content=wrong):
        same((room.text('a.js'), room.names(), stat.S_IMODE(os.stat(room.path('a.js')).st_mode)), (content, ['a.js', 'stubs'], 0o640), told)
        room.put('a.js', wrong)

    for name, says, status in FAILING:
        room.put(f'stubs/{name}', f'#!/bin/sh\n{says}\n', 0o755)
        same(room.sh(text, PATH=path)[0], status, name)
        holds(name)
        for number in (signal.SIGHUP, signal.SIGINT, signal.SIGQUIT, signal.SIGTERM):
            room.put(f'stubs/{name}', f'#!/bin/sh\nPATH={BIN}:/usr/bin:/bin\n{name} "$@"\necho begun >>stubs/begun\nexec sleep 60\n', 0o755)
            ended = interrupted(room, text, path, number)
            is_well(ended in (130, -number), f'{name} {number}: status {ended}')
            os.remove(room.path('stubs/begun'))
            holds(f'{name} {number}', 'let x = 1;\r\n' if name == 'mv' else wrong)
        os.remove(room.path(f'stubs/{name}'))
    is_well(room.sh(f'ulimit -f 0; {text}', PATH=path)[0] != 0)
    holds('full')
    # (one that another start works in isn't taken away)
    room.put('stubs/mkdir', '#!/bin/sh\n/bin/mkdir "$@" && exec /bin/mkdir "$@"\n', 0o755)
    same(room.sh(text, PATH=path)[0], 1)
    same(len(room.names()), 3)


def interrupted(room, text, path, number):
    """The status of a shell whose whole group gets a signal when the stand-in of a command has begun: as at a terminal."""
    how = {'cwd': room.folder, 'env': {'PATH': path, 'LC_ALL': 'C.UTF-8'}, 'stdin': subprocess.DEVNULL, 'stdout': subprocess.DEVNULL, 'stderr': subprocess.DEVNULL}
    # (what a shell starts with `&` ignores some signals, and a shell that ignores one can't trap it)
    heed = lambda: [signal.signal(it, signal.SIG_DFL) for it in (signal.SIGHUP, signal.SIGINT, signal.SIGQUIT, signal.SIGTERM)]
    shell = subprocess.Popen(['sh', '-c', text], start_new_session=True, preexec_fn=heed, **how)
    while shell.poll() is None and not os.path.exists(room.path('stubs/begun')):
        time.sleep(0.02)
    os.killpg(shell.pid, number)
    status = shell.wait()
    # (the function is a shell of its own, which tidies up)
    with contextlib.suppress(ProcessLookupError):
        for _ in range(1000):
            os.killpg(shell.pid, 0)
            time.sleep(0.02)
    return status


def with_cr(room):
    room.put('cr.js', 'let a = `x\r\ny\r\r\nz`,\r\n b = "p\\\r\nq";\r\n')
    tree = room.run(['jslint', 'tree', '--', 'cr.js'], status=0)[1]
    room.sh(block('In place', 'sh').replace('fix_in_place a.js', 'fix_in_place cr.js'), status=0)
    found = room.text('cr.js')
    is_well(re.fullmatch(r'(?:[^\n]*\r\n)+', found), repr(found))
    values = [re.findall(r'"cooked":"[^"]*"|"value":"[^"]*"', it) for it in (tree, room.run(['jslint', 'tree', '--', 'cr.js'], status=0)[1])]
    same(values[0], values[1])


def folder(room):
    text = block('A folder', 'sh')
    good = ['src/a.js', 'src/deep/-h.js', 'src/deep/two words.js', 'src/deep/line\nfeed.js']
    for name in good:
        room.put(name, WRONG, 0o640)
    room.sh(text, status=0)
    for name in good:
        same((room.text(name), stat.S_IMODE(os.stat(room.path(name)).st_mode)), ('let x = 1;\n', 0o640), name)
    room.put('src/a.js', 'let x = `(\r\n`;\r\n')
    room.sh(text, status=0)
    same(room.text('src/a.js'), 'let x = `(\r\n`;\r\n')
    room.put('src/bad\n::error::x.js', REFUSED)
    room.put('src/a.js', WRONG)
    status, _, err = room.sh(text)
    is_well(status == 2 and err == 'src/bad\\x0a::error::x.js:2:1: syntax error\n', f'{status} {err!r}')
    same((room.text('src/bad\n::error::x.js'), room.text('src/a.js'), room.names('src')), (REFUSED, 'let x = 1;\n', ['a.js', 'bad\n::error::x.js', 'deep']))
    put_modules(room, 'src/')
    os.unlink(room.path('src/bad\n::error::x.js'))
    same(room.sh(text), (0, '', ''))
    same_modules(room, 'src/')


# Scripts of each language, by names, and what is left of them by `unwrap` and `fix`; one that is ignored stays as it is.
MODULES = {'m.js': ('export default (1);\n', 'export default 1;\n'), 'n.mjs': ('import "a"; (1);\n', 'import "a"; 1;\n'),
           'o.cjs': ('globalThis.a = (async () => 1);\n', 'globalThis.a = async () => 1;\n'), 'vendor/p.js': ('(1);\n', '(1);\n')}


def put_modules(room, folder):
    for name, (text, _) in MODULES.items():
        room.put(f'{folder}{name}', text)
    room.put('.jslintignore', 'vendor\n')


def same_modules(room, folder, is_changed=True):
    """Whether each module was rewritten, and what is ignored not. (`fix` writes a statement a line)"""
    flat = lambda it: it.replace('; ', ';\n')
    same({it: flat(room.text(f'{folder}{it}')) for it in MODULES}, {it: flat(texts[is_changed]) for it, texts in MODULES.items()})


def many_files(room):
    room.git('init', '-q')
    for name in ('src/a.js', 'src/deep/b.js', 'c.js'):
        room.put(name, WRONG)
    room.git('add', '.')
    _, out, err = room.sh(block('Many files', 'sh'))
    lines = out.splitlines()
    same(lines[:-1], [f'{name}:{it.replace(" ", ": ", 1)}' for name in ('src/a.js', 'src/deep/b.js') for it in FOUND])
    found = json.loads(lines[-1])
    same([it['filePath'] for it in found], [os.path.realpath(f'{room.folder}/{it}') for it in ('c.js', 'src/a.js', 'src/deep/b.js')])
    same(found[0]['messages'][2], {'ruleId': 'no-extra-parens', 'severity': 2, 'message': 'unnecessary parentheses', 'line': 1, 'column': 9})
    same(err, '')
    room.put('src/deep/b.js', KEPT)
    same(room.sh(block('Many files', 'sh', 1)), (0, '', ''))
    same([room.text(it) for it in ('src/a.js', 'src/deep/b.js', 'c.js')], ['let x = 1;\n', UNWRAPPED, WRONG])
    put_modules(room, 'src/')
    room.git('add', '-f', '.')
    _, out, err = room.sh(block('Many files', 'sh'))
    *lines, last = out.splitlines()
    same(([it for it in lines if '/m.js' in it or 'vendor' in it], err), (['src/m.js:1:16: no-extra-parens unnecessary parentheses'], ''))
    found = {os.path.basename(it['filePath']): [each['ruleId'] for each in it['messages']] for it in json.loads(last)}
    same([found.get(os.path.basename(it)) for it in MODULES], [['no-extra-parens']] * 3 + [None])
    same(room.sh(block('Many files', 'sh', 1)), (0, '', ''))
    same([room.text(f'src/{it}') for it in ('m.js', 'vendor/p.js')], ['export default 1;\n', '(1);\n'])


def redirections(room):
    """Devices as a shell gives them: full, closed, slow, a folder."""
    room.put('a.js', '(a) + b;\n')
    room.put('table', 'jslint-cost 2\n1 BinaryExpression 0 0 0 0 0 - - -\n2 Identifier\n3 Identifier\ntotal 0\n')
    lost = (2, '', 'jslint: write failed\n')
    for words in ('check a.js', 'fix a.js', 'unwrap a.js', 'tree a.js', 'cost a.js', 'verify a.js table', 'check - <a.js', '--help', '--version'):
        same(room.sh(f'jslint {words} >/dev/full'), lost, words)
        same(room.sh(f'jslint {words} >&-'), lost, words)
        same(room.sh(f'jslint {words} >/dev/full 2>&-'), (2, '', ''), words)
    os.symlink('round', room.path('round'))
    unread = [
        ('fix /dev/stdin <&-', '/dev/stdin: missing'), ('fix .', '.: a folder'), ('unwrap .', '.: a folder'), ('fix none.js', 'none.js: missing'), ('unwrap none.js', 'none.js: missing'),
        ('fix a.js/b.js', 'a.js/b.js: missing'), ('fix round', 'round: links in a circle'), ('check --settings . a.js', '.: a folder'),
        ('check --settings none a.js', 'none: missing'), ('check --settings none .', 'none: missing'), ('verify a.js .', '.: a folder'),
        ('fix - <&-', '-'), ('fix - <.', '-: a folder'), ('fix - 0>/dev/null', '-'), ('same a.js - <&-', '-'), ('same - a.js <&-', '-'), ('check --settings table - <&-', '-'), ('verify a.js - <.', '-: a folder'), ('same none.js - <a.js', 'none.js: missing'),
        ('same - - <a.js', '-: both files are standard input'), ('verify - - <&-', '-: both files are standard input'), ('check --settings - - <a.js', '-: both files are standard input'), ('same a.js none', 'none: missing'), ('same . a.js', '.: a folder'),
        ('verify a.js none', 'none: missing'), ('verify none.js .', 'none.js: missing'), ('fix "$(printf "no\\njslint: \\033[1m")"', 'no\\x0ajslint: \\x1b[1m: missing'),
    ]
    for words, why in unread:
        same(room.sh(f'jslint {words}'), (2, '', f'jslint: read failed: {why}\n'), words)
        same(room.sh(f'jslint {words} 2>/dev/full')[0], 2, words)
    same([room.sh(f'jslint {it}') for it in ('fix none.js 2>&-', 'app.js 2>&-', 'app.js 2>/dev/full')], [(2, '', '')] * 3)
    for words, tip in [('app.js', 'app.js'), ('src/app', 'src/app'), ('a.js b.js', 'a.js'), ('app', None), ('"a b.js"', None), ('"a;b.js"', None), ('-a.js', None), ('check', None)]:
        status, out, err = room.sh(f'jslint {words}')
        is_well((status, out) == (2, '') and (err.endswith(f"'--help'.\n\n  tip: jslint check {tip}\n") if tip else 'tip: jslint' not in err), f'{words} {err}')
    for words in ('(printf "(a"; sleep 0.2; printf ") + b;") | jslint fix /dev/stdin', 'jslint fix /dev/stdin <a.js', 'cat a.js | jslint fix /dev/stdin | cat', 'jslint fix a.js </dev/null', 'cat a.js | jslint unwrap /dev/stdin', '(printf "(a"; sleep 0.2; printf ") + b;") | jslint fix -', 'jslint fix - <a.js', 'cat a.js | jslint unwrap -- - | cat'):
        same(room.sh(words), (0, 'a + b;\n', ''), words)
    same(room.sh('printf "(a) // b" | jslint unwrap /dev/stdin | cat'), (0, 'a // b', ''))
    same(room.sh('jslint verify a.js /dev/stdin <table'), (0, 'pairs 1 least 0\n', ''))
    same([room.sh(f'jslint {it}') for it in ('verify a.js - <table', 'verify - table <a.js')], [(0, 'pairs 1 least 0\n', '')] * 2)
    room.put('-', 'b;\n')
    for words, status in [('same a.js - <a.js', 0), ('same - a.js <a.js', 0), ('same ./- - <a.js', 1), ('same - ./- <a.js', 1), ('same ./- - </dev/null', 1), ('same a.js ./-', 1), ('same ./- ./-', 0), ('same a.js a.js <&-', 0), ('same a.js a.js >&-', 0)]:
        same(room.sh(f'jslint {words}'), (status, '', ''), words)
    same(room.sh('printf "a +" | jslint same a.js -'), (2, '', 'jslint: second file: syntax error at 1:4\n'))
    same(room.sh('printf "\\377" | jslint same a.js -'), (2, '', 'jslint: second file: not UTF-8 at byte 0\n'))


def statuses(room):
    """0, 1, 2; names that are no option; the order of the files, however many run side by side."""
    for name, text in [('a.js', WRONG), ('good.js', RIGHT), ('bad.js', REFUSED), ('-h.js', WRONG), ('off.toml', '[rules]\nno-unused-vars = false\nprefer-const = false\nno-extra-parens = false\n')]:
        room.put(name, text)
    call = lambda *words, **more: room.run(['jslint-files', *words], **more)
    same(call('good.js'), (0, '', ''))
    same(call('--settings', 'off.toml', '--', 'a.js', '-h.js'), (0, '', ''))
    same(call('a.js', 'good.js')[0], 1)
    same(call('--', '-h.js'), (1, ''.join(f'-h.js:{it.replace(" ", ": ", 1)}\n' for it in FOUND), ''))
    same(call('bad.js', 'none.js', '.'), (2, 'bad.js:2:1: syntax error\nnone.js:1:1: read failed: missing\n.:1:1: read failed: a folder\n', ''))
    same(call('--settings=a.js', 'good.js', 'bad.js'), (2, '', 'jslint-files: a.js: bad settings at 1:5\n'))
    for words in [('--settings', 'none.toml', 'a.js'), ('-h.js',), (), ('--format', 'xml', 'a.js'), ('--jobs', '0', 'a.js'), ('--jobs',), ('--nope', 'a.js'), ('--files-from', 'none')]:
        status, out, err = call(*words)
        is_well(status == 2 and not out and err.startswith('jslint-files: ') and err.count('\n') == 1, f'{words} {status} {out} {err}')
    same(call('none*.js'), (2, 'none*.js:1:1: read failed: missing\n', ''))
    same(call('--files-from', '-', given=b'a.js\ngood.js\n')[1].count('\n'), 3)
    same(call('--files-from', '-', given=b''), (2, '', 'jslint-files: no script was looked at; --allow-none lets that pass\n'))
    same(call('--allow-none', '--files-from', '-', given=b''), (0, '', ''))
    many = [f'{it:03}.js' for it in range(60)]
    for it in many:
        room.put(it, WRONG if int(it[:3]) % 2 else REFUSED)
    alone = call('--jobs', '1', *many)
    same(call('--jobs', '8', *many), alone)
    same([it.split(':')[0] for it in alone[1].splitlines()], [it for it in many for _ in range(3 if int(it[:3]) % 2 else 1)])
    is_well(call('--help')[1].startswith('usage: jslint-files'))


def rewritten(room):
    """`fix` and `unwrap` of several files. Keeps the mode; follows a link; leaves what is refused, and what doesn't differ; nothing stays beside it."""
    text, fixed, unwrapped = 'let x = (1) // kept\r\n\n', 'let x = 1;\r\n', 'let x = 1 // kept\r\n\n'
    refused = 'bad.js:2:1: syntax error\nnone.js:1:1: read failed: missing\n.:1:1: not {}: no regular file\n'
    for command, wanted, more in [('fix', fixed, ['--drop-comments']), ('unwrap', unwrapped, [])]:
        good = [f'{command}/{it}' for it in ('a.js', 'deep/-h.js', 'deep/two words.js')]
        for name in good:
            room.put(name, text, 0o754)
        room.put('bad.js', REFUSED)
        room.put('good.js', wanted)
        os.symlink('a.js', room.path(f'{command}/link'))
        call, names = lambda *words: room.run(['jslint-files', command, *more, *words]), room.names(command)
        known = os.stat(room.path('good.js')).st_ino
        status, out, err = call('--diff', *good, 'good.js', 'bad.js', 'none.js', '.')
        same((status, err, room.text(good[0])), (2, refused.format('compared'), text))
        same(call('--diff', *good), (1, out, ''))
        same(room.run(['patch', '-p0', '--binary', '-s', '--dry-run'], given=out.encode()) if shutil.which('patch') else (0, '', ''), (0, '', ''))
        same(call('--write', 'good.js', 'bad.js', 'none.js', '.', f'{command}/link', *good[1:]), (2, '', refused.format('rewritten')))
        for name in good:
            same((room.text(name), stat.S_IMODE(os.stat(room.path(name)).st_mode)), (wanted, 0o754), name)
        same((room.text('bad.js'), room.names(command), os.path.islink(room.path(f'{command}/link'))), (REFUSED, names, True))
        same((os.stat(room.path('good.js')).st_ino, call('--diff', 'good.js', *good), call('--write', *good)), (known, (0, '', ''), (0, '', '')))
    for words in [('fix', 'a.js'), ('unwrap', '--write', '--diff', 'a.js'), ('unwrap', '--write', '--format', 'json', 'a.js'), ('--write', 'a.js'), ('check', '--diff', 'a.js')]:
        status, out, err = room.run(['jslint-files', *words])
        is_well(status == 2 and not out and err.startswith('jslint-files: ') and err.count('\n') == 1, f'{words} {status} {out} {err}')


def rewritten_odd(room):
    """A name that isn't UTF-8, a script from standard input, a file that may not be written, and an interruption."""
    with open(room.path(b'not\xffutf8.js'), 'wb') as file:
        file.write(WRONG.encode())
    same(room.run(['jslint-files', 'fix', '--write', '--files-from', '-'], given=b'not\xffutf8.js\0'), (0, '', ''))
    with open(room.path(b'not\xffutf8.js'), 'rb') as file:
        same(file.read(), b'let x = 1;\n')
    same(room.run(['jslint-files', '/dev/stdin'], given=WRONG.encode())[1].count('\n'), 3)
    same(room.run(['jslint-files', 'fix', '--write', '/dev/stdin'], given=WRONG.encode()), (2, '', '/dev/stdin:1:1: not rewritten: no regular file\n'))
    room.put('a.js', WRONG)
    same(room.sh('jslint-files fix --diff /dev/stdin <a.js')[1].splitlines()[-1], '+let x = 1;')
    room.put('a.js', WRONG, 0o444)
    if os.geteuid():
        same(room.run(['jslint-files', 'fix', '--write', 'a.js']), (2, '', 'a.js:1:1: not rewritten: Permission denied\n'))
        same(room.text('a.js'), WRONG)
    room.put('slow', '#!/bin/sh\necho begun >>begun\nsleep 1\necho done\n', 0o755)
    for it in range(9):
        room.put(f'{it}.js', WRONG)
    names = room.names()
    text = 'jslint-files fix --write --jobs 2 [0-9].js & until [ -s begun ]; do sleep 0.05; done; kill $!; wait $!'
    same(room.sh(text, JSLINT=room.folder + '/slow')[:2], (143, ''))
    done = [it for it in range(9) if room.text(f'{it}.js') != WRONG]
    is_well(len(done) <= 2 and room.names() == sorted([*names, 'begun']), f'{done} {room.names()}')


def gone(room):
    """Files that disappear before they are read, before they are replaced, or with their folder: each has its line, and all others are done."""
    names = ['a.js', 'b.js', 'below/c.js', 'd.js']

    def call(takes, *words):
        room.put('takes', f'#!/bin/sh\n{takes}\n', 0o755)
        for name in names:
            room.put(name, WRONG)
        status, out, err = room.run(['jslint-files', *words, '--jobs', '1', *names], JSLINT=room.folder + '/takes')
        same(status, 2, err)
        return out, err

    before, after = 'rm -rf b.js below; exec jslint "$@"', 'jslint "$@"; ended=$?; rm -rf a.js b.js below; exit $ended'
    lost, unread = ': not rewritten: No such file or directory\n', 'b.js:1:1: read failed: missing\nbelow/c.js:1:1: read failed: missing\n'
    same([it.split(': ')[0] for it in call(before)[0].splitlines()], ['a.js:1:5', 'a.js:1:5', 'a.js:1:9', 'b.js:1:1', 'below/c.js:1:1', 'd.js:1:5', 'd.js:1:5', 'd.js:1:9'])
    same([(it['filePath'], it['fatalErrorCount'], it['errorCount']) for it in json.loads(call(before, '--format', 'json')[0])],
         [(os.path.realpath(f'{room.folder}/{name}'), *counts) for name, *counts in [('a.js', 0, 3), ('b.js', 1, 1), ('below/c.js', 1, 1), ('d.js', 0, 3)]])
    same(call(before, 'fix', '--write'), ('', unread))
    same((room.text('a.js'), room.text('d.js'), room.names()), ('let x = 1;\n', 'let x = 1;\n', ['a.js', 'd.js', 'takes']))
    same(call(after, 'unwrap', '--write'), ('', f'a.js:1:1{lost}{unread}'))
    same((room.text('d.js'), room.names()), ('let x = 1;\n', ['d.js', 'takes']))


def forged_names(room):
    """No name breaks its line, turns its order, or begins what GitHub's runner would obey."""
    names = ['a\n::error file=x.js::forged.js', '::error file=x.js::forged.js', ' ::error::y.js', 'b\r##[error]z.js', 'e\x1b[31m.js', 'u\u202e.js', 'p%,:.js', b'not\xffutf8.js']
    for name in names:
        with open(room.path(name), 'wb') as file:
            file.write(b'debugger;\n')
    listed = b'\0'.join(os.fsencode(it) for it in names) + b'\0'
    for words in ([], ['--format', 'github'], ['--format', 'json']):
        status, out, err = room.run(['jslint-files', *words, '--files-from', '-'], given=listed)
        lines = out.splitlines(keepends=True)
        same((status, err, out.count('\n'), len(lines)), (1, '', *[1 if 'json' in words else len(names)] * 2), repr(out))
        is_well(not re.search('[\x00-\x09\x0b-\x1f\x7f-\x9f\u2028-\u202e\udc80-\udcff]', out), repr(out))
        if 'json' in words:
            same([os.fsencode(it['filePath']) for it in json.loads(out)], [os.path.join(os.path.realpath(room.path('.')), os.fsencode(it)) for it in names])
        elif words:
            same([it.split(',line=1,col=1,title=no-debugger::')[0] for it in lines][0], '::error file=a%0A%3A%3Aerror file=x.js%3A%3Aforged.js')
            is_well(all(re.fullmatch(r'::error file=[^:,]*,line=1,col=1,title=no-debugger::[^\n]*\n', it) for it in lines), repr(lines))
        else:
            is_well(not any(it.lstrip().startswith('::') or '##[' in it for it in lines), repr(lines))


def shown_progress(room):
    """On a terminal a line says how far it is, after a second, and is gone at the end."""
    room.put('slow', '#!/bin/sh\nsleep 0.7\n', 0o755)
    names = [f'{it}.js' for it in range(3)]
    for name in names:
        room.put(name, RIGHT)
    text = f'import pty, sys; sys.exit(pty.spawn(["jslint-files", "--jobs", "1", "--", *{names!r}]) >> 8)'
    _, out, _ = room.run([sys.executable, '-c', text], status=0, JSLINT=room.folder + '/slow')
    is_well('2 of 3' in out and '1 of 3' not in out and out.endswith('\r\x1b[K'), repr(out))


def git_hook(room):
    room.git('init', '-q')
    room.put('.git/hooks/pre-commit', block('A git hook', 'sh'), 0o755)
    room.put('a.js', RIGHT)
    room.put('target.js', WRONG)
    room.git('add', 'a.js')
    room.git('commit', '-q', '-m', 'right')
    # what is staged counts, and not what lies in the folder
    room.put('a.js', WRONG)
    room.git('add', 'a.js')
    room.put('a.js', RIGHT)
    status, out, err = room.run(['git', 'commit', '-q', '-m', 'wrong'])
    is_well(status and out + err == ''.join(f'./a.js:{it.replace(" ", ": ", 1)}\n' for it in FOUND), f'{status} {out}{err}')
    # so do the settings
    room.put('jslint.toml', 'rules = { no-unused-vars = false, prefer-const = false, no-extra-parens = false }\n')
    room.git('commit', '-q', '-m', 'wrong', status=1)
    room.git('add', 'jslint.toml')
    room.put('jslint.toml', 'no settings')
    room.git('commit', '-q', '-m', 'by settings')
    # a link is no script, whatever its target is called; a refused script and a name like an option count
    os.symlink('debugger;', room.path('link.js'))
    room.git('add', 'link.js')
    room.git('commit', '-q', '-m', 'a link')
    for name, text in [('-h.js', 'debugger;'), ('two words.js', REFUSED), ('new\nline.js', 'debugger;')]:
        room.put(name, text)
        room.git('add', '--', name)
        room.git('commit', '-q', '-m', 'wrong', status=1)
        room.git('rm', '-q', '--cached', '--', name)
    room.git('rm', '-q', '-f', 'a.js')
    room.git('commit', '-q', '-m', 'gone')
    # modules, by their text, their names and package.json; ignored files that are committed all the same
    room.put('jslint.toml', 'rules = { no-extra-parens = false }\n')
    put_modules(room, 'src/')
    room.put('vendor/lib.js', 'debugger;')
    room.put('esm/package.json', '{"type": "module"}')
    room.put('esm/q.js', 'await 1;\n')
    room.git('add', '-f', 'jslint.toml', '.jslintignore', 'src', 'vendor', 'esm')
    same(room.run(['git', 'commit', '-q', '-m', 'modules']), (0, '', ''))
    room.put('src/m.js', 'export default 1;\ndebugger;\n')
    room.git('add', 'src')
    status, out, err = room.run(['git', 'commit', '-q', '-m', 'wrong'])
    same((status, out + err), (1, './src/m.js:2:1: no-debugger debugger statement\n'))


def git_rewritten(room):
    """The scripts that are staged lose their pairs, below the folder where the command runs, and no others."""
    text = block('A git hook', 'sh', 1)
    room.git('init', '-q')
    for name in ('known.js', 'gone.js', 'src/a.js', 'src/two words.js', '-h.js'):
        room.put(name, KEPT)
    room.git('add', 'known.js', 'gone.js')
    room.git('commit', '-q', '-m', 'known')
    room.git('rm', '-q', '--cached', 'gone.js')
    room.git('add', '--', 'src', '-h.js')
    same(room.run(['sh', '-c', text], at='src'), (0, '', ''))
    same([room.text(it) for it in ('src/a.js', 'src/two words.js', '-h.js')], [UNWRAPPED, UNWRAPPED, KEPT])
    room.put('src/a.js', REFUSED)
    same(room.sh(text), (2, '', 'src/a.js:2:1: syntax error\n'))
    same([room.text(it) for it in ('-h.js', 'src/a.js', 'known.js', 'gone.js')], [UNWRAPPED, REFUSED, KEPT, KEPT])
    room.git('rm', '-q', '-f', '--cached', 'src/a.js')
    put_modules(room, '')
    room.git('add', '-f', *MODULES)
    same(room.sh(text), (0, '', ''))
    same_modules(room, '')
    # (all that is staged is ignored)
    room.git('rm', '-q', '-r', '-f', '--cached', '.')
    room.git('add', '-f', 'vendor')
    same(room.sh(text), (0, '', ''))


def make(room):
    room.put('Makefile', block('make', 'make'))
    room.put('src/a.js', RIGHT)
    room.put('src/b.js', 'x = (1);\n')
    run = lambda *words: room.run(['make', *words])
    is_well(run('check')[0] != 0, 'no settings: b.js has reports')
    room.put('jslint.toml', 'globals = ["x"]\n[rules]\nno-extra-parens = false\n')
    same(run('check')[0], 0)
    is_well('jslint' not in run('check')[1], 'checked again')
    room.put('jslint.toml', 'globals = ["x"]\n')
    later = os.stat(room.path('build/b.checked')).st_mtime + 5
    os.utime(room.path('jslint.toml'), (later, later))
    is_well(run('check')[0] != 0, 'other settings, and nothing is checked again')
    same(run('fixed')[0], 0)
    same(room.text('build/b.js'), 'x = 1;\n')
    room.put('src/d.js', 'let x = `(\r\n`; (x);\r\n')
    same((run('fixed')[0], room.text('build/d.js')), (0, 'let x = `(\r\n`;\r\nx;\r\n'))
    room.put('src/m.js', MODULES['m.js'][0])
    same((run('fixed')[0], room.text('build/m.js')), (0, MODULES['m.js'][1]))
    room.put('src/c.js', REFUSED)
    is_well(run('fixed')[0] != 0)
    is_well(not any(it.startswith('c.js') for it in room.names('build')), 'of a refused script something stays')


def github(room):
    install(f'{room.folder}/ci')
    room.git('init', '-q')
    room.put('a.js', WRONG)
    room.git('add', 'a.js')
    line = re.search(r'^ +- run: (.*)$', block('GitHub Actions', 'yaml'), re.M)[1]
    status, out, err = room.sh(line)
    same((status, out.splitlines()[2], err), (1, '::error file=a.js,line=1,col=9,title=no-extra-parens::unnecessary parentheses', ''))
    put_modules(room, 'src/')
    room.git('add', '-f', '.')
    status, out, err = room.sh(line)
    same((status, err, re.findall(r'^::error file=src/(.*?),.*title=(.*?)::', out, re.M)), (1, '', [(it, 'no-extra-parens') for it in MODULES if 'vendor' not in it]))


def vim_patterns(text):
    """The regular expressions of an `errorformat`, with a `%f` or not, as Vim reads it."""
    line = re.search(r'^set errorformat=(.*)$', text, re.M)[1].replace('\\ ', ' ')
    groups = {'%f': r'(?P<f>.+?)', '%l': r'(?P<l>\d+)', '%c': r'(?P<c>\d+)', '%m': r'(?P<m>.+)'}
    return [re.sub('%[flcm]', lambda it: groups[it[0]], it.replace('%.%#', '.*')) for it in line.split(',')]


def task_of(number, name):
    """The words of a task of VS Code for a file, and the task."""
    task = json.loads(block('VS Code', 'json'))['tasks'][number]
    return [task['command'], *(it.replace('${relativeFile}', name) for it in task['args'])], task


def editors_rewrite(room):
    """What Vim, Emacs and VS Code call to rewrite a file; Vim itself, where it is here, which reads the file again."""
    name = 'src/two words.js'
    room.put(name, KEPT)
    same(room.run(task_of(1, name)[0]), (0, '', ''))
    same(room.text(name), UNWRAPPED)
    room.put('a.js', KEPT)
    same(room.sh(re.search('`M-! (.*?) RET`', PAGE)[1]), (0, '', ''))
    same(room.text('a.js'), UNWRAPPED)
    if not shutil.which('vim'):
        return
    room.put('unwrap.vim', block('Vim', 'vim', 2))
    for text, wanted, said in [(KEPT, UNWRAPPED, ''), (REFUSED, REFUSED, f'{name}:2:1: syntax error')]:
        room.put(name, text)
        words = ['source unwrap.vim', f'edit {name}'.replace(' w', r'\ w'), 'Unwrap', 'write! read', 'call writefile([g:said], "said")', 'quitall!']
        room.run(['vim', '-Nnes', '-u', 'NONE', '-i', 'NONE', *(it for word in words for it in ('-c', word))])
        same([room.text(name), room.text('read'), room.text('said').strip('\0\n')], [wanted, wanted, said])


def editors(room):
    """The patterns of Vim, Emacs and VS Code on what is printed."""
    room.put('src/a.js', WRONG)
    room.put('bad.js', REFUSED)
    room.put('module.js', 'export {};\n')
    alone, many = (block('Vim', 'vim', it) for it in (0, 1))
    for name, wanted in [('src/a.js', ('1', '5', FOUND[0].split(' ', 1)[1])), ('bad.js', ('2', '1', 'syntax error')), ('module.js', ('1', '1', 'syntax error')), ('none.js', (None, None, 'read failed: none.js: missing'))]:
        words = re.search(r'^set makeprg=(.*)$', alone, re.M)[1].replace('\\ ', ' ').replace('%:S', name)
        _, out, err = room.sh(words)
        first = next(filter(None, (re.fullmatch(it, (out + err).splitlines()[0]) for it in vim_patterns(alone))))
        same(tuple(first.groupdict().get(it) for it in 'lcm'), wanted)
    program = re.search(r'^set makeprg=(.*)$', many, re.M)[1].replace('\\ ', ' ').split(' ')
    lines = room.run([*program, 'src/a.js', 'bad.js'])[1].splitlines()
    same([re.fullmatch(vim_patterns(many)[0], it).group('f', 'l', 'c') for it in lines], [('src/a.js', '1', '5')] * 2 + [('src/a.js', '1', '9'), ('bad.js', '2', '1')])
    # (`gnu` in compilation-error-regexp-alist-alist)
    same([re.match(r'([^ \n:][^\n:]*):(\d+):(\d+): ', it).groups() for it in lines], [('src/a.js', '1', '5')] * 2 + [('src/a.js', '1', '9'), ('bad.js', '2', '1')])
    words, task = task_of(0, 'src/a.js')
    pattern = task['problemMatcher']['pattern']
    found = [re.fullmatch(pattern['regexp'], it) for it in room.run(words)[1].splitlines()]
    same([tuple(it[pattern[key]] for key in ('file', 'line', 'column', 'message')) for it in found][2], ('src/a.js', '1', '9', FOUND[2].split(' ', 1)[1]))


def settings_example(room):
    """The example of a settings file is one."""
    room.put('jslint.toml', re.search(r'^```toml\n(.*?)^```$', PAGE, re.M | re.S)[1])
    room.put('a.js', 'jQuery(_ => null == null);')
    same(room.run(['jslint', 'check', '--settings', 'jslint.toml', '--', 'a.js']), (0, '', ''))


def pages(room):
    """The manual pages have no faults that man(1) sees, and bash completes."""
    for name in ('jslint', 'jslint-files'):
        page = f'{os.path.dirname(BIN)}/share/man/man1/{name}.1'
        if shutil.which('man'):
            same(room.sh(f'LC_ALL=C.UTF-8 MANROFFSEQ= MANWIDTH=80 man --warnings -E UTF-8 -l -Tutf8 -Z {page} >/dev/null')[2], '', name)
        is_well(os.path.isfile(page))
    completed = f'''. {os.path.dirname(BIN)}/share/bash-completion/completions/jslint
        compopt() {{ :; }}
        COMP_WORDS=(jslint ver) COMP_CWORD=1; _jslint; echo "${{COMPREPLY[*]}}"
        COMP_WORDS=(jslint check --s) COMP_CWORD=2; _jslint; echo "${{COMPREPLY[*]}}"
        COMP_WORDS=(jslint unw) COMP_CWORD=1; _jslint; echo "${{COMPREPLY[*]}}"
        COMP_WORDS=(jslint-files --format g) COMP_CWORD=2; _jslint_files; echo "${{COMPREPLY[*]}}"
        COMP_WORDS=(jslint-files unw) COMP_CWORD=1; _jslint_files; echo "${{COMPREPLY[*]}}"
        COMP_WORDS=(jslint-files unwrap --) COMP_CWORD=2; _jslint_files; echo "${{COMPREPLY[*]}}"'''
    if shutil.which('bash'):
        wanted = 'verify\n--settings --spans\nunwrap\ngithub\nunwrap\n--write --diff --drop-casts --edition --module --project --no-ignore --allow-none --stdin --hints --unsupported --summary --jobs --files-from --help --version --\n'
        same(room.run(['bash', '-c', completed])[1:], (wanted, ''))


TESTS = [
    examples, readme_examples, each_is_tried, each_has_project, settings_example, standard_input, in_place, in_place_endings, with_cr, folder, many_files, redirections, statuses, rewritten, rewritten_odd,
    gone, forged_names, shown_progress, git_hook, git_rewritten, make, github, editors, editors_rewrite, pages,
]
