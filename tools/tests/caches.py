"""`jslint-files check --cache`: what a cache says is what a run without one says, whatever changed and whatever lies in the cache's place.

Each test is a function that raises where something is wrong, and libraries.Skipped where it can't be tried. Its argument is a room: a folder of its
own, in which it works.
"""
import json
import os
import shutil
import signal
import sys
import time

import recipes
from files import as_nobody, ended, files, program, started
from recipes import TOP, is_well, same

sys.path.insert(0, f'{TOP}/tools')
from jslint_files.cache import COARSE, GRAIN as FINE_GRAIN, SECOND, is_settled  # noqa: E402

BUG, FINE, OTHER = 'debugger;\n', 'f();;\nfunction f() {}\n', 'let = ;\n'
FOUND = '1:1: no-debugger debugger statement\n'
TEXTS = {'bug.js': BUG, 'fine.js': 'let a;\n', 'refused.js': OTHER, 'undefined.js': 'a();\n', 'module.mjs': 'export default 1;\ndebugger;\n', 'jsx.js': 'f(<a/>);\n'}
CACHE = '.jslintcache'
# Longer than two changes of a file may have one time.
GRAIN = 0.15


def put(room, texts=TEXTS):
    """Puts scripts, and waits until further changes have other times."""
    for name, text in texts.items():
        room.put(name, text)
    time.sleep(GRAIN)


def counting(room):
    """A program that says in a file how often it was called, and with what text."""
    return program(room, 'echo "$*" >>"$COUNT"; exec "$JSLINT_REAL" "$@"', 'counting') | {'COUNT': f'{room.folder}/count', 'JSLINT_LIBRARY': ''}


def calls(room):
    """How often the program was called since this was asked last."""
    found = room.text('count').count('\n') if os.path.exists(room.path('count')) else 0
    room.put('count', '')
    return found


def cached(room, *words, **more):
    """What a run with a cache says, which is what one without says."""
    found = files(room, 'check', '--cache', *words, **more)
    same(found, files(room, 'check', *(it for it in words if not it.startswith('--cache-location')), **more), words)
    return found


def unchanged(room):
    """Unchanged scripts aren't looked at again, whatever is asked for; and what is said stays."""
    how = counting(room)
    put(room)
    for words in ((), ('--project',), ('--format', 'json'), ('--format', 'json', '--ends'), ('--format', 'pretty'), ('--format', 'github'), ('--hints',), ('--unsupported', 'note'), ('--suppressions',), ('--summary',)):
        names = [] if '--project' in words else [*TEXTS]
        wanted = files(room, *words, *names, **how)
        same([files(room, '--cache', *words, *names, **how) for _ in range(3)], [wanted] * 3, words)
    files(room, '--cache', *TEXTS, **how)
    calls(room)
    files(room, '--cache', *TEXTS, **how)
    same(calls(room), 0)


def changed(room):
    """Of changed scripts the new text counts: with another size, the same size, the same size and time; one that comes and one that goes."""
    how = counting(room)
    put(room)
    names = [*TEXTS, 'late.js']
    cached(room, *names, **how)
    room.put('bug.js', 'debugger;;\n')
    is_well('no-debugger' in cached(room, *names, **how)[1])
    time.sleep(GRAIN)
    cached(room, *names, **how)
    room.put('bug.js', '// nothing\n')
    is_well('bug.js' not in cached(room, *names, **how)[1])
    time.sleep(GRAIN)
    cached(room, *names, **how)
    before = os.stat(room.path('bug.js'))
    room.put('bug.js', 'debugger;;\n')
    os.utime(room.path('bug.js'), ns=(before.st_atime_ns, before.st_mtime_ns))
    same((os.stat(room.path('bug.js')).st_size, os.stat(room.path('bug.js')).st_mtime_ns), (before.st_size, before.st_mtime_ns))
    is_well('bug.js:1:1: no-debugger' in cached(room, *names, **how)[1])
    room.put('late.js', BUG)
    os.remove(room.path('fine.js'))
    status, out, _ = cached(room, *names, **how)
    is_well(status == 2 and f'late.js:{FOUND}' in out and 'fine.js:1:1: read failed: missing\n' in out, out)


def at_once(room):
    """A script that changes at once, before and behind a run, and has the same size: no clock is quick enough to tell, and the answer is right all the same."""
    how = counting(room)
    for turn in range(12):
        text = BUG if turn % 2 else 'globals;;\n'
        room.put('a.js', text)
        is_well((f'a.js:{FOUND}' == cached(room, 'a.js', '--only', 'no-debugger', **how)[1]) == (text == BUG), turn)
        cached(room, 'a.js', '--only', 'no-debugger', **how)
        room.put('a.js', 'x' * len(text))
        same(cached(room, 'a.js', '--only', 'no-debugger', **how), (0, '', ''))


def meanwhile(room):
    """A script that changes while it is checked gets no record: neither its old nor its new text is taken for what was checked."""
    put(room, {'a.js': BUG, 'other': '// debug;\n'})
    how = program(room, '"$JSLINT_REAL" "$@"; status=$?; test ! -e change || { rm change; cat other >a.js; }; exit $status', 'changing') | {'JSLINT_LIBRARY': ''}
    room.put('change', '')
    same(files(room, '--cache', 'a.js', **how)[0], 1)
    same(room.text('a.js'), '// debug;\n')
    same(files(room, '--cache', 'a.js', **how), (0, '', ''))
    for text, status in (('debugger;\n', 1), ('// debug;\n', 0)):
        room.put('a.js', text)
        same(files(room, '--cache', 'a.js', **how)[0], status, text)


def settled(_):
    """Which times of a file a further change would surely change, by the clock at the beginning of a run."""
    at = 5 * SECOND + 1
    same([is_settled([1, at, at, 1], at + it) for it in (-1, 0, FINE_GRAIN, FINE_GRAIN + 1)], [False, False, False, True])
    same([is_settled([1, at - 1, at - 1, 1], at - 1 + it) for it in (FINE_GRAIN + 1, COARSE, COARSE + 1)], [False, False, True])
    same([is_settled([1, written, at, 1], at + FINE_GRAIN + 1) for written in (0, at, at + 1)], [True, True, False])


def touched(room):
    """Of a script with another time and the same text the sum decides."""
    how = counting(room)
    put(room)
    cached(room, *TEXTS, **how)
    for name in TEXTS:
        os.utime(room.path(name))
    time.sleep(GRAIN)
    calls(room)
    wanted = files(room, '--cache', *TEXTS, **how)
    same(calls(room), 0)
    for name in TEXTS:
        shutil.copy(room.path(name), room.path(f'{name}.new'))
        os.replace(room.path(f'{name}.new'), room.path(name))
    same(files(room, '--cache', *TEXTS, **how), wanted)
    same(calls(room), 0)


def other_rules(room):
    """Other settings, words, languages, ignore files, or another program: all is looked at again, and nothing else is said than without a cache."""
    how = counting(room)
    put(room, {**TEXTS, 'jslint.toml': 'extends = "recommended"\n', 'deep/jslint.toml': '', 'deep/a.js': BUG, 'deep/b.js': ';;\n'})
    cached(room, '--project', **how)
    for name, text in (('jslint.toml', 'extends = "none"\n'), ('jslint.toml', '[[overrides]]\nfiles = ["bug.js"]\nrules = { no-debugger = "off" }\n'), ('deep/jslint.toml', '[rules]\nno-debugger = false\n'),
                       ('package.json', '{"type": "module"}'), ('package.json', '{"type": "commonjs"}'), ('.jslintignore', 'bug.js\n'), ('deep/.gitignore', 'nothing\n')):
        room.put(name, text)
        calls(room)
        found = files(room, '--project', '--cache', **how)
        is_well(calls(room) > 0, name)
        same(found, files(room, '--project', **how), name)
    for words in (('--only', 'no-empty'), ('--rule', 'no-debugger=off'), ('--edition', '2022'), ('--module',), ('--no-ignore',)):
        cached(room, '--project', *words, **how)


def other_program(room):
    """Another program's answers aren't taken for this one's."""
    put(room)
    cached(room, *TEXTS)
    odd = program(room, 'exit 0', 'odd') | {'JSLINT_LIBRARY': ''}
    same(files(room, '--cache', *TEXTS, **odd), (0, '', ''))
    cached(room, *TEXTS)


def torn(room):
    """A cache that is torn at any place, that another wrote, or that was copied is left out."""
    how = counting(room)
    put(room)
    wanted = files(room, *TEXTS, **how)
    files(room, '--cache', *TEXTS, **how)
    with open(room.path(CACHE), 'rb') as file:
        whole = file.read()
    odd = [whole[:at] for at in range(0, len(whole), max(len(whole) // 9, 1))] + [whole + b' ', whole.replace(b'no-debugger', b'no-xebugger'), b'', b'{}', b'[{"results": {}}]\n', b'\0' * 100, b'[' * 100_000]
    for it in [*odd, whole]:
        os.path.exists(room.path(CACHE)) and os.remove(room.path(CACHE))
        with open(room.path('room'), 'wb') as file:
            file.write(it)
        os.rename(room.path('room'), room.path(CACHE))
        calls(room)
        same(files(room, '--cache', *TEXTS, **how), wanted, it[:60])
        is_well(calls(room) > 0, it[:60])
    calls(room)
    same(files(room, '--cache', *TEXTS, **how), wanted)
    same(calls(room), 0)


def in_the_way(room):
    """A link, a folder, a device, no permission, a full disk: the answer is right, and at most one line more says so."""
    put(room)
    status, out, err = files(room, *TEXTS)
    said = lambda path, why: f'jslint-files: {path}: the cache is not written: {why}\n'
    room.put('target', 'kept')
    os.symlink('target', room.path('link'))
    os.makedirs(room.path('folder'))
    os.mkfifo(room.path('pipe'))
    for name in ('link', 'folder', 'pipe'):
        same(files(room, '--cache', '--cache-location', name, *TEXTS), (status, out, said(name, 'no regular file') + err), name)
    same(room.text('target'), 'kept')
    same(files(room, '--cache', '--cache-location', 'none/cache', *TEXTS), (status, out, said('none/cache', 'No such file or directory') + err))
    same(files(room, '--cache', '--cache-location', '/dev/full', *TEXTS), (status, out, said('/dev/full', 'no regular file') + err))
    same(room.sh(f'ulimit -f 0; jslint-files --cache {" ".join(TEXTS)} 2>&1 | cat')[:2], (0, out + said(CACHE, 'File too large') + err))
    same([it for it in room.names() if it.startswith('.jslint')], [])


def unpermitted(room):
    """Where nothing may be written the answer is right; where the cache can't be read, too."""
    for it in (os.path.dirname(room.folder), room.folder):
        os.chmod(it, 0o755)
    recipes.install(f'{room.folder}/installed')
    put(room)
    for name, mode in (('shut', 0o555), ('open', 0o777)):
        os.makedirs(room.path(name))
        os.chmod(room.path(name), mode)
    room.put('open/cache', 'a secret', 0)
    call = lambda place: as_nobody(room, ['jslint-files', '--cache', '--cache-location', place, 'bug.js'])
    same(call('shut/cache'), (1, f'bug.js:{FOUND}', 'jslint-files: shut/cache: the cache is not written: Permission denied\n'))
    for _ in range(2):
        same(call('open/cache'), (1, f'bug.js:{FOUND}', ''))


def interrupted(room):
    """An interruption leaves the cache as it was, and no new file."""
    put(room)
    files(room, '--cache', *TEXTS)
    before = room.text(CACHE)
    os.mkfifo(room.path('waits.js'))
    process = started(room, ['--cache', 'bug.js', 'waits.js'])
    time.sleep(0.5)
    process.send_signal(signal.SIGTERM)
    ended(process)
    same((process.returncode, room.text(CACHE)), (-signal.SIGTERM, before))
    same([it for it in room.names() if it.startswith('.jslint')], [CACHE])


def not_by_text(room):
    """What isn't by the text alone is never kept: a program that is killed, a script that can't be read."""
    put(room)
    killed = program(room, 'test -e alive || kill -9 $$; exec "$JSLINT_REAL" "$@"', 'killed') | {'JSLINT_LIBRARY': ''}
    is_well('not checked: signal 9' in files(room, '--cache', 'bug.js', **killed)[1])
    room.put('alive', '')
    same(files(room, '--cache', 'bug.js', **killed), (1, f'bug.js:{FOUND}', ''))
    same(files(room, '--cache', 'none.js')[1], 'none.js:1:1: read failed: missing\n')
    room.put('none.js', BUG)
    same(files(room, '--cache', 'none.js')[1], f'none.js:{FOUND}')


def kept(room):
    """Scripts that a run doesn't name stay in the cache as long as they are there; the cache says whose it is, and has no text of a script."""
    how = counting(room)
    put(room)
    files(room, '--cache', *TEXTS, **how)
    os.remove(room.path('jsx.js'))
    room.put('bug.js', '// no\n')
    time.sleep(GRAIN)
    files(room, '--cache', 'bug.js', **how)
    head, body = room.text(CACHE).split('\n', 1)
    is_well(head.startswith('jslint-files cache 1 '), head)
    same(sorted(os.path.basename(it) for it in json.loads(body)['records']), sorted({*TEXTS} - {'jsx.js'}))
    calls(room)
    files(room, '--cache', *({*TEXTS} - {'jsx.js'}), **how)
    same(calls(room), 0)


def words(room):
    put(room)
    for given, why in (('--cache-location x bug.js', '--cache-location is for --cache'), ('--cache --stdin bug.js', '--cache is for files'), ('fix --write --cache bug.js', '--cache is for check'), ('--cache=yes bug.js', '--cache=yes is no option; a file of that name stands behind --')):
        same(files(room, *given.split()), (2, '', f'jslint-files: {why}\n'))
    os.makedirs(room.path('below'))
    files(room, '--cache', '--cache-location', 'below/kept', 'bug.js')
    same(room.names('below'), ['kept'])


TESTS = [unchanged, changed, at_once, meanwhile, settled, touched, other_rules, other_program, torn, in_the_way, unpermitted, interrupted, not_by_text, kept, words]
