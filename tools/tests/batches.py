"""`jslint-files` over many files by one call of the program: it must say what single calls say.

Each test is a function that raises where something is wrong, and libraries.Skipped where it can't be tried. Its argument is a room: a folder of its
own, in which it works.
"""
import os

import recipes
from files import files, program
from recipes import is_well, same

BUG, FINE, MODULE, CAST = 'debugger;\n', 'globalThis.a = 1;\n', 'export default 1;\ndebugger;\n', 'globalThis.b = /** @type {A} */ (globalThis.a);\n'
TURNED_OFF = 'debugger; // jslint-disable-line no-debugger -- it stays\n'
# Names that a line doesn't show as they are, or in which a place seems to end a name, and plain ones.
ODD = ['a: b.js', 'a.js', 'a.js:1', 'a.js:1:1 no-debugger x', '\u00fc.js', 'x\x1by.js', 'two\nlines.js', './-', ' .js', 'caf\udce9.js', '::a.js']
TEXTS = {'bug.js': BUG, 'fine.js': FINE, 'module.js': MODULE, 'cast.js': CAST, 'off.js': TURNED_OFF, 'pairs.js': 'globalThis.a = (1);\n', 'refused.js': 'let = ;\n', 'crlf.js': 'debugger;\r\n\r\n;;\r\n', 'jsx.js': 'f(<a/>);\n'}


def scripts(room):
    """Puts files of all kinds, and gives their names."""
    for name, text in TEXTS.items():
        room.put(name, text)
    for name in ODD:
        with open(os.path.join(os.fsencode(room.path('.')), os.fsencode(name)), 'w', encoding='utf-8') as file:
            file.write(BUG)
    os.makedirs(room.path('folder.js'))
    os.symlink('circle.js', room.path('circle.js'))
    os.symlink('bug.js', room.path('link.js'))
    return [*TEXTS, *ODD, 'none.js', 'folder.js', 'circle.js', 'link.js']


def each_as_alone(room):
    """What is said of many files is what is said of each alone, one after the other, whatever is asked for."""
    names = scripts(room)
    for words in ((), ('--project', '--no-ignore'), ('--edition', '2022'), ('--module',), ('--suppressions',), ('--format', 'github'), ('--hints',), ('--ends', '--format', 'json')):
        one_by_one = [files(room, *words, '--', it) for it in names]
        status, out, err = files(room, *words, '--jobs', '1', '--', *names)
        same(status, max(it[0] for it in one_by_one), words)
        if 'json' in words:
            same(out[1:-2], ','.join(it[1][1:-2] for it in one_by_one), words)
        else:
            same(out, ''.join(it[1] for it in one_by_one), words)


def by_settings(room):
    """Files that have other settings are asked for apart."""
    for folder, text in (('one', '[rules]\nno-debugger = false\n'), ('two', 'edition = 2022\n'), ('three', '')):
        os.makedirs(room.path(folder))
        room.put(f'{folder}/jslint.toml', text)
        for at in range(5):
            room.put(f'{folder}/{at}.js', BUG)
    status, out, _ = files(room, '--project')
    same((status, out), (1, ''.join(f'{folder}/{at}.js:1:1: no-debugger debugger statement\n' for folder in ('three', 'two') for at in range(5))))


def other_programs(room):
    """Where a program knows no lists, or what it says of one can't be understood, each file is asked for alone."""
    names = scripts(room)
    wanted = files(room, '--', *names)
    for odd in ('exit 2', 'echo "usage" >&2; exit 2', 'echo "z.js:1:1 no-debugger debugger statement"; exit 1', 'echo "bug.js:1:1 no-debugger debugger statement"; exit 0', 'kill -9 $$',
                'echo "jslint: z.js: syntax error at 1:1" >&2; exit 2', 'echo "bug.js:x"; exit 1', 'echo "jslint: write failed" >&2; exit 2', '"$JSLINT_REAL" "$@" | head -c 100; exit 1'):
        how = program(room, f'case "$*" in *--list*) {odd};; *) exec "$JSLINT_REAL" "$@";; esac', f'program-{abs(hash(odd))}')
        same(files(room, '--', *names, **how), wanted, odd)


def made_up(room, count):
    """Puts so many scripts in folders: with reports, warnings, refusals by one language and by all, odd names, some that can't be read; and gives their names."""
    texts, odd, names = [*TEXTS.values(), 'a == b;\nvar c;\n', 'import.meta;\n', 'async () => { await 0; };\n', 'let a, a;\n', '(' * 2000, '\ufeff;;\n'], [it for it in ODD if '/' not in it and it.endswith('.js')], []
    room.put('jslint.toml', 'extends = "all"\n[rules]\nno-var = "warn"\neqeqeq = "warn"\n[[overrides]]\nfiles = ["3/"]\nrules = { no-debugger = "off" }\n')
    for number in range(count):
        folder = number % 7
        name = f'{folder}/{number} {odd[number // 9 % len(odd)]}' if number % 9 == 0 else f'{folder}/{number}.{("js", "js", "mjs", "cjs")[number % 4]}'
        os.makedirs(room.path(str(folder)), exist_ok=True)
        with open(os.path.join(os.fsencode(room.path('.')), os.fsencode(name)), 'wb') as file:
            file.write(b'a;\xff' if number % 50 == 1 else texts[number % len(texts)].encode())
        names.append(name)
        if number % 60 == 2:
            os.remove(os.path.join(os.fsencode(room.path('.')), os.fsencode(name)))
            number % 120 == 2 and os.symlink('gone', os.path.join(os.fsencode(room.path('.')), os.fsencode(name)))
    return names


def as_one_by_one(room):
    """Of 300 scripts of all kinds what is said is what a program that knows no lists has said of each by itself, byte for byte, whatever is asked for."""
    names = made_up(room, 300)
    alone = program(room, 'case "$*" in *--list*) exit 2;; *) exec "$JSLINT_REAL" "$@";; esac') | {'JSLINT_LIBRARY': ''}
    listed = {'JSLINT': f'{recipes.BIN}/jslint', 'JSLINT_LIBRARY': ''}
    for words in (('--files-from', 'names'), ('--project',), ('--files-from', 'names', '--module'), ('--files-from', 'names', '--settings', 's.toml', '--format', 'github'), ('--project', '--hints', '--summary')):
        with open(room.path('names'), 'wb') as file:
            file.write(b''.join(os.fsencode(it) + b'\0' for it in names))
        room.put('s.toml', 'extends = "recommended"\n[rules]\nno-var = "warn"\n')
        wanted = files(room, *words, **alone)
        same(wanted[0], 2, words)
        is_well(wanted[1].count('\n') > 200, wanted[1].count('\n'))
        for jobs in ('1', '3'):
            same(files(room, *words, '--jobs', jobs, **listed), wanted, (words, jobs))


TESTS = [each_as_alone, by_settings, other_programs, as_one_by_one]
