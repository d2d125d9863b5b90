"""`jslint mend`, and `jslint-files mend`: what it writes, shows and names, by which settings; its words; line ends, byte order marks.

Each test is a function that raises where something is wrong, and libraries.Skipped where it can't be tried. Its argument is a room: a folder of its own.
"""
import os

from files import files
from libraries import Skipped
from many import has_library
from recipes import is_well, same

# A script, and what it becomes.
RAW, MENDED = "let a = typeof b == 'c';; // d\n", "const a = typeof b === 'c';; // d\n"
# Texts and what they become, byte for byte otherwise.
TEXTS = [
    ('', ''), ('// a', '// a'), (RAW, MENDED), (RAW.replace('\n', '\r\n'), MENDED.replace('\n', '\r\n')), (f'\ufeff{RAW}', f'\ufeff{MENDED}'), (RAW.replace('\n', '\r'), MENDED.replace('\n', '\r')),
    ('debugger;\u2028a', '\u2028a'), ("'\U0001f600' == 'a' // \u00e9\r\na\n", "'\U0001f600' === 'a' // \u00e9\r\na\n"), ('(a == b)  ;', '(a == b)  ;'),
]


def ways(room):
    """--write replaces what differs, --diff shows it, --check names it; standard input goes to standard output."""
    for name, text in (('a.js', RAW), ('b.js', MENDED), ('c.js', '(a) == b;')):
        room.put(name, text)
    names = ['a.js', 'b.js', 'c.js']
    inode = os.stat(room.path('b.js'))
    same(files(room, 'mend', '--check', '--summary', *names), (1, 'a.js\n', '1 of 3 scripts to be rewritten\n'))
    same(files(room, 'mend', '--diff', *names), (1, f'--- a.js\n+++ a.js\n@@ -1 +1 @@\n-{RAW}+{MENDED}', ''))
    same(room.text('a.js'), RAW)
    same(files(room, 'mend', '--write', '--summary', *names), (0, '', '1 of 3 scripts rewritten\n'))
    same([room.text(it) for it in names], [MENDED, MENDED, '(a) == b;'])
    now = os.stat(room.path('b.js'))
    same((now.st_ino, now.st_mtime_ns), (inode.st_ino, inode.st_mtime_ns))
    same([files(room, 'mend', it, *names) for it in ('--check', '--diff', '--write')], [(0, '', '')] * 3)
    same(files(room, 'mend', '--stdin', 'd.js', given=RAW.encode()), (0, MENDED, ''))
    same(files(room, 'mend', '--stdin', 'd.js', '--check', given=RAW.encode()), (1, 'd.js\n', ''))
    # (a file of the command's name stands behind --, as for the others)
    room.put('mend', 'debugger;\n')
    same([files(room, '--', 'mend')[:2], files(room, 'mend', '--check', 'mend')[:2]], [(1, 'mend:1:1: no-debugger debugger statement\n'), (1, 'mend\n')])


def texts(room):
    """Line ends, byte order marks and comments stay, by the program and by jslint-files."""
    for text, wanted in TEXTS:
        room.put('a.js', text)
        same(room.run(['jslint', 'mend', 'a.js']), (0, wanted, ''), repr(text))
        same(files(room, 'mend', '--write', 'a.js'), (0, '', ''), repr(text))
        same(room.text('a.js'), wanted, repr(text))


def settings(room):
    """Settings, --rule and --only say what is changed, as of `check`; with --project the nearest settings do, and `[[overrides]]`."""
    room.put('a.js', RAW)
    room.put('s.toml', 'extends = "none"\n[rules]\nno-extra-semi = true\n')
    rows = [
        ('--settings s.toml', RAW.replace(';;', ';')), ('--only eqeqeq', RAW.replace('==', '===')), ('--rule eqeqeq=off', RAW.replace('let', 'const')), ('--rule eqeqeq=warn', MENDED),
        ('--settings s.toml --rule prefer-const=error', RAW.replace(';;', ';').replace('let', 'const')), ('--only no-extra-semi --only eqeqeq', RAW.replace(';;', ';').replace('==', '===')),
    ]
    for words, wanted in rows:
        same(files(room, 'mend', *words.split(), '--stdin', 'a.js', given=RAW.encode()), (0, wanted, ''), words)
    room.put('x/jslint.toml', 'only = ["eqeqeq"]\n[[overrides]]\nfiles = ["b.js"]\nonly = ["prefer-const"]\n')
    for name in ('a.js', 'b.js', 'x/a.js', 'x/b.js'):
        room.put(name, RAW)
    same(files(room, 'mend', '--write', '--project'), (0, '', ''))
    same([room.text(it) for it in ('a.js', 'b.js', 'x/a.js', 'x/b.js')], [MENDED, MENDED, RAW.replace('==', '==='), RAW.replace('let', 'const')])
    room.put('x/jslint.toml', 'edition = 2022\nsource-type = "module"\nformat = { width = 100 }\n')
    room.put('x/a.js', f'export {RAW}')
    same(files(room, 'mend', '--write', '--project', 'x'), (0, '', ''))
    same(room.text('x/a.js'), f'export {MENDED}')


def refused(room):
    """What `check` refuses it refuses, and no file changes; words that make no sense are refused too."""
    room.put('a.js', 'a b\n')
    room.put('b.js', RAW)
    same(files(room, 'mend', '--write', 'a.js', 'b.js'), (2, '', 'a.js:1:3: syntax error\n'))
    same((room.text('a.js'), room.text('b.js')), ('a b\n', MENDED))
    room.put('s.toml', 'no-such = 1\n')
    room.put('b.js', RAW)
    status, out, err = files(room, 'mend', '--write', '--settings', 's.toml', 'b.js')
    is_well((status, out) == (2, '') and err.startswith('jslint-files: s.toml: '), err)
    rows = [
        ('mend a.js', 'mend wants --write, --diff or --check'), ('mend --write --check a.js', 'mend wants --write, --diff or --check, and not several'), ('mend --write --tabs a.js', '--tabs is for format'),
        ('mend --write --drop-casts a.js', '--drop-casts is for unwrap'), ('mend --write --drop-comments a.js', '--drop-comments is for fix: mend keeps them'), ('mend --write --suppressions a.js', '--suppressions is for check'),
    ]
    for words, said in rows:
        same(files(room, *words.split()), (2, '', f'jslint-files: {said}\n'), words)
    same(room.text('b.js'), RAW)


def library_and_program(room):
    """Both say the same."""
    if not has_library():
        raise Skipped('the library is not installed')
    for name, (text, _) in enumerate(TEXTS):
        room.put(f'{name}.js', text)
    room.put('s.toml', 'extends = "all"\n')
    for words in ('--diff', '--check --settings s.toml', '--diff --only eqeqeq'):
        found = [files(room, 'mend', *words.split(), *(f'{it}.js' for it in range(len(TEXTS))), **how) for how in ({}, {'JSLINT_LIBRARY': ''})]
        same(found[0], found[1], words)


TESTS = [ways, texts, settings, refused, library_and_program]
