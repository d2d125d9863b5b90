"""`jslint-files format`: what it writes, shows and names; its words; line ends, byte order marks, odd names; and what is in its way.

Each test is a function that raises where something is wrong, and libraries.Skipped where it can't be tried. Its argument is a room: a folder of its own.
"""
import os
import pwd
import random
import signal
import stat
import time

import recipes
from files import ENDING, as_nobody, ended, files, is_running, names_below, program, started, until
from libraries import Skipped
from many import has_library
from recipes import REFUSED, is_well, same

# A script, and how it is formatted.
RAW, FORMATTED = 'if(a){f( (1),b ) // c\n}', 'if (a) {\n  f((1), b); // c\n}\n'
FEWEST = FORMATTED.replace('(1)', '1')
# What `format` makes of texts: line ends, byte order marks, lines of `#!`, nothing at all.
TEXTS = [
    ('', ''), ('\n', ''), ('// a', '// a\n'), ('a', 'a;\n'), ('a;\n', 'a;\n'), ('a;\r\n', 'a;\r\n'), ('a\r\n;b', 'a;\r\nb;\r\n'), ('a;\nb;\r\n', 'a;\nb;\n'), ('a;\rb;\r\n', 'a;\r\nb;\r\n'), ('a;\rb', 'a;\nb;\n'),
    ('a;\u2028b', 'a;\nb;\n'), ('a;\r\n\r\n\r\n\r\nb\r\n', 'a;\r\n\r\nb;\r\n'), ('\ufeffa', '\ufeffa;\n'), ('\ufeffa;\n', '\ufeffa;\n'), ('\ufeffa\r\n', '\ufeffa;\r\n'), ('\ufeff', '\ufeff'), ('#!/a  b\na', '#!/a  b\na;\n'), ('#!a\r\na', '#!a\r\na;\r\n'),
    ('x = `a\r\nb` + "c\\\r\nd"\r\n', 'x =\r\n  `a\r\nb` + "c\\\r\nd";\r\n'), ('/*\r\n * a\r\n   * b\r\n */a\r\n', '/*\r\n * a\r\n * b\r\n */ a;\r\n'), ('a // b  \r\n', 'a; // b\r\n'), ('\U0001f600 = 1', None), ("'\U0001f600'", "'\U0001f600';\n"),
]


def format_of(room, text, *words):
    """What the program answers for a text."""
    room.put('asked', text)
    return room.run(['jslint', 'format', *words, '--', 'asked'], status=0)[1]


def ways(room):
    """--write replaces what differs, --diff shows it, --check names it; standard input goes to standard output."""
    for name, text in (('a.js', RAW), ('b.js', FORMATTED), ('c.js', 'a  ;\n')):
        room.put(name, text)
    names = ['a.js', 'b.js', 'c.js']
    inode = os.stat(room.path('b.js'))
    same(files(room, 'format', '--check', *names), (1, 'a.js\nc.js\n', ''))
    same(files(room, 'format', '--check', '--summary', *names), (1, 'a.js\nc.js\n', '2 of 3 scripts to be rewritten\n'))
    same(files(room, 'format', '--check', 'b.js'), (0, '', ''))
    status, out, err = files(room, 'format', '--diff', *names)
    same((status, err, [it for it in out.splitlines() if it[:3] in ('+++', '---')]), (1, '', ['--- a.js', '+++ a.js', '--- c.js', '+++ c.js']))
    is_well('\n-a  ;\n+a;\n' in out, out)
    same([room.text(it) for it in names], [RAW, FORMATTED, 'a  ;\n'])
    same(files(room, 'format', '--write', '--summary', *names), (0, '', '2 of 3 scripts rewritten\n'))
    same([room.text(it) for it in names], [FORMATTED, FORMATTED, 'a;\n'])
    now = os.stat(room.path('b.js'))
    same((now.st_ino, now.st_mtime_ns, now.st_ctime_ns), (inode.st_ino, inode.st_mtime_ns, inode.st_ctime_ns))
    same([files(room, 'format', it, *names) for it in ('--check', '--diff', '--write')], [(0, '', '')] * 3)
    same(files(room, 'format', '--stdin', 'd.js', given=RAW.encode()), (0, FORMATTED, ''))
    same(files(room, 'format', '--stdin', 'd.js', '--check', given=RAW.encode()), (1, 'd.js\n', ''))
    same(files(room, 'format', '--stdin', 'd.js', '--check', given=FORMATTED.encode()), (0, '', ''))
    same(files(room, 'format', '--stdin', 'd.js', '--diff', given=b'a  ;\n')[:2], (1, '--- d.js\n+++ d.js\n@@ -1 +1 @@\n-a  ;\n+a;\n'))
    # (a file of the command's name stands behind --, as for the others)
    room.put('format', 'debugger;\n')
    same([files(room, '--', 'format')[:2], files(room, 'format', '--check', 'format')[:2]], [(1, 'format:1:1: no-debugger debugger statement\n'), (0, '')])
    same(room.names(), ['a.js', 'b.js', 'c.js', 'format'])


def words(room):
    """What makes no sense is a line, with status 2, and nothing is written."""
    room.put('a.js', RAW)
    rows = [
        ('format a.js', 'format wants --write, --diff or --check'), ('format --write --check a.js', 'format wants --write, --diff or --check, and not several'), ('format --write --diff --check a.js', 'format wants --write, --diff or --check, and not several'),
        ('format --stdin a.js --write', '--stdin writes to standard output: --write is for files'), ('format --stdin a.js --diff --check', 'format wants --write, --diff or --check, and not several'),
        ('format --drop-comments --write a.js', '--drop-comments is for fix: format keeps them'), ('format --drop-casts --write a.js', '--drop-casts is for unwrap, and for format with --fewest'),
        ('fix --settings s.toml --write a.js', '--settings is for check, mend and format'), ('unwrap --diff --settings=s.toml a.js', '--settings is for check, mend and format'), ('format --format json --write a.js', '--format is for check'), ('fix --check a.js', '--check is for mend and format'), ('fix --write --only no-var a.js', '--only is for check and mend'), ('format --check --rule no-var=off a.js', '--rule is for check and mend'), ('unwrap --write --fewest a.js', '--fewest is for format'),
        ('--width 100 a.js', '--width is for format'), ('check --tabs a.js', '--tabs is for format'), ('format --check --width 39 a.js', '--width takes a number from 40 to 200'), ('format --check --width 201 a.js', '--width takes a number from 40 to 200'),
        ('format --check --width=080 a.js', '--width takes a number from 40 to 200'), ('format --check --width x a.js', '--width takes a number from 40 to 200'), ('format --check --indent 0 a.js', '--indent takes a number from 1 to 8'),
        ('format --check --indent 9 a.js', '--indent takes a number from 1 to 8'), ('format --check --indent=\u0662 a.js', '--indent takes a number from 1 to 8'), ('format --check --commas some a.js', '--commas is none, lists or all'),
        ('format --check --tabs=1 a.js', '--tabs=1 is no option; a file of that name stands behind --'), ('format --check', 'no file is named (--help)'), ('format --check --width', '--width needs a value'), ('check --write a.js', '--write is for fix, unwrap, mend and format'),
    ]
    for text, said in rows:
        same(files(room, *text.split(' ')), (2, '', f'jslint-files: {said}\n'), text)
    same(files(room, 'format', '--check', '--allow-none', '--project', 'a.js', '--files-from', '/dev/null')[0], 1)
    same((room.text('a.js'), room.names()), (RAW, ['a.js']))


def choices(room):
    """Each choice is the program's, alone and with others."""
    text = 'f((a)=>b,{a:1,b:[1,2,3]},"a long text that takes some room",(c),function(){return `${d}`});let e=(x)=>x*2;if((e))f()\n'
    room.put('a.js', text)
    given = [[], ['--width', '100'], ['--width=40'], ['--indent', '4'], ['--tabs'], ['--tabs', '--indent=8'], ['--commas', 'none'], ['--commas=lists'], ['--bare-arrows'], ['--fewest'],
             ['--width', '80', '--indent=2', '--commas', 'all'], ['--width', '120', '--indent', '3', '--commas', 'none', '--bare-arrows', '--fewest']]
    found = set()
    for it in given:
        wanted = format_of(room, text, *it)
        same(files(room, 'format', *it, '--stdin', 'a.js', given=text.encode()), (0, wanted, ''), it)
        room.put('a.js', wanted)
        same(files(room, 'format', '--check', *it, 'a.js'), (0, '', ''), it)
        found.add(wanted)
    is_well(len(found) >= 8, found)


def texts(room):
    """CR LF stays where the first line has it, a byte order mark and a line of `#!` stay, and a second time nothing changes."""
    for number, (text, wanted) in enumerate(TEXTS):
        room.put('a.js', text)
        if wanted is None:
            same(files(room, 'format', '--project', '--write', 'a.js')[0], 2, repr(text))
            same(room.text('a.js'), text)
            continue
        same(files(room, 'format', '--project', '--check', 'a.js'), (1, 'a.js\n', '') if text != wanted else (0, '', ''), repr(text))
        same(files(room, 'format', '--project', '--write', 'a.js'), (0, '', ''), repr(text))
        same(room.text('a.js'), wanted, repr(text))
        same(files(room, 'format', '--project', '--check', 'a.js'), (0, '', ''), repr(text))
        same(files(room, 'format', '--project', '--stdin', 'a.js', given=text.encode()), (0, wanted, ''), repr(text))


def odd_names(room):
    """Each name is taken as it is, and shown in a line."""
    odd = [b'two words.js', b'line\nfeed.js', b'not\xffutf8.js', b'-h.js', b'--write', b'*.js', b'format', b'a:1:1: b.js', b"'\"$(x)`.js", '\u202e.js'.encode(), b'::error::.js']
    for name in odd:
        with open(room.path(name), 'wb') as file:
            file.write(RAW.encode())
    listed = {'given': b'\0'.join(odd) + b'\0'}
    status, out, err = files(room, 'format', '--check', '--files-from', '-', **listed)
    same((status, out.splitlines(), err), (1, ['two words.js', 'line\\x0afeed.js', 'not\\xffutf8.js', '-h.js', '--write', '*.js', 'format', 'a:1:1: b.js', "'\"$(x)`.js", '\\u{202e}.js', './::error::.js'], ''))
    out = files(room, 'format', '--diff', '--files-from', '-', status=1, **listed)[1]
    same(out.count('\n+++ '), len(odd))
    same(files(room, 'format', '--write', '--files-from', '-', **listed), (0, '', ''))
    for name in odd:
        with open(room.path(name), 'rb') as file:
            same(file.read(), FORMATTED.encode(), name)
    same(room.names(), sorted(map(os.fsdecode, odd)))


def refused(room):
    """A script that can't be read or is refused stays as it is, has its line, and stops nothing."""
    room.put('a.js', RAW)
    room.put('bad.js', REFUSED)
    room.put('long.js', '')
    os.truncate(room.path('long.js'), 100_000_000)
    room.put('deep.js', '[' * 600 + ']' * 600)
    os.makedirs(room.path('folder'))
    os.symlink('loop.js', room.path('loop.js'))
    os.symlink('none', room.path('gone.js'))
    with open(room.path('latin.js'), 'wb') as file:
        file.write(b'a = "\xe9";')
    rows = [('bad.js', '2:1: syntax error'), ('long.js', '1:1: longer than 16777216 bytes'), ('deep.js', '1:1: nested too deep'), ('loop.js', '1:1: read failed: links in a circle'), ('gone.js', '1:1: read failed: missing'),
            ('latin.js', '1:1: not UTF-8 at byte 5'), ('none.js', '1:1: read failed: missing')]
    said = ''.join(f'{name}:{why}\n' for name, why in rows)
    names = [it for it, _ in rows]
    for way, done, out in (('--check', 'compared', 'a.js\n'), ('--write', 'rewritten', '')):
        more = f'folder:1:1: not {done}: no regular file\n/dev/null:1:1: not {done}: no regular file\n'
        same(files(room, 'format', way, *names, 'folder', '/dev/null', 'a.js'), (2, out, said + more), way)
    same([room.text('a.js'), room.text('bad.js'), room.text('deep.js'), os.stat(room.path('long.js')).st_size], [FORMATTED, REFUSED, '[' * 600 + ']' * 600, 100_000_000])
    same(files(room, 'format', '--check', '--unsupported', 'note', '--stdin', 'j.js', given=b'x = <a/>;'), (0, '', "j.js:1:5: note: syntax error (perhaps: JSX isn't ECMAScript)\n"))
    same(files(room, 'format', '--stdin', 'bad.js', given=REFUSED.encode()), (2, '', 'bad.js:2:1: syntax error\n'))


def unpermitted(room):
    """Files and folders that may not be read or written."""
    for it in (os.path.dirname(room.folder), room.folder):
        os.chmod(it, 0o755)
    recipes.install(f'{room.folder}/installed')
    for name, mode in [('a.js', 0o644), ('readonly.js', 0o444), ('secret.js', 0), ('closed/b.js', 0o644), ('open/c.js', 0o666), ('fixed/d.js', 0o666)]:
        room.put(name, RAW, mode)
    if os.geteuid() == 0:
        one = pwd.getpwnam('nobody')
        for it in ('.', 'closed', 'open', 'a.js', 'readonly.js', 'secret.js'):
            os.chown(room.path(it), one.pw_uid, one.pw_gid)
    os.chmod(room.path('closed'), 0)
    os.chmod(room.path('fixed'), 0o555)
    try:
        if as_nobody(room, ['jslint-files', '--version'])[0]:
            raise Skipped('nobody can run neither python3 nor the program here')
        names, unread = ['fixed/d.js', 'readonly.js', 'secret.js', 'closed/b.js', 'open/c.js', 'a.js'], 'secret.js:1:1: read failed: not permitted\nclosed/b.js:1:1: read failed: not permitted\n'
        same(as_nobody(room, ['jslint-files', 'format', '--check', *names]), (2, 'fixed/d.js\nreadonly.js\nopen/c.js\na.js\n', unread))
        said = f'fixed/d.js:1:1: not rewritten: Permission denied\nreadonly.js:1:1: not rewritten: Permission denied\n{unread}'
        same(as_nobody(room, ['jslint-files', 'format', '--write', *names]), (2, '', said))
        same([room.text(it) for it in ('a.js', 'open/c.js')], [FORMATTED] * 2)
        os.chmod(room.path('closed'), 0o755)
        same([room.text(it) for it in ('fixed/d.js', 'readonly.js', 'secret.js', 'closed/b.js')], [RAW] * 4)
        is_well(not any('.jslint-' in os.fsdecode(it) for it in names_below(room)), 'a new file is left')
    finally:
        os.chmod(room.path('closed'), 0o755)
        os.chmod(room.path('fixed'), 0o755)


def streams(room):
    """What can't be written is said, where anybody can read that; a disk that is full leaves each script as it is."""
    room.put('a.js', RAW)
    room.put('b.js', FORMATTED)
    os.makedirs(room.path('temporary'))
    lost, unsaid, how = (2, '', 'jslint-files: write failed\n'), (2, '', ''), {'TMPDIR': f'{room.folder}/temporary'}
    for text in ('--check a.js', '--diff a.js', '--stdin a.js <a.js', '--stdin a.js --check <a.js'):
        for to in ('>/dev/full', '>&-'):
            same(room.sh(f'jslint-files format {text} {to}', **how), lost, f'{text} {to}')
            for other in ('2>/dev/full', '2>&-'):
                same(room.sh(f'jslint-files format {text} {to} {other}', **how), unsaid, f'{text} {to} {other}')
    same(room.sh('jslint-files format --check b.js >&- 2>&- <&-'), (0, '', ''))
    same(room.sh('jslint-files format --write none.js 2>/dev/full'), unsaid)
    same(room.sh('jslint-files format --check /dev/stdin <&-')[0], 2)
    room.put('large.js', '(a);' * 2000)
    for text in ('--write', '--diff', '--check', '--write --fewest'):
        status, out, err = room.sh(f'ulimit -f 2; jslint-files format {text} large.js', TMPDIR=f'{room.folder}/temporary')
        is_well((status, out) == (2, '') and err.startswith('large.js:1:1: ') and err.count('\n') == 1, f'{text} {status} {out} {err}')
    same((room.text('a.js'), room.text('large.js'), room.names(), room.names('temporary')), (RAW, '(a);' * 2000, ['a.js', 'b.js', 'large.js', 'temporary'], []))
    for it in range(200):
        room.put(f'{it}.js', RAW)
    for way in ('--check', '--diff'):
        process = started(room, ['format', way, *(f'{it}.js' for it in range(200))], **how)
        process.stdout.close()
        is_well((process.wait(), process.stderr.read()) in ((2, b'jslint-files: write failed\n'), (1, b'')), way)
        process.stderr.close()
        same(room.names('temporary'), [])


def kept(room):
    """Mode and links; a file of two names is rewritten once, and a hard link keeps the old text; one that changed meanwhile stays."""
    room.put('a.js', RAW, 0o4751)
    os.link(room.path('a.js'), room.path('hard.js'))
    os.symlink('a.js', room.path('link.js'))
    same(files(room, 'format', '--write', '--jobs', '4', 'link.js', 'a.js', './a.js'), (0, '', ''))
    same((room.text('a.js'), stat.S_IMODE(os.stat(room.path('a.js')).st_mode), os.readlink(room.path('link.js')), room.text('hard.js')), (FORMATTED, 0o4751, b'a.js', RAW))
    same(room.names(), ['a.js', 'hard.js', 'link.js'])
    for change, wanted in [('echo "other" >b.js', 'other\n'), ('echo "other" >new; mv new b.js', 'other\n'), (': >b.js', '')]:
        room.put('b.js', RAW)
        how = program(room, f'"$JSLINT_REAL" "$@"; ended=$?; {change}; exit $ended')
        same(files(room, 'format', '--write', 'b.js', **how), (2, '', 'b.js:1:1: not rewritten: it changed meanwhile\n'), change)
        same((room.text('b.js'), room.names()), (wanted, ['a.js', 'b.js', 'hard.js', 'link.js', 'program']), change)


def interrupted(room):
    """Nothing is left behind, neither a file nor a program that runs; no script is half written; the status is the signal's."""
    names = [f'{it}.js' for it in range(6)]
    os.makedirs(room.path('temporary'))
    for number in ENDING:
        for text in ('--write', '--write --tabs', '--diff', '--check'):
            for it in names:
                room.put(it, RAW)
            room.put('begun', '')
            how = program(room, 'cat >/dev/null; printf "if (a"; echo $$ >>begun; exec sleep 600')
            known = names_below(room)
            process = started(room, ['format', *text.split(), '--jobs', '2', *names], TMPDIR=f'{room.folder}/temporary', **how)
            until(lambda: room.text('begun').count('\n') == 2)
            process.send_signal(number)
            out, err = ended(process)
            same((process.returncode, out, err, names_below(room)), (-number, b'', b'', known), f'{text} {number}')
            same([room.text(it) for it in names], [RAW] * 6)
            until(lambda: not any(is_running(it) for it in room.text('begun').split()))
    chance, met = random.Random(2), 0
    for _ in range(6):
        for it in range(40):
            room.put(f'{it}.js', RAW)
        room.put('begun', '')
        how = program(room, 'echo >>begun; exec "$JSLINT_REAL" "$@"')
        process = started(room, ['format', '--write', '--jobs', '3', *(f'{it}.js' for it in range(40))], **how)
        until(lambda: room.text('begun').count('\n') >= 3)
        time.sleep(chance.random() / 10)
        process.send_signal(signal.SIGTERM)
        ended(process)
        met += process.returncode == -signal.SIGTERM
        is_well(process.returncode in (-signal.SIGTERM, 0) and all(room.text(f'{it}.js') in (RAW, FORMATTED) for it in range(40)), process.returncode)
        is_well(not any('.jslint-' in os.fsdecode(it) for it in names_below(room)), 'a new file is left')
    is_well(met, 'none was met at work')


def casts(room):
    """Pairs stay, so those of casts do; with --fewest a script that would lose one is left and noted."""
    text = 'x=/** @type {A} */ (a),y = (b)\n'
    room.put('a.js', text)
    note = 'a.js:1:20: note: left as it is: format --fewest would take the pair of a cast; --drop-casts permits it\n'
    same(files(room, 'format', '--fewest', '--write', 'a.js'), (0, '', note))
    same(files(room, 'format', '--fewest', '--check', 'a.js'), (0, '', note))
    same(files(room, 'format', '--fewest', '--stdin', 'a.js', given=text.encode()), (0, text, note))
    same(room.text('a.js'), text)
    same(files(room, 'format', '--fewest', '--drop-casts', '--stdin', 'a.js', given=text.encode()), (0, format_of(room, text, '--fewest'), ''))
    same(files(room, 'format', '--write', 'a.js'), (0, '', ''))
    same(room.text('a.js'), format_of(room, text))


def projects(room):
    """Folders, ignored files, modules, languages that settings say."""
    os.makedirs(room.path('.git'))
    for name, text in [('a.js', RAW), ('sub/m.js', 'export   {}'), ('sub/n.mjs', 'export   {}'), ('vendor/v.js', RAW), ('node_modules/n.js', RAW), ('.jslintignore', 'vendor\n'), ('new/jslint.toml', 'edition = 2022\n'), ('new/a.js', 'async()=>await(1)'),
                       ('old/jslint.toml', 'edition = 2020\n'), ('old/a.js', 'async  (a)'), ('bad/jslint.toml', 'x = 1\n'), ('bad/a.js', RAW)]:
        room.put(name, text)
    said = 'bad/jslint.toml:1:1: bad settings: x = 1: there is no such key\n'
    status, out, err = files(room, 'format', '--check', '--project')
    same((status, out), (2, 'a.js\nnew/a.js\nold/a.js\nsub/m.js\nsub/n.mjs\n'))
    is_well(err.startswith('bad/jslint.toml:') and err.count('\n') == 1, err)
    same(files(room, 'format', '--write', '--project')[:2], (2, ''))
    same([room.text(it) for it in ('a.js', 'sub/m.js', 'sub/n.mjs', 'vendor/v.js', 'node_modules/n.js', 'new/a.js', 'old/a.js', 'bad/a.js')],
         [FORMATTED, 'export {};\n', 'export {};\n', RAW, RAW, 'async () => await (1);\n', 'async(a);\n', RAW], said)
    same(files(room, 'format', '--project', '--stdin', 'vendor/v.js', given=RAW.encode())[:2], (2, RAW))
    same(files(room, 'format', '--project', '--stdin', 'vendor/v.js', '--check', given=RAW.encode())[:2], (2, ''))


# A script that each choice changes, in two folders.
WIDE = 'f((a)=>b,{a:1,b:[1,2,3]},"a long text that takes some room",(c),function(){return `${d}`})\ng=["a text of some columns","another text",["one"],"and one more that is long"]\nh("a text of some columns","and one of some more columns than that")\n'
FLAGS = ('--tabs', '--bare-arrows', '--fewest')


def in_project(room, **texts):
    """A repository with the script in two folders and these files of settings."""
    os.makedirs(room.path('.git'))
    for name, text in {'a.js': WIDE, 'sub/b.js': WIDE, **{f'{key}.toml'.replace('__', '/'): it for key, it in texts.items()}}.items():
        room.put(name, text)


def by_settings(room):
    """Each key of the table is the program's word, alone and with others; words go over it; `check` doesn't see it, and the program refuses it."""
    in_project(room)
    rows = [({'width': 100}, ['--width', '100']), ({'width': 40, 'indent': 4}, ['--width=40', '--indent=4']), ({'tabs': True}, ['--tabs']), ({'commas': 'none'}, ['--commas', 'none']), ({'commas': 'lists'}, ['--commas', 'lists']),
            ({'bare-arrows': True}, ['--bare-arrows']), ({'fewest': True}, ['--fewest']), ({'width': 80, 'indent': 2, 'tabs': False, 'commas': 'all', 'bare-arrows': False, 'fewest': False}, []), ({}, []),
            ({'width': 120, 'indent': 3, 'tabs': True, 'commas': 'none', 'bare-arrows': True, 'fewest': True}, ['--width', '120', '--indent', '3', '--tabs', '--commas', 'none', '--bare-arrows', '--fewest'])]
    found = set()
    for table, words in rows:
        room.put('jslint.toml', table_of(table))
        wanted = format_of(room, WIDE, *words)
        for how in (['--project'], ['--settings', 'jslint.toml'], ['--project', '--settings=jslint.toml']):
            same(files(room, 'format', *how, '--stdin', 'a.js', given=WIDE.encode()), (0, wanted, ''), f'{table} {how}')
        same(files(room, 'format', '--stdin', 'a.js', given=WIDE.encode()), (0, format_of(room, WIDE), ''), table)
        found.add(wanted)
        over = ['--width=60', '--commas=lists', '--indent', '1']
        same(files(room, 'format', '--project', *over, '--stdin', 'a.js', given=WIDE.encode()), (0, format_of(room, WIDE, *(it for it in words if it in FLAGS), *over), ''), table)
        same(files(room, '--project', '--only', 'no-var', 'a.js'), (0, '', ''), table)
        same(room.run(['jslint', 'check', '--settings', 'jslint.toml', 'a.js']), (2, '', 'jslint: bad settings\n'), table)
    is_well(len(found) == len(rows) - 1, len(found))
    # (what holds without settings goes over them too)
    room.put('jslint.toml', table_of({'width': 120, 'commas': 'none', 'indent': 8}))
    same(files(room, 'format', '--project', '--width', '80', '--commas', 'all', '--indent', '2', '--stdin', 'a.js', given=WIDE.encode()), (0, format_of(room, WIDE), ''))


def table_of(choices):
    return '[format]\n' + ''.join(f'{key} = {str(it).lower() if isinstance(it, bool) else repr(it)}\n' for key, it in choices.items())


def by_folders(room):
    """The nearest settings count, and in them what overrides say of a script, key by key; each way does by that; one that needs no word of the program has none."""
    in_project(room, jslint='extends = "none"\n\n[format]\nwidth = 60\nindent = 4\n\n[[overrides]]\nfiles = ["x*.js"]\nformat = { indent = 2, width = 80 }\n\n[[overrides]]\nfiles = ["xy.js", "sub/"]\n\n[overrides.format]\ntabs = true\n',
               own__jslint='rules.no-var = "off"\n')
    for name in ('x.js', 'xy.js', 'own/c.js'):
        room.put(name, WIDE)
    words = {'a.js': ['--width=60', '--indent=4'], 'sub/b.js': ['--width=60', '--indent=4', '--tabs'], 'x.js': [], 'xy.js': ['--tabs'], 'own/c.js': []}
    room.put('kept', WIDE)
    wanted = {name: room.run(['jslint', 'format', *it, '--', 'kept'], status=0)[1] for name, it in words.items()}
    same(len({*wanted.values()}), 4)
    how = program(room, 'printf "%s " "$@" >>asked; echo >>asked; exec "$JSLINT_REAL" "$@"')
    same(files(room, 'format', '--check', '--project', **how), (1, ''.join(f'{it}\n' for it in sorted(words)), ''))
    asked = {it for it in room.text('asked').splitlines() if it.startswith('format ')}
    same(asked, {f'format {it}--edition 2020 -- /dev/stdin ' for it in ('', '--tabs ', '--width 60 --indent 4 ', '--width 60 --indent 4 --tabs ')})
    same(files(room, 'format', '--write', '--project'), (0, '', ''))
    same({it: room.text(it) for it in words}, wanted)
    same([files(room, 'format', it, '--project') for it in ('--check', '--diff')], [(0, '', '')] * 2)
    for name in words:
        same(files(room, 'format', '--project', '--stdin', name, given=WIDE.encode()), (0, wanted[name], ''), name)
    # (`--settings` holds wherever a script is, and its patterns are looked for from its folder on)
    same(files(room, 'format', '--settings', 'jslint.toml', '--stdin', 'sub/b.js', given=WIDE.encode()), (0, wanted['sub/b.js'], ''))
    same(files(room, 'format', '--settings', 'own/jslint.toml', '--project', '--stdin', 'a.js', given=WIDE.encode()), (0, wanted['own/c.js'], ''))
    # (a link has the settings of where it is)
    os.symlink('../a.js', room.path('own/link.js'))
    same(files(room, 'format', '--check', '--project', 'own/link.js', 'a.js'), (1, 'own/link.js\n', ''))
    path = os.fsdecode(os.path.realpath(room.path('jslint.toml')))
    same(files(room, '--print-config', 'xy.js')[1].splitlines()[1:], [f'extends = "none" # {path}', f'format.width = 80 # {path}, overrides.0', f'format.indent = 2 # {path}, overrides.0', f'format.tabs = true # {path}, overrides.1'])


def bad_settings(room):
    """What isn't in range or of another kind is refused with its line, its key, its value and what it takes; nothing is written, and scripts of other settings are
    done."""
    number, flag = 'a number from {} to {}'.format, 'true or false'
    rows = [('[format]\nwidth = 39\n', 2, f'format.width = 39: it takes {number(40, 200)}'), ('[format]\n# a\nwidth = 201', 3, f'format.width = 201: it takes {number(40, 200)}'), ('format.width = -80\n', 1, f'format.width = -80: it takes {number(40, 200)}'),
            ('format.width = "80"\n', 1, f'format.width = "80": it takes {number(40, 200)}'), ('format.width = 80.0', 1, f'format.width = 80.0: it takes {number(40, 200)}'), ('format.width = true\n', 1, f'format.width = true: it takes {number(40, 200)}'),
            ('format.indent = 0\n', 1, f'format.indent = 0: it takes {number(1, 8)}'), ('env = [\n "node",\n]\nformat = { indent = 9 }\n', 4, f'format.indent = 9: it takes {number(1, 8)}'), ('format.tabs = 1\n', 1, f'format.tabs = 1: it takes {flag}'),
            ('format.bare-arrows = "yes"\n', 1, f'format.bare-arrows = "yes": it takes {flag}'), ('format.fewest = []\n', 1, f'format.fewest = []: it takes {flag}'), ('format.commas = "some"\n', 1, 'format.commas = "some": it takes "none", "lists" or "all"'),
            ('format.commas = true\n', 1, 'format.commas = true: it takes "none", "lists" or "all"'), ('[format]\nTabs = true\n', 2, 'format.Tabs = true: there is no such key'), ('format = "lines"\n', 1, 'format = "lines": it takes a table'), ('format = []\n', 1, 'format = []: it takes a table'),
            ('[[overrides]]\nfiles = []\nformat.width = 1\n', 3, f'overrides.0.format.width = 1: it takes {number(40, 200)}'), ('[format]\nwidth = 80\n\n[[overrides]]\nfiles = []\n\n[overrides.format]\ntab = 2\n', 8, 'overrides.0.format.tab = 2: there is no such key'),
            ('[format]\nwidth = 80\n\n[rules]\nx = 1\n', 5, 'rules.x = 1: there is no such rule'), ('extends = "none"\n\n[[overrides]]\nfiles = []\n\n[format]\n\n[rules]\nx = 1\n', 9, 'rules.x = 1: there is no such rule')]
    in_project(room)
    room.put('own/c.js', WIDE)
    room.put('own/jslint.toml', 'format.tabs = true\n')
    for text, line, why in rows:
        room.put('jslint.toml', text)
        room.put('own/c.js', WIDE)
        for words in (['format', '--write'], ['format', '--check'], ['format', '--diff'], ['check']):
            same(files(room, *words, '--settings', 'jslint.toml', 'a.js', 'own/c.js'), (2, '', f'jslint-files: jslint.toml: bad settings (line {line}): {why}\n'), text)
        same(files(room, 'format', '--write', '--project'), (2, '', f'jslint.toml:{line}:1: bad settings: {why}\n'), text)
        same((room.text('a.js'), room.text('sub/b.js'), room.text('own/c.js')), (WIDE, WIDE, format_of(room, WIDE, '--tabs')), text)
        same(files(room, 'format', '--project', '--stdin', 'sub/b.js', given=WIDE.encode()), (2, '', f'jslint.toml:{line}:1: bad settings: {why}\n'), text)
    for text, said in (('[format', 'bad settings at 1:8'), ('format.width = 80\nformat.width = 90\n', 'bad settings at 2:1')):
        room.put('jslint.toml', text)
        status, out, err = files(room, 'format', '--check', '--settings', 'jslint.toml', 'a.js')
        is_well((status, out, err.count('\n')) == (2, '', 1) and err.startswith(f'jslint-files: jslint.toml: {said[:18]}'), err)
    same(files(room, 'format', '--check', '--settings', 'none.toml', 'a.js'), (2, '', 'jslint-files: none.toml: read failed: missing\n'))
    room.put('jslint.toml', rows[0][0])
    same(files(room, '--print-config', 'a.js'), (2, '', f'jslint-files: {os.fsdecode(os.path.realpath(room.path("jslint.toml")))}: bad settings (line 2): {rows[0][2]}\n'))


def languages_and_casts(room):
    """Settings that are named say the language too, but words go over that; `fewest` in settings leaves casts as the word does."""
    for name, text in [('new.toml', 'edition = 2022\nformat.tabs = true\n'), ('module.toml', 'source-type = "module"\n'), ('old.toml', 'edition = 2020\n'), ('fewest.toml', 'format.fewest = true\n')]:
        room.put(name, text)
    call = lambda settings, text, *words, name='a.js': files(room, 'format', '--settings', settings, *words, '--stdin', name, given=text.encode())
    same(call('new.toml', 'if(a)async()=>await(1)'), (0, 'if (a) async () => await (1);\n', ''))
    same(call('new.toml', 'if(a){b}'), (0, 'if (a) {\n\tb;\n}\n', ''))
    same(call('module.toml', 'export   {}'), (0, 'export {};\n', ''))
    same(call('old.toml', 'async  (a)'), (0, 'async(a);\n', ''))
    same(call('old.toml', 'export   {}', '--module'), (0, 'export {};\n', ''))
    same(call('new.toml', 'a  ', '--edition', '2020'), (0, 'a;\n', ''))
    same(call('old.toml', 'export   {}')[:2], (2, ''))
    same(call('new.toml', 'export   {}', name='m.mjs'), (0, 'export {};\n', ''))
    text = 'x=/** @type {A} */ (a),y = (b)\n'
    note = 'a.js:1:20: note: left as it is: format --fewest would take the pair of a cast; --drop-casts permits it\n'
    same(call('fewest.toml', text), (0, text, note))
    same(call('fewest.toml', text, '--drop-casts'), (0, format_of(room, text, '--fewest'), ''))
    same(call('old.toml', text, '--drop-casts'), (0, format_of(room, text), ''))
    room.put('a.js', text)
    same(files(room, 'format', '--write', '--settings', 'fewest.toml', 'a.js'), (0, '', note))
    same(room.text('a.js'), text)


def library_and_program(room):
    """Both say the same; with words for other lines the program is asked, also where a library is."""
    if not has_library():
        raise Skipped('the library is not installed')
    rows = [RAW, FORMATTED, 'a b', '', '\ufeffa', 'let a;\r\nlet b = (1)\r\n', 'x = `${(a)}` // b\n', 'export   {}', '/* a */', 'a;' * 3000]
    names = [f'{it}.js' for it in range(len(rows))]
    room.put('s.toml', 'format = { width = 60, tabs = true }\n\n[[overrides]]\nfiles = ["[0-4].js"]\nformat = { width = 80, tabs = false }\n')
    for text in ('--check', '--diff', '--check --tabs', '--check --fewest', '--check --settings s.toml', '--diff --settings s.toml', '--write --width 100', '--write --settings s.toml', '--write'):
        found = []
        for how in ({}, {'JSLINT_LIBRARY': ''}):
            for name, it in zip(names, rows):
                room.put(name, it)
            found.append((files(room, 'format', *text.split(), *names, **how), [room.text(it) for it in names]))
        same(found[0], found[1], text)


TESTS = [ways, words, choices, texts, odd_names, refused, unpermitted, streams, kept, interrupted, casts, projects, by_settings, by_folders, bad_settings, languages_and_casts, library_and_program]
