"""`jslint-files check --baseline`: what is known is left out, what is new counts, and a file that is no baseline, or is torn, is refused and stays as it is.

Each test is a function that raises where something is wrong. Its argument is a room: a folder of its own.
"""
import json
import os
import sys

import sarif
from files import files
from recipes import TOP, is_well, same

sys.path.insert(0, f'{TOP}/tools')
from jslint_files.baseline import END, HEAD, MOST_OF_LINE, entries_in, known_as, text_of  # noqa: E402
from jslint_files.streams import Wrong  # noqa: E402

FILE = 'known.txt'
MADE = f'{HEAD}\n2 no-debugger "a.js" "debugger;"\n1 no-unused-vars "a.js" "var a;"\n1 no-var "a.js" "var a;"\n{END}\n'


def make(room, *names, status=0):
    same(files(room, '--baseline', FILE, '--write-baseline', *names), (status, '', ''))
    return room.text(FILE)


def check(room, *words):
    return files(room, '--baseline', FILE, *words)


def known(room):
    """What is reported is known when it was written, and is known wherever its line goes; the last of more reports than are known are new."""
    room.put('a.js', 'debugger;\nvar a;\ndebugger;\n')
    same(make(room, 'a.js'), MADE)
    same(os.stat(room.path(FILE)).st_mode & 0o777, 0o666 & ~os.umask(os.umask(0o022)) & 0o777)
    same(check(room, '--summary', 'a.js'), (0, '', '0 reports in 1 script, 4 known\n'))
    rows = [
        ('debugger;\r\n  var a;\r\n\tdebugger;', []), ('\n\nvar a; \ndebugger;\n\ndebugger;\n', []), ('debugger;\ndebugger;\nvar a;\ndebugger;\n', ['4:1: no-debugger debugger statement']),
        ('debugger; //\nvar a;\n', ['1:1: no-debugger debugger statement']), ('let a;\n', ["1:5: no-unused-vars 'a' is never read"]), ('debugger;debugger;\n', ['1:1: no-debugger debugger statement', '1:10: no-debugger debugger statement']),
        ('debugger;\u2028f();', ["2:1: no-undef 'f' is not defined"]),
    ]
    for text, new in rows:
        room.put('a.js', text)
        same(check(room, 'a.js'), (int(bool(new)), ''.join(f'a.js:{it}\n' for it in new), ''), text)


def counted(room):
    """Known reports count for no number, and those that are gone are counted."""
    room.put('a.js', 'debugger;\nvar a;\ndebugger;\n')
    make(room, 'a.js')
    room.put('a.js', 'debugger;\nlet a;\nf();\n')
    same(check(room, '--summary', 'a.js'), (1, "a.js:2:5: no-unused-vars 'a' is never read\na.js:3:1: no-undef 'f' is not defined\n", '2 reports in 1 script, 1 known, 3 known but gone: 1 no-undef, 1 no-unused-vars\n'))
    same([check(room, '--max-warnings', it, 'a.js')[0] for it in ('1', '2')], [1, 0])


def names(room):
    """A file is known by its name from the folder of the baseline on, whatever the folder is where this runs, and whatever the name has in it."""
    odd = 'lib/a "b\u202e\u00e9.js'
    room.put(odd, 'debugger;\n')
    same(make(room, odd), f'{HEAD}\n1 no-debugger "lib/a \\"b\\u202e\\u00e9.js" "debugger;"\n{END}\n')
    same(check(room, './' + odd), (0, '', ''))
    same(check(room, room.path(odd)), (0, '', ''))
    os.symlink('lib', room.path('link'))
    same(check(room, odd.replace('lib', 'link')), (0, '', ''))
    room.put('lib/b.js', 'debugger;\n')
    same(check(room, 'lib/b.js')[0], 1)
    same(files(room, '--baseline', FILE, '--stdin', odd, given='debugger;\n'.encode()), (0, '', ''))
    same(files(room, '--baseline', f'{room.folder}/{FILE}', '--project', 'lib')[1].count('\n'), 1)


def forms(room):
    """In the forms of a document they stand as suppressed; in the others they don't stand."""
    room.put('a.js', 'debugger;\n')
    make(room, 'a.js')
    room.put('a.js', 'debugger;\nf();\n')
    element = json.loads(check(room, '--format', 'json', 'a.js')[1])[0]
    same(([it['ruleId'] for it in element['messages']], [it['suppressions'] for it in element['suppressedMessages']], element['errorCount']), (['no-undef'], [[{'kind': 'file', 'justification': ''}]], 1))
    log = json.loads(check(room, '--format', 'sarif', 'a.js')[1])
    same(sarif.faults(log), [])
    same([it.get('suppressions') for it in log['runs'][0]['results']], [[{'kind': 'external'}], None])
    for form in ('unix', 'pretty', 'github', 'junit'):
        said = check(room, '--format', form, 'a.js')[1]
        is_well('no-undef' in said and 'no-debugger' not in said, said)
    room.put('a.js', 'debugger; // jslint-disable-line no-debugger -- why\n')
    same(check(room, '--suppressions', '--summary', 'a.js'), (0, '', '0 reports in 1 script, 1 turned off by comments, 1 known but gone\n'))


def rewritten(room):
    """What is known of scripts that aren't looked at stays, as long as they are there; what is known of a refused one stays, too."""
    for name in ('a.js', 'b.js', 'c.js', 'gone.js'):
        room.put(name, 'debugger;\n')
    make(room, 'a.js', 'b.js', 'c.js', 'gone.js')
    os.unlink(room.path('gone.js'))
    room.put('a.js', 'f();\n')
    room.put('b.js', 'let = ;\n')
    said = "b.js:1:5: syntax error\n"
    same(files(room, '--baseline', FILE, '--write-baseline', 'a.js', 'b.js'), (2, said, ''))
    same(room.text(FILE), f'{HEAD}\n1 no-undef "a.js" "f();"\n1 no-debugger "b.js" "debugger;"\n1 no-debugger "c.js" "debugger;"\n{END}\n')
    same(check(room, 'a.js', 'b.js', 'c.js'), (2, said, ''))
    same(os.listdir(room.folder).count(FILE), 1)
    is_well(not [it for it in os.listdir(room.folder) if it.startswith('.jslint-')], 'a new file was left')


def refused(room):
    """A torn or foreign file is refused by name, and is never written over."""
    room.put('a.js', 'debugger;\nvar a;\ndebugger;\n')
    torn, foreign = f'{FILE} is torn: it does not end with "{END}"', f'{FILE} is no baseline: it does not begin with "{HEAD}"'
    entry = FILE + ':{}: no entry of a baseline: it is torn, or was written by something else'
    rows = [(MADE[:cut], foreign if cut < len(HEAD) else torn) for cut in range(0, len(MADE), 7)]
    rows += [('debugger;\n', foreign), (MADE.replace('baseline 1', 'baseline 2'), foreign), (MADE + '\n', torn), (MADE.replace('2 no', '0 no'), entry.format(2)), (MADE.replace('1 no-var', 'no-var'), entry.format(4)),
             (MADE.replace('"var a;"', '"var a;'), entry.format(3)), (MADE.replace('"a.js"', 'a.js'), entry.format(2)), (MADE.replace('var a;', '\\x'), entry.format(3)), (MADE.replace('2 no', '\n2 no'), entry.format(2)),
             (MADE.replace('1 no-var', '<<<<<<< ours\n1 no-var'), entry.format(4)), (MADE.replace('\n', '\r\n'), foreign)]
    for text, why in rows:
        room.put(FILE, text)
        for words in ((), ('--write-baseline',)):
            same(check(room, *words, 'a.js'), (2, '', f'jslint-files: {why}\n'), text)
        same(room.text(FILE), text)
    with open(room.path(FILE), 'wb') as file:
        file.write(MADE.replace('var a', 'v\xe9').encode('latin-1'))
    same(check(room, 'a.js'), (2, '', f'jslint-files: {FILE} is no baseline: it is not UTF-8\n'))
    os.unlink(room.path(FILE))
    same(check(room, 'a.js'), (2, '', f'jslint-files: {FILE}: read failed: missing\n'))
    os.mkdir(room.path(FILE))
    for words in ((), ('--write-baseline',)):
        is_well(check(room, *words, 'a.js')[0] == 2, 'a folder is a baseline')
    os.rmdir(room.path(FILE))
    os.mkfifo(room.path(FILE))
    same(check(room, '--write-baseline', 'a.js'), (2, '', f'jslint-files: {FILE} is no baseline: it is no regular file\n'))
    same(files(room, '--baseline', 'no/such.txt', '--write-baseline', 'a.js')[0], 2)
    for words, why in (('--write-baseline a.js', '--write-baseline is for --baseline, which names the file'), ('fix --diff --baseline b a.js', '--baseline is for check'), ('fix --diff --write-baseline a.js', '--write-baseline is for check')):
        same(files(room, *words.split()), (2, '', f'jslint-files: {why}\n'))


def with_cache(room):
    """With a cache it is the same."""
    room.put('a.js', 'debugger;\n')
    make(room, 'a.js')
    room.put('a.js', 'debugger;\nf();\n')
    wanted = check(room, 'a.js')
    for _ in range(3):
        same(check(room, '--cache', 'a.js'), wanted)
    same(files(room, '--cache', 'a.js')[1].count('\n'), 2)


def texts(room):
    """Entries are read back as they were written, and a long line stands there by its beginning and a sum."""
    entries = {('no-var', 'a\n"\\\u2028.js', 'x\ty\u00e9\U0001f600'): 3, ('no-var', 'b', ''): 1, ('a', 'b', ' '): 999999999}
    same(dict(entries_in(text_of(entries), FILE)), entries)
    long, other = 'a' * MOST_OF_LINE + 'b', 'a' * MOST_OF_LINE + 'c'
    same((known_as(f'  {long[:-1]}\r'), known_as(long) == known_as(other), len(known_as(long * 1000)) < 400), (long[:-1], False, True))
    for text in ('', HEAD, f'{HEAD}\n', f'{HEAD}\n{END}'):
        try:
            entries_in(text, FILE)
        except Wrong:
            continue
        raise AssertionError(text)
    same(dict(entries_in(f'{HEAD}\n{END}\n', FILE)), {})


TESTS = [known, counted, names, forms, rewritten, refused, with_cache, texts]
