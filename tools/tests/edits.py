"""`edits/run.py --fit`, over a small crate of the test's own: what it says of edits that can't be read, or don't fit their crate. It needs no toolchain.

Each test is a function that raises where something is wrong. Its argument is a room: a folder of its own.
"""
import os
import shutil
import sys

from recipes import is_well, same

TOP = os.path.dirname(os.path.dirname(os.path.dirname(os.path.realpath(__file__))))
SOURCE = 'pub fn one() -> u32 {\n    1\n}\n\npub fn two() -> u32 {\n    2\n}\n\npub const THREE: u32 = 3;\n\nfn nothing() {}\n'
EDITS = '''refused: three_for_one
file: src/lib.rt
old:     1
new:     3

accepted: sum_for_one
file: src/lib.rt
old:     1
new:     0 + 1

accepted: sum_for_two
file: src/lib.rt
old: fn two() -> u32 {
new: fn two() -> u32 { let one = 1;
old:     2
new:     one + one

accepted: sum_for_three
function: three_is_three
file: src/lib.rt
old: : u32 = 3;
new: : u32 = 1 + 2;
'''
PLACE = 'edits/small.edits'
# A text of the edits, another for it, and what is said of the file then.
MALFORMED = [
    ('new:     3\n\naccepted: sum', '\naccepted: sum', f'{PLACE}:4: an empty line, or the end, stands behind `old:`, where only `new:` may'),
    ('old:     1\nnew:     3', 'new:     3', f'{PLACE}:3: `new:` stands behind `file:`, where only `old:` may'),
    ('new:     3\n\n', 'new:     3\n', f'{PLACE}:5: `accepted:` stands behind `new:`, where only `old:` or `file:` or an empty line may'),
    ('refused: three_for_one\n', '', f'{PLACE}:1: `file:` stands at the head of an edit, where only `refused:` or `accepted:` may'),
    ('refused: three_for_one\n', 'refused: three_for_one\nfunction: one\n', f'{PLACE}:2: `function:` stands behind `refused:`, where only `file:` may'),
    ('old:     1\nnew:     3', 'old:     1\n    new:     3', f'{PLACE}:4: no line of an edit:     new:     3'),
    ('new:     3', 'new:     3\n# three', f'{PLACE}:5: no line of an edit: # three'),
    ('old: :', 'old::', f'{PLACE}:21: no line of an edit: old:: u32 = 3;'),
    ('sum_for_one', 'three_for_one', f'{PLACE}:6: `three_for_one` stands a second time'),
    ('sum_for_one', 'accepted', f'{PLACE}:6: an edit can\'t be called `accepted`'),
    ('sum_for_one', 'sum for one', f'{PLACE}:6: an edit can\'t be called `sum for one`'),
]
# So too of edits that can be read.
MISFITS = [
    ('old:     1\nnew:     3', 'old:     4\nnew:     3', 'small/three_for_one: `old:     4` stands 0 times in src/lib.rt, and not once'),
    ('old:     1\nnew:     3', 'old: u32\nnew:     3', 'small/three_for_one: `old: u32` stands 3 times in src/lib.rt, and not once'),
    ('one\nfile: src/lib.rt\nold:     1\nnew:     3', 'one\nfile: src/main.rt\nold:     1\nnew:     3', 'small/three_for_one: its crate has no src/main.rt in src/ or specs/'),
    ('old:     2', 'old:  -> u32 {\nnew:  -> u32 {\nold:     2', 'small/sum_for_two: `old:  -> u32 {` stands 2 times in src/lib.rt, and not once'),
    ('old: fn two() -> u32 {\nnew: fn two() -> u32 { let one = 1;\nold:     2', 'old:     1', 'small/sum_for_two: its function is small::one, and each accepted edit has to be of another'),
    ('function: three_is_three\n', '', 'small/sum_for_three: its function is not known, and each accepted edit has to be of another'),
    ('accepted: sum_for_one', 'refused: sum_for_one', f'{PLACE}: fewer than 3 accepted edits'),
]


def begin(room):
    """A repository of one crate, with edits that fit."""
    os.makedirs(room.path('edits'))
    for name in ('form.py', 'reading.py', 'run.py', 'verdicts.py'):
        shutil.copy(f'{TOP}/edits/{name}', room.path(f'edits/{name}'))
    room.put('crates.txt', '# one crate\nsmall:\n')
    room.put('crates/small/src/lib.rt', SOURCE)
    room.put(PLACE, EDITS)
    same(said(room, '--fit'), (0, 'edits/run.py: edits of 1 crates, 0 faults\n', ''))


def said(room, *words):
    return room.run([sys.executable, 'edits/run.py', *words])


def fitting(room):
    """Each misfit has its own line, and so has each file that can't be read."""
    begin(room)
    for old, new, why in [*MALFORMED, *MISFITS]:
        is_well(EDITS.count(old) == 1, old)
        room.put(PLACE, EDITS.replace(old, new))
        same(said(room, '--fit'), (1, f'{why}\nedits/run.py: edits of 1 crates, 1 faults\n', ''))
    # (a crate of two functions has two of them)
    room.put('crates/small/src/lib.rt', SOURCE[:SOURCE.index('\nfn nothing')])
    same(said(room, '--fit'), (0, 'edits/run.py: edits of 1 crates, 0 faults\n', ''))
    room.put('crates/small/src/lib.rt', SOURCE)
    # (without the option too, where all are named, before anything is tried)
    same(said(room), (1, f'{why}\nedits/run.py: edits of 1 crates, 1 faults\n', ''))


def what_is_named(room):
    """A word that names no edit, and a file of edits of no crate, end it."""
    begin(room)
    for word, why in [('large', 'large has no edits'), ('small/four', 'small has no such edit'), ('small/', 'small has no such edit')]:
        same(said(room, word), (1, '', f'{word}: {why}\n'))
    same(said(room, '--quarter', 'small/three_for_one'), (1, '', 'edits/run.py: --quarter is of whole crates, so it takes no names of edits\n'))
    room.put(PLACE, EDITS.replace('refused: three_for_one', 'three_for_one'))
    same(said(room, 'small'), (1, '', f'{PLACE}:1: no line of an edit: three_for_one\n'))
    room.put('edits/large.edits', EDITS)
    same(said(room, '--fit'), (1, '', 'edits/large.edits: there is no such crate in crates.txt\n'))
    os.remove(room.path('edits/large.edits'))
    room.put('edits/small/four.edit', 'file: src/lib.rt\n')
    same(said(room, '--fit'), (1, '', 'edits/small: no file of edits, which are in CRATE.edits\n'))


def in_turns(room):
    """In four turns each wrong body of the repository has one, and no other edit has."""
    count = """import collections, form, run
for edits in [form.edits_of(it).values() for it in form.crates()]:
    seen = collections.Counter(it for turn in range(4) for it in run.quarter(edits, turn))
    assert seen == {it.name: 1 for it in edits if it.must_be == 'refused'}, seen
    sizes = {len(run.quarter(edits, turn)) for turn in range(4)}
    assert max(sizes) - min(sizes) < 2, sizes
"""
    same(room.run([sys.executable, '-B', '-c', count], PYTHONPATH=f'{TOP}/edits'), (0, '', ''))


TESTS = [fitting, what_is_named, in_turns]
