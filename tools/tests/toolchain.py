"""The launcher and tools/build.py beside a toolchain: when they build, what they say before it, and what they refuse. A stand-in for the toolchain's
command notes each call and takes the release's program for what it built; it proves nothing, and needs no time.
"""
import os
import re
import shutil
import sys

from launcher import SOURCE, TOP, Copy, crates_of_program
from machines import replaced

STAND_IN = '''#!/usr/bin/env python3
import hashlib, os, shutil, sys, types

TOP = {top!r}


def note(text):
    with open(TOP + '/called', 'a') as file:
        file.write(text + chr(10))


def sum_of(path):
    if not os.path.exists(path):
        return ''
    with open(path, 'rb') as file:
        return hashlib.sha256(file.read()).hexdigest()


class Crate:
    def __init__(self, folder):
        self.folder, self.name = folder, os.path.basename(folder)
        self.is_program = self.name == 'jslint'

    def below(self):
        return [Crate(TOP + '/crates/' + it) for it in USES.get(self.name, ())]

    def stamp(self):
        found = []
        for name in sorted(USES):
            for at, _, names in sorted(os.walk(TOP + '/crates/' + name)):
                found += [at + '/' + it for it in sorted(names) if '/out' not in at]
        return hashlib.sha256(''.join(map(sum_of, found)).encode()).hexdigest()

    def is_built(self):
        return os.path.exists(self.folder + '/out/built')

    def build_rlib(self, words, anew):
        note('lib ' + self.name)
        os.makedirs(self.folder + '/out', exist_ok=True)
        open(self.folder + '/out/built', 'w').close()
        return 0


def uses():
    with open(TOP + '/crates.txt') as file:
        return {{line.split(':')[0]: [it for it in line.split(':')[1].split() if it in NAMES] for line in file if line.split(':')[0] in NAMES}}


def crates_below(folder):
    found = []
    def add(name):
        for it in USES[name]:
            add(it)
        if name not in [it.name for it in found]:
            found.append(Crate(os.path.dirname(folder) + '/' + name))
    add(os.path.basename(folder))
    return found


NAMES = {names!r}
USES = uses()
rtlib = types.SimpleNamespace(PARTS=('src', 'specs', 'proofs'), crates_below=crates_below, sum_of=sum_of, guarded=lambda: [], lock=lambda crates: [])
read_files, free, processors = lambda crate: None, lambda: 64_000_000_000, lambda: 2
if __name__ == '__main__':
    note('rt ' + ' '.join(sys.argv[1:]))
    if sys.argv[1:2] == ['run']:
        program = Crate(os.getcwd())
        os.makedirs('out', exist_ok=True)
        shutil.copy(TOP + '/release/x86_64-linux-musl/jslint', 'out/jslint')
        with open('out/jslint.stamp', 'w') as file:
            file.write(program.stamp() + sum_of('out/jslint'))
'''


class Workshop(Copy):
    """A copy with the stand-in on its PATH."""

    def __init__(self, folder, program):
        super().__init__(folder, program)
        os.symlink(sys.executable, f'{self.path}/python3')
        with open(f'{self.path}/rt', 'w', encoding='utf-8') as file:
            file.write(STAND_IN.format(top=os.path.realpath(self.top), names=crates_of_program()))
        os.chmod(f'{self.path}/rt', 0o755)
        # (room on the disk isn't what is tried)
        with open(f'{self.top}/tools/build.py', encoding='utf-8') as file:
            text = file.read()
        assert text.count('\nDISK = 3\n') == 1
        with open(f'{self.top}/tools/build.py', 'w', encoding='utf-8') as file:
            file.write(text.replace('\nDISK = 3\n', '\nDISK = 0\n'))

    def called(self):
        """What the toolchain was called for since this was asked last."""
        path = f'{self.top}/called'
        if not os.path.exists(path):
            return []
        with open(path, encoding='utf-8') as file:
            found = file.read().splitlines()
        os.remove(path)
        return found

    def change(self):
        with open(f'{self.top}/{SOURCE}', 'a', encoding='utf-8') as file:
            file.write('\n')


def is_built_by(shop, found, out='a;\n', why=''):
    """It built each crate and the program, after it had said why and how long that takes."""
    status, said, err = found
    number = len(crates_of_program())
    assert (status, said) == (0, out), found
    wanted = rf'{why}jslint: the program is proved before it is built: {number} crates, about (\d+) minutes on 2 processors, '
    minutes = re.match(wanted, err)
    assert minutes and 20 < int(minutes[1]) < 200, err
    calls = shop.called()
    assert len([it for it in calls if it.startswith('lib ')]) == number - 1 and 'rt run -- --help' in calls, calls


def changed(shop):
    """Where a source differs it builds, says why and how long first; once."""
    shop.answers('the release')
    assert not shop.called()
    shop.change()
    why = "jslint: a source differs from those of release/x86_64-linux-musl/jslint, so the program is proved and built here\n"
    is_built_by(shop, shop.run('fix', '/dev/stdin'), why=why)
    shop.answers('built')
    shop.gives((0, f'{os.path.realpath(shop.top)}/bin/jslint\n', ''), '--program')
    shop.note()
    os.remove(f'{shop.top}/bin/seen')
    shop.answers('it stands')
    assert not [it for it in shop.called() if it != 'rt version'], 'built again'


def unasked(shop):
    """Where the sources are those of the release nothing is built unasked, whatever its program is; only --build does."""
    with open(shop.release, 'rb') as file:
        program = file.read()
    os.chmod(shop.release, 0o644)
    shop.refuses('no permission to execute it')
    os.remove(shop.release)
    shop.refuses('is missing')
    with open(shop.release, 'wb') as file:
        file.write(program[:-1])
    shop.refuses('is not the program of release/MADE')
    assert not shop.called(), 'something is built'
    with open(shop.release, 'wb') as file:
        file.write(program)
    is_built_by(shop, shop.run('--build'), out=f'{os.path.realpath(shop.top)}/bin/jslint\n')
    shop.gives((0, f'{os.path.realpath(shop.top)}/bin/jslint\n', ''), '--build')
    assert not shop.called(), 'built again'


def lacking(shop):
    """Where a source differs and a part of the toolchain isn't there: one line, and no trace."""
    shop.change()
    for names, said in [(['rt'], 'there is no rt here'), (['python3'], 'there is no python3 here'), (['rt', 'python3'], 'there is no rt and python3 here')]:
        for it in names:
            os.rename(f'{shop.path}/{it}', f'{shop.path}/../{it}')
        wanted = 'a source differs from those of release/x86_64-linux-musl/jslint, so the program of the sources here has to be proved and built; that needs rt'
        shop.refuses(wanted, names)
        shop.refuses(said, names)
        for words in (['--build'], ['--rebuild'], ['--try', 'fix', SOURCE]):
            found = shop.run(*words)
            assert found == (2, '', f'jslint: {words[0]} runs the toolchain; that needs rt, the command of the toolchain, and python3, and {said}\n'), found
        for it in names:
            os.rename(f'{shop.path}/../{it}', f'{shop.path}/{it}')
    assert not shop.called()


def odd_words(shop):
    """Words that --build and --rebuild don't take build nothing."""
    for words in (['--build', 'fix'], ['--rebuild', 'fix', SOURCE]):
        status, out, err = shop.run(*words)
        assert (status, out) == (2, '') and err, (status, out, err)
    assert not shop.called() and not os.path.exists(f'{shop.top}/bin/jslint')


def linked(shop):
    """No link among the sources is built from, nor a program that is a link taken for the one that was built."""
    kept = f'{shop.top}/../elsewhere'
    for name in (SOURCE, 'crates/tree/src'):
        replaced(f'{shop.top}/{name}', kept)
        os.rename(f'{shop.top}/release/MADE', f'{shop.top}/MADE')
        for words in (['fix', '/dev/stdin'], ['--build'], ['--rebuild']):
            status, out, err = shop.run(*words)
            assert (status, out) == (2, '') and f'{name} is a link or a device, and sources have to be files' in err, (words, status, out, err)
        os.rename(f'{shop.top}/MADE', f'{shop.top}/release/MADE')
        os.remove(f'{shop.top}/{name}')
        os.rename(kept, f'{shop.top}/{name}')
    assert not shop.called(), 'something is built'
    shop.run('--build')
    replaced(f'{shop.top}/bin/jslint', kept)
    shop.run('--build')
    assert not os.path.islink(f'{shop.top}/bin/jslint'), 'a link stays'


room = Workshop
TESTS = [changed, unasked, lacking, odd_words, linked]
