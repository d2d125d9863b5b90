"""The launcher, in a copy of the sources whose release is the program that is tested: which program it runs, and when it compares again."""
import os
import shutil
import subprocess
import time

TOP = os.path.dirname(os.path.dirname(os.path.dirname(os.path.realpath(__file__))))
SOURCE = 'crates/tree/src/kind.rt'
OTHERS = 'crates/cases/src/main.rt'
RELEASE = 'release/x86_64-linux-musl/jslint'
# What it may call; no python3 and no toolchain.
TOOLS = 'sh find cmp cat sha256sum cksum sort xargs touch mv rm mkdir readlink uname'.split()
# What it may call where bin/seen matches.
QUICK_TOOLS = 'sh find cmp'.split()


def crates_of_program():
    """The crates that the program stands on, by crates.txt."""
    with open(f'{TOP}/crates.txt', encoding='utf-8') as file:
        uses = {head.split()[0]: words.split() for head, _, words in (it.partition(':') for it in file) if head.strip()}
    found, left = set(), ['jslint']
    while left:
        name = left.pop()
        if name in uses and name not in found:
            found.add(name)
            left += uses[name]
    return sorted(found)


class Copy:
    """A copy of what the launcher reads."""

    def __init__(self, folder, program):
        self.top, self.path = f'{folder}/checkout', f'{folder}/tools'
        os.makedirs(self.path)
        for it in TOOLS:
            os.symlink(shutil.which(it), f'{self.path}/{it}')
        for crate in os.listdir(f'{TOP}/crates'):
            for part in ('src', 'specs', 'proofs'):
                if os.path.isdir(f'{TOP}/crates/{crate}/{part}'):
                    shutil.copytree(f'{TOP}/crates/{crate}/{part}', f'{self.top}/crates/{crate}/{part}')
        self.release = f'{self.top}/{RELEASE}'
        os.makedirs(os.path.dirname(self.release))
        os.makedirs(f'{self.top}/tools')
        os.makedirs(f'{self.top}/tools/measure')
        for name in ('jslint', 'crates.txt', 'tools/made-of', 'tools/build.py', 'tools/measure/seconds.txt'):
            shutil.copy(f'{TOP}/{name}', f'{self.top}/{name}')
        shutil.copy(program, self.release)
        self.describe()

    def describe(self):
        """Writes release/MADE, of the sources and the program that stand there."""
        names = crates_of_program()
        quick = self.told(['sh', '-c', '. ./tools/made-of; made_of "$@"', '', 'cksum', '.', *names])
        check = self.told(['sh', '-c', f'cksum <{self.release}'])
        with open(f'{self.top}/release/MADE', 'w', encoding='utf-8') as file:
            file.write(f'static_cksum {check}\nquick {quick}\ncrates {" ".join(names)}\n')

    def told(self, words):
        return subprocess.run(words, cwd=self.top, stdout=subprocess.PIPE, text=True, check=True).stdout.strip()

    def run(self, *words, given='((a));', at='.', name=None, before=()):
        """The status and both streams of the launcher, whose PATH has nothing but the tools; words that run it otherwise may stand before it."""
        how = {'cwd': f'{self.top}/{at}', 'stdout': subprocess.PIPE, 'stderr': subprocess.PIPE, 'text': True, 'env': {'PATH': self.path}}
        ran = subprocess.run([*before, name or f'{self.top}/jslint', *words], input=given, **how)
        return ran.returncode, ran.stdout, ran.stderr

    def gives(self, wanted, *words, **more):
        found = self.run(*words, **more)
        assert found == wanted, f'{words}: {found}'

    def answers(self, told=''):
        found = self.run('fix', '/dev/stdin')
        assert found == (0, 'a;\n', ''), f'{told}: {found}'

    def refuses(self, reason, told='', **more):
        """Answers nothing, and says why in one line; leaves no file of its own."""
        status, out, err = self.run('fix', '/dev/stdin', **more)
        assert (status, out) == (2, '') and err.startswith('jslint: ') and err.count('\n') == 1 and reason in err, f'{told}: {(status, out, err)}'
        left = [it for it in os.listdir(f'{self.top}/bin') if it.startswith('seen.')] if os.path.isdir(f'{self.top}/bin') else []
        assert not left, left

    def note(self):
        """Runs until what was compared is noted: what changed within the last two seconds isn't."""
        if os.path.exists(f'{self.top}/bin/seen'):
            os.remove(f'{self.top}/bin/seen')
        for _ in range(40):
            self.answers()
            if os.path.exists(f'{self.top}/bin/seen'):
                return
            time.sleep(0.2)
        raise AssertionError('nothing is noted')


def launcher(copy):
    """It answers at once, by each name; and not where a source or the release is another, whatever their dates say."""
    copy.answers('first')
    copy.note()
    copy.answers('noted')
    copy.gives((1, '1:1 no-debugger debugger statement\n', ''), 'check', '/dev/stdin', given='debugger;')
    copy.gives((2, '', 'jslint: syntax error at 1:2\n'), 'fix', '/dev/stdin', given='(')
    copy.gives((0, 'x = a; // b\n', ''), 'unwrap', '/dev/stdin', given='x = (a); // b\n')
    copy.gives((2, '', 'jslint: read failed: a b: missing\n'), 'fix', '--', 'a b', at='crates', name='../jslint')
    os.symlink(f'{copy.top}/jslint', f'{copy.path}/linked')
    copy.gives((0, 'a;\n', ''), 'fix', '/dev/stdin', name='linked')
    copy.gives((0, f'{os.path.realpath(copy.release)}\n', ''), '--program')


def quick(copy):
    """Where bin/seen matches, three commands are enough."""
    copy.note()
    for it in set(TOOLS) - set(QUICK_TOOLS):
        os.remove(f'{copy.path}/{it}')
    copy.answers()


def other_sources(copy):
    copy.note()
    path, differs = f'{copy.top}/{SOURCE}', 'a source differs'
    kept = f'{path}.kept'
    os.rename(path, kept)
    copy.refuses(differs, 'one is missing')
    with open(kept, 'rb') as file:
        text = file.read()
    with open(path, 'wb') as file:
        file.write(text[:-1] + bytes([text[-1] ^ 1]))
    os.remove(kept)
    copy.refuses(differs, 'a byte differs')
    os.utime(path, (1, 1))
    copy.refuses(differs, 'a byte differs, with an old date')
    with open(path, 'r+b') as file:
        file.write(text)
    copy.answers('it is as it was')
    copy.note()
    with open(f'{path}.new', 'wb') as file:
        file.write(text + b'\n')
    os.utime(f'{path}.new', (1, 1))
    os.rename(f'{path}.new', path)
    copy.refuses(differs, 'another with an old date came in its place')
    with open(path, 'wb') as file:
        file.write(text)
    copy.note()
    for name in ('crates/tree/src/new.rt', 'crates/tree/src/a/new.rt'):
        os.makedirs(os.path.dirname(f'{copy.top}/{name}'), exist_ok=True)
        with open(f'{copy.top}/{name}', 'w', encoding='utf-8'):
            pass
        copy.refuses(differs, 'one more')
        os.remove(f'{copy.top}/{name}')
    os.rmdir(f'{copy.top}/crates/tree/src/a')
    copy.note()
    os.rename(f'{copy.top}/crates/tree', f'{copy.top}/tree')
    copy.refuses(differs, 'a crate is gone')
    shutil.copytree(f'{copy.top}/tree', f'{copy.top}/crates/tree')
    copy.note()
    shutil.rmtree(f'{copy.top}/crates/tree')
    os.rename(f'{copy.top}/tree', f'{copy.top}/crates/tree')
    with open(path, 'r+b') as file:
        file.write(bytes([text[0] ^ 1]))
    copy.refuses(differs, 'another crate came in its place')
    with open(path, 'r+b') as file:
        file.write(text)
    copy.note()
    definition = f'{copy.top}/crates/tree/specs/New.antt'
    with open(definition, 'w', encoding='utf-8'):
        pass
    copy.answers('one more definition, the code is the same')
    status, out, err = copy.run('--program')
    assert (status, out) == (2, '') and differs in err, (status, out, err)
    os.remove(f'{copy.top}/bin/seen')
    copy.refuses(differs, 'one more definition')
    os.remove(definition)
    with open(f'{copy.top}/{OTHERS}', 'a', encoding='utf-8') as file:
        file.write('\n')
    copy.answers('of a crate that is no part of the program')
    with open(f'{copy.top}/crates.txt', encoding='utf-8') as file:
        crates = file.read()
    with open(f'{copy.top}/crates.txt', 'w', encoding='utf-8') as file:
        file.write(crates.replace('\ntokens: ', '\ntokens: tree '))
    copy.refuses(differs, 'tokens stands on one more')


def other_release(copy):
    """Where the sources are those of the release, and its program is another or missing, nothing is built unasked."""
    copy.note()
    with open(copy.release, 'r+b') as file:
        file.seek(100_000)
        byte = file.read(1)
        file.seek(100_000)
        file.write(bytes([byte[0] ^ 1]))
    copy.refuses('is not the program of release/MADE: git checkout -- release brings it back, and ./jslint --build')
    os.remove(copy.release)
    copy.refuses(f'{RELEASE} is missing: git checkout -- release brings it back, and ./jslint --build')
    os.remove(f'{copy.top}/release/MADE')
    copy.refuses('there is no program in release/, so')


def unwritable(copy):
    """Where nothing can be noted, it compares each time."""
    with open(f'{copy.top}/bin', 'w', encoding='utf-8'):
        pass
    copy.answers()
    copy.answers()


def room(folder, program):
    """What a test of this file is given."""
    return Copy(folder, program)


TESTS = [launcher, quick, other_sources, other_release, unwritable]
