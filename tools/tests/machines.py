"""The launcher where the release's program can't run: it says why, and what runs there; and links among what it reads, which it refuses. In a copy of
the sources whose release is the program that is tested.
"""
import os
import re
import shutil
import signal
import stat
import subprocess
import time

import libraries
from launcher import RELEASE, SOURCE, TOP, Copy

PORTABLE = 'The WebAssembly package runs wherever Node 18 does: '
LOADER = '/lib64/ld-linux-x86-64.so.2'


class Machine(Copy):
    """A copy in which the program and what the launcher asks the system may be others."""

    def __init__(self, folder, program):
        super().__init__(folder, program)
        os.chmod(folder, 0o755)

    def put_program(self, content):
        """Another program, of which release/MADE is made."""
        with open(self.release, 'wb') as file:
            file.write(content)
        os.chmod(self.release, 0o755)
        self.describe()

    def put_tool(self, name, text):
        """Another command, as a script."""
        os.remove(f'{self.path}/{name}')
        with open(f'{self.path}/{name}', 'w', encoding='utf-8') as file:
            file.write(f'#!/bin/sh\n{text}\n')
        os.chmod(f'{self.path}/{name}', 0o755)

    def has_loader(self, path):
        """The launcher looks for the loader there."""
        with open(f'{self.top}/jslint', encoding='utf-8') as file:
            text = file.read()
        assert text.count(f'loader={LOADER}\n') == 1, 'the launcher names another loader'
        with open(f'{self.top}/jslint', 'w', encoding='utf-8') as file:
            file.write(text.replace(f'loader={LOADER}\n', f'loader={path}\n'))

    def own(self):
        """Gives all to the other user, if there is one."""
        for at, _, names in os.walk(self.top) if other_user() else ():
            for it in [at, *(f'{at}/{name}' for name in names)]:
                os.chown(it, 65534, 65534, follow_symlinks=False)


def other_user():
    """What runs a command as a user whom permissions stop: none where this one is such a user."""
    if os.geteuid():
        return []
    if not shutil.which('setpriv'):
        raise libraries.Skipped('the superuser runs this, and there is no setpriv here')
    return [shutil.which('setpriv'), '--reuid', '65534', '--regid', '65534', '--clear-groups']


def in_namespace(text):
    """What runs a command after these words of sh, among mounts of its own."""
    words = ['unshare', '-rm', 'sh', '-c']
    if not shutil.which('unshare') or subprocess.run([*words, 'mount -t tmpfs none /mnt'], stdout=subprocess.DEVNULL, stderr=subprocess.DEVNULL).returncode:
        raise libraries.Skipped('nothing can be mounted here')
    # (the launcher's PATH has no mount)
    return [shutil.which('unshare'), '-rm', shutil.which('sh'), '-c', f'kept=$PATH; PATH=/usr/sbin:/sbin:/usr/bin:/bin; {text}; PATH=$kept; exec "$@"', '']


def no_permission(copy):
    """Nobody may execute it; or another user may."""
    copy.note()
    for mode in (0o644, 0o444):
        os.chmod(copy.release, mode)
        copy.refuses(f"{RELEASE} doesn't run here: there is no permission to execute it (ls -l {RELEASE}). {PORTABLE}", oct(mode))
    os.chmod(copy.release, 0o755)
    copy.answers('executable again')


def no_permission_of_another(copy):
    other = other_user()
    with open(f'{copy.top}/a.js', 'w', encoding='utf-8') as file:
        file.write('((a));\n')
    copy.own()
    folder = os.path.dirname(copy.release)
    for path, mode, reason in [
            (copy.release, 0o055, "can't be read"), (copy.release, 0o655, "doesn't run here: there is no permission to execute it"),
            (folder, 0o655, "release/x86_64-linux-musl can't be entered: no permission"), (os.path.dirname(folder), 0o655, "release can't be entered: no permission"),
            (f'{copy.top}/release/MADE', 0o055, "release/MADE can't be read: no permission"),
            (f'{copy.top}/{SOURCE}', 0o055, "the sources can't be compared"), (f'{copy.top}/crates/tree/specs', 0o055, "the sources can't be compared")]:
        kept = stat.S_IMODE(os.stat(path).st_mode)
        os.chmod(path, mode)
        copy.refuses(reason, f'{path} {oct(mode)}', before=other)
        os.chmod(path, kept)
    # (the pipe of the other user can't be opened by its name)
    copy.gives((0, 'a;\n', ''), 'fix', 'a.js', before=other)


def noexec(copy):
    """The filesystem is mounted so from the beginning, or since it was compared."""
    copy.note()
    reason = f"its filesystem is mounted noexec. {PORTABLE}"
    before = [*in_namespace(f'mount --bind "{copy.top}" "{copy.top}" && mount -o remount,bind,noexec "{copy.top}"'), 'sh']
    copy.refuses(f"{RELEASE} can't be executed: {reason}", 'noted before', before=before)
    os.remove(f'{copy.top}/bin/seen')
    copy.refuses(f"{RELEASE} doesn't run here: {reason}", 'not noted', before=before)
    copy.answers('outside')


def other_system(copy):
    """Another system or processor, as `uname` says. It isn't tried, and nothing is read as a script."""
    copy.put_tool('uname', 'echo Linux aarch64')
    copy.put_program(b'#!/bin/sh\ntouch tried\nexit 1\n')
    copy.refuses(f"{RELEASE} doesn't run here: it is for Linux on x86-64 processors, and this is Linux aarch64. {PORTABLE}")
    copy.put_tool('uname', 'echo FreeBSD amd64')
    copy.refuses('it is for Linux on x86-64 processors, and this is FreeBSD amd64. ')
    assert not os.path.exists(f'{copy.top}/tried'), 'it was tried'


def without_loader(copy):
    """No glibc: the program runs, and what was noted on one machine that shares the folder isn't believed on another."""
    copy.has_loader('/lib64/no-loader')
    copy.note()
    copy.answers('noted')
    copy.put_tool('uname', 'echo Linux aarch64')
    copy.refuses(f"{RELEASE} doesn't run here: it is for Linux on x86-64 processors, and this is Linux aarch64. {PORTABLE}", 'noted on another machine')
    copy.put_tool('uname', 'echo Linux x86_64')
    copy.answers('on the first')


def other_end(copy):
    """It ends at once for another reason: that is said as it was."""
    copy.put_program(b'#!/bin/sh\necho no room >&2\nkill -ILL $$\n')
    copy.refuses(f"{RELEASE} doesn't run here: it was tried, ended with status 132, and said: no room. {PORTABLE}")
    copy.put_program(b'#!/bin/sh\nexit 1\n')
    copy.refuses('it was tried, ended with status 1, and said: nothing. ')


def other_loader(copy):
    """A folder that machines share: what was compared on one isn't believed on another, whose loader is another file, or none."""
    path = f'{copy.top}/loader'
    copy.has_loader(path)
    shutil.copy(LOADER, path)
    copy.note()
    copy.put_tool('uname', 'echo Linux aarch64')
    copy.answers('noted')
    os.remove(path)
    copy.refuses('this is Linux aarch64', 'none')
    shutil.copy(LOADER, path)
    copy.refuses('this is Linux aarch64', 'another file')


def portable(copy):
    """What the message names runs, as it stands there."""
    libraries.node()
    module = libraries.library('wasm/jslint.wasm')
    shutil.copytree(f'{TOP}/packages/npm', f'{copy.top}/packages/npm', ignore=shutil.ignore_patterns('jslint.wasm', 'LICENSE-*'))
    shutil.copytree(f'{TOP}/docs', f'{copy.top}/docs', dirs_exist_ok=True)
    os.makedirs(f'{copy.top}/release/wasm')
    shutil.copy(module, f'{copy.top}/release/wasm/jslint.wasm')
    for name in ('LICENSE-MIT', 'LICENSE-APACHE'):
        shutil.copy(f'{TOP}/{name}', f'{copy.top}/{name}')
    os.chmod(copy.release, 0o644)
    said = copy.run('fix', '/dev/stdin')[2]
    first, then = re.search('does: (.*), then (.*)\n', said).groups()
    with open(f'{copy.top}/a.js', 'w', encoding='utf-8') as file:
        file.write('((a));\n')
    words = ['sh', '-c', f'{first} && {then.replace("COMMAND FILE", "fix a.js")}']
    ran = subprocess.run(words, cwd=copy.top, stdout=subprocess.PIPE, stderr=subprocess.PIPE, text=True)
    assert (ran.returncode, ran.stdout, ran.stderr) == (0, 'a;\n', ''), ran


def replaced(path, target):
    """A link in the place of a file or a folder, which moves elsewhere."""
    os.rename(path, target)
    os.symlink(target, path)


def links(copy):
    """A link to a file, to a folder, to nothing and in a circle, and a pipe, among the sources: each is refused, though all bytes are the same."""
    elsewhere = f'{copy.top}/../elsewhere'
    for name in ('crates.txt', SOURCE, 'crates/tree/specs', 'crates/tree/src'):
        path = f'{copy.top}/{name}'
        copy.note()
        if name == 'crates/tree/specs':
            os.remove(f'{copy.top}/bin/seen')
        replaced(path, elsewhere)
        reason = f"the sources can't be compared with those of {RELEASE}: {name} is a link or a device, and sources have to be files"
        copy.refuses(reason, f'{name} is a link')
        copy.refuses(reason, f'{name} is still a link')
        os.remove(path)
        os.rename(elsewhere, path)
        copy.answers(f'{name} is itself again')
    put = {
        'a link in a circle': lambda path: os.symlink('..', path), 'a link to itself': lambda path: os.symlink(os.path.basename(path), path),
        'a link to nothing': lambda path: os.symlink('none', path), 'a link out of the sources': lambda path: os.symlink('/', path), 'a pipe': os.mkfifo,
    }
    for told, make in put.items():
        copy.note()
        path = f'{copy.top}/crates/tree/src/more'
        make(path)
        copy.refuses('crates/tree/src/more is a link or a device, and sources have to be files', told)
        os.remove(path)
    copy.answers('they are gone')
    os.symlink('/', f'{copy.top}/crates/cases/src/more')
    copy.answers('in a crate that is no part of the program')


def linked_program(copy):
    """The release's program, or a folder above it, behind a link: refused, though it is the same program."""
    elsewhere = f'{copy.top}/../elsewhere'
    for name in (RELEASE, os.path.dirname(RELEASE), 'release'):
        copy.note()
        path = f'{copy.top}/{name}'
        replaced(path, elsewhere)
        copy.refuses(f'{name} is a link, and what it leads to may change unseen: put the file or folder itself there')
        os.remove(path)
        os.rename(elsewhere, path)
    copy.answers('no link')


def linked_checkout(copy):
    """A link that leads to the whole, or to a crate's folder, is seen through."""
    copy.note()
    os.symlink(copy.top, f'{copy.top}/../linked')
    copy.gives((0, 'a;\n', ''), 'fix', '/dev/stdin', name=f'{copy.top}/../linked/jslint')
    replaced(f'{copy.top}/crates/tree', f'{copy.top}/../elsewhere')
    copy.note()
    with open(f'{copy.top}/{SOURCE}', 'a', encoding='utf-8') as file:
        file.write('\n')
    copy.refuses('a source differs', 'behind a link')


def interrupted_start(copy):
    """A signal while it compares: no answer, no file of its own stays, and the next start is as ever."""
    kept = os.readlink(f'{copy.path}/cksum')
    for number in (signal.SIGINT, signal.SIGTERM, signal.SIGHUP):
        copy.put_tool('cksum', f'echo begun >"{copy.top}/begun"; exec /bin/sleep 60')
        how = {'stdin': subprocess.DEVNULL, 'stdout': subprocess.PIPE, 'stderr': subprocess.PIPE, 'env': {'PATH': copy.path}}
        start = subprocess.Popen([f'{copy.top}/jslint', 'fix', '/dev/stdin'], start_new_session=True, **how)
        while start.poll() is None and not os.path.exists(f'{copy.top}/begun'):
            time.sleep(0.02)
        os.killpg(start.pid, number)
        found = start.communicate()
        assert (start.returncode, found[0]) == (130, b''), (number, start.returncode, found)
        assert not [it for it in os.listdir(f'{copy.top}/bin') if it.startswith('seen')], os.listdir(f'{copy.top}/bin')
        os.remove(f'{copy.top}/begun')
    os.remove(f'{copy.path}/cksum')
    os.symlink(kept, f'{copy.path}/cksum')
    copy.answers('after it')


def streams(copy):
    """A full disk and closed streams: the program's own words, and the launcher's, with their status."""
    copy.note()
    with open(f'{copy.top}/a.js', 'w', encoding='utf-8') as file:
        file.write('((a));\n')
    copy.gives((0, 'a;\n', ''), 'fix', 'a.js')
    for words, status in [('fix a.js >/dev/full', 2), ('fix a.js >&-', 2), ('--program >/dev/full', None), ('fix none.js 2>&-', 2)]:
        ran = subprocess.run(['sh', '-c', f'PATH=$1; ./jslint {words}', '', copy.path], cwd=copy.top, stdout=subprocess.PIPE, stderr=subprocess.PIPE, text=True)
        assert not ran.stdout and (ran.returncode == status if status else ran.returncode), (words, ran)
    os.chmod(copy.release, 0o644)
    for words in ('fix a.js 2>&-', 'fix a.js 2>/dev/full', 'fix a.js >&- 2>&-'):
        ran = subprocess.run(['sh', '-c', f'PATH=$1; ./jslint {words}', '', copy.path], cwd=copy.top, stdout=subprocess.PIPE, stderr=subprocess.PIPE, text=True)
        assert (ran.returncode, ran.stdout) == (2, ''), (words, ran)


room = Machine
TESTS = [
    interrupted_start, streams, no_permission, no_permission_of_another, noexec, other_system, without_loader, other_end, other_loader, portable, links, linked_program, linked_checkout,
]
