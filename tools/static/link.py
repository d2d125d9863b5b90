#!/usr/bin/env python3
"""Links the program that was proved with the C library musl in place of glibc: one file that needs no other, for every Linux on x86-64.

    link.py OBJECT FILE     links the toolchain's object of the program, which stands in crates/jslint/out when it was proved, as FILE
    link.py --musl OBJECT   takes into musl/ what that needs of Debian's musl-dev, which has to be installed here
    link.py --held OBJECT   compares musl/ with that: status 1 where it is another

README.md beside this file says what is linked, and why.
"""
import os
import shutil
import subprocess
import sys
import tempfile

HERE = os.path.dirname(os.path.realpath(__file__))
MUSL = f'{HERE}/musl'
# Where Debian's musl-dev puts its files.
INSTALLED = '/usr/lib/x86_64-linux-musl'
# The program's beginning, and the library.
PARTS = ('rcrt1.o', 'libc.a')
SOURCE = f'{HERE}/beside_musl.c'
TARGET = '--target=x86_64-unknown-linux-gnu'
CLANG_FLAGS = [TARGET, '-O2', '-ffreestanding', '-nostdinc', '-fPIE', '-ffunction-sections', '--no-default-config', '-fno-crash-diagnostics', '-Wall', '-Wextra', '-Werror']
LLD_FLAGS = [
    '-m', 'elf_x86_64', '-static', '-pie', '--no-dynamic-linker', '-z', 'text', '-z', 'relro', '-z', 'noexecstack', '--gc-sections', '--strip-all',
    '--no-dependent-libraries', '--build-id=none', '--threads=1', '--fatal-warnings', '--wrap=main', '--wrap=memcpy', '--wrap=memmove', '--wrap=realloc',
    '--wrap=__mmap',
]


class Refused(Exception):
    """Why there is no program, in one sentence."""


def run(words, **how):
    ran = subprocess.run(words, stdin=subprocess.DEVNULL, stdout=subprocess.PIPE, stderr=subprocess.STDOUT, text=True, **how)
    if ran.returncode:
        raise Refused(f'{" ".join(words)[:200]} .. ended with {ran.returncode}: {ran.stdout[-2000:]}')
    return ran.stdout


def link(kit, made, to, musl=MUSL, more=()):
    """Links an object of the program with musl, and gives what the linker said."""
    tools = f'{kit}/toolchain/bin'
    with tempfile.TemporaryDirectory() as room:
        beside = f'{room}/beside_musl.o'
        run([f'{tools}/clang', *CLANG_FLAGS, '-c', SOURCE, '-o', beside])
        parts = [f'{musl}/rcrt1.o', beside, made, f'{kit}/c/libos_c.a', f'{kit}/c/liblibc_c.a', f'{musl}/libc.a']
        return run([f'{tools}/ld.lld', *LLD_FLAGS, *more, '-o', to, *parts])


def hold_object(kit, made, program):
    """Refuses an object that isn't the one which the toolchain linked as this program."""
    if not os.path.isfile(made):
        raise Refused(f'{made} is missing, the object of the program: it stands there when the program was proved')
    with tempfile.TemporaryDirectory() as room:
        words = ['--target', TARGET.partition('=')[2], '--toolchain', f'{kit}/toolchain', '-o', f'{room}/again', made]
        run([f'{kit}/bin/rattle-link', *words, f'{kit}/c/libos_c.a', f'{kit}/c/liblibc_c.a'], cwd=room)
        with open(f'{room}/again', 'rb') as again, open(program, 'rb') as proved:
            if again.read() != proved.read():
                raise Refused(f'{made} is not the object of which {program} was linked')


def members(archive):
    """The members of an archive as they stand there, each with its name."""
    found, at, names = [], 8, b''
    while at < len(archive):
        head, size = archive[at:at + 60], int(archive[at + 48:at + 58])
        end = at + 60 + size + size % 2
        name = head[:16].rstrip()
        if name == b'//':
            names = archive[at + 60:at + 60 + size]
        elif name != b'/':
            # (a long name stands in the member //, at that place)
            name = names[int(name[1:]):].partition(b'/')[0] if name[:1] == b'/' else name.rstrip(b'/')
            found.append((name.decode(), archive[at + 60:at + 60 + size]))
        at = end
    return found


def made_archive(kit, found, to):
    """An archive of these members, of which two may have one name."""
    with tempfile.TemporaryDirectory() as room:
        for at, (name, content) in enumerate(found):
            os.mkdir(f'{room}/{at}')
            with open(f'{room}/{at}/{name}', 'wb') as file:
                file.write(content)
        run([f'{kit}/toolchain/bin/llvm-ar', 'qcsD', to, *(f'{room}/{at}/{name}' for at, (name, _) in enumerate(found))])


def take_musl(kit, made, folder):
    """Puts into a folder what the program needs of the musl that is installed."""
    if not os.path.isfile(f'{INSTALLED}/libc.a'):
        raise Refused(f'there is no {INSTALLED}/libc.a: apt-get install musl-dev brings it')
    with tempfile.TemporaryDirectory() as room:
        traced = link(kit, made, f'{room}/jslint', INSTALLED, ['--trace'])
    needed = {it.partition('(')[2].rstrip(')') for it in traced.split() if it.startswith(f'{INSTALLED}/libc.a(')}
    with open(f'{INSTALLED}/libc.a', 'rb') as file:
        found = [(name, content) for name, content in members(file.read()) if name in needed]
    made_archive(kit, found, f'{folder}/libc.a')
    with open(f'{INSTALLED}/rcrt1.o', 'rb') as file, open(f'{folder}/rcrt1.o', 'wb') as taken:
        taken.write(file.read())


def hold_musl(kit, made):
    """Refuses where musl/ isn't what is installed."""
    with tempfile.TemporaryDirectory() as room:
        take_musl(kit, made, room)
        for name in PARTS:
            with open(f'{room}/{name}', 'rb') as installed, open(f'{MUSL}/{name}', 'rb') as kept:
                if installed.read() != kept.read():
                    raise Refused(f'musl/{name} is not what the program needs of the musl that is installed')


def main(words):
    if len(words) != 2 or words[1].startswith('-'):
        print(__doc__.strip(), file=sys.stderr)
        return 2
    command = shutil.which('rt')
    if not command:
        raise Refused('the command `rt` of the toolchain is not found, whose compiler and linker are taken')
    kit = os.path.dirname(os.path.dirname(os.path.realpath(command)))
    if words[0] == '--musl':
        for name in PARTS:
            if os.path.exists(f'{MUSL}/{name}'):
                os.remove(f'{MUSL}/{name}')
        take_musl(kit, words[1], MUSL)
    elif words[0] == '--held':
        hold_musl(kit, words[1])
    else:
        link(kit, *words)
    return 0


if __name__ == '__main__':
    try:
        sys.exit(main(sys.argv[1:]))
    except Refused as why:
        print(f'link: {why}', file=sys.stderr)
        sys.exit(1)
