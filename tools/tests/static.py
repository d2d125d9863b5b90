"""The program with musl, of release/x86_64-linux-musl, beside the one with glibc: it needs no other file, gives the same answers, whatever is in its way,
and where it has too little memory, or a call of the system fails, says so; tools/static's own copies of few bytes; and what it makes of musl's heap.

Each test is a function that raises where something is wrong, and Skipped where it can't be tried. Its argument is a room.
"""
import itertools
import os
import random
import resource
import shutil
import signal
import subprocess

import libraries
import recipes
import rows
from machines import in_namespace, other_user
from recipes import is_well, same

TOP = os.path.dirname(os.path.dirname(os.path.dirname(os.path.realpath(__file__))))
STATIC, DYNAMIC = f'{TOP}/release/x86_64-linux-musl/jslint', f'{TOP}/release/x86_64-linux/jslint'
SCRIPT = 'let x = (1), y = ((x)) + `${x}`;\nfor (const each of [x, y]) { debugger; if (x == y) (each); }\n'
# Every so many rows one is tried.
STEP = 16
COPIES = r'''
#include <stdio.h>
#include <string.h>
#define ROOM 256
__attribute__((visibility("hidden"))) char __malloc_context[4096];
void *__wrap_memcpy(void *, const void *, size_t);
void *__wrap_memmove(void *, const void *, size_t);
void *__real_memcpy(void *to, const void *from, size_t count) { return memcpy(to, from, count); }
void *__real_memmove(void *to, const void *from, size_t count) { return memmove(to, from, count); }
void *__real_realloc(void *piece, size_t count) { return count ? piece : 0; }
void *__real___mmap(void *at, size_t size, int use, int how, int file, long from) { return size + use + how + file + from ? at : 0; }
int __real_main(int count, char **words, char **environment) { return count + !words + !environment; }
static unsigned char wanted[ROOM], found[ROOM];
int main(void)
{
    long tried = 0;
    for (size_t count = 0; count < 70; count++)
        for (size_t from = 60; from < 140; from++)
            for (size_t to = 60; to < 140; to++) {
                size_t apart = from < to ? to - from : from - to;
                for (size_t at = 0; at < ROOM; at++)
                    wanted[at] = found[at] = (unsigned char)(at * 37 + count);
                memmove(wanted + to, wanted + from, count);
                void *said = apart < count ? __wrap_memmove(found + to, found + from, count) : __wrap_memcpy(found + to, found + from, count);
                if (said != found + to || memcmp(wanted, found, ROOM))
                    return printf("%zu bytes from %zu to %zu\n", count, from, to), 1;
                tried++;
            }
    printf("%ld\n", tried);
    return 0;
}
'''
# mincore(2), 27 in Linux on x86-64, says whether a page is mapped, and whether it takes memory.
HEAP = r'''
void *malloc(unsigned long);
void *realloc(void *, unsigned long);
void free(void *);
long syscall(long, ...);
long write(int, const void *, unsigned long);
int main(void)
{
    char *of_two = malloc(2200), *of_three = malloc(10000), there;
    write(1, syscall(27, (unsigned long)(of_two + 4096) & ~4095UL, 1, &there) || !(there & 1) ? "-" : "+", 1);
    write(1, syscall(27, (unsigned long)(of_three + 4096) & ~4095UL, 1, &there) || there & 1 ? "-" : "+", 1);
    for (unsigned long size = 16; size < 131000; size += size / 8) {
        char *piece = malloc(size), *page = (char *)((unsigned long)piece & ~4095UL), seen;
        if (!piece)
            return 1;
        free(piece);
        write(1, syscall(27, page, 1, &seen) ? "-" : "+", 1);
    }
    char *first = realloc(malloc(1000), 16384), *last = first, used, unused;
    for (unsigned long size = 16384; size + size / 8 < 131000; size += size / 8) {
        last[size - 1] = 1;
        last = realloc(last, size + size / 8);
        write(1, last == first ? "=" : "/", 1);
    }
    char *grown = realloc(malloc(1000), 20000), *end = (char *)((unsigned long)(grown + 100000) & ~4095UL);
    *grown = 1;
    write(1, syscall(27, (unsigned long)grown & ~4095UL, 1, &used) || !(used & 1) ? "-" : "+", 1);
    write(1, syscall(27, end, 1, &unused) || unused & 1 ? "-" : "+", 1);
    return 0;
}
'''


class Room(recipes.Room):
    """A folder with both programs."""

    def __init__(self, folder, program):
        super().__init__(f'{folder}/room')
        if program != STATIC:
            raise libraries.Skipped('release/ has no programs of the sources here')
        self.program = DYNAMIC


room = Room


def ended(words, where, given='', **how):
    ran = subprocess.run(words, cwd=where, input=given, stdout=subprocess.PIPE, stderr=subprocess.PIPE, text=True, errors='replace', **how)
    return ran.returncode, ran.stdout, ran.stderr


def alone(here):
    """It runs where there is no other file."""
    os.makedirs(f'{here.folder}/empty')
    shutil.copy(STATIC, f'{here.folder}/empty/jslint')
    here.put('empty/a.js', SCRIPT)
    before = in_namespace('true')
    want = ended([here.program, 'fix', 'empty/a.js'], here.folder)
    same(want[0], 0)
    found = ended([*before, shutil.which('chroot'), f'{here.folder}/empty', '/jslint', 'fix', '/a.js'], here.folder)
    same(found, want)


def some_rows(here):
    """A sixteenth of the rows by the program with glibc, chosen anew each time: all are tried by the other."""
    kept = rows.PROGRAM, rows.ANSWERS, rows.ROOM
    rows.begin(DYNAMIC)
    rows.short_command.cache_clear()
    try:
        found = list(rows.rows_in(f'{TOP}/crates/cases/data'))[random.randrange(STEP)::STEP]
        wrong = [it for it in map(rows.try_row, found) if it]
    finally:
        rows.PROGRAM, rows.ANSWERS, rows.ROOM = kept
        rows.short_command.cache_clear()
    is_well(len(found) > 500 and not wrong, wrong[:3])


def in_the_way(here):
    """Names, folders, links in a circle, permissions, full devices and closed streams: what the other program says, with its status."""
    here.put('a.js', SCRIPT)
    here.put('crlf.js', SCRIPT.replace('\n', '\r\n'))
    here.put('-h.js', SCRIPT)
    here.put('no.js', SCRIPT)
    os.chmod(here.path('no.js'), 0)
    os.chmod(here.folder, 0o755)
    with open(here.path(b'odd\xff\n.js'), 'wb') as file:
        file.write(b'\xff')
    here.put('not.js', 'a' * 70000 + '\n+')
    here.put('odd.js', '"\u2028\U0001f600"; (\u03c0)')
    os.makedirs(here.path('folder'))
    os.symlink('two', here.path('one'))
    os.symlink('one', here.path('two'))
    os.symlink('a.js', here.path('linked'))
    os.mkfifo(here.path('pipe'))
    lines = [
        *(f'{it} {name}' for it in ('fix', 'check', 'check --spans', 'unwrap', 'tree', 'cost') for name in ('a.js', 'crlf.js', 'odd.js', 'not.js', 'none', 'folder', 'one', 'linked', '-- -h.js', 'odd*', 'no.js')),
        'same a.js crlf.js', 'same a.js none', 'same - -', 'verify a.js a.js', '', '--help', '--version', '--no', 'fix', 'fix a.js b.js', 'fix --module a.js', 'fix --edition 2022 a.js',
        'fix a.js/b', 'fix ""', 'fix /dev/null', 'fix - <a.js', 'fix - <&-', 'fix - <folder', 'fix a.js >/dev/full', 'fix a.js >&-', 'check a.js >/dev/full', 'tree not.js 2>&-', 'fix none 2>/dev/full',
        'fix $(head -c 5000 /dev/zero | tr "\\0" n)', 'check --settings none a.js', 'check --settings folder a.js', 'fix pipe & sleep 0.1; cat a.js >pipe; wait', 'tree a.js | head -c 1',
    ]
    for line in lines:
        same(*(ended(['sh', '-c', f'"$0" {line}', it], here.folder) for it in (STATIC, here.program)), line)
    other = other_user()
    if other:
        # (the superuser reads it all the same)
        elsewhere = f'{here.folder}/program'
        shutil.copy(STATIC, elsewhere)
        same(*(ended([*other, it, 'fix', 'no.js'], here.folder) for it in (elsewhere, here.program)), 'no permission')


def too_little_memory(here):
    """At each limit of memory it gives the whole answer, or says that there is too little and writes nothing."""
    here.put('a.js', SCRIPT.replace('let', 'var').replace('const', 'var') * 600)
    for name in ('fix', 'check', 'unwrap', 'tree', 'cost'):
        want, seen = ended([STATIC, name, 'a.js'], here.folder), set()
        for limit in range(1 << 20, 24 << 20, 96 << 10):
            def hold():
                resource.setrlimit(resource.RLIMIT_AS, (limit, limit))
            found = ended([STATIC, name, 'a.js'], here.folder, preexec_fn=hold)
            # (below some size the system can't start it)
            if found[0] not in (-signal.SIGKILL, -signal.SIGSEGV) or found[1:] != ('', '') or seen:
                is_well(found in (want, (2, '', 'jslint: out of memory\n')), f'{name} {limit}: {found[0]} {found[1][:80]!r} {found[2]!r}')
                seen.add(found[0])
        same(seen, {2, want[0]}, name)


# System calls by which it takes and gives back memory, reads and writes, with the error that each is made to have.
MEMORY = {'mmap': 'ENOMEM', 'mremap': 'ENOMEM', 'brk': 'ENOMEM', 'madvise': 'EINVAL', 'munmap': 'ENOMEM'}
FILES = {'open': 'EMFILE', 'read': 'EIO', 'write': 'ENOSPC'}


def with_failing(here, call, error, words):
    """How words end where the first call of this name fails, then the second, and so on."""
    for number in itertools.count(1):
        options = ['-qq', '-o', 'calls', '-e', f'trace={call}', '-e', f'inject={call}:error={error}:when={number}']
        found = ended([libraries.tool('strace'), *options, *words], here.folder)
        with open(here.path('calls'), encoding='utf-8') as file:
            if 'INJECTED' not in file.read():
                return
        yield number, found


def is_told(call, found, want, names):
    """Whether an answer is what it may be where this call fails: the whole one or that there is too little memory, or that it can't read or write."""
    if call in MEMORY:
        return found in (want, (2, '', 'jslint: out of memory\n'))
    if call == 'write':
        return (found[0], found[2]) == (2, 'jslint: write failed\n') and want[1].startswith(found[1])
    return found in [(2, '', f'jslint: read failed: {it}\n') for it in names]


def failing_calls(here):
    """Each of its calls of the system fails in turn, by strace."""
    here.put('a.js', SCRIPT.replace('let', 'var').replace('const', 'var') * 200)
    here.put('table', ended([STATIC, 'cost', 'a.js'], here.folder)[1])
    for line in ('fix a.js', 'check a.js', 'unwrap a.js', 'tree a.js', 'cost a.js', 'verify a.js table', 'same a.js a.js'):
        words, seen = line.split(), set()
        want = ended([STATIC, *words], here.folder)
        for call, error in {**MEMORY, **FILES}.items():
            for number, found in with_failing(here, call, error, [STATIC, *words]):
                is_well(is_told(call, found, want, words[1:]), f'{line}, {call} {number}: {found[0]} {found[1][-80:]!r} {found[2]!r}')
                seen.add((call, found == want))
        needed = {('mmap', True), ('mmap', False), ('open', False), ('read', False), *([('write', False)] if want[1] else [])}
        is_well(needed <= seen, f'{line}: {seen}')


def processors(here):
    """A processor that lacks what it was compiled for is refused by the program's own words, and others aren't, as with glibc."""
    emulator = libraries.tool('qemu-x86_64-static', 'qemu-x86_64')
    here.put('a.js', SCRIPT)
    for name, status in [('core2duo', 127), ('qemu64', 127), ('Nehalem', 0), ('max', 0)]:
        found, want = (ended([emulator, '-cpu', name, it, 'fix', 'a.js'], here.folder) for it in (STATIC, here.program))
        same((found, found[0]), (want, status), name)


def copies(here):
    """Few bytes are copied from each place to each other, those that overlap too, and nothing beside them changes."""
    here.put('copies.c', COPIES)
    compiler = libraries.tool('cc')
    libraries.ran([compiler, '-O2', '-Wall', '-o', 'copies', 'copies.c', f'{TOP}/tools/static/beside_musl.c', '-fno-builtin'], cwd=here.folder)
    same(libraries.ran([f'{here.folder}/copies'])[0], f'{70 * 80 * 80}\n')


def heap(here):
    """Memory of at most 26,188 bytes stays with the program when it is given back, and larger pieces go to the system; what grows to 16 KB grows on without a copy,
    and of the mapping that it gets only what it uses takes memory. Two pages are there at once, and three are not."""
    here.put('heap.c', HEAP)
    parts = [f'{TOP}/tools/static/{it}' for it in ('musl/rcrt1.o', 'beside_musl.c')]
    wraps = [f'-Wl,--wrap={it}' for it in ('main', 'memcpy', 'memmove', 'realloc', '__mmap')]
    words = ['-O2', '-fPIE', '-fno-builtin', '-nostdlib', '-static-pie', *wraps, '-o', 'heap', *parts, 'heap.c', f'{TOP}/tools/static/musl/libc.a']
    libraries.ran([libraries.tool('cc'), *words], cwd=here.folder)
    given, grown = [16], [16384]
    for sizes in (given, grown):
        while sizes[-1] + sizes[-1] // 8 < 131000:
            sizes.append(sizes[-1] + sizes[-1] // 8)
    wanted = '++' + ''.join('+' if it <= 26188 else '-' for it in given) + '=' * (len(grown) - 1) + '++'
    same(libraries.ran([f'{here.folder}/heap'])[0], wanted)


TESTS = [alone, some_rows, in_the_way, too_little_memory, failing_calls, processors, copies, heap]
