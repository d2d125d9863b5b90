"""Makes a WebAssembly module with a memory of 32 bits of the LLVM module of a proved static library.

    retarget.py --clang CLANG --lld LLD --heap heap.c --helpers helpers.c [--stack BYTES] [--keep FOLDER] -o OUT.wasm MODULE.bc

MODULE.bc is what `rattle build --crate-type staticlib` hands to its clang for x86-64. README.md beside this file says each step, and why. What
stands in the module in a form that no step here knows ends it, with the line and status 1: nothing is passed over in silence, and nothing is made.
"""
import argparse
import os
import re
import subprocess
import sys
import tempfile

import layout
from layout import Unknown

# What the module is for, and what is made of it.
GIVEN_TRIPLE = 'x86_64-unknown-linux-gnu'
GIVEN_LAYOUT = 'e-m:e-p270:32:32-p271:32:32-p272:64:64-i64:64-i128:128-f80:128-n8:16:32:64-S128'
TRIPLE = 'wasm32-unknown-unknown'
LAYOUT = 'e-m:e-p:32:32-p10:8:8-p20:8:8-i64:64-i128:128-n32:64-S128-ni:1:10:20'
CPU, FEATURES = 'lime1', '+simd128'
# As `rattle build` passes for its own WebAssembly target.
FLAGS = [
    '-mllvm', '-expand-div-rem-bits=64', '-mllvm', '-expand-fp-convert-bits=64', '-ffunction-sections', '-fdata-sections', '-mllvm', '-trap-unreachable',
    '-mllvm', '-disable-machine-licm', '-mllvm', '-disable-postra-machine-licm', '-mllvm', '-sink-common-insts=false',
    '--no-default-config', '-no-canonical-prefixes', '-fno-crash-diagnostics', '-Werror',
]
C_FLAGS = ['-O2', '-fwrapv', '-ffreestanding', '-nostdinc', '-x', 'c']
SIZES = {'i1': 1, 'i8': 1, 'i16': 2, 'i32': 4, 'i64': 8, 'i128': 16, 'float': 4, 'double': 8}
# The check at the head of a function with a frame.
CHECK = '''  %frame.at = call ptr @llvm.frameaddress.p0(i32 0)
  %frame.number = ptrtoint ptr %frame.at to i32
  %frame.is_out = icmp slt i32 %frame.number, 16
  br i1 %frame.is_out, label %frame.out, label %frame.in

frame.out:
  call void @llvm.trap()
  unreachable

frame.in:
'''
INTRINSICS = {'llvm.frameaddress': 'declare ptr @llvm.frameaddress.p0(i32 immarg)', 'llvm.trap': 'declare void @llvm.trap()'}
# x86-64's shuffle of bytes. Its index counts by its low four bits, and an index with the high bit gives 0. WebAssembly's gives 0 for each index above
# 15, so the three bits between are taken out.
SHUFFLE = re.compile(r'  (%\S+) = (tail )?call <16 x i8> @llvm\.x86\.ssse3\.pshuf\.b\.128\(<16 x i8> (%\S+), <16 x i8> (%\S+)\)( #\d+)?$')
SHUFFLE_DECLARED = 'declare <16 x i8> @llvm.x86.ssse3.pshuf.b.128(<16 x i8>, <16 x i8>)'
SWIZZLE_DECLARED = 'declare <16 x i8> @llvm.wasm.swizzle(<16 x i8>, <16 x i8>)'
PLACE = r'(%[\w.]+|@"[^"]*"|@[\w.]+)'
LOAD = re.compile(rf'  (%\S+) = load (\{{[^}}]*\}}), ptr {PLACE}(?:, align (\d+))?(.*)$')
STORE = re.compile(rf'  store (\{{[^}}]*\}}) (%[\w.]+), ptr {PLACE}(?:, align (\d+))?(.*)$')
# A pointer in a constant, as it is known.
ADDRESS = re.compile(rf'ptr (null|{PLACE}|getelementptr (?:inbounds |nuw |nusw )*\(i8, ptr {PLACE}, i64 -?\d+\))')


def size_of(kind, pointer):
    """The bytes of a value, where a pointer has so many."""
    array = re.fullmatch(r'\[(\d+) x (\w+)\]', kind)
    if array and array[2] != 'ptr':
        return int(array[1]) * size_of(array[2], pointer)
    if kind != 'ptr' and kind not in SIZES:
        raise Unknown(f'a value of the kind {kind}')
    return pointer if kind == 'ptr' else SIZES[kind]


def align_of(kind, pointer):
    array = re.fullmatch(r'\[(\d+) x (\w+)\]', kind)
    return align_of(array[2], pointer) if array else size_of(kind, pointer)


def offsets(kinds, pointer):
    """Where each part of a value lies in it."""
    at, found = 0, []
    for kind in kinds:
        align = align_of(kind, pointer)
        at = (at + align - 1) // align * align
        found.append(at)
        at += size_of(kind, pointer)
    return found


def parts_of(text):
    """The parts of a list, at the commas outside brackets and texts."""
    found, depth, is_quoted = [''], 0, False
    for each in text:
        is_quoted = is_quoted != (each == '"')
        if not is_quoted:
            depth += (each in '([{<') - (each in ')]}>')
        if each == ',' and depth == 0 and not is_quoted:
            found.append('')
        else:
            found[-1] += each
    return [it.strip() for it in found]


class Module:
    """The text of an LLVM module, with what was changed in it, by name."""

    def __init__(self, text):
        self.text, self.names, self.counts = text, 0, {}

    def count(self, what, number=1):
        self.counts[what] = self.counts.get(what, 0) + number

    def fresh(self):
        self.names += 1
        return f'%part.{self.names}'

    def by_lines(self, change):
        """Puts what `change` makes of each line in the line's place."""
        made, line = [], ''
        try:
            for line in self.text.split('\n'):
                made += change(line)
        except Unknown as what:
            raise Unknown(f'{what}, in the line: {line.strip()[:300]}') from None
        self.text = '\n'.join(made)

    def shuffled(self, line):
        """Step 3: a shuffle of bytes."""
        found = SHUFFLE.match(line)
        if not found:
            return [SWIZZLE_DECLARED + line[len(SHUFFLE_DECLARED):] if line.startswith(SHUFFLE_DECLARED) else line]
        self.count('shuffles of bytes')
        index = self.fresh()
        return [f'  {index} = and <16 x i8> {found[4]}, splat (i8 -113)', f'  {found[1]} = call <16 x i8> @llvm.wasm.swizzle(<16 x i8> {found[3]}, <16 x i8> {index})']

    def head(self):
        """Step 2: the target, and no calls of a processor's own."""
        for what, given in (('triple', GIVEN_TRIPLE), ('datalayout', GIVEN_LAYOUT)):
            if f'target {what} = "{given}"' not in self.text:
                raise Unknown(f'another {what} than {given}')
        found = re.search(r'^declare .*@"?(llvm\.x86[^"(]*)', self.text, re.M)
        if found or '"target-features"' in self.text:
            raise Unknown(f'a call of {found[1]}' if found else 'features of a processor')
        self.text = re.sub(r'target datalayout = "[^"]*"', f'target datalayout = "{LAYOUT}"', self.text)
        self.text = re.sub(r'target triple = "[^"]*"', f'target triple = "{TRIPLE}"', self.text)
        own = f'"no-builtin-bcmp" "no-builtin-memcmp" "no-builtin-strlen" "target-cpu"="{CPU}" "target-features"="{FEATURES}"'
        self.text = re.sub(r'"target-cpu"="[^"]*"', own, self.text)

    def exports(self):
        """Step 4: each function that isn't internal gets its name as an export. Answers the names."""
        names = []

        def change(line):
            found = re.match(r'define (?!internal|private)(.*) @"?([\w.]+)"?\((.*)\) (#\d+) \{$', line)
            if not found and re.match(r'define (?!internal|private)', line):
                raise Unknown('a function that others call')
            if found:
                names.append(found[2])
                line = f'{line[:-2]} "wasm-export-name"="{found[2]}" {{'
            return [line]

        self.by_lines(change)
        return names

    def loaded(self, found, kinds, align):
        """A load, part by part."""
        lines, value = [], 'poison'
        for number, (kind, offset) in enumerate(zip(kinds, offsets(kinds, 8))):
            place, part = self.fresh(), self.fresh()
            whole = found[1] if number == len(kinds) - 1 else self.fresh()
            lines += [f'  {place} = getelementptr i8, ptr {found[3]}, i64 {offset}', f'  {part} = load {kind}, ptr {place}, align {min(align_of(kind, 4), align)}',
                      f'  {whole} = insertvalue {found[2]} {value}, {kind} {part}, {number}']
            value = whole
        return lines

    def stored(self, found, kinds, align):
        """A store, part by part."""
        lines = []
        for number, (kind, offset) in enumerate(zip(kinds, offsets(kinds, 8))):
            place, part = self.fresh(), self.fresh()
            lines += [f'  {place} = getelementptr i8, ptr {found[3]}, i64 {offset}', f'  {part} = extractvalue {found[1]} {found[2]}, {number}',
                      f'  store {kind} {part}, ptr {place}, align {min(align_of(kind, 4), align)}']
        return lines

    def split(self, line):
        """Step 5: a load or a store of a value with several parts, at the offsets that they have where a pointer has 64 bits."""
        load, store = LOAD.match(line), STORE.match(line)
        found = load or store
        if not found:
            if re.search(r'\b(load|store) (volatile |atomic )*\{', line):
                raise Unknown('a load or a store of a value of several parts')
            return [line]
        kind = load[2] if load else store[1]
        kinds = [it.strip() for it in kind[1:-1].split(',')]
        if offsets(kinds, 8) == offsets(kinds, 4) and 'ptr' not in kinds:
            return [line]
        self.count(f'{"loads" if load else "stores"} of {kind}')
        return (self.loaded if load else self.stored)(found, kinds, int(found[4] or 8))

    def widened(self, line):
        """Step 5 too: in a packed constant each pointer gets 4 bytes after it, so that it has the 8 that the code counts with."""
        found = re.match(r'(@"[^"]*"|@\S+) = (.*)$', line)
        if not found or 'ptr' not in layout.tokens_of(found[2]):
            return [line]
        packed = re.fullmatch(r'(.* (?:constant|global)) <\{(.*?)\}> <\{(.*)\}>(.*)', found[2])
        kinds, values = (parts_of(packed[2]), parts_of(packed[3])) if packed else ([], [])
        if len(kinds) != len(values) or not kinds or any(not value.startswith(f'{kind} ') for kind, value in zip(kinds, values)):
            raise Unknown('a constant with pointers')
        if any(kind == 'ptr' and not ADDRESS.fullmatch(value) for kind, value in zip(kinds, values)):
            raise Unknown('a pointer in a constant')
        self.count('constants with pointers')
        kinds = [each for kind in kinds for each in [kind, *['[4 x i8]'] * (kind == 'ptr')]]
        values = [each for value in values for each in [value, *['[4 x i8] zeroinitializer'] * value.startswith('ptr ')]]
        return [f'{found[1]} = {packed[1]} <{{ {", ".join(kinds)} }}> <{{ {", ".join(values)} }}>{packed[4]}']

    def roomy(self):
        """Step 5 too: an `alloca` of pointers has 8 bytes for each."""
        self.text, number = re.subn(r'(?m)^(  %\S+ = alloca) ptr,', r'\1 [8 x i8],', self.text)
        self.count('places of pointers', number)

    def addresses(self):
        """Step 6: the number of a pointer has 64 bits as before; its upper half is 0."""
        self.text, number = re.subn(r'ptrtoaddr ptr (\S+) to i64', r'ptrtoint ptr \1 to i64', self.text)
        self.count('numbers of pointers', number)

    def guarded(self, function):
        """A function that stops where its frame lies below the memory's first bytes: behind the last place of its first block."""
        found = re.match(r'define .*\{\n(\S+):.*\n(?:  .*\n)*  %\S+ = alloca .*\n', function)
        if found is None:
            if re.match(r'define ', function) and re.search(r'^  %\S+ = alloca ', function, re.M):
                raise Unknown(f'a frame: {function[:300]}')
            return function
        self.count('functions with a frame')
        # (what comes from the first block comes from the new one now)
        rest = re.sub(rf'(\[ [^\[\]]*, )%{re.escape(found[1])} \]', r'\1%frame.in ]', function[found.end():])
        return function[:found.end()] + CHECK + rest

    def stack(self):
        """Step 9: a run that has used up the stack stops. In the optimized text: before, a check would keep functions from being inlined."""
        self.text = ''.join(self.guarded(it) for it in re.split(r'(?m)^(?=define )', self.text))
        for name, line in INTRINSICS.items():
            if not re.search(rf'^declare .*@{re.escape(name)}', self.text, re.M):
                self.text += f'\n{line}\n'


def rewritten(text):
    """What steps 2 to 7 make of the text of a module for x86-64, and the names of its exports."""
    module = Module(text)
    module.by_lines(module.shuffled)
    module.head()
    names = module.exports()
    module.by_lines(module.split)
    module.by_lines(module.widened)
    module.roomy()
    module.addresses()
    layout.check(module.text)
    return module, names


def run(words):
    found = subprocess.run(words, stdout=subprocess.PIPE, stderr=subprocess.STDOUT, text=True)
    if found.returncode:
        raise Unknown(f'a refusal of {" ".join(words)}\n{found.stdout[:4000]}')


def text_of(path):
    with open(path, encoding='utf-8') as file:
        return file.read()


def put(path, text):
    with open(path, 'w', encoding='utf-8') as file:
        file.write(text)


def compiled(given, room):
    """The object files, the names of the exports, and the counts of what was changed."""
    clang, flags = given.clang, [given.clang, f'--target={TRIPLE}', f'-mcpu={CPU}', *FLAGS]
    run([clang, '-x', 'ir', given.module, '-S', '-emit-llvm', '-Xclang', '-disable-llvm-passes', '-Werror', f'--target={GIVEN_TRIPLE}', '-o', f'{room}/given.ll'])
    module, names = rewritten(text_of(f'{room}/given.ll'))
    put(f'{room}/retargeted.ll', module.text)
    run([*flags, '-O3', '-x', 'ir', f'{room}/retargeted.ll', '-S', '-emit-llvm', '-o', f'{room}/optimized.ll'])
    module.text = text_of(f'{room}/optimized.ll')
    module.stack()
    put(f'{room}/guarded.ll', module.text)
    run([*flags, '-O3', '-x', 'ir', '-Xclang', '-disable-llvm-passes', '-c', f'{room}/guarded.ll', '-o', f'{room}/module.o'])
    for name, file in (('heap', given.heap), ('helpers', given.helpers)):
        run([*flags, *C_FLAGS, '-c', file, '-o', f'{room}/{name}.o'])
    return [f'{room}/{it}.o' for it in ('module', 'heap', 'helpers')], names, module.counts


def retarget(given, room):
    objects, names, counts = compiled(given, room)
    run([given.lld, '-flavor', 'wasm', '--no-entry', '--stack-first', '-z', f'stack-size={given.stack}', '--gc-sections', '--strip-all', '-o', given.o, *objects])
    print(f'{given.o}: {os.path.getsize(given.o)} bytes, exports {" ".join(names)}')
    for what, number in sorted(counts.items()):
        print(f'  {number} {what}')


def main():
    words = argparse.ArgumentParser(add_help=True)
    for name in ('clang', 'lld', 'heap', 'helpers'):
        words.add_argument(f'--{name}', required=True)
    words.add_argument('--stack', type=int, default=8 << 20)
    words.add_argument('--keep', help='a folder in which the texts of all steps stay')
    words.add_argument('-o', required=True)
    words.add_argument('module')
    given = words.parse_args()
    with tempfile.TemporaryDirectory(prefix='jslint-wasm-') as room:
        if given.keep:
            os.makedirs(given.keep, exist_ok=True)
        try:
            retarget(given, given.keep or room)
        except Unknown as what:
            sys.exit(f'retarget: {what}')


if __name__ == '__main__':
    main()
