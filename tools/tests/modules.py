"""What tools/wasm/retarget.py refuses and what it takes: the small modules of modules.ll, each with what is wanted.

Each test is a function that raises where something is wrong, and Skipped where it can't be tried. Its argument is a room: a folder of its own.
"""
import os
import re
import subprocess
import sys

import libraries
from libraries import ran, tool
from recipes import is_well, same

TOP = os.path.dirname(os.path.dirname(os.path.dirname(os.path.realpath(__file__))))
WASM = f'{TOP}/tools/wasm'
sys.path.insert(0, WASM)
import retarget

HEAD = f'target datalayout = "{retarget.GIVEN_LAYOUT}"\ntarget triple = "{retarget.GIVEN_TRIPLE}"\n'
# What functions have: those that aren't to be put in line have #1.
FOOT = 'attributes #0 = { nounwind "target-cpu"="x86-64" }\nattributes #1 = { noinline nounwind "target-cpu"="x86-64" }\n'
# Stands as `clang` where only the text of the module is wanted: it hands on what it is handed.
HANDING_ON = '#!/bin/sh\nfor last; do :; done\ncp "$3" "$last"\n'
MAIN = '#include <stdio.h>\nlong long answer(void);\nint main(void) { printf("%lld\\n", answer()); return 0; }\n'
ASKED = "const bytes = require('fs').readFileSync(process.argv[1]); console.log(`${new WebAssembly.Instance(new WebAssembly.Module(bytes)).exports.answer()}`);"


class Row:
    """A module of modules.ll."""

    def __init__(self, text):
        self.name, self.body = text.split('\n', 1)
        found = re.findall(r'^; (refused|gives|has): (.*)$', self.body, re.M)
        self.reason, self.number = (next((it for word, it in found if word == name), None) for name in ('refused', 'gives'))
        self.lines = [it for word, it in found if word == 'has']
        is_well((self.reason is None) != (self.number is None), f'{self.name}: says not what is wanted')
        body = re.sub(r'(?m)^;.*\n', '', self.body)
        self.text = ('' if 'target triple' in body else HEAD) + body + FOOT


def rows():
    with open(f'{TOP}/tools/tests/modules.ll', encoding='utf-8') as file:
        return [Row(it) for it in re.split(r'^; === ', file.read(), flags=re.M)[1:]]


def refusal(row):
    """Why a module is refused, or nothing."""
    try:
        retarget.rewritten(row.text)
    except retarget.Unknown as why:
        return str(why)
    return None


def modules(room):
    """Each is refused for its reason, or taken, with the lines that it is to have then."""
    found = rows()
    wrong = [f'{it.name}: {refusal(it)}, where {it.reason} is wanted' for it in found if refusal(it) != it.reason]
    is_well(not wrong, '\n    '.join(['', *wrong]))
    for row in found:
        if row.reason is None:
            made = retarget.rewritten(row.text)[0].text.split('\n')
            is_well(set(row.lines) <= set(made), f'{row.name}: has no {[it for it in row.lines if it not in made]}')
    is_well(sum(it.reason is not None for it in found) >= 60 and sum(it.reason is None for it in found) >= 12, f'{len(found)} modules')


def unrewritten(room):
    """What is left of what would have to be rewritten is refused."""
    for line, reason in [
        ('@a = private constant <{ ptr, i64 }> <{ ptr null, i64 1 }>, align 8', 'a global of a type that holds a pointer'),
        ('  %a = alloca ptr, align 8', 'an `alloca` of a type that holds a pointer'),
        ('  %a = load { i8, ptr }, ptr %b, align 8', 'a `load` of a type that holds a pointer'),
        ('  store { ptr, i64 } %a, ptr %b, align 8', 'a `store` of a type that holds a pointer'),
        ('  %a = ptrtoaddr ptr %b to i64', '`ptrtoaddr`'),
    ]:
        text = line if line.startswith('@') else f'define internal void @f() #0 {{\n{line}\n}}'
        try:
            retarget.layout.check(text)
        except retarget.Unknown as why:
            same(str(why), f'{reason}, in the line: {line.strip()}')
        else:
            raise AssertionError(f'{line}: not refused')


def words(clang, lld, module):
    return [sys.executable, f'{WASM}/retarget.py', '--clang', clang, '--lld', lld, '--heap', f'{WASM}/heap.c', '--helpers', f'{WASM}/helpers.c', '-o', 'made.wasm', module]


def refused_module(room):
    """The command says why, ends with status 1, and makes nothing: of one in eight."""
    room.put('clang', HANDING_ON, 0o755)
    for row in [it for it in rows() if it.reason][::8]:
        room.put('given.ll', row.text)
        out, err = ran(words(f'{room.folder}/clang', 'no-lld', 'given.ll'), 1, cwd=room.folder)
        same((out, err, os.path.exists(f'{room.folder}/made.wasm')), ('', f'retarget: {row.reason}\n', False))


def answers_of_modules(room):
    """Each module that is taken gives its number, as the compiler for x86-64 makes it and as WebAssembly."""
    node, cc, tools = libraries.node(), tool('cc'), libraries.toolchain()
    room.put('main.c', MAIN)
    for row in rows():
        if row.reason is None:
            room.put('given.ll', row.text)
            given = ['-mssse3', '-w', '-O1', '-x', 'ir', '-c', 'given.ll', '-o', 'given.o']
            ran([f'{tools}/clang', f'--target={retarget.GIVEN_TRIPLE}', *given], cwd=room.folder)
            ran([cc, '-no-pie', '-o', 'given', 'main.c', 'given.o'], cwd=room.folder)
            ran(words(f'{tools}/clang', f'{tools}/ld.lld', 'given.ll'), cwd=room.folder)
            found = [ran(it, cwd=room.folder)[0].strip() for it in (['./given'], [node, '-e', ASKED, 'made.wasm'])]
            is_well(found == [row.number] * 2, f'{row.name}: {found[0]} on x86-64 and {found[1]} in WebAssembly, where {row.number} is wanted')


TESTS = [modules, unrewritten, refused_module, answers_of_modules]
