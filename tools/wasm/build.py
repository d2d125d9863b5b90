"""Makes the libraries of the proved crate embedding_c: for C on x86-64 and on aarch64, and for WebAssembly.

    build.py [--built] [FOLDER]     makes x86_64-linux/libjslint.a, aarch64-linux/libjslint.a and wasm/jslint.wasm in FOLDER (bin/libraries), and
                                    MADE, which has their sums and that of all that they are made of
    build.py --sum                  prints the sum of all that they are made of

The crates below are proved first where that isn't kept; with --built those are taken that a gate left in the working tree a moment ago. Then
`rattle build` proves embedding_c, and compiles its static library for each processor. README.md beside this file says how the module is made.
"""
import hashlib
import importlib.util
import os
import subprocess
import sys
import tempfile

HERE = os.path.dirname(os.path.realpath(__file__))
TOP = os.path.dirname(os.path.dirname(HERE))
CRATE = 'embedding_c'
FOLDER = f'{TOP}/bin/libraries'
# By the place that each has in release/: the processor's target, none for WebAssembly.
TARGETS = {'x86_64-linux/libjslint.a': 'x86_64-unknown-linux-gnu', 'aarch64-linux/libjslint.a': 'aarch64-unknown-linux-gnu', 'wasm/jslint.wasm': None}
HEAP = f'{TOP}/packages/c/heap.c'
# What the libraries are made of beside the crates.
TOOLS = ['packages/c/heap.c', *(f'tools/wasm/{it}' for it in ('build.py', 'retarget.py', 'layout.py', 'heap.c', 'helpers.c'))]
HEAP_FLAGS = ['-O2', '-fPIC', '-ffreestanding', '-nostdinc', '-ffunction-sections', '--no-default-config', '-fno-crash-diagnostics', '-Werror']
# Stands as `clang` in a copy of the toolchain's folder, and keeps the module that it is handed. rattle calls it with no environment.
KEEPING_CLANG = '''#!/bin/sh
for word in "$@"; do
    case $word in module.bc) cp "$word" {kept} ;; esac
done
exec {clang} "$@"
'''


def load(name, path):
    spec = importlib.util.spec_from_file_location(name, path)
    found = importlib.util.module_from_spec(spec)
    sys.dont_write_bytecode = True
    spec.loader.exec_module(found)
    return found


build = load('build', f'{TOP}/tools/build.py')
Refused = build.Refused


def say(text):
    print(f'libraries: {text}', flush=True)


def names_of_crates():
    """The crates of the repository that the libraries are made of, by crates.txt."""
    lines = [it.partition('#')[0].partition(':') for it in build.text_of(f'{TOP}/crates.txt').splitlines()]
    uses = {head.split()[0]: words.split() for head, _, words in lines if head.strip()}
    if CRATE not in uses:
        raise Refused(f'crates.txt has no {CRATE}')
    found, left = set(), [CRATE]
    while left:
        name = left.pop()
        if name in uses and name not in found:
            found.add(name)
            left += uses[name]
    return sorted(found)


def sum_of_file(path):
    with open(path, 'rb') as file:
        return hashlib.sha256(file.read()).hexdigest()


def sum_of_sources():
    """One sum of all that the libraries are made of. (It takes no toolchain.)"""
    parts = [build.sum_of_sources(TOP, names_of_crates()), *(sum_of_file(f'{TOP}/{it}') for it in TOOLS)]
    return hashlib.sha256(' '.join(parts).encode()).hexdigest()


def said_of(path):
    """What a MADE of libraries says, by name."""
    return dict(line.split(' ', 1) for line in (build.text_of(path) or '').splitlines() if ' ' in line)


def is_whole(folder, said):
    """Whether the libraries of a folder are those that a MADE names."""
    return all(os.path.isfile(f'{folder}/{it}') and sum_of_file(f'{folder}/{it}') == said.get(it) for it in TARGETS)


def crates():
    """The libraries below, each after those that it uses, and the crate's own."""
    found = build.RT.rtlib.crates_below(f'{TOP}/crates/{CRATE}')
    return [it for it in found if it.makes_rlib()], found[-1]


def prove_below(below):
    """Proves the crates below that aren't, one after the other."""
    # (a kit that has no such call shares nothing)
    if hasattr(build.RT, 'share_work'):
        build.RT.share_work(True)
    for it in below:
        if not it.is_built():
            say(f'proving {it.name}')
            build.hold_status(it.name, *build.made(it, 2))


def keeping_toolchain(room, kept):
    """A copy of the toolchain's folder whose `clang` keeps the module."""
    tools = f'{build.RT.rtlib.KIT}/toolchain'
    os.makedirs(f'{room}/bin')
    os.symlink(f'{tools}/lib', f'{room}/lib')
    for name in os.listdir(f'{tools}/bin'):
        if name != 'clang':
            os.symlink(f'{tools}/bin/{name}', f'{room}/bin/{name}')
    with open(f'{room}/bin/clang', 'w', encoding='utf-8') as file:
        file.write(KEEPING_CLANG.format(kept=kept, clang=f'{tools}/bin/clang'))
    os.chmod(file.name, 0o755)
    return room


def run(words, **how):
    ran = subprocess.run(words, stdout=subprocess.PIPE, stderr=subprocess.STDOUT, text=True, **how)
    if ran.returncode:
        raise Refused(f'{" ".join(words)[:300]} .. ended with {ran.returncode}:\n{ran.stdout[-4000:]}')
    return ran.stdout


def make_archive(crate, target, toolchain, path):
    """The static library for a processor, and the heap's C functions behind it."""
    tools, words = f'{build.RT.rtlib.KIT}/toolchain/bin', crate.words(['--jobs', '1', '--target', target])
    kept = ['--incremental', f'out/incremental-{target}']
    os.makedirs(f'{crate.folder}/out', exist_ok=True)
    run([build.RT.rtlib.RATTLE, 'build', *words, *kept, '--backend', 'llvm', '--toolchain', toolchain, '-o', path], cwd=crate.folder)
    with tempfile.TemporaryDirectory() as room:
        run([f'{tools}/clang', f'--target={target}', *HEAP_FLAGS, '-c', HEAP, '-o', 'heap.o'], cwd=room)
        run([f'{tools}/llvm-ar', 'rcsD', path, 'heap.o'], cwd=room)


def make_module(module, path):
    tools = f'{build.RT.rtlib.KIT}/toolchain/bin'
    words = ['--clang', f'{tools}/clang', '--lld', f'{tools}/ld.lld', '--heap', f'{HERE}/heap.c', '--helpers', f'{HERE}/helpers.c']
    run([sys.executable, f'{HERE}/retarget.py', *words, '-o', path, module])


def make_all(crate, folder):
    """Makes the three."""
    with tempfile.TemporaryDirectory(prefix='jslint-libraries-') as room:
        kept = f'{room}/module.bc'
        toolchain = keeping_toolchain(f'{room}/toolchain', kept)
        for place, target in TARGETS.items():
            path = f'{folder}/{place}'
            os.makedirs(os.path.dirname(path), exist_ok=True)
            if target is None:
                make_module(f'{room}/x86_64.bc', path)
            else:
                make_archive(crate, target, toolchain, path)
                os.rename(kept, f'{room}/{target.partition("-")[0]}.bc')
            say(f'{place}: {os.path.getsize(path)} bytes')


def main(words):
    if words == ['--sum']:
        print(sum_of_sources())
        return 0
    build.load()
    is_built = words[:1] == ['--built']
    folder = os.path.abspath((words[is_built:] or [FOLDER])[0])
    below, crate = crates()
    sources = sum_of_sources()
    if not is_built:
        prove_below(below)
    make_all(crate, folder)
    if sources != sum_of_sources():
        raise Refused('a source changed meanwhile')
    with open(f'{folder}/MADE', 'w', encoding='utf-8') as file:
        file.write(f'sources {sources}\nkit {build.kit()}\n')
        file.writelines(f'{place} {sum_of_file(f"{folder}/{place}")}\n' for place in TARGETS)
    return 0


if __name__ == '__main__':
    try:
        sys.exit(main(sys.argv[1:]))
    except Refused as why:
        say(str(why))
        sys.exit(1)
