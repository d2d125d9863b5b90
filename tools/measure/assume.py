"""Libraries of crates whose contracts are taken as written, so that the crates above can be proved before them.

    assume.py CLONE CRATE .. [--with MODULE,..] [--without MODULE,..]

In a copy of each crate, below out/assumed in the clone, each body becomes a call that never returns, of a foreign function that ensures ⊥. Answers of functions
are left out. Of the lemma modules those stay that specifications, contracts or other crates cite (`using(..)` too), what those cite, and what --with names.
The library gets the stamp of the real text, in CLONE/crates/CRATE/out, so `rt check` in the crates above takes it. Name lower crates first; what stands below
them is built as usual.

No verdict rests on such a library: `rt ci` builds its own. Never run it in the checkout that is to land.
"""
import argparse
import glob
import importlib.machinery
import importlib.util
import os
import re
import shutil
import subprocess
import sys
import time

sys.dont_write_bytecode = True
os.environ['RT_ALLOW_C'] = ''
NEVER = 'unsafe extern "C" {\n    pub safe fn jslint_never()\n        ensures never { ⊥ };\n}\n'
CALL = ['crate::never::jslint_never();', 'unreachable!()']
FUNCTION = re.compile(r'^(\s*)(pub(\([a-z]+\))? )?(unsafe )?fn \w+')
CLAUSE = re.compile(r'\b(ensures|requires|ghost)\b')


def toolchain():
    """`rt` as a module: how it stamps a crate's text, and names the libraries below it. A stamp is asked for once: it has those of all below in it."""
    path = os.path.realpath(shutil.which('rt'))
    sys.path.insert(0, os.path.dirname(path))
    loader = importlib.machinery.SourceFileLoader('rt_module', path)
    found = importlib.util.module_from_spec(importlib.util.spec_from_loader('rt_module', loader))
    sys.modules['rt_module'] = found
    loader.exec_module(found)
    kind, known = found.rtlib.Crate, {}
    begin, stamp = kind.__init__, kind.stamp

    def begin_with_files(self, *words, **named):
        begin(self, *words, **named)
        found.read_files(self)

    def stamp_once(self):
        if self.folder not in known:
            known[self.folder] = stamp(self)
        return known[self.folder]
    kind.__init__, kind.stamp = begin_with_files, stamp_once
    return found.rtlib


def read(path):
    with open(path, encoding='utf-8') as file:
        return file.read()


def write(path, text):
    os.makedirs(os.path.dirname(path), exist_ok=True)
    with open(path, 'w', encoding='utf-8') as file:
        file.write(text)


def body_at(lines, start, indent):
    """The line of a head at which the body begins, or the head ends without one; and whether it does begin: None where it stands on that line whole."""
    for at in range(start, len(lines)):
        line = lines[at]
        is_last = at == start or line.startswith(f'{indent})')
        if line == f'{indent}{{' or line.endswith('{') and is_last and not CLAUSE.search(line):
            return at, True
        if line.endswith(';') and is_last or at > start and (not line or FUNCTION.match(line)):
            return at, False
        if at == start and re.search(r'\{.*\}$', line):
            return at, None
    return len(lines), False


def hollow(text):
    """The text of a file with each function's body hollow."""
    text = re.sub(r'^[ \t]*#\[(?:tactic|cycle)\((?:.|\n)*?\)\]\n', '', re.sub(r'^#!\[tactic\((?:.|\n)*?\)\]\n', '#![tactic(auto)]\n', text, flags=re.M), flags=re.M)
    # (a law's body is `{}` on a line of its own)
    lines, out, at = re.sub(r'(?m)^( *)\{\}$', r'\1{\n\1}', text).split('\n'), [], 0
    while at < len(lines):
        found = FUNCTION.match(lines[at])
        if not found:
            out.append(lines[at])
            at += 1
            continue
        indent, start = found[1], at
        at, begins = body_at(lines, start, indent)
        if begins is None:
            out.append(f'{lines[at].partition("{")[0]}{{ {" ".join(CALL)} }}')
        else:
            out += lines[start:at + 1]
        if begins:
            at = next(it for it in range(at, len(lines)) if lines[it] == f'{indent}}}')
            out += [*(f'{indent}    {it}' for it in CALL), f'{indent}}}']
        at += 1
    return '\n'.join(out)


def cited(text, crate):
    """The lemma modules of the crate that a text names."""
    return {it.rstrip('.') for it in re.findall(rf'Rattle\.{crate}\.proofs\.([\w.]+)', text)}


def closure(wanted, modules, crate, without):
    """The modules that are wanted, and those that these cite."""
    chosen, waiting = set(), [*wanted]
    while waiting:
        name = waiting.pop()
        if name in modules and name not in chosen and name not in without:
            chosen.add(name)
            waiting += cited(read(modules[name]), crate)
    return chosen


def copy_lemmas(source, room, chosen, modules):
    """Copies these modules, each with the `mod` lines that lead to it."""
    below = {}
    for name in chosen:
        parts = name.split('.')
        for at, part in enumerate(parts):
            below.setdefault('.'.join(parts[:at]), set()).add(part)
        write(f'{room}/proofs/{name.replace(".", "/")}.antt', read(modules[name]))
    for name, parts in below.items():
        if name not in chosen:
            own = read(modules[name or 'Lib']).split('\n') if (name or 'Lib') in modules else []
            head = [it for it in own if it.strip() and not re.match(r'\s*(pub )?mod ', it)]
            write(f'{room}/proofs/{name.replace(".", "/") or "Lib"}.antt', '\n'.join([*head, *(f'pub mod {it}' for it in sorted(parts)), '']))


def copied(clone, name, wanted, without):
    """The folder of a copy of the crate with hollow bodies."""
    source, room = f'{clone}/crates/{name}', f'{clone}/out/assumed/{name}'
    shutil.rmtree(room, ignore_errors=True)
    for part in ('src', 'specs'):
        if os.path.isdir(f'{source}/{part}'):
            shutil.copytree(f'{source}/{part}', f'{room}/{part}')
    texts = [read(it) for part in ('src/**/*.rt', 'specs/**/*.antt') for it in glob.glob(f'{room}/{part}', recursive=True)]
    for path in glob.glob(f'{room}/src/**/*.rt', recursive=True):
        write(path, hollow(read(path)))
    root = read(f'{room}/src/lib.rt').split('\n')
    root.insert(next((at for at, it in enumerate(root) if re.match(r'(pub )?mod ', it)), len(root)), 'mod never;')
    write(f'{room}/src/lib.rt', '\n'.join(root))
    write(f'{room}/src/never.rt', NEVER)
    write(f'{room}/c/never.c', 'void jslint_never(void) { for (;;) {} }\n')
    paths = glob.glob(f'{source}/proofs/**/*.antt', recursive=True)
    modules = {os.path.relpath(it, f'{source}/proofs')[:-len('.antt')].replace('/', '.'): it for it in paths}
    copy_lemmas(source, room, closure(wanted.union(*(cited(it, name) for it in texts)), modules, name, without), modules)
    return room


def assume(rtlib, clone, name, wanted, without):
    """Makes the library of a crate, and says how that ended."""
    room = copied(clone, name, wanted, without)
    crate = rtlib.Crate(f'{clone}/crates/{name}', clone, {})
    lacking = next((it.name for it in crate.below() if not it.is_built() and it.build_rlib([], False)), None)
    if lacking:
        sys.exit(f'{name}: the library {lacking} below it did not build')
    words = [f'{name}=c' if it == f'{name}=' else it for it in crate.words(['--jobs', '1'], keeps=False)]
    begun, made = time.time(), f'{room}/{name}.rlib'
    ran = subprocess.run([rtlib.RATTLE, 'build', *words, *rtlib.KEPT, '-o', made], cwd=room, stdout=subprocess.PIPE, stderr=subprocess.STDOUT, text=True, errors='replace')
    said = [it for it in ran.stdout.split('\n') if not re.search(r'^statements |: assumed|: proved$', it)]
    if ran.returncode or not os.path.isfile(f'{made}/format'):
        sys.exit('\n'.join([*said[:12], '..', *said[-40:], f'{name}: not assumed, after {time.time() - begun:.0f} s']))
    to = f'{crate.folder}/out/rlib'
    shutil.rmtree(to, ignore_errors=True)
    os.makedirs(to)
    shutil.move(made, f'{to}/{name}.rlib')
    write(f'{to}/stamp', crate.stamp())
    print(f'{name}: assumed, {time.time() - begun:.0f} s', flush=True)


def cited_by_others(clone):
    """The lemma modules of each crate that other crates name."""
    found = {}
    for path in glob.glob(f'{clone}/crates/*/*/**/*.antt', recursive=True) + glob.glob(f'{clone}/crates/*/src/**/*.rt', recursive=True):
        own, text = os.path.relpath(path, f'{clone}/crates').split('/')[0], read(path)
        named = re.findall(r'Rattle\.(\w+)\.proofs\.([\w.]+)', text) + [(a, b.replace('::', '.')) for a, b in re.findall(r'\b(\w+)::proofs::([\w:]+)::\w+', text)]
        for crate, module in named:
            if crate != own:
                found.setdefault(crate, set()).add(module.rstrip('.'))
    return found


def main():
    parser = argparse.ArgumentParser(description=__doc__, formatter_class=argparse.RawDescriptionHelpFormatter)
    parser.add_argument('clone')
    parser.add_argument('crates', nargs='+')
    parser.add_argument('--with', dest='wanted', default='', help='lemma modules to keep too, joined by commas')
    parser.add_argument('--without', default='', help='lemma modules to leave out')
    given = parser.parse_args()
    clone, rtlib = os.path.realpath(given.clone), toolchain()
    others = cited_by_others(clone)
    for name in given.crates:
        os.chdir(f'{clone}/crates/{name}')
        assume(rtlib, clone, name, {*filter(None, given.wanted.split(',')), *others.get(name, set())}, given.without.split(','))


if __name__ == '__main__':
    main()
