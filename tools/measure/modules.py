"""Seconds of a check by kind of module, by module and by function, from the times at which it kept its modules.

    modules.py CRATE [COUNT]

Checks the crate in one job, over a kept folder that is empty, and prints the kinds and the COUNT dearest modules and functions (30 each). The
crates below it must be built: `rt check` in the crate's folder does so. What a module is the first to need is counted as its own. Seconds vary by
a third with what runs beside: compare with what wasn't changed, in the same run.
"""
import collections
import os
import re
import subprocess
import sys
import tempfile

ROOT = os.path.dirname(os.path.dirname(os.path.dirname(os.path.abspath(__file__))))
sys.path.insert(0, '/opt/rattle/bin')
import rtlib  # noqa: E402


def check(crate, folder, sources=None, *flags):
    """Checks the crate, or these sources in place of its own, over the folder, and keeps there what it proved."""
    words = [rtlib.RATTLE, 'check', *crate.words(['--jobs', '1'], keeps=True), '--incremental', folder, *flags]
    done = subprocess.run(words, cwd=sources or crate.folder, stdout=subprocess.PIPE, stderr=subprocess.STDOUT, text=True)
    print(done.stdout.strip().split('\n')[-1])


def kept(folder):
    """Seconds and name of each module that was kept, in the order in which they were."""
    found = sorted((os.stat(f'{at}/{name}').st_mtime, name.removesuffix('.oantt').removesuffix('.decls'))
                   for at, _, names in os.walk(folder) for name in names if name.endswith('.oantt'))
    return [(time - before, name) for (before, _), (time, name) in zip(found, found[1:])]


KINDS = re.compile(r'\.(Proof|Tie|Goals|Answers|Invariants|Reads|Named|Layout|Kinds|Code|Statement|Met|Given|Lts)\b.*')


def report(modules, count):
    by_kind, by_module, by_function = collections.Counter(), collections.Counter(), collections.Counter()
    for seconds, name in modules:
        kind = KINDS.search(name)
        by_kind[kind[1] if kind else 'lemmas, definitions, types'] += seconds
        by_module[name] += seconds
        by_function[KINDS.sub('', name)] += seconds
    for found in (by_kind, by_module, by_function):
        print(f'\n{sum(found.values()):8.1f} in all')
        for name, seconds in found.most_common(count):
            print(f'{seconds:8.1f} {name}')


def main(name, count):
    os.chdir(ROOT)
    crate = next((it for it in rtlib.crates_below(ROOT) if it.name == name), None)
    if crate is None:
        sys.exit(f'no crate {name}')
    with tempfile.TemporaryDirectory(prefix='jslint-modules-') as folder:
        check(crate, folder)
        report(kept(folder), count)


if __name__ == '__main__':
    if len(sys.argv) not in (2, 3):
        sys.exit(__doc__)
    main(sys.argv[1], int(sys.argv[2]) if len(sys.argv) == 3 else 30)
