"""Libraries that a run of `rt ci` has proved, for other clones of the same sources.

    share.py keep STORE [CLONE]    every fifteen seconds: what runs of `rt ci` here have proved so far goes into STORE, a clone of the same commit
    share.py take STORE CLONE CRATE ..   these libraries, and those below them, out of STORE into CLONE

`rt ci` works in a copy below /tmp, or under some kits in CLONE itself, and writes no stamp. A library fits wherever the text of its crate and of all below is that of the run; `keep` compares them
and writes the stamp that `rt check` then wants. `take` leaves out what CLONE has in another text.

No verdict rests on such a library: `rt ci` builds its own.
"""
import filecmp
import glob
import os
import shutil
import sys
import time

sys.dont_write_bytecode = True
sys.path.insert(0, os.path.dirname(os.path.realpath(__file__)))
from assume import read, toolchain, write  # noqa: E402


def files_of(folder):
    """The sources of a crate, by their names below it."""
    found = glob.glob(f'{folder}/*/**/*', recursive=True)
    names = {os.path.relpath(it, folder) for it in found if os.path.isfile(it)}
    return {it for it in names if it.split('/')[0] in ('src', 'specs', 'proofs')}


def are_equal(one, other):
    """Whether two crates have the same sources."""
    names = files_of(one)
    return names == files_of(other) and all(filecmp.cmp(f'{one}/{it}', f'{other}/{it}', shallow=False) for it in names)


def crate_of(rtlib, clone, name):
    return rtlib.Crate(f'{clone}/crates/{name}', clone, {})


def all_below(rtlib, clone, name):
    """The crate and those below it, the lowest first."""
    seen = {}

    def visit(crate):
        for it in crate.below():
            visit(it)
        seen.setdefault(crate.name, crate)
    visit(crate_of(rtlib, clone, name))
    return list(seen.values())


def put(library, folder, stamp):
    """Puts a library and its stamp into a crate's folder."""
    to, name = f'{folder}/out/rlib', os.path.basename(library)
    shutil.rmtree(to, ignore_errors=True)
    os.makedirs(to)
    shutil.copytree(library, f'{to}/{name}', symlinks=True)
    write(f'{to}/stamp', stamp)


def keep_once(rtlib, store, clone, kept):
    copies = ['/tmp/rt-copy-*/repo'] + [glob.escape(it) for it in clone]
    for made in (it for copy in copies for it in glob.glob(f'{copy}/crates/*/out/rlib/*.rlib/format')):
        library = os.path.dirname(made)
        name = os.path.basename(library)[:-len('.rlib')]
        room, folder = library.split('/out/')[0], f'{store}/crates/{name}'
        if name in kept or time.time() - os.path.getmtime(made) < 3 or not are_equal(room, folder):
            continue
        crate = crate_of(rtlib, store, name)
        if any(it.name not in kept for it in crate.below()):
            continue
        put(library, folder, crate.stamp())
        kept.add(name)
        print(f'{time.strftime("%H:%M:%S")} {name}', flush=True)


def is_kept(crate):
    """Whether the store has the crate's library, of the text that is there now."""
    stamp = f'{crate.folder}/out/rlib/stamp'
    return os.path.isfile(stamp) and read(stamp) == crate.stamp()


def keep(store, clone):
    rtlib = toolchain()
    names = [os.path.basename(it) for it in glob.glob(f'{store}/crates/*')]
    kept = {it for it in names if is_kept(crate_of(rtlib, store, it))}
    while True:
        keep_once(rtlib, store, clone, kept)
        time.sleep(15)


def take(store, clone, names):
    rtlib = toolchain()
    for name in names:
        for crate in all_below(rtlib, clone, name):
            library = f'{store}/crates/{crate.name}/out/rlib'
            if not os.path.isfile(f'{library}/stamp') or crate.is_built():
                continue
            if read(f'{library}/stamp') != crate.stamp():
                print(f'{crate.name}: another text')
                continue
            put(f'{library}/{crate.name}.rlib', crate.folder, read(f'{library}/stamp'))
            print(f'{crate.name}: taken')


def main():
    words = sys.argv[1:]
    if words[:1] == ['keep'] and len(words) in (2, 3):
        keep(os.path.realpath(words[1]), [os.path.realpath(it) for it in words[2:]])
    elif words[:1] == ['take'] and len(words) > 3:
        take(os.path.realpath(words[1]), os.path.realpath(words[2]), words[3:])
    else:
        sys.exit(__doc__)


if __name__ == '__main__':
    main()
