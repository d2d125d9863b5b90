"""Wrong bodies that the prover must refuse, beside those few of the gate in `crates/CRATE/must-fail`; and bodies that mean the same as the crate's own, which
it must accept. Those of a crate are in `CRATE.edits`; form.py says in which form, verdicts.py how they are tried.

    run.py [--built] [--anew] [CRATE | CRATE/NAME | CRATE/refused | CRATE/accepted ..]
    run.py --quarter [--built] [--anew] [CRATE ..]
    run.py --fit [CRATE ..]
    run.py --read [CRATE | CRATE/NAME ..]

Tries those that are named, or all, and says of each why it was refused, or that it was accepted. The exit status is 0 where each is what it must be.

With `--quarter` each crate has a quarter of its wrong bodies tried, and all that mean the same. Which quarter has its turn is told by a sum of the sources of
the crate and of those below it: it is another one after most changes, and for the same files the same one on every machine.

With `--fit` it only says which edits can't be read, or don't fit their crate: each old text has to stand just once in its file, each accepted edit has to be
of another function, and a crate with edits has at least three of those, or as many as functions. That takes a second and no toolchain, and comes first where no edits are named.

With `--read` it only says which edits don't reach the prover, since they don't compile or a contract can't be read: some seconds for each that one function has.

An edit whose try ended as it must in an earlier run on this machine isn't tried again, where nothing that its try read has changed: the edit itself, the
crate, the libraries below it, the kit, and verdicts.py. Where `rt ci` keeps what it passed, that is in its folder, for runs with `--built`; a kit that keeps
nothing has it in a folder of this program's own (`~/.cache/jslint/edits`), under a sum of the sources. `--anew` tries all.

A crate is proved beside its wrong bodies, so it takes what its check takes; kept work of `rt check` is taken where there is any, from a copy. With
`--built` the libraries are those that a gate left in the working tree a moment ago, and nothing else is taken.
"""
import collections
import concurrent.futures
import hashlib
import os
import re
import shutil
import sys
import tempfile

sys.dont_write_bytecode = True
import form
import reading
import verdicts

OPTIONS = ('--anew', '--built', '--fit', '--quarter', '--read')
TURNS = 4
# How many bodies that mean the same each crate with edits has at least, if it has so many functions.
LEAST_ACCEPTED = 3
# Of a crate its name and its folder, which is all that it takes to see where edits stand.
Crate = collections.namedtuple('Crate', 'name folder')


def misfits(crate, edit):
    """Why the edit doesn't fit the crate's texts."""
    for path, old, _ in edit.pairs:
        is_there = re.fullmatch(r'(?:src|specs)/[\w/]+\.(?:rt|antt)', path) and os.path.isfile(f'{crate.folder}/{path}')
        times = verdicts.text_of(crate, path).count(old) if is_there else 0
        if not is_there:
            yield f'its crate has no {path} in src/ or specs/'
        elif times != 1:
            yield f'`old: {old}` stands {times} times in {path}, and not once'


def doubled(crate, edits):
    """Which of the accepted edits isn't of a function of its own, though all share a check, and why."""
    seen = {None}
    for edit in edits:
        function = verdicts.placed(crate, edit).function
        if function in seen:
            yield edit.name, f'its function is {function or "not known"}, and each accepted edit has to be of another'
        seen.add(function)


def faults_of(name):
    """What is wrong with the edits of the crate of that name before any is tried, a line for each."""
    try:
        edits = form.edits_of(name).values()
    except form.Malformed as why:
        return [str(why)]
    crate = Crate(name, f'{form.ROOT}/crates/{name}')
    found = [(it.name, why) for it in edits for why in misfits(crate, it)]
    accepted = [it for it in edits if it.must_be == 'accepted']
    found += doubled(crate, [it for it in accepted if it.name not in dict(found)])
    least = min(LEAST_ACCEPTED, function_count(crate))
    few = [f'edits/{name}{form.ENDING}: fewer than {least} accepted edits'] * (len(accepted) < least)
    return [f'{name}/{edit}: {why}' for edit, why in found] + few


def function_count(crate):
    folder = f'{crate.folder}/src'
    texts = (verdicts.text_of(crate, f'src/{os.path.relpath(f"{at}/{name}", folder)}') for at, _, names in os.walk(folder) for name in names if name.endswith('.rt'))
    return sum(len(re.findall(r'^ *(?:pub(?:\([a-z]+\))? )?(?:unsafe )?fn \w', text, re.M)) for text in texts)


def lacking(word):
    """Why the word names no edits, if it doesn't."""
    crate, slash, name = word.partition('/')
    if crate not in form.crates():
        return f'{word}: {crate} has no edits'
    edits = form.edits_of(crate)
    is_found = not slash or name in edits or name in {it.must_be for it in edits.values()}
    return None if is_found else f'{word}: {crate} has no such edit'


def quarter(edits, turn):
    """The names of a quarter of the wrong bodies among the edits: in four turns each has one."""
    wrong = [it.name for it in edits if it.must_be == 'refused']
    return sorted(wrong, key=lambda it: hashlib.sha256(it.encode()).digest())[turn::TURNS]


def in_turn(crate):
    """Words that name the quarter of the crate's wrong bodies that has its turn, and all that mean the same."""
    turn = int(verdicts.KeptHere.sources(crate), 16) % TURNS
    return [f'{crate.name}/accepted', *[f'{crate.name}/{it}' for it in quarter(form.edits_of(crate.name).values(), turn)]]


def tried_crate(crate, words, is_built, kept_by_runs):
    """Tries the crate's edits, over a copy of what its check kept, if it may be taken, and prints each. How many ended as they must, of wrong bodies and of
    those that mean the same; a line for each that didn't; and how many ended in earlier runs."""
    earlier = verdicts.Earlier(kept_by_runs, crate)
    with tempfile.TemporaryDirectory(prefix='jslint-edits-') as room:
        kept = f'{room}/kept'
        if os.path.isdir(f'{crate.folder}/out/incremental') and not is_built:
            shutil.copytree(f'{crate.folder}/out/incremental', kept)
        ended, lines = collections.Counter(), {'refused': [], 'accepted': []}
        for word, all_of in ('refused', verdicts.tried), ('accepted', verdicts.accepted):
            for name, well, why in all_of(crate, words, kept, earlier):
                line = f'{crate.name}/{name}: {word if well else f"NOT {word.upper()}"}: {why[:160]}'.removesuffix(': ')
                print(line, flush=True)
                ended[word] += well
                lines[word] += [] if well else [line]
    return ended, lines, earlier.used


def read_all(names, words):
    """Says which edits of these crates, or of those of them that are named, don't reach the prover. The exit status."""
    toolchain = verdicts.load()
    crates = [it for it in toolchain.rtlib.crates_below(form.ROOT) if it.name in names]
    found = [f'{crate.name}/{edit}: {why[:160]}' for crate in crates for edit, why in reading.all_unreadable(crate, words)]
    print(*found, f'edits/run.py: edits of {len(crates)} crates, {len(found)} unread', sep='\n')
    return 1 if found else 0


def try_all(names, words, options):
    """Tries the edits of these crates, or those of them that are named, and says how many ended as they must. The exit status."""
    is_built = '--built' in options
    toolchain = verdicts.load()
    toolchain.rtlib.guarded()
    crates = [it for it in toolchain.rtlib.crates_below(form.ROOT) if it.name in names]
    for crate in crates if not is_built else []:
        if any(it.build_rlib(verdicts.ONE_JOB, anew=False) for it in crate.below()):
            sys.exit(f'{crate.name}: a library below it is not proved')
    kept = verdicts.earlier_of(toolchain.rtlib.crates_below(form.ROOT), is_built, '--anew' in options)
    words = [word for it in crates for word in in_turn(it)] if '--quarter' in options else words
    crates.sort(key=lambda it: -it.count(b'\n'))
    with concurrent.futures.ThreadPoolExecutor(int(os.environ.get('RT_JOBS') or toolchain.processors())) as pool:
        found = list(pool.map(lambda it: tried_crate(it, words, is_built, kept), crates))
    used = sum(it for *_, it in found)
    others = {word: [line for _, lines, _ in found for line in lines[word]] for word in ('accepted', 'refused')}
    # (once more at the end, where a log that was cut short still has them)
    print(*others['accepted'], *others['refused'], *[f'{used} ended so in earlier runs of the same files on this machine'] * bool(used), sep='\n')
    for word, lines in others.items():
        print(f'{sum(ended[word] for ended, *_ in found)} {word}, {len(lines)} not')
    return 1 if any(others.values()) else 0


def main(words):
    options, words = {*words} & {*OPTIONS}, [it for it in words if it not in OPTIONS]
    try:
        unknown = [it for it in map(lacking, words) if it]
        names = [it for it in form.crates() if not words or it in {word.partition('/')[0] for word in words}]
    except form.Malformed as why:
        sys.exit(str(why))
    if unknown:
        sys.exit('\n'.join(unknown))
    is_fit = '--fit' in options
    faults = [it for name in names for it in faults_of(name)] if is_fit or not words else []
    if is_fit or faults:
        print(*faults, f'edits/run.py: edits of {len(names)} crates, {len(faults)} faults', sep='\n')
        return 1 if faults else 0
    if '--quarter' in options and any('/' in it for it in words):
        sys.exit('edits/run.py: --quarter is of whole crates, so it takes no names of edits')
    return read_all(names, words) if '--read' in options else try_all(names, words, options)


if __name__ == '__main__':
    sys.exit(main(sys.argv[1:]))
