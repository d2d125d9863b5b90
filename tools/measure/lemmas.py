"""Seconds of lemma files by declaration: each is checked once with all other declarations of its file as holes.

    lemmas.py [--whole] CRATE FILE..

FILE is the name of a file in crates/CRATE/proofs, without its ending. With --whole only the sum of each file is printed. Works on a copy that
holds these files and the lemma files that they cite, and one function, the only one that is proved, whose proof cites them. The crates below
CRATE must be built: `rt check` there does so. Seconds vary by a third with what runs beside.
"""
import collections
import os
import re
import shutil
import sys
import tempfile

import modules

SIGNATURE = re.compile(r'( *)(?:pub )?([^\s:(){}=]+) :( |$)')
OTHER = re.compile(r' *(?:use|mutual|unfolding|(?:pub |abbrev |unfoldable )*(?:data|record|module|ruleset|abbrev|unfoldable))\b|--| *--')
CITING = '''
fn lemmas_alone(x: u8) -> u8
    ensures { result ≡ x }
{
    x
}
'''


def depth(line):
    return len(line) - len(line.lstrip(' '))


def end_of(lines, start, belongs):
    """The end of the lines from `start` that belong to a declaration; blank ones do where one that belongs stands behind them."""
    end = at = start
    while at < len(lines) and (not lines[at].strip() or belongs(lines[at])):
        at += 1
        end = at if lines[at - 1].strip() else end
    return end


def declarations(text):
    """The file in pieces: a name (none where the piece is no declaration with a body), its signature and its body, as lines."""
    lines, at = text.split('\n'), 0
    while at < len(lines):
        line = lines[at]
        found = None if OTHER.match(line) else SIGNATURE.match(line)
        name, level = found[2] if found else None, depth(line)
        end = end_of(lines, at + 1, lambda it: depth(it) > level)
        if found is None:
            stop = end if re.match(r' *(?:pub )?(?:data|record)\b', line) else at + 1
            yield None, lines[at:stop], []
            at = stop
            continue
        head = next((it for it in range(at + 1, end) if not lines[it].strip()), end)
        stop = end_of(lines, head, lambda it: depth(it) > level or depth(it) == level and re.match(rf'(?:{re.escape(name)}|unfolding)\b', it.lstrip()))
        yield name, lines[at:head], lines[head:stop]
        at = stop


def with_holes(pieces, kept):
    """The file's text with holes in place of all bodies but those of the kept pieces."""
    lines = []
    for number, (name, head, body) in enumerate(pieces):
        hole = [] if name is None else [f'{" " * depth(head[0])}{name} = ?']
        lines += [*head, *(body if number in kept else hole)]
    return '\n'.join(lines) + '\n'


def cited(folder, crate, file, seen):
    """Adds the lemma files that this one cites, and those that they cite."""
    with open(f'{folder}/{file}.antt') as it:
        names = re.findall(rf'\bRattle\.{crate}\.proofs\.((?:[a-z]\w*\.)?[A-Z]\w*)', it.read())
    for name in (it.replace('.', '/') for it in names):
        if name not in seen and os.path.exists(f'{folder}/{name}.antt'):
            seen.append(name)
            cited(folder, crate, name, seen)


def copied(crate, files, room):
    """Copies the crate's code, its definitions and the lemma files that are needed, without its functions' proofs."""
    for part in ('src', 'specs'):
        shutil.copytree(f'{crate.folder}/{part}', f'{room}/{part}')
    with open(f'{room}/src/lib.rt', 'a') as it:
        it.write(CITING)
    os.makedirs(f'{room}/proofs/lemmas_alone')
    needed = []
    for file in files:
        cited(f'{crate.folder}/proofs', crate.name, file, needed)
    for name in needed:
        os.makedirs(os.path.dirname(f'{room}/proofs/{name}'), exist_ok=True)
        shutil.copy(f'{crate.folder}/proofs/{name}.antt', f'{room}/proofs/{name}.antt')
        node = os.path.dirname(name)
        if node:
            shutil.copy(f'{crate.folder}/proofs/{node}.antt', f'{room}/proofs/{node}.antt')
    return needed


def variants(crate, file, place, room, is_whole):
    """Writes the file with all bodies, with none and with each alone; what each stands for, by the name of its module."""
    with open(f'{crate.folder}/proofs/{file}.antt') as it:
        pieces = list(declarations(it.read()))
    named = [number for number, piece in enumerate(pieces) if piece[0] is not None]
    wanted = [('none', []), ('all', named), *([] if is_whole else [(pieces[it][0], [it]) for it in named])]
    labels = {}
    for number, (label, kept) in enumerate(wanted):
        module = f'Only{place}x{number}'
        labels[module] = file, label
        with open(f'{room}/proofs/{module}.antt', 'w') as it:
            it.write(with_holes(pieces, kept))
    return labels


def report(labels, seconds):
    base = {file: seconds[module] for module, (file, label) in labels.items() if label == 'none'}
    for module, (file, label) in sorted(labels.items(), key=lambda it: (it[1][0], -seconds[it[0]])):
        if label != 'none' and (label == 'all' or seconds[module] - base[file] > 0.1):
            print(f'{seconds[module] - base[file]:8.2f} {file} {label}')


def main(name, files, is_whole):
    os.chdir(modules.ROOT)
    crate = next((it for it in modules.rtlib.crates_below(modules.ROOT) if it.name == name), None)
    if crate is None:
        sys.exit(f'no crate {name}')
    with tempfile.TemporaryDirectory(prefix='jslint-lemmas-') as room, tempfile.TemporaryDirectory(prefix='jslint-kept-') as kept:
        needed, labels = copied(crate, files, room), {}
        for place, file in enumerate(files):
            labels |= variants(crate, file, place, room, is_whole)
        with open(f'{room}/proofs/Lib.antt', 'w') as it:
            it.write(''.join(f'pub mod {module}\n' for module in [*needed, *labels]))
        with open(f'{room}/proofs/lemmas_alone/Answers.antt', 'w') as it:
            it.write(''.join(f'use Rattle.{name}.proofs.{module} as {module}\n' for module in labels))
            it.write(f'use Rattle.{name}.proofs.lemmas_alone.Goals as goal\n\npub returns : goal.returns\nreturns c = ?\n')
        modules.check(crate, kept, room, '--allow-holes', '--only', 'lemmas_alone')
        seconds = collections.Counter()
        for taken, module in modules.kept(kept):
            seconds[module.rpartition('.')[2]] += taken
        report(labels, seconds)


if __name__ == '__main__':
    words = [it for it in sys.argv[1:] if it != '--whole']
    if len(words) < 2:
        sys.exit(__doc__)
    main(words[0], words[1:], '--whole' in sys.argv)
