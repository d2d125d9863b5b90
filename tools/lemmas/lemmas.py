"""Prints the files of definitions and of lemmas of the crates, each with the comment that it begins with, or the examples that compute.

    python3 tools/lemmas/lemmas.py [CRATE ..]               # the files, of all crates or of those that are named
    python3 tools/lemmas/lemmas.py --examples [CRATE ..]    # the examples: file and name, the text, what is computed of it
    python3 tools/lemmas/lemmas.py --check                  # names the files that begin with no comment: status 1 where there is one

Definitions are in `specs/NAME.antt` of a crate, lemmas in `proofs/NAME.antt`; files in folders below `proofs` are answers at the goals of one
function and are only counted. An example's text is what its statement hands to `tokens`, or the comment above it or above the tree that it
names; what is computed of it follows the `≡`. docs/PROOFS.md says how the proof goes.
"""
import pathlib
import re
import signal
import sys

TOP = pathlib.Path(__file__).resolve().parents[2]
# The most of a statement that is printed.
MOST = 110
OTHERS = ('SoundTables', 'SameTrees', 'Nest')


def crates_in_order():
    """The crates of crates.txt, each after those that it stands on."""
    below = {}
    for line in (TOP / 'crates.txt').read_text().splitlines():
        name, _, rest = line.partition(':')
        below[name] = rest.split()
    order = []

    def visit(name):
        if name in below and name not in order:
            for other in below[name]:
                visit(other)
            order.append(name)

    for name in below:
        visit(name)
    return order


def files_of(crate, folder):
    return [path for path in sorted((TOP / 'crates' / crate / folder).glob('**/*.antt')) if path.name not in ('Lib.antt', *ANSWERS) and not path.with_suffix('').is_dir()]


def lemma_files(crate):
    return files_of(crate, 'proofs')


ANSWERS = ('Answers.antt', 'Invariants.antt', 'Proof.antt')


def comment_of(path):
    """The comment that the file begins with, as one line; empty where there is none."""
    words = []
    with open(path, encoding='utf-8') as file:
        for line in file:
            if not line.startswith('--'):
                break
            words.append(line[2:].strip())
    return ' '.join(words)


def show_files(crates):
    for crate in crates:
        specs, files = files_of(crate, 'specs'), lemma_files(crate)
        answers = sum(1 for path in (TOP / 'crates' / crate / 'proofs').glob('**/*.antt') if path.name in ANSWERS)
        print(f'{crate}: {len(specs)} files of definitions, {len(files)} of lemmas, {answers} of answers')
        for path in [*specs, *files]:
            print(f'    {path.parent.name}/{path.stem}: {comment_of(path)}')


def has_examples(path):
    return path.stem.endswith('Examples') or path.stem in OTHERS or comment_of(path).startswith(('Examples', 'Worked examples'))


def shortened(text):
    return text if len(text) <= MOST else text[:MOST - 3] + ' ..'


def examples_of(path):
    """The name of each example of a file, its text and what is computed of it."""
    above, texts = '', {}
    for line in path.read_text(encoding='utf-8').splitlines():
        comment, word = re.fullmatch(r'-- (`.*`)', line), re.match(r'(?:abbrev |pub )+(\S+) : (.*)', line)
        if word and above:
            texts[word[1]] = above
        if word and 'pub ' in line[:word.start(1)] and 'abbrev ' not in line[:word.start(1)]:
            own = re.search(r'tokens "((?:[^"\\]|\\.)*)"', word[2])
            named = [texts[it] for it in re.findall(r'[\w-]+', word[2]) if it in texts]
            text = f'`{own[1]}`' if own else above or ''.join(named[:1])
            right = word[2].rpartition(' ≡ ')[2]
            yield word[1], text, shortened(right if text else word[2])
        above = comment[1] if comment else ''


def show_examples(crates):
    for crate in crates:
        for path in filter(has_examples, lemma_files(crate)):
            for name, text, told in examples_of(path):
                print(f'{crate} {path.stem}.{name}: {text + ": " if text else ""}{told}')


def main(words):
    crates, names = crates_in_order(), [it for it in words if it not in ('--examples', '--check')]
    if any(it not in crates for it in names) or {'--examples', '--check'} <= {*words}:
        print(__doc__, file=sys.stderr)
        return 2
    chosen = [it for it in crates if not names or it in names]
    if '--check' in words:
        silent = [path.relative_to(TOP) for it in chosen for path in [*files_of(it, 'specs'), *lemma_files(it)] if not comment_of(path)]
        for path in silent:
            print(f'{path}: begins with no comment', file=sys.stderr)
        return 1 if silent else 0
    (show_examples if '--examples' in words else show_files)(chosen)
    return 0


if __name__ == '__main__':
    signal.signal(signal.SIGPIPE, signal.SIG_DFL)
    sys.exit(main(sys.argv[1:]))
