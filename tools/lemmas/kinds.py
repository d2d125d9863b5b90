"""Counts the files that know a kind of node, all its names taken together: of an expression with a word of its own, `import(..)`, and of a statement
without parts, `debugger`. A further kind of that sort touches about as many: a statement `enum;` on a branch touched 48.

    python3 tools/lemmas/kinds.py             # the counts by folder: status 1 where one is above MOST
    python3 tools/lemmas/kinds.py --files     # also the files

Sources, definitions and proofs count if a word of theirs has the kind's word in it, comments and imports aside; tools and documents if they have
ESTree's name. Rows, edits, releases and the rule `no-debugger` aren't counted, nor is docs/CONTRIBUTING.md, which has these two as guides.
"""
import collections
import re
import sys

from lemmas import TOP

# The word in the names of a kind (of `import(..)` not those of import declarations), ESTree's name, and the most files that may know it.
KINDS = (('import_?(?:call|expression|given|production|start)|head_import(?!_meta)', 'ImportExpression', 71), ('(?<!no)(?<!no[-_])debugger', 'DebuggerStatement', 64))
SUFFIXES = ('.js', '.mjs', '.py', '.json', '.md')


def is_source(path):
    return path.suffix in ('.rt', '.antt')


def code_of(path):
    """The text of a source without comments and imports."""
    text = re.sub(r'(?://|--)[^\n]*', '', path.read_text(encoding='utf-8'))
    return re.sub(r'^\s*(?:ghost |pub )?use [^\n]*', '', text, flags=re.M)


def files():
    """Every file that may know a kind."""
    for top in ('crates', 'tools', 'docs'):
        for path in sorted((TOP / top).glob('**/*')):
            is_left_out = {'out', 'node_modules', '__pycache__', 'rules', 'rules.js', 'kinds.py', 'CONTRIBUTING.md'} & {*path.relative_to(TOP).parts}
            suffixes = (*SUFFIXES, '.cpp', '.txt', '') if top == 'tools' else SUFFIXES
            if path.is_file() and not is_left_out and (is_source(path) or path.suffix in suffixes):
                yield path
    yield TOP / 'README.md'


def knows(path, word, name):
    return re.search(word, code_of(path), re.I) if is_source(path) else name in path.read_text(encoding='utf-8', errors='replace')


def group_of(path):
    parts = path.relative_to(TOP).parts
    return {'src': 'code', 'specs': 'definitions', 'proofs': 'proofs'}.get(parts[2], parts[0]) if parts[0] == 'crates' else parts[0]


def main(words):
    if set(words) - {'--files'}:
        print(__doc__, file=sys.stderr)
        return 2
    status = 0
    for word, name, most in KINDS:
        found = [it for it in files() if knows(it, word, name)]
        groups = collections.Counter(group_of(it) for it in found)
        said = ', '.join(f'{count} {group}' for group, count in groups.items())
        print(f'{name}: {len(found)} files know it ({said}){"" if len(found) <= most else f", and {most} may"}')
        if '--files' in words:
            print('\n'.join(f'    {it.relative_to(TOP)}' for it in found))
        status |= len(found) > most
    return status


if __name__ == '__main__':
    sys.exit(main(sys.argv[1:]))
