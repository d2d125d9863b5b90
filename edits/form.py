"""The form of edits. `CRATE.edits` has those of a crate, with an empty line between two:

    refused: NAME
    file: src/FILE.rt
    old: TEXT
    new: TEXT

The head says what the prover must do with the edited crate, `refused` or `accepted`, and the edit's name, which no other edit of the crate has. `old` is a
text within one line that stands just once in that file of the crate, and `new` is what comes in its place: all that is behind `: `. More pairs may follow,
of this file or, behind another `file` line, of another. An accepted edit outside functions names the function that it is for in a line behind its head:
`function: MODULE::NAME`.
"""
import collections
import os
import re

HERE = os.path.dirname(os.path.abspath(__file__))
ROOT = os.path.dirname(HERE)
ENDING = '.edits'
# What an edit must be.
MUST_BE = ('refused', 'accepted')
# Which lines may follow a line of each word. That without a word is an empty line; the beginning of a file, and its end, are as one.
NEXT = {
    '': (*MUST_BE, ''), 'refused': ('file',), 'accepted': ('function', 'file'), 'function': ('file',), 'file': ('old',), 'old': ('new',),
    'new': ('old', 'file', ''),
}
LINE = re.compile(f'(?:({"|".join(filter(None, NEXT))}):(?: (.*))?)?')
NAME = re.compile(rf'(?!(?:{"|".join(MUST_BE)})$)[a-z]\w*', re.A)

# Pairs are of a path in the crate, the old text and the new one; `named` is the function that the edit itself names, if it does.
Edit = collections.namedtuple('Edit', 'name must_be named pairs')


class Malformed(Exception):
    """Why edits can't be read, in one line."""


def listed():
    """The crates of crates.txt."""
    with open(f'{ROOT}/crates.txt', encoding='utf-8') as file:
        return re.findall(r'^(\w+)[^:#\n]*:', file.read(), re.M)


def crates():
    """The crates that have edits."""
    names = [it for it in sorted(os.listdir(HERE)) if not it.startswith(('.', '_')) and not it.endswith(('.py', '.md'))]
    for name in names:
        if not name.endswith(ENDING):
            raise Malformed(f'edits/{name}: no file of edits, which are in CRATE{ENDING}')
        if name[:-len(ENDING)] not in listed():
            raise Malformed(f'edits/{name}: there is no such crate in crates.txt')
    return [it[:-len(ENDING)] for it in names]


def misplaced(word, last):
    """Why a line of that word can't stand behind such a line."""
    allowed = ' or '.join(f'`{it}:`' if it else 'an empty line' for it in NEXT[last] if it or last)
    what = f'`{word}:` stands' if word else 'an empty line, or the end, stands'
    return f'{what} {f"behind `{last}:`" if last else "at the head of an edit"}, where only {allowed} may'


def lines_of(path, text):
    """The lines of a text of this form: where each stands, its word, and what is behind that."""
    last = ''
    for number, line in enumerate([*text.split('\n'), ''], 1):
        found = LINE.fullmatch(line)
        if not found:
            raise Malformed(f'{path}:{number}: no line of an edit: {line}')
        word = found[1] or ''
        if word not in NEXT[last]:
            raise Malformed(f'{path}:{number}: {misplaced(word, last)}')
        if word:
            yield f'{path}:{number}', word, found[2] or ''
        last = word


def edits_in(path, text):
    """The edits of a text of this form, by their names."""
    edits, name = {}, None
    for at, word, rest in lines_of(path, text):
        if word in MUST_BE:
            name = rest
            if not NAME.fullmatch(name):
                raise Malformed(f'{at}: an edit can\'t be called `{name}`')
            if name in edits:
                raise Malformed(f'{at}: `{name}` stands a second time')
            edits[name] = Edit(name, word, None, [])
        elif word == 'function':
            edits[name] = edits[name]._replace(named=rest)
        elif word == 'file':
            file = rest
        elif word == 'old':
            old = rest
        else:
            edits[name].pairs.append((file, old, rest))
    return edits


def edits_of(crate):
    """The edits of the crate of that name, by their names."""
    with open(f'{HERE}/{crate}{ENDING}', encoding='utf-8') as file:
        return edits_in(f'edits/{crate}{ENDING}', file.read())
