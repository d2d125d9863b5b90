"""The pages that explain the rules and the early errors."""
import os
import re

from .rule_table import MOOT, RULES
from .streams import Wrong, shown

HERE = os.path.dirname(os.path.realpath(__file__))
# The documents: where `make install` puts them, and where they are in the repository.
PLACES = (f'{HERE}/../../doc/jslint/docs', f'{HERE}/../../docs')


def page(name):
    path = next((f'{it}/{name}' for it in PLACES if os.path.exists(f'{it}/{name}')), None)
    if path is None:
        raise Wrong(f'the documents, which have {name}, are not installed')
    with open(path, encoding='utf-8') as file:
        return file.read()


def without_links(text):
    """A page without its links, which lead to pages that a terminal doesn't have."""
    return re.sub(r'\[([^\]]*)\]\((?!http)[^)]*\)', r'\1', text)


def explained(word):
    """What the documents say of a rule, or of an early error such as E7."""
    if word in RULES or word in MOOT:
        return without_links(page(f'rules/{word}.md')).strip() + '\n'
    number = re.fullmatch('[Ee]([0-9]+)', word)
    row = number and re.search(rf'^\| {int(number[1])} \| (.*?) \| (.*?) \|$', page('USAGE.md').partition('The early errors')[2], re.M)
    if not row:
        raise Wrong(f'{shown(word)} is no rule and no early error: --explain takes one of {", ".join(RULES)}, or E1 to E37')
    return without_links(f'early error E{int(number[1])}: {row[1]}. Its place: {row[2]}.\n'.replace('`', ''))
