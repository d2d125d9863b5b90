"""Names of ESLint's rules that find nothing here, since what they look for is refused as a syntax error or an early error: rules/moot/NAME.toml. Settings take
them, and they do nothing."""
import os
from dataclasses import dataclass

from .files import TOP
from .reading import NAME, Refused, faults_of_keys, faults_of_texts, table_of

KEYS = {'name': (str, False), 'eslint': (list, False), 'description': (str, False), 'why': (str, False), 'refused': (list, False)}


@dataclass(frozen=True)
class Moot:
    name: str
    eslint: tuple
    description: str
    why: str
    refused: tuple


def faults_of(file, table):
    """What is wrong with a file."""
    found = [*faults_of_keys(table, KEYS)]
    if not found:
        found += faults_of_texts('refused', table['refused'])
        if not NAME.fullmatch(table['name']) or f'{table["name"]}.toml' != file:
            found.append(f"'name' is {table['name']!r}, and not that of the file")
        if any(it not in (8, 9) or type(it) is not int for it in table['eslint']) or table['eslint'] != sorted(set(table['eslint'])):
            found.append("'eslint' takes 8 and 9, the versions of ESLint whose recommended set has the rule")
    return found


def read_moot(top=TOP):
    """The rules by their files, sorted by name; refuses all where one has a fault."""
    folder, found, faults = f'{top}/rules/moot', [], []
    for file in sorted(it for it in os.listdir(folder) if it.endswith('.toml')):
        try:
            table = table_of(f'{folder}/{file}')
        except (OSError, ValueError) as why:
            faults.append(f'rules/moot/{file}: {why}')
            continue
        wrong = faults_of(file, table)
        faults += [f'rules/moot/{file}: {it}' for it in wrong]
        if not wrong:
            found.append(Moot(table['name'], tuple(table['eslint']), table['description'], table['why'].strip(), tuple(table['refused'])))
    if faults:
        raise Refused('\n'.join(faults))
    return found
