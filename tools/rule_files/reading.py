"""Reads rules/NAME.toml, and refuses what isn't one: each fault by its file and key."""
import json
import os
import re
from dataclasses import dataclass

from .files import TOP

try:
    import tomllib
except ImportError:
    tomllib = None

# on without settings since the first release; in `eslint:recommended` of ESLint 8 or 9; all others
SETS = ('nine', 'recommended', 'other')
# what mends a script: nothing, or a command
FIXES = ('none', 'unwrap', 'mend')
LANGUAGES = ('base', '2022', 'module')
NAME = re.compile(r'[a-z]+(?:-[a-z]+)*')
VERSION = re.compile(r'\d+\.\d+\.\d+')


class Refused(Exception):
    """What is wrong with the files, a line each."""


@dataclass(frozen=True)
class Option:
    """A setting of a rule: its key, a value of it as an example, one with which its texts are right or wrong, and what it says. With a schema it
    stands in the table of the rule alone; `beside` is what stands there with it while its texts are tried."""
    key: str
    value: str
    tried: str
    schema: str
    beside: str
    description: str
    reports: str
    wrong: tuple
    right: tuple


@dataclass(frozen=True)
class Rule:
    name: str
    set: str
    eslint: tuple
    on: bool
    since: str
    fix: str
    language: str
    description: str
    summary: str
    why: str
    reports: str
    wrong: tuple
    right: tuple
    note: str
    more: str
    differs: str
    options: tuple
    changes: str
    mends: tuple
    unmended: tuple


# The keys, with the type of each and whether it may be missing.
KEYS = {
    'name': (str, False), 'set': (str, False), 'eslint': (list, False), 'on': (bool, False), 'since': (str, False), 'fix': (str, False), 'language': (str, True),
    'description': (str, False), 'summary': (str, False), 'why': (str, True), 'reports': (str, False), 'wrong': (list, False), 'right': (list, False),
    'note': (str, True), 'more': (str, True), 'differs': (str, False), 'options': (list, True),
    'changes': (str, True), 'mends': (list, True), 'unmended': (list, True),
}
OPTION_KEYS = {
    'key': (str, False), 'value': (str, False), 'tried': (str, True), 'schema': (str, True), 'beside': (str, True), 'description': (str, False), 'reports': (str, False),
    'wrong': (list, True), 'right': (list, True),
}
TYPES = {str: 'a string', list: 'an array', bool: 'true or false'}


def faults_of_keys(table, keys):
    """Keys that are unknown, missing, of another type or empty."""
    for key in table:
        if key not in keys:
            yield f'there is no key {key!r}'
    for key, (type_, may_be_missing) in keys.items():
        if key not in table:
            if not may_be_missing:
                yield f'{key!r} is missing'
        elif type(table[key]) is not type_:
            yield f'{key!r} is not {TYPES[type_]}'
        elif type_ is not bool and not table[key] and key != 'eslint':
            yield f'{key!r} is empty'


def faults_of_texts(key, texts):
    """Texts that are no scripts to be shown: no string, empty, or twice."""
    for at, text in enumerate(texts):
        if type(text) is not str or not text.strip() or text != text.strip('\n'):
            yield f'{key!r}: text {at + 1} is not a string, is empty, or begins or ends with an empty line'
        elif text in texts[:at]:
            yield f'{key!r}: {text!r} stands twice'
        elif '](' in text:
            yield f"{key!r}: {text!r} has '](', which those who show a page without its links take for one"


def faults_of_mended(table):
    """What is wrong with what `mend` changes: a rule that it mends has a text on it, and pairs of texts."""
    for key in ('changes', 'mends'):
        if (table['fix'] == 'mend') != (key in table):
            yield f"{key!r} is for the rules whose 'fix' is 'mend', and each of them has it"
    pairs = table.get('mends', [])
    if all(type(it) is list and len(it) == 2 for it in pairs):
        yield from faults_of_texts('mends', [it[0] for it in pairs])
    else:
        yield "'mends' has pairs of texts: one that is reported, and what it becomes"
    yield from faults_of_texts('unmended', table.get('unmended', []))


def faults_of_words(table):
    """Values of keys that are there and of the right type, but make no sense."""
    choices = {'set': SETS, 'fix': FIXES, 'language': LANGUAGES}
    yield from (f'{key!r} is {table[key]!r}: it takes {", ".join(them)}' for key, them in choices.items() if key in table and table[key] not in them)
    if any(it not in (8, 9) or type(it) is not int for it in table['eslint']) or table['eslint'] != sorted(set(table['eslint'])):
        yield "'eslint' takes 8 and 9, the versions of ESLint whose recommended set has the rule"
    if (table['set'] == 'other' and table['eslint']) or (table['set'] == 'recommended' and not table['eslint']):
        yield f"'set' is {table['set']!r}, and 'eslint' is {table['eslint']}"
    if table['on'] != (table['set'] == 'nine'):
        yield "'on' is for the rules of the set 'nine', and for no others"
    if not VERSION.fullmatch(table['since']):
        yield f"'since' is {table['since']!r}, and no version"
    for key in ('description', 'summary'):
        if re.search(r'[\n|\\"]|\.$', table[key]):
            yield f"{key!r} has a line end, a quotation mark, '|', a backslash or a full stop at its end"
    yield from (f'{it!r} is both wrong and right' for it in table['wrong'] if it in table['right'])


def faults_of_option(option):
    """What is wrong with an option whose keys are well."""
    for key in ('wrong', 'right'):
        yield from faults_of_texts(key, option.get(key, []))
    if not option.keys() & {'wrong', 'right'}:
        yield "there is neither 'wrong' nor 'right'"
    if 'beside' in option and 'schema' not in option:
        yield "'beside' is for an option that has a 'schema'"
    try:
        json.loads(option.get('schema', '{}'))
    except ValueError:
        yield "'schema' is no JSON"


def option_of(it):
    texts = {key: it.get(key, '').strip() for key in ('key', 'value', 'schema', 'beside', 'description', 'reports')}
    return Option(**texts, tried=it.get('tried', it['value']), wrong=tuple(it.get('wrong', [])), right=tuple(it.get('right', [])))


def faults_of(file, table):
    """What is wrong with a file."""
    found = [*faults_of_keys(table, KEYS)]
    if not found:
        found += [*faults_of_texts('wrong', table['wrong']), *faults_of_texts('right', table['right']), *faults_of_words(table), *faults_of_mended(table)]
        if not NAME.fullmatch(table['name']) or f'{table["name"]}.toml' != file:
            found.append(f"'name' is {table['name']!r}, and not that of the file")
        for option in table.get('options', []):
            own = [*faults_of_keys(option, OPTION_KEYS)] if isinstance(option, dict) else ['is no table']
            own += [] if own else faults_of_option(option)
            found += [f"'options', {option.get('key', '?') if isinstance(option, dict) else '?'}: {it}" for it in own]
    return found


def rule_of(table):
    """The rule of a table without faults."""
    options = tuple(option_of(it) for it in table.get('options', []))
    texts = {key: table.get(key, '').strip() for key, (type_, _) in KEYS.items() if type_ is str}
    texts['language'] = texts['language'] or 'base'
    return Rule(**texts, on=table['on'], eslint=tuple(table['eslint']), wrong=tuple(table['wrong']), right=tuple(table['right']), options=options,
                mends=tuple(map(tuple, table.get('mends', []))), unmended=tuple(table.get('unmended', [])))


def table_of(path):
    with open(path, 'rb') as file:
        return tomllib.load(file)


def read_rules(top=TOP):
    """The rules by their files, sorted by name; refuses all where one has a fault."""
    if tomllib is None:
        raise Refused('tools/rules needs Python 3.11, whose tomllib reads rules/*.toml')
    folder, rules, faults = f'{top}/rules', [], []
    files = sorted(it for it in os.listdir(folder) if it.endswith('.toml')) if os.path.isdir(folder) else []
    for file in files:
        try:
            table = table_of(f'{folder}/{file}')
        except (OSError, ValueError) as why:
            faults.append(f'rules/{file}: {why}')
            continue
        found = faults_of(file, table)
        faults += [f'rules/{file}: {it}' for it in found]
        if not found:
            rules.append(rule_of(table))
    if not files:
        faults.append('rules: there is no file of a rule')
    if faults:
        raise Refused('\n'.join(faults))
    return sorted(rules, key=lambda it: it.name)
