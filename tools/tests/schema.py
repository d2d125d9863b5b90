"""The schema of the settings, by which editors complete and check `jslint.toml`: it takes just what the program takes.

Each test is a function that raises where something is wrong, and libraries.Skipped where it can't be tried. Its argument is a room: a folder of its own.
"""
import copy
import json
import os
import random
import re

import recipes
import rule_texts
from libraries import Skipped
from recipes import TOP, is_well, same

recipes.sys.path.insert(0, f'{TOP}/tools')
from jslint_files.layers import OWN  # noqa: E402
from jslint_files.rule_table import MOOT, RULES  # noqa: E402
from jslint_files.settings import faults  # noqa: E402
from jslint_files.words import CHOICES, HANDED, RANGES  # noqa: E402

PLACE = 'share/jslint/jslint.schema.json'
# What a schema says to people alone.
WORDS = {'$schema', 'title', 'description', 'default'}
TYPES = {'object': dict, 'array': list, 'string': str, 'boolean': bool, 'integer': int}
# Values of each kind that TOML has, but for dates.
VALUES = ['warn', 'error', 'Off', 'warning', 1, 2, 3, -1, {'severity': 1}, {'severity': 'warning'}, {'severity': {}}, {'allow-null': 1}, {'allow-comments': True}, {'args': 'some'}, {'caught-errors': 'after-used'}, {'typeof': 1}, {'args-ignore': 'a'}, {'args-ignore': ['a*b']}, {'allow': ['**']}, {'allow': ['a\n*']}, {'allow': ['a'] * 101}, ['no-var'], ['no-var', 'no-var'], ['no-such'], True, False, 0, 1, 2020, 2021, -1.5, '', 'a', 'true', 'off', [], [''], ['a'], ['a', 'a'], ['a b', 'é"\\\n'], [1], [True], ['a', 1], [[]], {}, {'a': True}]
# Keys that others' settings have.
FOREIGN = ['', 'extends', 'env', '$schema', 'plugins', 'ignore', 'include', 'overrides', 'format', 'parserOptions', 'severity', 'global', 'semi']


def schema():
    with open(f'{TOP}/{PLACE}', encoding='utf-8') as file:
        return json.load(file)


def is_valid(it, value):
    """Whether a schema of these few words takes a value. With another word in it, it is to be said here what that means."""
    unknown = set(it) - WORDS - {'type', 'enum', 'items', 'properties', 'additionalProperties', 'not', 'anyOf', 'uniqueItems', '$ref', 'required', 'minimum', 'maximum', 'maxItems', 'pattern'}
    is_well(not unknown and it.get('additionalProperties', False) is False, unknown)
    if '$ref' in it:
        return is_valid(schema()['properties'][it['$ref'].rpartition('/')[2]], value)
    if 'anyOf' in it:
        return any(is_valid(each, value) for each in it['anyOf'])
    if 'type' in it and type(value) is not TYPES[it['type']] or 'enum' in it and (type(value), value) not in [(type(each), each) for each in it['enum']]:
        return False
    if it.get('type') == 'integer' and not it['minimum'] <= value <= it['maximum']:
        return False
    if isinstance(value, list) and it.get('uniqueItems') and any(each in value[:at] for at, each in enumerate(value)):
        return False
    if isinstance(value, str) and 'pattern' in it:
        return re.fullmatch(it['pattern'].strip('^$'), value) is not None
    if isinstance(value, list):
        return len(value) <= it.get('maxItems', len(value)) and all(is_valid(it.get('items', {}), each) for each in value)
    if isinstance(value, dict):
        return not has_all(it.get('not'), value) and all(key in value for key in it.get('required', ())) and all(key in it['properties'] and is_valid(it['properties'][key], each) for key, each in value.items())
    return True


def has_all(it, value):
    """Whether a value has all that a schema says which stands behind `not`: keys, and values of them."""
    return it is not None and all(key in value and is_valid(it['properties'][key], value[key]) for key in it['required'])


def samples(it):
    """Values that a schema takes, of each form that it names."""
    it = schema()['properties'][it['$ref'].rpartition('/')[2]] if '$ref' in it else it
    if 'anyOf' in it:
        return [one for each in it['anyOf'] for one in samples(each)]
    if 'enum' in it:
        return it['enum']
    if it['type'] == 'integer':
        return [it['minimum'], it['maximum'], it['maximum'] // 2]
    if it['type'] == 'array':
        each = samples(it['items'])
        return [[], *([one] for one in each), each, *([] if it.get('uniqueItems') else [each[:1] * 2])]
    if it['type'] == 'object':
        keys, needed = it['properties'], {key: samples(it['properties'][key])[-1] for key in it.get('required', ())}
        return [needed, *({**needed, key: one} for key in keys for one in samples(keys[key])), {key: samples(keys[key])[-1] for key in keys}]
    if 'pattern' in it:
        return ['', 'a', '_*', '*b', '*', 'a\n*']
    return [True, False] if it['type'] == 'boolean' else ['', 'a', 'two words', 'é"\\\n\U0001f600']


def beside(keys):
    """Keys that are nearly of a list."""
    changes = [str.upper, str.title, lambda it: it + 's', lambda it: it[:-1], lambda it: it.replace('-', '_'), lambda it: it.replace('-', ''), lambda it: f' {it}', lambda it: f'{it}\0']
    return {change(it) for it in keys for change in changes} | {*FOREIGN, 'é'}


def toml(value):
    if isinstance(value, dict):
        return '{' + ', '.join(f'{toml(key)} = {toml(each)}' for key, each in value.items()) + '}'
    return '[' + ', '.join(map(toml, value)) + ']' if isinstance(value, list) else json.dumps(value, ensure_ascii=False)


def text_of(settings):
    return ''.join(f'{toml(key)} = {toml(value)}\n' for key, value in settings.items())


def all_settings(it):
    """Settings that are tried: of each key each value, keys that are nearly one, and some of all that at random."""
    keys, rules = it['properties'], it['properties']['rules']['properties']
    found = samples(it)
    found += [{key: value} for key in keys for value in VALUES]
    found += [{key: True} for key in beside(keys)] + [{'rules': {key: True}} for key in beside(rules)] + [{'rules': {key: value}} for key in rules for value in VALUES]
    chance, some = random.Random(5), [*found]
    for _ in range(200):
        found.append({key: value for each in chance.sample(some, 3) for key, value in each.items()})
    return found


def by_program(room, settings):
    """Whether the program takes settings."""
    room.put('s.toml', text_of(settings))
    status, out, err = room.run(['jslint', 'check', '--settings', 's.toml', 'a.js'])
    is_well((status, out, err) in [(0, '', ''), (2, '', 'jslint: bad settings\n')], f'{settings} {status} {out} {err}')
    return status == 0


def without_later(it, version):
    """A schema without the rules of later versions than the program's, and without what jslint-files alone takes."""
    later = [each.name for each in rule_texts.rules() if rule_texts.version_of(each.since) > rule_texts.version_of(version)]
    found = copy.deepcopy(it)
    for key in OWN:
        del found['properties'][key]
    found['properties']['only']['items']['enum'] = [name for name in it['properties']['only']['items']['enum'] if name not in later]
    found['properties']['rules']['properties'] = {name: each for name, each in it['properties']['rules']['properties'].items() if name not in later}
    return found


def as_program(room):
    """It takes just what the program takes, rules of later versions aside; each key and rule of the documents is in it; `make install` puts it where
    docs/EDITORS.md says."""
    room.put('a.js', '')
    if not by_program(room, {'only': []}):
        raise Skipped('this program is of an earlier version: it has no severities')
    it = without_later(schema(), room.run(['jslint', '--version'])[1].split()[1])
    verdicts = [(is_valid(it, each), each) for each in all_settings(it)]
    same([each for is_taken, each in verdicts if by_program(room, each) != is_taken], [])
    counts = [sum(is_taken is wish for is_taken, _ in verdicts) for wish in (True, False)]
    is_well(min(counts) > 50, counts)
    it = schema()
    with open(f'{TOP}/docs/rules/README.md', encoding='utf-8') as file:
        page = file.read()
    same(sorted(it['properties']['rules']['properties']), sorted({*re.findall(r'^\| \[([\w-]+)\]', page, re.M), *MOOT}))
    same(sorted({*it['properties']} - {*OWN}), sorted(re.findall(r'^\| `([\w-]+)` \| ', page.partition('\n## A settings file\n')[2].partition('\n## ')[0], re.M)))
    with open(f'{os.path.dirname(recipes.BIN)}/{PLACE}', encoding='utf-8') as file:
        same(json.load(file), it)


def by_validator(_):
    """It is a schema, and a validator of others takes what is taken here."""
    try:
        import jsonschema
    except ImportError:
        raise Skipped('there is no python3-jsonschema here') from None
    it = schema()
    jsonschema.Draft7Validator.check_schema(it)
    validator = jsonschema.Draft7Validator(it)
    same([each for each in all_settings(it) if validator.is_valid(each) != is_valid(it, each)], [])


def words(_):
    """Each key has a description, and a default, which it takes itself; those of the language have none, since without them both of their values are left. Those
    of the rules are the words that `jslint-files` has for them."""
    it = schema()
    rules = it['properties'].pop('rules')['properties']
    keys = [*it['properties'].items(), *rules.items()]
    same([key for key, each in keys if not each.get('description') or 'default' in each and not is_valid(each, each['default'])], [])
    same([key for key, each in keys if 'default' not in each], ['edition', 'source-type', 'only', 'overrides'])
    same({key: each['description'] for key, each in rules.items()}, RULES | {key: f'Finds nothing in strict code: {it}' for key, it in MOOT.items()})


def lines(_):
    """What it says of `format` is what the words of the command take, with what holds without them."""
    keys = schema()['properties']['format']['properties']
    same({key: it['default'] if isinstance(it['default'], bool) else str(it['default']) for key, it in keys.items()}, HANDED)
    same({key: (it['minimum'], it['maximum']) for key, it in keys.items() if it.get('type') == 'integer'}, RANGES)
    same({key: tuple(it['enum']) for key, it in keys.items() if 'enum' in it}, {key: CHOICES[key] for key in keys if key in CHOICES})
    same({key for key, it in keys.items() if it.get('type') == 'boolean'}, {key for key, it in HANDED.items() if it is False})


def as_jslint_files(_):
    """`jslint-files` finds a fault in just those tables of overrides and of `format` that it doesn't take."""
    it = schema()
    for key in OWN:
        table = it['properties'][key]
        values = [*VALUES, *samples(table), 39, 40, 200, 201] + ([{name: value} for name in {*table['properties'], *beside(table['properties'])} for value in [*VALUES, 8, 9, 39, 40, 200, 201]] if key == 'format' else [])
        verdicts = [(is_valid(table, value), value) for value in values]
        same([value for is_taken, value in verdicts if is_taken == any(True for _ in faults(table, value, key))], [], key)
        is_well({is_taken for is_taken, _ in verdicts} == {True, False}, key)


TESTS = [as_program, by_validator, words, lines, as_jslint_files]
