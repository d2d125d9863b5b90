"""Why settings are refused: the place or the line, the key and its value. The program says no more than `bad settings` of TOML that doesn't fit."""
import functools
import os
import re

from .languages import LEFT
from .outcomes import PLACED, Refused, said
from .streams import escaped

HERE = os.path.dirname(os.path.realpath(__file__))
# The schema of the settings: where `make install` puts it, and where it is in the repository.
PLACES = (f'{HERE}/../jslint.schema.json', f'{HERE}/../../share/jslint/jslint.schema.json')
# How many lines of refused settings are taken away one by one, and of how long ones; how much of a line or a value is shown.
MOST_LINES, MOST_PLACED, MOST_SHOWN = 200, 1 << 16, 60
# Longer ones aren't read here.
MOST_READ = 1 << 20
WORDS = {'2020': '--edition 2020', '2022': '--edition 2022', 'module': '--module'}


class Unfit(Refused):
    """Refused settings: what is found in them, and how a line says it that begins with their name."""

    def __init__(self, text, line, column, words):
        super().__init__(text, line, column)
        self.words = words


def judge_settings(engine, text, asked, handed=lambda it: it):
    """Refuses settings that no language takes which the words leave. `handed` is what the program gets of a document."""
    refusals = [engine.run('check', b'', handed(text), language=it) for it in (LEFT[asked] if asked else (None,))]
    if not all(status for status, _, _ in refusals):
        return
    status, _, err = refusals[0]
    words = said(status, err, 'checked')
    at = re.fullmatch(PLACED, words)
    if at:
        raise Unfit(at[1], at[2], at[3], words)
    if words != 'bad settings':
        raise Unfit(words, 1, 1, words)
    is_taken = lambda it: engine.run('check', b'', handed(it))[0] == 0
    line = line_of_fault(is_taken, text)
    why = fault_of(text) or (unasked(text, asked) if asked and is_taken(text) else '') or shown_line(text, line)
    more = f': {why}' if why else ''
    raise unfit(f'{words}{more}', words, line, more)


def judge_own(text, keys):
    """Refuses a document in which keys that the program doesn't know have values that the schema doesn't take."""
    why = next(own_faults(read_toml(text), keys), None)
    if why is not None:
        line = line_of_fault(lambda it: (found := read_toml(it)) is not None and why not in own_faults(found, keys), text)
        raise unfit(f'bad settings: {why}', 'bad settings', line, f': {why}')


def own_faults(settings, keys):
    table = schema()
    return (why for key in keys if table and settings and key in settings for why in faults(table['properties'][key], settings[key], key))


def unfit(text, words, line, more):
    return Unfit(text, line or 1, 1, f'{words}{f" (line {line})" if line else ""}{more}')


def line_of_fault(is_taken, text):
    """Behind how many lines settings are wrong: the most lines from the first on that are taken, as far as few enough calls tell that."""
    lines = text.split(b'\n') if len(text) <= MOST_PLACED and not is_taken(text) else []
    for count in range(len(lines) - 1, max(len(lines) - MOST_LINES, 0) - 1, -1):
        # (each with its line end, since a CR alone is none)
        if is_taken(b''.join(it + b'\n' for it in lines[:count])):
            return count + 1
    return None


def cut(text):
    return escaped(text if len(text) <= MOST_SHOWN else f'{text[:MOST_SHOWN]}…')


def shown_line(text, line):
    return cut(text.split(b'\n')[line - 1].decode(errors='replace').strip()) if line else ''


# ---- the key and the value, by the schema

@functools.lru_cache(1)
def schema():
    path = next(filter(os.path.exists, PLACES), None)
    if path is None:
        return None
    import json
    with open(path, encoding='utf-8') as file:
        return json.load(file)


def read_toml(text):
    """Settings as a dictionary; None where this Python reads no TOML, or not these."""
    try:
        import tomllib
        return tomllib.loads(text.decode()) if len(text) <= MOST_READ else None
    except (ImportError, ValueError, RecursionError):
        return None


def fault_of(text):
    """The first key that doesn't fit, with its value and why; nothing where that isn't known."""
    table, settings = schema(), read_toml(text)
    return next(faults(table, settings), '') if table and settings else ''


def in_toml(value):
    """A value as TOML has it, as far as JSON has it so."""
    import json
    return cut(json.dumps(value, ensure_ascii=False, default=str))


def listed(values):
    *most, last = map(in_toml, values)
    return f'{", ".join(most)} or {last}' if most else last


def faults(table, value, key=''):
    """What the schema's tables say against a value, in the order of the file."""
    table = meant(table)
    if table.get('type') == 'object' and isinstance(value, dict):
        known = table['properties']
        kind = 'rule' if key.endswith('rules') else 'option' if 'rules.' in key else 'key'
        for name, each in value.items():
            below = f'{key}.{name}' if key else name
            yield from faults(known[name], each, below) if name in known else [f'{cut(below)} = {in_toml(each)}: there is no such {kind}']
        yield from (f'{key}: there is no {it}' for it in table.get('required', ()) if it not in value)
        if not key and value.get('edition') == 2020 and value.get('source-type') == 'module':
            yield 'source-type = "module": there are none in edition = 2020'
    elif table.get('type') == 'array' and isinstance(value, list):
        wanted = meant(table['items'])
        if wanted.get('type') == 'object':
            yield from (it for at, each in enumerate(value) for it in faults(wanted, each, f'{key}.{at}'))
            return
        wish = "there is no such rule" if key.rpartition(".")[2] == "only" else f"it takes {wish_of_items(wanted)}"
        yield from (f"{key} has {in_toml(it)}: {wish}" for it in value if not fits(wanted, it))
        if len(value) > table.get('maxItems', len(value)):
            yield f'{key} has {len(value)} elements: it takes {table["maxItems"]} at most'
        twice = [it for at, it in enumerate(value) if it in value[:at]] if table.get('uniqueItems') else []
        yield from (f'{key} has {in_toml(it)} twice' for it in twice)
    elif 'anyOf' in table and isinstance(value, {'object': dict, 'array': list}[table['anyOf'][1]['type']]):
        yield from faults(table['anyOf'][1], value, key)
    elif not fits(table, value):
        yield f'{key} = {in_toml(value)}: it takes {wish_of(table)}'


def meant(table):
    """A table, or the one that it names."""
    return schema()['properties'][table['$ref'].rpartition('/')[2]] if '$ref' in table else table


def fits(table, value):
    """Whether a value is one of those that the schema lists, or of the type that it names."""
    if 'anyOf' in table:
        return any(fits(it, value) for it in table['anyOf'])
    if 'enum' in table:
        return any(type(it) is type(value) and it == value for it in table['enum'])
    if table['type'] == 'integer':
        return type(value) is int and table['minimum'] <= value <= table['maximum']
    if table['type'] == 'string' and isinstance(value, str):
        return re.search(table.get('pattern', ''), value.replace('\n', ' ')) is not None
    return isinstance(value, {'boolean': bool}.get(table['type'], ()))


def wish_of_items(table):
    if 'enum' in table:
        return listed(table['enum'])
    return 'strings with a * at one end at most' if 'pattern' in table else 'strings'


def wish_of(table):
    if 'anyOf' in table:
        more = {'object': 'a table with a severity or options', 'array': 'an array of these'}[table['anyOf'][1]['type']]
        return f'{", ".join(map(in_toml, table["anyOf"][0]["enum"]))} or {more}'
    if table.get('type') == 'integer':
        return f'a number from {table["minimum"]} to {table["maximum"]}'
    return listed(table['enum']) if 'enum' in table else {'boolean': 'true or false', 'array': 'an array', 'object': 'a table'}.get(table['type'], f'a {table["type"]}')


def unasked(text, asked):
    """Which keys leave none of the languages that the words leave."""
    settings = read_toml(text) or {}
    keys = [f'{it} = {in_toml(settings[it])}' for it in ('edition', 'source-type') if it in settings]
    return f'{" and ".join(keys)}: {WORDS[asked]} asks for another language' if keys else ''
