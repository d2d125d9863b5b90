"""The settings of each file: those of a `jslint.toml`, what its `[[overrides]]` say of the file, and what the words --rule and --only say.

The program knows the settings of one file, and not those of `[format]`. Where there is no more than a document, it gets that as it is; else one is made for each
file.
"""
import os

from .ignoring import in_bytes, matches, patterns_of
from .outcomes import Refused
from .rule_table import MOOT, RULES
from .settings import judge_own, judge_settings, line_of_fault, read_toml, unfit
from .streams import Wrong, shown

OVERRIDES, FILES, FORMAT = 'overrides', 'files', 'format'
# Keys that the program doesn't know.
OWN = (FORMAT, OVERRIDES)
SEVERITIES = {'off': 'off', '0': 'off', 'false': 'off', 'warn': 'warn', '1': 'warn', 'error': 'error', '2': 'error', 'true': 'error'}
# Keys whose values are added to those that stand before.
ADDED = ('env', 'globals')


def known_rule(name, word):
    if name not in RULES and name not in MOOT:
        raise Wrong(f'{word}: {shown(name)} is no rule: --explain names them all')
    return name


def rules_said(values):
    """The severities that --rule gives, by their rules."""
    found = {}
    for value in values:
        name, has_value, severity = value.partition('=')
        known_rule(name, '--rule')
        if not has_value or severity not in SEVERITIES:
            raise Wrong(f'--rule {shown(value)}: a rule is NAME=off, NAME=warn or NAME=error')
        if name in found:
            raise Wrong(f'--rule has {name} twice')
        found[name] = SEVERITIES[severity]
    return found


def rules_left(names):
    """The rules that --only names, or None."""
    twice = next((it for at, it in enumerate(names) if it in names[:at]), None)
    if twice is not None:
        raise Wrong(f'--only has {shown(twice)} twice')
    return [known_rule(it, '--only') for it in names] or None


# ---- TOML

def in_toml(value):
    """A value of settings as TOML has it."""
    import json
    if isinstance(value, dict):
        return '{ ' + ', '.join(f'{key_in_toml(key)} = {in_toml(each)}' for key, each in value.items()) + ' }' if value else '{}'
    if isinstance(value, list):
        return '[' + ', '.join(map(in_toml, value)) + ']'
    if isinstance(value, str):
        return json.dumps(value, ensure_ascii=False).replace('\x7f', '\\u007f')
    # (of numbers and times what Python writes is TOML)
    return json.dumps(value) if isinstance(value, bool) else str(value)


def key_in_toml(key):
    return key if key and all(it.isascii() and (it.isalnum() or it in '-_') for it in key) else in_toml(key)


def lines_of(settings):
    """Settings as keys of the document, dotted for rules and for `format`, each with the text of its value."""
    for key, value in settings.items():
        if key in ('rules', FORMAT) and isinstance(value, dict):
            yield from ((f'{key}.{key_in_toml(name)}', in_toml(each)) for name, each in value.items())
        else:
            yield key_in_toml(key), in_toml(value)


def document(settings):
    """Settings as the program takes them."""
    return ''.join(f'{key} = {value}\n' for key, value in lines_of({key: it for key, it in settings.items() if key not in OWN})).encode()


def for_program(text):
    """A document as the program takes it."""
    found = read_toml(text) if has_own(text) else None
    return document(found) if found and any(it in found for it in OWN) else text


def has_own(text):
    """Whether a document may have keys that the program doesn't know."""
    return any(it.encode() in text for it in OWN)


# ---- one over another

def over(settings, more):
    """Settings with others over them: rules and the keys of `format` one by one, names added, all else in place of what stood there."""
    found = dict(settings)
    for key, value in more.items():
        before = found.get(key)
        if key == 'rules' and isinstance(before, dict):
            found[key] = {**before, **{name: rule_over(before.get(name), each) for name, each in value.items()}}
        elif key == FORMAT and isinstance(before, dict):
            found[key] = {**before, **value}
        elif key in ADDED and before:
            found[key] = [*before, *(it for it in value if it not in before)]
        else:
            found[key] = value
    return found


def rule_over(before, value):
    """A rule's value over another one: a severity leaves the options that stood there, and a table what it doesn't name."""
    if not isinstance(before, dict):
        before = {} if before is None else {'severity': before}
    if isinstance(value, dict):
        return {**before, **value}
    return {**before, 'severity': value} if before.keys() - {'severity'} else value


class Override:
    """What holds for some files: patterns, as in ignore files, from the folder of the document on, and settings."""

    def __init__(self, table):
        self.patterns = patterns_of('\n'.join(table[FILES]).encode())
        self.settings = {key: value for key, value in table.items() if key != FILES}
        # (by the parts of folders, which have many scripts)
        self.folders = {(): False}

    def has(self, folder, base):
        """Whether it holds for a path, by the parts of its folder and its last one: for that itself, or for a folder on the way."""
        return self.has_folder(folder) or self.is_named((*folder, base), False)

    def has_folder(self, parts):
        known = len(parts)
        while parts[:known] not in self.folders:
            known -= 1
        for count in range(known + 1, len(parts) + 1):
            self.folders[parts[:count]] = self.folders[parts[:count - 1]] or self.is_named(parts[:count], True)
        return self.folders[parts]

    def is_named(self, parts, is_folder):
        # (all patterns are of one folder, and the last one is the first here)
        return next((not it.is_back for it in self.patterns if (not it.is_folder or is_folder) and matches(it.segments, parts)), False)


class Layers:
    """Makes the settings of files. `rules` and `only` are what words say."""

    def __init__(self, rules=None, only=None):
        self.words = {**({'rules': rules} if rules else {}), **({'only': only} if only is not None else {})}
        self.documents, self.made, self.folders, self.held = {}, {}, {}, {}

    def read(self, path, text):
        """A document as its settings and its overrides; None where it goes to the program as it is."""
        if path not in self.documents:
            self.documents[path] = self.read_anew(path, text)
        return self.documents[path]

    def read_anew(self, path, text):
        if not self.words and not has_own(text):
            return None
        found = read_toml(text) if text else {}
        if found is None and self.words:
            if not has_toml():
                raise Wrong('--rule and --only beside settings need Python 3.11, which reads TOML')
            return None
        if found is None or not self.words and not any(it in found for it in OWN):
            return None
        return {key: value for key, value in found.items() if key != OVERRIDES}, [Override(it) for it in found.get(OVERRIDES, [])]

    def judge(self, engine, path, text, asked):
        """Refuses a document that gives no settings: itself, or with one of its overrides."""
        # (the words are judged where they are read)
        judge_own(text, OWN)
        judge_settings(engine, text, asked, for_program)
        settings = has_own(text) and read_toml(text) or {}
        for number in range(len(settings.get(OVERRIDES, []))):
            why = fault_with(engine, settings, number, asked)
            if why is not None:
                head = f'with {OVERRIDES}.{number}'
                line = line_of_fault(lambda it: (found := read_toml(it)) is not None and fault_with(engine, found, number, asked) is None, text)
                raise unfit(f'{head}: {why}', head, line, f': {why}')

    def parts_of(self, path, folder):
        """A folder from that of a document, by its parts; None for one that isn't below it."""
        if (path, folder) not in self.folders:
            parts = os.path.relpath(os.path.realpath(folder), os.path.dirname(os.path.realpath(path))).split(os.sep)
            self.folders[path, folder] = None if parts[0] == os.pardir else tuple(in_bytes(it) for it in parts if it != os.curdir)
        return self.folders[path, folder]

    def holding(self, path, text, name):
        """Which overrides of a document hold for a script, by their numbers."""
        if (path, name) not in self.held:
            found, (folder, base) = self.read(path, text), os.path.split(name)
            parts = self.parts_of(path, folder) if found and found[1] else None
            self.held[path, name] = () if parts is None else tuple(number for number, it in enumerate(found[1]) if it.has(parts, in_bytes(base)))
        return self.held[path, name]

    def settings_of(self, path, text, name):
        """The settings of a script as a dictionary, and from where each of their keys is."""
        settings, overrides = self.read(path, text)
        layers = [(path, settings), *((f'{path}, {OVERRIDES}.{it}', overrides[it].settings) for it in self.holding(path, text, name))]
        layers += [('the words', self.words)] if self.words else []
        made, origins = {}, {}
        for where, layer in layers:
            made = over(made, layer)
            origins.update(dict.fromkeys((key for key, _ in lines_of(layer)), where))
        return made, origins

    def of(self, path, text, name):
        """The settings of a script, as the program takes them. `path` is that of their document, or None where there is none."""
        return text if self.read(path, text) is None else self.made_of(path, text, name)[0]

    def format_of(self, path, text, name):
        """What the settings of a script say of its lines."""
        return {} if self.read(path, text) is None else self.made_of(path, text, name)[1]

    def made_of(self, path, text, name):
        key = (path, *(self.holding(path, text, name) if path is not None else ()))
        if key not in self.made:
            settings = self.settings_of(path, text, name)[0]
            self.made[key] = document(settings), settings.get(FORMAT, {})
        return self.made[key]


def fault_with(engine, settings, number, asked):
    """Why a document gives no settings with one of its overrides; None where it does, or has fewer of them."""
    overrides = settings.get(OVERRIDES, [])
    if len(overrides) <= number:
        return None
    try:
        judge_settings(engine, document(over(settings, {key: it for key, it in overrides[number].items() if key != FILES})), asked)
    except Refused as error:
        # (the lines of what is made here are none of the document's)
        return str(error)
    return None


def has_toml():
    try:
        import tomllib  # noqa: F401
    except ImportError:
        return False
    return True


def printed(layers, found, name):
    """What applies to a script, a key a line, and from where it is."""
    path, text = found or (None, b'')
    if not has_toml():
        raise Wrong('--print-config needs Python 3.11, which reads TOML')
    judge_own(text, OWN)
    head = f'# {shown(name)}: ' + (f'{shown(path)}\n' if path else 'no settings: the set nine\n')
    if layers.read(path, text) is None:
        settings = read_toml(text) or {}
        return head + ''.join(f'{key} = {value} # {shown(path)}\n' for key, value in lines_of(settings))
    settings, origins = layers.settings_of(path, text, name)
    return head + ''.join(f'{key} = {value} # {shown(str(origins.get(key, path)))}\n' for key, value in lines_of(settings))
