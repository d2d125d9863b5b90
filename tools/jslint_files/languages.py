"""In which languages a script is tried: as the words and its settings leave them, and as its name and package.json say."""
import os
import re

from .outcomes import Refused
from .project import text_of
from .words import RULED

# All languages, in the order in which a text is tried, and which of them words leave. `--edition 2022` means what `edition = 2022` means in settings.
ALL = ('2020', '2022', 'module')
LEFT = {'module': ('module',), '2020': ('2020',), '2022': ('2022', 'module'), None: ALL}
# A text that scripts alone may be.
OF_SCRIPTS = b'var f; function f() {}'
# How a refusal begins that another language may not have, and how far the text was read then, where no place says it.
BY_LANGUAGE = 'syntax error|early error E[0-9]+|nested too deep'
AT_PLACE, TOO_DEEP, TO_THE_END = 0, 1, 2


def asked(options):
    """What the words leave."""
    return 'module' if options['module'] else options['edition']


def is_by_language(why):
    """Whether another language may have a text that is refused so."""
    return re.fullmatch(BY_LANGUAGE, why.found.text) is not None


def reach_of(why):
    """How far a text was read that is refused: an early error comes of one that was read to its end."""
    kind = {'s': AT_PLACE, 'n': TOO_DEEP, 'e': TO_THE_END}[why.found.text[0]]
    return kind, *((why.found.line, why.found.column) if kind == AT_PLACE else (0, 0))


def first_reading(languages, read):
    """What `read` gives of the first language that has the text, and that language. If none has it, it is refused as the one says it that got furthest, and of
    equals the first."""
    furthest = None
    for it in languages:
        try:
            return read(it), it
        except Refused as why:
            if not is_by_language(why):
                raise
            if furthest is None or reach_of(why) > reach_of(furthest):
                furthest = why
    raise furthest


class Languages:
    """In which languages each script is tried. None stands for what its settings say, or the base profile."""

    def __init__(self, engine, options, project, settings_for=None, layers=None):
        self.layers = layers
        self.engine, self.project, self.settings_for, self.asked = engine, project, settings_for, asked(options)
        self.is_project, self.packages, self.left, self.folders = options['project'], {}, {}, {}
        # (`format` itself takes no settings, so the language that they say is to be named)
        self.is_named = options['command'] not in RULED and options['settings'] is not None

    def of(self, name):
        """The languages for a script, in the order in which they are tried."""
        kind = self.kind_of(name)
        if not self.is_project and not self.is_named and kind != 'module' and self.asked != '2022':
            return [self.asked]
        left = self.left_by(self.settings_of(name))
        if kind == 'module' and 'module' in left:
            return ['module']
        if kind is not None:
            left = [it for it in left if it != 'module'] or left
        return left if self.is_project else left[:1]

    def kind_of(self, name):
        """Whether a name says that it is a module's or a script's, `commonjs`, or else package.json says it, for a project."""
        if name.endswith(('.mjs', '.cjs')):
            return 'module' if name.endswith('.mjs') else 'commonjs'
        return self.kind_in(self.folder_of(name)) if self.is_project and name.endswith('.js') else None

    def folder_of(self, name):
        """The folder in which a file lies, whatever links lead there."""
        if os.path.islink(name):
            return os.path.dirname(os.path.realpath(name))
        named = os.path.dirname(name)
        if named not in self.folders:
            self.folders[named] = os.path.realpath(named)
        return self.folders[named]

    def settings_of(self, name):
        if self.settings_for:
            return self.settings_for(name)
        found = self.project.settings_of(self.folder_of(name)) if self.is_project else None
        return self.layers.of(*found, name) if found and self.layers else found[1] if found else b''

    def kind_in(self, folder):
        """What the nearest package.json says that the scripts of a folder are: `module`, `commonjs`, or nothing."""
        if folder not in self.packages:
            self.packages[folder] = next((kind_said(text) for it in self.project.folders_above(folder) if (text := text_of(f'{it}/package.json')) is not None), None)
        return self.packages[folder]

    def is_taken(self, settings, language):
        """Whether settings leave a language. (the word for 2022 leaves modules, too)"""
        return self.engine.run('check', OF_SCRIPTS if language == '2022' else b'', settings, language=language)[0] != 2

    def left_by(self, settings):
        """The languages that words and settings leave. Settings that leave none were refused."""
        if settings not in self.left:
            self.left[settings] = [it for it in LEFT[self.asked] if not settings or self.is_taken(settings, it)] or [self.asked]
        return self.left[settings]

    def first_of(self, settings):
        """The language that settings say where nothing else does."""
        return self.left_by(settings)[0]


def kind_said(text):
    """What a package.json says."""
    import json
    try:
        package = json.loads(text)
    except (ValueError, RecursionError):
        return None
    kind = package.get('type') if isinstance(package, dict) else None
    return kind if kind in ('module', 'commonjs') else None
