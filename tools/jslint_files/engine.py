"""The proved calls: by the library in this process, where there is one (`library.py`), else by the program, once for each call."""
import os
import threading

from .streams import Wrong, shown
from .traces import TRACES

# The program's words for a command that isn't one of its own.
WORDS = {'spans': ('check', '--spans')}
# What asks for a language.
LANGUAGE_WORDS = {None: (), '2020': ('--edition', '2020'), '2022': ('--edition', '2022'), 'module': ('--module',)}


def executable(path, more=''):
    if not os.path.exists(path):
        raise Wrong(f'there is no {shown(path)}{more}')
    if os.path.isdir(path) or not os.access(path, os.X_OK):
        raise Wrong(f"{shown(path)} can't be executed{more}")
    return path


def path_of_program(here):
    """What JSLINT names, or the program beside `jslint-files`: whatever the PATH has of that name may be another one."""
    named, beside, launcher = os.environ.get('JSLINT'), f'{here}/jslint', f'{os.path.dirname(here)}/jslint'
    if named:
        if '/' not in named:
            raise Wrong(f'JSLINT in the environment is no path: {shown(named)}')
        return executable(os.path.abspath(named))
    if os.path.basename(here) != 'tools' or os.path.lexists(beside) or not os.path.lexists(launcher):
        return executable(beside, ': JSLINT in the environment may name the program')
    import subprocess
    # (a first run may build the program, and says so)
    ran = subprocess.run([executable(launcher), '--program'], stdin=subprocess.DEVNULL, stdout=subprocess.PIPE)
    if ran.returncode:
        raise Wrong('there is no program')
    return os.fsdecode(ran.stdout.rstrip(b'\n'))


def nameless_file(text):
    """An open file with a text, which programs that are started have, too."""
    try:
        file = open(os.memfd_create('settings'), 'w+b')
    except (OSError, AttributeError):
        import tempfile
        file = tempfile.TemporaryFile()
    file.write(text)
    file.flush()
    os.set_inheritable(file.fileno(), True)
    return file


class Program:
    """The program, which is started for each call."""

    # How much stack a thread needs that calls it; 0 is what threads have.
    stack = 0

    def __init__(self, path, words=()):
        """`words` go behind `format`."""
        self.path, self.words, self.files, self.lock = path, {**WORDS, 'format': ('format', *words)}, {}, threading.Lock()

    def settings_words(self, settings):
        """The words that name an open file with these settings. It has no name of its own, so nothing is left of it."""
        if not settings:
            return []
        with self.lock:
            if settings not in self.files:
                self.files[settings] = nameless_file(settings)
            return ['--settings', f'/dev/fd/{self.files[settings].fileno()}']

    def run(self, command, text, settings=b'', out=None, language=None):
        """What it answers for a text: its status, and its two streams; the first goes to a file where one is given."""
        words = [self.path, *self.words.get(command, (command,)), *LANGUAGE_WORDS[language], *self.settings_words(settings), '--', '/dev/stdin']
        return TRACES.call(words, text, out)

    def program(self):
        return self

    def made_of(self):
        """The files that answer."""
        return [self.path]

    def with_words(self, words):
        """The same with other words behind `format`."""
        return Program(self.path, words)

    def version(self):
        import subprocess
        ran = subprocess.run([self.path, '--version'], stdin=subprocess.DEVNULL, stdout=subprocess.PIPE)
        if ran.returncode:
            raise Wrong(f'{shown(self.path)} has no version')
        return ran.stdout


def library_of(here):
    """The library that JSLINT_LIBRARY names, or the one that is installed with the program, if no other program is named or has come since."""
    named, path = os.environ.get('JSLINT_LIBRARY'), f'{os.path.dirname(here)}/lib/jslint/libjslint.so'
    if named == '' or not named and (os.environ.get('JSLINT') or not os.path.exists(path)):
        return None
    # (a start is shorter without)
    from .library import Library
    try:
        if named:
            return Library(os.path.abspath(named), here, True)
        return Library(path, here) if os.stat(path).st_mtime >= os.stat(f'{here}/jslint').st_mtime else None
    except (OSError, AttributeError):
        if named:
            raise Wrong(f"JSLINT_LIBRARY in the environment can't be loaded: {shown(named)}") from None
        return None


def engine_of(here, words=()):
    """What answers: with words behind `format` the program, since the library takes none."""
    return (None if words else library_of(here)) or Program(path_of_program(here), words)


class InLanguage:
    """The calls for scripts of a language."""

    def __init__(self, engine, language):
        self.engine, self.language = engine, language

    def run(self, command, text, settings=b'', out=None, language=None):
        return self.engine.run(command, text, settings, out, language or self.language)

