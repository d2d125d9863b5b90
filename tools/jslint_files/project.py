"""What lies beside scripts and says how they are to be read: jslint.toml and the ignore files, from a script's folder up to the one that has .git."""
import os
import stat

from .git import common_folder, excludes_file
from .ignoring import in_bytes, patterns_of, verdict
from .outcomes import Refused
from .reading import MOST, read, unread
from .streams import Wrong, shown

SETTINGS = 'jslint.toml'
# What the first says goes before what the second says. A repository has two more, which come last: `info/exclude`, and git's `core.excludesFile`.
IGNORES = ('.jslintignore', '.gitignore')
# How the names of scripts and modules end.
SCRIPTS = ('.js', '.mjs', '.cjs')
# Folders that nobody has checked.
LEFT_OUT = ('.git', 'node_modules')


def bytes_of(path):
    """A file's bytes, None where there is none."""
    if not os.path.lexists(path):
        return None
    text = read(path)
    if len(text) > MOST:
        raise Refused(f'longer than {MOST} bytes')
    return text


def text_of(path):
    """The same of a file that says what is to be done. What can't be read isn't passed over: other answers would come of that."""
    try:
        return bytes_of(path)
    except Refused as why:
        raise Wrong(f'{shown(path)}: {why}') from None


class Project:
    """What is read once and asked for often. Folders are named as os.path.realpath has them. `has_ignores`: whether ignore files hold. `bad` has the settings
    that are refused, by their paths, and why; `faults` has the folders that can't be looked through, by their names."""

    def __init__(self, has_ignores=True):
        self.has_ignores, self.settings, self.patterns, self.faults, self.ways, self.folders, self.bad = has_ignores, {}, {}, {}, {}, {}, {}
        self.texts, self.above = {}, {}

    def folders_above(self, folder):
        """A folder and those above it, up to the one that has .git, or else to the top of the file system."""
        while True:
            yield folder
            if os.path.dirname(folder) == folder or os.path.lexists(os.path.join(folder, '.git')):
                return
            folder = os.path.dirname(folder)

    def settings_of(self, folder):
        """The nearest settings as (file, bytes), or None. Files are not merged."""
        found, passed = None, []
        for it in self.folders_above(folder):
            if it in self.settings:
                found = self.settings[it]
                break
            passed.append(it)
            path = os.path.join(it, SETTINGS)
            try:
                text = bytes_of(path)
            except Refused as why:
                self.bad[path], text = why, b''
            if text is not None:
                found = (path, text)
                break
        self.settings.update(dict.fromkeys(passed, found))
        return found

    def patterns_in(self, folder):
        if folder not in self.patterns:
            self.texts[folder] = [text for it in self.ignores_of(folder) if (text := text_of(it)) is not None]
            self.patterns[folder] = [pattern for it in self.texts[folder] for pattern in patterns_of(it)]
        return self.patterns[folder]

    def ignores_above(self, named):
        """The texts of the ignore files that speak of what lies in a folder, in their order."""
        if named not in self.above:
            folders = [*self.folders_above(self.real(named))]
            # (this reads them)
            for it in folders:
                self.patterns_in(it)
            self.above[named] = tuple(text for it in folders for text in self.texts[it])
        return self.above[named]

    def ignores_of(self, folder):
        """The ignore files that speak of what is below a folder from there on, the first of which goes before the others."""
        found = [os.path.join(folder, it) for it in IGNORES] if self.has_ignores else []
        if not found or not os.path.lexists(os.path.join(folder, '.git')):
            return found
        more = os.path.join(common_folder(folder), 'info', 'exclude'), excludes_file(folder)
        return found + [it for it in more if it is not None]

    def way_to(self, folder):
        """How a folder is reached from the top, as a `Way`."""
        if folder not in self.ways:
            above = [*self.folders_above(folder)][::-1]
            parts, patterns_at = [in_bytes(os.path.basename(it)) for it in above[1:]], [self.patterns_in(it) for it in above]
            is_repository = os.path.lexists(os.path.join(above[0], '.git'))
            is_ignored = self.has_ignores and any(verdict(parts[:count], True, patterns_at) for count in range(1, len(parts) + 1))
            self.ways[folder] = Way(above[0] if is_repository else None, parts, patterns_at, is_ignored)
        return self.ways[folder]

    def is_ignored(self, name):
        """Whether a file or a folder that is named is to be left alone: by its own place, or by that of the file to which it leads."""
        if not self.has_ignores:
            return False
        folder, base = os.path.split(name)
        place = os.path.realpath(name) if base in ('', '.', '..') else os.path.join(self.real(folder), base)
        mode = mode_of(place)
        if not stat.S_ISLNK(mode):
            return self.is_place_ignored(place, stat.S_ISDIR(mode))
        path = os.path.realpath(place)
        return any(self.is_place_ignored(it, os.path.isdir(path)) for it in (place, path))

    def real(self, folder):
        if folder not in self.folders:
            self.folders[folder] = os.path.realpath(folder)
        return self.folders[folder]

    def is_place_ignored(self, path, is_folder):
        folder, base = os.path.split(path)
        if not base:
            return False
        # (a folder may be a repository's top, and then nothing above it speaks of it)
        way = self.way_to(path if is_folder else folder)
        if way.is_ignored or is_below_left_out(path, way.top):
            return True
        return not is_folder and any(way.patterns_at) and verdict([*way.parts, in_bytes(base)], False, way.patterns_at)

    def scripts_below(self, name):
        """The scripts below a folder that aren't ignored, in order. Links in it are followed neither to scripts nor to folders."""
        folder = os.path.realpath(name)
        way = self.way_to(folder)
        found, left = [], [Folder('' if name == '.' else name, folder, way.parts, way.patterns_at)]
        while left:
            it = left.pop()
            if isinstance(it, Folder):
                left += self.entries_of(it)[::-1]
            else:
                found.append(it)
        return found

    def entries_of(self, folder):
        """The scripts, by their names, and the folders in a folder, in order. One that can't be looked through is refused as a script would be."""
        try:
            with os.scandir(folder.path) as found:
                entries = sorted(found, key=lambda it: it.name)
        except OSError as error:
            self.faults[folder.name or '.'] = Refused(unread(error))
            return [folder.name or '.']
        return [found for it in entries if (found := self.entry_of(folder, it)) is not None]

    def entry_of(self, folder, it):
        """What an entry of a folder is: a script's name, a folder, or None."""
        is_folder = it.is_dir(follow_symlinks=False)
        if it.name in LEFT_OUT if is_folder else not it.name.endswith(SCRIPTS) or not it.is_file(follow_symlinks=False):
            return None
        parts = [*folder.parts, in_bytes(it.name)]
        if any(folder.patterns_at) and verdict(parts, is_folder, folder.patterns_at):
            return None
        name = os.path.join(folder.name, it.name)
        if not is_folder:
            return name
        # (a repository in another one has ignore files of its own alone)
        is_top = os.path.lexists(os.path.join(it.path, '.git'))
        return Folder(name, it.path, [] if is_top else parts, [*([] if is_top else folder.patterns_at), self.patterns_in(it.path)])


def mode_of(path):
    """What a path itself is; 0 where there is nothing."""
    try:
        return os.lstat(path).st_mode
    except (OSError, ValueError):
        return 0


def is_below_left_out(path, top):
    """Whether a path leads through a folder that nobody has checked, below the top of its repository, or below this folder where there is none."""
    if not any(f'/{it}' in path for it in LEFT_OUT):
        return False
    try:
        above = os.getcwd() if top is None else top
    except FileNotFoundError:
        # (this folder was removed)
        return False
    is_below = path.startswith(above.rstrip('/') + '/')
    return is_below and any(it in LEFT_OUT for it in path[len(above):].split('/'))


class Way:
    """How a folder is reached from the top of its repository, or of the file system: that top, if it is a repository's, its parts from there, the patterns
    there and in each folder down to it, and whether it is ignored."""

    def __init__(self, top, parts, patterns_at, is_ignored):
        self.top, self.parts, self.patterns_at, self.is_ignored = top, parts, patterns_at, is_ignored


class Folder:
    """A folder on the way: its name as it is shown, its path, its parts from the top, and the patterns there and in each folder down to it."""

    def __init__(self, name, path, parts, patterns_at):
        self.name, self.path, self.parts, self.patterns_at = name, path, parts, patterns_at
