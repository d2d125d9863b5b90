"""Which files are meant: names, patterns, lists of names, and folders."""
import os
import re

from .reading import unread
from .streams import Wrong, shown

# No longer list is read.
MOST_LISTED = 1 << 28


def listed(path):
    """The names in a file."""
    try:
        with open(0 if path == '-' else path, 'rb', closefd=path != '-') as file:
            text = file.read(MOST_LISTED + 1)
            why = f'longer than {MOST_LISTED} bytes' if len(text) > MOST_LISTED else None
    except OSError as error:
        why = unread(error)
    if why is not None:
        raise Wrong(f'{"standard input" if path == "-" else shown(path)}: {why}')
    return [os.fsdecode(it) for it in text.split(b'\0' if b'\0' in text else b'\n') if it]


def is_hidden(name):
    return name.startswith('.')


def ways(folder, parts):
    """The entries of a folder that the first part of a pattern means, each with the parts that are left for it."""
    part, *rest = parts
    if not re.search('[*?[]', part):
        path = os.path.join(folder, part)
        return [(path, rest)] if os.path.lexists(path) else []
    with os.scandir(folder or '.') as found:
        entries = [(it, os.path.join(folder, it.name)) for it in found]
    if part == '**':
        return [(folder, rest or ['*'])] + [(path, parts) for it, path in entries if not is_hidden(it.name) and it.is_dir(follow_symlinks=False)]
    import fnmatch
    fits = re.compile(fnmatch.translate(part)).match
    entries = [it for it in entries if fits(it[0].name) and (is_hidden(part) or not is_hidden(it[0].name))]
    return [(path, rest) for _, path in entries if not rest or os.path.isdir(path)]


def matching(pattern):
    """The files that a pattern means, without devices and pipes, which might never end. A folder that can't be looked through is one of them, and a link that
    leads to nothing, so that they are refused."""
    found, left = set(), [('/' if pattern.startswith('/') else '', [it for it in pattern.split('/') if it])]
    while left:
        path, parts = left.pop()
        if parts:
            try:
                left += ways(path, parts)
            except NotADirectoryError:
                pass
            except OSError:
                found.add(path or '.')
        elif os.path.isfile(path) or not os.path.exists(path):
            found.add(path)
    return sorted(found)


def expanded(names):
    """The files that are meant, each once; a pattern without any stays, and is refused."""
    found = []
    for name in names:
        is_pattern = re.search('[*?[]', name) and not os.path.lexists(name)
        found += matching(name) or [name] if is_pattern else [name]
    return [*dict.fromkeys(found)]


def is_closed_stream(name):
    """Whether a name is that of one of the streams that were closed, where a folder stands now."""
    return name.startswith(('/dev/', '/proc/')) and os.path.realpath(name) == '/'


def with_folders(names, project):
    """The names, each folder replaced by the scripts below it, and which names are ignored."""
    found, ignored = [], []
    for name in names:
        if is_closed_stream(name):
            found.append(name)
        elif project.is_ignored(name):
            ignored.append(name)
        else:
            found += project.scripts_below(name) if os.path.isdir(name) else [name]
    return [*dict.fromkeys(found)], ignored


def once(names):
    """The names without those that lead to the file of an earlier one."""
    found = {}
    for it in names:
        found.setdefault(os.path.realpath(it), it)
    return [*found.values()]
