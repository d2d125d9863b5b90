"""How files are read."""
import errno
import os

from .outcomes import Refused
from .streams import Wrong, say

# The commands take no longer text; of a longer one they get a byte more than this, and refuse it.
MOST = 16 * 1024 * 1024
# How much is read at once, at most.
PART = 1 << 20
# Why a file can't be read, in the words that the package for Node has too.
UNREAD = {errno.ENOENT: 'missing', errno.ENOTDIR: 'missing', errno.EISDIR: 'a folder', errno.EACCES: 'not permitted', errno.ELOOP: 'links in a circle'}


def unread(error):
    return 'read failed' + (f': {UNREAD[error.errno]}' if error.errno in UNREAD else '')


def read(name):
    """A file's bytes, or as many as are needed to see that they are too many; those of standard input where the name is 0."""
    try:
        file = name if name == 0 else os.open(name, os.O_RDONLY)
        try:
            return read_from(file)
        finally:
            if file:
                os.close(file)
    except (OSError, ValueError) as error:
        raise Refused(unread(error) if isinstance(error, OSError) else 'read failed') from None


def read_from(file):
    parts, left = [], MOST + 1
    while left:
        part = os.read(file, min(os.fstat(file).st_size + 1 if not parts else PART, PART, left))
        if not part:
            break
        parts.append(part)
        left -= len(part)
    return parts[0] if len(parts) == 1 else b''.join(parts)


def pass_on():
    """Writes standard input to standard output, as it is."""
    while True:
        try:
            part = os.read(0, PART)
        except OSError as error:
            raise Wrong(f'standard input: {unread(error)}') from None
        if not part:
            return
        say(part)
