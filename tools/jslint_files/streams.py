"""What is written to standard output and standard error, and how a name or a text stands in a line."""
import os
import re
import select

# Characters with which a name could break a line, or have it shown in another order. (none of them is printable)
UNSHOWN = '[\x00-\x1f\x7f-\x9f\u061c\u200e\u200f\u2028-\u202e\u2066-\u2069\ud800-\udfff]'


class Wrong(Exception):
    """What is wrong with the words, or why nothing can run or be written."""


def put(stream, text):
    """Writes all of a text to standard output, 1, or standard error, 2."""
    left = memoryview(text if isinstance(text, bytes) else text.encode(errors='backslashreplace'))
    while left:
        try:
            left = left[os.write(stream, left):]
        except BlockingIOError:
            select.select([], [stream], [])


def say(text):
    try:
        put(1, text)
    except OSError:
        raise Wrong('write failed') from None


def warn(text):
    """Writes to standard error. Where nobody reads that, the status alone says it."""
    try:
        put(2, text)
    except OSError:
        pass


def occupy():
    """Puts a folder, which can be neither read nor written, where one of the three streams is closed. Else the next file that is opened would be it."""
    for stream in range(3):
        try:
            os.fstat(stream)
        except OSError:
            os.open('/', os.O_RDONLY)


def escaped(text):
    """A text as a line shows it: no character breaks the line or turns its order."""
    def one(match):
        code = ord(match[0])
        code -= 0xdc00 if 0xdc80 <= code <= 0xdcff else 0
        return f'\\x{code:02x}' if code < 256 else f'\\u{{{code:04x}}}'

    return text if text.isprintable() else re.sub(UNSHOWN, one, text)


def shown(name):
    """A name as a line begins with it: what GitHub's runner would take for a command isn't one."""
    text = escaped(name).replace('##[', '#\\x23[')
    return f'./{text}' if text.lstrip().startswith('::') else text


def is_folder_gone():
    """Whether the current folder was removed, so that no name has a path."""
    try:
        os.getcwd()
    except OSError:
        return True
    return False
