"""Reports that are known (`--baseline FILE`): those are left out, and only new ones count.

A report is known by its rule, the name of its file, and the text of its line without the blanks around it, not by the line's number: so it stays known where lines come
or go above it, and is new where its own line changes. Where a file has more such reports than are known, the last ones are new. Names are those from the folder of the baseline on.

A baseline is text, an entry a line, in an order of their own, so that versions of it can be compared and merged. One that is torn, or isn't one, is refused.
"""
import collections
import hashlib
import json
import os
import re
import stat

from .checking import lines_of
from .reading import unread
from .streams import Wrong, shown
from .traces import TRACES

HEAD, END = 'jslint-files baseline 1', 'end of baseline'
# A number, a rule, and two texts of JSON: the name of a file and the text of a line.
TEXT = r'"(?:[^"\\\x00-\x1f]|\\.)*"'
ENTRY = re.compile(rf'([1-9][0-9]{{0,8}}) (\S+) ({TEXT}) ({TEXT})')
# A longer line stands there as its beginning and a sum.
MOST_OF_LINE, MOST_KEPT = 200, 1 << 28


def known_as(line):
    """What stands in a baseline for a line of a script."""
    text = line.strip()
    if len(text) <= MOST_OF_LINE:
        return text
    return f'{text[:MOST_OF_LINE]} ({len(text)} characters, sha256 {hashlib.sha256(text.encode(errors="surrogatepass")).hexdigest()})'


def entry_of(line, place):
    """An entry of a baseline, as a rule, a file's name, a text, and how many such reports are known."""
    found = ENTRY.fullmatch(line)
    try:
        if found:
            return (found[2], json.loads(found[3]), json.loads(found[4])), int(found[1])
    except ValueError:
        pass
    raise Wrong(f'{place}: no entry of a baseline: it is torn, or was written by something else')


def entries_in(text, path):
    """How often each report is known."""
    lines, name = text.split('\n'), shown(path)
    if lines[0] != HEAD:
        raise Wrong(f'{name} is no baseline: it does not begin with "{HEAD}"')
    if lines[-2:] != [END, '']:
        raise Wrong(f'{name} is torn: it does not end with "{END}"')
    entries = collections.Counter()
    for number, line in enumerate(lines[1:-2], 2):
        key, count = entry_of(line, f'{name}:{number}')
        entries[key] += count
    return entries


def text_of(entries):
    """A baseline with these entries, in the order of their files."""
    quoted = lambda it: json.dumps(it, ensure_ascii=True)
    kept = sorted((name, line, rule, count) for (rule, name, line), count in entries.items() if count)
    return '\n'.join([HEAD, *(f'{count} {rule} {quoted(name)} {quoted(line)}' for name, line, rule, count in kept), END, ''])


def read_baseline(path):
    """The text of a baseline."""
    try:
        # (a pipe is not waited for)
        with open(os.open(path, os.O_RDONLY | os.O_NONBLOCK), 'rb') as file:
            if not stat.S_ISREG(os.fstat(file.fileno()).st_mode):
                raise Wrong(f'{shown(path)} is no baseline: it is no regular file')
            text = file.read(MOST_KEPT + 1)
    except (OSError, ValueError) as error:
        raise Wrong(f'{shown(path)}: {unread(error) if isinstance(error, OSError) else "read failed"}') from None
    if len(text) > MOST_KEPT:
        raise Wrong(f'{shown(path)} is no baseline: it is longer than {MOST_KEPT} bytes')
    try:
        return text.decode()
    except UnicodeDecodeError:
        raise Wrong(f'{shown(path)} is no baseline: it is not UTF-8') from None


class Baseline:
    """Which reports are known, and which there are now."""

    def __init__(self, path, is_written):
        """`is_written`: it is written anew, and perhaps there is none yet."""
        self.path, self.is_written, self.folder = path, is_written, os.path.dirname(os.path.realpath(path))
        is_there = os.path.lexists(path) or not is_written
        self.known = entries_in(read_baseline(path), path) if is_there else collections.Counter()
        # (what was found now, and of which files that is all)
        self.found, self.checked = collections.Counter(), set()

    def name_of(self, name):
        """A file's name from the folder of the baseline on."""
        return os.path.relpath(os.path.join(os.path.realpath(os.path.dirname(name)), os.path.basename(name)), self.folder).replace(os.sep, '/')

    def mark(self, name, outcome):
        """Marks the reports of a file that are known. Those that a comment turns off aren't looked for, and a file that was refused is not judged."""
        found = [it for it in outcome.found if it.rule and not it.is_suppressed]
        if outcome.text is None and found or any(not it.rule for it in outcome.found):
            return
        named, lines = self.name_of(name), lines_of(outcome.text.decode(errors='replace')) if found else []
        self.checked.add(named)
        seen = collections.Counter()
        for it in found:
            key = it.rule, named, known_as(lines[it.line - 1] if it.line <= len(lines) else '')
            seen[key] += 1
            it.is_known = self.is_written or seen[key] <= self.known[key]
        self.found.update(seen)

    def gone(self):
        """How many of the known reports of the files that were checked aren't there any more."""
        return sum(max(0, count - self.found[key]) for key, count in self.known.items() if key[1] in self.checked)

    def write(self):
        """Writes what was found, and what is known of files that weren't checked, as long as they are there."""
        is_kept = lambda name: name not in self.checked and os.path.lexists(os.path.join(self.folder, name))
        left = {key: count for key, count in self.known.items() if is_kept(key[1])}
        try:
            with TRACES.new_file(self.folder) as (file, new):
                file.write(text_of({**left, **self.found}).encode())
                file.flush()
                os.chmod(new, 0o666 & ~mask() if not os.path.exists(self.path) else stat.S_IMODE(os.stat(self.path).st_mode))
                os.replace(new, os.path.realpath(self.path))
        except OSError as error:
            raise Wrong(f'{shown(self.path)}: the baseline is not written: {error.strerror}') from None


def mask():
    """What new files are denied."""
    found = os.umask(0o077)
    os.umask(found)
    return found
