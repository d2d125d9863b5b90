"""What was found in scripts, kept from one run to the next (`--cache`).

A record is believed where the script is the same file, unchanged since, or has the same text by its sum; and where all is the same that decides what is found: the
program, these modules, and for each script its settings, its languages, the ignore files above it and the words. A script that changed so late that a further
change might have the same time gets no record. Nor does what the text alone doesn't decide, such as that it can't be read or that the program was killed.
"""
import hashlib
import json
import os
import stat
import time

from .hints import PLACES
from .languages import is_by_language
from .outcomes import Found, Outcome, Refused
from .reading import MOST, PART, read
from .streams import shown, warn
from .traces import TRACES

HERE = os.path.dirname(os.path.realpath(__file__))
NAME, HEAD = '.jslintcache', b'jslint-files cache 1 '
# A longer one isn't read.
MOST_KEPT = 1 << 28
# After how many nanoseconds a changed file surely gets another time, where times have parts of a second and where they don't.
GRAIN, COARSE, SECOND = 100_000_000, 2_000_000_000, 1_000_000_000


def sum_of(*texts):
    total = hashlib.sha256()
    for it in texts:
        total.update(b'%d:' % len(it) + it)
    return total.hexdigest()


def sum_of_file(path):
    total = hashlib.sha256()
    with open(path, 'rb') as file:
        for part in iter(lambda: file.read(PART), b''):
            total.update(part)
    return total.digest()


def sum_of_tools(programs):
    """One sum of the programs and of what stands here."""
    modules = sorted(it.path for it in os.scandir(HERE) if it.name.endswith('.py'))
    return sum_of(*map(sum_of_file, [*programs, *modules, *filter(os.path.exists, PLACES)]))


def state_of(path):
    """What tells that a file is the same and unchanged: nobody sets the time at which the system saw it change last. None where it is no regular file."""
    try:
        found = os.stat(path)
    except (OSError, ValueError):
        return None
    return [found.st_size, found.st_mtime_ns, found.st_ctime_ns, found.st_ino] if stat.S_ISREG(found.st_mode) else None


def is_settled(state, now):
    """Whether each later change of a file has another time."""
    _, written, changed, _ = state
    return max(written, changed) + (GRAIN if changed % SECOND else COARSE) < now


def records_in(path, tools):
    """The records of a cache; none where it is torn, was written for other tools or by another one, or isn't the file that was written."""
    try:
        with open(os.open(path, os.O_RDONLY | os.O_NOFOLLOW | os.O_NONBLOCK), 'rb') as file:
            found = os.fstat(file.fileno())
            text = file.read(MOST_KEPT) if stat.S_ISREG(found.st_mode) else b''
        head, _, body = text.partition(b'\n')
        if head != HEAD + sum_of(body).encode():
            return {}
        table = json.loads(body)
        return table['records'] if (table['tools'], table['file']) == (tools, found.st_ino) else {}
    except (OSError, ValueError, KeyError, TypeError, RecursionError):
        return {}


def record_of(came):
    """What is kept of what came of a script: its lines, or why it is refused. None where that isn't by its text alone."""
    if came.is_plain():
        return came.answer
    found = came.list[0] if len(came.list) == 1 else None
    if found is None or found.rule or found.is_noted or not is_by_language(Refused(found.text)):
        return None
    return [found.line, found.column, found.text, found.hint, found.is_unsupported]


def outcome_of(record):
    if isinstance(record, str):
        return Outcome(answer=record)
    line, column, text, hint, is_unsupported = record
    found = Found(line, column, None, text)
    found.hint, found.is_unsupported = hint, is_unsupported
    return Outcome([found])


class Cache:
    def __init__(self, path, programs, conditions_of, needs_text):
        """`conditions_of` gives texts that decide what is found in a script, beside its own. `needs_text`: of a script that is told of the text is asked for."""
        self.path, self.conditions_of, self.needs_text, self.folder = path, conditions_of, needs_text, os.getcwd()
        self.tools, self.now, self.sums, self.states, self.is_changed = sum_of_tools(programs), time.time_ns(), {}, {}, False
        self.records = records_in(path, self.tools)

    def key(self, name):
        return name if name.startswith('/') else f'{self.folder}/{name}'

    def conditions(self, name):
        found = self.conditions_of(name)
        if found not in self.sums:
            self.sums[found] = sum_of(*found)
        return self.sums[found]

    def found(self, name):
        """What came of a script, if that is known."""
        state, key = state_of(name), self.key(name)
        # (as it is before anybody reads it)
        self.states[name] = state
        known = self.records.get(key)
        if state is None or known is None or known[2] != self.conditions(name):
            return None
        came, text = outcome_of(known[3]), None
        if known[0] != state or self.needs_text and came.is_told():
            text = self.text_of(name, known[1])
            if text is None:
                return None
        if known[0] != state:
            self.keep(name, state, known[1:])
        came.text = text
        return came

    def text_of(self, name, total):
        """The text of a script that still has this sum, else None."""
        try:
            text = read(name)
        except Refused:
            return None
        return text if sum_of(text) == total else None

    def keep(self, name, state, more):
        """Keeps a record of a script whose text was read since it had this state, if it still has it."""
        if is_settled(state, self.now) and state_of(name) == state:
            self.records[self.key(name)], self.is_changed = [state, *more], True

    def add(self, name, came):
        """Keeps what came of a script."""
        state, record = self.states.pop(name, None), record_of(came)
        if self.records.pop(self.key(name), None):
            self.is_changed = True
        if state is None or record is None or not is_settled(state, self.now):
            return
        try:
            text = read(name)
        except Refused:
            return
        if len(text) <= MOST:
            self.keep(name, state, [sum_of(text), self.conditions(name), record])

    def write(self, names):
        """Writes what is kept, if that changed: of scripts that weren't looked at as long as they exist."""
        if not self.is_changed:
            return
        looked_at = {self.key(it) for it in names}
        kept = {key: it for key, it in self.records.items() if key in looked_at or os.path.lexists(key)}
        try:
            self.replace(kept)
        except OSError as error:
            warn(f'jslint-files: {shown(self.path)}: the cache is not written: {error.strerror}\n')

    def replace(self, kept):
        if os.path.lexists(self.path) and not stat.S_ISREG(os.lstat(self.path).st_mode):
            raise OSError(0, 'no regular file')
        with TRACES.new_file(os.path.dirname(self.path) or '.') as (file, new):
            body = json.dumps({'tools': self.tools, 'file': os.fstat(file.fileno()).st_ino, 'records': kept}, separators=(',', ':')).encode()
            file.write(HEAD + sum_of(body).encode() + b'\n' + body)
            file.flush()
            os.replace(new, self.path)
