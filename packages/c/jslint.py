"""An example: jslint for Python, by ctypes over libjslint.so, which `make` puts beside this file.

    import jslint
    jslint.fix('((a))')                                     'a;\\n'
    jslint.unwrap('x = (a); // c')                          'x = a; // c'
    jslint.mend("typeof a == 'b' // c")                      "typeof a === 'b' // c"
    jslint.format('f( (a),b )')                             'f((a), b);\\n'
    jslint.check('debugger;')                               [Report(line=1, column=1, rule='no-debugger', message='debugger statement', severity='error')]
    jslint.spans('debugger;')                               [Span(start=0, end=9, rule='no-debugger', message='debugger statement')]
    jslint.tree('a')['body'][0]['type']                     'ExpressionStatement'
    jslint.same('a + (b)', 'a + b; // c')                   True: the two have one tree
    jslint.fix('export let a=(1)', language='module')       'export let a = 1;\\n'
    jslint.verify('(({})).a', jslint.cost('(({})).a'))      (2, 1): the text has two pairs, and each text with its tree has one at least

A text that is refused raises Refused, with the program's own words, a code and a place. Deeply nested texts take up to 6 MiB of the calling thread's
stack: where less is left than a text of its length might take, it is refused as `out of stack` (`threading.stack_size` gives threads more).
"""
import collections
import ctypes
import json
import os
import platform
import re
import threading

LANGUAGES = {None: 0, '2020': 1, '2022': 2, 'module': 3}
COMMANDS = {'check': 0, 'tree': 1, 'fix': 2, 'cost': 3, 'verify': 4, 'unwrap': 5, 'spans': 6, 'same': 7, 'format': 8, 'mend': 9}
Report = collections.namedtuple('Report', 'line column rule message severity')
Span = collections.namedtuple('Span', 'start end rule message')
Answer = collections.namedtuple('Answer', 'bytes status is_refusal')


class Outcome(ctypes.Structure):
    _fields_ = [('length', ctypes.c_size_t), ('status', ctypes.c_uint32), ('is_refusal', ctypes.c_uint32)]


# The words of each refusal, its code, and what its numbers are.
_REFUSALS = [
    (r'syntax error at (\d+):(\d+)', 'syntax', ('line', 'column')), (r'early error E(\d+) at (\d+):(\d+)', 'early', ('number', 'line', 'column')),
    (r'nested too deep', 'deep', ()), (r'not UTF-8 at byte (\d+)', 'utf8', ('byte',)), (r'longer than (\d+) bytes', 'long', ('most',)),
    (r'bad settings at (\d+):(\d+)', 'settings', ('line', 'column')), (r'bad settings', 'settings', ()), (r'bad table row (\d+) (\w+)', 'table', ('row', 'reason')),
    (r"can't be unwrapped", 'unwrap', ()), (r"can't be formatted", 'format', ()), (r'out of memory', 'memory', ()), (r'out of stack', 'stack', ()),
]
_SECOND = 'second file: '
# What stands behind them where a later language takes the text.
_HINT = re.compile(r' \(perhaps: --(?:edition )?(2022|module)\)$')


class Refused(Exception):
    """A text that was refused: the words of the program, as `syntax error at 1:9`, its status, and of the words a code (`syntax`, `early`, `deep`, `utf8`, `long`,
    `settings`, `table`, `unwrap`, `format`, `memory`, `stack`) and what they name: `line`, `column`, `number`, `byte`, `most`, `row`, `reason`, each None where they
    don't. `in_second`: it is the other text of `same`, whose words begin with `second file: `. `hint`: the first later language that takes the text, '2022' or
    'module', else None; the words are without it."""

    def __init__(self, words, status):
        hint = _HINT.search(words)
        words = words[:hint.start()] if hint else words
        super().__init__(words)
        self.hint = hint[1] if hint else None
        self.status, self.code, self.in_second = status, None, words.startswith(_SECOND)
        self.line = self.column = self.number = self.byte = self.most = self.row = self.reason = None
        for form, code, names in _REFUSALS:
            found = re.fullmatch(form, words[len(_SECOND):] if self.in_second else words)
            if found:
                self.code = code
                for name, it in zip(names, found.groups()):
                    setattr(self, name, int(it) if it.isdigit() else it)
                break


# What a call takes of the stack: some for itself, some for each byte of text, since each may nest deeper, and no more than this.
_STACK_BASE, _STACK_A_BYTE, _STACK_MOST = 96 << 10, 4 << 10, 6 << 20
# Where glibc's `getcontext` puts the pointer to the stack.
_POINTER = {('Linux', 'x86_64'): 160, ('Linux', 'aarch64'): 432}.get((platform.system(), platform.machine()))
_CONTEXT = 8192


class _Stack(threading.local):
    """How much is left of the calling thread's stack; None where the system doesn't tell."""

    def __init__(self):
        self.lowest = None
        try:
            self.system = ctypes.CDLL(None)
            self.system.getcontext, self.system.pthread_getattr_np
        except (OSError, AttributeError):
            return
        attributes, at, size = ctypes.create_string_buffer(256), ctypes.c_void_p(), ctypes.c_size_t()
        self.system.pthread_self.restype = ctypes.c_void_p
        if _POINTER is None or self.system.pthread_getattr_np(ctypes.c_void_p(self.system.pthread_self()), attributes):
            return
        self.system.pthread_attr_getstack(attributes, ctypes.byref(at), ctypes.byref(size))
        self.system.pthread_attr_destroy(attributes)
        self.lowest, self.context = at.value, ctypes.create_string_buffer(_CONTEXT)

    def left(self):
        if self.lowest is None or self.system.getcontext(self.context):
            return None
        return int.from_bytes(self.context[_POINTER:_POINTER + 8], 'little') - self.lowest


_stack = _Stack()


def _has_stack(length):
    left = _stack.left()
    return left is None or left >= min(_STACK_MOST, _STACK_BASE + _STACK_A_BYTE * length)


_BYTES = [ctypes.c_char_p, ctypes.c_size_t]
_library = ctypes.CDLL(os.environ.get('JSLINT_LIBRARY') or os.path.join(os.path.dirname(os.path.abspath(__file__)), 'libjslint.so'))
_library.jslint_answer_in.restype = None
_library.jslint_answer_in.argtypes = [ctypes.c_uint32, ctypes.c_uint32, *_BYTES, *_BYTES, ctypes.c_void_p, ctypes.c_size_t, ctypes.POINTER(Outcome)]


def run(command, text, second=b'', language=None):
    """What the program answers for these bytes, in a language: '2020', '2022' or 'module'; None says nothing of it."""
    if not _has_stack(max(len(text), len(second))):
        return Answer(b'jslint: out of stack\n', 2, True)
    outcome, size = Outcome(), 3 * len(text) + 4096
    while True:
        room = ctypes.create_string_buffer(size)
        _library.jslint_answer_in(LANGUAGES[language], COMMANDS[command], text, len(text), second, len(second), room, size, ctypes.byref(outcome))
        if outcome.length <= size:
            return Answer(room.raw[:outcome.length], outcome.status, outcome.is_refusal == 1)
        size = outcome.length


def _output(command, text, second='', language=None):
    answer = run(command, text.encode(), second.encode(), language)
    if answer.is_refusal:
        raise Refused(answer.bytes.decode()[len('jslint: '):-1], answer.status)
    return answer.bytes.decode()


def fix(text, language=None):
    """The script in one layout, with the fewest parentheses that its tree allows."""
    return _output('fix', text, language=language)


def unwrap(text, language=None):
    """The script as it stands, comments kept, without its unnecessary parentheses."""
    return _output('unwrap', text, language=language)


def mend(text, settings='', language=None):
    """The script as it stands, with the safe changes for what `check` reports of it under the same settings."""
    return _output('mend', text, settings, language)


def format(text, language=None):
    """The script in lines of 80 columns, comments and parentheses kept."""
    return _output('format', text, language=language)


def check(text, settings='', language=None):
    """What the rules find; the settings are TOML, and say which rules only warn: the severity is 'error' or 'warning'."""
    # (behind the text of a warning stands a mark, which no text of a rule here ends in)
    lines = re.findall(r'^(\d+):(\d+) (\S+) (.*?)( \(warning\))?$', _output('check', text, settings, language), re.M)
    return [Report(int(line), int(column), rule, message, 'warning' if mark else 'error') for line, column, rule, message, mark in lines]


def spans(text, settings='', language=None):
    """What the rules find, from where to where, in bytes of the text's UTF-8; as `check --spans` it doesn't say which rules only warn."""
    lines = [it.split(' ', 3) for it in _output('spans', text, settings, language).split('\n')[:-1]]
    return [Span(int(start), int(end), rule, message) for start, end, rule, message in lines]


def tree(text, language=None):
    """The tree, as ESTree has it; places are bytes. One that is deeper than Python's limit of recursion is refused as `out of stack`."""
    text = _output('tree', text, language=language)
    try:
        return json.loads(text)
    except RecursionError:
        raise Refused('out of stack', 2) from None


def cost(text, language=None):
    """The cost table, which shows why no text with this tree has fewer pairs of parentheses."""
    return _output('cost', text, language=language)


def verify(text, table, language=None):
    """Of a table from anyone: the pairs of the text, and the fewest that a text with its tree has."""
    return tuple(int(it) for it in re.fullmatch(r'pairs (\d+) least (\d+)\n', _output('verify', text, table, language)).groups())


def same(text, other, language=None):
    """Whether two scripts have one tree, places aside."""
    answer = run('same', text.encode(), other.encode(), language)
    if answer.is_refusal:
        raise Refused(answer.bytes.decode()[len('jslint: '):-1], answer.status)
    return answer.status == 0
