"""The proved calls by the library, in this process."""
import ctypes
import os
import threading

from .engine import Program, path_of_program
from .streams import put

COMMANDS = {'check': 0, 'tree': 1, 'fix': 2, 'cost': 3, 'verify': 4, 'unwrap': 5, 'spans': 6, 'format': 8, 'mend': 9}
LANGUAGE_NUMBERS = {None: 0, '2020': 1, '2022': 2, 'module': 3}
# The stack of a thread that calls the library: scripts at both limits of nesting take 6 MiB.
STACK = 16 << 20
# Room for an answer that each thread has at first, and the most that one keeps.
ROOM, MOST_KEPT = 1 << 16, 1 << 23
# A longer text is written by the program, piece by piece, and never stands in memory.
MOST_WRITTEN = 1 << 28


class Result(ctypes.Structure):
    """`jslint_outcome` of the library's header."""

    _fields_ = [('length', ctypes.c_size_t), ('status', ctypes.c_uint32), ('is_refusal', ctypes.c_uint32)]


class Library:
    """The library, which each thread calls with room of its own. What is too long for memory the program writes."""

    stack = STACK

    def __init__(self, path, here, is_named=False):
        """`is_named`: by the environment, so that it may be of another version than the program that is there."""
        self.is_named, self.path = is_named, path
        stretch = [ctypes.c_char_p, ctypes.c_size_t]
        self.call, self.here, self.kept = ctypes.CDLL(path).jslint_answer_in, here, threading.local()
        self.call.restype, self.call.argtypes = None, [ctypes.c_uint32, ctypes.c_uint32, *stretch, *stretch, ctypes.c_void_p, ctypes.c_size_t, ctypes.c_void_p]

    def room(self, size):
        """This thread's room of so many bytes or more, and where its calls put their results."""
        kept = self.kept.__dict__
        if kept.get('size', 0) < size:
            kept.update(room=ctypes.create_string_buffer(size), size=size)
        if 'result' not in kept:
            kept['result'] = Result()
        return kept['room'], kept['size'], kept['result']

    def run(self, command, text, settings=b'', out=None, language=None):
        """As the program's; a text that goes to a file is written there."""
        size = max(ROOM, 2 * len(text))
        while True:
            room, size, result = self.room(size)
            self.call(LANGUAGE_NUMBERS[language], COMMANDS[command], text, len(text), settings, len(settings), room, size, ctypes.addressof(result))
            if result.length <= size:
                break
            if out is not None and result.length > MOST_WRITTEN:
                return Program(path_of_program(self.here)).run(command, text, settings, out, language)
            size = result.length
        answer = ctypes.string_at(room, result.length)
        if size > MOST_KEPT:
            self.kept.__dict__.update(room=None, size=0)
        if result.is_refusal:
            return result.status, b'', answer
        if out is None:
            return result.status, answer, b''
        return self.written(answer, out, result.status)

    def written(self, answer, out, status):
        try:
            put(out.fileno(), answer)
        except OSError:
            return 2, b'', b'jslint: write failed\n'
        return status, b'', b''

    def program(self):
        """The program that was installed with it."""
        beside = f'{self.here}/jslint'
        return Program(beside) if not self.is_named and os.access(beside, os.X_OK) else None

    def made_of(self):
        program = self.program()
        return [self.path, *(program.made_of() if program else ())]

    def with_words(self, words):
        """The program, which alone takes words behind `format`."""
        return Program(path_of_program(self.here), words) if words else self

    def version(self):
        """That of the program, if there is one: none is built to be asked."""
        named = os.environ.get('JSLINT') or f'{self.here}/jslint'
        return Program(named).version() if os.access(named, os.X_OK) else b''
