"""Programs that run beside this one. (`subprocess` takes longer to import than such a program to run)"""
import os
import select
import signal

# What Python ignores, and a program that it starts shouldn't.
RESET = tuple(getattr(signal, it) for it in ('SIGPIPE', 'SIGXFSZ') if hasattr(signal, it))
# How much is read at once.
PART = 1 << 16


class Call:
    """A program that runs, from its start on. Its words begin with a path, or with a name that is looked for. Its standard output goes to a file where one is
    given. What is inheritable it has, too."""

    def __init__(self, words, out=None, env=None):
        self.returncode, self.ends = None, []
        try:
            given, written, said = self.pipe(), self.pipe() if out is None else None, self.pipe()
            streams = (given[0], out.fileno() if written is None else written[1], said[1])
            how = [(os.POSIX_SPAWN_DUP2, it, number) for number, it in enumerate(streams)]
            self.pid = os.posix_spawnp(words[0], words, os.environ if env is None else env, file_actions=how, setsigdef=RESET)
        except BaseException:
            self.close(*self.ends)
            raise
        self.given, self.read = given[1], [written and written[0], said[0]]
        self.close(given[0], said[1], *([written[1]] if written else ()))

    def pipe(self):
        found = os.pipe()
        self.ends += found
        return found

    def close(self, *ends):
        for it in ends:
            self.ends.remove(it)
            os.close(it)

    def give(self, left):
        """Writes some of a text; gives what is left. A program that reads no more has read enough."""
        try:
            left = left[os.write(self.given, left[:select.PIPE_BUF]):]
        except BrokenPipeError:
            left = b''
        return left

    def communicate(self, text):
        """Gives it a text, and waits for its end; what it wrote to both streams, without what went to a file."""
        left, parts, poll = memoryview(text), {it: [] for it in self.read if it is not None}, select.poll()
        poll.register(self.given, select.POLLOUT)
        for it in parts:
            poll.register(it, select.POLLIN)
        while self.ends:
            for end, _ in poll.poll():
                if end == self.given:
                    left = self.give(left)
                    is_open = bool(left)
                else:
                    parts[end].append(os.read(end, PART))
                    is_open = bool(parts[end][-1])
                if not is_open:
                    poll.unregister(end)
                    self.close(end)
        self.wait()
        return tuple(b''.join(parts[it]) if it is not None else None for it in self.read)

    def wait(self):
        if self.returncode is None:
            try:
                self.returncode = os.waitstatus_to_exitcode(os.waitpid(self.pid, 0)[1])
            except ChildProcessError:
                # (whoever started this doesn't want to hear of ended processes)
                self.returncode = 0

    def kill(self):
        if self.returncode is None:
            try:
                os.kill(self.pid, signal.SIGKILL)
            except ProcessLookupError:
                pass

    def __enter__(self):
        return self

    def __exit__(self, *_):
        self.close(*self.ends)
        self.wait()
