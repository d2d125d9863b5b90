"""What an interruption leaves: nothing."""
import os
import signal
import threading

from .calls import Call


class Traces:
    """New files, and programs that run: neither is left behind by an interruption."""

    def __init__(self):
        self.lock, self.files, self.calls, self.is_stopped = threading.RLock(), set(), set(), False

    def watch(self):
        for it in (signal.SIGHUP, signal.SIGINT, signal.SIGQUIT, signal.SIGTERM):
            if signal.getsignal(it) == signal.SIG_DFL:
                signal.signal(it, self.stop)

    def stop(self, number, _):
        """Ends them, and then this process as the signal does by itself."""
        # (the lock is kept, so no new file is made any more)
        self.lock.acquire()
        self.is_stopped = True
        for it in [*self.calls]:
            it.kill()
        for it in self.files:
            try:
                os.unlink(it)
            except OSError:
                pass
        signal.signal(number, signal.SIG_DFL)
        signal.pthread_kill(threading.main_thread().ident, number)

    def call(self, words, text, out=None, env=None):
        """What a program says of a text that it is given: its status, and its two streams; the first goes to a file where one is given."""
        with Call(words, out, env) as process:
            self.calls.add(process)
            if self.is_stopped:
                process.kill()
            try:
                written, said = process.communicate(text)
            finally:
                self.calls.discard(process)
        return process.returncode, written, said

    def new_file(self, folder):
        """A new file and its path. It is gone at the end unless it was renamed."""
        return NewFile(self, folder)


class NewFile:
    def __init__(self, traces, folder):
        self.traces, self.folder = traces, folder

    def __enter__(self):
        import tempfile
        with self.traces.lock:
            handle, self.path = tempfile.mkstemp(prefix='.jslint-', dir=self.folder)
            self.traces.files.add(self.path)
        try:
            self.file = open(handle, 'w+b')
        except BaseException:
            self.remove()
            raise
        return self.file, self.path

    def __exit__(self, *_):
        try:
            self.file.close()
        finally:
            self.remove()

    def remove(self):
        try:
            os.unlink(self.path)
        except FileNotFoundError:
            pass
        finally:
            with self.traces.lock:
                self.traces.files.discard(self.path)


TRACES = Traces()
