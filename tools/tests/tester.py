"""`tools/test` itself: what it refuses, what it shows, and that nothing stays in the temporary folder, whatever its end is."""
import os
import pty
import re
import signal
import subprocess
import time

from completions import read_until
from recipes import is_well, same

TOP = os.path.dirname(os.path.dirname(os.path.dirname(os.path.realpath(__file__))))
PROGRAM = f'{TOP}/tools/test'


def environment(room):
    """One whose temporary folder is in the room."""
    os.makedirs(room.path('temporary'), exist_ok=True)
    return {**os.environ, 'TMPDIR': f'{room.folder}/temporary'}


def call(room, *words):
    ran = subprocess.run([PROGRAM, *words], env=environment(room), stdout=subprocess.PIPE, stderr=subprocess.PIPE, stdin=subprocess.DEVNULL, text=True)
    same(room.names('temporary'), [], words)
    return ran.returncode, ran.stdout, ran.stderr


def unknown_words(room):
    """A word that names nothing ends it before anything is tried."""
    for words, lost in [(['nothing-such'], 'nothing-such'), (['words', 'nothing-such', 'unwritable', 'none'], 'nothing-such, none'), (['--all', 'none'], 'none')]:
        status, out, err = call(room, *words)
        is_well(status == 2 and not out and err.startswith(f'tools/test: nothing is called {lost}; there are '), f'{words}: {status} {out} {err}')
    same(call(room, '--nothing')[0], 2)


def shown(room):
    """Each test that ended has a line with its number among all; on a terminal the last line says what runs."""
    status, out, _ = call(room, '--jobs', '2', 'unwritable', 'in_place')
    same((status, out.splitlines()[-1]), (0, '2 passed, 0 failed'), out)
    found = re.findall(r'^(\d) of 2, (.*)$', out, re.M)
    same(([it for it, _ in found], {it for _, it in found}), (['1', '2'], {'launcher: unwritable', 'recipes: in_place'}))
    child, device = pty.fork()
    if child == 0:
        os.execve(PROGRAM, [PROGRAM, '--jobs', '1', 'unwritable'], environment(room))
    text = read_until(device, b'1 passed, 0 failed', 'on a terminal')
    os.close(device)
    os.waitpid(child, 0)
    is_well(b'\r\x1b[K0 of 1, launcher: unwritable' in text, repr(text))


def interrupted_tests(room):
    """A signal to it alone, or to all that belong to it as at a terminal: its status says so, and nothing stays, no process either."""
    for number, is_group in [(signal.SIGTERM, False), (signal.SIGINT, True), (signal.SIGHUP, True)]:
        how = {'env': environment(room), 'stdout': subprocess.PIPE, 'stderr': subprocess.STDOUT, 'stdin': subprocess.DEVNULL, 'text': True}
        tester = subprocess.Popen([PROGRAM, '--jobs', '2', 'launcher'], start_new_session=True, **how)
        while tester.poll() is None and not any('checkout' in folders for _, folders, _ in os.walk(room.path('temporary').decode())):
            time.sleep(0.05)
        (os.killpg if is_group else os.kill)(tester.pid, number)
        out = tester.communicate()[0]
        same((tester.returncode, room.names('temporary')), (128 + number, []), out)
        left = [it for it in filter(str.isdigit, os.listdir('/proc')) if room.folder in command_of(it)]
        same(left, [])


def command_of(number):
    """The words and the environment of a process, or nothing if it is gone or another's."""
    text = ''
    for name in ('cmdline', 'environ'):
        try:
            with open(f'/proc/{number}/{name}', encoding='utf-8', errors='replace') as file:
                text += file.read()
        except OSError:
            pass
    return text


TESTS = [unknown_words, shown, interrupted_tests]
