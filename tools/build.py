"""Proves and builds the program, for the launcher at the top, which calls it where a source differs from those of the program in release/, and for
its words --build, --rebuild and --try.

    build.py                  makes bin/jslint
    build.py --since WHY      the same, and says this reason where anything is to be proved
    build.py --rebuild        proves and builds the program from nothing, in a folder of its own, and compares it with the release, byte for byte
    build.py --try WORD ..    runs the program of these words unproved
    build.py --stamp          prints the sum of what the program is made of
    build.py --take STAMP     makes bin/jslint of the program that `rt ci` proved and built here just now, if the sum is still this

Only the crates that the program stands on are proved, those that don't wait for one another side by side: as many as there are processors
and memory, and first those with the longest chain of others behind them. Each is what `rt lib` does in its folder; `rt run` in the program's
own folder ends it, and holds each library to its sources again. What is proved stays so when this is interrupted, and what the toolchain kept
of a crate's earlier checks is taken. Everything is said on standard error, a line for each crate; on a terminal a last line says what goes on.

With RT_JOBS=N in the environment N checks run side by side, whatever memory there is.
"""
import collections
import contextlib
import fcntl
import importlib.machinery
import importlib.util
import os
import re
import shutil
import signal
import subprocess
import sys
import tempfile
import time
from concurrent.futures import FIRST_COMPLETED, ThreadPoolExecutor, wait

TOP = os.path.dirname(os.path.dirname(os.path.realpath(__file__)))
BIN = f'{TOP}/bin'
PROGRAM = f'{BIN}/jslint'
STAMP = f'{PROGRAM}.stamp'
RELEASE = f'{TOP}/release/x86_64-linux/jslint'
# The same object of the compiler, linked without shared libraries (tools/static).
STATIC_RELEASE = f'{TOP}/release/x86_64-linux-musl/jslint'
MADE = f'{TOP}/release/MADE'
# What the work of all crates takes on the disk, in GB.
DISK = 3
# A second processor for one crate adds this much of the first.
SHARE = 0.5
# Minutes of a build as measured (52 on two processors, with other work on the two others), to those that are computed from tools/measure/seconds.txt.
PACE = 1.08
WIDEST = 4
# The toolchain's command, as a module.
RT = None

Cost = collections.namedtuple('Cost', 'seconds memory')
Run = collections.namedtuple('Run', 'name memory jobs begun')


class Refused(Exception):
    """Why there is no program, in one sentence."""


def say(text):
    print(f'jslint: {text}', file=sys.stderr, flush=True)


def load():
    global RT
    found = shutil.which('rt')
    if not found:
        raise Refused('not built, since the command `rt` of the toolchain that proves and builds the program is not found')
    loader = importlib.machinery.SourceFileLoader('rt', os.path.realpath(found))
    RT = importlib.util.module_from_spec(importlib.util.spec_from_loader('rt', loader))
    loader.exec_module(RT)


def text_of(path):
    with contextlib.suppress(OSError), open(path, encoding='utf-8') as file:
        return file.read()
    return None


def costs():
    """What each crate takes, by its name."""
    found = collections.defaultdict(lambda: Cost(120, 2_000_000_000))
    for line in (text_of(f'{TOP}/tools/measure/seconds.txt') or '').split('\n'):
        words = line.partition('#')[0].split()
        if words:
            found[words[0]] = Cost(int(words[1]), int(float(words[2]) * 1e9))
    return found


class Order:
    """In which order crates are built, and how many processors each gets."""

    def __init__(self, below, cost, lanes):
        self.below, self.cost, self.lanes, self.behind = below, cost, lanes, dict.fromkeys(below, 0)
        # (each crate comes after those below it)
        for name in reversed([*below]):
            self.behind[name] += cost[name].seconds
            for it in below[name]:
                self.behind[it] = max(self.behind[it], self.behind[name])

    def ready(self, left, done):
        """The crates that wait for nothing, those with the longest chain behind them first."""
        return sorted((it for it in left if all(b in done for b in self.below[it])), key=lambda it: -self.behind[it])

    def jobs(self, name, left, idle, others):
        """The processors for a crate that begins: those that nothing else waits for, and half of all where all else is done before its chain is."""
        rest = sum(self.cost[it].seconds for it in left if it != name)
        is_last = self.behind[name] > rest / max(1, self.lanes - 1)
        return max(1, min(WIDEST, max(idle // others, self.lanes // 2 if is_last else 1)))

    def memory(self, name, jobs):
        return int(self.cost[name].memory * (1 + 0.6 * (jobs - 1)))

    def seconds(self):
        """How long all takes by what each crate takes."""
        left, running, done, clock = {it: self.cost[it].seconds for it in self.below}, {}, set(), 0
        while left:
            ready = self.ready([it for it in left if it not in running], done)
            for at, name in enumerate(ready):
                idle = self.lanes - sum(running.values())
                if running and idle < 1:
                    break
                running[name] = self.jobs(name, left, idle, len(ready) - at)
            share = min(1, self.lanes / sum(running.values()))
            speed = {it: share * (1 + SHARE * (jobs - 1)) for it, jobs in running.items()}
            step = min(left[it] / speed[it] for it in running)
            clock += step
            for it in [*running]:
                left[it] -= speed[it] * step
                if left[it] < 0.001:
                    done.add(it)
                    del left[it], running[it]
        return clock


def minutes(seconds):
    found = max(1, round(PACE * seconds / 60))
    return f'{found} minute{"s" * (found > 1)}'


@contextlib.contextmanager
def alone():
    """Waits while another start builds, and says so."""
    try:
        os.makedirs(BIN, exist_ok=True)
        lock = open(f'{BIN}/lock', 'w')
    except OSError as error:
        raise Refused(f'not built, since {BIN} can not be written ({error.strerror})')
    with lock:
        try:
            fcntl.flock(lock, fcntl.LOCK_EX | fcntl.LOCK_NB)
        except BlockingIOError:
            say('another start is building the program; waiting for it')
            fcntl.flock(lock, fcntl.LOCK_EX)
        yield


def hold_room(left, cost, place):
    """Refuses where memory or the disk at that place has no room for what is left."""
    largest = max(left, key=lambda it: cost[it].memory)
    free = RT.free()
    if free < 0.8 * cost[largest].memory:
        raise Refused(f'not built, since the proof of {largest} takes some {cost[largest].memory / 1e9:.1f} GB of memory and {free / 1e9:.1f} are free')
    for place in (place, tempfile.gettempdir()):
        free = shutil.disk_usage(place).free / 1e9
        if free < DISK:
            raise Refused(f'not built, since the proofs take some {DISK} GB of disk and {free:.1f} are free in {place}')


class Status:
    """On a terminal the last line says what goes on, and is drawn over. Elsewhere nothing is."""

    def __init__(self):
        self.is_shown = sys.stderr.isatty()

    def draw(self, runs):
        if self.is_shown:
            now = 'jslint: proving ' + ', '.join(f'{it.name} {time.time() - it.begun:.0f} s' for it in runs)
            print(f'\r\033[K{now[:(os.get_terminal_size(2).columns or 80) - 1]}', end='', file=sys.stderr, flush=True)

    def clear(self):
        if self.is_shown:
            print('\r\033[K', end='', file=sys.stderr, flush=True)


def made(crate, jobs):
    """Builds the library of a crate, as `rt lib` does, and gives its status and what was said."""
    with tempfile.TemporaryFile('w+', errors='replace') as crate.out:
        try:
            status = crate.build_rlib(['--jobs', str(jobs)], anew=False)
        except SystemExit:
            status = 2
        except OSError as error:
            print(error, file=crate.out)
            status = 2
        crate.out.seek(0)
        return status, crate.out.read()


def hold_status(name, status, said):
    """Refuses where the crate isn't proved."""
    if status == -signal.SIGKILL:
        raise Refused(f'not built, since the check of {name} was killed, most likely for want of memory')
    if os.strerror(28) in said:
        raise Refused(f'not built, since the disk is full: the check of {name} could not write')
    if status:
        print(said, end='', file=sys.stderr)
        raise Refused(f'not built, since {name} is not proved (above, what the prover says)')


def build_libraries(crates, left, order, tell):
    """Builds these crates side by side."""
    fixed, status = os.environ.get('RT_JOBS', '').isdigit(), Status()
    room, done, running = 0.9 * RT.free(), {it for it in crates if it not in left}, {}
    left = [it for it in left if it in crates]
    with ThreadPoolExecutor(len(left) or 1) as pool:
        while left or running:
            ready = order.ready(left, done)
            for at, name in enumerate(ready):
                idle = order.lanes - sum(it.jobs for it in running.values())
                jobs = 1 if fixed else order.jobs(name, left, idle, len(ready) - at)
                free = room - sum(it.memory for it in running.values())
                while jobs > 1 and order.memory(name, jobs) > free:
                    jobs -= 1
                if running and (idle < 1 or not fixed and order.memory(name, jobs) > free):
                    # (what comes behind it in the order doesn't take its room)
                    break
                left.remove(name)
                running[pool.submit(made, crates[name], jobs)] = Run(name, order.memory(name, jobs), jobs, time.time())
            status.draw(running.values())
            for future in wait(running, 1 if status.is_shown else None, FIRST_COMPLETED).done:
                it = running.pop(future)
                status.clear()
                hold_status(it.name, *future.result())
                done.add(it.name)
                tell(it.name, time.time() - it.begun)


def build_program(program, tell, is_shared):
    """Proves, compiles and links the program over its libraries; where work is shared, it begins with what earlier checks kept."""
    begun = time.time()
    words = ['rt', 'run', '--', '--help'] if is_shared else [sys.executable, os.path.realpath(__file__), '--run', program.folder]
    with tempfile.TemporaryFile('w+', errors='replace') as log:
        how = {'cwd': program.folder, 'stdin': subprocess.DEVNULL, 'stdout': log, 'stderr': log}
        ran = subprocess.Popen([*RT.rtlib.guarded(), *words], **how)
        status = Status()
        while ran.poll() is None:
            status.draw([Run(program.name, 0, 1, begun)])
            time.sleep(1 if time.time() > begun + 3 else 0.1)
        status.clear()
        log.seek(0)
        hold_status(program.name, ran.returncode, log.read())
    tell(program.name, time.time() - begun)


def is_of(program, stamp):
    """Whether the program that stands in the crate's out/ was proved and built of the sources with that sum."""
    found = f'{program.folder}/out/{program.name}'
    return text_of(f'{found}.stamp') == stamp + RT.rtlib.sum_of(found)


def is_program_of(stamp):
    """Whether bin/jslint is the program that was proved and built of the sources with that sum."""
    is_own = os.access(PROGRAM, os.X_OK) and not os.path.islink(PROGRAM)
    return is_own and text_of(STAMP) == stamp + RT.rtlib.sum_of(PROGRAM)


def install(program, stamp):
    """Gives bin/jslint the program by one rename."""
    new = f'{PROGRAM}.new-{os.getpid()}'
    shutil.copyfile(f'{program.folder}/out/{program.name}', new)
    os.chmod(new, 0o755)
    with contextlib.suppress(FileNotFoundError):
        os.remove(STAMP)
    os.rename(new, PROGRAM)
    with open(f'{STAMP}.new', 'w', encoding='utf-8') as file:
        file.write(stamp + RT.rtlib.sum_of(PROGRAM))
    os.rename(f'{STAMP}.new', STAMP)


def crates_of_program(top=TOP):
    """The crates that the program stands on, each after those below it, and the program's own, the last."""
    found = RT.rtlib.crates_below(f'{top}/crates/jslint')
    # (as `rt run` does: its sum of a program has the files args and status)
    RT.read_files(found[-1])
    return [it for it in found if not it.is_program], found[-1]


def prove(libraries, program, why, is_shared):
    """Proves what isn't yet of these crates, and builds the program. Answers the sum of what it was made of. is_shared: it takes what checks in
    other copies of the repository kept (a kit that has no such call shares nothing)."""
    if is_shared and hasattr(RT, 'share_work'):
        RT.share_work(True)
    stamp = program.stamp()
    RT.rtlib.guarded()
    held = RT.rtlib.lock([*libraries, program])
    standing = [it.name for it in libraries if it.is_built()]
    left = [it.name for it in libraries if it.name not in standing] + [program.name] * (not is_of(program, stamp))
    number, cost, lanes = len(libraries) + 1, costs(), int(os.environ.get('RT_JOBS') or RT.processors())
    below = {it.name: [b.name for b in it.below() if b.name in left] for it in [*libraries, program] if it.name in left}
    order = Order(below, cost, lanes)
    if left:
        hold_room(left, cost, program.folder)
        if why:
            say(why)
        proved = f', {len(standing)} of them proved already' if standing else ''
        say(f'the program is proved before it is built: {number} crates{proved}, about {minutes(order.seconds())} on {lanes} processor{"s" * (lanes > 1)}, '
            'less where earlier checks are kept; what is proved stays so if this is interrupted')
    count = [number - len(left)]

    def tell(name, seconds):
        count[0] += 1
        say(f'{count[0]} of {number} {name} {seconds:.0f} s')

    build_libraries({it.name: it for it in libraries}, left, order, tell)
    for it in held:
        os.close(it)
    if left:
        build_program(program, tell, is_shared)
    if not is_of(program, program.stamp()) or program.stamp() != stamp:
        raise Refused('not built, since a source changed while it was proved: start it again')
    return stamp


def build(why=None):
    libraries, program = crates_of_program()
    # (a link among the sources is refused)
    sum_of_sources(TOP, [it.name for it in [*libraries, program]], 'cksum')
    # (where a source has a new date and its old text, the program stands)
    if not is_program_of(program.stamp()):
        install(program, prove(libraries, program, why, True))


def said_of_release():
    """What release/MADE says, by name."""
    return dict(line.split(' ', 1) for line in (text_of(MADE) or '').splitlines() if ' ' in line)


def sum_of_sources(top, crates, command='sha256sum'):
    """One sum of all that the program is made of (tools/made-of), or why there is none."""
    words = ['sh', '-c', '. "$0/tools/made-of"; made_of "$@"', TOP, command, top, *crates]
    ran = subprocess.run(words, stdout=subprocess.PIPE, stderr=subprocess.PIPE, text=True, errors='replace')
    if ran.returncode or ran.stderr or not ran.stdout:
        raise Refused(f'the sources can not be summed: {(ran.stderr.splitlines() or [ran.returncode])[0]}')
    return ran.stdout.strip()


def kit():
    """The toolchain's one-line identity."""
    return subprocess.run(['rt', 'version'], stdout=subprocess.PIPE, text=True, check=True).stdout.strip()


def differences(one, other):
    """In what two files of programs differ, in words, or nothing if they are the same."""
    with open(one, 'rb') as first, open(other, 'rb') as second:
        first, second = first.read(), second.read()
    if first == second:
        return ''
    at = [it for it, (a, b) in enumerate(zip(first, second)) if a != b]
    more = f'{len(at)} bytes differ, the first of them byte {at[0]}' if at else 'one is a beginning of the other'
    return f'{len(first)} and {len(second)} bytes; {more}'


def prove_again(folder):
    """Proves and builds the program in that folder by the step of `rt ci`, over the libraries that `rt ci` left: its object stands there then."""
    kind, RT.rtlib.Crate, RT.Crate.allowed = RT.rtlib.Crate, RT.Crate, RT.handles_of(TOP)
    try:
        program = RT.rtlib.crates_below(folder)[-1]
    finally:
        RT.rtlib.Crate = kind
    RT.read_files(program)
    RT.rtlib.guarded()
    with tempfile.TemporaryFile('w+', errors='replace') as program.out:
        status = program.ci(['--jobs', str(RT.processors())], False)
        program.out.seek(0)
        hold_status(program.name, status, program.out.read())


def link_static(program, linked, to):
    """Links the program once more, without shared libraries, of the object that the toolchain linked as the first of these files."""
    spec = importlib.util.spec_from_file_location('link', f'{TOP}/tools/static/link.py')
    link = importlib.util.module_from_spec(spec)
    sys.dont_write_bytecode = True
    spec.loader.exec_module(link)
    made = f'{program.folder}/out/{program.name}.o'
    if not os.path.isfile(made):
        say('the program is proved once more, some minutes: `rt ci` took it from an earlier run, and keeps no object of it')
        prove_again(program.folder)
    try:
        link.hold_object(RT.rtlib.KIT, made, linked)
        link.link(RT.rtlib.KIT, made, to)
    except (OSError, link.Refused) as why:
        raise Refused(f'the program without shared libraries is not made: {why}')


def copy_sources(libraries, program, top):
    """Copies the sources of the program to a folder, with nothing that earlier checks left."""
    names = [it.name for it in [*libraries, program]]
    # (a link among them is refused)
    sum_of_sources(TOP, names, 'cksum')
    os.makedirs(f'{top}/.git')
    with open(f'{top}/crates.txt', 'w', encoding='utf-8') as file:
        # (each crate of that list has to stand there)
        file.writelines(it for it in text_of(f'{TOP}/crates.txt').splitlines(True) if re.split('[ :]', it)[0] in names)
    for it in [*libraries, program]:
        for part in RT.rtlib.PARTS:
            if os.path.isdir(f'{it.folder}/{part}'):
                shutil.copytree(f'{it.folder}/{part}', f'{top}/crates/{it.name}/{part}', symlinks=True)


def is_same(rebuilt, released):
    """Whether a program is the released one, byte for byte, and says so."""
    differs, name = differences(rebuilt, released), os.path.relpath(released, TOP)
    print(f'another program than {name}: {differs}' if differs else f'the same program as {name}')
    print(f'program {RT.rtlib.sum_of(rebuilt)}, just built by {kit()}')
    return not differs


def rebuild():
    """Proves and builds the programs from nothing, and compares them with the release. Answers 1 if they aren't the same."""
    with tempfile.TemporaryDirectory(prefix='jslint-rebuild-') as top:
        ENDING.append(top)
        copy_sources(*crates_of_program(), top)
        for it in (RELEASE, STATIC_RELEASE):
            if not os.path.isfile(it):
                raise Refused(f'there is no {os.path.relpath(it, TOP)} to compare with')
        libraries, program = crates_of_program(top)
        prove(libraries, program, f'proved and built from nothing, in {top}', False)
        found, static = f'{program.folder}/out/{program.name}', f'{top}/static'
        link_static(program, found, static)
        are_same = [is_same(found, RELEASE), is_same(static, STATIC_RELEASE)]
        sources, said = sum_of_sources(top, [it.name for it in [*libraries, program]]), said_of_release()
    for name, value in [('program', RT.rtlib.sum_of(RELEASE)), ('static', RT.rtlib.sum_of(STATIC_RELEASE)), ('sources', sources), ('kit', kit())]:
        if said.get(name) != value:
            print(f'release/MADE says {name} {said.get(name)}, and it is {value}')
            are_same.append(name == 'kit')
    return int(not all(are_same))


# Folders that go when an interrupt ends this.
ENDING = []


def end_at_signal(number, _):
    Status().clear()
    for it in ENDING:
        shutil.rmtree(it, ignore_errors=True)
    say('not built, since it was interrupted; the crates that are proved stay so')
    # (the checks end with this process)
    os._exit(128 + number)


def try_unproved(words):
    """Runs the program of these words by `rt try`, with a copy of each file that they name."""
    say('unproved: `rt try` compiles the program without any proof, in a few minutes each time, so this run proves nothing; '
        'it has 60 seconds, and up to 1 MiB of output')
    given, data = [], []
    for at, word in enumerate(words):
        if at and not word.startswith('/dev/') and os.path.isfile(word):
            data += ['--data', f'file{at}={os.path.abspath(word)}']
            word = f'file{at}'
        given.append(word)
    return subprocess.run(['rt', 'try', *data, '--', *given], cwd=f'{TOP}/crates/jslint').returncode


def take(stamp):
    """Gives bin/jslint the program that `rt ci` left, if its sources are still those with the sum."""
    program = crates_of_program()[1]
    if program.stamp() == stamp and os.path.isfile(f'{program.folder}/out/{program.name}'):
        with alone():
            install(program, stamp)


def are_known(words):
    """Whether these are words that the head of this file names, or the one that it gives itself."""
    if words[:1] == ['--try']:
        return True
    return words in ([], ['--rebuild'], ['--stamp']) or len(words) == 2 and words[0] in ('--since', '--take', '--run')


def main(words):
    if not are_known(words):
        print(__doc__.strip(), file=sys.stderr)
        return 2
    why = f'{words[1]}, so the program is proved and built here' if words[:1] == ['--since'] else None
    try:
        load()
    except Refused:
        if why:
            say(why)
        raise
    if words[:1] == ['--try']:
        return try_unproved(words[1:])
    if words == ['--stamp']:
        print(crates_of_program()[1].stamp())
        return 0
    if words[:1] == ['--take']:
        take(words[1])
        return 0
    if words[:1] == ['--run']:
        # (a step of --rebuild)
        program = crates_of_program(os.path.dirname(os.path.dirname(words[1])))[1]
        program.held = []
        return program.run([], ['--help'])
    for it in (signal.SIGINT, signal.SIGTERM, signal.SIGHUP):
        signal.signal(it, end_at_signal)
    if words == ['--rebuild']:
        return rebuild()
    with alone():
        build(why)
    return 0


if __name__ == '__main__':
    try:
        status = main(sys.argv[1:])
    except Refused as why:
        say(str(why))
        sys.stderr.flush()
        # (checks that still run end with this process)
        os._exit(2)
    except OSError as error:
        say(f'not built: {error}')
        sys.stderr.flush()
        os._exit(2)
    sys.exit(status)
