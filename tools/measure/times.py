"""Processor seconds of a gate, by crate: run beside `rt ci` or `edits/run.py --built`, it looks once a second at each process of the prover, and
prints a table when that ends, or when it is interrupted.

    times.py FOLDER

FOLDER is the clone in which `rt ci` runs. A process belongs to the gate where it works in FOLDER or, for a must-fail edit, in a folder
/tmp/rt-edit-..; so no other edits may be tried meanwhile. What a process used in its last second isn't seen.
"""
import collections
import os
import re
import sys
import time

HZ = os.sysconf('SC_CLK_TCK')


def processes(folder):
    """Crate, kind of work, process and processor seconds of each process of the prover that belongs to the gate."""
    for number in filter(str.isdigit, os.listdir('/proc')):
        try:
            with open(f'/proc/{number}/cmdline') as file:
                words = file.read().split('\0')
            if os.path.basename(words[0]) != 'rattle' or '--crate-name' not in words:
                continue
            with open(f'/proc/{number}/stat') as file:
                fields = file.read().rpartition(')')[2].split()
            place = os.readlink(f'/proc/{number}/cwd')
        except (OSError, IndexError):
            continue
        crate = words[words.index('--crate-name') + 1]
        seconds = (int(fields[11]) + int(fields[12])) / HZ
        if place.startswith('/tmp/rt-edit-'):
            yield crate, 'edits', (number, fields[19]), place, seconds
        elif place.startswith(folder):
            yield crate, 'tests' if '--test' in words else 'check', (number, fields[19]), place, seconds


def is_running(folder):
    """Whether a gate, or what tries the edits behind it, runs in the folder."""
    for number in filter(str.isdigit, os.listdir('/proc')):
        try:
            with open(f'/proc/{number}/cmdline') as file:
                words = re.split('[\0 ]', file.read())
            if ('ci' in words or any(it.endswith('edits/run.py') for it in words)) and os.readlink(f'/proc/{number}/cwd').startswith(folder):
                return True
        except OSError:
            continue
    return False


def report(seen):
    seconds, edits = collections.Counter(), collections.defaultdict(set)
    for (crate, work, _), (place, used) in seen.items():
        seconds[crate, work] += used
        if work == 'edits':
            edits[crate].add(place)
    crates = sorted({crate for crate, _ in seconds}, key=lambda it: -sum(seconds[it, work] for work in ('check', 'tests', 'edits')))
    print('| Crate | check, s | tests, s | checks of edits | s |\n|---|---|---|---|---|')
    for crate in crates:
        check, tests, tried = (round(seconds[crate, work]) or '' for work in ('check', 'tests', 'edits'))
        print(f'| `{crate}` | {check} | {tests} | {len(edits[crate]) or ""} | {tried} |')
    print(f'\n{sum(seconds.values()) / 60:.1f} processor minutes')


def main(folder):
    seen = {}
    try:
        while True:
            for crate, work, process, place, seconds in processes(folder):
                seen[crate, work, process] = place, seconds
            if seen and not is_running(folder):
                break
            time.sleep(1)
    except KeyboardInterrupt:
        pass
    report(seen)


if len(sys.argv) != 2:
    sys.exit(__doc__.strip())
main(os.path.realpath(sys.argv[1]))
