"""Which JavaScript of this repository isn't laid out by `[format]` of its jslint.toml. Tables whose head says `laid out by hand` are left as they are."""
import subprocess
import sys

MARK, HEAD = 'laid out by hand', 1 << 11


def is_by_hand(path):
    with open(path, encoding='utf-8') as file:
        return MARK in file.read(HEAD)


def unformatted(top, env):
    """Their paths, and what is said of scripts that are refused."""
    words = [sys.executable, f'{top}/tools/jslint-files', 'format', '--check', '--project', top]
    ran = subprocess.run(words, env=env, stdout=subprocess.PIPE, stderr=subprocess.PIPE, text=True)
    return [it for it in ran.stdout.splitlines() if not is_by_hand(it)], ran.stderr
