"""A first `jslint.toml`: what package.json says, and which names the scripts use."""
import json
import os
import re

from .advice import TELLING
from .ignoring import in_bytes
from .layers import Override, in_toml
from .outcomes import Refused
from .project import SETTINGS, text_of
from .streams import Wrong

# Files of tests, as people name them, and the names that tell what they run under.
TESTS = ['*.test.js', '*.test.mjs', '*.test.cjs', '*.spec.js', '*.spec.mjs', '*.spec.cjs', '__tests__/', 'test/', 'tests/']
RUNNERS = {'jest': ('jest', 'expect', 'test', 'beforeAll', 'afterAll'), 'mocha': ('mocha', 'describe', 'it', 'before', 'after', 'beforeEach', 'afterEach', 'suite')}
UNDEFINED = re.compile(r"^\d+:\d+ no-undef '(.*)' is not defined(?: \(warning\))?$", re.M)


def package():
    """What package.json here says: whether scripts are modules, and what it depends on."""
    try:
        found = json.loads(text_of('package.json') or '{}')
    except (ValueError, RecursionError):
        raise Wrong('package.json is no JSON') from None
    found = found if isinstance(found, dict) else {}
    depends = [it for key in ('dependencies', 'devDependencies') if isinstance(found.get(key), dict) for it in found[key]]
    return found.get('type') == 'module', set(depends)


def is_test(name):
    *folder, base = [in_bytes(it) for it in os.path.relpath(name).split(os.sep)]
    return Override({'files': TESTS}).has(tuple(folder), base)


def undefined(run, names):
    """The names that these scripts use and don't declare; refused scripts tell none."""
    found = set()
    for name in names:
        try:
            found.update(UNDEFINED.findall(run.worker.outcome(name).answer))
        except (Refused, OSError):
            continue
    return found


def environments(names, telling):
    return [it for it, words in telling.items() if names.intersection(words)]


def first_settings(run):
    """The document for the scripts of a run, in which `no-undef` alone is on."""
    is_module, depends = package()
    tests = [it for it in run.names if is_test(it)]
    of_sources = undefined(run, [it for it in run.names if it not in tests])
    of_tests = undefined(run, tests)
    env = environments(of_sources, TELLING)
    runner = next((it for it in RUNNERS if it in depends), None) or next(iter(environments(of_tests, RUNNERS)), None)
    more = [it for it in environments(of_tests, TELLING) if it not in env] + ([runner] if runner else [])
    lines = ['# From package.json and the names that the scripts use, by jslint-files --init.', 'extends = "recommended"']
    lines += [f'env = {in_toml(env)}'] if env else []
    lines += ['source-type = "module"'] if is_module and not any(it.endswith('.cjs') for it in run.names) else []
    if tests and more:
        lines += ['', '[[overrides]]', f'files = {in_toml(TESTS)}', f'env = {in_toml(more)}']
    return '\n'.join(lines) + '\n'


def begin(run):
    """Writes the document, unless there is one, and says so."""
    text = first_settings(run)
    try:
        with open(SETTINGS, 'x', encoding='utf-8') as file:
            file.write(text)
    except FileExistsError:
        raise Wrong(f'{SETTINGS} is there already') from None
    return f'{SETTINGS}\n'
