"""The words of the command line."""
import os
import re

from .streams import Wrong, shown

COMMANDS = ('check', 'fix', 'unwrap', 'mend', 'format')
FORMS = ('unix', 'pretty', 'json', 'sarif', 'junit', 'github')
FLAGS = (
    'help', 'version', 'module', 'write', 'diff', 'drop-comments', 'drop-casts', 'project', 'no-ignore', 'allow-none', 'hints', 'ends', 'suppressions', 'summary', 'init',
    'write-baseline', 'check', 'tabs', 'bare-arrows', 'fewest', 'cache', 'print-layers',
)
VALUES = ('format', 'settings', 'jobs', 'files-from', 'stdin', 'color', 'unsupported', 'max-warnings', 'explain', 'edition', 'print-config', 'width', 'indent', 'commas', 'cache-location', 'baseline')
# Those that may stand several times.
LISTS = ('rule', 'only')
# Those that `check` alone takes.
CHECKING = ('format', 'color', 'ends', 'suppressions', 'max-warnings', 'explain', 'print-config', 'print-layers', 'init', 'cache', 'cache-location', 'baseline', 'write-baseline')
# The commands that take settings, those that take words which go over them, and those that may only compare.
SETTLED, RULED, COMPARED = ('check', 'mend', 'format'), ('check', 'mend'), ('mend', 'format')
# Those that `format` alone takes, and of them those that the program is handed, with what holds without them.
FORMATTING = ('width', 'indent', 'tabs', 'commas', 'bare-arrows', 'fewest')
HANDED = {'width': '80', 'indent': '2', 'commas': 'all', 'tabs': False, 'bare-arrows': False, 'fewest': False}
# From which number to which they go.
RANGES = {'width': (40, 200), 'indent': (1, 8)}
CHOICES = {'edition': ('2020', '2022'), 'format': FORMS, 'unsupported': ('error', 'note'), 'color': ('auto', 'always', 'never'), 'commas': ('none', 'lists', 'all')}
# The forms that show a guess at what a refused script has without being asked for it.
HINTING = ('pretty', 'sarif', 'junit')


def options_of(words):
    """The command and the options by name, and the names that stand behind them."""
    values, names = list(words), []
    options = {'command': values.pop(0) if words and words[0] in COMMANDS else 'check', **dict.fromkeys(FLAGS, False), **dict.fromkeys(VALUES), **{it: [] for it in LISTS}}
    while values:
        word = values.pop(0)
        name, has_value, value = word[2:].partition('=')
        if word == '--':
            names += values
            break
        if word == '-h' or word.startswith('--') and name in FLAGS and not has_value:
            options['help' if word == '-h' else name] = True
        elif word.startswith('--') and name in (*VALUES, *LISTS):
            if not has_value and not values:
                raise Wrong(f'{word} needs a value')
            value = value if has_value else values.pop(0)
            options[name] = [*options[name], value] if name in LISTS else value
        elif word.startswith('-') and word != '-':
            raise Wrong(f'{shown(word)} is no option; a file of that name stands behind --')
        else:
            names.append(word)
    return options, names


def in_words(choices):
    return f'{", ".join(choices[:-1])} or {choices[-1]}'


def judge(options, names):
    """Refuses options that make no sense, or none together."""
    command, is_check = options['command'], options['command'] == 'check'
    for name, choices in CHOICES.items():
        if options[name] not in (None, *choices):
            raise Wrong(f'--{name} is {in_words(choices)}')
    if options['module'] and options['edition'] == '2020':
        raise Wrong("--module doesn't go with --edition 2020")
    for name in ('write', 'diff') if is_check else CHECKING:
        if options[name] not in (None, False, []):
            raise Wrong(f'--{name} is for {"fix, unwrap, mend and format" if is_check else "check"}')
    for name, commands in {'settings': SETTLED, 'rule': RULED, 'only': RULED, 'check': COMPARED}.items():
        if options[name] not in (None, False, []) and command not in commands:
            raise Wrong(f'--{name} is for {", ".join(commands[:-1])} and {commands[-1]}')
    judge_formatting(options)
    if options['drop-comments'] and command != 'fix':
        raise Wrong('--drop-comments is for fix' + (f': {command} keeps them' if not is_check else ''))
    if options['drop-casts'] and command != 'unwrap' and not may_be_fewest(options):
        raise Wrong('--drop-casts is for unwrap' + (': fix drops all comments' if command == 'fix' else ', and for format with --fewest' if command == 'format' else ''))
    if options['no-ignore'] and not options['project']:
        raise Wrong('--no-ignore is for --project: no ignore file is looked for without it')
    if not is_check:
        judge_rewriting(options)
    if options['diff'] and not has_diff():
        raise Wrong('diff is not found')
    if options['ends'] and options['format'] != 'json':
        raise Wrong('--ends is for --format json')
    if options['max-warnings'] is not None and not re.fullmatch('[0-9]{1,9}', options['max-warnings']):
        raise Wrong('--max-warnings takes a number')
    if options['cache-location'] is not None and not options['cache']:
        raise Wrong('--cache-location is for --cache')
    if options['write-baseline'] and options['baseline'] is None:
        raise Wrong('--write-baseline is for --baseline, which names the file')
    if options['stdin'] is not None and options['cache']:
        raise Wrong('--cache is for files')
    if options['stdin'] is not None and (names or options['files-from'] is not None):
        raise Wrong('--stdin stands for the only script')


def has_diff():
    import shutil
    return shutil.which('diff') is not None


def may_be_fewest(options):
    """Whether `format` may take pairs of parentheses: by the word, or by settings."""
    return options['command'] == 'format' and (options['fewest'] or options['project'] or options['settings'] is not None)


def judge_formatting(options):
    if options['command'] != 'format':
        for name in FORMATTING:
            if options[name] not in (None, False):
                raise Wrong(f'--{name} is for format')
    for name, (least, most) in RANGES.items():
        value = options[name]
        if value is not None and not (re.fullmatch('[1-9][0-9]{0,2}', value) and least <= int(value) <= most):
            raise Wrong(f'--{name} takes a number from {least} to {most}')


def judge_rewriting(options):
    command, is_stdin = options['command'], options['stdin'] is not None
    ways = ['--write', '--diff', *(['--check'] if command in COMPARED else [])]
    asked = [it for it in ways if options[it[2:]]]
    if is_stdin and options['write']:
        raise Wrong('--stdin writes to standard output: --write is for files')
    if len(asked) > 1 or not asked and not is_stdin:
        raise Wrong(f'{command} wants {in_words(ways)}' + (f', and not {"both" if len(ways) == 2 else "several"}' if asked else ''))


def is_compared(options):
    """Whether rewritten texts are held against the scripts, and not written."""
    return options['diff'] or options['check']


def handed(options, said=None):
    """The words for the program's own command, over what settings say, as far as they aren't what holds without them."""
    if options['command'] != 'format':
        return ()
    chosen = {**HANDED, **(said or {}), **{name: options[name] for name in HANDED if options[name] not in (None, False)}}
    flags = {name: [f'--{name}'] for name in HANDED if chosen[name] is True}
    values = {name: [f'--{name}', str(chosen[name])] for name, usual in HANDED.items() if name not in flags and str(chosen[name]) != str(usual)}
    return tuple(word for name in HANDED for word in {**flags, **values}.get(name, ()))


def has_hints(options):
    return options['hints'] or options['unsupported'] is not None or options['format'] in HINTING


def number_of_jobs(text):
    if text is None:
        return len(os.sched_getaffinity(0)) if hasattr(os, 'sched_getaffinity') else os.cpu_count() or 1
    if not re.fullmatch('[1-9][0-9]{0,3}', text):
        raise Wrong('--jobs takes a number from 1 to 9999')
    return int(text)
