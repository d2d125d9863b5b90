"""What the completions offer, as bash, zsh and fish take them, from where `make install` puts them.

Each test is a function that raises where something is wrong, and Skipped where the shell isn't here. Its argument is a room: a folder of its own.
"""
import os
import pty
import re
import select

import recipes
from libraries import tool
from recipes import is_well, same

COMMANDS = {'check', 'cost', 'fix', 'format', 'help', 'mend', 'same', 'tree', 'unwrap', 'verify'}
LANGUAGE = {'--edition', '--module'}
# of the program alone
ASKED_LANGUAGE = {*LANGUAGE, '--any'}
SHARED = {*LANGUAGE, '--jobs', '--files-from', '--help', '--version', '--project', '--no-ignore', '--allow-none', '--stdin', '--hints', '--unsupported', '--summary'}
REWRITING = {'--write', '--diff'} | SHARED
FORMATTING = {'--check', '--width', '--indent', '--tabs', '--commas', '--bare-arrows', '--fewest', '--drop-casts', '--settings'}
CHECKING = {'--settings', '--format', '--color', '--ends', '--suppressions', '--baseline', '--write-baseline', '--cache', '--cache-location', '--max-warnings', '--explain', '--rule', '--only', '--print-config', '--print-layers', '--init'} | SHARED
SCRIPTS = {'a.js', 'two words.js'}
# Words of a command line, the last one unfinished; what is offered for it; and what mustn't be.
ASKED = [
    ('jslint ', COMMANDS, set()), ('jslint c', {'check', 'cost'}, {'fix'}), ('jslint -', {'--help', '--version'}, {'check'}),
    ('jslint help ', COMMANDS - {'help'}, SCRIPTS), ('jslint check ', SCRIPTS, COMMANDS), ('jslint check -', {'--settings', '--spans', '--list', '--help', *ASKED_LANGUAGE}, {'--version'}),
    ('jslint check --settings ', {'s.toml'}, COMMANDS), ('jslint unwrap ', SCRIPTS, COMMANDS), ('jslint verify ', SCRIPTS, COMMANDS), ('jslint same a.js ', SCRIPTS, COMMANDS),
    ('jslint verify a.js ', {'table'}, COMMANDS), ('jslint fix -', {'--help', *ASKED_LANGUAGE}, {'--settings', '--list', '--write'}),
    ('jslint format -', {'--width', '--indent', '--tabs', '--commas', '--bare-arrows', '--fewest', '--check', '--help', *ASKED_LANGUAGE}, {'--settings', '--write'}),
    ('jslint format --commas ', {'none', 'lists', 'all'}, SCRIPTS), ('jslint format ', SCRIPTS, COMMANDS), ('jslint format --ch', {'--check'}, {'--commas'}),
    ('jslint same --edition ', {'2020', '2022'}, SCRIPTS), ('jslint-files --edition ', {'2020', '2022'}, SCRIPTS), ('jslint help -', set(), ASKED_LANGUAGE),
    ('jslint mend -', {'--settings', '--help', *ASKED_LANGUAGE}, {'--spans', '--write'}), ('jslint mend --settings ', {'s.toml'}, COMMANDS), ('jslint mend ', SCRIPTS, COMMANDS),
    ('jslint-files ', {'check', 'fix', 'unwrap', 'mend', 'format'} | SCRIPTS, {'tree'}), ('jslint-files -', CHECKING, {'--write'}),
    ('jslint-files check -', CHECKING, {'--write'}), ('jslint-files fix -', REWRITING | {'--drop-comments'}, {'--settings', '--format', '--drop-casts'}),
    ('jslint-files unwrap -', REWRITING | {'--drop-casts'}, {'--drop-comments', '--format', '--check', '--width'}), ('jslint-files mend -', REWRITING | {'--check', '--settings', '--rule', '--only'}, {'--drop-comments', '--drop-casts', '--format', '--width'}), ('jslint-files format -', REWRITING | FORMATTING, {'--drop-comments', '--format'}),
    ('jslint-files format --commas ', {'none', 'lists', 'all'}, SCRIPTS), ('jslint-files format ', SCRIPTS, {'fix'}), ('jslint-files unwrap ', SCRIPTS, {'fix'}),
    ('jslint-files --format ', {'unix', 'pretty', 'json', 'sarif', 'junit', 'github'}, SCRIPTS), ('jslint-files --unsupported ', {'error', 'note'}, SCRIPTS),
    ('jslint-files --color ', {'auto', 'always', 'never'}, SCRIPTS), ('jslint-files --explain ', {'no-var', 'prefer-const'}, SCRIPTS), ('jslint-files --settings ', {'s.toml'}, {'check'}), ('jslint-files format --settings ', {'s.toml'}, {'check'}),
]
SHARE = '../share'


def offers(room, offered):
    """Holds what a shell offers, by a function of words, to what is wanted; each option that the help of jslint-files names is among it."""
    for name in (*SCRIPTS, 's.toml', 'table'):
        room.put(name, '')
    for words, wanted, unwanted in ASKED:
        found = offered(words)
        is_well(wanted <= found and not unwanted & found, f'{words!r}: {sorted(found)}')
    named = set(re.findall(r'(?<![\w-])--[a-z][a-z-]*', room.run(['jslint-files', '--help'])[1].split('\n\n')[0]))
    is_well(named, 'the help names no option')
    same(named - {it for line in ('jslint-files -', 'jslint-files fix -', 'jslint-files unwrap -', 'jslint-files format -') for it in offered(line)}, set())


def share(name):
    return os.path.normpath(f'{recipes.BIN}/{SHARE}/{name}')


def bash(room):
    program, place = tool('bash'), share('bash-completion/completions')
    same(os.path.realpath(f'{place}/jslint-files'), os.path.realpath(f'{place}/jslint'))

    def offered(words):
        name, *rest = words.split(' ')
        text = 'compopt() { :; }; . "$1"; shift; f=$1; COMP_WORDS=("${@:2}"); COMP_CWORD=$(($# - 2)); $f; printf "%s\\n" "${COMPREPLY[@]}"'
        asks = re.search(rf'^complete -F (\S+) {name}$', room_text(f'{place}/{name}'), re.M)[1]
        return set(room.run([program, '--norc', '-c', text, 'bash', f'{place}/{name}', asks, name, *rest], status=0)[1].splitlines())
    offers(room, offered)


def room_text(path):
    with open(path, encoding='utf-8') as file:
        return file.read()


def fish(room):
    program, place = tool('fish'), share('fish/vendor_completions.d')

    def offered(words):
        text = f'source {place}/{words.split(" ")[0]}.fish; complete -C "$argv[1]"'
        found = room.run([program, '-N', '-c', text, words], status=0)[1].splitlines()
        return {it.split('\t')[0] for it in found}
    offers(room, offered)


# What zsh is told: each list of words that a completion adds is written down, without what stands before `--` or describes it.
ZSH = '''
PROMPT=
fpath=({place} $fpath)
autoload -Uz compinit
compinit -u -D
compadd() {{
    builtin compadd "$@"
    local status_=$?
    [[ ${{@[1,(i)(-|--)]}} == *-[OAD]* ]] && return status_
    local -a found
    builtin compadd -A found "$@"
    print -rl -- $found >>{log}
    return status_
}}
bindkey '^I' list-choices
zle-line-init() {{ print -r begu''n }}
zle -N zle-line-init
'''


def read_until(device, wanted, told):
    """What a terminal shows until this comes, or the shell ends."""
    found = b''
    while wanted not in found:
        ready = select.select([device], [], [], 60)[0]
        is_well(ready, f'{told}: nothing more comes: {found[-500:]!r}')
        try:
            more = os.read(device, 4096)
        except OSError:
            more = b''
        if not more:
            break
        found += more
    return found


def zsh(room):
    program, place, log = tool('zsh'), share('zsh/site-functions'), f'{room.folder}/../offered'
    room.put('../begin', ZSH.format(place=place, log=log))

    def offered(words):
        if os.path.exists(log):
            os.remove(log)
        child, device = pty.fork()
        if child == 0:
            os.chdir(room.folder)
            os.execve(program, ['zsh', '-f', '-i'], {'PATH': f'{recipes.BIN}:/usr/bin:/bin', 'HOME': room.folder, 'TERM': 'dumb', 'LC_ALL': 'C.UTF-8'})
        os.write(device, b'stty -echo; . ../begin\n')
        read_until(device, b'begun\r\n', words)
        # (the line editor runs: before that the terminal would take the keys. What is offered; then the line goes, and the shell)
        os.write(device, words.encode() + b'\t\x15exit\n')
        read_until(device, b'\0', words)
        os.close(device)
        os.waitpid(child, 0)
        # (as it would stand on the line)
        return {it.replace('\\', '') for it in room_text(log).splitlines()} if os.path.exists(log) else set()
    offers(room, offered)


TESTS = [bash, zsh, fish]
