"""What `make install` puts where, what the manual pages say and name, what the builds of packages/ leave, and what release/README.md says of the version.

Each test is a function that raises where something is wrong, and Skipped where it can't be tried. Its argument is a room: a folder of its own.
"""
import os
import re
import shutil
import subprocess
import sys

import libraries
from recipes import is_well, same

TOP = os.path.dirname(os.path.dirname(os.path.dirname(os.path.realpath(__file__))))
PAGES = ('jslint.1', 'jslint-files.1')


def text_of(path):
    with open(path, encoding='utf-8') as file:
        return file.read()


def make(*words):
    ran = subprocess.run(['make', '-s', *words], cwd=TOP, stdout=subprocess.PIPE, stderr=subprocess.STDOUT, text=True)
    is_well(ran.returncode == 0, ran.stdout)


def files_below(folder):
    return {os.path.relpath(f'{at}/{it}', folder) for at, _, names in os.walk(folder) for it in names}


def plain(text):
    """A page without the escapes and requests of roff: words alone."""
    text = re.sub(r'\\f[BIRP]|\\%|\\:', '', text).replace('\\-', '-').replace('\\&', '').replace('\\e', '\\')
    return re.sub(r'^\.(?:[BI]|BR|RB|BI|IR)\b +', '', text, flags=re.M)


def installed(room):
    """In an empty folder, with and without DESTDIR, of names with odd characters too: each file that a page names is there, and each file that an
    installed document of docs/USAGE.md's links to. `make uninstall` takes everything out."""
    for number, (destdir, prefix) in enumerate([('', f'{room.folder}/plain'), (f'{room.folder}/dest', '/usr'), (f'{room.folder}/a b&c|d', '/opt/x-y & z|')]):
        top = f'{destdir}{prefix}'
        words = (f'DESTDIR={destdir}', f'PREFIX={prefix}')
        make('install', *words)
        doc, found = f'{top}/share/doc/jslint', files_below(top)
        for it in ('LICENSE-APACHE', 'LICENSE-MIT', 'README.md', 'docs/USAGE.md', 'docs/rules/README.md'):
            same(text_of(f'{doc}/{it}'), text_of(f'{TOP}/{it}'), it)
        named = [it for page in PAGES for it in re.findall(rf'{re.escape(prefix)}/share/\S+', plain(text_of(f'{top}/share/man/man1/{page}')))]
        is_well(len(named) >= 2, named)
        same([it for it in named if not os.path.isfile(f'{destdir}{it}')], [])
        for document in ['docs/USAGE.md', *(f'docs/rules/{it}' for it in os.listdir(f'{doc}/docs/rules'))]:
            links = [it for it in re.findall(r'\]\(([^)#:]+)(?:#[^)]*)?\)', text_of(f'{doc}/{document}'))]
            same([it for it in links if not os.path.exists(f'{doc}/{os.path.dirname(document)}/{it}')], [], document)
        same([it for it in found if os.stat(f'{top}/{it}').st_mode & 0o444 != 0o444], [])
        is_well(subprocess.run([f'{top}/bin/jslint', '--version'], stdout=subprocess.PIPE).returncode == 0, number)
        make('uninstall', *words)
        same(files_below(top), set(), 'uninstalled')


def early_errors_in_page(room):
    """Each early error of docs/USAGE.md's table has its line in the manual page, in the table's words."""
    table = re.findall(r'^\| (\d+) \| (.*?) \| (.*?) \|$', text_of(f'{TOP}/docs/USAGE.md').partition('The early errors, in the order of their numbers')[2], re.M)
    wanted = [f'E{number}\n{what}: {place}'.replace('`', '') for number, what, place in table]
    same([it.split('\n')[0] for it in wanted], [f'E{it}' for it in range(1, len(wanted) + 1)])
    page = plain(text_of(f'{TOP}/share/man/man1/jslint.1'))
    same(re.findall(r'^E\d+\n.*$', page, re.M), wanted)


def pages_shown(room):
    """Each page is shown without a warning, and with what was asked for in it, by whichever of groff and mandoc are here."""
    shown = [(it, words) for it, words in [('groff', ['-man', '-Tutf8', '-ww']), ('mandoc', ['-Tutf8', '-Wunsupp'])] if shutil.which(it)]
    if not shown:
        raise libraries.Skipped('there is no groff here, and no mandoc')
    for program, words in shown:
        for page in PAGES:
            _, out, err = room.run([program, *words, f'{TOP}/share/man/man1/{page}'], status=0, GROFF_NO_SGR='1')
            same(err, '', f'{program} {page}')
            text = re.sub('.\b', '', out)
            is_well('SEE ALSO' in text and (page != 'jslint.1' or re.search(r'^ +E21 +flags +of +a', text, re.M)), f'{program} {page}: {text[-2000:]}')


def built(room):
    """What the builds of packages/ leave is nothing that git would take."""
    left = shutil.ignore_patterns('jslint', 'libjslint.so', '*.tgz', 'jslint.wasm', 'texts.json', 'LICENSE-*', '__pycache__', 'jslint.html', 'node_modules')
    shutil.copytree(f'{TOP}/packages', f'{room.folder}/packages', ignore=left)
    shutil.copytree(f'{TOP}/docs', f'{room.folder}/docs')
    for name in ('.gitignore', 'LICENSE-APACHE', 'LICENSE-MIT'):
        shutil.copy(f'{TOP}/{name}', f'{room.folder}/{name}')
    for name in ('wasm/jslint.wasm', 'x86_64-linux/libjslint.a'):
        os.makedirs(os.path.dirname(f'{room.folder}/release/{name}'))
        shutil.copy(libraries.library(name), f'{room.folder}/release/{name}')
    room.git('init', '-q')
    room.git('add', '.')
    room.git('commit', '-q', '-m', 'all')
    env = {'PATH': os.environ['PATH'], 'npm_config_cache': f'{room.folder}/.git/npm', 'npm_config_update_notifier': 'false'}
    page = f'"{sys.executable}" packages/page/build.py release/wasm/jslint.wasm'
    for tools, text in [
            (['cc', 'make'], 'make -C packages/c'), (['cc'], f'cd packages/c && "{sys.executable}" -c "import jslint"'), (['node', 'npm'], 'cd packages/npm && npm pack --offline'),
            ([], f'{page} jslint.html && {page} packages/page/jslint.html')]:
        for it in tools:
            libraries.tool(it)
        room.sh(text, status=0, **env)
    made = {it[3:] for it in room.git('status', '--porcelain', '--ignored', '--untracked-files=all').splitlines()}
    same(room.git('status', '--porcelain', '--untracked-files=all'), '')
    wanted = {'packages/c/jslint', 'packages/c/libjslint.so', 'packages/npm/jslint.wasm', 'packages/npm/lib/texts.json', 'packages/npm/LICENSE-MIT', 'jslint.html', 'packages/page/jslint.html'}
    is_well(wanted <= made and any(it.endswith('.tgz') for it in made) and any('__pycache__' in it for it in made), made)


def release_page(room):
    """release/README.md has no version that would have to be changed at a release: release/MADE has it."""
    version = re.search(r'^version (\S+)$', text_of(f'{TOP}/release/MADE'), re.M)[1]
    text = text_of(f'{TOP}/release/README.md')
    found = [it for line in text.splitlines() if not line.startswith('**Seen.** On ') for it in re.findall(r'\b\d+\.\d+\.\d+\b', line)]
    same((found, version in text, re.search(r'here now, \d', text)), ([], False, None))


TESTS = [installed, early_errors_in_page, pages_shown, built, release_page]
