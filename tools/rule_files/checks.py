"""What else has to be so: the crates' definitions have just the rules of the files, and no document says by hand how many there are."""
import glob
import json
import os
import re

from .changes import newest, numbers_of, versions_of
from .files import TOP, read, specs_of_rules
from .kind_sets import SPECS, unread
from .moot import read_moot
from .places import plain, stray_pages, wished

# A rule's name in definitions, as `called NoVar = codes "no-var"` or `record { called = codes "no-var"; .. }`.
CALLED = re.compile(r'^[^\n"]*\bcalled\b[^\n"=]*= codes "([\w-]+)"', re.M)
UNITS = 'one two three four five six seven eight nine'.split()
TEENS = 'ten eleven twelve thirteen fourteen fifteen sixteen seventeen eighteen nineteen'.split()
TENS = 'twenty thirty forty fifty sixty seventy eighty ninety'.split()
# Five rules and more, in words or digits; fewer are said of a few that are named.
NUMBER = rf'(?:[5-9]|[1-9]\d+|{"|".join(UNITS[4:] + TEENS)}|(?:{"|".join(TENS)})(?:-(?:{"|".join(UNITS)}))?|(?:a|one|two) hundred)'
COUNTED = re.compile(rf'\b{NUMBER}(?:\s+(?:of\s+)?(?:the|these|its|our|all|new|own|other|more|shipped|built-in|boxed))*\s+rules\b', re.I)
# Documents in which a number of rules is no history.
DOCUMENTS = ('*.md', 'docs/**/*.md', 'packages/**/*.md', 'release/*.md', 'tools/**/*.md', 'share/man/man1/*.1', 'packages/page/page.html', 'action.yml')


def wrong_texts(rules, top):
    """Files that aren't what is made of the files of the rules: the first line that differs."""
    for path, (old, new) in wished(rules, top).items():
        if old is None:
            yield f'{path}: there is no such file'
        elif old != new:
            is_here, should_be = ([*it.split('\n'), ''] for it in (old, new))
            at = next((i for i, pair in enumerate(zip(is_here, should_be)) if pair[0] != pair[1]), min(len(is_here), len(should_be)) - 1)
            yield f'{path}:{at + 1}: {is_here[at]!r}, and not {should_be[at]!r}'


def wrong_pages(rules, top):
    yield from (f'docs/rules/{it}: there is no rules/{it[:-3]}.toml' for it in stray_pages(rules, top))


def names_of_crates(top):
    """The names of rules in the definitions of the crates of rules, each with its file."""
    return {name: path for path in specs_of_rules(top) for name in CALLED.findall(read(path, top))}


def wrong_names(rules, top):
    """Rules of the crates without a file, and files without a rule."""
    known, found = {it.name: it for it in rules}, names_of_crates(top)
    yield from (f'{path}: {name} has no rules/{name}.toml' for name, path in found.items() if name not in known)
    yield from (f'rules/{name}.toml: no definition of the crates is called {name}' for name in known if name not in found)


def wrong_mends(rules, top):
    """Rules whose change the definitions lack, or have though the file says nothing of it."""
    path = 'crates/mending/specs/Changes.antt'
    found, wanted = {*CALLED.findall(read(path, top) or '')}, {it.name for it in rules if it.fix == 'mend'}
    yield from (f'rules/{it}.toml: {path} says otherwise of a change' for it in sorted(found ^ wanted))


def wrong_moot(_, top):
    """Names that do nothing which the definitions lack, or have too many."""
    path = 'crates/rules/specs/RuleNames.antt'
    listed = re.search(r'^is_moot text =\n(.*?)\n\n', read(path, top) or '', re.M | re.S)
    found, wanted = {*re.findall(r'codes "([\w-]+)"', listed[1] if listed else '')}, {it.name for it in read_moot(top)}
    yield from (f'rules/moot/{it}.toml: is_moot of {path} says otherwise' for it in sorted(found ^ wanted))


def wrong_sets(_, top):
    """Definitions among the sets of kinds that no code is written of."""
    yield from (f'{SPECS}: {it} is no set of kinds, with a comment, and a line for each kind' for it in unread(read(SPECS, top) or ''))


def wrong_versions(rules, top):
    """Each rule's version is one of CHANGELOG.md, or while that has unreleased entries a later one than all there."""
    text = read('CHANGELOG.md', top) or ''
    is_open = re.search(r'^## Unreleased$', text, re.M)
    unknown = [it for it in rules if it.since not in versions_of(text) and not (is_open and numbers_of(it.since) > newest(text))]
    yield from (f'rules/{it.name}.toml: CHANGELOG.md has no version {it.since}' for it in unknown)


def wrong_options(rules, top):
    """Settings of rules that the schema or the table of settings lacks, or that the schema describes otherwise."""
    keys = json.loads(read('share/jslint/jslint.schema.json', top))['properties']
    listed = re.findall(r'^\| `([\w-]+)` \| ', read('docs/rules/README.md', top).partition('\n## A settings file\n')[2], re.M)
    for rule, option in ((rule, option) for rule in rules for option in rule.options if not option.schema):
        if option.key not in listed:
            yield f'rules/{rule.name}.toml: the table of settings in docs/rules/README.md has no {option.key}'
        if keys.get(option.key, {}).get('description') != plain(option.description):
            yield f'rules/{rule.name}.toml: the schema in share/jslint has no {option.key} with this description: {plain(option.description)}'


def wrong_numbers(_, top):
    """Documents that say by hand how many rules there are."""
    paths = {os.path.relpath(it, top) for pattern in DOCUMENTS for it in glob.glob(f'{top}/{pattern}', recursive=True)} - {'CHANGELOG.md'}
    for path in sorted(it for it in paths if 'node_modules' not in it):
        text = re.sub(r'`[^`\n]*`', lambda it: ' ' * len(it[0]), read(path, top))
        yield from (f'{path}:{text.count(chr(10), 0, it.start()) + 1}: {" ".join(it[0].split())!r}: a number of rules, which no document says by hand' for it in COUNTED.finditer(text))


CHECKS = (wrong_texts, wrong_pages, wrong_names, wrong_moot, wrong_mends, wrong_sets, wrong_versions, wrong_options, wrong_numbers)


def faults(rules, top=TOP):
    return [it for check in CHECKS for it in check(rules, top)]
