"""The files that have what is made of the files of the rules, and the place of it in each."""
import json
import os
import re
from dataclasses import dataclass
from typing import Callable

from . import kind_sets, lists
from .changes import changelog
from .files import TOP, read
from .moot import read_moot
from .pages import index, moot_names, page, page_of_moot, readme_table, sets, usage_table
from .reading import Refused

# Between these two lines a document has what is made.
IN_MARKDOWN = re.compile(r'^<!-- rules: tools/rules writes this -->\n(.*?)^<!-- end of rules -->$', re.M | re.S)
IN_ROFF = re.compile(r'^\.\\" rules: tools/rules writes this\n(.*?)^\.\\" end of rules$', re.M | re.S)


def plain(text):
    return text.replace('`', '')


def all_names(rules, moot):
    return ' '.join(sorted(it.name for it in (*rules, *moot)))


def in_roff(rules):
    """The rules as a sentence of roff, each in bold."""
    words = [it.name.replace('-', '\\-') for it in rules]
    ends = [' ,'] * (len(words) - 2) + ['', ' .'] if len(words) > 1 else [' .']
    lines = [f'.BR {word}{end}' if end else f'.B {word}\nand' for word, end in zip(words, ends)]
    return '\n'.join(lines) + '\n'


def manual(rules):
    """The list of the manual page: each set of rules, and the rules of none."""
    told = {'Without settings these rules are on, the set "nine":': [it for it in rules if 'nine' in sets(it)],
            'The set "recommended" has': [it for it in rules if 'recommended' in sets(it)],
            'The set "all" also has': [it for it in rules if not sets(it)]}
    return ''.join(f'{head}\n{in_roff(them)}' for head, them in told.items() if them)


MOOT = "Finds nothing in strict code"
# A severity in the schema: by its name, by its number, or true for "error" and false for "off".
SEVERITY = '{ "enum": [true, false, "off", "warn", "error", 0, 1, 2] }'


def schema_of_option(option):
    """What the schema says of an option in the table of a rule."""
    if not option.schema:
        return '{ "type": "boolean" }'
    return f'{option.schema[:-2]}, "description": {json.dumps(plain(option.description), ensure_ascii=False)} }}'


def schema_of(name, options, is_on, description):
    """What the schema says of a rule's value: a severity, or a table that may have one, and the rule's options."""
    keys = ', '.join([f'"severity": {SEVERITY}', *(f'"{it.key}": {schema_of_option(it)}' for it in options)])
    either = f'{SEVERITY}, {{ "type": "object", "additionalProperties": false, "properties": {{ {keys} }} }}'
    return f'        "{name}": {{ "anyOf": [{either}], "default": {str(is_on).lower()}, "description": {json.dumps(plain(description), ensure_ascii=False)} }}'


def schema(rules, moot):
    own = lambda it: [each for each in it.options if each.schema or each.value == 'true']
    lines = [schema_of(it.name, own(it), it.on, it.description) for it in rules] + [schema_of(it.name, [], False, f'{MOOT}: {it.description}') for it in moot]
    return ',\n'.join(sorted(lines)) + '\n'


def schema_of_only(rules, moot):
    return ', '.join(f'"{it}"' for it in all_names(rules, moot).split())


def module(rules, moot):
    """tools/jslint_files/rule_table.py"""
    told = '"""The rules in a sentence each, which are on without settings, and names that do nothing. tools/rules writes this file."""\n'
    lines = lambda them: ''.join(f'    {it.name!r}: {plain(it.description)!r},\n' for it in them)
    on = ''.join(f'    {it.name!r},\n' for it in rules if it.on)
    return f'{told}RULES = {{\n{lines(rules)}}}\nON = frozenset((\n{on}))\nMOOT = {{\n{lines(moot)}}}\n'


@dataclass(frozen=True)
class Place:
    """A file, the one place in it that a pattern's group finds, and what is written there."""
    path: str
    pattern: re.Pattern
    made: Callable

    def text(self, old, rules, moot):
        """The file's text as it should be."""
        found = list(self.pattern.finditer(old))
        if len(found) != 1:
            raise Refused(f'{self.path}: there are {len(found)} places for the rules, and not one')
        start, end = found[0].span(1)
        return old[:start] + self.made(rules, moot) + old[end:]


PLACES = (
    Place('README.md', IN_MARKDOWN, lambda rules, _: f'\n{readme_table(rules)}\n'),
    Place('docs/USAGE.md', IN_MARKDOWN, lambda rules, _: f'\n{usage_table(rules)}\n'),
    Place('docs/rules/README.md', IN_MARKDOWN, lambda rules, moot: f'\n{index(rules)}\n{moot_names(moot)}\n'),
    Place('share/man/man1/jslint.1', IN_ROFF, lambda rules, _: manual(rules)),
    Place('share/jslint/jslint.schema.json', re.compile(r'^    "rules": \{\n(?:      .*\n)*?      "properties": \{\n((?:        .*\n)*)      \}$', re.M), schema),
    Place('share/jslint/jslint.schema.json', re.compile(r'^    "only": .*?"items": \{ "enum": \[(.*?)\] \}', re.M), schema_of_only),
    Place('share/bash-completion/completions/jslint', re.compile(r"^    local rules='([^']*)'$", re.M), all_names),
    Place('share/zsh/site-functions/_jslint', re.compile(r"'--explain\[[^]]*\]:rule:\(([^)]*)\)'"), all_names),
    Place('share/fish/vendor_completions.d/jslint.fish', re.compile(r" -l explain -x -a '([^']*)'"), all_names),
)
# Files that are made as a whole.
MODULE, MODEL, PAGES = 'tools/jslint_files/rule_table.py', 'tools/model/rule_sets.js', 'docs/rules'


def places_of_lists(top):
    """The lists of the crate `rules`: in code by set, in the definitions by set, and there what is imported of the crates with rows."""
    code = {'RULES': 'all', 'NINE': 'nine', 'RECOMMENDED': 'recommended'}
    for name, of in code.items():
        yield Place(lists.RULE_LIST, re.compile(rf'^pub(?:\(crate\))? const {name}: \[RuleName; (\d+\] = \[\n(?:    .*\n)*)\];$', re.M), lists.in_code(of, top))
    for name in code.values():
        yield Place(lists.RULE_NAMES, re.compile(rf'^{name}_rules =\n((?:    .*\n)*?)    ∷ \[\]$', re.M), lists.in_definitions(name, top))
    for crate in lists.holders(top):
        yield Place(lists.RULE_NAMES, re.compile(rf'^use Rattle\.{crate}\.specs\.declared\.\w+\.\w+\.TheVariants\.\{{(.*)\}}$', re.M), lists.imported(crate, top))


def wished(rules, top=TOP):
    """Each file that has something of the rules: its text, and what it should be."""
    moot = read_moot(top)
    found = {f'{PAGES}/{it.name}.md': page(it) for it in rules} | {f'{PAGES}/{it.name}.md': page_of_moot(it) for it in moot}
    found |= {MODULE: module(rules, moot), MODEL: lists.model(rules, moot)}
    texts = {path: (read(path, top), text) for path, text in found.items()}
    texts[kind_sets.CODE] = (old := read(kind_sets.CODE, top)), kind_sets.kind_sets(read(kind_sets.SPECS, top) or '', old or '')
    texts['CHANGELOG.md'] = (old := read('CHANGELOG.md', top)), changelog(old or '', rules)
    for it in (*PLACES, *places_of_lists(top)):
        old, new = texts.get(it.path) or (read(it.path, top),) * 2
        if old is None:
            raise Refused(f'{it.path}: there is no such file')
        texts[it.path] = (old, it.text(new, rules, moot))
    return texts


def stray_pages(rules, top=TOP):
    """Pages of rules that there are no files of."""
    known = {'README.md', *(f'{it.name}.md' for it in (*rules, *read_moot(top)))}
    return sorted(it for it in os.listdir(f'{top}/{PAGES}') if it.endswith('.md') and it not in known)
