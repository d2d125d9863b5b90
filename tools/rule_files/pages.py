"""The Markdown that is made of the files of the rules: a page a rule, and tables."""

HEADING = 'What differs from ESLint'
# What a page says of the language of its texts.
TEXTS = {'base': 'a script a line', '2022': 'a script of ES2022 a line', 'module': 'a module a line'}


def listed(words):
    *most, last = words
    return f'{", ".join(most)} and {last}' if most else last


def sets(rule):
    """The sets of `extends` that have the rule, but for that of all."""
    return [name for name, has in (('nine', rule.on), ('recommended', rule.eslint)) if has]


def standing(rule):
    """Whether a rule is on without settings, since which version it is there, and where ESLint recommends it."""
    by_set = f'`extends = "{"recommended" if rule.eslint else "all"}"`'
    off = f'Off unless [the settings](README.md#a-settings-file) turn it on, by {by_set} or `rules.{rule.name} = true`'
    eslint = f' In `eslint:recommended` of ESLint {listed(map(str, rule.eslint))}.' if rule.eslint else ''
    return f'{"On unless the settings turn it off" if rule.on else off}. There since {rule.since}.{eslint}'


def code(texts):
    return '```js\n' + ''.join(f'{it}\n' for it in texts) + '```'


def setting(rule, option, value):
    """A setting, as a document has it."""
    return f'rules.{rule.name} = {{ {", ".join(filter(None, (option.beside, f"{option.key} = {value}")))} }}' if option.schema else f'{option.key} = {value}'


def section_of_option(rule, option):
    with_it = 'it' if option.tried == option.value else f'`{setting(rule, option, option.tried)}`'
    texts = [f'{word} with {with_it}:\n\n{code(them)}' for word, them in (('Wrong', option.wrong), ('Right', option.right)) if them]
    return '\n\n'.join([f'`{setting(rule, option, option.value)}`: {option.reports} {texts[0]}', *texts[1:]])


def section_of_changes(rule):
    """What `mend` makes of what the rule reports."""
    pairs = ''.join(f'-{before}\n+{after}\n' for before, after in rule.mends)
    stay = f'\n\nReported, and left as it is:\n\n{code(rule.unmended)}' if rule.unmended else ''
    return f'## What `mend` changes\n\n{rule.changes}\n\n```diff\n{pairs}```{stay}'


def page(rule):
    """docs/rules/NAME.md"""
    parts = [f'# {rule.name}', f'{rule.description}.', rule.why, standing(rule), '## What it reports', rule.reports]
    parts += [f'Wrong, {TEXTS[rule.language]}:', code(rule.wrong), 'Right:', code(rule.right), rule.note]
    parts += ['## Settings', *(section_of_option(rule, it) for it in rule.options)] if rule.options else []
    parts += [section_of_changes(rule)] if rule.mends else []
    parts += [rule.more, f'## {HEADING}', rule.differs]
    return '\n\n'.join(it for it in parts if it) + '\n'


def page_of_moot(it):
    """docs/rules/NAME.md of a rule that finds nothing here."""
    eslint = f' In `eslint:recommended` of ESLint {listed(map(str, it.eslint))}.' if it.eslint else ''
    standing = f"[The settings](README.md#a-settings-file) take this name of ESLint's, and it does nothing: no text that is read has what the rule looks for.{eslint}"
    parts = [f'# {it.name}', f'{it.description}.', standing, '## Why it finds nothing', it.why, 'Refused, a script a line:', code(it.refused)]
    return '\n\n'.join(parts) + '\n'


def moot_names(moot):
    """The names of such rules, each a link to its page."""
    return f"Settings also take these names of ESLint's, which do nothing, since what they look for is an error in strict code: {', '.join(link(it, '') for it in moot)}.\n"


def link(rule, folder):
    return f'[{rule.name}]({folder}{rule.name}.md)'


def line(cells):
    return '|' + '|'.join(f' {it} ' if it else ' ' for it in cells) + '|\n'


def table(columns, rows):
    return ''.join([line(columns), '|---' * len(columns) + '|\n', *map(line, rows)])


def index(rules):
    """The table of docs/rules/README.md."""
    rows = [[link(it, ''), it.summary, ', '.join(f'`{each.key}`' for each in it.options), '' if it.fix == 'none' else f'`{it.fix}`', ', '.join(sets(it))] for it in rules]
    return table(['Rule', 'Reports', 'Settings', 'Mended by', 'Sets'], rows)


def set_rows(rules, folder):
    """Sets of rules, a row each."""
    return [[f'`"{name}"`', ', '.join(link(it, folder) for it in rules if name in sets(it))] for name in ('nine', 'recommended')]


def readme_table(rules):
    """The table of the README."""
    return table(['Set', 'Rules'], set_rows(rules, 'docs/rules/'))


def usage_table(rules):
    """The table of docs/USAGE.md."""
    others = ', '.join(link(it, 'rules/') for it in rules if not sets(it))
    more = [['`"all"`', f'all; also {others}' if others else 'all of these'], ['`"none"`', 'none']]
    return table(['`extends`', 'The rules that are on'], [*set_rows(rules, 'rules/'), *more])
