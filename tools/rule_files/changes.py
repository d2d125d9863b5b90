"""What CHANGELOG.md says of rules that no version has yet: a line among the unreleased entries."""
import re

FIRST = re.compile(r'^## ', re.M)
UNRELEASED = re.compile(r'^## Unreleased\n\n', re.M)
# (behind the place of the unreleased entries, up to the first version)
NEW_RULES = re.compile(r'((?:(?!## ).*\n)*?)- New rules?, off without settings: .*\n')


def versions_of(text):
    return re.findall(r'^## (\d+\.\d+\.\d+)\b', text, re.M)


def numbers_of(version):
    return [int(it) for it in version.split('.')]


def newest(text):
    """The newest version, by its numbers."""
    return max(map(numbers_of, versions_of(text)), default=[])


def told_of(new):
    """The line on new rules."""
    them = ', '.join(f'`{it.name}`' for it in new)
    taken = [it for it in new if it.eslint]
    all_are = 'all of them' if len(new) > 1 else 'it'
    on = f'`extends = "recommended"` turns {all_are if taken == new else ", ".join(f"`{it.name}`" for it in taken)} on, as ESLint does.'
    off = 'ESLint recommends none of them.' if len(new) > 1 else "ESLint doesn't recommend it."
    pages = '[pages](docs/rules/README.md)' if len(new) > 1 else f'[page](docs/rules/{new[0].name}.md)'
    return f'- New rule{"s" * (len(new) > 1)}, off without settings: {them} ({pages}). {on if taken else off}\n'


def changelog(text, rules):
    """CHANGELOG.md as it should be: with a line on the rules of a later version than all there, and with the place for it."""
    new = [it for it in rules if numbers_of(it.since) > newest(text)]
    told = told_of(new) if new else ''
    if told and not UNRELEASED.search(text):
        return FIRST.sub(lambda it: f'## Unreleased\n\n{told}\n{it[0]}', text, count=1)
    place = UNRELEASED.search(text)
    if not place:
        return text
    behind = text[place.end():]
    old = NEW_RULES.match(behind)
    rest = old[1] + told + behind[old.end():] if old else told + behind
    return text[:place.end()] + rest
