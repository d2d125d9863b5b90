"""What a refused script may have that the profile lacks: a guess by the text around the place, which promises nothing."""
import functools
import os
import re

from .languages import first_reading, is_by_language, reach_of
from .outcomes import LINE_END, Refused
from .streams import Wrong

HERE = os.path.dirname(os.path.realpath(__file__))
# The table that the language server reads too: where `make install` puts it, and where it is in the repository.
PLACES = (f'{HERE}/../hints.json', f'{HERE}/../../packages/npm/lib/hints.json')
MOST_BEFORE, MOST_AT = 4000, 400


def pattern_of(text):
    """A pattern of the table, which is JavaScript's: `$` is the end, and a look behind from there may have any length."""
    behind = re.fullmatch(r'\$\(\?<=(.*)\)', text, re.S)
    return re.compile(f'(?:{behind[1]})\\Z' if behind else re.sub(r'(?<!\\)\$(?=\)*\Z)', r'\\Z', text))


@functools.cache
def tables():
    import json
    path = next(filter(os.path.exists, PLACES), None)
    if path is None:
        raise Wrong('its table of hints, hints.json, is not installed')
    with open(path, encoding='utf-8') as file:
        table = json.load(file)
    return [(it, pattern_of(it['before']), pattern_of(it['at'])) for it in table['rows']], [(it, pattern_of(it['at'])) for it in table['early']]


def index_of(text, line, column):
    """The index of a place as the program names it: lines end at U+2028 and U+2029 too."""
    at = 0
    for _ in range(line - 1):
        found = LINE_END.search(text, at)
        if not found:
            return len(text)
        at = found.end()
    return min(at + column - 1, len(text))


def hint_of(text, words, line, column, languages=()):
    """The row of the table that holds of a text that none of these languages has, or None."""
    index, number = index_of(text, line, column), re.fullmatch(r'early error E(\d+)', words)
    before, at = text[max(0, index - MOST_BEFORE):index], text[index:index + MOST_AT]
    syntax, early = tables()
    is_open = lambda row: not any(it in row.get('readBy', ()) for it in languages)
    if words == 'syntax error':
        return next((row for row, front, back in syntax if is_open(row) and back.match(at) and front.search(before)), None)
    return next((row for row, back in early if number and is_open(row) and row['number'] == int(number[1]) and back.match(at.split('\n')[0])), None)


class Guesses:
    """Puts to a refusal a guess at what the script has. Where another language has that, a guess is always put, else where it is asked for."""

    def __init__(self, has_all, is_noted):
        self.has_all, self.is_noted = has_all, is_noted

    def row_of(self, why, text, languages):
        """The row of the table for a refusal. (a table that isn't installed is missed where it is asked for alone)"""
        if not is_by_language(why):
            return None
        try:
            return hint_of(text.decode(errors='replace'), why.found.text, why.found.line, why.found.column, languages)
        except Wrong:
            if self.has_all or self.is_noted:
                raise
            return None

    def add(self, why, text, languages, read):
        """The refusal of a text by languages, with a guess. `read` tries the text in a language. Where another language has what is guessed, the guess is put
        unasked if that language gets further; and a script that is to be a note must not have a fault there."""
        row = self.row_of(why, text, languages)
        others = (row or {}).get('readBy', ())
        if others and (self.is_noted or not self.has_all):
            try:
                first_reading(others, read)
            except Refused as other:
                is_further = is_by_language(other) and reach_of(other) > reach_of(why)
                if self.is_noted:
                    return self.add(other if is_further else why, text, [*languages, *others], read)
                row = row if is_further else None
        if row and (self.has_all or others):
            why.found.hint, why.found.is_unsupported, why.found.is_noted = row['hint'], row['lacks'], row['lacks'] and self.is_noted
        return why
