"""The forms in which reports are written line by line, and what they share. A form takes a file's name and what came of it, and gives a text."""
import os

from .checking import lines_of
from .outcomes import LINE_END, MARK
from .streams import Wrong, escaped, shown

# How much of a long line is shown.
MOST_SHOWN = 100


def unix(name, outcome):
    head = shown(name)
    if outcome.is_plain() and outcome.answer.replace('\n', '').isprintable():
        # (each line as it is, behind the name: what isn't shown isn't printable either)
        return ''.join(f'{head}:{place}: {words}\n' for place, _, words in (it.partition(' ') for it in outcome.answer.split('\n')[:-1]))
    return ''.join(f'{head}:{it.line}:{it.column}: {escaped(it.words())}\n' for it in outcome.seen())


def github(name, outcome):
    def value(text, more=''):
        for it in '%\r\n' + more:
            text = text.replace(it, f'%{ord(it):02X}')
        return escaped(text)

    lines = []
    for it in outcome.seen():
        text = it.text + (f' (perhaps: {it.hint})' if it.hint else '')
        kind, place = 'notice' if it.is_noted else 'warning' if it.is_warning else 'error', f'file={value(name, ":,")},line={it.line},col={it.column}'
        lines.append(f'::{kind} {place},title={value(it.rule or "jslint", ":,")}::{value(text)}\n')
    return ''.join(lines)


class Columns:
    """Counts columns as ESLint does, in UTF-16 units and without a byte order mark. Places come in order."""

    def __init__(self, text):
        self.text, self.starts = text, [0, *(it.end() for it in LINE_END.finditer(text))]
        self.line, self.column, self.units = 0, 1, 1

    def units_at(self, line, column):
        if line != self.line or column < self.column:
            self.line, self.column, self.units = line, 1, 1 - (line == 1 and self.text.startswith('\ufeff'))
        at = self.starts[line - 1] + self.column - 1
        part = self.text[at:at + column - self.column]
        self.column, self.units = column, self.units + len(part.encode('utf-16-le', 'surrogatepass')) // 2
        return max(self.units, 1)


def absolute(name):
    """A name as `path.resolve` of Node gives it."""
    try:
        return '/' + os.path.abspath(name).lstrip('/')
    except OSError:
        raise Wrong('the current folder is gone') from None


# ---- with the line

def width_of(text):
    """How many places a text takes on a terminal."""
    import unicodedata
    return sum(0 if unicodedata.combining(it) else 2 if unicodedata.east_asian_width(it) in 'WF' else 1 for it in text)


def painter(is_coloured):
    return (lambda code, text: f'\x1b[{code}m{text}\x1b[0m') if is_coloured else lambda code, text: text


def excerpt(found, line, paint):
    """The line of a report, cut around the place where it is long, and a mark below it; nothing where that is blank."""
    start = max(0, found.column - 1 - MOST_SHOWN // 2)
    # (GitHub's runner would take `##[` for a command)
    shown_part = lambda begin, end: escaped(line[begin:end].replace('\t', ' ')).replace('##[', '#\\x23[')
    last = len(line) + 1 if found.end and found.end[0] > found.line else found.end[1] if found.end else 0
    end = min(max(last, found.column + 1), start + MOST_SHOWN + 1)
    lead = ' ' * (width_of(shown_part(start, found.column - 1)) + bool(start))
    mark = '^' * max(1, width_of(shown_part(found.column - 1, end - 1)))
    part = shown_part(start, start + MOST_SHOWN)
    cut = f'{"…" if start else ""}{part}{"…" if len(line) > start + MOST_SHOWN else ""}'
    if not part.strip():
        return ''
    return f'{paint(2, f"{found.line:>5} | ")}{cut}\n{paint(2, "      | ")}{lead}{paint("32;1", mark)}\n'


def pretty(is_coloured):
    paint = painter(is_coloured)

    def form(name, outcome):
        seen, pieces = outcome.seen(), []
        lines = lines_of(outcome.text.decode(errors='replace')) if seen and outcome.text is not None else []
        for it in seen:
            kind = paint('33;1', it.rule) if it.rule else paint('36;1', 'note') if it.is_noted else paint('31;1', 'refused')
            mark = paint(2, MARK) if it.is_warning else ''
            pieces.append(f'{paint(1, shown(name))}:{it.line}:{it.column}: {kind} {escaped(it.text)}{mark}\n')
            line = lines[it.line - 1] if it.line <= len(lines) else ''
            pieces.append(excerpt(it, line, paint))
            if it.hint:
                pieces.append(f'      {paint(36, "perhaps:")} {it.hint}\n')
        return ''.join(pieces)

    return form
