"""What ignore files say, as gitignore(5) has it: the last pattern that matches decides, and nothing below an ignored folder comes back.

git compares bytes, so `?` is one of them: texts and names have a character for each byte here (`in_bytes`). A repository may be a stranger's, so no pattern
takes longer than its length times the path's.
"""
import functools
import os
import re

# What a file may begin with, which is no part of its first pattern.
MARK = b'\xef\xbb\xbf'
CLASSES = {
    'alpha': 'A-Za-z', 'digit': '0-9', 'alnum': 'A-Za-z0-9', 'upper': 'A-Z', 'lower': 'a-z', 'space': r' \t\n\r', 'punct': r'!-/:-@\[-`{-~', 'xdigit': '0-9A-Fa-f',
    'blank': r' \t', 'cntrl': r'\x00-\x1f\x7f', 'print': r'\x20-\x7e', 'graph': r'\x21-\x7e',
}
PIECE = r'(?P<stars>\*+)|(?P<one>\?)|\\(?P<quoted>[\s\S])|\[(?P<not>[!^]?)(?P<set>\]?(?:\[:\w+:\]|\\[\s\S]|[^\]\\])*)\]|(?P<plain>[^\\[])'
# A run of stars in a segment, and a segment of two or more alone.
STAR, ANY = object(), object()


class Ending(str):
    """What a name ends in, behind a star."""


class Pattern:
    def __init__(self, segments, is_back, is_folder):
        self.segments, self.is_back, self.is_folder = segments, is_back, is_folder


def without_end(line):
    """A line without the blanks at its end, but for one behind a backslash."""
    line = line.removesuffix('\r')
    kept = re.match(r'(?:\\[\s\S]|[^\\ ]| +(?=[^ ]))*', line)[0]
    return line if line[len(kept):].strip(' ') else kept


def pattern_of(line):
    """A line's pattern; None for a blank line, a comment, and what matches nothing."""
    text = without_end(line)
    if not text or text.startswith('#'):
        return None
    is_back = text.startswith('!')
    text = text[1:] if is_back else text
    is_folder = text.endswith('/')
    text = text[:-1] if is_folder else text
    is_anchored = '/' in text
    text = text[1:] if text.startswith('/') else text
    segments = segments_of(text) if text else None
    if segments is None:
        return None
    return Pattern(segments if is_anchored else [ANY, [STAR] if segments[0] is ANY else segments[0]], is_back, is_folder)


@functools.cache
def piece():
    return re.compile(PIECE, re.S)


def segments_of(text):
    """The segments between slashes; None where a bracket, in which a slash is none, or a backslash never ends."""
    if not re.search(r'[*?\\[]', text):
        return text.split('/')
    found, at = [[]], 0
    while at < len(text):
        it = piece().match(text, at)
        if not it:
            return None
        at = it.end()
        # (one with a backslash before it is a slash, too)
        if (it['quoted'] or it['plain']) == '/':
            found.append([])
        else:
            found[-1].append(token_of(it))
    return [segment_of(it) for it in found]


def segment_of(tokens):
    """A segment as `ANY`, as a plain name, as what stands behind a star, or as stars and tests of one character."""
    if len(tokens) == 1 and tokens[0] is ANY:
        return ANY
    if all(isinstance(it, str) for it in tokens):
        return ''.join(tokens)
    if tokens[0] is STAR and all(isinstance(it, str) for it in tokens[1:]):
        return Ending(''.join(tokens[1:]))
    return [STAR if it is ANY else it.__eq__ if isinstance(it, str) else it for it in tokens]


def token_of(it):
    if it['stars']:
        return STAR if it['stars'] == '*' else ANY
    if it['one']:
        return lambda char: True
    return test_of(it['not'], it['set']) if it['set'] is not None else it['quoted'] or it['plain']


def test_of(is_not, text):
    source = re.sub(r'\[:(\w+):\]|\\([\s\S])|([\]\\^[])', lambda it: CLASSES.get(it[1], '') if it[1] else '\\' + (it[2] or it[3]), text)
    try:
        expression = re.compile(f'[{"^" if is_not else ""}{source}]', re.S)
    except re.error:
        return lambda char: False
    return lambda char: expression.fullmatch(char) is not None


def fits(tokens, name):
    """Whether a segment is a name: after a fault it goes on behind the last star alone."""
    if isinstance(tokens, str):
        return name.endswith(tokens) if isinstance(tokens, Ending) else tokens == name
    at, token, star, begun = 0, 0, -1, 0
    while at < len(name):
        if token < len(tokens) and tokens[token] is STAR:
            star, begun = token, at
            token += 1
        elif token < len(tokens) and tokens[token](name[at]):
            at, token = at + 1, token + 1
        elif star >= 0:
            begun += 1
            token, at = star + 1, begun
        else:
            return False
    return all(it is STAR for it in tokens[token:])


def matches(segments, names):
    """Whether segments are a path; at the end of a pattern `**` is one name or more, elsewhere none or more."""
    if len(segments) == 2 and segments[0] is ANY and segments[1] is not ANY:
        # (a pattern without a slash, as most are)
        return fits(segments[1], names[-1])
    if len(segments) != len(names) and not any(it is ANY for it in segments):
        return False
    # (reached[n]: the segments so far are the first n names)
    reached = [True] + [False] * len(names)
    for number, segment in enumerate(segments):
        further, is_last = [False] * len(reached), number + 1 == len(segments)
        for count in range(len(reached)):
            if segment is ANY:
                further[count] = (reached[count] and not is_last) or (count > 0 and (further[count - 1] or reached[count - 1]))
            elif count:
                further[count] = reached[count - 1] and fits(segment, names[count - 1])
        reached = further
    return reached[-1]


def in_bytes(text):
    """A name, or the bytes of an ignore file, as a text that has a character for each byte."""
    return (text if isinstance(text, bytes) else os.fsencode(text)).decode('latin-1')


def patterns_of(text):
    """The patterns of a file's bytes, the last first."""
    return [it for it in map(pattern_of, in_bytes(text.removeprefix(MARK)).split('\n')) if it][::-1]


def verdict(parts, is_folder, patterns_at):
    """What the nearest file that says anything says of a path whose folders aren't ignored, by its parts `in_bytes`. `patterns_at[n]` are those in the folder
    of the first n parts."""
    for depth in range(len(parts) - 1, -1, -1):
        names = parts[depth:] if patterns_at[depth] else ()
        for it in patterns_at[depth]:
            if (not it.is_folder or is_folder) and matches(it.segments, names):
                return not it.is_back
    return False
