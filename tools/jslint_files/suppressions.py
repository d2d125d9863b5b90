"""Comments that turn a report off: `// jslint-disable-next-line RULE, RULE` and `// jslint-disable-line RULE`.

The program knows no such comments, and its answer is the same with and without them: here reports are marked. Whether such words are a comment, and not a
part of a string or a template, is asked of the proved calls: `fix` drops comments, so other words in their place leave the fixed text as it is exactly if
they stand in one. `no-extra-parens` isn't turned off, since `unwrap` and `fix` would take the pair all the same.
"""
import bisect
import collections
import re

from .outcomes import LINE_END, Found
from .rule_table import RULES

WORDS = re.compile(r'//[^\S\n\r\u2028\u2029]*jslint-disable-(next-line|line)(?![\w-])([^\n\r\u2028\u2029]*)')
KEPT = 'no-extra-parens'
# How many comments are tried one by one, where not all are some.
MOST_TRIED = 100


class Directive:
    """A comment: its place, the line that it is about, the rules that it names, or None for all, and the reason behind `--`."""

    def __init__(self, match, starts):
        """`starts` are where the lines of the text begin."""
        named, _, reason = match[2].partition('--')
        names = [it for it in re.split(r'[\s,]+', named) if it]
        self.reason = reason.lstrip('-').strip()
        self.line = bisect.bisect_right(starts, match.start())
        self.column = match.start() - starts[self.line - 1] + 1
        self.about, self.names, self.is_used = self.line + (match[1] == 'next-line'), set(names) or None, False

    def turns_off(self, found):
        """Whether it is about a report of its line."""
        return bool(found.rule) and found.rule != KEPT and (self.names is None or found.rule in self.names)

    def faults(self):
        """What is to be said of the comment itself."""
        unknown = sorted((self.names or set()) - set(RULES))
        said = [f"'{it}' is no rule" for it in unknown]
        if KEPT in (self.names or ()):
            said.append(f'{KEPT} is not turned off: fix and unwrap take the pair all the same')
        elif not self.is_used and not unknown:
            said.append('this comment turns no report off')
        return [Found(self.line, self.column, 'suppression', it) for it in said]


def directives(text, fixed):
    """The comments of a script that turn reports off. `fixed` gives what stands for the fixed text of one, or None where that is refused."""
    matches = list(WORDS.finditer(text))
    if not matches:
        return []
    before = fixed(text)
    if before is None:
        return []

    def are_comments(some):
        pieces, at = [], 0
        for it in some:
            pieces += [text[at:it.start()], '//' + '-' * (it.end() - it.start() - 2)]
            at = it.end()
        return fixed(''.join(pieces) + text[at:]) == before

    if not are_comments(matches):
        matches = [it for it in matches[:MOST_TRIED] if are_comments([it])]
    starts = [0, *(it.end() for it in LINE_END.finditer(text))]
    return [Directive(it, starts) for it in matches]


def suppressed(found, text, fixed):
    """The reports, those that a comment turns off marked, and one more for each comment that does nothing or names no rule."""
    asked, at_line = directives(text, fixed), collections.defaultdict(list)
    for it in asked:
        at_line[it.about].append(it)
    for it in found:
        for directive in at_line.get(it.line, ()):
            if directive.turns_off(it):
                it.reasons, directive.is_used = [*it.reasons, *([] if directive.reason in it.reasons else [directive.reason])], True
    more = [fault for it in asked for fault in it.faults()]
    return sorted(found + more, key=lambda it: (it.line, it.column)) if more else found
