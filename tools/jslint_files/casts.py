"""Pairs that TypeScript's checker takes for casts: `/** @type {T} */ (a)`, also with `@satisfies`. A tree has neither comments nor pairs, so the proved program
takes such a pair as it takes any other."""
import bisect
import re

from .checking import WORD
from .comments import comments

# The blanks and line ends of ECMA-262, in UTF-8.
BLANKS = re.compile(rb'(?:[\t\n\x0b\x0c\r ]|\xc2\xa0|\xe1\x9a\x80|\xe2\x80[\x80-\x8a\xa8\xa9\xaf]|\xe2\x81\x9f|\xe3\x80\x80|\xef\xbb\xbf)*')


def is_cast(comment):
    return comment.startswith(b'/**') and WORD.search(comment) is not None


def casts(text, pairs, tree):
    """Which of some pairs, by the bytes at which they begin, have a comment of a cast directly before them, or before other comments there."""
    found, behind = comments(text, tree), {}
    ends = [it[1] for it in found]

    def is_next_to(number, at):
        """Whether there are only blanks between a comment and a place. (one comment may be asked for many places)"""
        if number not in behind:
            behind[number] = BLANKS.match(text, ends[number]).end()
        return behind[number] == at

    def is_of_cast(at):
        number = bisect.bisect_right(ends, at) - 1
        while number >= 0 and is_next_to(number, at):
            at = found[number][0]
            if is_cast(text[at:ends[number]]):
                return True
            number -= 1
        return False

    return [it for it in pairs if is_of_cast(it)]


def opened(text, tree):
    """For each comment of a cast where the code behind it begins, and how many parentheses open there."""
    found, code_at, begins, count = comments(text, tree), len(text), None, {}

    def opened_at(at):
        if at not in count:
            end, number = at, 0
            while text[end:end + 1] == b'(':
                end, number = BLANKS.match(text, end + 1).end(), number + 1
            count[at] = number
        return count[at]

    openings = []
    for start, end in reversed(found):
        behind = BLANKS.match(text, end).end()
        code_at, begins = code_at if behind == begins else behind, start
        if is_cast(text[start:end]):
            openings.append((code_at, opened_at(code_at)))
    return openings[::-1]


def lost(text, tree, new, new_tree):
    """Where the first cast is that has fewer parentheses behind its comment in a new text, which has the same comments; None where there is none. (`unwrap` may
    take a pair that isn't reported, where one elsewhere does as well.)"""
    before, after = opened(text, tree), opened(new, new_tree)
    if len(before) != len(after):
        return before[0][0] if before else 0
    return next((at for (at, count), (_, left) in zip(before, after) if left < count), None)
