"""Where a script has comments, by the places of the literals in its tree."""
import bisect
import re

# A literal that isn't a number, or a part of a template, in what `jslint tree` writes: where it ends, and where it begins.
JSON_STRING = rb'"[^"\\]*(?:\\.[^"\\]*)*"'
LITERAL = re.compile(
    rb'"end":(\d+),(?:"raw":%b,(?:"regex":\{"flags":%b,"pattern":%b\},)?)?"start":(\d+),(?:"tail":\w+,)?"type":"(?:Literal|TemplateElement)"'
    % (JSON_STRING, JSON_STRING, JSON_STRING)
)
COMMENT = re.compile(rb'/[/*]')
# What a script of 2022 may begin with.
FIRST_LINE = re.compile(rb'#!(?:[^\r\n\xe2]|\xe2(?!\x80[\xa8\xa9]))*')
COMMENT_END = {b'//': re.compile(rb'[\r\n]|\xe2\x80[\xa8\xa9]'), b'/*': re.compile(rb'\*/')}


def comments(text, tree):
    """Where the comments of a script begin and end, the line end of a `//` with it: at each `//` or `/*` that isn't inside a comment, nor begins in a literal
    or a template's text. A line of `#!` isn't counted."""
    literals = sorted((int(start), int(end)) for end, start in LITERAL.findall(tree))
    first = FIRST_LINE.match(text)
    starts, found, mark = [it[0] for it in literals], [], COMMENT.search(text, first.end() if first else 0)
    while mark:
        before, at = bisect.bisect_right(starts, mark.start()), mark.start()
        end = literals[before - 1][1] if before else 0
        if at >= end:
            close = COMMENT_END[mark[0]].search(text, at + 2)
            end = close.end() if close else len(text)
            found.append((at, end))
        mark = COMMENT.search(text, end)
    return found
