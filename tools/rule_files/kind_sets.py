"""The code of the sets of kinds of `node_rules`, which says what their definitions say: a function for each."""
import re

SPECS, CODE = 'crates/node_rules/specs/KindSets.antt', 'crates/node_rules/src/kind_sets.rt'
# A definition: a comment, its type, and a line for each kind that is in the set.
SET = re.compile(r'^-- (.+)\nabbrev pub (\w+) : Kind → Bool\n((?:\2 \w+ = true\n)+)\2 _ = false$', re.M)
# What stands in front of the functions: it stays, but for the names of the definitions.
HEAD = re.compile(r'^(.*?^ghost use Rattle\.node_rules\.specs\.KindSets\.\{)[^}]*(\};$.*?^use tree::Kind;\n)', re.M | re.S)
# A function that is there, with its comment, which stays too.
WRITTEN = re.compile(r'^/// (.+)\npub\(crate\) fn (\w+)\(', re.M)
FUNCTION = '''
/// {told}
pub(crate) fn {name}(kind: Kind) -> bool
    ensures {{ result ≡ {name} kind }}
{{
    {body}
}}
'''
# The most columns of the arguments of a call on one line, and of a line.
MOST_ARGUMENTS, MOST = 60, 100


def body(kinds):
    """The test, as `rattle fmt` lays it out."""
    words = [f'Kind::{it}' for it in kinds]
    on_a_line = ' | '.join(words)
    if len(f'kind, {on_a_line}') <= MOST_ARGUMENTS:
        return f'matches!(kind, {on_a_line})'
    arms = on_a_line if len(on_a_line) + 8 <= MOST else '\n            | '.join(words)
    return f'matches!(\n        kind,\n        {arms}\n    )'


def kind_sets(definitions, code):
    """src/kind_sets.rt, of which the code so far gives the head and the comments of the functions that are there."""
    head, told = HEAD.match(code), {name: comment for comment, name in WRITTEN.findall(code)}
    if not head:
        return code
    found = [(name, f'Whether it is the kind of {comment}.', re.findall(r'^\w+ (\w+) = true$', lines, re.M)) for comment, name, lines in SET.findall(definitions)]
    names = ', '.join(sorted(name for name, _, _ in found))
    return head[1] + names + head[2] + ''.join(FUNCTION.format(told=told.get(name, new), name=name, body=body(kinds)) for name, new, kinds in found)


def unread(definitions):
    """Definitions that aren't sets of kinds as these are."""
    known = {name for _, name, _ in SET.findall(definitions)}
    return [it for it in re.findall(r'^abbrev pub (\w+) : ', definitions, re.M) if it not in known]
