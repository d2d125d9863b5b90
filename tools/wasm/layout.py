"""Refuses a module whose meaning would change if a pointer had 4 bytes in place of 8.

LLVM lays out a value by its type. Code that was made for pointers of 8 bytes has its offsets and sizes written out, but wherever a type with a
pointer in it says how much memory a value takes, or where a part of it lies, LLVM would count 4 bytes for that pointer. retarget.py rewrites some of
these places. `check` looks at every line of what it made, and raises Unknown at

- a `getelementptr` that isn't over `i8`, also in a constant;
- a load, a store, or an `alloca` of a type that holds a pointer (a load or a store of one pointer alone takes the low half of its 8 bytes, and may stand);
- a parameter that is handed by a copy in memory (`byval` and the like), or that names the type of such memory (`sret`), where the type holds a pointer;
- a global whose pointers aren't each followed by 4 more bytes, or that has the number of an address;
- a function that the module doesn't define, or that it shows to others, with a value of several parts, one of which is a pointer;
- pointers that are compared with a sign, made of numbers, or of another address space;
- and any line, instruction or type that isn't known here.

What isn't in memory has no layout: an instruction may take or give a value of several parts (`extractvalue`, `phi`, `ret`), and a function of the
module may hand one to another. Types are looked up by their names, so `%T` holds a pointer where its definition does.
"""
import re

TOKEN = re.compile(r'[%@$!#^c]?"[^"]*"|[%@$!#^]?[\w.$-]+|<\{|\}>|\S')
NAME = r'(?:[%@]"[^"]*"|[%@][\w.$-]+)'
SCALARS = {'void', 'half', 'bfloat', 'float', 'double'}
CLOSING = {'[': ']', '<': '>', '{': '}', '<{': '}>', '(': ')'}
# Instructions that don't depend on a layout, or on which `Layout.instruction` says more.
KNOWN = set('''
    add sub mul udiv sdiv urem srem shl lshr ashr and or xor fadd fsub fmul fdiv frem fneg icmp fcmp select phi freeze br switch ret unreachable
    extractvalue insertvalue extractelement insertelement shufflevector trunc zext sext fptrunc fpext fptoui fptosi uitofp sitofp bitcast ptrtoint
    call load store alloca getelementptr
'''.split())
# Words that may stand nowhere in a function or in a global.
REFUSED = {'inttoptr', 'ptrtoaddr', 'addrspace', 'blockaddress', 'asm', 'va_arg', 'vscale'}
# Attributes of parameters that name the type of the memory behind a pointer.
OF_MEMORY = {'byval', 'byref', 'sret', 'inalloca', 'preallocated', 'elementtype'}
LINKAGE = {'private', 'internal', 'external', 'hidden', 'dso_local', 'unnamed_addr', 'local_unnamed_addr'}
# Lines outside functions that say nothing of a layout.
OTHER = re.compile(r';|source_filename = |target (triple|datalayout) = |attributes #|!|$|%(\S+|"[^"]*") = type ')
LABEL = re.compile(r'("[^"]*"|[\w.$-]+):( *;.*)?$')
# The further lines of a `switch`.
CASES = re.compile(rf'    i\d+ -?\w+, label {NAME}$|  \]$')


class Unknown(Exception):
    """What stands in a module in a form that isn't known."""


def tokens_of(line):
    """The words, names, texts and signs of a line, up to a comment."""
    found = TOKEN.findall(line)
    return found[:found.index(';')] if ';' in found else found


class Types:
    """The types of a module."""

    def __init__(self, lines):
        found = filter(None, (re.match(r'(%"[^"]*"|%[\w.$-]+) = type (.*)', it) for it in lines))
        self.named = {it[1]: tokens_of(it[2]) for it in found}

    def read(self, tokens, at):
        """Whether the type that begins at this token holds a pointer, and where it ends."""
        first, *rest = [*tokens[at:at + 3], '', '', '']
        if first == 'ptr':
            return True, at + 1
        if first in SCALARS or re.fullmatch(r'i\d+', first):
            return False, at + 1
        if first in self.named:
            return self.read(self.named[first], 0)[0], at + 1
        if first in ('{', '<{'):
            parts, end = self.parts(tokens, at)
            return any(holds for holds, _ in parts), end
        if first not in ('[', '<') or not rest[0].isdigit() or rest[1] != 'x':
            raise Unknown(f'the type {" ".join([first, *rest]).strip()}')
        holds, end = self.read(tokens, at + 3)
        if tokens[end:end + 1] != [CLOSING[first]]:
            raise Unknown(f'the type {" ".join(tokens[at:end + 1])}')
        return holds, end + 1

    def parts(self, tokens, at):
        """Of each part of the struct that begins at this token whether it holds a pointer, and its tokens; and where the struct ends."""
        found, close, at = [], CLOSING[tokens[at]], at + 1
        while tokens[at:at + 1] != [close]:
            holds, end = self.read(tokens, at)
            found.append((holds, tokens[at:end]))
            at = end + (tokens[end:end + 1] == [','])
        return found, at + 1


def group_end(tokens, at):
    """Where the parentheses end that open at this token."""
    depth = 0
    for end in range(at, len(tokens)):
        depth += (tokens[end] in CLOSING) - (tokens[end] in CLOSING.values())
        if depth == 0:
            return end + 1
    raise Unknown('parentheses that stay open')


class Layout:
    """Goes through the lines of a module."""

    def __init__(self, lines):
        self.types, self.is_within = Types(lines), False

    def line(self, line):
        if self.is_within:
            self.is_within = line != '}'
            if self.is_within and line and not LABEL.match(line) and not CASES.match(line):
                self.instruction(tokens_of(line))
        elif line.startswith('@'):
            self.constant(tokens_of(line))
        elif line.startswith(('declare ', 'define ')):
            self.function(tokens_of(line))
            self.is_within = line.startswith('define ')
        elif not OTHER.match(line):
            raise Unknown('a line')

    def words(self, tokens):
        """What may stand nowhere, and the words that name a type wherever they stand."""
        for at, word in enumerate(tokens):
            if word in REFUSED:
                raise Unknown(f'`{word}`')
            if word == 'getelementptr':
                self.offset(tokens, at + 1)
            if word in OF_MEMORY and tokens[at + 1:at + 2] == ['('] and self.types.read(tokens, at + 2)[0]:
                raise Unknown(f'`{word}` of a type that holds a pointer')

    @staticmethod
    def offset(tokens, at):
        """The type of a `getelementptr` is i8."""
        while tokens[at] in ('inbounds', 'nusw', 'nuw', 'inrange'):
            at = group_end(tokens, at + 1) if tokens[at] == 'inrange' else at + 1
        at += tokens[at] == '('
        if tokens[at:at + 2] != ['i8', ',']:
            raise Unknown('a `getelementptr` that is not over `i8`')

    def instruction(self, tokens):
        self.words(tokens)
        at = 2 if tokens[1:2] == ['='] else 0
        at += tokens[at] in ('tail', 'musttail', 'notail')
        name, at = tokens[at], at + 1
        if name not in KNOWN:
            raise Unknown(f'the instruction `{name}`')
        if name == 'icmp':
            self.comparison(tokens, at)
        if name in ('load', 'store', 'alloca'):
            self.memory(name, tokens, at)

    def comparison(self, tokens, at):
        is_signed = tokens[at].startswith('s')
        at += tokens[at] == 'samesign'
        if is_signed and self.types.read(tokens, at + 1)[0]:
            raise Unknown('pointers that are compared with a sign')

    def memory(self, name, tokens, at):
        """A load, a store or an `alloca`: of one pointer, or of a type that holds none."""
        while tokens[at] in ('atomic', 'volatile'):
            at += 1
        is_pointer = tokens[at] == 'ptr' and name != 'alloca'
        if not is_pointer and self.types.read(tokens, at)[0]:
            raise Unknown(f'{"an" if name == "alloca" else "a"} `{name}` of a type that holds a pointer')

    def constant(self, tokens):
        """A global: no pointers, or a packed struct in which each is followed by 4 more bytes."""
        self.words(tokens)
        at = next((it for it, word in enumerate(tokens) if word in ('global', 'constant')), None)
        if at is None or not LINKAGE.issuperset(tokens[2:at]):
            raise Unknown('a global')
        if 'ptrtoint' in tokens:
            raise Unknown('a global that has an address as a number')
        if not self.types.read(tokens, at + 1)[0]:
            return
        parts = self.types.parts(tokens, at + 1)[0] if tokens[at + 1] == '<{' else [(True, [])]
        for (is_held, part), (_, behind) in zip(parts, [*parts[1:], (False, [])]):
            if is_held and (part, behind) != (['ptr'], ['[', '4', 'x', 'i8', ']']):
                raise Unknown('a global of a type that holds a pointer')

    def function(self, tokens):
        """The head of a function. One that others call, or that others define, has only parts that all compilers hand alike."""
        self.words(tokens)
        if tokens[0] == 'define' and tokens[1] in ('internal', 'private'):
            return
        name = next(it for it, word in enumerate(tokens) if word.startswith('@'))
        if re.match(r'@"?llvm\.va_', tokens[name]) or '...' in tokens:
            raise Unknown('a function with any number of parameters')
        at = 1
        while not self.is_type(tokens[at]):
            at = group_end(tokens, at + 1) if tokens[at + 1] == '(' else at + 1
        self.handed(tokens, at)
        at, end = name + 2, group_end(tokens, name + 1)
        while at < end - 1:
            at = self.handed(tokens, at)
            while at < end - 1 and tokens[at] != ',':
                at = group_end(tokens, at) if tokens[at] == '(' else at + 1
            at += 1

    def is_type(self, word):
        return word in self.types.named or word in SCALARS or word in ('ptr', '[', '<', '{', '<{') or re.fullmatch(r'i\d+', word)

    def handed(self, tokens, at):
        """A parameter or a result that others hand or take. Answers where its type ends."""
        holds, end = self.types.read(tokens, at)
        if holds and tokens[at] != 'ptr':
            raise Unknown('a function of others with a type that holds a pointer')
        return end


def check(text):
    """Raises Unknown at the first line of a module that isn't known to mean the same."""
    lines = text.split('\n')
    layout, line = Layout(lines), ''
    try:
        for line in lines:
            layout.line(line)
    except (Unknown, IndexError, StopIteration) as what:
        told = what if isinstance(what, Unknown) else 'a form that is not known'
        raise Unknown(f'{told}, in the line: {line.strip()[:300]}') from None
