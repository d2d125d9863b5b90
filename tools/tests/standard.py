"""tools/standard: the standard's own grammar beside the program. The rows' scripts and short strings of each alphabet, without a disagreement; slips that are
planted in the files of the grammar and of the profile, each of which a row or a string has to show; what is read by later editions; wrong words.

Each test is a function that raises where something is wrong, and Skipped where it can't be tried. Its argument is a room: a folder of its own.
"""
import importlib.machinery
import importlib.util
import os
import re
import shutil
import subprocess

import libraries
from recipes import is_well, same

TOP = os.path.dirname(os.path.dirname(os.path.dirname(os.path.realpath(__file__))))
FOLDER = f'{TOP}/tools/standard'
# How many strings of an alphabet at most, and the length of the rows' scripts that are taken.
FEW_STRINGS, SHORT = 2000, 100
# What is planted: the file, a text in it, and what stands in its place. Each is to be seen among the scripts of the rows, or among the strings of the alphabets.
GRAMMAR_SLIPS = [
    ('edition11', '    [+In] RelationalExpression[+In', '    RelationalExpression[+In'),
    ('edition11', 'LeftHandSideExpression[?Yield, ?Await] [no LineTerminator here] `++`', 'LeftHandSideExpression[?Yield, ?Await] `++`'),
    ('edition11', '`for` `(` [lookahead <! {`let` `[`}] Expression[~In, ?Yield, ?Await]?', '`for` `(` [lookahead <! {`let` `[`}] Expression[+In, ?Yield, ?Await]?'),
    ('edition11', '    UpdateExpression[?Yield, ?Await] `**`', '    UnaryExpression[?Yield, ?Await] `**`'),
    ('edition11', '`??` BitwiseORExpression', '`??` LogicalANDExpression'),
    ('edition11', '    [lookahead <! {`{`}] ExpressionBody[?In, ~Await]', '    ExpressionBody[?In, ~Await]'),
    ('edition11', '[lookahead <! {`{`, `function`,', '[lookahead <! {`{`,'),
    ('edition11', '[lookahead <! {`{`, `function`,', '[lookahead <! {`function`,'),
    ('edition11', 'ArrowParameters[?Yield, ?Await] [no LineTerminator here] `=>`', 'ArrowParameters[?Yield, ?Await] `=>`'),
    ('edition11', 'StatementList[?Yield, ?Await, +Return]?', 'StatementList[?Yield, ?Await, ~Return]?'),
    ('edition11', 'StatementList[~Yield, ~Await, ~Return]\n\n@15.2', 'StatementList[~Yield, ~Await, +Return]\n\n@15.2'),
    ('edition11', '    FormalParameter[~Yield, ~Await]\n', '    FormalParameters[~Yield, ~Await]\n'),
    ('edition11', '`extends` LeftHandSideExpression', '`extends` AssignmentExpression'),
    ('edition11', '`new` MemberExpression[?Yield, ?Await] Arguments', '`new` CallExpression[?Yield, ?Await] Arguments'),
    ('edition11', '`else` `enum` `export`', '`else` `export`'),
    ('edition11', '    `throw` [no LineTerminator here]', '    `throw`'),
    ('edition11', '    `return` [no LineTerminator here]', '    `return`'),
    ('edition11', '`of` AssignmentExpression[+In, ?Yield, ?Await] `)`', '`of` Expression[+In, ?Yield, ?Await] `)`'),
    ('edition11', '    `[` AssignmentExpression[+In, ?Yield, ?Await] `]`', '    `[` Expression[+In, ?Yield, ?Await] `]`'),
    ('edition11', '    TemplateHead Expression[+In', '    TemplateHead AssignmentExpression[+In'),
    ('edition11', '`while` `(` Expression[+In, ?Yield, ?Await] `)` `;`', '`while` `(` Expression[+In, ?Yield, ?Await] `)`'),
    ('edition11', '    `...` BindingIdentifier[?Yield, ?Await]\nBindingPropertyList', '    `...` BindingPattern[?Yield, ?Await]\nBindingPropertyList'),
    ('edition11', '    FormalParameterList[?Yield, ?Await] `,`\n', ''),
    ('edition11', '    `?.` `[` Expression', '    `?.` `[` AssignmentExpression'),
    ('edition11', '`?` AssignmentExpression[+In', '`?` AssignmentExpression[?In'),
    ('edition11', '    `super` `.` IdentifierName\n', ''),
    ('edition11', 'by ArrowFormalParameters', 'by ParenthesizedExpression'),
    ('edition11', 'TemplateLiteral[?Yield, ?Await, +Tagged]\n    SuperProperty', 'TemplateLiteral[?Yield, ?Await, ~Tagged]\n    SuperProperty'),
    ('edition11', '    `try` Block[?Yield, ?Await, ?Return] Catch[?Yield, ?Await, ?Return]\n', '    `try` Block[?Yield, ?Await, +Return] Catch[?Yield, ?Await, ?Return]\n'),
    ('edition12', '%set numeric-separators', '# '),
    ('edition12', '`&&=`', '`||=`'),
]
PROFILE_SLIPS = ['drop GeneratorExpression', 'drop GeneratorDeclaration', 'drop GeneratorMethod', 'drop AsyncFunctionExpression', 'drop AsyncFunctionDeclaration', 'drop AsyncMethod',
                 'drop AsyncArrowFunction', '%set slash-assign-counts-like-slash']
# Texts, whether they are scripts of the 13th edition, and whether modules.
LATER = [
    ('class A { #x = 1; static { } m() { return #x in this; } }', True, True), ('({ #x() {} })', False, False), ('for (async of a);', False, False),
    ('async function f() { for await (const a of b); }', True, True), ('class A { static { await; } }', False, False), ('function* g() { yield a; }', True, True),
    ('import a from "b"; export default a; await a;', False, True), ('export { a as "b" };', False, True), ('import.meta', False, True), ('a ||= b', True, True),
    ('with (a);', False, False), ('a: function f() {}', False, False), ('yield', False, False), ('async (a = await b) => a', False, False),
]


def load_run():
    loader = importlib.machinery.SourceFileLoader('standard_run', f'{FOLDER}/run')
    module = importlib.util.module_from_spec(importlib.util.spec_from_loader('standard_run', loader))
    loader.exec_module(module)
    return module


class Standard:
    """The program `standard`, with the scripts of the rows in a file."""

    def __init__(self, room):
        self.run = load_run()
        libraries.tool('make')
        try:
            self.program = self.run.build()
        except self.run.Unable as why:
            raise libraries.Skipped(str(why)) from None
        self.texts, self.grammar = f'{room.folder}/texts', f'{room.folder}/grammar'
        self.run.write_texts(self.texts, [it for it in self.run.row_texts() if len(it) < SHORT])
        shutil.copytree(f'{FOLDER}/grammar', self.grammar)

    def grammar_words(self, *files):
        return self.run.grammar_words(self.grammar, [f'{it}.txt' for it in files or ('edition11', 'edition12', 'profile')])

    def asked(self, words):
        out, status = self.run.ask(self.program, words)
        is_well(status in (0, 1), out[-1000:])
        return out, status

    def rows(self):
        return self.asked(['texts', *self.grammar_words(), self.texts])

    def alphabets(self, path, length):
        return self.asked(['enumerate', '--length', str(length), *self.grammar_words(), path])

    def planted(self, room, file, old, new):
        """Whether a row or a string shows a slip."""
        path = f'{self.grammar}/{file}.txt'
        with open(path, encoding='utf-8') as it:
            text = it.read()
        is_well(text.count(old) >= 1, f'{old!r} is not in {file}.txt')
        room.put(f'grammar/{file}.txt', text.replace(old, new))
        try:
            return bool(self.rows()[1] or self.alphabets(self.run.ALPHABETS, 3)[1])
        finally:
            room.put(f'grammar/{file}.txt', text)


def standard_agrees(room):
    """The scripts of the rows, and all strings of each alphabet up to a few thousand."""
    standard = Standard(room)
    out, status = standard.rows()
    found = standard.run.sums_of(out)
    is_well(status == 0 and found.texts > 2000 and found.accepted > 1000 and found.early > 100 and found.refused > 500 and not found.disagreements, out[-2000:])
    for name, pieces in standard.run.alphabets().items():
        length = standard.run.length_within(pieces, FEW_STRINGS)
        out, status = standard.asked(['enumerate', '--length', str(length), *standard.grammar_words(), standard.run.ALPHABETS, name])
        is_well(status == 0 and standard.run.sums_of(out).texts > pieces ** length, out[-2000:])


def standard_slips(room):
    """Each is seen."""
    standard = Standard(room)
    unseen = [it for it in GRAMMAR_SLIPS if not standard.planted(room, *it)]
    for line in PROFILE_SLIPS:
        with open(f'{FOLDER}/grammar/profile.txt', encoding='utf-8') as file:
            text = file.read()
        room.put('grammar/profile.txt', text.replace(f'{line}\n', ''))
        if not standard.alphabets(standard.run.LEFT_OUT, 0)[1]:
            unseen.append(line)
        room.put('grammar/profile.txt', text)
    is_well(not unseen, unseen)
    same((standard.rows()[1], standard.alphabets(standard.run.LEFT_OUT, 0)[1]), (0, 0))


def standard_editions(room):
    """What the 13th edition derives, by the choices for the language of 2022."""
    standard = Standard(room)
    path = standard.run.write_texts(f'{room.folder}/later', [it for it, _, _ in LATER])
    files = standard.grammar_words('edition11', 'edition12', 'edition12_rest', 'edition13', 'profile2022')
    for goal, at in (('Script', 1), ('Module', 2)):
        out, status = standard.asked(['derive', *files, '--goal', goal, path])
        same((status, out.split()), (0, ['once' if it[at] else 'refused' for it in LATER]), goal)
    out, _ = standard.asked(['size', *standard.grammar_words('edition11')])
    is_well(re.match(r'productions 186,', out), out)


def standard_clauses(room):
    """Each production has its clause, and each name in a production has one, or is a terminal of clause 11."""
    lexical = {'IdentifierName', 'NumericLiteral', 'StringLiteral', 'RegularExpressionLiteral', 'NoSubstitutionTemplate', 'TemplateHead', 'TemplateMiddle', 'TemplateTail',
               'PrivateIdentifier', 'ReservedWord'}
    known, used = set(), set()
    for name in ('edition11', 'edition12', 'edition12_rest', 'edition13'):
        clause = ''
        with open(f'{FOLDER}/grammar/{name}.txt', encoding='utf-8') as file:
            for line in file:
                clause = line if line.startswith('@') else clause
                head = re.match(r'\+?([A-Za-z]+)(?:\[[\w, ]+\])? :', line)
                if head:
                    is_well(re.match(r'@\d+(\.\d+)* [A-Z]', clause), f'{name}: {line}')
                    known.add(head[1])
                elif line.startswith(' '):
                    used |= set(re.findall(r'\b[A-Z]\w+', re.sub(r'`[^`]*`|\[[^\]]*\]', ' ', line)))
    is_well(len(known) > 186 and used <= known | lexical, sorted(used - known - lexical))


def standard_words(room):
    standard = Standard(room)
    room.put('bad.txt', 'A :\n    `a` )\n')
    room.put('no alphabet.txt', 'a 1 2\n')
    grammar = standard.grammar_words()
    for words in ([], ['size'], ['none', *grammar], ['size', '--grammar', f'{room.folder}/bad.txt'], ['size', '--grammar', '/missing'], ['size', '--grammar'], ['random', *grammar],
                  ['enumerate', *grammar, f'{room.folder}/no alphabet.txt'], ['enumerate', *grammar, standard.run.ALPHABETS, 'none'], ['random', '--most', 'x', *grammar, '1'],
                  ['texts', *grammar, f'{room.folder}/missing']):
        ran = subprocess.run([standard.program, *words], stdout=subprocess.PIPE, stderr=subprocess.PIPE, text=True)
        is_well(ran.returncode == 2 and ran.stderr.count('standard: ') >= 1, (words, ran))
    with open('/dev/full', 'w', encoding='utf-8') as full:
        same(subprocess.run([standard.program, 'size', *grammar], stdout=full, stderr=subprocess.PIPE).returncode, 2)


TESTS = [standard_agrees, standard_slips, standard_editions, standard_clauses, standard_words]
