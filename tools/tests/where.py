"""What `tools/where` says: each kind, production, rule, early error and command has a definition and code, at lines that exist, and an unknown name is refused."""
import os
import re
import subprocess

from recipes import TOP, is_well, same
from rule_texts import ON
from rule_files import checks


def lines_of(path):
    with open(f'{TOP}/{path}', encoding='utf-8') as file:
        return file.read().split('\n')


def call(*words):
    ran = subprocess.run([f'{TOP}/tools/where', *words], stdout=subprocess.PIPE, stderr=subprocess.PIPE, encoding='utf-8')
    return ran.returncode, ran.stdout, ran.stderr


def said(*names):
    """What is said of each of these names: by heading the texts under it."""
    status, out, err = call(*names)
    same((status, err), (0, ''), names)
    found, heading = {}, None
    for line in out.splitlines():
        head = re.match(r'(\S+): ', line)
        if head:
            found.setdefault(head[1], {'what': []})['what'].append(line)
            name = head[1]
        else:
            heading = line[:14].strip() or heading
            found[name].setdefault(heading, []).append(line[14:])
    return found


def variants(path, enum):
    text = '\n'.join(lines_of(path)).partition(f'pub enum {enum} {{')[2].partition('\n}')[0]
    return re.findall(r'^    (\w+),$', text, re.M)


def productions():
    """The productions of the standard's grammar that a row of docs/DEFINITIONS.md names, but for those that the profile leaves out."""
    standard = {it[1] for it in (re.match(r'(\w+)(?:\[.*\])? :', text) for text in lines_of('tools/standard/grammar/edition11.txt')) if it}
    cells = [text.split('|')[1] for text in lines_of('docs/DEFINITIONS.md') if text.startswith('| ') and '**left out**' not in text]
    return sorted(standard & {it for cell in cells for it in re.findall(r'[A-Z]\w+', cell)})


def each_name(_):
    # (a rule whose crate isn't here yet has no code)
    rules = sorted(checks.names_of_crates(TOP))
    is_well({*rules} >= ON, rules)
    commands = [it.lower() for it in variants('crates/commands/src/command.rt', 'Command')]
    errors = [f'E{it + 1}' for it in range(len(variants('crates/early_errors/src/lib.rt', 'EarlyError')))]
    names = [*variants('crates/tree/src/kind.rt', 'Kind'), *productions(), *rules, *commands, *errors, 'first_early_error', 'parser::parse']
    is_well(len(names) > 200, len(names))
    found = said(*names)
    same(sorted(found), sorted({*names}))
    for name, headings in found.items():
        for heading in ('definition', 'code', 'rows', 'edits'):
            is_well(headings.get(heading), f'{name}: no {heading}')
        for text in [*headings['definition'], *headings['code'], *headings.get('contract', [])]:
            at = re.match(r'(crates/\S+):(\d+)(?:  (\w+)|$)', text)
            is_well(at and lines_of(at[1])[int(at[2]) - 1].strip() or text.startswith('and '), f'{name}: {text}')


def a_kind(_):
    """The way of a kind from its production to the function that reads it, and the function's promise."""
    found = said('MetaProperty')['MetaProperty']
    at = next(re.match(r'(\S+):(\d+)  meta_property$', it) for it in found['code'] if it.endswith('  meta_property'))
    is_well(at[1] == 'crates/recursive_descent/src/primary.rt' and 'Kind::MetaProperty' in lines_of(at[1])[int(at[2]) - 1], at[0])
    is_well(any(re.search(r'primary\.rt:\d+  meta_property: ensures ', it) for it in found['contract']), found['contract'])
    is_well(any(re.fullmatch(r'crates/language/specs/Expressions\.antt:\d+  expressions', it) for it in found['definition']), found['definition'])
    is_well(found['production'][0].startswith('docs/DEFINITIONS.md:') and 'NewTarget' in found['production'][0], found['production'])
    is_well(re.search(r'\bviews \d', found['rows'][0]), found['rows'])


def a_word(_):
    """The word of a kind is its kind, or each that has it."""
    same(call('switch'), call('SwitchStatement'))
    same(call('class'), call('ClassExpression', 'ClassDeclaration'))


def an_unknown_name(_):
    status, out, err = call('MetaPropery')
    is_well(status == 2 and not out and err.startswith('tools/where: nothing is called MetaPropery: no kind, production, ') and ' MetaProperty' in err, err)
    same(err.count('\n'), 1)
    status, out, err = call()
    is_well(status == 2 and not out and 'tools/where NAME ..' in err, err)


TESTS = [each_name, a_kind, a_word, an_unknown_name]
