"""The files of the rules, rules/NAME.toml: with just one rule on, the program reports each text that its file calls wrong, and none that it calls right; and
what tools/rules writes and refuses, over a copy of what it reads.

Each test is a function that raises where something is wrong, and libraries.Skipped where it can't be tried. Its argument is a room: a folder of its own.
"""
import glob
import os
import re
import shutil
import subprocess
import sys

from libraries import Skipped
from recipes import TOP, is_well, same

sys.path.insert(0, f'{TOP}/tools')
from jslint_files.rule_table import ON  # noqa: E402
from rule_files import moot, reading  # noqa: E402

WORDS = {'base': [], '2022': ['--edition', '2022'], 'module': ['--module']}


def rules():
    if reading.tomllib is None:
        raise Skipped('there is no Python 3.11 here, which reads TOML')
    return reading.read_rules()


# ---- the texts, by the program

def checked(room, rule, text, option='', own=''):
    """What the program says of a text with just this rule on, and perhaps a setting, of the document or of the rule's own."""
    off = ''.join(f'{it} = false\n' for it in sorted(ON - {rule.name}))
    value = f'{{ severity = true, {own} }}' if own else 'true'
    room.put('s.toml', f'{option}[rules]\n{off}{rule.name} = {value}\n')
    room.put('a.js', text)
    return room.run(['jslint', 'check', *WORDS[rule.language], '--settings', 's.toml', 'a.js'])


def is_known(room, rule):
    """Whether the program has a rule of this name."""
    return checked(room, rule, '') != (2, '', 'jslint: bad settings\n')


def is_reported(rule, answer):
    """Whether an answer has reports, all of this rule; None where it is no such answer, nor one without any."""
    status, out, err = answer
    names = {it.split(' ')[1] for it in out.splitlines()}
    return None if err or (status, names) not in [(0, set()), (1, {rule.name})] else status == 1


def texts(room):
    """Of each rule that the program has: its wrong texts are reported, its right ones aren't."""
    known = [it for it in rules() if is_known(room, it)]
    is_well({it.name for it in known} >= ON, known)
    asked = [(rule, text, wish) for rule in known for wish, them in ((True, rule.wrong), (False, rule.right)) for text in them]
    answers = [(rule, text, wish, checked(room, rule, text)) for rule, text, wish in asked]
    same([(rule.name, text, answer) for rule, text, wish, answer in answers if is_reported(rule, answer) is not wish], [])


def refused(room):
    """Of each rule that finds nothing, its texts are refused, as scripts of both years and as modules."""
    for it in moot.read_moot():
        for text in it.refused:
            room.put('a.js', text)
            for words in WORDS.values():
                status, out, err = room.run(['jslint', 'check', *words, 'a.js'])
                is_well((status, out) == (2, '') and err.startswith(('jslint: syntax error', 'jslint: early error')), f'{it.name} {text} {err}')


def options(room):
    """The texts that are right with a setting aren't reported with it, and are without; those that are wrong with it the other way round."""
    asked = [(rule, it, text, is_wrong) for rule in rules() for it in rule.options for is_wrong, texts in ((False, it.right), (True, it.wrong)) for text in texts]
    is_well(len(asked) > 4, asked)
    answers = [(rule, it.key, text, is_wrong, checked(room, rule, text, '', it.beside), checked(room, rule, text, *said(it))) for rule, it, text, is_wrong in asked]
    same([it for it in answers if (is_reported(it[0], it[4]), is_reported(it[0], it[5])) != (not it[3], it[3])], [])


def said(option):
    """A setting with which its texts are tried: of the document, or of the table of its rule."""
    word = f'{option.key} = {option.tried}'
    return ('', ', '.join(filter(None, (option.beside, word)))) if option.schema else (f'{word}\n', '')


def mended(room):
    """The texts that `mend` changes become what their files say, and those that it leaves stay; all of them are reported. A changed text stays too."""
    found, asked = [], [(rule, *pair) for rule in rules() for pair in (*rule.mends, *((it, it) for it in rule.unmended))]
    is_well(len(asked) > 20, asked)
    for rule, before, after in asked:
        reported = is_reported(rule, checked(room, rule, before))
        for text in (before, after):
            room.put('a.js', text)
            answer = room.run(['jslint', 'mend', *WORDS[rule.language], '--settings', 's.toml', 'a.js'])
            found += [(rule.name, text, answer)] if (reported, answer) != (True, (0, after, '')) else []
    same(found, [])


def version_of(text):
    return [int(it) for it in text.split('.')]


def all_known(room):
    """The program has all rules but those of a later version; these can't be tried with it."""
    version = room.run(['jslint', '--version'])[1].split()[1]
    lacking = [it for it in rules() if not is_known(room, it)]
    same([it.name for it in lacking if version_of(it.since) <= version_of(version)], [])
    if lacking:
        raise Skipped(f'the program is {version}, and has no {", ".join(it.name for it in lacking)}')


def on_by_default(room):
    """Without settings those rules report their wrong texts whose files say so, and no others."""
    for rule in rules():
        room.put('a.js', rule.wrong[0])
        out = room.run(['jslint', 'check', *WORDS[rule.language], 'a.js'])[1]
        same(rule.name in {it.split(' ')[1] for it in out.splitlines()}, rule.on, rule.name)


# ---- tools/rules

RULE_LIST, RULE_NAMES, MODEL = 'crates/rules/src/rule_list.rt', 'crates/rules/specs/RuleNames.antt', 'tools/model/rule_sets.js'
KIND_SETS = 'crates/node_rules/src/kind_sets.rt'
FILES = ('README.md', 'CHANGELOG.md', 'tools/rules', 'tools/jslint_files/rule_table.py', MODEL, RULE_LIST, KIND_SETS, 'crates/mending/specs/Changes.antt')
FOLDERS = ('rules', 'docs', 'share', 'tools/rule_files')


def copied(room, name):
    """A copy of what tools/rules reads and writes, in a folder of the room."""
    rules()
    top = os.fsdecode(room.path(name))
    for it in FOLDERS:
        shutil.copytree(f'{TOP}/{it}', f'{top}/{it}')
    for it in [*FILES, *(os.path.relpath(it, TOP) for it in glob.glob(f'{TOP}/crates/*rules/specs/*.antt'))]:
        os.makedirs(os.path.dirname(f'{top}/{it}'), exist_ok=True)
        shutil.copy(f'{TOP}/{it}', f'{top}/{it}')
    return top


def contents(top):
    """Each file below a folder."""
    found = {}
    for at, _, names in os.walk(top):
        for it in names:
            with open(f'{at}/{it}', 'rb') as file:
                found[os.path.relpath(f'{at}/{it}', top)] = file.read()
    return found


def called(top, *words):
    ran = subprocess.run([sys.executable, f'{top}/tools/rules', *words], stdout=subprocess.PIPE, stderr=subprocess.PIPE, encoding='utf-8')
    return ran.returncode, ran.stdout, ran.stderr


def change(path, old, new):
    with open(path, encoding='utf-8') as file:
        text = file.read()
    is_well(old in text, f'{path}: {old}')
    with open(path, 'w', encoding='utf-8') as file:
        file.write(text.replace(old, new, 1))


def rewritten(room):
    """It changes nothing that is as it should be, and mends each place where a name is missing, byte for byte; --check names the file and its line."""
    top = copied(room, 'top')
    whole, count = contents(top), len(rules())
    same(called(top), (0, '', ''))
    same(called(top, '--check'), (0, f'tools/rules: {count} rules, 0 faults\n', ''))
    same(contents(top), whole)
    places = [it for it, text in whole.items() if b'no-inner-declarations' in text.replace(b'\\-', b'-') and not it.startswith(('rules/', 'crates/', 'CHANGELOG')) and it not in ('docs/rules/no-var.md', 'docs/DECISIONS.md')]
    is_well(len(places) > 8, places)
    for path in places:
        text = whole[path]
        for it in (b'no-inner-declarations', b'no\\-inner\\-declarations'):
            text = text.replace(it, b'no-such')
        with open(f'{top}/{path}', 'wb') as file:
            file.write(text)
        status, out, _ = called(top, '--check')
        is_well(status == 1 and re.search(rf'^{re.escape(path)}:[1-9]\d*: ', out, re.M), f'{path}: {status} {out}')
        same(called(top), (0, f'tools/rules: wrote {path}\n', ''))
        same(contents(top), whole)
    os.remove(f'{top}/docs/rules/no-var.md')
    same(called(top, '--check')[:2], (1, f'docs/rules/no-var.md: there is no such file\ntools/rules: {count} rules, 1 faults\n'))
    same((called(top)[0], contents(top)), (0, whole))


# What is changed in the file of no-extra-semi, and what is said of it.
MALFORMED = [
    ('summary =', 'sumary =', "there is no key 'sumary'"), ('summary =', 'sumary =', "'summary' is missing"), ('name = "no-extra-semi"', 'name = "no-semi"', "'name' is 'no-semi', and not that of the file"),
    ('set = "recommended"', 'set = "best"', "'set' is 'best': it takes nine, recommended, other"), ('set = "recommended"', 'set = "other"', "'set' is 'other', and 'eslint' is [8]"), ('eslint = [8]', 'eslint = [7]', "'eslint' takes 8 and 9"),
    ('eslint = [8]', 'eslint = "8"', "'eslint' is not an array"), ('on = false', 'on = true', "'on' is for the rules of the set 'nine'"), ('on = false', 'on = 0', "'on' is not true or false"), ('since = "2.4.0"', 'since = "2.4"', "'since' is '2.4', and no version"),
    ('fix = "mend"', 'fix = "all"', "'fix' is 'all': it takes none, unwrap, mend"), ('fix = "mend"', 'fix = "none"', "'changes' is for the rules whose 'fix' is 'mend', and each of them has it"),
    ('mends = [', 'mends = [["a"], ', "'mends' has pairs of texts: one that is reported, and what it becomes"), ('fix = "mend"', 'fix = "mend"\nlanguage = "2020"', "'language' is '2020': it takes base, 2022, module"), ('description = "', 'description = "A\\nB', "'description' has a line end"),
    ("    'a;;',\n", "    'a;;',\n    'a;;',\n", "'wrong': 'a;;' stands twice"), ("    'for (;;);',\n", "    'a;;',\n", "'a;;' is both wrong and right"), ("    'a;;',\n", "    '',\n", "'wrong': text 2 is not a string, is empty"), ("    'a;;',\n", '    1,\n', "'wrong': text 2 is not a string"),
    ("    'a;;',\n", "    'a[b](c);;',\n", "'wrong': 'a[b](c);;' has ']('"),
    ('fix = "mend"', 'fix = none', 'Invalid value (at line 6, column 7)'), ('wrong = [', 'name = "a"\nwrong = [', 'Cannot overwrite a value'),
]


def refused_files(room):
    """A file that isn't well is named with the key; the status is 2, and nothing is written, though there would be something to write."""
    top = copied(room, 'top')
    change(f'{top}/docs/rules/no-var.md', '# no-var', '# no-vars')
    file = f'{top}/rules/no-extra-semi.toml'
    with open(file, encoding='utf-8') as it:
        kept = it.read()
    for old, new, said in MALFORMED:
        change(file, old, new)
        whole = contents(top)
        for words in ([], ['--check']):
            status, out, err = called(top, *words)
            is_well((status, out) == (2, '') and any(it.startswith(f'rules/no-extra-semi.toml: {said}') for it in err.splitlines()), f'{new}: {status} {out} {err}')
        same(contents(top), whole, new)
        with open(file, 'w', encoding='utf-8') as it:
            it.write(kept)
    with open(file, 'wb') as it:
        it.write(b'name = "\xff"\n')
    change(f'{top}/rules/eqeqeq.toml', "right = [\n    'a == null;',\n    'null != a;',\n]", 'right = []')
    change(f'{top}/rules/no-empty.toml', 'value = "true"', 'valu = true')
    change(f'{top}/rules/no-var.toml', 'wrong = [', 'wong = [')
    status, out, err = called(top)
    same((status, out, [it.split(': ')[0] for it in err.splitlines()]), (2, '', [f'rules/{it}.toml' for it in ('eqeqeq', 'no-empty', 'no-empty', 'no-extra-semi', 'no-var', 'no-var')]), err)
    for said in ("'options', allow-null: 'right' is empty", "'options', allow-comments: there is no key 'valu'", "'wrong' is missing", 'utf-8'):
        is_well(said in err, f'{said}: {err}')
    shutil.rmtree(f'{top}/rules')
    same(called(top), (2, '', 'rules: there is no file of a rule\n'))


def refused_places(room):
    """Where a document has no one place for the rules, or a word makes no sense, nothing is written."""
    top = copied(room, 'top')
    change(f'{top}/docs/rules/no-var.md', '# no-var', '# no-vars')
    kept = contents(top)
    for path, old, new in [('README.md', '<!-- end of rules -->', ''), ('share/man/man1/jslint.1', '.\\" rules: ', '.\\" '), ('docs/USAGE.md', '<!-- rules: ', '<!-- rules: tools/rules writes this -->\n<!-- end of rules -->\n<!-- rules: '),
                           ('share/bash-completion/completions/jslint', 'local rules=', 'local names='), ('share/jslint/jslint.schema.json', '"rules": {', '"rule": {')]:
        change(f'{top}/{path}', old, new)
        whole = contents(top)
        status, out, err = called(top)
        is_well((status, out) == (2, '') and re.fullmatch(rf'{re.escape(path)}: there are [02] places for the rules, and not one\n', err), f'{path}: {status} {out} {err}')
        same(contents(top), whole, path)
        with open(f'{top}/{path}', 'wb') as file:
            file.write(kept[path])
    for words in (['--chek'], ['--check', 'README.md'], ['no-var']):
        same(called(top, *words)[:2], (2, ''), words)
    same(contents(top), kept)


def faults_of(top):
    status, out, _ = called(top, '--check')
    return status, out.splitlines()[:-1]


def unlike_crates(room):
    """A rule of the crates without a file, a file without a rule, a page without a file, a version or a setting that isn't there."""
    top = copied(room, 'top')
    rows = 'crates/node_rules/specs/Rows.antt'
    same(faults_of(top), (0, []))
    change(f'{top}/{rows}', '"for-direction"', '"no-such-rule"')
    status, found = faults_of(top)
    same((status, found[2:]), (1, [f'{rows}: no-such-rule has no rules/no-such-rule.toml', 'rules/for-direction.toml: no definition of the crates is called for-direction']))
    same([it.partition(':')[0] for it in found[:2]], [RULE_LIST, RULE_NAMES], found)
    shutil.copy(f'{TOP}/{rows}', f'{top}/{rows}')
    same(faults_of(top), (0, []))
    os.rename(f'{top}/rules/no-var.toml', f'{top}/rules/no-vars.toml')
    change(f'{top}/rules/no-vars.toml', 'name = "no-var"', 'name = "no-vars"')
    same(called(top)[0], 0)
    found = faults_of(top)
    said = [it.split(': ')[1] for it in found[1]]
    is_well(found[0] == 1 and {'there is no rules/no-var.toml', 'no-var has no rules/no-var.toml', 'no definition of the crates is called no-vars'} <= {*said}, said)
    change(f'{top}/rules/no-vars.toml', '"1.0.0"', '"1.0.9"')
    later = '99.0.0'
    change(f'{top}/rules/yoda.toml', '"2.5.0"', f'"{later}"')
    change(f'{top}/share/jslint/jslint.schema.json', '"allow-null"', '"allow-nil"')
    change(f'{top}/docs/rules/README.md', '| `allow-comments` | `true`', '| `allow-comment` | `true`')
    called(top)
    found = faults_of(top)[1]
    for it in ('rules/no-vars.toml: CHANGELOG.md has no version 1.0.9', 'rules/no-empty.toml: the table of settings in docs/rules/README.md has no allow-comments',
               'rules/eqeqeq.toml: the schema in share/jslint has no allow-null with this description: eqeqeq allows comparisons with the literal null'):
        is_well(it in found, f'{it}: {found}')
    refused = [f'rules/yoda.toml: CHANGELOG.md has no version {later}']
    with open(f'{top}/CHANGELOG.md', encoding='utf-8') as file:
        text = re.sub(r'^## Unreleased\n', '', file.read(), flags=re.M)
    for heading, said in [('## Unreleased\n', []), ('', refused)]:
        with open(f'{top}/CHANGELOG.md', 'w', encoding='utf-8') as file:
            file.write(heading + text)
        same([it for it in faults_of(top)[1] if later in it], said)


def another_set(room):
    """A rule that changes its set does so in code, in the definitions and in the model, and nothing else of these files changes."""
    top = copied(room, 'top')
    whole = contents(top)
    change(f'{top}/rules/no-extra-semi.toml', 'set = "recommended"', 'set = "other"')
    change(f'{top}/rules/no-extra-semi.toml', 'eslint = [8]', 'eslint = []')
    same(called(top)[0], 0)
    found, count = contents(top), sum(1 for it in rules() if it.eslint)
    lines = [(RULE_LIST, f'RECOMMENDED: [RuleName; {count}]', f'RECOMMENDED: [RuleName; {count - 1}]'), (RULE_LIST, '    RuleName::OnNodes(NodeRule::NoExtraSemi),\n', ''), (RULE_NAMES, '    ∷ OnNodes NoExtraSemi\n', '')]
    for path, old, new in lines:
        whole[path] = new.join(whole[path].decode().rsplit(old, 1)).encode()
    whole[MODEL] = whole[MODEL].replace(b"  'no-extra-semi',\n", b'', 1)
    for it in (RULE_LIST, RULE_NAMES, MODEL):
        same(found[it].decode(), whole[it].decode())
    same(faults_of(top), (0, []))


def sets_of_kinds(room):
    """The code of a set of kinds is that of its definition: on one line, on a line of its own, and a line for each kind; a definition of another form is named."""
    top, specs = copied(room, 'top'), 'crates/node_rules/specs/KindSets.antt'
    kinds, code = ['ContinueStatement', 'BreakStatement', 'ReturnStatement', 'ThrowStatement'], contents(top)[KIND_SETS].decode()
    arms = {1: '    matches!(kind, Kind::ContinueStatement)', 3: '    matches!(\n        kind,\n        Kind::ContinueStatement | Kind::BreakStatement | Kind::ReturnStatement\n    )',
            4: '    matches!(\n        kind,\n        Kind::ContinueStatement\n            | Kind::BreakStatement\n            | Kind::ReturnStatement\n            | Kind::ThrowStatement\n    )'}
    with open(f'{TOP}/{specs}', encoding='utf-8') as file:
        definitions = file.read()
    for count, body in arms.items():
        with open(f'{top}/{specs}', 'w', encoding='utf-8') as file:
            file.write(definitions + '\n-- `goto`\nabbrev pub goes : Kind → Bool\n' + ''.join(f'goes {it} = true\n' for it in kinds[:count]) + 'goes _ = false\n')
        same(called(top), (0, f'tools/rules: wrote {KIND_SETS}\n', ''))
        same(faults_of(top), (0, []))
        wanted = code.replace('gets_value, has_body', 'gets_value, goes, has_body') + f'\n/// Whether it is the kind of `goto`.\npub(crate) fn goes(kind: Kind) -> bool\n    ensures {{ result ≡ goes kind }}\n{{\n{body}\n}}\n'
        same(contents(top)[KIND_SETS].decode(), wanted)
    change(f'{top}/{specs}', 'goes _ = false', 'goes kind = is_if kind')
    same(called(top)[0], 0)
    same(faults_of(top), (1, [f'{specs}: goes is no set of kinds, with a comment, and a line for each kind']))


def new_rules(room):
    """CHANGELOG.md has a line on the rules that no version has, and keeps what else stands there."""
    top = copied(room, 'top')
    with open(f'{top}/CHANGELOG.md', encoding='utf-8') as file:
        head, _, versions = re.sub(r'^## Unreleased\n.*?(?=^## )', '', file.read(), flags=re.M | re.S).partition('## ')
    told = '- New rule, off without settings: `yoda` ([page](docs/rules/yoda.md)). ESLint doesn\'t recommend it.\n'
    both = '- New rules, off without settings: `use-isnan`, `yoda` ([pages](docs/rules/README.md)). `extends = "recommended"` turns `use-isnan` on, as ESLint does.\n'
    change(f'{top}/rules/yoda.toml', 'since = "2.5.0"', 'since = "99.0.0"')
    for before, after in [('', f'## Unreleased\n\n{told}\n'), ('## Unreleased\n\n- A.\n- B.\n\n', f'## Unreleased\n\n{told}- A.\n- B.\n\n'), ('## Unreleased\n\n- A.\n- New rule, off without settings: `a`.\n- B.\n\n', f'## Unreleased\n\n- A.\n{told}- B.\n\n')]:
        with open(f'{top}/CHANGELOG.md', 'w', encoding='utf-8') as file:
            file.write(f'{head}{before}## {versions}')
        is_well(any(it.startswith('CHANGELOG.md:') for it in faults_of(top)[1]))
        same(called(top)[0], 0)
        same(contents(top)['CHANGELOG.md'].decode(), f'{head}{after}## {versions}')
        same(faults_of(top), (0, []))
    change(f'{top}/rules/use-isnan.toml', 'since = "2.4.0"', 'since = "99.0.0"')
    same(called(top)[0], 0)
    same(contents(top)['CHANGELOG.md'].decode(), f'{head}## Unreleased\n\n- A.\n{both}- B.\n\n## {versions}')


def numbers_by_hand(room):
    """A number of rules in a document, in words or digits, but not in backticks, nor in CHANGELOG.md."""
    top = copied(room, 'top')
    texts = {'nine rules': True, 'the 26 rules': True, 'Twenty-six new\nrules': True, 'seventeen of the rules': True, '120 shipped rules': True, '`nine rules`': False, 'two rules': False, 'rules of 2022': False, 'the 11th edition has rules': False}
    for text, is_wrong in texts.items():
        with open(f'{top}/docs/GLOSSARY.md', 'a', encoding='utf-8') as file:
            file.write(f'\nOf {text} it is said.\n')
        status, found = faults_of(top)
        same((status, len(found)), (int(is_wrong), int(is_wrong)), f'{text}: {found}')
        is_well(not found or found[0].startswith('docs/GLOSSARY.md:') and found[0].endswith(': a number of rules, which no document says by hand'), found)
        shutil.copy(f'{TOP}/docs/GLOSSARY.md', f'{top}/docs/GLOSSARY.md')
    with open(f'{top}/CHANGELOG.md', 'a', encoding='utf-8') as file:
        file.write('\nnine rules\n')
    same(faults_of(top), (0, []))


TESTS = [texts, refused, options, mended, all_known, on_by_default, rewritten, refused_files, refused_places, unlike_crates, another_set, sets_of_kinds, new_rules, numbers_by_hand]
