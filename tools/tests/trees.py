"""tools/tree_checker: that it derives the trees of the rows and no forged one (tools/compare/trees.py); what it refuses of texts that are no scripts; what it does
with its words and files; and that slips in it are seen.

Each test is a function that raises where something is wrong. Its argument is a room: a folder of its own.
"""
import importlib.util
import json
import os
import subprocess
import sys

import rows
from recipes import block, is_well, same

TOP = os.path.dirname(os.path.dirname(os.path.dirname(os.path.realpath(__file__))))
CHECKER = f'{TOP}/tools/tree_checker'
# A language, a text that has a tree, a text of which that tree is none though each token stands at its place, and what of the tree is changed besides.
OTHERS = [
    ('base', 'x=(a,b)', 'x= a,b ', []), ('base', 'for((a in b);;);', 'for( a in b ;;);', []), ('base', 'x=(-a)**b', 'x= -a **b', []), ('base', 'x=(a??b)||c', 'x= a??b ||c', []),
    ('base', 'x=(a||b)??c', 'x= a||b ??c', []), ('base', 'x=a-(b-c)', 'x=a- b-c ', []), ('base', 'x=(a=>b)||c', 'x= a=>b ||c', []), ('base', 'x=(a?b:c)?d:e', 'x= a?b:c ?d:e', []),
    ('base', 'x=new (a())()', 'x=new  a() ()', []), ('base', 'x=(a?.b)()', 'x= a?.b ()', []), ('base', 'class A extends (a,b){}', 'class A extends  a,b {}', []),
    ('base', '({}).a', ' {} .a', []), ('base', 'x=()=>({})', 'x=()=> {} ', []), ('base', 'x=a ++', 'x=a\n++', []), ('base', 'x=() =>a', 'x=()\n=>a', []),
    ('base', 'function f(){return a}', 'function f(){return\na}', []), ('base', 'throw a', 'throw\na', []), ('base', 'a:for(;;)break a', 'a:for(;;)break\na', []),
    ('base', 'a;\n(b)', 'a \n(b)', [('body.0.end', 1)]), ('base', 'a;\n[b]', 'a \n[b]', [('body.0.end', 1)]), ('base', 'a;\n+b', 'a \n+b', [('body.0.end', 1)]),
    ('base', 'a;\n`b`', 'a \n`b`', [('body.0.end', 1)]), ('base', 'a; b', 'a  b', [('body.0.end', 1)]), ('base', 'if(a)b;else c', 'if(a)b else c', [('body.0.consequent.end', 6)]),
    ('base', 'if(a)if(b)c;else d', 'if(a)if(b)c;else d', [('body.0.alternate', '=body.0.consequent.alternate'), ('body.0.consequent.alternate', None), ('body.0.consequent.end', 12)]), ('base', 'x=a??(b||c)', 'x=a?? b||c ', []), ('base', 'import((a,b))', 'import( a,b )', []), ('base', 'x=yiela', 'x=yield', [('body.0.expression.right.name', 'yield')]), ('base', 'f(a,)', 'f(a))', []),
    ('base', '(a?.b)`c`', ' a?.b `c`', []), ('base', 'let [a]=b;', 'let [a]  ;', [('body.0.declarations.0.init', None), ('body.0.declarations.0.end', 7)]),
    ('base', '"use strict"', '"use strict"', [('body.0.directive', 'use')]), ('base', 'x={set a(b ){}}', 'x={set a(b,){}}', []), ('base', 'x=0xf', 'x=0xg', []), ('base', 'x=10', 'x=01', []),
    ('base', "x='\\x61'", "x='\\x6g'", []), ('base', 'x=`\\u0061`', 'x=`\\u006g`', []), ('base', 'x=/[/]/', 'x=/[/ /', []), ('base', '[...a ]=b', '[...a,]=b', []),
    ('2022', 'class A{a;*b(){}}', 'class A{a=*b(){}}', []), ('2022', 'class A{get;a(){}}', 'class A{get a(){}}', []), ('2022', 'class A{a=b;*c(){}}', 'class A{a=b\n*c(){}}', [('body.0.body.body.0.end', 11)]),
    ('2022', 'x=async ()=>a', 'x=async\n()=>a', []), ('2022', '(async function(){})', ' async function(){} ', []), ('2022', 'function*g(){yield a}', 'function*g(){yield\na}', []),
    ('2022', 'async()=>await a', '     ()=>await a', [('body.0.expression.async', False)]), ('2022', 'class A{get;[a](){}}', 'class A{get\n[a](){}}', [('body.0.body.body.0.end', 11)]),
    ('module', 'var a;export {a};from', 'var a;export {a}\nfrom', [('body.1.end', 16)]), ('module', 'export default (a,b)', 'export default  a,b ', []), ('module', 'import a,{b}from"c"', 'import a {b}from"c"', []),
    ('module', 'export default (class{}).a', 'export default  class{} .a', []), ('module', 'export default (function(){}).a', 'export default  function(){} .a', []),
]
# What is planted in the checker, one at a time: each has to be seen.
SLIPS = [
    ("if position == 'Coalesce'", "if position == 'None'"), ("return symbol in ('New', 'Member', 'Primary')", 'return True'), ("edge == ALL\n", 'False\n'), ("it.text in ('+', '-')", "it.text == '-'"),
    ("'*', 'in', 'instanceof')", "'in', 'instanceof')"), ("'Update' if operator == '**' else symbol, has_in", 'symbol, has_in'), ("or operator == 'in' and not has_in", ''),
    ('!{ !function !class &no_async_function expression', '!function !class &no_async_function expression'), ('!class &no_async_function expression', '!class expression'), ('return argument?< ^', 'return argument?<'),
    ('throw ^', 'throw'), ('break label?< ^', 'break label?<'), ('alternate!< !else >', ''), ("['!{', 'body:Assignment~']", "['body:Assignment~']"), ("['^', '=>',", "['=>',"), ('async?< async ^ > &arrow', 'async?< async > &arrow'),
    ('argument:Target ^ @operator', 'argument:Target @operator'), ('superClass:LeftHandSide', 'superClass:Expression'), ("'BitwiseOR'}.get(operator)", "'LogicalOR'}.get(operator)"), ('source:Assignment )', 'source:Expression )'),
    ("['!function', '!class',", "['!function',"), ("if node['source'] is None and self.sees('from')", "if False"), ("or self.sees('[')\n", '\n'), ('and not node[\'delegate\'] and it.after_break', 'and False'),
    ("fields <= node.keys() <= fields", 'fields <= node.keys()'), ("if node['end'] != self.at:", 'if False:'), ("node['start'] != self.next().start:", 'False:'), ("'params+Element' if kind == 'set'", "'params*Element' if kind == 'set'"),
    ("if name in RESERVED", "if False"), ("it.head == 'of' or kind_of", 'True or kind_of'),
]


def comparison():
    """tools/compare/trees.py, as a module."""
    spec = importlib.util.spec_from_file_location('compare_trees', f'{TOP}/tools/compare/trees.py')
    module = importlib.util.module_from_spec(spec)
    spec.loader.exec_module(module)
    return module


def at(tree, path):
    """What has the last field of a path, and that field."""
    *way, last = [int(it) if it.isdigit() else it for it in path.split('.')]
    for it in way:
        tree = tree[it]
    return tree, last


def put(tree, path, value):
    """Puts a value, or behind `=` that of another path."""
    node, last = at(tree, path)
    if isinstance(value, str) and value[0] == '=':
        other, field = at(tree, value[1:])
        value = other[field]
    node[last] = value


def moved(node, text, other):
    """Has a node begin and end beside the parentheses that the other text lacks."""
    while text[node['start']] == '(' and other[node['start']] == ' ':
        node['start'] += 1
    while text[node['end'] - 1] == ')' and other[node['end'] - 1] == ' ':
        node['end'] -= 1


def others(trees):
    """Each text of OTHERS with the tree that isn't its own, as JSON, and its language."""
    for language, text, other, changes in OTHERS:
        ran = subprocess.run([rows.PROGRAM, 'tree', *trees.LANGUAGES[language], '-'], input=text.encode(), stdout=subprocess.PIPE, stderr=subprocess.PIPE)
        is_well(ran.returncode == 0 and len(text) == len(other) and (changes or text != other), (text, ran.stderr))
        tree = json.loads(ran.stdout)
        for it in trees.nodes_of(tree):
            if it['type'] != 'Program':
                moved(it, text, other)
        for path, value in changes:
            put(tree, path, value)
        yield language, other, json.dumps(tree)


def tree_rows(room):
    """Texts of the rows, each fifth, and a forged tree for each tree."""
    trees = comparison()
    count, forged, wrong = trees.checker.with_room(lambda: trees.compare(trees.row_texts()[::5], 1, 1))
    is_well(count > 4000 and forged > 3500 and not wrong, (count, forged, wrong[:3]))


def tree_others(room):
    """Trees that each derive another text, token for token at the same places."""
    trees = comparison()
    found = list(others(trees))
    derived = [it for it in found if trees.checker.fault(it[1].encode(), it[2], it[0]) is None]
    is_well(len(found) > 40 and not derived, (len(found), derived[:3]))


def tree_slips(room):
    """Each is seen by a text of the rows whose tree doesn't derive any more, by a forged tree or by one of another text that does; and nothing where nothing is planted."""
    trees = comparison()
    unseen = trees.checker.with_room(lambda: unseen_slips(room, trees))
    is_well(not unseen, unseen)


def unseen_slips(room, trees):
    with open(CHECKER, encoding='utf-8') as file:
        text = file.read()
    own = [(language, it, told) for it in trees.row_texts()[::12] for language, words in trees.LANGUAGES.items() for told in [told_tree(it, words)] if told is not None]
    wrong = [(language, it.encode(), told) for language, it, told in others(trees)] + forged_trees(trees, own)
    unseen = []
    for old, new in [('', ''), *SLIPS]:
        is_well(not old or old in text, f'{old!r} is not in the checker')
        room.put('planted', text.replace(old, new) if old else text)
        planted = trees.load_checker(room.folder + '/planted')
        is_seen = any(planted.fault(it, told, language) is None for language, it, told in wrong) or any(planted.fault(it, told, language) is not None for language, it, told in own)
        unseen += [] if is_seen == bool(old) else [f'{old!r} as {new!r}']
    return unseen


def told_tree(text, words):
    ran = subprocess.run([rows.PROGRAM, 'tree', *words, '-'], input=text, stdout=subprocess.PIPE, stderr=subprocess.DEVNULL)
    return None if ran.returncode else ran.stdout.decode()


def forged_trees(trees, own):
    chance, found = trees.random.Random(7), []
    for language, text, told in own[::3]:
        tree = json.loads(told)
        forged = trees.forged(tree, chance)
        found += [(language, text, json.dumps(forged))] if trees.told(forged) != trees.told(tree) else []
    return found


def call(words, **how):
    return subprocess.run([sys.executable, CHECKER, *words], stdout=how.pop('stdout', subprocess.PIPE), stderr=subprocess.PIPE, text=True, **how)


def tree_words(room):
    """Its answers and refusals on the command line."""
    room.put('a b.js', 'a = "é" + b;\n')
    room.put('m.js', 'export default await 1;')
    room.put('tree', rows.command('tree', 'a = "é" + b;\n'.encode()).out)
    room.put('other', rows.command('tree', 'a = "é" - b;\n'.encode()).out)
    room.put('module', subprocess.run([rows.PROGRAM, 'tree', '--module', f'{room.folder}/m.js'], stdout=subprocess.PIPE, text=True, check=True).stdout)
    script, tree, other, module, of_module, missing = (f'{room.folder}/{it}' for it in ('a b.js', 'tree', 'other', 'm.js', 'module', 'missing'))
    ran = call([script, tree])
    same((ran.returncode, ran.stdout, ran.stderr), (0, 'derives\n', ''))
    ran = call([script, other])
    same((ran.returncode, ran.stdout, ran.stderr), (1, '', 'not derived: `-` is missing at byte 9\n'))
    same(call(['--module', module, of_module]).stdout, 'derives\n')
    is_well([call([*words, module, of_module]).returncode for words in ([], ['--edition', '2022'])] == [1, 1], 'a module is no script')
    room.put('deep.js', '!' * 590 + 'a')
    room.put('deep', rows.command('tree', b'!' * 590 + b'a').out)
    same(call([f'{room.folder}/deep.js', f'{room.folder}/deep']).stdout, 'derives\n')
    room.put('strange', '[1]')
    same(call([script, f'{room.folder}/strange']).returncode, 1)
    for given in ([], [script], [script, tree, tree], [script, script], [missing, tree], [script, missing], [room.folder, tree], ['--edition', '2020', script, tree]):
        ran = call(given)
        is_well(ran.returncode == 2 and not ran.stdout and ran.stderr and 'Traceback' not in ran.stderr, (given, ran))
    with open('/dev/full', 'w', encoding='utf-8') as full:
        same(call([script, tree], stdout=full).returncode, 2)


def tree_page(room):
    """The command of docs/USAGE.md."""
    room.put('d.js', '({}).a;\n')
    commands = block('Without trusting the prover', 'sh').replace('tools/table_checker', f'{TOP}/tools/table_checker').replace('tools/tree_checker', CHECKER)
    same(room.sh(commands), (0, 'derives\npairs 1 least 1\n', ''))


TESTS = [tree_rows, tree_others, tree_slips, tree_words, tree_page]
