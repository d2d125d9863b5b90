#!/usr/bin/env python3
"""Holds tools/tree_checker to `jslint tree`: each tree that is written derives, and no forged one does.

    tools/compare/trees.py [--forged N] [--seed N] [--fifth]                    # the texts of crates/cases/data, or each fifth of them
    tools/compare/trees.py [--forged N] [--seed N] --scripts N FOLDER ..        # so many files `*.js`, `*.mjs` and `*.cjs` below the folders, of at most 400,000 bytes

Each text is read in all three languages, and each tree of it gets N forged ones (1, else), each with one change. Status 1 where anything disagrees. JSLINT names
another program than that of `./jslint --program`.
"""
import argparse
import copy
import glob
import importlib.machinery
import importlib.util
import json
import os
import random
import subprocess
import sys

TOP = os.path.dirname(os.path.dirname(os.path.dirname(os.path.realpath(__file__))))
sys.dont_write_bytecode = True
sys.path.insert(0, f'{TOP}/tools/tests')
import rows

MOST_BYTES = 400000
LANGUAGES = {'base': [], '2022': ['--edition', '2022'], 'module': ['--module']}
WORDS = {'operator': '+ - * ** ?? || && = += in instanceof < ! ~ typeof ++ -- == ==='.split(), 'kind': 'var let const init get set method constructor'.split()}


def load_checker(path=f'{TOP}/tools/tree_checker'):
    """A checker as a module."""
    loader = importlib.machinery.SourceFileLoader('tree_checker', path)
    module = importlib.util.module_from_spec(importlib.util.spec_from_loader('tree_checker', loader))
    loader.exec_module(module)
    return module


checker = load_checker()


def nodes_of(tree):
    found, left = [], [tree]
    while left:
        it = left.pop()
        if isinstance(it, dict) and 'type' in it:
            found.append(it)
        left += it.values() if isinstance(it, dict) else it if isinstance(it, list) else []
    return found


def changed_list(value, nodes, chance):
    """A list with an item less, twice or elsewhere, or with a hole more."""
    if not value:
        return [copy.deepcopy(chance.choice(nodes))]
    at, found = chance.randrange(len(value)), list(value)
    how = chance.randrange(4)
    if how == 0:
        del found[at]
    elif how == 1:
        found.insert(at, copy.deepcopy(found[at]))
    elif how == 2:
        chance.shuffle(found)
    else:
        found.append(None)
    return found


def changed_value(name, value, nodes, chance):
    if isinstance(value, bool):
        return not value
    if isinstance(value, str):
        return chance.choice(WORDS.get(name) or [value + 'a', value[:-1], value.upper()])
    if value is None:
        return chance.choice([False, [], copy.deepcopy(chance.choice(nodes))])
    if isinstance(value, list):
        return changed_list(value, nodes, chance)
    return copy.deepcopy(chance.choice(nodes)) if chance.randrange(3) else None


def turned(node):
    """`(a + b) + c` as `a + (b + c)`, where both operators are of one kind of node."""
    left, right = node['left'], node['right']
    inner = {**left, 'left': left['right'], 'right': right, 'operator': node['operator'], 'start': left['right']['start'], 'end': right['end']}
    node.update(left=left['left'], right=inner, operator=left['operator'])


def forged(tree, chance):
    """A tree with one change: a place, a kind, a field's value, a field less or more, operands turned, branches exchanged, a chain around a node or not, another node."""
    tree = copy.deepcopy(tree)
    nodes = nodes_of(tree)
    node, how = chance.choice(nodes), chance.randrange(9)
    names = [it for it in node if it not in ('type', 'start', 'end')]
    parts = [it for it in names if isinstance(node[it], dict) and 'start' in node[it]]
    if how == 0:
        node[chance.choice(['start', 'end'])] += chance.choice([-1, 1, 2, -2])
    elif how == 1:
        node['type'] = chance.choice(sorted(checker.PRODUCTIONS))
    elif how == 2 and names:
        name = chance.choice(names)
        node[name] = changed_value(name, node[name], nodes, chance)
    elif how == 3 and names:
        del node[chance.choice(names)]
    elif how == 4:
        node[chance.choice(['directive', 'value', 'regex', 'extra', 'optional', 'id'])] = chance.choice([None, True, 'a', 1])
    elif how == 5 and {'left', 'right'} <= node.keys() and isinstance(node['left'], dict) and node['left']['type'] == node['type']:
        turned(node)
    elif how == 6 and {'consequent', 'alternate'} <= node.keys():
        node['consequent'], node['alternate'] = node['alternate'], node['consequent']
    elif how == 7 and parts:
        name = chance.choice(parts)
        part = node[name]
        node[name] = part['expression'] if part['type'] == 'ChainExpression' else {'type': 'ChainExpression', 'start': part['start'], 'end': part['end'], 'expression': part}
    else:
        other = copy.deepcopy(chance.choice(nodes))
        node.clear()
        node.update(other)
    return tree


def told(tree):
    return json.dumps(tree, sort_keys=True)


def of_text(text, forgeries, chance):
    """How many trees a text has, how many of them were forged, and what is wrong."""
    trees, count, wrong = 0, 0, []
    for language, words in LANGUAGES.items():
        ran = subprocess.run([rows.PROGRAM, 'tree', *words, '-'], input=text, stdout=subprocess.PIPE, stderr=subprocess.DEVNULL)
        if ran.returncode:
            continue
        trees += 1
        fault = checker.fault(text, ran.stdout, language)
        wrong += [f'{language} {text[:200]!r}: {fault}'] if fault else []
        tree = json.loads(ran.stdout)
        for it in (forged(tree, chance) for _ in range(forgeries)):
            if told(it) == told(tree):
                continue
            count += 1
            wrong += [] if checker.fault(text, json.dumps(it), language) else [f'{language} {text[:200]!r}: {told(it)[:1000]} derives']
    return trees, count, wrong


def row_texts():
    """All that may be a text in the rows."""
    found = set()
    for path in glob.glob(f'{TOP}/crates/cases/data/*'):
        if os.path.basename(path) in ('flat', 'mixes', 'limits'):
            continue
        with open(path, encoding='utf-8') as file:
            found.update(rows.meant(it).encode() for line in file for it in line.rstrip('\n').split('\t')[1:] if not it.startswith('{"') and '⟦' not in it)
    return sorted(found)


def scripts_below(folders, most):
    found = sorted({it for folder in folders for form in ('*.js', '*.mjs', '*.cjs') for it in glob.glob(f'{folder}/**/{form}', recursive=True)})
    random.Random(0).shuffle(found)
    texts = []
    for path in found:
        if len(texts) < most and os.path.isfile(path) and os.path.getsize(path) <= MOST_BYTES:
            with open(path, 'rb') as file:
                texts.append(file.read())
    return texts


def compare(texts, forgeries, seed):
    """The counts of trees and forged trees, and what is wrong."""
    chance, trees, count, wrong = random.Random(seed), 0, 0, []
    for text in texts:
        found = of_text(text, forgeries, chance)
        trees, count, wrong = trees + found[0], count + found[1], wrong + found[2]
    return trees, count, wrong


def main():
    parser = argparse.ArgumentParser(description=__doc__.split('\n')[0])
    parser.add_argument('--forged', type=int, default=1)
    parser.add_argument('--seed', type=int, default=1)
    parser.add_argument('--fifth', action='store_true')
    parser.add_argument('--scripts', nargs='+', metavar=('N', 'FOLDER'))
    given = parser.parse_args()
    program = os.environ.get('JSLINT') or subprocess.run([f'{TOP}/jslint', '--program'], stdout=subprocess.PIPE, text=True, check=True).stdout.strip()
    rows.begin(program)
    texts = scripts_below(given.scripts[1:], int(given.scripts[0])) if given.scripts else row_texts()[::5 if given.fifth else 1]
    trees, count, wrong = checker.with_room(lambda: compare(texts, given.forged, given.seed))
    print('\n'.join([*wrong[:50], f'{len(texts)} texts, {trees} trees, {count} forged, {len(wrong)} disagreements']))
    sys.exit(bool(wrong))


if __name__ == '__main__':
    main()
