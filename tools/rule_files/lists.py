"""The lists of rules in the crate `rules`, in code and in definitions, and in the model."""
import os
import re
from dataclasses import dataclass

from .files import TOP, read, specs_of_rules

RULE_LIST, RULE_NAMES = 'crates/rules/src/rule_list.rt', 'crates/rules/specs/RuleNames.antt'


@dataclass(frozen=True)
class Variant:
    """A rule in code: its variant, and that of `RuleName` which holds it with its type, or none."""
    name: str
    crate: str
    holder: str
    type: str

    def in_code(self):
        return f'RuleName::{self.holder}({self.type}::{self.name})' if self.holder else f'RuleName::{self.name}'

    def in_definitions(self):
        return f'{self.holder} {self.name}'.strip()


def holders(top=TOP):
    """The variants of `RuleName` that hold rules of another crate, by that crate: the variant and the type."""
    text = read(RULE_LIST, top) or ''
    crates = dict(it[::-1] for it in re.findall(r'^use (\w+)::(\w+);$', text, re.M))
    return {crates[type_]: (name, type_) for name, type_ in re.findall(r'^    (\w+)\((\w+)\),$', text, re.M) if type_ in crates}


def variants(top=TOP):
    """The rules of the crates' definitions by their names."""
    found, known = {}, holders(top)
    for path in specs_of_rules(top):
        crate = path.split(os.sep)[1]
        for variant, name in re.findall(r'^called (\w+) = codes "([\w-]+)"', read(path, top), re.M):
            found[name] = Variant(variant, crate, *known.get(crate, ('', '')))
    return found


def sets(rules):
    """The rules of each set but `none`, by its name."""
    return {'nine': [it for it in rules if it.on], 'recommended': [it for it in rules if it.eslint], 'all': rules}


def listed(name, rules, top=TOP):
    """The rules of a set as the crates know them: a file without a rule is left out, and another check names it."""
    known = variants(top)
    return [known[it.name] for it in sets(rules)[name] if it.name in known]


def in_code(name, top=TOP):
    """What makes a list of `rule_list.rt` for a set, behind the type of its elements: its length, and a line each."""
    def made(rules, _):
        found = listed(name, rules, top)
        return f'{len(found)}] = [\n' + ''.join(f'    {it.in_code()},\n' for it in found)
    return made


def in_definitions(name, top=TOP):
    """What makes a list of `RuleNames.antt` for a set."""
    return lambda rules, _: ''.join(f'    {"∷ " * (at > 0)}{it.in_definitions()}\n' for at, it in enumerate(listed(name, rules, top)))


def imported(crate, top=TOP):
    """What makes the names of a crate's variants, as they are imported."""
    return lambda rules, _: ', '.join(it.name for it in listed('all', rules, top) if it.crate == crate)


def array(name, names):
    """A list of names in JavaScript, as `jslint format` lays it out in 160 columns."""
    line = f"const {name} = [{', '.join(map(repr, names))}];\n"
    return line if len(line) <= 161 else f'const {name} = [\n' + ''.join(f'  {it!r},\n' for it in names) + '];\n'


def model(rules, moot):
    """tools/model/rule_sets.js"""
    found = {name.upper(): [it.name for it in them] for name, them in sets(rules).items()} | {'MOOT': [it.name for it in moot]}
    told = "'use strict';\n// The rules by their sets, and the names that do nothing. tools/rules writes this file.\n\n"
    return told + '\n'.join(array(*it) for it in found.items()) + f"\nmodule.exports = {{ {', '.join(found)} }};\n"
