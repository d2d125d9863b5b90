'use strict';
// What the plain model says of texts, as antt source for examples, in the words of crates/scopes/proofs/Trees.antt:
//   node scopes_of.js NAME TEXT [NAME TEXT]..
// The output is checked by the proofs of the examples, so nothing rests on this.

const { plainTree } = require('./model.js');
const { bare, quoted, term } = require('./tree_of.js');
const { parseOnly } = require('../model/parse.js');
const { resolve } = require('../model/scopes.js');

const KINDS = {
  var: 'Var',
  let: 'Let',
  const: 'Const',
  function: 'Function',
  class: 'Class',
  param: 'Param',
  catch: 'Catch',
  functionName: 'FunctionName',
  className: 'ClassName',
};
const list = (items) => items.map((x) => x + ' ∷ ').join('') + '[]';
const wordOf = (r) => (r.underTypeof ? 'Typeof' : r.reads && r.writes ? 'ReadWrite' : r.writes ? 'Write' : 'Read');

const words = new Set();
const out = [];
for (let i = 2; i + 1 < process.argv.length; i += 2) {
  const [name, text] = process.argv.slice(i, i + 2);
  const answer = parseOnly(text.replace(/\\n/g, '\n'));
  if (!answer.ok) throw new Error('refused: ' + text);
  const tree = bare(term(plainTree(answer.tree), words));
  const { scopes, references } = resolve(answer.tree);
  const at = new Map();
  scopes.forEach((s, n) => s.bindings.forEach((b, k) => at.set(b, [n, k])));
  const bindings = (s) => list(s.bindings.map((b) => `(codes ${quoted(b.name)}, ${(words.add(KINDS[b.kind]), KINDS[b.kind])}, ${b.start})`));
  const parent = (s) => (s.parent === null ? 'None' : `Some ${s.parent}`);
  out.push(`-- \`${text}\``, `abbrev ${name}_tree : Tree`, `${name}_tree = ${tree}`, '');
  out.push(
    `pub ${name}_scopes : scopes_shown ${name}_tree ≡ ${list(scopes.map((s) => `(${parent(s)}, ${bindings(s)})`))}`,
    'unfolding computing',
    `${name}_scopes = refl`,
    ''
  );
  out.push(
    `pub ${name}_references : references_shown ${name}_tree ≡ ${list(
      references.map((r) => {
        const m = r.binding === null ? null : at.get(r.binding);
        const w = wordOf(r);
        words.add(w);
        return `(${r.start}, ${r.scope}, ${w}, ${m === null ? 'None' : `Some (${m[0]}, ${m[1]})`})`;
      })
    )}`,
    'unfolding computing',
    `${name}_references = refl`,
    ''
  );
}
const FORMS = ['Get', 'Set', 'Method', 'Shorthand', 'Constructor'];
const OF_TREES = [
  'n',
  't',
  'id',
  'lit',
  'program',
  'st',
  'one',
  'two',
  'three',
  'formed',
  'computed',
  'optional',
  'static_one',
  'before',
  'directive',
  'short',
];
const OF_TREE = ['none', 'part', 'gap'];
const sorted = [...words].sort();
const kinds = sorted.filter(
  (w) => /^[A-Z]/.test(w) && !FORMS.includes(w) && !Object.values(KINDS).includes(w) && !['Read', 'Write', 'ReadWrite', 'Typeof'].includes(w)
);
const from = (module, names) => names.length > 0 && console.log(`use ${module}.{${names.join(', ')}}`);
console.log('-- Examples: scopes, what they declare, and what references mean.');
from('Rattle.std.specs.Prelude', ['◌≡◌', 'refl', '[]', '◌∷◌', 'Some', 'None', 'codes']);
from('Rattle.tree.specs.declared.kind.Kind.TheVariants', kinds);
from('Rattle.tree.specs.declared.kind.Form.TheVariants', sorted.filter((w) => FORMS.includes(w)));
from('Rattle.tree.specs.Tree', ['Tree', ...sorted.filter((w) => OF_TREE.includes(w))]);
from('Rattle.scopes.specs.declared.kind.BindingKind.TheVariants', sorted.filter((w) => Object.values(KINDS).includes(w)));
from('Rattle.scopes.specs.declared.roles.Role.TheVariants', sorted.filter((w) => ['Read', 'Write', 'ReadWrite', 'Typeof'].includes(w)));
from('Rattle.scopes.proofs.Trees', ['computing', 'scopes_shown', 'references_shown', ...sorted.filter((w) => OF_TREES.includes(w))]);
console.log('\n' + out.join('\n').trimEnd());
