'use strict';
// Holds the definitions of the languages against the model:
//   node --stack-size=20000 languages.js [--sections A,B] [--mutants N] [--trees N] [--seed S] [--jobs I/K] [--bare] [--early] [--tokens] [--brief]
// The rows are those of `editions` and `early` in crates/cases/data (of the sections alone, the comments there; those of `early` are the section
// `early`). --bare looks at derivations and early errors alone, not at fixed texts; --early at early errors alone; --tokens at the tokens too, of
// texts of at most 30 characters. --brief prints no counts.
// Exit status 1 where anything disagrees. plant_languages.js asks `firstOf` of other definitions.
// For each row {text, language} (base, script, module), and for mutants of the texts:
// - what the model takes (early errors aside) has just one derivation, with the model's places and pairs;
// - the same tree isn't derived by tokens of the base language, unless the base language takes the text with it; as a tree of one language it is
//   none of another;
// - where an expression of it ends, the tokens can't go on (`stops`), and where one goes on, they can;
// - a text of the base language has its tree in the language of 2022 too, unless the model refuses it there;
// - its fixed text has the same tree, the fewest pairs, one derivation, and is fixed to itself; the least early error is the model's;
// - trees of parsers with a check left out aren't derived, whether the model takes the text or not;
// - trees made by hand that no text spells aren't derived;
// - the tree of a text isn't derived from a mutant of the text, unless the model gives it.

const fs = require('node:fs');
const path = require('node:path');
const Module = require('node:module');
const antt = require('./antt.js');
const { Model, CRATES, PLAIN_MODEL, FLAGS, FORM, PROGRAM_TEXT: TEXT, plainTree, bareText, copyTree, nodesOf } = require('./model.js');
const { Derive, TooMuch } = require('./derive.js');
const { compareReading } = require('./reading.js');
const { rowsOfLanguages } = require('./cases.js');
const { parseOnly } = require(path.join(PLAIN_MODEL, 'parse.js'));
const { earlyErrors } = require(path.join(PLAIN_MODEL, 'early.js'));
const { randomSource } = require(path.join(PLAIN_MODEL, 'random.js'));

const NEW_CHECKS = [
  ['break behind async, arrow name', 'if (!second.afterBreak && this.isIdentifier(second)) {', 'if (this.isIdentifier(second)) {'],
  ['break behind async, parenthesis', "if (!second.afterBreak && this.is(second, '(')) {", "if (this.is(second, '(')) {"],
  [
    'async ( is always a call',
    "const next = this.peekDiv();\n    if (this.is(next, '=>') && !next.afterBreak) {\n      const params = list.map",
    "const next = this.peekDiv();\n    if (false) {\n      const params = list.map",
  ],
  ['break before => of async, name', "if (this.is(third, '=>') && !third.afterBreak) {", "if (this.is(third, '=>')) {"],
  [
    'break before => of async, parenthesis',
    "if (this.is(next, '=>') && !next.afterBreak) {\n      const params = list.map",
    "if (this.is(next, '=>')) {\n      const params = list.map",
  ],
  ['break behind async, function', "return this.isWord(second, 'function') && !second.afterBreak;", "return this.isWord(second, 'function');"],
  ['operand of yield behind a break', 'const bare = next.afterBreak || next.cls', 'const bare = next.cls'],
  ['yield is always bare', 'const bare = next.afterBreak || next.cls', 'const bare = true || next.cls'],
  [
    'yield at any operand',
    "if (UNARY_OPERATORS.has(token.text)) {",
    "if (this.modern && token.text === 'yield') return this.parseYield(true);\n        if (UNARY_OPERATORS.has(token.text)) {",
  ],
  ['await is a name', "&& !(this.modern && token.text === 'await')", ''],
  [
    'await is never an operator',
    [
      ["&& !(this.modern && token.text === 'await')", ''],
      ["if (this.modern && this.isWord(token, 'await')) {", 'if (false) {'],
    ],
  ],
  ['await before **', " || left.type === 'AwaitExpression'", ''],
  ['#x without In', 'if (!In || RANK.in < lowest) this.fail(token);', 'if (RANK.in < lowest) this.fail(token);'],
  ['#x at any level', 'if (!In || RANK.in < lowest) this.fail(token);', ''],
  ['#x before any operator', "if (!this.sees('in')) this.fail(this.peekDiv());\n    return name;", 'return name;'],
  [
    '#x as an operand',
    "return this.fail(token);\n      default:\n        return this.fail(token);",
    "return this.fail(token);\n      default:\n        return token.cls === 'private' ? this.parsePrivateName() : this.fail(token);",
  ],
  [
    '#x as a key of an object',
    "if (token.cls === 'name') return { node: this.parseName(), computed: false, token };",
    "if (token.cls === 'private') return { node: this.parsePrivateName(), computed: false, token };\n    if (token.cls === 'name') return { node: this.parseName(), computed: false, token };",
  ],
  ['super.#x', "return this.member(start, base, this.parseName(), false, false);", 'return this.member(start, base, this.parseMemberName(), false, false);'],
  ['async method behind a break', 'if (second.afterBreak || !(this.beginsKey(second, inClass)', 'if (!(this.beginsKey(second, inClass)'],
  [
    '* before get',
    "    const accessor = this.acceptAccessor(true);\n    const special = accessor === null ?",
    "    const star = this.accept('*', GOAL.RegExp);\n    const accessor = this.acceptAccessor(true);\n    const special = star ? { async: false, generator: true } : accessor === null ?",
  ],
  ['fields end anywhere', "if (token.afterBreak && token.cls !== 'fault' && !(value", "if (token.cls !== 'fault' && !(value"],
  ['fields end at each break', ' && !(value !== null && this.goesOn(this.rightEdge(value), token))', ''],
  [
    'get as a field at a break',
    'if (!this.beginsKey(this.secondToken(), inClass)) return null;',
    'if (!this.beginsKey(this.secondToken(), inClass) || this.secondToken().afterBreak) return null;',
  ],
  ['static as a field at a break', 'const isStatic = second !== null && (', 'const isStatic = second !== null && !second.afterBreak && ('],
  ['static is no word', 'const isStatic = second !== null && (', 'const isStatic = false && second !== null && ('],
  [
    'fields values end at operators',
    "      if (!Object.hasOwn(RANK, token.text)) return left;",
    "      if (!Object.hasOwn(RANK, token.text) || (token.afterBreak && ['*', 'in', 'instanceof'].includes(token.text))) return left;",
  ],
  [
    'fields values end at brackets',
    "      const token = this.peekDiv();\n      if (this.is(token, '.')) {",
    "      const token = this.peekDiv();\n      if (token.afterBreak && this.is(token, '[')) return node;\n      if (this.is(token, '.')) {",
  ],
  [
    'a sequence as the value of a field',
    "const value = this.accept('=') ? this.inside(() => this.parseAssignment(true)) : null;\n      this.fieldEnd",
    "const value = this.accept('=') ? this.inside(() => this.parseExpression(true)) : null;\n      this.fieldEnd",
  ],
  [
    'async function as an expression statement',
    [
      ["    if (this.seesAsyncFunction()) return this.parseFunction('FunctionDeclaration');\n    if (this.is", '    if (this.is'],
      ['if (this.seesAsyncFunction()) this.fail(token);', ''],
    ],
  ],
  [
    'async function as a statement',
    'if (this.seesAsyncFunction()) this.fail(token);',
    "if (this.seesAsyncFunction()) return this.parseFunction('FunctionDeclaration');",
  ],
  [
    'async arrow as an operand',
    "          case 'async':\n",
    "          case 'async':\n            if (this.modern && !this.secondToken().afterBreak && this.isIdentifier(this.secondToken()) && this.is(this.tokenBehind(this.secondToken()), '=>')) { const at = this.take().start; return this.parseArrow(at, [this.parseIdentifier()], true, true); }\n",
  ],
  ['rest of async anywhere', 'if (i !== list.length - 1 || commaAfterRest) this.fail(next);', ''],
  ['initialised shorthand of async', "if (left !== undefined) throw new Refusal('Syntax');", ''],
  ['for await of in', "if (isAwait && !(left !== null && this.sees('of'))) this.fail(this.peekDiv());", ''],
  ['return in a static block', 'this.inFunction = false;', 'this.inFunction = true;'],
  [
    'directives of a static block',
    "const body = this.parseList(false, () => this.sees('}', GOAL.RegExp));\n    this.expect('}', GOAL.RegExp);\n    this.inFunction = outer;",
    "const body = this.parseList(true, () => this.sees('}', GOAL.RegExp));\n    this.expect('}', GOAL.RegExp);\n    this.inFunction = outer;",
  ],
  ['from behind a break', "if (this.isWord(this.peekDiv(), 'from')) {", "if (this.isWord(this.peekDiv(), 'from') && !this.peekDiv().afterBreak) {"],
  [
    'export default function as an expression',
    "if (this.isWord(token, 'function') || this.seesAsyncFunction()) return this.parseFunction('FunctionDeclaration', true);",
    '',
  ],
  ['export default class as an expression', "if (this.isWord(token, 'class')) return this.parseClass('ClassDeclaration', true);", ''],
  [
    'export default sequence',
    "const expression = this.inside(() => this.parseAssignment(true));\n    this.semicolon(this.rightEdge(expression));\n    return expression;",
    "const expression = this.inside(() => this.parseExpression(true));\n    this.semicolon(this.rightEdge(expression));\n    return expression;",
  ],
  ['import of a reserved word', 'if (!this.isIdentifier(token)) this.fail(this.peekDiv());\n      local', 'local'],
  [
    'imports in a block',
    "  parseListItem() {\n",
    "  parseListItem() {\n    if (this.modern && this.isWord(this.peek(), 'import') && !this.is(this.secondToken(), '(') && !this.is(this.secondToken(), '.')) return this.parseImportDeclaration();\n    if (this.modern && this.isWord(this.peek(), 'export')) return this.parseExport();\n",
  ],
  ['names of export default functions', "return this.parseFunction('FunctionDeclaration', true);", "return this.parseFunction('FunctionDeclaration');"],
  ['bare yield goes on', "          if (n.argument === null) return 'arrow';", "          if (n.argument === null) return 'expression';"],
];

function relaxed() {
  const file = path.join(PLAIN_MODEL, 'parse.js');
  const source = fs.readFileSync(file, 'utf8');
  const out = [];
  for (const [name, one, other] of NEW_CHECKS) {
    const changes = Array.isArray(one) ? one : [[one, other]];
    if (!changes.every(([from]) => source.includes(from))) {
      console.log('no such check: ' + name);
      continue;
    }
    const m = new Module(file, null);
    m.filename = file;
    m.paths = Module._nodeModulePaths(path.dirname(file));
    m._compile(
      changes
        .reduce((text, [from, to]) => text.split(from).join(to), source)
        .replace("require('./bigstack.js')", '{ runInBigStack: () => { throw new RangeError(); } }'),
      file
    );
    out.push({ name, parseOnly: m.exports.parseOnly, seen: 0, taken: 0 });
  }
  return out;
}

const option = (name, otherwise) => {
  const i = process.argv.indexOf('--' + name);
  return i < 0 ? otherwise : process.argv[i + 1];
};
const LIMITS = { maxHeight: 1e5, maxParens: 1e5 };
const optionsOf = (language) => ({ ...LIMITS, ...(language === 'base' ? {} : { edition: 2022, module: language === 'module' }) });

const random = randomSource(Number(option('seed', 1)) + 77);
const TREES = Number(option('trees', 0));
const has = (name) => process.argv.includes('--' + name);
const how = { bare: has('bare'), early: has('early'), tokens: has('tokens'), first: false };
let model, derive;
const use = (crates) => {
  model = new Model(crates);
  derive = new Derive(model);
};
const KINDS = fs
  .readFileSync(path.join(__dirname, '../../crates/tree/src/kind.rt'), 'utf8')
  .match(/pub enum Kind \{[^]*?\n\}/)[0]
  .match(/^ {4}\w+(?=,$)/gm)
  .map((k) => k.trim());
const parsers = relaxed().concat(
  require('./relaxed.js')
    .relaxed()
    .map((p) => ({ ...p, seen: 0, taken: 0 }))
);
const counts = {};
const count = (k) => {
  counts[k] = (counts[k] ?? 0) + 1;
};
let said = 0;
let lastError = 'none';
class Disagreement extends Error {}
const say = (what, language, text, more = '') => {
  const line = [what, language, JSON.stringify(text), String(more).slice(0, 600)].join(' | ');
  if (how.first) throw new Disagreement(line);
  said += 1;
  count('DISAGREEMENT: ' + what);
  console.log(line);
};
function tryDerive(text, plain, language, places = true, bounds = null) {
  plain = { ...plain, text: TEXT[language], spec: undefined };
  try {
    return derive.derive(text, plain, { places, language, bounds, budget: 4e5 });
  } catch (error) {
    if (error instanceof TooMuch) {
      count('given up');
      return null;
    }
    throw error;
  }
}
function check(text, language) {
  count('texts');
  const r = parseOnly(text, optionsOf(language));
  let own = null,
    plain = null;
  if (r.ok) {
    count('texts taken');
    plain = plainTree(r.tree);
    own = bareText(plain);
    const spec = model.tree({ ...plain, text: TEXT[language] });
    if (!how.early) checkDerivations(r, spec);
    // early errors: the least, by place and number
    const e = model.least_error(spec);
    const mine = e.a.length === 0 ? 'none' : `E${e.a[0][0]} ${e.a[0][1]}`;
    const first = earlyErrors(r.tree, text, { edition: language === 'base' ? 2021 : 2022 })[0];
    const theirs = first === undefined ? 'none' : `E${first.number} ${first.at}`;
    lastError = mine;
    count(mine === 'none' ? 'no early error' : 'early ' + mine.split(' ')[0]);
    if (mine !== theirs) say('least early error', language, text, mine + ' / ' + theirs);
    if (how.early) return plain;
    if (!how.bare) checkFixed(r, spec);
  }
  return how.early ? plain : others(text, language, plain, own);

  function checkDerivations(r, spec) {
    const want = r.pairs.map((p) => `${p.left}-${p.right}`).join(' ');
    (function lean(n) {
      if (!model.is_lean(n.spec)) say('not lean', language, text, n.kind);
      n.parts.forEach((p) => p !== null && lean(p));
    })({ ...plain, spec });
    for (const places of [true, false]) {
      const bounds = places ? [] : null;
      const d = tryDerive(text, plain, language, places, bounds);
      if (bounds !== null) checkBounds(bounds, text, language);
      if (d === null) continue;
      count('derivations searched');
      if (d.length !== 1) say(d.length === 0 ? 'no derivation' : 'several lists of pairs', language, text, places + own);
      else if (d[0].key !== want) say('other pairs', language, text, d[0].key + ' / ' + want);
      else if (d[0].open !== r.openParens) say('other number of open parentheses', language, text, d[0].open + ' / ' + r.openParens);
    }
  }
  function checkFixed(r, spec) {
    // the fixed text is read again: the same tree, with the fewest pairs, and fixed to itself
    const fixed = antt.text(model.fixed_text(spec));
    const again = parseOnly(fixed, optionsOf(language));
    count('fixed texts');
    if (!again.ok || bareText(plainTree(again.tree)) !== own) say('the fixed text has another tree', language, text, JSON.stringify(fixed));
    else {
      const least = String(model.least(spec, model.script).a[0]);
      if (String(again.pairs.length) !== least || again.pairs.length > r.pairs.length)
        say('pairs of the fixed text', language, text, JSON.stringify(fixed) + ' ' + least);
      if (antt.text(model.fixed_text(model.tree({ ...plainTree(again.tree), text: TEXT[language] }))) !== fixed)
        say('the fixed text changes', language, text, JSON.stringify(fixed));
      const d = tryDerive(fixed, plain, language, false);
      if (d !== null && (d.length !== 1 || String(d[0].pairs.length) !== least)) say('the fixed text derives otherwise', language, text, JSON.stringify(fixed));
    }
  }
}
// What is read behind an operand can't go on where an expression ends, and goes on where it does. Behind the end, on its line, stands no
// name but an operator, or an `of` behind which no `=>` stands (`Apart` in Promises, which is a type, and so written here by hand).
function checkBounds(bounds, text, language) {
  for (const { role, node, cursor, goesOn } of bounds) {
    const last = cursor.b.v,
      t = cursor.t.v;
    if (t.class === model.classes.regexp || (t.class === model.classes.template && t.text.h === 125)) continue;
    count('bounds of expressions');
    const [rank, hasIn] = role.a;
    if (model.stops(rank, hasIn, model.edge(node), last, t) === goesOn)
      say(goesOn ? 'an expression goes on that stops' : 'an expression stops that goes on', language, text, `${node.a[0].$.name} before ${antt.text(t.text)}`);
    if (goesOn || t.class !== model.classes.name || t.after_break || model.operation(t).$.name !== 'op_none') continue;
    if (antt.text(t.text) !== 'of' || derive.reading.over(cursor).some((c) => c.t !== null && model.is_mark(antt.codes('=>'), c.t.v)))
      say('a name behind an expression', language, text, antt.text(t.text));
  }
}
// the trees of parsers with a check left out, one of each kind; kept, since plant_languages.js asks again and again
const wrong = new Map();
function wrongTrees(text, language) {
  const key = language + ' ' + text;
  if (!wrong.has(key)) {
    const found = new Map();
    for (const p of parsers) {
      try {
        const q = p.parseOnly(text, optionsOf(language));
        if (!q.ok) continue;
        const tree = plainTree(q.tree),
          b = bareText(tree);
        if (!found.has(b)) found.set(b, { p, tree, b });
      } catch {
        continue;
      }
    }
    wrong.set(key, [...found.values()]);
  }
  return wrong.get(key);
}
// the same tree in the other languages, and other trees in this one
function others(text, language, plain, own) {
  if (plain !== null) {
    for (const other of ['base', 'script', 'module'].filter((l) => l !== language)) {
      const q = parseOnly(text, optionsOf(other));
      const same = q.ok && bareText(plainTree(q.tree)) === own;
      const d = tryDerive(text, plain, other, false);
      if (d === null) continue;
      count('other languages');
      if ((d.length > 0) !== same) say(same ? 'not derived in ' + other : 'derived in ' + other, language, text, own);
      if (model.is_tree_of(model.languages[other], model.tree({ ...plain, text: TEXT[language] }))) say('a tree of ' + other + ' too', language, text);
    }
  }
  // other trees of the same text: a flag, a form, a kind, a text or a part changed
  if (plain !== null) {
    for (let k = TREES; k > 0; k--) {
      const t = copyTree(plain);
      const all = nodesOf(t);
      const n = all[random.below(all.length)];
      switch (random.below(6)) {
        case 0:
        case 1: {
          const f = FLAGS[random.below(FLAGS.length)];
          n.flags[f] = !n.flags[f];
          break;
        }
        case 2:
          n.flags.form = random.pick(Object.keys(FORM));
          break;
        case 3:
          n.kind = KINDS[random.below(KINDS.length)];
          break;
        case 4: {
          const other = all[random.below(all.length)];
          n.text = other.text;
          break;
        }
        default: {
          const i = random.below(n.parts.length + 1);
          if (random.below(2) === 0) n.parts.splice(i, 1);
          else n.parts.splice(i, 0, random.below(2) === 0 ? null : copyTree(all[random.below(all.length)]));
        }
      }
      if (n === t && n.kind !== 'Program') continue;
      const b = bareText({ ...t, text: '' });
      if (b === own) continue;
      count('other trees of the same text');
      let d = null;
      try {
        d = tryDerive(text, t, language, false);
      } catch (error) {
        if (!/unknown|not covered|no clause|match/i.test(error.message)) throw error;
        count('other trees that the definitions have no clause for');
      }
      if (d !== null && d.length > 0) say('another tree is derived', language, text, b + ' / ' + own);
    }
  }
  const seen = new Set([own]);
  for (const { p, tree, b } of wrongTrees(text, language)) {
    if (seen.has(b)) continue;
    seen.add(b);
    p.seen += 1;
    count(own === null ? 'wrong trees of refused texts' : 'wrong trees of taken texts');
    const d = tryDerive(text, tree, language, false);
    if (d !== null && d.length > 0) say('a wrong tree is derived: ' + p.name, language, text, b + ' / ' + own);
  }
  return plain;
}

// Trees that no text spells though each of their nodes is spelled somewhere: [text, a text whose tree is nearly it, what is changed]
const kindOf = (kind) => (n) => {
  n.kind = kind;
  n.flags.form = 'init';
};
const nodeOf = (t, kind, i = 0) => nodesOf(t).filter((n) => n.kind === kind)[i];
const WRONG = [
  ["import {a, * as b} from 'c'", "import {a, b} from 'c'", (t) => kindOf('ImportNamespaceSpecifier')(nodeOf(t, 'ImportSpecifier', 1))],
  ["import {a, b} from 'c'", "import {a, b} from 'c'", (t) => kindOf('ImportDefaultSpecifier')(nodeOf(t, 'ImportSpecifier', 1))],
  ["import {a, b} from 'c'", "import {a, b} from 'c'", (t) => kindOf('ImportDefaultSpecifier')(nodeOf(t, 'ImportSpecifier', 0))],
  ["import a, {b} from 'c'", "import a, {b} from 'c'", (t) => kindOf('ImportDefaultSpecifier')(nodeOf(t, 'ImportSpecifier', 0))],
  [
    "export {a, b} from 'c'",
    "export {a, b} from 'c'",
    (t) => {
      nodeOf(t, 'ExportSpecifier', 1).kind = 'ImportSpecifier';
    },
  ],
  [
    "export {a, b}",
    "export {a, b}",
    (t) => {
      nodeOf(t, 'ExportSpecifier', 1).kind = 'ImportSpecifier';
    },
  ],
  [
    "export if (a);",
    "export var a;",
    (t, of) => {
      nodeOf(t, 'ExportNamedDeclaration').parts[0] = of('if (a);').parts[0];
    },
  ],
  [
    "export default var a;",
    "export default a;",
    (t, of) => {
      nodeOf(t, 'ExportDefaultDeclaration').parts[0] = of('var a;').parts[0];
    },
  ],
  [
    "export default a;",
    "export default a;",
    (t, of) => {
      nodeOf(t, 'ExportDefaultDeclaration').parts[0] = of('a;').parts[0];
    },
  ],
  [
    "export function () {}",
    "export function a() {}",
    (t) => {
      nodeOf(t, 'FunctionDeclaration').parts[0] = null;
    },
  ],
  [
    "class A { super() {} }",
    "class A { super() {} }",
    (t) => {
      nodeOf(t, 'MethodDefinition').parts[0].kind = 'Super';
    },
  ],
  [
    "a.#b",
    "a.b",
    (t) => {
      kindOf('PrivateIdentifier')(nodeOf(t, 'MemberExpression').parts[1]);
      nodeOf(t, 'MemberExpression').flags.computed = true;
    },
  ],
  [
    "class A { [#b] = 1 }",
    "class A { [b] = 1 }",
    (t) => {
      nodeOf(t, 'PropertyDefinition').parts[0].kind = 'PrivateIdentifier';
    },
  ],
  [
    "({#b: 1})",
    "({b: 1})",
    (t) => {
      nodeOf(t, 'Property').parts[0].kind = 'PrivateIdentifier';
    },
  ],
  [
    "class A { get *a() {} }",
    "class A { get a() {} }",
    (t) => {
      nodeOf(t, 'FunctionExpression').flags.form = 'generator';
    },
  ],
  [
    "class A { get a() {} }",
    "class A { get a() {} }",
    (t) => {
      nodeOf(t, 'FunctionExpression').flags.form = 'generator';
    },
  ],
  [
    "class A { *constructor() {} }",
    "class A { constructor() {} }",
    (t) => {
      nodeOf(t, 'FunctionExpression').flags.form = 'generator';
    },
  ],
];
function tryWrong() {
  const of = (text) => plainTree(parseOnly(text, optionsOf('module')).tree);
  let derived = 0;
  for (const [text, near, change] of WRONG) {
    const tree = copyTree(of(near));
    change(tree, of);
    const d = tryDerive(text, tree, 'module', false);
    if (d !== null && d.length > 0) {
      derived += 1;
      say('a wrong tree is derived', 'module', text, bareText(tree));
    }
  }
  return derived;
}

const pieces = (text) => text.match(/\s+|#?[$\w]+|'[^']*'|"[^"]*"|=>|\*\*|\+\+|--|\?\.|\?\?|\|\||&&|\.\.\.|\$\{|[^]/g) ?? [];
// a row; its tree, where the model takes the text
function checkRow(row) {
  if (how.tokens && row.text.length <= 30) for (const x of compareReading(model, row.text, { count })) say(x.what, row.language, row.text, x.detail);
  const plain = check(row.text, row.language);
  const answer = plain === null ? 'syntax' : lastError === 'none' ? 'accepted' : lastError;
  if (row.answer !== answer) say('the row says otherwise', row.language, row.text, `${answer} / ${row.answer}`);
  return plain;
}
// The first disagreement of the definitions in these crates with some rows, and with the trees made by hand; null where there is none.
function firstOf(crates, rows, looks) {
  Object.assign(how, { bare: false, early: false, tokens: false, first: true }, looks);
  try {
    use(crates);
    for (const row of rows) checkRow(row);
    if (!how.early) tryWrong();
    return null;
  } catch (error) {
    if (error instanceof Disagreement) return error.message;
    throw error;
  }
}
function main() {
  use(CRATES);
  const rows = rowsOfLanguages();
  const [part, of] = option('jobs', '0/1').split('/').map(Number);
  const taken = [];
  const sections = option('sections', null)?.split(/,(?! )/);
  let agree = 0;
  let differ = 0;
  rows.forEach((row, i) => {
    if (i % of !== part || (sections !== undefined && sections !== null && !sections.includes(row.section))) return;
    const before = said;
    const plain = checkRow(row);
    if (said === before) agree += 1;
    else differ += 1;
    if (plain !== null && row.text.length < 120) taken.push({ ...row, plain, own: bareText(plain) });
  });
  if (part === 0 && !how.early) {
    const derived = tryWrong();
    console.log(`wrong trees made by hand: ${WRONG.length}, ${derived} derived`);
  }
  console.log(`rows: ${agree} agree, ${differ} don't`);
  const source = randomSource(Number(option('seed', 1)));
  const pool = rows.flatMap((r) => pieces(r.text)).filter((p) => p.trim() !== '');
  const EXTRA = [
    '\n',
    '\n',
    '\n',
    '(',
    ')',
    '(a)',
    '{',
    '}',
    '[',
    ']',
    ',',
    ';',
    '=',
    '*',
    'async ',
    'await ',
    'yield ',
    'static ',
    'get ',
    '#a',
    'in ',
    'of ',
    'from ',
    'as ',
    'function ',
    'class ',
    'default ',
    '=> ',
    'a ',
  ];
  for (let k = Number(option('mutants', 0)); k > 0; k--) {
    const row = source.pick(taken);
    const list = pieces(row.text);
    for (let m = source.below(2); m >= 0; m--) {
      const i = source.below(list.length + 1);
      switch (source.below(4)) {
        case 0:
          list.splice(i, 1);
          break;
        case 1:
          list.splice(i, 0, source.pick(EXTRA));
          break;
        case 2:
          list[Math.min(i, list.length - 1)] = source.pick(pool);
          break;
        default: {
          const j = Math.min(list.length, i + 1 + source.below(6));
          list.splice(j, 0, ')');
          list.splice(i, 0, '(');
        }
      }
    }
    const text = list.join('');
    if (!text.isWellFormed() || text.length > 160) continue;
    const plain = check(text, row.language);
    const same = plain !== null && bareText(plain) === row.own;
    const d = tryDerive(text, row.plain, row.language, false);
    if (d !== null) {
      count('old trees and mutants');
      if ((d.length > 0) !== same) say(same ? 'old tree not derived' : 'old tree derived', row.language, text, row.own);
    }
  }
  process.exitCode = said === 0 && agree > 0 ? 0 : 1;
  if (has('brief')) return;
  console.log(counts);
  console.log(
    'checks that saw no tree:',
    parsers
      .filter((p) => p.seen === 0)
      .map((p) => p.name)
      .join('; ')
  );
}
module.exports = { firstOf, wrongTrees, optionsOf };
if (require.main === module) main();
