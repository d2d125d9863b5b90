'use strict';
// Runs functions of random statements in this JavaScript engine, beside the definitions of how statements complete:
//
//   node --stack-size=20000 completions.js [--n FUNCTIONS] [--seed S] [--plant]
//
// Where a run leaves a statement normally, `Completes` of the crate completion_laws, written here once more as sets, must hold of it, and
// `normal` of the crate flow_rules, as its definition computes, too; what completes a run must be among the completions of the body; and no
// run may come to what `no-unreachable` reports. With --plant each of some slips is made in the sets, and must be seen.

const path = require('node:path');
const antt = require('./antt.js');
const { Model, CRATES, PLAIN_MODEL, plainTree } = require('./model.js');
const { FlowRules } = require('./flow_rules.js');
const { parseOnly } = require(path.join(PLAIN_MODEL, 'parse.js'));
const { randomSource } = require(path.join(PLAIN_MODEL, 'random.js'));

const RUNS = 30;
const option = (name, otherwise) => (process.argv.includes(`--${name}`) ? Number(process.argv[process.argv.indexOf(`--${name}`) + 1]) : otherwise);

// ---------------------------------------------------------------- functions

const TESTS = ['t()', 't()', 't()', '!t()', 'true', 'false', '1', '0', '10', '0x0', 'null'];

// Statements of lists stand between calls that say which one is entered and which one is left; a body of a loop first counts the round.
class Statements {
  constructor(random, isGenerator) {
    this.random = random;
    this.isGenerator = isGenerator;
    this.count = 0;
  }
  list(depth, within) {
    let text = '';
    for (let left = this.random.below(3) + (depth > 3 ? 0 : 1); left > 0; left -= 1) {
      const number = this.count++;
      text += `E(${number}); ${this.statement(depth + 1, within)} L(${number}); `;
    }
    return text;
  }
  block(depth, within) {
    return `{ ${this.list(depth, within)}}`;
  }
  branch(depth, within) {
    return this.random.chance(30) ? this.statement(depth + 1, within) : this.block(depth, within);
  }
  test() {
    return this.random.pick(TESTS);
  }
  jump(word, labels) {
    return labels.length > 0 ? `${word} ${this.random.pick(labels)};` : 't();';
  }
  simple(within) {
    const { random } = this;
    const ways = [
      () => 't();',
      () => ';',
      () => (this.isGenerator ? 'yield t();' : 'var a = t();'),
      () => random.pick(['return;', 'return t();']),
      () => 'throw 1;',
      () => (within.breaks ? 'break;' : 't();'),
      () => (within.continues ? 'continue;' : 't();'),
      () => this.jump('break', within.labels),
      () => this.jump('continue', within.loopLabels),
    ];
    return random.pick(ways)();
  }
  loop(depth, within, own) {
    const inside = { ...within, breaks: true, continues: true, loopLabels: [...within.loopLabels, ...own] };
    const body = `{ K(); ${this.list(depth, inside)}${own.length > 0 && this.random.chance(40) ? `continue ${this.random.pick(own)}; ` : ''}}`;
    const ways = [
      () => `while (${this.test()}) ${body}`,
      () => `do ${body} while (${this.test()});`,
      () => `do ${body} while (${this.test()});`,
      () => `for (${this.random.pick(['', 'var b = t()'])}; ${this.random.chance(70) ? this.test() : ''}; ${this.random.pick(['', 't()'])}) ${body}`,
      () => `for (var k in o()) ${body}`,
      () => `for (var k of o()) ${body}`,
    ];
    return this.random.pick(ways)();
  }
  labelled(depth, within, own) {
    const label = `l${within.labels.length}`;
    const inside = { ...within, labels: [...within.labels, label] };
    const ways = [
      () => this.loop(depth + 1, inside, [...own, label]),
      () => this.labelled(depth + 1, inside, [...own, label]),
      () => this.labelled(depth + 1, inside, [...own, label]),
      () => this.block(depth, inside),
      () => this.statement(depth + 1, inside),
    ];
    return `${label}: ${this.random.pick(within.labels.length > 2 ? ways.slice(0, 1) : ways)()}`;
  }
  cases(depth, within) {
    const count = this.random.below(4);
    const place = this.random.chance(50) ? this.random.below(count + 1) : -1;
    let text = '';
    for (let i = 0; i < count; i += 1) {
      text += `${i === place ? 'default' : `case ${i}`}: ${this.random.chance(75) ? this.list(depth, { ...within, breaks: true }) : ''}`;
    }
    return `switch (v()) { ${text}}`;
  }
  tried(depth, within) {
    const which = this.random.below(3);
    const handler = which === 1 ? '' : ` catch ${this.random.pick(['', '(e) '])}${this.block(depth, within)}`;
    const finalizer = which === 0 ? '' : ` finally ${this.block(depth, within)}`;
    return `try ${this.block(depth, within)}${handler}${finalizer}`;
  }
  statement(depth, within) {
    if (depth > 6 || this.random.chance(35)) return this.simple(within);
    const ways = [
      () => `if (${this.test()}) ${this.block(depth, within)}`,
      () => `if (${this.test()}) ${this.block(depth, within)} else ${this.branch(depth, within)}`,
      () => this.block(depth, within),
      () => this.loop(depth, within, []),
      () => this.loop(depth, within, []),
      () => this.labelled(depth, within, []),
      () => this.labelled(depth, within, []),
      () => this.cases(depth, within),
      () => this.tried(depth, within),
    ];
    return this.random.pick(ways)();
  }
}

// ---------------------------------------------------------------- the relation, as sets of completions

const isTrue = (test) => test.type === 'Literal' && (test.raw === 'true' || (/^[0-9]+$/.test(test.raw) && /[1-9]/.test(test.raw)));
const union = (sets) => new Set(sets.flatMap((one) => [...one]));

// Completions are words: `normal`, `throw`, `break`, `break a`, `continue`, `continue a`, `return` (without an argument), `return value`,
// `return at yield`. A slip that is planted has a method of its own.
class Completes {
  mayBeFalse(test) {
    return test !== null && !isTrue(test);
  }
  goesOn(labels, c) {
    return c === 'normal' || c === 'continue' || labels.some((label) => c === `continue ${label}`);
  }
  afterBreak(c) {
    return c === 'break' ? 'normal' : c;
  }
  afterLabel(label, c) {
    return c === `break ${label}` ? 'normal' : c;
  }
  labelsInside(label, labels) {
    return [label, ...labels];
  }
  entries(cases) {
    return cases.map((_, i) => cases.slice(i));
  }
  mayPass(cases) {
    return cases.every((it) => it.test !== null);
  }
  finished(c, d) {
    return d === 'normal' ? c : d;
  }
  list(items) {
    let all = new Set(['normal']);
    for (const item of [...items].reverse()) all = union([...this.of(item)].map((c) => (c === 'normal' ? all : [c])));
    return all;
  }
  rounds(labels, body, ends) {
    const left = [...this.of(body)].filter((c) => !this.goesOn(labels, c)).map((c) => this.afterBreak(c));
    return new Set(ends ? ['normal', ...left] : left);
  }
  doing(labels, { body, test }) {
    const all = [...this.of(body)];
    const left = all.filter((c) => !this.goesOn(labels, c)).map((c) => this.afterBreak(c));
    return all.length > left.length ? union([left, this.rounds(labels, body, this.mayBeFalse(test))]) : left;
  }
  handled(c, handler) {
    return c === 'throw' && handler !== null ? this.of(handler.body) : [c];
  }
  tried({ block, handler, finalizer }) {
    const before = union([...this.of(block)].map((c) => this.handled(c, handler)));
    if (finalizer === null) return before;
    const behind = [...this.of(finalizer)];
    return union([...before].map((c) => behind.map((d) => this.finished(c, d))));
  }
  switched({ cases }) {
    const all = union(this.entries(cases).map((entered) => [...this.list(entered)].map((c) => this.afterBreak(c))));
    return this.mayPass(cases) ? union([all, ['normal']]) : all;
  }
  branches({ consequent, alternate }) {
    return union([this.of(consequent), alternate === null ? ['normal'] : this.of(alternate)]);
  }
  own(node, labels) {
    switch (node.type) {
      case 'BlockStatement':
        return this.list(node.body);
      case 'SwitchCase':
        return this.list(node.consequent);
      case 'IfStatement':
        return this.branches(node);
      case 'DoWhileStatement':
        return this.doing(labels, node);
      case 'WhileStatement':
      case 'ForStatement':
        return this.rounds(labels, node.body, this.mayBeFalse(node.test));
      case 'ForInStatement':
      case 'ForOfStatement':
        return this.rounds(labels, node.body, true);
      case 'ContinueStatement':
        return [node.label === null ? 'continue' : `continue ${node.label.name}`];
      case 'BreakStatement':
        return [node.label === null ? 'break' : `break ${node.label.name}`];
      case 'ReturnStatement':
        return [node.argument === null ? 'return' : 'return value'];
      case 'ThrowStatement':
        return [];
      case 'LabeledStatement':
        return [...this.of(node.body, this.labelsInside(node.label.name, labels))].map((c) => this.afterLabel(node.label.name, c));
      case 'SwitchStatement':
        return this.switched(node);
      case 'TryStatement':
        return this.tried(node);
      default:
        return ['normal'];
    }
  }
  of(node, labels = []) {
    return union([['throw', 'return at yield'], this.own(node, labels)]);
  }
}

// ---------------------------------------------------------------- slips

const slip = (methods) => Object.assign(new Completes(), methods);
const SLIPS = {
  'a finalizer never overrides': slip({ finished: (c) => c }),
  'a finalizer always overrides': slip({ finished: (c, d) => d }),
  'a `switch` enters a case': slip({ mayPass: () => false }),
  'a `switch` enters its first case': slip({ entries: (cases) => (cases.length > 0 ? [cases] : []) }),
  'a case ends the `switch`': slip({ entries: (cases) => cases.map((it) => [it]) }),
  'a `switch` is passed by beside its `default`': slip({ mayPass: () => true }),
  'a `continue` leaves its loop': slip({ goesOn: (labels, c) => c === 'normal' || labels.some((label) => c === `continue ${label}`) }),
  'a `continue` with a label leaves its loop': slip({ goesOn: (labels, c) => c === 'normal' || c === 'continue' }),
  'a label set has one label': slip({ labelsInside: (label) => [label] }),
  'a `break` leaves no labelled statement': slip({ afterLabel: (label, c) => c }),
  'a `break` without a label leaves a labelled statement': slip({ afterLabel: (label, c) => (/^break/.test(c) ? 'normal' : c) }),
  'a `break` leaves no loop': slip({ afterBreak: (c) => c }),
  'a `break` with a label leaves any loop': slip({ afterBreak: (c) => (/^break/.test(c) ? 'normal' : c) }),
  'no test is false': slip({ mayBeFalse: () => false }),
  'each test may be false': slip({ mayBeFalse: (test) => test !== null }),
  'no test at all may be false': slip({ mayBeFalse: (test) => test === null || !isTrue(test) }),
  'a throw passes by a handler': slip({ handled: (c) => [c] }),
  'an `if` without `else` isn’t passed by': slip({
    branches({ consequent, alternate }) {
      return union([this.of(consequent), alternate === null ? [] : this.of(alternate)]);
    },
  }),
};

// ---------------------------------------------------------------- runs

// the statements of lists by their numbers
function numbered(node, found = new Map()) {
  for (const part of Object.values(node)) {
    if (part === null || typeof part !== 'object') continue;
    if (Array.isArray(part)) {
      part.forEach((it, i) => {
        const call = it?.type === 'ExpressionStatement' ? it.expression : null;
        if (call?.type === 'CallExpression' && call.callee.name === 'E') found.set(Number(call.arguments[0].raw), part[i + 1]);
      });
    }
    numbered(part, found);
  }
  return found;
}

// one run: which statements were entered, which were left normally, and how it ended, if it did
function run(make, isGenerator, random) {
  const entered = new Set();
  const left = new Set();
  let rounds = 60;
  const spent = () => {
    if (rounds < 0) throw new Error('spent');
  };
  const t = () => {
    spent();
    if (random.chance(7)) throw new Error('by chance');
    return random.chance(50);
  };
  const K = () => {
    rounds -= 1;
    spent();
  };
  const o = () => (spent(), random.pick([[], [1, 2]]));
  const told = {};
  const ended = (value) => (value === told ? 'return at yield' : value === undefined ? 'normal or return' : 'return value');
  try {
    const result = make((i) => entered.add(i), (i) => left.add(i), K, t, o, () => random.below(5));
    if (!isGenerator) return { entered, left, end: ended(result) };
    let step = result.next();
    for (let steps = 0; !step.done && steps < 100; steps += 1) step = random.chance(20) ? result.return(told) : result.next();
    return { entered, left, end: step.done ? ended(step.value) : null };
  } catch {
    return { entered, left, end: 'throw' };
  }
}

const mayEnd = (all, end) => end === null || all.has(end) || (end === 'normal or return' && (all.has('normal') || all.has('return')));

class Tester {
  constructor() {
    const crates = path.join(__dirname, '../../crates');
    this.model = new Model([...CRATES, ...['rule_words', 'flow_rules'].map((crate) => path.join(crates, crate))]);
    const rules = new FlowRules(this.model);
    this.normal = this.model.spec.fn('normal', 'Completion', 'flow_rules');
    this.unreached = (text, tree) => antt.toArray(rules.found(antt.bytes(text), rules.rules.get('no-unreachable'), tree)).map((it) => it.start);
  }
  // a function of a seed
  script(seed) {
    const random = randomSource(seed);
    const isGenerator = random.chance(25);
    const statements = new Statements(random, isGenerator).list(0, { labels: [], loopLabels: [], breaks: false, continues: false });
    const text = `function${isGenerator ? '*' : ''} f(E, L, K, t, o, v) { ${statements}}`;
    const read = parseOnly(text, { maxHeight: 1e5, maxParens: 1e5, edition: 2022 });
    if (!read.ok) throw new Error(`no script: ${text}`);
    const plain = plainTree(read.tree, 'script');
    const tree = this.model.tree(plain);
    return { random, isGenerator, text, body: read.tree.body[0].body, tree, plain, statements: numbered(read.tree) };
  }
  // of each statement of a list, by its start, whether it can complete normally by its definition
  normals(plain, all = new Map()) {
    for (const part of plain.parts) {
      if (part === null) continue;
      all.set(`${part.kind} ${part.start}`, this.normal(part.spec));
      this.normals(part, all);
    }
    return all;
  }
  // what disagrees in the runs of a function
  disagreements(seed, relations) {
    const { random, isGenerator, text, body, tree, plain, statements } = this.script(seed);
    const normals = this.normals(plain);
    const unreached = new Set(this.unreached(text, tree));
    const make = new Function(`'use strict'; return (${text})`)();
    const runs = Array.from({ length: RUNS }, () => run(make, isGenerator, random));
    return relations.map((relation) => {
      const found = [];
      for (const [number, node] of statements) {
        const isSaid = relation.of(node).has('normal');
        if (isSaid && !normals.get(`${node.type} ${node.start}`)) found.push(`by the relation alone ${number} can complete normally`);
        if (!isSaid && runs.some(({ left }) => left.has(number))) found.push(`${number} was left normally`);
        if (unreached.has(node.start) && runs.some(({ entered }) => entered.has(number))) found.push(`${number} is reported, and was entered`);
      }
      const all = relation.of(body);
      for (const { end } of runs) if (!mayEnd(all, end)) found.push(`a run ended by ${end}`);
      return found.map((words) => `${words}: ${text}`);
    });
  }
}

function main() {
  const count = option('n', 300);
  const seed = option('seed', 1);
  const tester = new Tester();
  const relations = process.argv.includes('--plant') ? SLIPS : { nothing: new Completes() };
  const found = Object.keys(relations).map(() => []);
  for (let i = 0; i < count; i += 1) {
    tester.disagreements(seed * 1000003 + i, Object.values(relations)).forEach((some, at) => found[at].push(...some));
  }
  const isPlanted = process.argv.includes('--plant');
  Object.keys(relations).forEach((name, at) => {
    if (isPlanted) console.log(`${name}: ${found[at].length > 0 ? 'seen' : 'not seen'}`);
    else found[at].slice(0, 5).forEach((line) => console.log(line));
  });
  if (!isPlanted) console.log(`${count} functions, ${count * RUNS} runs, ${found[0].length} disagreements`);
  process.exitCode = count > 0 && found.every((some) => some.length > 0 === isPlanted) ? 0 : 1;
}

module.exports = { Completes, Statements };
if (require.main === module) main();
