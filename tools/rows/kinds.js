'use strict';
// Makes the rows anew that say what a kind of node is, by its row in ../model/kinds.js and by the plain model.
//
//   node kinds.js [nodes|views|ranks|numbers|plans|trees ..]     # writes ../../crates/cases/data/NAME in place; without a name all six
//
// A row keeps what it asks and gets its answer, so that of a new one only the call and the text or the tree need be written. A kind that no row of
// `nodes`, `views` or `ranks` has gets one at the end. (crates/cases/stdout has how many rows a file has.) A row stays as it is where the model has no
// answer: a refused text, the fields of a view, the numbers of a tree that is no script, the symbol of a node that depends on more than its kind.

const fs = require('node:fs');
const path = require('node:path');
const { plainTree } = require('../definitions/model.js');
const { treeJson } = require('../model/json.js');
const { KINDS, KINDS_OF_2022 } = require('../model/kinds.js');
const { LIMITS, parse } = require('../model/parse.js');
const { plan } = require('../model/plan.js');
const { meant, written } = require('./worked.js');

const NAMES = ['nodes', 'views', 'ranks', 'numbers', 'plans', 'trees'];
const fileOf = (name) => path.join(__dirname, '../../crates/cases/data', name);

// ---------------------------------------------------------------- trees that are written down (crates/cases/src/sketch.rt)

// The script of such a tree, its nodes as {kind, text, flags, start, end, parts}; null for a gap.
function sketched(text) {
  let end = 0;
  const opened = [];
  const open = (kind) => opened.push({ kind, text: '', flags: [], start: end, end, parts: [] });
  const close = () => {
    const node = opened.pop();
    node.end = ++end;
    opened.at(-1)?.parts.push(node);
    return node;
  };
  open('Program');
  for (const word of text.split(/\s+/).filter(Boolean)) {
    if (word[0] === '(') open(word.slice(1));
    else if (word[0] === ')') close();
    else if (word[0] === '_') opened.at(-1).parts.push(null);
    else if (word[0] === '@') end = Number(word.slice(1));
    else if (word[0] === '#') opened.at(-1).flags.push(word.slice(1));
    else opened.at(-1).text = word;
  }
  return close();
}

const SHOWN = ['computed', 'optional', 'static', 'prefix', 'directive', 'expression', 'get', 'set', 'method', 'shorthand', 'constructor'];

// The line of a node: its kind, place, text, flags and parts.
function line(node) {
  if (node === null) return '_';
  const flags = SHOWN.filter((it) => node.flags.includes(it));
  return `(${[`${node.kind} ${node.start}-${node.end}`, ...(node.text === '' ? [] : [node.text]), ...flags, ...node.parts.map(line)].join(' ')})`;
}

// How many parts a list has at least.
const LEAST = { SequenceExpression: 2, VariableDeclaration: 1 };

// Whether a node has the parts of its kind, and no gap in another's place.
function isWhole({ kind, parts }) {
  const fields = KINDS_OF_2022.get(kind).parts;
  if (kind === 'TemplateLiteral') return parts.length % 2 === 1 && !parts.includes(null);
  if (kind === 'TryStatement' && parts[1] === null && parts[2] === null) return false;
  const list = fields.findIndex((it) => it.isList);
  const many = parts.length - (fields.length - 1);
  if (list < 0 ? many !== 1 : many < (LEAST[kind] ?? 0)) return false;
  const places = list < 0 ? fields : [...fields.slice(0, list), ...Array(many).fill(fields[list]), ...fields.slice(list + 1)];
  return parts.every((part, i) => part !== null || places[i].mayBeGap);
}

// Which views a node has.
function views(node) {
  const { family } = KINDS_OF_2022.get(node.kind);
  const isTarget = node.kind === 'Identifier' || node.kind === 'MemberExpression';
  const found = [family === 'expression', family === 'pattern' || isTarget, family === 'statement', /Function/.test(node.kind), /^Class[ED]/.test(node.kind)];
  const [expression, pattern, statement, isFunction, isClass] = found.map((it) => it && isWhole(node));
  return `(${expression}, ${pattern}, ${statement})(${isFunction}, ${isClass})`;
}

// The symbol of a node whose kind alone has one.
function symbol(node) {
  const { family, rank, text, flags } = KINDS.get(node.kind) ?? KINDS_OF_2022.get(node.kind);
  if (family !== 'expression' || rank === undefined || text !== undefined || flags.length > 0 || /^(Meta|Chain)/.test(node.kind)) return undefined;
  return isWhole(node) ? `(Some(${rank}), false)` : '(None, false)';
}

// ---------------------------------------------------------------- scripts

function planText({ rows, wrapped, total }) {
  const cells = (it) => it.cells.map((cell) => (cell === Infinity ? '-' : cell)).join('');
  return [...rows.map((it) => `${it.type} ${cells(it)}${wrapped.has(it.node) ? ' wrapped' : ''}`), `total ${total}`].join(', ');
}

// The nodes of a script, each behind its parts.
const finished = (node) => [...node.parts.filter((it) => it !== null).flatMap(finished), node];

function numbers(tree) {
  const { numberOf } = plan(tree);
  return finished(plainTree(tree))
    .map((it) => `${it.kind}${numberOf.has(it.from) ? ` ${numberOf.get(it.from)}` : ''};`)
    .join('');
}

function rowCounts(tree) {
  const { numberOf } = plan(tree);
  return finished(plainTree(tree))
    .map((it) => `${it.kind} ${finished(it).filter((each) => numberOf.has(each.from)).length};`)
    .join('');
}

const OF_NODES = { line: (script) => line(script), views: (script) => views(script.parts[0]), rank: (script) => symbol(script.parts[0]) };
const OF_SCRIPTS = { plan: (tree) => planText(plan(tree)), tree: treeJson, numbers, 'row counts': rowCounts };

// What a call answers for a text, or undefined.
function answer(call, text) {
  if (call.startsWith('node ')) return OF_NODES[call.slice(5)]?.(sketched(text));
  const script = parse(text, LIMITS);
  return script.ok ? OF_SCRIPTS[call]?.(script.tree) : undefined;
}

// ---------------------------------------------------------------- files

// Which kinds a file has a row of, and its call.
const EACH = {
  nodes: ['node line', (row) => row.kind !== 'Program'],
  views: ['node views', (row) => row.family !== 'part'],
  ranks: ['node rank', (row) => row.family === 'expression'],
};

// A tree of one node of a kind, whose parts are names.
function sketchOf({ kind, text, parts }) {
  const names = parts.map((_, i) => `(Identifier ${'abcd'[i]} )`);
  return [`(${kind}`, ...(text === undefined ? [] : ['a']), ...names, ')'].join(' ');
}

// The file of this name as it should be, of the rows that it has.
function rows(name, text = fs.readFileSync(fileOf(name), 'utf8')) {
  const lines = text.split('\n').slice(0, -1);
  const made = lines.map((it) => {
    const [call, text, ...found] = it.split('\t');
    const own = it.startsWith('#') || found.length > 1 ? undefined : answer(call, meant(text ?? ''));
    return own === undefined ? it : `${call}\t${text ?? ''}\t${written(own)}`;
  });
  const [call, isWanted] = EACH[name] ?? ['', () => false];
  const lacking = [...KINDS.values()].filter((row) => isWanted(row) && !lines.some((it) => it.includes(`(${row.kind} `)));
  const more = lacking.map((row) => [sketchOf(row), answer(call, sketchOf(row))]).filter(([, own]) => own !== undefined);
  return [...made, ...more.map(([sketch, own]) => `${call}\t${sketch}\t${own}`)].map((it) => it + '\n').join('');
}

module.exports = { NAMES, rows };
if (require.main === module) {
  for (const name of process.argv.length > 2 ? process.argv.slice(2) : NAMES) {
    const made = rows(name);
    const before = new Set(fs.readFileSync(fileOf(name), 'utf8').split('\n'));
    console.log(`${name}: ${made.split('\n').filter((it) => !before.has(it)).length} rows are new`);
    fs.writeFileSync(fileOf(name), made);
  }
}
