'use strict';
// Writes the rows of texts at the limits: `limits`, where each construct stands in itself up to the greatest height, and `mixes`, where
// a construct, or two in turn, go to the greatest height with the most open parentheses. The answers are those of the plain model.
//
//   node limits.js limits|mixes > ../../crates/cases/data/limits|mixes

const { HOLDERS } = require('../compare/parser.js');
const { runInBigStack } = require('../model/bigstack.js');
const { LIMITS, parse, parseOnly } = require('../model/parse.js');
const { unwrap } = require('../model/unwrap.js');

// What holds an expression as an expression, or a statement as a statement: its text, with `@` for what it holds. The links are those
// that the parser's comparison has no holder of.
const LINKS = ['@.b', '@[b]', '@(b)', '@`b`', '@?.b', '@ || b', 'new @', 'super(@)', 'super[@]'];
const EXPRESSIONS = [...HOLDERS.expression.filter((it) => it !== '(@)').map((it) => it.replace('-@', '- @')), ...LINKS];
const STATEMENTS = HOLDERS.statement.filter((it) => it !== 'a; @');
const AS_EXPRESSIONS = [...EXPRESSIONS, ...HOLDERS.ended.map((it) => `() => { ${it} }`)];
const AS_STATEMENTS = [...STATEMENTS, ...HOLDERS.valued.map((it) => `!(${it});`)];
// All of them as expressions that hold expressions.
const MIXED = [...AS_EXPRESSIONS, ...HOLDERS.valued.map((it) => it.replace('@', '@;')), ...STATEMENTS.map((it) => `() => { ${it.replace('@', '@;')} }`)];

const repeated = (text, count) => (count === 0 || text === '' ? '' : count === 1 ? text : `⟦${text}×${count}⟧`);
const meant = (text) => text.replace(/⟦([^⟦⟧×]*)×(\d+)⟧/g, (_, piece, count) => piece.repeat(Number(count)));

// The holder so many times, round a text.
function around(holder, count, inner) {
  const [open, close] = holder.split('@');
  return repeated(open, count) + inner + repeated(close, count);
}

const read = (text) => parseOnly(meant(text), { maxHeight: 1e6, maxParens: 1e6 });

// The height of a script, and how many parentheses are open at once, or no number where it is none.
function sizes(text) {
  const result = read(text);
  return result.ok ? [result.height, result.openParens] : [NaN, NaN];
}

// What stands before and behind a text, where it is no script alone.
const FRAMES = ['@', '!@', 'a = @', 'class A extends B { constructor() { @ } }'];
function frameOf(text) {
  const framed = (it) => it.replace('@', () => text);
  return FRAMES.find((it) => parse(framed(it), LIMITS).ok) ?? FRAMES.find((it) => read(framed(it)).ok);
}

// The holder so many times round a text, as a script; `simple` is a text that it can hold.
function script(holder, count, inner, simple = 'a') {
  return frameOf(around(holder, 1, simple)).replace('@', () => around(holder, count, inner));
}

// How many times a holder stands in itself at most.
function most(make) {
  const [one] = sizes(make(1));
  const [two] = sizes(make(2));
  if (!(two > one)) throw new Error(`no script: ${make(2)}`);
  let count = Math.floor((LIMITS.maxHeight - one) / (two - one)) + 1;
  while (sizes(make(count))[0] > LIMITS.maxHeight) count -= 1;
  while (sizes(make(count + 1))[0] <= LIMITS.maxHeight) count += 1;
  return count;
}

// The row of a text, by what the model answers: `fixes` where it has no early error, else `pairs`.
function row(text) {
  if (parse(meant(text), LIMITS).ok) return `fixes\t${text}\tfixed`;
  const result = parseOnly(meant(text), LIMITS);
  if (!result.ok && result.fault.kind !== 'TooDeep') throw new Error(`no script: ${text.slice(0, 200)}`);
  return `pairs\t${text}\t${result.ok ? result.pairs.length : 'nested too deep'}`;
}

// The row of a text and what it is unwrapped to, where that is this.
function unwrapped(text, want) {
  const found = unwrap(meant(text), LIMITS);
  return found.ok && found.text === meant(want) ? [`unwrap\t${text}\t${want}`] : [];
}

// The row of a text that is beyond a limit.
function refused(text) {
  const line = row(text);
  if (!line.endsWith('nested too deep')) throw new Error(`not too deep: ${line.slice(0, 200)}`);
  return line;
}

// Whether what it holds several times stands inside all of them: not so the operand of `a * a * @`.
function isInside(holder) {
  return sizes(script(holder, 3, '!!!!!!!!a'))[0] === sizes(script(holder, 3, '!!!!a'))[0] + 4;
}

// A construct in itself: at the greatest height, and once more.
function limitRows(holder, inner) {
  const make = (count) => script(holder, count, inner, inner);
  const count = most(make);
  return [row(make(count)), refused(make(count + 1)), ...unwrapped(make(count), make(count))];
}

// A holder of expressions, in pairs: up to the greatest height, filled by `!`, and with the most open parentheses; then one level more
// or one parenthesis more.
function mixedRows(given) {
  const holder = isInside(given) ? given : given.replace('@', '(@)');
  const count = most((it) => script(holder, it, 'a'));
  const [high, open] = sizes(script(holder, count, 'a'));
  if (open > LIMITS.maxParens) throw new Error(`too many parentheses: ${holder}`);
  const text = (levels, pairs) => script(holder, count, repeated('!', levels) + around('(@)', pairs, 'a'));
  let pairs = LIMITS.maxParens - open;
  while (sizes(text(0, pairs + 1))[1] <= LIMITS.maxParens) pairs += 1;
  let levels = LIMITS.maxHeight - high;
  while (sizes(text(levels + 1, pairs))[0] <= LIMITS.maxHeight) levels += 1;
  const rows = [row(text(levels, pairs)), refused(text(levels + 1, pairs)), refused(text(levels, pairs + 1))];
  return [...rows, ...unwrapped(text(levels, pairs), text(levels, 0))];
}

// Two holders in turn, in a pair each.
const both = (one, other) => `(${one.replace('@', `(${other})`)})`;

const FILES = {
  limits: () => [
    '# Each construct in itself, up to the greatest height, and once more; and that it is unwrapped to itself, where it is. Made by',
    '# tools/rows/limits.js.',
    ...AS_EXPRESSIONS.flatMap((it) => limitRows(it, 'a')),
    ...AS_STATEMENTS.flatMap((it) => limitRows(it, ';')),
  ],
  mixes: () => [
    '# Each construct, and two in turn, up to the greatest height and with the most open parentheses; then with one level or one',
    '# parenthesis more; and what it is unwrapped to, where no other pair goes. Made by tools/rows/limits.js.',
    ...MIXED.flatMap((it) => mixedRows(it)),
    ...MIXED.flatMap((it, i) => mixedRows(both(it, MIXED[(i + 31) % MIXED.length]))),
  ],
};

const rows = (name) => FILES[name]().join('\n') + '\n';
module.exports = { rows };
if (require.main === module) process.stdout.write(runInBigStack(__filename, 'rows', [process.argv[2]]));
