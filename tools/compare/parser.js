'use strict';
// Holds the parser against the plain model: acceptance, grouping pairs, and the tree with places, texts and flags.
//
//   node parser.js [--n COUNT] [--nested COUNT] [--seed S] [--show K] [--keep FOLDER] [--file TEXTS]
//                   [--high H --open M] [--language base|script|module] [--rows [--mutants N]]
//
// Makes COUNT texts of each kind (sentences of the declarative grammar, mutated programs, random token strings), half of them with
// what the 12th edition adds, copies
// the crates that the parser stands on and the program parser.txt to a temporary folder, runs the program there by `rt try`
// (it needs no proof; the environment's RT may name another command) and compares its answers with parse.js.
// --nested: that many texts in which constructs stand in each other, and no others.
// --file: texts of one's own, with U+0000 between them. --language: what all texts are read as; base if it isn't said. --rows: the texts of
// the rows `editions` and `early` of crates/cases/data, each in its language, with its answer too; --mutants: N texts changed from rows in their place. --high H --open M: with these limits in place of the usual ones, so
// that small texts meet them; a text that derives nothing may then be too deep too. Exit status 1 where anything disagrees.

const fs = require('node:fs');
const path = require('node:path');
const { answersOf, copied, option, pieces, withAdditions } = require('./shared.js');
const { ALPHABETS } = require('../model/alphabets.js');
const { sample } = require('../model/brute.js');
const { PROGRAMS } = require('../model/fuzz-programs.js');
const { LIMITS, parseOnly } = require('../model/parse.js');
const { randomSource } = require('../model/random.js');
const { rowsOfLanguages } = require('../definitions/cases.js');
const { plainTree } = require('../definitions/model.js');

// ---------------------------------------------------------------- texts

function mutated(source, pool, program = source.pick(PROGRAMS)) {
  const list = pieces(program);
  for (let m = source.below(3); m >= 0; m--) {
    const i = source.below(list.length + 1);
    switch (source.below(5)) {
      case 0:
        list.splice(i, 1);
        break;
      case 1:
        list.splice(i, 0, source.pick(pool));
        break;
      case 2:
        list[Math.min(i, list.length - 1)] = source.pick(pool);
        break;
      case 3:
        list.splice(i, 0, source.pick(['\n', '(', ')', '(a)', '/', '+', '`x`', '{', '}', ',', '=>', '=', '...']));
        break;
      default: { // a group round a stretch
        const j = Math.min(list.length, i + 1 + source.below(8));
        list.splice(j, 0, ')');
        list.splice(i, 0, '(');
      }
    }
  }
  return list.join('');
}

function makeTexts(count, seed) {
  const source = randomSource(seed);
  const pool = PROGRAMS.flatMap(pieces).filter((p) => p.trim() !== '');
  const lists = Object.values(ALPHABETS);
  const texts = [];
  for (let k = 0; k < count; k++) {
    texts.push(sample(source.next, 10 + source.below(80)).join(source.pick([' ', ' ', '\n'])));
    texts.push(mutated(source, pool));
    const list = source.pick(lists);
    const glue = source.pick([' ', ' ', '']);
    texts.push(Array.from({ length: 1 + source.below(9) }, () => source.pick(list)).join(glue));
  }
  return [...PROGRAMS, ...withAdditions(source, texts)].filter((t) => t.isWellFormed() && !t.includes('\0'));
}

// What holds an expression at its `@`, as an expression or as a statement (`ended`), and what holds a statement, as an
// expression (`valued`) or as a statement.
const HOLDERS = {
  expression: [
    '(@)',
    '[@]',
    '[...@]',
    '[, @]',
    '({a: @})',
    '({[@]: 1})',
    '({...@})',
    '-@',
    '!@',
    '@ + b',
    'a * @',
    '(@) ** b',
    'a ** @',
    '@ ? a : b',
    'a ? @ : b',
    'a ? b : @',
    'a = @',
    '[a] = @',
    '[a = @] = b',
    '({a = @} = b)',
    '({a: [b = @]} = c)',
    'f(@)',
    'f(...@)',
    '(@)(b)',
    '(@).b',
    '(@)[b]',
    'a[@]',
    '`${@}`',
    '(@)`x`',
    'new (@)',
    'new a(@)',
    '() => @',
    '(a = @) => b',
    '({a = @}) => b',
    '(...[a = @]) => b',
    'x => (@)',
    'a?.[@]',
    '(@)?.b.c',
    'typeof @',
    'a ?? @',
    '(a, @)',
    '(@, a)',
    'function (a = @) {}',
    'class extends (@) {}',
    'class { [@]() {} }',
    'import(@)',
    '({get a() { return @ }})',
    '({set a(b = @) {}})',
  ],
  ended: [
    '@;',
    'if (@) ;',
    'while (@) a;',
    'throw @;',
    'var a = @;',
    'let [a = @] = b;',
    'for (@;;) ;',
    'for (;@;) ;',
    'for (;;@) ;',
    'for (a of @) ;',
    'for (let a = @;;) ;',
    'for ([a = @] of b) ;',
    'switch (@) {}',
    'switch (a) { case @: }',
    'do ; while (@)',
    'try {} catch ([a = @]) {}',
    'function f(a = @) {}',
    'class A extends (@) {}',
  ],
  valued: ['function () { @ }', '() => { @ }', '({m() { @ }})', '({set a(b) { @ }})', 'class { static m() { @ } }', 'class extends A { constructor() { @ } }'],
  statement: [
    '{ @ }',
    'if (a) @',
    'if (a) b; else @',
    'while (a) @',
    'do @ while (a)',
    'for (;;) @',
    'for (a in b) @',
    'for (const a of b) @',
    'l: @',
    'switch (a) { case b: @ }',
    'switch (a) { default: @ }',
    'try { @ } catch {}',
    'try {} catch (a) { @ }',
    'try {} finally { @ }',
    'function f() { @ }',
    'class A { m() { @ } }',
    'a; @',
  ],
};
function nested(source) {
  let text = source.pick(['a', '1', "'x'", 'this', '({})', 'a.b']);
  let isStatement = false;
  const some = source.below(3) === 0 ? source.pick(HOLDERS.expression) : null; // one construct in itself, or any in any
  for (let k = 1 + source.below(8); k > 0; k--) {
    const crosses = source.below(4) === 0;
    const list = isStatement ? (crosses ? HOLDERS.valued : HOLDERS.statement) : (crosses ? HOLDERS.ended : HOLDERS.expression);
    const holder = !isStatement && !crosses && some !== null ? some : source.pick(list);
    text = holder.split('@').join(text);
    isStatement = isStatement !== crosses;
  }
  return text;
}

// ---------------------------------------------------------------- the model's answers

const LETTERS = { computed: 'c', optional: 'o', is_static: 's', prefix: 'p', directive: 'd', expression: 'e' };
function show(n) {
  if (n === null) return '~';
  const flags = Object.keys(LETTERS)
    .map((f) => (n.flags[f] ? LETTERS[f] : ''))
    .join('');
  const form = n.flags.form === 'init' ? '' : ':' + n.flags.form;
  return `(${n.kind} ${n.start} ${n.stop} [${n.text}] ${flags}${form}${n.parts.map(show).join('')})`;
}
const HIGH = Number(option('high', LIMITS.maxHeight));
const OPEN = Number(option('open', LIMITS.maxParens));
const MODEL = { base: {}, script: { edition: 2022 }, module: { module: true } };
function answer(text, language) {
  const result = parseOnly(text, { maxHeight: 1e6, maxParens: 1e6, ...MODEL[language] });
  if (!result.ok) return result.fault.kind;
  if (result.height > HIGH || result.openParens > OPEN) return 'TooDeep';
  return result.pairs.map((p) => `${p.left}-${p.right} `).join('') + show(plainTree(result.tree, language));
}

// ---------------------------------------------------------------- the parser's answers

function run(texts) {
  const folder = copied(path.join(__dirname, 'parser.txt'), ['source_text', 'tree', 'language', 'parser']);
  const at = path.join(folder, 'crates/language/src/limits.rt');
  const limit = (name, value) => {
    fs.writeFileSync(at, fs.readFileSync(at, 'utf8').replace(new RegExp(`(const ${name}: \\w+ = )\\d+`), '$1' + value));
  };
  limit('MAX_HEIGHT', HIGH);
  limit('MAX_OPEN', OPEN);
  // under small limits a short text may be nested too deep
  limit('SHORT_BYTES', 0);
  return answersOf(folder, texts, 4000);
}

// The rows, or as many changed from them as --mutants says, which have no answer of their own.
function rowsOf(source) {
  const rows = rowsOfLanguages();
  const count = Number(option('mutants', 0));
  if (count === 0) return rows;
  const pool = rows.flatMap((row) => pieces(row.text)).filter((p) => p.trim() !== '');
  return Array.from({ length: count }, () => source.pick(rows))
    .map(({ text, language }) => ({ text: mutated(source, pool, text), language }))
    .filter(({ text }) => text.isWellFormed() && !text.includes('\0'));
}

function main() {
  const file = option('file', null);
  const count = Number(option('nested', 0));
  const source = randomSource(Number(option('seed', 1)));
  const rows = process.argv.includes('--rows') ? rowsOf(source) : null;
  const texts =
    rows !== null
      ? rows.map((row) => row.text)
      : file !== null
      ? fs.readFileSync(file, 'utf8').split('\0')
      : count > 0
      ? withAdditions(source, Array.from({ length: count }, () => nested(source)))
      : makeTexts(Number(option('n', 1000)), Number(option('seed', 1)));
  const languageOf = (i) => (rows === null ? option('language', 'base') : rows[i].language);
  const answers = run(texts.map((text, i) => languageOf(i)[0] + text));
  let accepted = 0;
  let deep = 0;
  let differ = 0;
  for (let i = 0; i < answers.length; i++) {
    const wanted = answer(texts[i], languageOf(i));
    const isRefused = rows?.[i].answer === 'syntax';
    if (rows?.[i].answer !== undefined && isRefused !== (answers[i] === 'Syntax'))
      console.log(`row ${i}: ${rows[i].answer}, but the parser answers ${answers[i]}`);
    if (wanted.endsWith(')')) accepted += 1;
    if (wanted === 'TooDeep') deep += 1;
    if (wanted === answers[i]) continue;
    if (wanted === 'Syntax' && answers[i] === 'TooDeep' && HIGH < LIMITS.maxHeight) continue;
    differ += 1;
    if (differ > Number(option('show', 20))) continue;
    console.log(languageOf(i) + ' ' + JSON.stringify(texts[i]) + '\n  model:  ' + wanted + '\n  parser: ' + answers[i]);
  }
  console.log(`${answers.length} texts, ${accepted} accepted, ${deep} too deep, ${differ} disagreements`);
  if (differ > 0) process.exitCode = 1;
}

module.exports = { HOLDERS, makeTexts, nested };
if (require.main === module) main();
