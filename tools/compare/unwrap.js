'use strict';
// Holds `unwrap_text` against the plain model over generated scripts: their texts without unnecessary pairs, byte for byte.
//
//   node unwrap.js [--n COUNT] [--seed S] [--show K] [--keep FOLDER] [--file TEXTS] [--cases]
//
// The texts are COUNT of each of five kinds (sentences, mutated programs, constructs that stand in each other, scripts dense in names,
// functions and classes, each `new` and call in pairs), those of them that the model accepts once as they are and three times with pairs round expressions, and blanks,
// line ends and comments between tokens; or those of a file, with U+0000 between them; or, with --cases, the worked texts of
// crates/cases/data/unwrap alone. Runs the program unwrap.txt over copies of the crates by `rt try` (no proof). Exit status 1 where anything
// disagrees, or where unwrap_check.js finds a fault in an answer.

const fs = require('node:fs');
const path = require('node:path');
const { answersOf, copied, option, withAdditions } = require('./shared.js');
const { makeScript } = require('./early.js');
const { makeTexts, nested } = require('./parser.js');
const { runInBigStack } = require('../model/bigstack.js');
const { parse } = require('../model/parse.js');
const { randomSource } = require('../model/random.js');
const { unwrap } = require('../model/unwrap.js');
const { check } = require('./unwrap_check.js');
const { strewn } = require('../rows/strew.js');
const CRATES = ['source_text', 'lint'];
const ROWS = path.join(__dirname, '..', '..', 'crates', 'cases', 'data', 'unwrap');

const isWhole = (text) => text.isWellFormed() && !text.includes('\0');

// `new`, calls and members in pairs: beside the calls that are there, `()` is put where a pair goes round a `new` without arguments.
function newsAndCalls(source, depth) {
  if (depth === 0) return source.pick(['a', '(b)', 'new c', '(new d)', '(new e)()']);
  const inner = newsAndCalls(source, depth - 1);
  const call = () => source.pick(['()', '()', '()', '(x)', '((y))']);
  return source.pick([
    `new (${inner})`,
    `new (${inner})${call()}`,
    `(${inner})`,
    `(${inner})${call()}`,
    `(${inner})${call()}${call()}`,
    `(${inner}).p`,
    `(${inner})?.${call()}`,
  ]);
}

// Scripts that the model accepts.
function scripts(source, count, seed) {
  const made = [];
  for (let k = 0; k < count; k++) made.push(nested(source), makeScript(source), newsAndCalls(source, 1 + source.below(4)));
  return [...makeTexts(count, seed), ...withAdditions(source, made)].filter((it) => isWhole(it) && parse(it).ok);
}

// Each of them, and three times with pairs, blanks, line ends and comments strewn in.
function someTexts(count, seed) {
  const source = randomSource(seed);
  return scripts(source, count, seed).flatMap((text) => [text, ...[1, 2, 3].map(() => strewn(source, text)).filter((it) => isWhole(it) && parse(it).ok)]);
}

const REFUSAL = /^(syntax|E\d+ \d+|nested too deep)$/;
const meant = (text) =>
  text
    .replace(/⟦([^⟦⟧×]*)×(\d+)⟧/g, (_, piece, count) => piece.repeat(Number(count)))
    .replace(/[\u2400-\u241f]/g, (c) => String.fromCharCode(c.charCodeAt(0) - 0x2400));

// The worked texts, with their answers.
function workedRows() {
  const lines = fs
    .readFileSync(ROWS, 'utf8')
    .split('\n')
    .filter((line) => line !== '' && !line.startsWith('#'));
  return lines.map((line) => line.split('\t').slice(1).map(meant)).map(([text, want]) => [text, REFUSAL.test(want) ? 'refused' : want]);
}

// The model's answer of each text, and what is wrong with it if anything is.
function modelAnswers(texts) {
  return texts.map((text) => {
    const answer = unwrap(text);
    if (!answer.ok) return { text: 'refused', fault: null, changed: false };
    return { text: answer.text, fault: check(text, answer.text, unwrap), changed: answer.text !== text, before: answer.before, total: answer.total };
  });
}

function main() {
  const file = option('file', null);
  const rows = process.argv.includes('--cases') ? workedRows() : [];
  const texts =
    rows.length > 0
      ? rows.map(([text]) => text)
      : file !== null
      ? fs.readFileSync(file, 'utf8').split('\0')
      : someTexts(Number(option('n', 300)), Number(option('seed', 1)));
  const answers = answersOf(copied(path.join(__dirname, 'unwrap.txt'), CRATES), texts, 4000);
  const model = runInBigStack(__filename, 'modelAnswers', [texts]);
  const counts = { changed: 0, before: 0, after: 0, differ: 0 };
  answers.forEach((found, i) => {
    const { text, fault, changed, before, total } = model[i];
    counts.changed += changed ? 1 : 0;
    counts.before += before ?? 0;
    counts.after += total ?? 0;
    const wanted = rows.length > 0 ? rows[i][1] : text;
    if (wanted === found && fault === null) return;
    counts.differ += 1;
    if (counts.differ > Number(option('show', 20))) return;
    console.log([texts[i], wanted, found].map((it) => JSON.stringify(it)).join('\n  ') + (fault === null ? '' : '\n  ' + fault));
  });
  console.log(`${answers.length} texts, ${counts.changed} changed, ${counts.before} pairs, ${counts.after} after, ${counts.differ} disagreements`);
  if (counts.differ > 0 || answers.length < texts.length) process.exitCode = 1;
}

module.exports = { isWhole, modelAnswers, scripts, someTexts };
if (require.main === module) main();
