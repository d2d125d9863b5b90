'use strict';
// Holds the planner against the plain model: of each script the rows with their kinds and cells, the wrapped nodes and the total.
//
//   node planner.js [--n COUNT] [--seed S] [FILE..]
//
// The scripts are the files, and COUNT sentences of the declarative grammar (0 where files are given, else 2,000), half of them with what
// the 12th edition adds. Copies the crates
// that the planner and the parser stand on and the program planner.txt to a temporary folder and runs it there by `rt try` (it needs no
// proof; the environment's RT may name another command). What the parser refuses must be refused by the model. Exit status 1 where
// anything disagrees.

const fs = require('node:fs');
const path = require('node:path');
const { answersOf, copied, option, withAdditions } = require('./shared.js');
const { runInBigStack } = require('../model/bigstack.js');
const { sample } = require('../model/brute.js');
const { parseOnly } = require('../model/parse.js');
const { plan } = require('../model/plan.js');
const { randomSource } = require('../model/random.js');

const files = process.argv.slice(2).filter((word, i, words) => !word.startsWith('--') && !words[i - 1]?.startsWith('--'));

function scripts() {
  const source = randomSource(Number(option('seed', 1)));
  const count = Number(option('n', files.length > 0 ? 0 : 2000));
  const sentences = Array.from({ length: count }, () => sample(source.next, 10 + source.below(80)).join(' '));
  return [...files.map((file) => fs.readFileSync(file, 'utf8')), ...withAdditions(source, sentences)].filter((t) => t.isWellFormed() && !t.includes('\0'));
}

// Which the model answers.
function modelAnswers(texts) {
  return texts.map(answer);
}

function answer(text) {
  const { tree, ok } = parseOnly(text);
  if (!ok) return 'refused';
  const { rows, total, wrappedRows } = plan(tree);
  let sum = 2166136261;
  rows.forEach((row, index) => {
    const cells = row.cells.map((cell) => (cell === Infinity ? '-' : cell));
    const line = [index + 1, row.type, ...cells].join(' ') + (wrappedRows.has(index + 1) ? ' wrapped\n' : '\n');
    for (let i = 0; i < line.length; i++) sum = Math.imul(sum ^ line.charCodeAt(i), 16777619) >>> 0;
  });
  return `${rows.length} ${total} ${sum}`;
}

function main() {
  const texts = scripts();
  const answers = answersOf(copied(path.join(__dirname, 'planner.txt'), ['source_text', 'tree', 'language', 'parser', 'paren_planner']), texts, 4000);
  const model = runInBigStack(__filename, 'modelAnswers', [texts]);
  let rows = 0;
  let refused = 0;
  let differ = 0;
  answers.forEach((found, i) => {
    const wanted = model[i];
    if (wanted === 'refused') refused += 1;
    else rows += Number(wanted.split(' ')[0]);
    if (wanted === found) return;
    differ += 1;
    console.log(`${files[i] ?? JSON.stringify(texts[i])}\n  model:   ${wanted}\n  planner: ${found}`);
  });
  console.log(`${answers.length} scripts, ${refused} refused, ${rows} rows, ${differ} disagreements`);
  if (differ > 0) process.exitCode = 1;
}

module.exports = { modelAnswers };
if (require.main === module) main();
