'use strict';
// Holds `fix` against the plain model over random scripts: the fixed text is the model's, it has the same tree, and fixing it again
// gives it again.
//
//   node fix.js [--n COUNT] [--seed S] [--show K] [--keep FOLDER] [--file TEXTS]
//
// Makes COUNT texts of each of three kinds (constructs that stand in each other, with groups; scripts dense in names, functions and
// classes; sentences and mutated programs), half of them with what the 12th edition adds, runs the program fix.txt over copies of the crates by `rt try` (no proof) and compares
// its answers with plan.js and print.js. Exit status 1 where anything disagrees.

const fs = require('node:fs');
const path = require('node:path');
const { answersOf, copied, option, withAdditions } = require('./shared.js');
const { makeScript } = require('./early.js');
const { makeTexts, nested } = require('./parser.js');
const { LIMITS, parse } = require('../model/parse.js');
const { plan } = require('../model/plan.js');
const { layout } = require('../model/print.js');
const { randomSource } = require('../model/random.js');
const { plainTree } = require('../definitions/model.js');

function someTexts(count, seed) {
  const source = randomSource(seed);
  const texts = [];
  for (let k = 0; k < count; k++) texts.push(nested(source), makeScript(source));
  return [...makeTexts(count, seed), ...withAdditions(source, texts)];
}

// The model's answer, and the tree of what it accepts.
function model(text) {
  const parsed = parse(Buffer.from(text), LIMITS);
  if (!parsed.ok) return { answer: parsed.fault.kind === 'Early' ? `E${parsed.fault.number} ${parsed.fault.at}` : parsed.fault.kind, tree: null };
  return { answer: layout(parsed.tree, plan(parsed.tree).wrapped), tree: parsed.tree };
}

// A tree without places.
function bare(n) {
  return n === null ? '~' : `(${n.kind} [${n.text}] ${JSON.stringify(n.flags)}${n.parts.map(bare).join('')})`;
}

function main() {
  const file = option('file', null);
  const texts = file !== null ? fs.readFileSync(file, 'utf8').split('\0') : someTexts(Number(option('n', 1000)), Number(option('seed', 1)));
  const folder = copied(path.join(__dirname, 'fix.txt'), ['source_text', 'lint']);
  const answers = answersOf(folder, texts, 4000);
  const fixed = [];
  let differ = 0;
  const tell = (text, wanted, given) => {
    differ += 1;
    if (differ <= Number(option('show', 20)))
      console.log(JSON.stringify(text) + '\n  model: ' + JSON.stringify(wanted) + '\n  crate: ' + JSON.stringify(given));
  };
  for (let i = 0; i < answers.length; i++) {
    const wanted = model(texts[i]);
    if (wanted.answer !== answers[i]) tell(texts[i], wanted.answer, answers[i]);
    if (wanted.tree === null) continue;
    fixed.push(answers[i]);
    const again = model(answers[i]);
    if (again.tree === null || bare(plainTree(again.tree)) !== bare(plainTree(wanted.tree))) tell(texts[i], 'the same tree', answers[i]);
  }
  const twice = answersOf(folder, fixed, 4000);
  for (let i = 0; i < twice.length; i++) if (twice[i] !== fixed[i]) tell(fixed[i], fixed[i], twice[i]);
  console.log(`${answers.length} texts, ${fixed.length} fixed, ${differ} disagreements`);
  if (differ > 0) process.exitCode = 1;
}

if (require.main === module) main();
