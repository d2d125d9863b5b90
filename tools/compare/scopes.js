'use strict';
// Holds the reports of the rules, as the program makes them, against the plain model.
//
//   node scopes.js [--n COUNT] [--seed S] [--show K] [--keep FOLDER]
//
// All grouping pairs count as extra here. Exit status 1 where anything disagrees.

const path = require('node:path');
const { answersOf, copied, option, withAdditions } = require('./shared.js');
const { parseOnly } = require('../model/parse.js');
const { randomSource } = require('../model/random.js');
const { resolve } = require('../model/scopes.js');
const { RULE_NAMES, runRules } = require('../model/rules.js');
const { OWN, scopeScript } = require('../rows/scope_texts.js');

const source = randomSource(Number(option('seed', 1)));
const texts = [...OWN, ...withAdditions(source, Array.from({ length: Number(option('n', 1000)) }, () => scopeScript(source)))];

function answer(text) {
  const result = parseOnly(text);
  if (!result.ok) return 'refused';
  const settings = {
    rules: Object.fromEntries(RULE_NAMES.map((r) => [r, r === 'no-var' ? 'off' : 'error'])),
    globals: ['a', 'zz'],
    environments: [],
    allowNull: true,
    allowComments: true,
    ignoreUnderscore: false,
  };
  const extra = result.pairs.map((p) => ({ start: p.left, end: p.right + 1 }));
  return runRules({ tree: result.tree, text, scopes: resolve(result.tree), extra, settings })
    .map((r) => `${r.start}-${r.end} ${r.rule} ${r.text}\n`)
    .join('');
}

const answers = answersOf(copied(path.join(__dirname, 'scopes.txt'), ['source_text', 'tree', 'language', 'parser', 'scopes', 'rules']), texts, 8000);
let differ = 0;
answers.forEach((given, i) => {
  const wanted = answer(texts[i]);
  if (given === wanted) return;
  differ += 1;
  if (differ <= Number(option('show', 5)))
    console.log(JSON.stringify(texts[i]) + '\n  program ' + JSON.stringify(given) + '\n  model   ' + JSON.stringify(wanted));
});
console.log(`${answers.length} texts, ${differ} disagreements`);
process.exitCode = differ === 0 && answers.length === texts.length ? 0 : 1;
