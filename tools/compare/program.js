'use strict';
// Holds the built program against the plain model over generated texts: what `tree`, `fix`, `unwrap`, `cost`, `check` and `verify` (of `cost`'s
// table) write, their status and their refusals, but for the place of a syntax error; and that `fix` and `unwrap` give again what they wrote.
// unwrap_check.js judges what `unwrap` writes.
//
//   node program.js [--n COUNT] [--seed S] [--show K] [--height H --open M] [--unwrap]
//
// COUNT texts of each of five kinds: sentences, mutated programs and random tokens; constructs in each other; scripts dense in names, functions
// and classes. To half of them what the 12th edition adds is added, where they have room. With --unwrap only what `unwrap` answers, for the texts
// of unwrap.js: scripts, each as it is and three times with pairs, blanks, line ends and comments strewn in. JSLINT names the program
// (default: the one that ./jslint runs), --height and --open its limits. Exit status 1 where anything disagrees.

const fs = require('node:fs');
const os = require('node:os');
const path = require('node:path');
const { spawnSync } = require('node:child_process');
const { option, program, withAdditions } = require('./shared.js');
const { makeScript } = require('./early.js');
const { makeTexts, nested } = require('./parser.js');
const { runInBigStack } = require('../model/bigstack.js');
const { randomSource } = require('../model/random.js');
const { judgement, modelOf, withoutHint } = require('./scripts.js');
const strewn = require('./unwrap.js');
const isUnwrapAlone = process.argv.includes('--unwrap');
const COMMANDS = isUnwrapAlone ? ['unwrap'] : ['tree', 'fix', 'unwrap', 'cost', 'check', 'verify'];
// These give again what they wrote.
const REWRITE = COMMANDS.filter((it) => /^(fix|unwrap)$/.test(it));

function someTexts(count, seed) {
  const source = randomSource(seed);
  const texts = [];
  for (let k = 0; k < count; k++) texts.push(nested(source), makeScript(source));
  return [...makeTexts(count, seed), ...withAdditions(source, texts)].filter((it) => it.isWellFormed() && !it.includes('\0'));
}

const plain = (said) => said.replace(/syntax error at .*/, 'syntax error');

// Which the model answers: of each text what each command does.
function modelAnswers(texts, limits, commands) {
  return texts.map((text) =>
    commands.map((command) => {
      const answer = modelOf(command, Buffer.from(text), limits);
      return `${answer.status} ${plain(answer.err)}${answer.out}${judgement(command, Buffer.from(text), answer, limits)}`;
    })
  );
}

function jslint(...words) {
  const done = spawnSync(program(), words, { encoding: 'utf8', maxBuffer: 1 << 30 });
  return { text: `${done.status} ${plain(withoutHint(done.stderr))}${done.stdout}`, out: done.stdout };
}

// The same of the program, and the commands that don't give again what they wrote.
function answers(text, folder) {
  const [file, table, written] = ['a.js', 'table', 'written.js'].map((it) => path.join(folder, it));
  fs.writeFileSync(file, text);
  const found = COMMANDS.map((command) => {
    const done = jslint(command, file, ...(command === 'verify' ? [table] : []));
    if (command === 'cost') fs.writeFileSync(table, done.out);
    return done;
  });
  const unstable = REWRITE.filter((command) => {
    const done = found[COMMANDS.indexOf(command)];
    if (!done.text.startsWith('0 ')) return false;
    fs.writeFileSync(written, done.out);
    return jslint(command, written).out !== done.out;
  });
  return { texts: found.map((it) => it.text), unstable };
}

function main() {
  const [count, seed] = [Number(option('n', 1000)), Number(option('seed', 1))];
  const texts = (isUnwrapAlone ? strewn.someTexts : someTexts)(count, seed);
  const limits = { maxHeight: Number(option('height', 600)), maxParens: Number(option('open', 1200)) };
  const model = runInBigStack(__filename, 'modelAnswers', [texts, limits, COMMANDS]);
  const folder = fs.mkdtempSync(path.join(os.tmpdir(), 'program-'));
  let accepted = 0,
    differ = 0;
  const tell = (text, command, wanted, given) => {
    differ += 1;
    if (differ <= Number(option('show', 20))) console.log(`${command} ${JSON.stringify(text)}\n  model:   ${wanted}\n  program: ${given}`);
  };
  texts.forEach((text, i) => {
    const { texts: found, unstable } = answers(text, folder);
    if (found[COMMANDS.indexOf('unwrap')].startsWith('0 ')) accepted += 1;
    COMMANDS.forEach((command, k) => found[k] === model[i][k] || tell(text, command, model[i][k], found[k]));
    for (const command of unstable) tell(text, command, 'what it wrote, again', 'another text');
  });
  console.log(`${texts.length} texts, ${accepted} accepted, ${differ} disagreements`);
  return differ === 0 ? 0 : 1;
}

module.exports = { modelAnswers, someTexts };
if (require.main === module) process.exitCode = main();
