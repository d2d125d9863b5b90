'use strict';
// Judges what `jslint unwrap` writes of strewn texts: of generated scripts with pairs, blanks, line ends and comments strewn in (../rows/strew.js).
//
//   node [--experimental-vm-modules] unwrap_judge.js [--language base|script|module] [--n COUNT] [--seed S] [--show K]
//
// In the languages of 2022 the scripts are also texts of `editions` and `later_answers` in crates/cases/data, up to three of which follow each other.
// unwrap_check.js looks at each answer, and the program has to write it again when it is given it. JSLINT names the program (default: the one that
// ./jslint runs). Exit status 1 where a fault is found. tools/test judges 500 texts so, and has this see the faults of planted programs;
// `node tools/compare/unwrap_judge.js --n 10000 --seed $(date +%Y%m%d)` is the run for a night: other texts each time.

const fs = require('node:fs');
const os = require('node:os');
const path = require('node:path');
const { spawnSync } = require('node:child_process');
const { option, program } = require('./shared.js');
const { rowsOf } = require('../definitions/cases.js');
const { runInBigStack } = require('../model/bigstack.js');
const { randomSource } = require('../model/random.js');
const { parse } = require('../model/parse.js');
const { check } = require('./unwrap_check.js');
const { FINAL } = require('../model/unwrap.js');
const { isWhole, scripts } = require('./unwrap.js');
const { strewn } = require('../rows/strew.js');
// Scripts of each kind that are made at a time: some of them are accepted.
const ROUND = 20;

// What each language is to the model's parser, and the words for it on the command line.
const LANGUAGES = { base: [{}, []], script: [{ edition: 2022 }, ['--edition', '2022']], module: [{ edition: 2022, module: true }, ['--module']] };
const optionsOf = (language) => ({ ...FINAL, ...LANGUAGES[language][0] });

const pairsOf = (text, options) => parse(text, options).pairs?.length ?? 0;

function shuffle(source, list) {
  for (let i = list.length - 1; i > 0; i--) {
    const k = source.below(i + 1);
    [list[i], list[k]] = [list[k], list[i]];
  }
  return list;
}

// Texts that the rows have of a language of 2022.
const textsOf = (language) =>
  ['editions', 'later_answers']
    .flatMap((file) => rowsOf(file, ['early', 'unwrap']))
    .filter((row) => row.language === language)
    .map((row) => row.texts[0]);

// Texts of a language that are to be strewn.
function taken(source, language, round, rows) {
  if (language === 'base') return scripts(source, ROUND, round);
  const some = () => Array.from({ length: 1 + source.below(3) }, () => source.pick(rows)).join('\n');
  return [...scripts(source, 1, round), ...Array.from({ length: 5 * ROUND }, some)].filter((it) => parse(it, optionsOf(language)).ok);
}

// So many strewn texts that have pairs.
function* strewnTexts(count, seed, language) {
  const source = randomSource(seed),
    options = optionsOf(language),
    rows = textsOf(language);
  let left = count;
  for (let round = seed;; round++) {
    for (const text of shuffle(source, taken(source, language, round, rows))) {
      const it = strewn(source, text, options);
      if (!isWhole(it) || pairsOf(it, options) === 0) continue;
      yield it;
      left -= 1;
      if (left === 0) return;
    }
  }
}

// Unwraps a text by the program.
function unwrapper(jslint, folder, language) {
  const file = path.join(folder, 'a.js');
  return (text) => {
    fs.writeFileSync(file, text);
    const done = spawnSync(jslint, ['unwrap', ...LANGUAGES[language][1], file], { encoding: 'utf8', maxBuffer: 1 << 30 });
    return { ok: done.status === 0 && done.stderr === '', text: done.stdout, said: done.stderr };
  };
}

// Of a text: its pairs, those of the answer, whether that is another text, and what is wrong with it.
function judged(text, unwrap, options) {
  const answer = unwrap(text);
  const fault = answer.ok ? check(text, answer.text, unwrap, options) : `refused: ${answer.said.trim()}`;
  return { before: pairsOf(text, options), after: pairsOf(answer.text, options), changed: answer.text !== text, fault };
}

// What is seen of the texts, and of each that is at fault what it is and what is wrong.
function seen(jslint, count, seed, language) {
  const folder = fs.mkdtempSync(path.join(os.tmpdir(), 'judge-'));
  const unwrap = unwrapper(jslint, folder, language),
    counts = { texts: 0, changed: 0, before: 0, after: 0 },
    faults = [];
  for (const text of strewnTexts(count, seed, language)) {
    const { before, after, changed, fault } = judged(text, unwrap, optionsOf(language));
    counts.texts += 1;
    counts.changed += changed;
    counts.before += before;
    counts.after += after;
    if (fault !== null) faults.push(`${fault}: ${JSON.stringify(text)}`);
  }
  fs.rmSync(folder, { recursive: true });
  return { counts, faults };
}

function main() {
  const [count, seed, shown] = [option('n', 500), option('seed', 1), option('show', 20)].map(Number);
  const { counts, faults } = runInBigStack(__filename, 'seen', [program(), count, seed, option('language', 'base')]);
  for (const it of faults.slice(0, shown)) console.log(it);
  console.log(`${counts.texts} texts, ${counts.changed} changed, ${counts.before} pairs, ${counts.after} after, ${faults.length} faults`);
  return faults.length === 0 && counts.changed > 0 ? 0 : 1;
}

module.exports = { seen };
if (require.main === module) process.exitCode = main();
