'use strict';
// Holds `jslint check` to ESLint's rules of the same names (Debian's eslint 6.4, strict scripts or modules of ES2020), over published files
// that both read. All rules are on that both have, with the same meaning where an option chooses it. A report is a rule and a place; where
// ESLint reports another place of the same thing, eslint_places.js says which. A report on one side alone has a reason (eslint_reasons.js), or
// it is printed with its place, up to ten of a rule; exit status 1 if there is one.
//
//   NODE_PATH=/usr/share/nodejs node eslint.js [--module] [--jobs N] [--list FILE | FILE..]
//
// With --list the files are those that a file names, one a line; without files the scripts of Debian's packages that scripts.js names.

const fs = require('node:fs');
const os = require('node:os');
const path = require('node:path');
const { Linter } = require('/usr/share/nodejs/eslint');
const { spawnSync } = require('node:child_process');
const { Worker, isMainThread, parentPort, workerData } = require('node:worker_threads');
const { option, program } = require('./shared.js');
const { RULE_SETS } = require('../model/rules.js');
const { packaged } = require('./scripts.js');
const { Source } = require('./eslint_source.js');
const { ONCE, PLACES } = require('./eslint_places.js');
const { reasonOf } = require('./eslint_reasons.js');

const linter = new Linter();
const RULES = RULE_SETS.get('all').filter((it) => linter.getRules().has(it));

// What makes two rules of a name mean the same.
const OF_ESLINT = { 'no-shadow': [{ hoist: 'all' }], 'no-unused-vars': [{ args: 'none', caughtErrors: 'none' }] };
const OF_SELF = '[rules]\nno-empty = { allow-comments = true }\n';

function byEslint(text, isModule) {
  const config = {
    env: { es2020: true },
    parserOptions: { ecmaVersion: 2020, sourceType: isModule ? 'module' : 'script', ecmaFeatures: { impliedStrict: true } },
    rules: Object.fromEntries(RULES.map((it) => [it, [2, ...(OF_ESLINT[it] ?? [])]])),
  };
  return linter.verify(text, config, { allowInlineConfig: false });
}

// The reports with their places in bytes, or nothing if the file is refused.
function bySelf(file, { isModule, settings }) {
  const words = ['check', '--spans', '--settings', settings, ...(isModule ? ['--module'] : []), file];
  const done = spawnSync(program(), words, { encoding: 'utf8', maxBuffer: 1 << 30 });
  if (done.status !== 0 && done.status !== 1) return null;
  return done.stdout
    .split('\n')
    .filter((it) => it !== '')
    .map((it) => /^(\d+) \d+ (\S+) /.exec(it))
    .map((it) => ({ rule: it[2], place: +it[1] }));
}

// From places in bytes to places in UTF-16 units, behind a byte order mark.
function inUnits(text) {
  const length = Buffer.byteLength(text);
  if (length === text.length) return (byte) => byte;
  const units = new Int32Array(length + 1);
  let at = 0,
    unit = text.startsWith('\ufeff') ? -1 : 0;
  for (const character of text) {
    const bytes = Buffer.byteLength(character);
    units.fill(unit, at, at + bytes);
    at += bytes;
    unit += character.length;
  }
  units[length] = unit;
  return (byte) => units[byte];
}

// How often each rule reports each place: once, where it is asked for once.
function counted(reports) {
  const found = new Map();
  for (const { rule, place } of reports) {
    const key = `${rule} ${place}`;
    found.set(key, ONCE.has(rule) ? 1 : (found.get(key) ?? 0) + 1);
  }
  return found;
}

// ESLint's reports at the places where `jslint` has them.
function moved(reports, source) {
  const seen = new Map();
  return reports.map(({ ruleId: rule, line, column }) => {
    const place = source.code.getIndexFromLoc({ line, column: column - 1 });
    const nth = seen.get(`${rule} ${place}`) ?? 0;
    seen.set(`${rule} ${place}`, nth + 1);
    return { rule, place: PLACES[rule]?.(source, place, nth) ?? place };
  });
}

// The differences of one file: side, rule, place, how many, and the reason; and how often the two agree, by rule.
function compared(text, ours, theirs, code) {
  const source = new Source(code);
  const units = inUnits(text);
  const left = counted(ours.map(({ rule, place }) => ({ rule, place: units(place) }))),
    right = counted(moved(theirs, source));
  const both = new Map(),
    apart = [];
  for (const key of new Set([...left.keys(), ...right.keys()])) {
    const [rule, at] = key.split(' ');
    const place = Number(at),
      of = { jslint: left.get(key) ?? 0, eslint: right.get(key) ?? 0 };
    both.set(rule, (both.get(rule) ?? 0) + Math.min(of.jslint, of.eslint));
    const side = of.jslint > of.eslint ? 'jslint' : 'eslint';
    const count = Math.abs(of.jslint - of.eslint);
    if (count > 0) apart.push({ side, rule, place, count, reason: reasonOf(side, rule, place, source) });
  }
  return { both, apart };
}

// What is printed of a list of files.
function overFiles({ files, isModule, settings }) {
  const counts = new Map(),
    unexplained = [];
  const add = (key, by) => counts.set(key, (counts.get(key) ?? 0) + by);
  for (const file of files) {
    const text = fs.readFileSync(file, 'utf8');
    const ours = bySelf(file, { isModule, settings });
    const theirs = ours === null ? null : byEslint(text, isModule);
    if (theirs === null || theirs.some((it) => it.fatal)) {
      add('refused', 1);
      continue;
    }
    add('read', 1);
    const { both, apart } = compared(text, ours, theirs, linter.getSourceCode());
    for (const [rule, count] of both) if (count > 0) add(`${rule} | both`, count);
    for (const { side, rule, place, count, reason } of apart) {
      add(`${rule} | ${side} alone: ${reason ?? 'NOT KNOWN'}`, count);
      if (reason === null) unexplained.push({ file, rule, side, place, count });
    }
  }
  return { counts, unexplained };
}

// The files of the command line, or those of the packages.
function files() {
  const list = option('list', null);
  if (list !== null)
    return fs
      .readFileSync(list, 'utf8')
      .split('\n')
      .filter((it) => it !== '');
  const named = process.argv.slice(2).filter((it, i, words) => !it.startsWith('--') && words[i - 1] !== '--jobs');
  return named.length > 0 ? named : packaged();
}

function inWorker(data) {
  return new Promise((resolve, reject) => {
    const worker = new Worker(__filename, { workerData: data, resourceLimits: { stackSizeMb: 64 } });
    worker.on('message', resolve);
    worker.on('error', reject);
  });
}

async function main() {
  const settings = path.join(fs.mkdtempSync(path.join(os.tmpdir(), 'eslint-')), 'jslint.toml');
  fs.writeFileSync(settings, `only = [${RULES.map((it) => JSON.stringify(it)).join(', ')}]\n${OF_SELF}`);
  const jobs = Number(option('jobs', '1')),
    all = files(),
    isModule = process.argv.includes('--module');
  const parts = Array.from({ length: jobs }, (_, k) => all.filter((_, i) => i % jobs === k));
  const found = await Promise.all(parts.map((it) => inWorker({ files: it, isModule, settings })));
  const counts = new Map(),
    shown = new Map();
  for (const [key, count] of found.flatMap((it) => [...it.counts])) counts.set(key, (counts.get(key) ?? 0) + count);
  const unexplained = found.flatMap((it) => it.unexplained);
  for (const { file, rule, side, place } of unexplained) {
    const key = `${rule} ${side}`;
    shown.set(key, (shown.get(key) ?? 0) + 1);
    if (shown.get(key) <= 10) console.log(`${file}, ${place}: ${rule}, ${side} alone`);
  }
  console.log(`${RULES.length} rules, ${counts.get('read') ?? 0} files, ${counts.get('refused') ?? 0} that one of the two refuses`);
  for (const [key, count] of [...counts].sort()) if (key.includes('|')) console.log(`${key}: ${count}`);
  console.log(`${unexplained.length} unexplained`);
  process.exitCode = unexplained.length > 0 ? 1 : 0;
}

if (!isMainThread) parentPort.postMessage(overFiles(workerData));
else if (require.main === module) main();

module.exports = { compared };
