'use strict';
// Holds the definitions of scopes, bindings, references and reports (crates scopes and rules) against the plain model
// (../model/scopes.js, rules.js), in the base profile:
//
//   node --stack-size=30000 scopes.js [--n COUNT] [--seed S] [--show K] [--file TEXTS] [--crates FOLDER]
//
// TEXTS: JSON, a list of texts. Exit status 1 where anything disagrees. plant_scopes.js asks `disagreements` of other definitions.

const fs = require('node:fs');
const path = require('node:path');
const { plainTree } = require('./model.js');
const { Reports, plainFound } = require('./reports.js');
const { ODD, rowTexts, programs } = require('./texts.js');
const { withAdditions } = require('../compare/shared.js');
const { makeScript } = require('../compare/early.js');
const { parseOnly } = require('../model/parse.js');
const { randomSource } = require('../model/random.js');
const { resolve } = require('../model/scopes.js');
const { ENVIRONMENTS } = require('../model/environments.js');
const { RULE_NAMES, defaultSettings, runRules } = require('../model/rules.js');
const { scopeScript, OWN } = require('../rows/scope_texts.js');

const option = (name, otherwise) => {
  const i = process.argv.indexOf('--' + name);
  return i < 0 ? otherwise : process.argv[i + 1];
};

// ---------------------------------------------------------------- the model in the definitions' form

function ofModel({ scopes, references }) {
  const at = new Map();
  scopes.forEach((s, n) => s.bindings.forEach((b, i) => at.set(b, [n, i])));
  return {
    scopes: scopes.map((s) => ({
      parent: s.parent,
      bindings: s.bindings.map((b) => ({
        name: b.name,
        kind: b.kind,
        start: b.start,
        end: b.end,
        settled: b.kind === 'let' && (b.initialised || b.inLoopHead) && !b.inForHead,
      })),
    })),
    references: references.map((r) => ({
      name: r.name,
      scope: r.scope,
      reads: r.reads,
      writes: r.writes,
      start: r.start,
      end: r.end,
      typeofOperand: r.underTypeof,
      meaning: r.binding === null ? null : at.get(r.binding),
    })),
  };
}

// ---------------------------------------------------------------- settings and pairs at random

const namesOf = (random) => ['a', 'b*', '*c', 'x', '*'].filter((text) => random.below(text === '*' ? 20 : 5) === 0);

function settingsOf(random) {
  const rules = Object.fromEntries(RULE_NAMES.map((name) => [name, ['off', 'warn', 'error'][Math.min(random.below(6), 2)]]));
  return {
    rules,
    globals: ['a', 'b', 'c', 'x'].filter(() => random.below(4) === 0),
    environments: [...ENVIRONMENTS.keys()].filter(() => random.below(4) === 0),
    allowNull: random.below(2) === 0,
    allowComments: random.below(2) === 0,
    ignoreUnderscore: random.below(2) === 0,
    ignoreRestSiblings: random.below(2) === 0,
    typeof: random.below(2) === 0,
    args: ['none', 'after-used', 'all'][random.below(3)],
    caughtErrors: ['none', 'all'][random.below(2)],
    argsIgnore: namesOf(random),
    varsIgnore: namesOf(random),
    caughtErrorsIgnore: namesOf(random),
    allow: namesOf(random),
  };
}

// ---------------------------------------------------------------- comparing

// the texts: those of a file, or the rows', odd and generated ones
function textsOf(file, n, random) {
  if (file !== null) return JSON.parse(fs.readFileSync(file, 'utf8'));
  const made = [];
  for (let k = 0; k < n; k++) {
    made.push(scopeScript(random));
    if (k % 3 === 0) made.push(makeScript(random));
  }
  return [...OWN, ...rowTexts(), ...ODD, ...programs(), ...withAdditions(random, made)];
}

// [name, what the definitions say, what the model says] for each environment and name of which they say otherwise
function* names(definitions, counts) {
  const all = [...new Set([...ENVIRONMENTS.values()].flatMap((it) => [...it]))];
  counts.names = all.length;
  for (const [environment, has] of ENVIRONMENTS) {
    for (const name of [...all, 'a', '', 'Windows', 'window '])
      if (definitions.isGlobal(name, environment) !== has.has(name)) yield [name, environment, !has.has(name), has.has(name)];
  }
}

// where the first of two lists differs from the second
function firstDifference(what, ours, theirs) {
  for (let i = 0; i < Math.max(ours.length, theirs.length); i++)
    if (JSON.stringify(ours[i]) !== JSON.stringify(theirs[i])) return [[`${what} ${i}`, ours[i], theirs[i]]];
  return [];
}

// the same of what the definitions say of a text: its scopes, its references and, under two settings, its reports
function* ofText(definitions, text, { tree, pairs }, random, counts) {
  const root = definitions.model.tree(plainTree(tree));
  const found = definitions.found(root);
  const ours = plainFound(found),
    resolved = resolve(tree),
    theirs = ofModel(resolved);
  counts.texts += 1;
  counts.scopes += ours.scopes.length;
  counts.bindings += ours.scopes.reduce((n, s) => n + s.bindings.length, 0);
  counts.references += ours.references.length;
  counts.bound += ours.references.filter((r) => r.meaning !== null).length;
  yield* firstDifference('scope', ours.scopes, theirs.scopes);
  yield* firstDifference('reference', ours.references, theirs.references);
  for (let turn = 0; turn < 2; turn++) {
    const settings = turn === 0 ? defaultSettings() : settingsOf(random);
    const extra = (pairs ?? []).filter(() => turn === 0 || random.below(2) === 0).map((p) => ({ start: p.left, end: p.right + 1 }));
    const got = definitions.reports(root, text, found, extra, settings),
      want = runRules({ tree, text, scopes: resolved, extra, settings });
    for (const r of got) counts.reports[r.rule] = (counts.reports[r.rule] ?? 0) + 1;
    const lines = (reports) => reports.map((r) => `${r.start}-${r.end} ${r.rule} ${r.text}`);
    if (JSON.stringify(lines(got)) !== JSON.stringify(lines(want))) yield ['reports', lines(got), lines(want)];
  }
}

// a line for each text or name of which the definitions say otherwise than the model
function* disagreements(definitions, { file = null, n = 0, seed = 1 }, counts = emptyCounts()) {
  const random = randomSource(seed);
  const told = (text, [what, ours, theirs]) =>
    `${what}: ${JSON.stringify(text)}\n  definitions ${JSON.stringify(ours)}\n  model       ${JSON.stringify(theirs)}`;
  for (const [name, ...more] of names(definitions, counts)) yield told(name, more);
  for (const text of textsOf(file, n, random)) {
    const answer = parseOnly(text);
    if (answer.ok) for (const it of ofText(definitions, text, answer, random, counts)) yield told(text, it);
  }
}
const emptyCounts = () => ({ names: 0, texts: 0, scopes: 0, bindings: 0, references: 0, bound: 0, reports: {} });

function main() {
  const definitions = new Reports(option('crates', path.join(__dirname, '../../crates'))),
    counts = emptyCounts();
  const differ = [...disagreements(definitions, { file: option('file', null), n: Number(option('n', 3000)), seed: Number(option('seed', 1)) }, counts)];
  for (const line of differ.slice(0, Number(option('show', 10)))) console.log(line);
  console.log(JSON.stringify(counts));
  console.log(differ.length === 0 ? 'no disagreement' : `${differ.length} disagreements`);
  process.exitCode = differ.length === 0 && counts.texts > 0 ? 0 : 1;
}

module.exports = { disagreements };
if (require.main === module) main();
