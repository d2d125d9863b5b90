'use strict';
// Holds `jslint check` against the plain model over generated texts, each with settings of its own: the lines, the status, and the
// refusal where the text or the settings are refused, but for the place of a syntax error.
//
//   node check_rules.js [--n COUNT] [--seed S] [--show K]
//
// JSLINT names the program (default: the one that ./jslint runs). Exit status 1 where anything disagrees.

const fs = require('node:fs');
const os = require('node:os');
const path = require('node:path');
const { spawnSync } = require('node:child_process');
const { option, program, withAdditions } = require('./shared.js');
const { makeTexts, nested } = require('./parser.js');
const { LIMITS, parse } = require('../model/parse.js');
const { extraPairs, plan } = require('../model/plan.js');
const { randomSource } = require('../model/random.js');
const { ENVIRONMENTS } = require('../model/environments.js');
const { RULE_NAMES, fromToml, runRules } = require('../model/rules.js');
const { resolve } = require('../model/scopes.js');
const { linesColumns, withoutHint, words } = require('./scripts.js');
const { OWN, scopeScript } = require('../rows/scope_texts.js');

// Names that some environment has; they stand for `b` in half of the texts.
const NAMES = ['document', 'process', 'exports', 'importScripts', 'WeakRef', 'describe', 'expect', 'fetch'];
const renamed = (source, text) => (source.below(2) ? text.replace(/\bb\b/g, source.pick(NAMES)) : text);

// What may stand at a rule.
const SEVERITIES = ['true', 'false', '"off"', '"warn"', '"error"', '0', '1', '2', '{}', '{ severity = "warn" }', '{ severity = 0 }'];

// What may stand in the tables of rules beside that, right and wrong.
const LISTS = ['[]', '["a*"]', '["*b", "x"]', '["a", "b", "c"]'];
const OPTIONS = {
  'no-shadow': ['allow', LISTS],
  'no-undef': ['typeof', ['true', 'false']],
  'no-unused-vars': [
    'args',
    ['"none"', '"after-used"', '"all"'],
    'caught-errors',
    ['"none"', '"all"'],
    'args-ignore',
    LISTS,
    'vars-ignore',
    LISTS,
    'caught-errors-ignore',
    LISTS,
    'ignore-rest-siblings',
    ['true', 'false'],
  ],
};
const WRONG = [
  'args = "some"',
  'args = true',
  'typeof = 1',
  'args-ignore = ["a*b"]',
  'vars-ignore = "a"',
  'allow = [1]',
  'caught-errors = "after-used"',
  'nope = 1',
];

// The table of a rule that has such options.
function tableText(source, name, isWrong) {
  const words = [`severity = ${source.pick(['"warn"', '"error"', '"off"', 'true'])}`];
  for (let i = 0; i < OPTIONS[name].length; i += 2) if (source.below(2)) words.push(`${OPTIONS[name][i]} = ${source.pick(OPTIONS[name][i + 1])}`);
  return `{ ${[...words, ...(isWrong ? [source.pick(WRONG)] : [])].join(', ')} }`;
}

// A settings file: mostly a right one.
function settingsText(source) {
  const lines = [];
  const wrong = source.below(12);
  if (source.below(2))
    lines.push(
      `globals = [${['a', 'b', 'zz', 'Math']
        .filter(() => source.below(2))
        .map((it) => JSON.stringify(it))
        .join(', ')}]`
    );
  if (source.below(3) === 0)
    lines.push(
      `env = [${[...ENVIRONMENTS.keys()]
        .filter(() => source.below(3) === 0)
        .map((it) => JSON.stringify(it))
        .join(', ')}]`
    );
  if (source.below(2)) lines.push(`allow-null = ${source.below(2) === 1}`);
  if (source.below(2)) lines.push(`allow-comments = ${source.below(2) === 1}`);
  if (source.below(2)) lines.push(`ignore-underscore = ${source.below(2) === 1}`);
  if (source.below(6) === 0)
    lines.push(
      `only = [${RULE_NAMES.filter(() => source.below(3) === 0)
        .map((it) => JSON.stringify(it))
        .join(', ')}]`
    );
  if (wrong === 0)
    lines.push(
      source.pick([
        'rule = 1',
        'allow-null = "yes"',
        'globals = [1]',
        'globals = ["a"',
        'env = ["x"]',
        'env = "node"',
        'ignore-underscore = 1',
        'x',
        'allow-null = true\nallow-null = true',
      ])
    );
  if (source.below(2)) {
    lines.push('[rules]');
    for (const name of RULE_NAMES) {
      if (OPTIONS[name] && source.below(2)) lines.push(`${name} = ${tableText(source, name, wrong === 2)}`);
      else if (source.below(3) === 0) lines.push(`${name} = ${source.pick(SEVERITIES)}`);
    }
    if (wrong === 1) lines.push(source.pick(['no-such = true', 'no-with = 3', 'for-direction = "of"', 'for-direction = { level = 1 }']));
  }
  return lines.join('\n') + (lines.length > 0 && source.below(4) ? '\n' : '');
}

// The model's answer for a text and a settings file.
function model(text, settings) {
  const bytes = Buffer.from(text);
  const parsed = parse(bytes, LIMITS);
  if (!parsed.ok) return { status: 2, out: '', err: `jslint: ${words(parsed.fault, bytes)}\n` };
  const read = fromToml(Buffer.from(settings));
  if (read === null) return { status: 2, out: '', err: 'jslint: bad settings\n' };
  const reports = runRules({
    tree: parsed.tree,
    text: bytes,
    scopes: resolve(parsed.tree),
    extra: extraPairs(parsed.pairs, plan(parsed.tree).wrapped),
    settings: read,
  });
  const places = linesColumns(bytes, reports.map((it) => it.start));
  const warns = ({ rule }) => read.rules[rule] === 'warn';
  return {
    status: reports.every(warns) ? 0 : 1,
    out: reports.map((it, i) => `${places[i]} ${it.rule} ${it.text}${warns(it) ? ' (warning)' : ''}\n`).join(''),
    err: '',
  };
}

// A refusal's line; which place an error of syntax names isn't fixed, in settings neither.
const placed = (line) => line.replace(/^(jslint: (?:syntax error|bad settings)) at \d+:\d+\n$/, '$1\n');

function main() {
  const source = randomSource(Number(option('seed', 1)));
  const count = Number(option('n', 500));
  const made = [];
  for (let k = 0; k < count; k++) made.push(nested(source), scopeScript(source), scopeScript(source));
  const texts = [...OWN, ...makeTexts(count, Number(option('seed', 1))), ...withAdditions(source, made)];
  const folder = fs.mkdtempSync(path.join(os.tmpdir(), 'rules-'));
  const file = path.join(folder, 'a.js'),
    second = path.join(folder, 'settings.toml');
  const counts = { reports: 0, clean: 0, refused: 0, apart: 0 };
  for (const text of texts.map((it) => renamed(source, it))) {
    const settings = settingsText(source);
    fs.writeFileSync(file, text);
    fs.writeFileSync(second, settings);
    const words = source.below(2) || settings !== '' ? ['check', file, '--settings', second] : ['check', file];
    const done = spawnSync(program(), words, { encoding: 'utf8', maxBuffer: 1 << 28 });
    const wanted = model(text, settings);
    if (done.status === wanted.status && done.stdout === wanted.out && placed(withoutHint(done.stderr)) === placed(wanted.err)) {
      counts[['clean', 'reports', 'refused'][wanted.status]] += 1;
      continue;
    }
    counts.apart += 1;
    if (counts.apart <= Number(option('show', 5))) {
      console.log(
        `${JSON.stringify(text)} with ${JSON.stringify(settings)}\n  program ${done.status} ${JSON.stringify(done.stdout + done.stderr)}\n  model   ${wanted.status} ${JSON.stringify(wanted.out + wanted.err)}`
      );
    }
  }
  fs.rmSync(folder, { recursive: true });
  console.log(`${texts.length} texts: ${counts.reports} with reports, ${counts.clean} without, ${counts.refused} refused, ${counts.apart} disagreements`);
  return counts.apart === 0 ? 0 : 1;
}

if (require.main === module) process.exitCode = main();
