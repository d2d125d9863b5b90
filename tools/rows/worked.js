'use strict';
// Writes the rows of the worked texts (worked_texts.js) that are made by rule. The answers are those of the plain model.
//
//   node worked.js beginnings|flat|failures|worked|resolved|calls|gauged > ../../crates/cases/data/NAME

const fs = require('node:fs');
const path = require('node:path');
const { EXPRESSIONS, NEAR_LIMITS, SECOND, TABLE, TEXTS } = require('./worked_texts.js');
const { runInBigStack } = require('../model/bigstack.js');
const { canon } = require('../model/canon.js');
const { treeJson } = require('../model/json.js');
const { LIMITS, parse, parseOnly } = require('../model/parse.js');
const { extraPairs, plan, writeTable } = require('../model/plan.js');
const { layout } = require('../model/print.js');
const { RULE_NAMES, fromToml, runRules, settingFault } = require('../model/rules.js');
const { resolve } = require('../model/scopes.js');
const { unwrapped } = require('../model/unwrap.js');
const { linesColumns } = require('../compare/scripts.js');

// A text as it stands in a row, and the text that a row means.
const written = (text) => text.replace(/[\x00-\x1f]/g, (it) => String.fromCharCode(0x2400 + it.charCodeAt(0)));
const meant = (text) =>
  text.replace(/⟦([^⟦⟧×]*)×(\d+)⟧/g, (_, piece, count) => piece.repeat(Number(count))).replace(/[␀-␟]/g, (it) => String.fromCharCode(it.charCodeAt(0) & 0x1f));
const row = (call, ...texts) => [call, ...texts.map(written)].join('\t');

// A text of bytes as the program shows it: of a long one how many, and the last 49.
const debug = (text) => `"${text.replace(/[\\"]/g, '\\$&').replace(/\n/g, '\\n')}"`;
function shown(text) {
  const bytes = Buffer.from(text);
  return bytes.length < 1000 ? text : `(${bytes.length}, ${debug(bytes.subarray(-49).toString())})`;
}

const accepted = (text) => parse(text, LIMITS).ok;
const ACCEPTED = TEXTS.filter(accepted);
const fixedText = ({ tree }) => layout(tree, plan(tree).wrapped);

// What the rules find of a script under settings.
const reportsOf = ({ tree, pairs, text }, settings) =>
  runRules({ tree, text, scopes: resolve(tree), extra: extraPairs(pairs, plan(tree).wrapped), settings: fromToml(Buffer.from(settings)) });

// What a command writes of a script, with the text of its second file, and the status; `spans` is `check --spans`.
const ANSWERS = {
  fix: (script) => [fixedText(script), 0],
  unwrap: (script) => [unwrapped(script, plan(script.tree)), 0],
  tree: ({ tree }) => [treeJson(tree) + '\n', 0],
  cost: ({ tree }) => [writeTable(plan(tree)), 0],
  verify: ({ tree, pairs }) => [`pairs ${pairs.length} least ${plan(tree).total}\n`, 0],
  check: (script, second) => {
    const reports = reportsOf(script, second);
    const places = linesColumns(Buffer.from(script.text), reports.map((it) => it.start));
    return [reports.map((it, i) => `${places[i]} ${it.rule} ${it.text}\n`).join(''), reports.length > 0 ? 1 : 0];
  },
  spans: (script, second) => {
    const reports = reportsOf(script, second);
    return [reports.map((it) => `${it.start} ${it.end} ${it.rule} ${it.text}\n`).join(''), reports.length > 0 ? 1 : 0];
  },
  same: ({ tree }, second) => ['', canon(tree) === canon(parse(second, LIMITS).tree) ? 0 : 1],
};
const answer = (command, text, second = '') => ANSWERS[command]({ ...parse(text, LIMITS), text }, second);
const secondOf = (command, text) => (command === 'check' || command === 'spans' ? SECOND.get(text) ?? '' : command === 'verify' ? answer('cost', text)[0] : '');

// ---------------------------------------------------------------- beginnings

const MARKS = { Syntax: 'x', Early: 'e', TooDeep: 'x', NotUtf8: 'u' };

function mark(bytes) {
  const found = parse(bytes, LIMITS);
  return found.ok ? ';' : MARKS[found.fault.kind];
}

// Of each beginning, byte by byte, the mark.
function marks(text) {
  const bytes = Buffer.from(text);
  let found = '';
  for (let end = 0; end <= bytes.length; end++) found += mark(bytes.subarray(0, end));
  return found;
}

// A long run of one mark is written short.
const short = (found) => found.replace(/(.)\1{30,}/g, (it) => `⟦${it[0]}×${it.length}⟧`);

// (of long texts those at the limits: a row costs the square of its length)
function beginnings() {
  const fixed = ACCEPTED.filter((it) => it.length < 200).map((it) => fixedText(parse(it, LIMITS)));
  const texts = [...new Set([...TEXTS.filter((it) => !NEAR_LIMITS.includes(it)), ...fixed, ...TEXTS.filter((it) => it.length < 200).map((it) => it + '\n')])];
  return [
    '# Texts, and what `fix` answers for each of their beginnings, from the empty one to the whole text, byte by byte, each asked twice: `;` where',
    '# it is fixed, `x` a syntax error or nested too deep (a cut text may be both), `e` an early error, `u` not UTF-8. Made by tools/rows/worked.js.',
    ...texts.map((it) => row('begins', it) + '\t' + short(marks(it))),
  ];
}

// ---------------------------------------------------------------- long flat texts

const COUNT = 300,
  LONG = 10_000,
  HIGH = 400;

// The text in a block, so many times, and behind all of them one parenthesis that nothing opens.
function flat() {
  const texts = TEXTS.filter((it) => {
    const found = parseOnly(it, LIMITS);
    return found.ok && Buffer.byteLength(it) <= LONG && found.height <= HIGH;
  });
  const rows = texts.map((it) => {
    const block = `{${it}\n}\n`;
    if (!parseOnly(block.repeat(2), LIMITS).ok || parseOnly(block.repeat(2) + ')', LIMITS).fault?.kind !== 'Syntax') throw new Error(`no flat text: ${it}`);
    return `pairs\t⟦${written(block)}×${COUNT}⟧)\tsyntax`;
  });
  return [
    `# Long flat texts with one fault at the end: each worked script in a block, ${COUNT} times, and then a parenthesis. Made by tools/rows/worked.js.`,
    ...rows,
  ];
}

// ---------------------------------------------------------------- devices that fail

// Runs whose devices are let fail at each call: the command, the text and its second file.
const RUNS = [
  ['fix', 'for (x = (a in b) && (c in d);;);', ''],
  ['unwrap', 'x = ( // c\n a) + (b)', ''],
  ['tree', 'a;', ''],
  ['check', 'var a = b == 1;', SECOND.get('var a = b == 1;')],
  ['spans', 'var a = b == 1;', SECOND.get('var a = b == 1;')],
  ['cost', 'a + (b);', ''],
  ['verify', 'a + (b);', TABLE],
  ['same', 'a + (b);', '(a)+b'],
  ['same', 'a + (b);', 'a - b'],
];
const fault = (kind) => `Err(Refused { fault: ${kind}, in_second: false, line: 0, column: 0, hint: Nothing }) `;

// A run, by the plans of the reader, of the writer and of the second reader.
const run = ([command, text, second], plans, found) =>
  `run\t${[command, text, plans[0], plans[1], second, plans[2]].map(written).join('\t')}\t${written(found)}`;

// All calls of a device that passes a byte a call, and the first that is none.
const callsOf = (text) => Array.from({ length: Buffer.byteLength(text) + 1 }, (_, i) => i + 1);

function failuresOf(given) {
  const [command, text, second] = given;
  const [out, status] = answer(command, text, second);
  const whole = `Ok(${status}) ${out}`;
  const first = callsOf(text).map((k) => run(given, [`1 ${k}`, '', ''], fault('ReadFailed')));
  const other =
    second === ''
      ? []
      : [...callsOf(second).map((k) => run(given, ['', '', `1 ${k}`], fault('ReadFailed'))), run(given, ['', '', `1 ${callsOf(second).length + 1}`], whole)];
  const writes = callsOf(out)
    .slice(0, -1)
    .map((k) => run(given, ['', `1 ${k}`, ''], fault('WriteFailed') + out.slice(0, k - 1)));
  return [
    ...first,
    run(given, [`1 ${callsOf(text).length + 1}`, '', ''], whole),
    ...other,
    ...writes,
    run(given, ['', `1 ${callsOf(out).length}`, ''], whole),
    run(given, ['', '0', ''], out === '' ? whole : fault('WriteFailed')),
    run(given, ['1', '1', '1'], whole),
  ];
}

const failures = () => [
  '# Runs whose readers or writer pass a byte a call and fail at each call in turn, and behind the last; a writer that takes nothing. Made by',
  '# tools/rows/worked.js.',
  ...RUNS.flatMap(failuresOf),
];

// ---------------------------------------------------------------- whole answers

const isShort = (text) => Buffer.byteLength(text) < 1000;

function workedOf(text, at) {
  const script = parse(text, LIMITS);
  const compared = (other) => row('same', text, other) + `\t${answer('same', text, other)[1]} `;
  const of = (command) => answer(command, text, secondOf(command, text));
  const outcome = (command) => {
    const [out, status] = of(command);
    return row(command, text, secondOf(command, text)) + `\t${status} ${written(shown(out))}`;
  };
  const [json] = of('tree');
  return [
    row('fix', text, fixedText(script)),
    row('unwrap', text, answer('unwrap', text)[0]),
    `run\ttree\t${written(text)}\t1\t1\t\t\tOk(0) ${written(shown(json))}`,
    ...(fromToml(Buffer.from(secondOf('check', text))) === null ? [] : [outcome('check'), outcome('spans')]),
    outcome('cost'),
    ...(isShort(secondOf('verify', text)) ? [outcome('verify')] : []),
    ...(isShort(fixedText(script)) ? [compared(fixedText(script))] : []),
    compared(ACCEPTED[(at + 1) % ACCEPTED.length]),
  ];
}

const worked = () => [
  '# Each worked script with what the commands answer: `fix` and `unwrap`, and `tree` by single bytes; the exit status of `check`, of `check --spans`,',
  '# `cost` and `verify`, which takes the table that `cost` wrote, and what they write; and of `same`, with the fixed text and with the next script.',
  '# Then the text of the JSON value of each, and that the copy of a script is equal to it. Made by tools/rows/worked.js.',
  ...ACCEPTED.flatMap(workedOf),
  ...ACCEPTED.map((it) => [it, treeJson(parse(it, LIMITS).tree)])
    .filter(([, json]) => isShort(json))
    .map(([it, json]) => row('value text', it, json)),
  ...EXPRESSIONS.filter((it) => parseOnly(it, LIMITS).ok).map((it) => `equal copy\t${written(it)}\t(true, true)true`),
];

// ---------------------------------------------------------------- scopes

const KINDS = {
  var: 'Var',
  let: 'Let',
  const: 'Const',
  function: 'Function',
  class: 'Class',
  param: 'Param',
  catch: 'Catch',
  functionName: 'FunctionName',
  className: 'ClassName',
};

function isSettled({ kind, initialised, inLoopHead, inForHead }) {
  if (kind === 'var') return Boolean(initialised);
  return (kind === 'let' || kind === 'const') && Boolean(initialised || inLoopHead) && !inForHead;
}

// Scopes and references in words.
function resolvedText({ scopes, references }) {
  const places = new Map();
  scopes.forEach((scope, n) => scope.bindings.forEach((it, i) => places.set(it, `(${n}, ${i})`)));
  const isOutside = (name, n) => n !== null && (scopes[n].bindings.some((it) => it.name === name) || isOutside(name, scopes[n].parent));
  const binding = (it, parent) =>
    `${it.name} ${KINDS[it.kind]} ${it.start}-${it.end}${isSettled(it) ? ' settled' : ''}${isOutside(it.name, parent) ? ' shadows' : ''}, `;
  const scope = ({ parent, bindings }) => `${parent === null ? 'None' : `Some(${parent})`}: ${bindings.map((it) => binding(it, parent)).join('')}`;
  const flags = (it) => `${it.reads ? ' read' : ''}${it.writes ? ' written' : ''}${it.underTypeof ? ' typeof' : ''}`;
  const reference = (it) => `${it.name} ${it.start}-${it.end} in ${it.scope}${flags(it)}${it.binding === null ? '' : ` ${places.get(it.binding)}`}, `;
  return `${scopes.map(scope).join('')}; ${references.map(reference).join('')}`;
}

function resolved() {
  const file = path.join(__dirname, '..', '..', 'crates', 'cases', 'data', 'scopes');
  const others = fs
    .readFileSync(file, 'utf8')
    .split('\n')
    .filter((it) => it.startsWith('check\t'))
    .map((it) => meant(it.split('\t')[1]));
  const texts = [...new Set([...ACCEPTED, ...others])].filter((it) => isShort(it));
  return [
    '# Scripts with their scopes, each with the number of the one round it and what it declares, and behind `;` their references, each with the',
    '# binding that it means, as the scope and the place in it. Made by tools/rows/worked.js.',
    ...texts.map((it) => row('scopes', it, resolvedText(resolve(parse(it, LIMITS).tree)))),
  ];
}

// ---------------------------------------------------------------- single calls

const SETTINGS = [
  '',
  '\n',
  'globals = ["a"]',
  'globals = ["b", "a"]\nallow-null = true\n',
  'ignore-underscore = true',
  'allow-null = false\nignore-underscore = false',
  'allow-comments = true',
  'allow-comments = false',
  '[rules]\n',
  '[rules]\nno-var = false\n',
  '[rules]\nno-var = true\neqeqeq = false',
  'globals = ["b"]\n[rules]\nno-var = false\n',
  'env = ["node"]',
  'env = ["mocha", "browser"]\nglobals = ["a"]\nallow-null = true',
  'ignore-underscore = true\nglobals = []\n[rules]\nno-empty = false',
  '[rules]\nno-such = true',
  'rule = 1',
  'globals = [1]',
  'allow-null = "yes"',
  'allow-comments = 1',
  'globals = [',
  'a',
  '[rules',
  '[rules]\nno-var = 1',
  'globals = "a"',
  'env = ["x"]',
  'env = "node"',
  'allow-null = true\nallow-null = true',
  ...[
    '"off"',
    '"warn"',
    '"error"',
    '0',
    '1',
    '2',
    '3',
    '-1',
    '1.0',
    '"Warn"',
    '"warning"',
    '""',
    '[]',
    '["warn"]',
    '{}',
    '{ severity = "warn" }',
    '{ severity = false }',
    '{ severity = 3 }',
    '{ severity = {} }',
    '{ Severity = 1 }',
    '{ allow-null = true }',
  ].map((it) => `rules.no-var = ${it}`),
  ...[
    '{ allow-null = true }',
    '{ allow-null = true, severity = 1 }',
    '{ allow-null = true, severity = 3 }',
    '{ allow-null = 1 }',
    '{ allow-comments = true }',
  ].map((it) => `rules.eqeqeq = ${it}`),
  'allow-null = true\nrules.eqeqeq = { allow-null = false }',
  'allow-null = true\nrules.eqeqeq = "warn"',
  'allow-null = 1\nrules.eqeqeq = { allow-null = true }',
  'rules.no-empty = { allow-comments = true }',
  'rules.no-unused-vars = { ignore-underscore = true, severity = "off" }',
  'extends = "none"\nrules.no-var = {}',
  'extends = "none"\nrules.no-var = { severity = 1 }',
  'extends = "none"\nrules.no-var = true',
  'only = []',
  'only = ["no-var"]',
  'only = ["no-var", "eqeqeq"]\nextends = "none"',
  'only = ["no-var"]\nrules.no-var = "warn"',
  'only = ["eqeqeq"]\nrules.eqeqeq = "off"\nrules.no-var = "warn"',
  'only = ["no-with"]',
  'only = ["no-such"]',
  'only = ["no-var", "no-var"]',
  'only = ["no-with", "no-var", "no-with"]',
  'only = "no-var"',
  'only = [1]',
  'only = true',
  'only = ["No-var"]',
  'Only = []',
  ...['"error"', 'false', '2', '{ severity = "warn" }', '{}', '"errors"', '{ allow-null = true }'].map((it) => `rules.no-with = ${it}`),
  'rules.no-withs = 1',
  'rules.no-delete-var = 1\nrules.no-dupe-args = 1\nrules.no-nonoctal-decimal-escape = 1\nrules.no-octal = 1\nrules.no-octal-escape = 1\nrules.no-with = 1',
];

// Those that are no TOML, each with the byte at which the crate `toml` says so.
const NOT_TOML = new Map([
  ['globals = [', 11],
  ['a', 1],
  ['[rules', 6],
  ['allow-null = true\nallow-null = true', 18],
]);

// Those that show which key is told, and how: the first of several, each kind of value, long names and strange ones.
const UNFIT_SETTINGS = [
  'y = 1\nx = 2',
  'rules.no-foo = 1\nx = 2',
  'extends = "ten"\nrules.no-foo = 1',
  'rules = { no-foo = 1, no-bar = 2 }',
  'rules = { no-var = 3, no-bar = 2 }',
  'rules = 1',
  'rules.no-foo = { severity = 1 }',
  'rules.no-foo = -9223372036854775808',
  'rules.no-foo = +7',
  'rules.no-foo = 1.5',
  'rules.no-var.a.b = 1',
  'extends = "ten"',
  'extends = 1',
  'extends = ["nine", "ten", "eleven"]',
  'extends = ["nine", 1]',
  'extends = [["nine"]]',
  'only = ["no-var", "no-foo", "no-var"]',
  'only = ["eqeqeq", "no-var", "eqeqeq", "no-var"]',
  'only = ["no-with", 1]',
  'globals = ["a", true]',
  'globals = {}\nonly = 1',
  'env = ["node", "deno"]\nglobals = ["a"]',
  'env = { node = true }',
  'edition = 2021',
  'edition = "2022"\nsource-type = "x"',
  'edition = 2022\nsource-type = "commonjs"',
  'source-type = 1',
  'edition = 2020\nsource-type = "module"',
  'allow-comments = 1\nallow-null = 1',
  'ignore-underscore = "a"\nallow-comments = []',
  'rules.no-unused-vars = { args = "after", caught-errors = "x" }',
  'rules.no-unused-vars = { caught-errors = "after-used" }',
  'rules.no-unused-vars = { args-ignore = ["a*b"] }',
  'rules.no-unused-vars = { vars-ignore = "_" }',
  'rules.no-unused-vars = { ignore-rest-siblings = 1 }',
  'rules.no-unused-vars = { severity = "maybe", args = 1 }',
  'rules.no-shadow = { allow = [1] }',
  'rules.no-shadow = { args = "all" }',
  'rules.no-undef = { typeof = "yes" }',
  `rules.${'a'.repeat(40)} = 1`,
  `rules.${'a'.repeat(41)} = "${'b'.repeat(41)}"`,
  `rules.${'a'.repeat(39)}-b.${'c'.repeat(50)} = "d"`,
  `rules.no-var = "${'x'.repeat(200)}"`,
  '"a b" = "c\\td"',
  '"\u00e4\u20ac" = "\u{1f600}"',
  '"" = ""',
  'x = true',
  'x = 1979-05-27',
];

function settingsRow(text) {
  const found = fromToml(Buffer.from(text));
  if (found === null) return row('settings', text, NOT_TOML.has(text) ? `not TOML at byte ${NOT_TOML.get(text)}` : `bad settings: ${settingFault(text)}`);
  const { rules, globals, allowNull, allowComments, ignoreUnderscore } = found;
  const both = (test) => `(${test(rules['no-var'])}, ${test(rules.eqeqeq)})`;
  const warned = [rules['no-var'], rules.eqeqeq].includes('warn') ? ` warned ${both((it) => it === 'warn')}` : '';
  return row('settings', text, `(${both((it) => it !== 'off')}, ${[...globals].includes('a')}, ${allowNull}, ${allowComments}, ${ignoreUnderscore})${warned}`);
}

// The tables of a text in both formats, and each of them cut behind each of its lines and inside of each.
function tableRows(text) {
  const { tree } = parse(text, LIMITS);
  return [1, 2].map((format) => writeTable(plan(tree), format)).flatMap((table) => {
    const lines = table.split('\n').slice(0, -1);
    const cut = lines.flatMap((line, i) =>
      [lines.slice(0, i).join('\n') + (i > 0 ? '\n' : ''), [...lines.slice(0, i), line.slice(0, -1)].join('\n')].map((it) =>
        row('read table', it, `bad table row ${i} Form`)
      )
    );
    return [row('read table', table, `(${lines.length - 2}, ${plan(tree).total})`), ...cut];
  });
}

// What all rules report of a script, and that none of them touches a report that stands in front.
function rulesRow(text) {
  const { tree, pairs } = parse(text, LIMITS);
  const settings = SECOND.get(text) ?? '';
  const reports = runRules({ tree, text, scopes: resolve(tree), extra: extraPairs(pairs, plan(tree).wrapped), settings: fromToml(Buffer.from(settings)) });
  return row('rules', text, settings, `kept${reports.map((it) => ` ${it.start}-${it.end} ${it.rule}`).join('')}`);
}

// A rule that is refused memory, behind the reports of `no-debugger`.
const REFUSED = ['debugger;', 'a;', 'debugger; { debugger }', 'if (a) debugger; else { b; debugger\n}'];
function refusedRow(text) {
  const { tree, pairs } = parse(text, LIMITS);
  const settings = fromToml(
    Buffer.from(
      '[rules]\n' +
        RULE_NAMES.filter((it) => it !== 'no-debugger')
          .map((it) => `${it} = false\n`)
          .join('')
    )
  );
  const reports = runRules({ tree, text, scopes: resolve(tree), extra: extraPairs(pairs, plan(tree).wrapped), settings });
  return row('refused rule', text, '', `(true, true)${reports.map((it) => ` ${it.start}-${it.end} ${it.rule}`).join('')}`);
}

// A rule that finds what `no-var` does, alone and behind `no-var`.
const VARIABLES = ['var a;', 'a;', 'let b; var c, d; { var e }', 'for (var a in b) { debugger }'];
function likeRow(text) {
  const { tree, pairs } = parse(text, LIMITS);
  const settings = fromToml(Buffer.from(''));
  const found = runRules({ tree, text, scopes: resolve(tree), extra: extraPairs(pairs, plan(tree).wrapped), settings }).filter((it) => it.rule === 'no-var');
  const reports = found.map((it) => ` ${it.start}-${it.end} no-var`);
  return row('rule on nodes', text, '', `alone${reports.join('')}; behind${reports.flatMap((it) => [it, it]).join('')}`);
}

const calls = () => [
  '# Settings: whether `no-var` and `eqeqeq` are on, whether `a` is a global name, and the three options. Tables that are read: how many rows and the total.',
  '# What the rules report of a script under settings, from where to where, and that each keeps a report that stands in front. A rule that is',
  '# refused memory, behind `no-debugger`: that it was, alone and in a list, and the reports that stand in front. Another rule that finds what',
  '# `no-var` does, alone and behind it. Made by tools/rows/worked.js.',
  ...[...SETTINGS, ...UNFIT_SETTINGS].map(settingsRow),
  ...['', 'a + (b);', '({}).a;', 'for (x = (a in b) && (c in d);;);'].flatMap(tableRows),
  ...[...new Set([...ACCEPTED, 'debugger; if (a == b) {} let c; { let c = (d); var e; }'])].filter(isShort).map(rulesRow),
  ...REFUSED.map(refusedRow),
  ...VARIABLES.map(likeRow),
];

// ---------------------------------------------------------------- pieces

const GAUGED = [
  '',
  'a;',
  `"⟦a×10000⟧"`,
  '`⟦a×10000⟧`',
  '⟦a×10000⟧;',
  '⟦a;␊×5000⟧',
  '⟦{×100⟧⟦a = [b, {c: d}];×300⟧⟦}×100⟧',
  '⟦f(×300⟧a⟦)×300⟧',
  '({}).a⟦.b×400⟧;',
];

function gaugedRows(given) {
  const text = meant(given);
  const size = (command) => {
    const [out, status] = answer(command, text);
    return `${given}\t(Ok(${status}), ${Buffer.byteLength(out)}, true)`;
  };
  const { tree } = parse(text, LIMITS);
  const rows = ['fix', 'unwrap', 'tree', 'check', 'spans', 'cost', 'same'].map((it) => `gauged run\t${it}\t${size(it)}`);
  return [
    ...rows,
    `gauged layout\t${given}\t(Ok(()), ${Buffer.byteLength(layout(tree, new Set()))}, true)`,
    `gauged table\t${given}\t(Ok(()), ${Buffer.byteLength(answer('cost', text)[0])}, true)`,
  ];
}

const gauged = () => [
  '# How many bytes a run writes, the layout of a tree with no node wrapped, and a table, and that no piece has more than 4,096. Made by',
  '# tools/rows/worked.js.',
  ...GAUGED.flatMap((it) => accepted(meant(it)) ? gaugedRows(it) : []),
];

const FILES = { beginnings, flat, failures, worked, resolved, calls, gauged };
const rows = (name) => FILES[name]().join('\n') + '\n';
module.exports = { meant, rows, written };
if (require.main === module) process.stdout.write(runInBigStack(__filename, 'rows', [process.argv[2]]));
