'use strict';
// Holds scopes, references and reports of the definitions to rows of cases:  node --stack-size=20000 behind.js [--crates FOLDER]
// The rows: those of `scopes`, `rules` and `later_answers` in crates/cases/data that ask `check`. Extra pairs aren't looked at, nor rows of refused settings
// or scripts, of settings that say a language, or with long texts. Exit status 1 where anything disagrees. plant_scopes.js asks `disagreements` of other definitions.

const path = require('node:path');
const { PLAIN_MODEL, plainTree } = require('./model.js');
const { rowsOf } = require('./cases.js');
const { Reports } = require('./reports.js');
const { parseOnly } = require(path.join(PLAIN_MODEL, 'parse.js'));
const { fromToml } = require(path.join(PLAIN_MODEL, 'rules.js'));

// texts and settings of this many characters are about sizes
const LONG = 2000;

const isPair = (line) => line.includes(' no-extra-parens ');
const withoutPairs = (settings) => ({ ...settings, rules: { ...settings.rules, 'no-extra-parens': 'off' } });

// the rows {text, language, settings, want}, of which `want` has a line "LINE:COLUMN RULE TEXT" for each report
function rowsOfReports() {
  return ['scopes', 'rules', 'later_answers']
    .flatMap((file) => rowsOf(file, ['check']))
    .filter(({ texts }) => texts.every((it) => it.length < LONG))
    .map(({ texts: [text, settings], language, want }) => ({ text, language, settings: fromToml(Buffer.from(settings)), want }))
    .filter(({ settings, want }) => settings !== null && /^[01] /.test(want))
    .map((row) => ({
      ...row,
      settings: withoutPairs(row.settings),
      want: row.want
        .slice(2)
        .split('\n')
        .filter((line) => line !== '' && !isPair(line)),
    }));
}

// what the plain model reads of a row's text; kept, since runners that change the definitions ask again and again
const readOf = (row) =>
  (row.read ??= parseOnly(row.text, {
    maxHeight: 1e5,
    maxParens: 1e5,
    ...(row.language === 'base' ? {} : { edition: 2022, module: row.language === 'module' }),
  }));

// the lines that the definitions report of a row's text
function linesOf(definitions, row) {
  const { text, language, settings } = row,
    { ok, tree } = readOf(row);
  if (!ok) return null;
  const root = definitions.model.tree(plainTree(tree, language));
  const bytes = Buffer.from(text);
  return definitions.reports(root, text, definitions.found(root), [], settings).map((r) => {
    const before = bytes
      .subarray(0, r.start)
      .toString()
      .split(/\r\n|[\n\r\u2028\u2029]/);
    return `${before.length}:${[...before[before.length - 1]].length + 1} ${r.rule} ${r.text}${r.warns ? ' (warning)' : ''}`;
  });
}

// a line for each row of which the definitions say otherwise
function* disagreements(definitions, rows, counts = { reports: 0 }) {
  for (const row of rows) {
    const got = linesOf(definitions, row);
    counts.reports += got?.length ?? 0;
    if (JSON.stringify(got) !== JSON.stringify(row.want))
      yield `${row.language} ${JSON.stringify(row.text)}\n  definitions ${JSON.stringify(got)}\n  row         ${JSON.stringify(row.want)}`;
  }
}

function main() {
  const at = process.argv.indexOf('--crates');
  const definitions = new Reports(at < 0 ? path.join(__dirname, '../../crates') : process.argv[at + 1]);
  const rows = rowsOfReports(),
    counts = { reports: 0 };
  const differ = [...disagreements(definitions, rows, counts)];
  for (const line of differ.slice(0, 12)) console.log(line);
  console.log(`${rows.length} rows with ${counts.reports} reports by the definitions, ${differ.length} disagreements`);
  process.exitCode = differ.length === 0 && rows.length > 0 ? 0 : 1;
}

module.exports = { rowsOfReports, linesOf, disagreements };
if (require.main === module) main();
