'use strict';
// Holds layout, least number of pairs and cost table of the definitions to rows of cases:  node --stack-size=20000 tables.js [--jobs I/K]
// The rows: those of `fixed` and `later_answers` in crates/cases/data that ask `fix` or `cost`. I/K: the texts I, I + K .. alone. Exit status 1 where
// anything disagrees.

const path = require('node:path');
const antt = require('./antt.js');
const { Model, CRATES, PLAIN_MODEL, plainTree } = require('./model.js');
const { rowsOf, byText } = require('./cases.js');
const { partOf } = require('./planting.js');
const { parseOnly } = require(path.join(PLAIN_MODEL, 'parse.js'));

const model = new Model(CRATES);
const number = (o) => (o.$.name === 'None' ? '-' : String(o.a[0]));
let differ = 0;
function say(what, row, got, want) {
  differ += 1;
  if (differ <= 12) console.log(what, '|', row.language, '|', JSON.stringify(row.text), '| definitions', JSON.stringify(got), '| row', JSON.stringify(want));
}
// the lines of a cost table; a row whose cells are all 0 has none
function table(root) {
  const rows = antt.toArray(model.row_nodes(root, model.script)).map((n, i) => {
    const cells = antt.toArray(model.cells(n)).map(number);
    return `${i + 1} ${n.a[0].$.name}${cells.every((c) => c === '0') ? '' : ' ' + cells.join(' ')}`;
  });
  return ['jslint-cost 2', ...rows, `total ${number(model.least(root, model.script))}`, ''].join('\n');
}
const isRefused = (want) => want === undefined || /^(syntax|nested too deep|E\d+ \d+)$/.test(want);
function check(row) {
  const { language } = row;
  const r = parseOnly(row.text, { maxHeight: 1e5, maxParens: 1e5, ...(language === 'base' ? {} : { edition: 2022, module: language === 'module' }) });
  const root = model.tree(plainTree(r.tree, language));
  const fixed = antt.text(model.fixed_text(root));
  if (row.fix !== undefined && fixed !== row.fix) say('fixed text', row, fixed, row.fix);
  if (row.cost !== undefined && `0 ${table(root)}` !== row.cost) say('cost table', row, table(root), row.cost);
  const planned = new Set(antt.toArray(model.wrapped_rows(root, model.script, 1)));
  const items = model.printed((n) => planned.has(n), root, model.script, 1, 0);
  if (antt.text(model.items_text(items)) !== fixed) say('text of the items', row, antt.text(model.items_text(items)), fixed);
  if (fixed.length <= 400 && model.stand_apart(items) !== true) say('items that stand apart', row, fixed, true);
  if (model.fits((n) => planned.has(n), root, model.script, 1) !== true) say('a tree that fits', row, false, true);
}
const [part, of] = partOf(process.argv, CRATES);
const rows = byText([...rowsOf('fixed', ['fix']), ...rowsOf('later_answers', ['fix', 'cost'])]).filter(
  (row) => !isRefused(row.fix ?? row.cost) && row.text.length < 2000
);
const mine = rows.filter((_, i) => i % of === part);
mine.forEach(check);
console.log(`${mine.length} texts, ${mine.filter((row) => row.cost !== undefined).length} with a cost table; ${differ} disagreements`);
process.exitCode = differ === 0 && mine.length > 0 ? 0 : 1;
