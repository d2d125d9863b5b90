'use strict';
// Holds the definitions of no-unused-private-class-members (crate private_members), and its plain model, to the rows of cases/data/rules:
// node private_members.js

const path = require('node:path');
const antt = require('./antt.js');
const { rowsOf } = require('./cases.js');
const { Model, CRATES, PLAIN_MODEL, plainTree } = require('./model.js');
const { parseOnly } = require(path.join(PLAIN_MODEL, 'parse.js'));
const { privateRules } = require(path.join(PLAIN_MODEL, 'private_rules.js'));

const crates = path.join(__dirname, '../../crates');
const RULE = 'no-unused-private-class-members';

// what `check` says of reports {start, text}
function lines(text, reports) {
  const place = (start) => {
    const before = text.slice(0, start).split('\n');
    return `${before.length}:${before.at(-1).length + 1}`;
  };
  const said = reports.sort((one, other) => one.start - other.start).map((it) => `${place(it.start)} ${RULE} ${it.text}\n`);
  return `${said.length > 0 ? 1 : 0} ${said.join('')}`;
}

function main() {
  const model = new Model([...CRATES, ...['rule_words', 'private_members'].map((crate) => path.join(crates, crate))]);
  const found = model.spec.fn('found', 'Found', 'private_members');
  const rows = rowsOf('rules', ['check']).filter(({ texts }) => texts[1].includes(`${RULE} = true`));
  let otherwise = 0;
  for (const { texts: [text], language, want } of rows) {
    const { tree } = parseOnly(text, { maxHeight: 1e5, maxParens: 1e5, edition: 2022 });
    const defined = antt.toArray(found(model.tree(plainTree(tree, language)))).map((it) => ({ start: it.start, text: antt.text(it.text) }));
    const modelled = [];
    privateRules(tree, (rule, node, words) => modelled.push({ start: node.start, text: words }));
    const got = [lines(text, defined), lines(text, modelled)];
    if (got.every((one) => one === want)) continue;
    otherwise += 1;
    console.log(`${text}\n  definitions ${got[0]}\n  model       ${got[1]}\n  row         ${want}`);
  }
  console.log(`${rows.length} rows, ${otherwise} otherwise`);
  process.exitCode = rows.length > 0 && otherwise === 0 ? 0 : 1;
}

main();
