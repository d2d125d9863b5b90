'use strict';
// Holds the definitions of rules on the values of literals (crate value_rules) to the rows of cases/data/value_rules: node value_rules.js

const fs = require('node:fs');
const path = require('node:path');
const antt = require('./antt.js');
const { rowsOf } = require('./cases.js');
const { Model, CRATES, PLAIN_MODEL, plainTree } = require('./model.js');
const { parseOnly } = require(path.join(PLAIN_MODEL, 'parse.js'));

const crates = path.join(__dirname, '../../crates');
const MORE = { base: {}, script: { edition: 2022 }, module: { edition: 2022, module: true } };

// the rules by their names, of a model that has the crates rule_words, number_precision, pattern_analysis and value_rules
class ValueRules {
  constructor(model) {
    this.model = model;
    const { spec } = model;
    const called = spec.fn('called', 'Rows', 'value_rules');
    const source = fs.readFileSync(path.join(crates, 'value_rules/src/value_rule.rt'), 'utf8');
    const variants = /pub enum ValueRule \{([^}]*)\}/
      .exec(source)[1]
      .match(/\w+/g)
      .map((name) => spec.variant('ValueRule', name));
    this.found = spec.fn('found_by_rule', 'Found', 'value_rules');
    this.rules = new Map(variants.map((rule) => [antt.text(called(rule)), rule]));
  }
  // what the definitions say of a row, in the order of the places
  said(row) {
    const read = (row.read ??= parseOnly(row.text, { maxHeight: 1e5, maxParens: 1e5, ...MORE[row.language] }));
    if (!read.ok) return 'no script';
    if (!this.rules.has(row.name)) return 'no such rule';
    const found = this.found(this.rules.get(row.name), this.model.tree(plainTree(read.tree, row.language)));
    const named = (it) => (antt.text(it.rule) === row.name ? '' : `${antt.text(it.rule)} `);
    return antt
      .toArray(found)
      .sort((one, other) => one.start - other.start)
      .map((it) => `${named(it)}${it.start} ${antt.text(it.text)}; `)
      .join('');
  }
}

// the rows {text, language, name, want}
const rowsOfValueRules = () => rowsOf('value_rules', ['value rule']).map(({ texts: [text, name], language, want }) => ({ text, language, name, want }));

function main() {
  const rules = new ValueRules(
    new Model([...CRATES, ...['rule_words', 'number_precision', 'pattern_analysis', 'value_rules'].map((crate) => path.join(crates, crate))])
  );
  const rows = rowsOfValueRules();
  let otherwise = 0;
  for (const row of rows) {
    const got = rules.said(row);
    if (got === row.want) continue;
    otherwise += 1;
    console.log(`${row.name}: ${row.text}\n  definitions ${got}\n  row         ${row.want}`);
  }
  console.log(`${rows.length} rows, ${otherwise} otherwise`);
  process.exitCode = rows.length > 0 && otherwise === 0 ? 0 : 1;
}

module.exports = { ValueRules, rowsOfValueRules };
if (require.main === module) main();
