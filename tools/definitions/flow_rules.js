'use strict';
// Holds the definitions of rules on completions (crate flow_rules) to the rows of cases/data/flow_rules: node flow_rules.js

const fs = require('node:fs');
const path = require('node:path');
const antt = require('./antt.js');
const { rowsOf } = require('./cases.js');
const { Model, CRATES, PLAIN_MODEL, plainTree } = require('./model.js');
const { parseOnly } = require(path.join(PLAIN_MODEL, 'parse.js'));

const crates = path.join(__dirname, '../../crates');
const MORE = { base: {}, script: { edition: 2022 }, module: { edition: 2022, module: true } };

// the rules by their names, of a model that has the crates rule_words and flow_rules
class FlowRules {
  constructor(model) {
    this.model = model;
    const { spec } = model;
    const called = spec.fn('called', 'Rows', 'flow_rules');
    const source = fs.readFileSync(path.join(crates, 'flow_rules/src/flow_rule.rt'), 'utf8');
    const variants = /pub enum FlowRule \{([^}]*)\}/
      .exec(source)[1]
      .match(/\w+/g)
      .map((name) => spec.variant('FlowRule', name));
    this.found = spec.fn('found_by_rule', 'Found', 'flow_rules');
    this.rules = new Map(variants.map((rule) => [antt.text(called(rule)), rule]));
  }
  // what the definitions say of a row, in the order of the places
  said(row) {
    const read = (row.read ??= parseOnly(row.text, { maxHeight: 1e5, maxParens: 1e5, ...MORE[row.language] }));
    if (!read.ok) return 'no script';
    if (!this.rules.has(row.name)) return 'no such rule';
    const found = this.found(antt.bytes(row.text), this.rules.get(row.name), this.model.tree(plainTree(read.tree, row.language)));
    return antt
      .toArray(found)
      .sort((one, other) => one.start - other.start)
      .map((it) => `${it.start} ${antt.text(it.text)}; `)
      .join('');
  }
}

// the rows {text, language, name, want}
const rowsOfFlowRules = () => rowsOf('flow_rules', ['flow rule']).map(({ texts: [text, name], language, want }) => ({ text, language, name, want }));

function main() {
  const rules = new FlowRules(new Model([...CRATES, ...['rule_words', 'flow_rules'].map((crate) => path.join(crates, crate))]));
  const rows = rowsOfFlowRules();
  let otherwise = 0;
  for (const row of rows) {
    const got = rules.said(row);
    if (got === row.want) continue;
    otherwise += 1;
    console.log(`${row.name}: ${row.text}\n  definitions ${got}\n  row         ${row.want}`);
  }
  console.log(`${rows.length} rows, ${otherwise} otherwise`);
  process.exitCode = rows.length > 0 && otherwise === 0 ? 0 : 1;
}

module.exports = { FlowRules, rowsOfFlowRules };
if (require.main === module) main();
