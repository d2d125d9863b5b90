'use strict';
// The rows of crates/cases/data that the definitions can be asked for, with what each wants of them: its least early error, its scopes and references,
// its reports by the settings, or the reports of one rule: on nodes, on names, on what stands twice, on how statements complete, on literals, on what stands between tokens, on values. A row {text, language, look, want, ..}; `look` is a name of LOOKS.

const path = require('node:path');
const antt = require('../antt.js');
const behind = require('../behind.js');
const { rowsOf } = require('../cases.js');
const { Model, PLAIN_MODEL, plainTree } = require('../model.js');
const { FlowRules, rowsOfFlowRules } = require('../flow_rules.js');
const { LiteralRules, rowsOfLiteralRules } = require('../literal_rules.js');
const { NodeRules, rowsOfNodeRules } = require('../node_rules.js');
const { ReferenceRules, rowsOfReferenceRules } = require('../reference_rules.js');
const { RepetitionRules, rowsOfRepetitionRules } = require('../repetition_rules.js');
const { Reports } = require('../reports.js');
const { TextRules, rowsOfTextRules } = require('../text_rules.js');
const { ValueRules, rowsOfValueRules } = require('../value_rules.js');
const { parseOnly } = require(path.join(PLAIN_MODEL, 'parse.js'));

// longer texts are about sizes
const LONGEST = 2000;
const LIMITS = { maxHeight: 1e5, maxParens: 1e5 };
const MORE = { base: {}, script: { edition: 2022 }, module: { edition: 2022, module: true } };

function leastEarlyError({ model }, row) {
  const [error] = model.least_error(model.tree(plainTree(row.read.tree, row.language))).a;
  return error === undefined ? 'accepted' : `E${error[0]} ${error[1]}`;
}
// scopes, what each declares, and references, as the rows of `resolved` have them
function scopesInWords({ reports }, row) {
  const found = reports.found(reports.model.tree(plainTree(row.read.tree, row.language)));
  const some = (it, shown) => (it.a.length === 0 ? 'None' : `Some(${shown(it.a[0])})`);
  const binding = (it) => `${antt.text(it.name)} ${it.kind.$.name} ${it.start}-${it.stop}${it.settled ? ' settled' : ''}${it.shadows ? ' shadows' : ''}, `;
  const scope = (it) => `${some(it.parent, String)}: ${antt.toArray(it.bindings).map(binding).join('')}`;
  const flags = (it) => `${it.reads ? ' read' : ''}${it.writes ? ' written' : ''}${it.typeof_operand ? ' typeof' : ''}`;
  const meaning = (it) => it.meaning.a.map(([n, i]) => ` (${n}, ${i})`).join('');
  const reference = (it) => `${antt.text(it.name)} ${it.start}-${it.stop} in ${it.scope}${flags(it)}${meaning(it)}, `;
  return `${antt.toArray(found.scopes).map(scope).join('')}; ${antt.toArray(found.references).map(reference).join('')}`;
}
const LOOKS = {
  early: leastEarlyError,
  scopes: scopesInWords,
  check: ({ reports }, row) => JSON.stringify(behind.linesOf(reports, row)),
  rule: ({ rules }, row) => rules.said(row),
  name: ({ names }, row) => names.said(row),
  again: ({ again }, row) => again.said(row),
  flow: ({ flows }, row) => flows.said(row),
  literal: ({ literals }, row) => literals.said(row),
  text: ({ texts }, row) => texts.said(row),
  value: ({ values }, row) => values.said(row),
};
// all that the looks ask, of these definitions as they are now
function lookedAt(spec) {
  const model = new Model([], spec);
  return {
    model,
    reports: new Reports('', model),
    rules: new NodeRules(model),
    names: new ReferenceRules(model),
    again: new RepetitionRules(model),
    flows: new FlowRules(model),
    literals: new LiteralRules(model),
    texts: new TextRules(model),
    values: new ValueRules(model),
  };
}
const saidOf = (definitions, row) => LOOKS[row.look](definitions, row);

// the rows whose text the plain model reads; those of refused texts ask nothing of these definitions
function allRows() {
  const early = ['editions', 'early', 'later_answers']
    .flatMap((file) => rowsOf(file, ['early']))
    .map(({ texts: [text], language, want }) => ({ text, language, look: 'early', want }));
  const scopes = rowsOf('resolved', ['scopes']).map(({ texts: [text], language, want }) => ({ text, language, look: 'scopes', want }));
  const check = behind.rowsOfReports().map((row) => ({ ...row, look: 'check', want: JSON.stringify(row.want) }));
  const rule = rowsOfNodeRules().map((row) => ({ ...row, look: 'rule' }));
  const name = rowsOfReferenceRules().map((row) => ({ ...row, look: 'name' }));
  const again = rowsOfRepetitionRules().map((row) => ({ ...row, look: 'again' }));
  const flow = rowsOfFlowRules().map((row) => ({ ...row, look: 'flow' }));
  const literal = rowsOfLiteralRules().map((row) => ({ ...row, look: 'literal' }));
  const text = rowsOfTextRules().map((row) => ({ ...row, look: 'text' }));
  const value = rowsOfValueRules().map((row) => ({ ...row, look: 'value' }));
  const rows = [...early, ...scopes, ...check, ...rule, ...name, ...again, ...flow, ...literal, ...text, ...value].filter(({ text }) => text.length < LONGEST);
  for (const row of rows) row.read = parseOnly(row.text, { ...LIMITS, ...MORE[row.language] });
  return rows.filter((row) => row.read.ok);
}

class Rows {
  // All rows, each with the clauses that run for it. `otherwise` are those of which these definitions say something else.
  constructor(spec) {
    const definitions = lookedAt(spec);
    this.rows = allRows();
    this.otherwise = [];
    this.byClause = new Map();
    for (const row of this.rows) {
      let said = null;
      row.clauses = spec.ran(() => {
        said = saidOf(definitions, row);
      });
      if (said !== row.want) this.otherwise.push({ row, said });
      else for (const clause of row.clauses) this.put(clause, row);
    }
  }
  put(clause, row) {
    if (!this.byClause.has(clause)) this.byClause.set(clause, []);
    this.byClause.get(clause).push(row);
  }
  // those that run one of these clauses: first those of errors and reports, of these the shortest
  running(clauses) {
    const rows = [...new Set(clauses.flatMap((it) => this.byClause.get(it) ?? []))];
    const isQuiet = ({ want }) => Number(want === 'accepted' || want === '[]' || want === '');
    return rows.sort((a, b) => isQuiet(a) - isQuiet(b) || a.clauses.length - b.clauses.length);
  }
}

// Of definitions with a mutant in them: the row that says something else, null where none does. An error where they stop or don't end, which rt refuses.
function rowThatSees(spec, rows) {
  const definitions = lookedAt(spec);
  return rows.find((row) => saidOf(definitions, row) !== row.want) ?? null;
}

module.exports = { Rows, rowThatSees };
