'use strict';
// The definitions of scopes, bindings, references and reports (crates scopes, rule_words, node_rules, reference_rules, repetition_rules, flow_rules, literal_rules, text_rules, number_precision, pattern_analysis, value_rules, private_members, native_prototypes and rules), run by antt.js, with what they say in the plain model's form.

const path = require('node:path');
const antt = require('./antt.js');
const { CRATES, Model } = require('./model.js');
const { ENVIRONMENTS } = require('../model/environments.js');

const KINDS = {
  Var: 'var',
  Let: 'let',
  Const: 'const',
  Function: 'function',
  Class: 'class',
  Param: 'param',
  Catch: 'catch',
  FunctionName: 'functionName',
  ClassName: 'className',
  Import: 'import',
};
const opt = (o) => (o.a.length === 0 ? null : o.a[0]);

// scopes with their bindings, and references, of what `found` answers; `settled` says something of a `let` alone
function plainFound(found) {
  return {
    scopes: antt
      .toArray(found.scopes)
      .map((s) => ({
        parent: opt(s.parent),
        bindings: antt
          .toArray(s.bindings)
          .map((b) => ({ name: antt.text(b.name), kind: KINDS[b.kind.$.name], start: b.start, end: b.stop, settled: b.kind.$.name === 'Let' && b.settled })),
      })),
    references: antt
      .toArray(found.references)
      .map((r) => ({
        name: antt.text(r.name),
        scope: r.scope,
        reads: r.reads,
        writes: r.writes,
        start: r.start,
        end: r.stop,
        typeofOperand: r.typeof_operand,
        meaning: opt(r.meaning),
      })),
  };
}

// the crates whose definitions say what is reported
const REPORTING = [
  'scopes',
  'rule_words',
  'node_rules',
  'reference_rules',
  'repetition_rules',
  'flow_rules',
  'literal_rules',
  'text_rules',
  'number_precision',
  'pattern_analysis',
  'value_rules',
  'private_members',
  'native_prototypes',
  'rules',
];

const texts = (names) => antt.fromArray(names.map(antt.bytes));
const flagsOf = (environments) => Object.fromEntries([...ENVIRONMENTS.keys()].map((name) => [name, environments.includes(name)]));
const ORDER = (a, b) =>
  a.start - b.start ||
  (a.rule < b.rule ? -1 : a.rule > b.rule ? 1 : 0) ||
  a.end - b.end ||
  Buffer.compare(Buffer.from(a.text), Buffer.from(b.text));

class Reports {
  // The definitions of the folder's crates of REPORTING, above those of trees, the language and early errors; or those of a model that has them.
  constructor(folder, model = new Model([...CRATES, ...REPORTING.map((crate) => path.join(folder, crate))])) {
    this.model = model;
    const { spec } = this.model;
    this.found = spec.fn('found', 'Found', 'scopes');
    this.isOn = spec.fn('is_on', 'Settings', 'rules');
    this.isWarning = spec.fn('is_warning', 'Settings', 'rules');
    const called = spec.fn('called', 'RuleNames', 'rules'),
      finds = spec.fn('finds', 'AllRules', 'rules');
    this.rules = antt.toArray(spec.fn('all_rules', 'RuleNames', 'rules')).map((rule) => [antt.text(called(rule)), (view) => finds(rule, view), rule]);
    this.hasGlobal = spec.fn('is_global', 'Settings', 'rules');
    this.params = spec.fn('params_named', 'RuleOptions', 'rules');
  }
  // settings in the form of ../model/rules.js
  settings({ rules, globals, environments, ...options }) {
    const at = (severity) => antt.fromArray(this.rules.filter(([name]) => rules[name] === severity).map(([, , rule]) => rule));
    return {
      errors: at('error'),
      warnings: at('warn'),
      globals: antt.fromArray([...globals].map(antt.bytes)),
      environments: flagsOf([...environments]),
      options: {
        allow_null: options.allowNull,
        allow_comments: options.allowComments,
        ignore_underscore: options.ignoreUnderscore,
        ignore_rest_siblings: options.ignoreRestSiblings,
        typeof_operands: options.typeof,
        params: this.params(antt.bytes(options.args)).a[0],
        caught_errors: options.caughtErrors === 'all',
      },
      lists: {
        args_ignore: texts(options.argsIgnore),
        vars_ignore: texts(options.varsIgnore),
        caught_errors_ignore: texts(options.caughtErrorsIgnore),
        allow: texts(options.allow),
      },
    };
  }
  // whether a name is global, with one environment on
  isGlobal(name, environment) {
    return this.hasGlobal(antt.bytes(name), { errors: null, warnings: null, globals: null, environments: flagsOf([environment]), options: {} });
  }
  // the reports of the rules that are on, in order, and of each whether it is a warning; `text` is what the tree was read of, `found` what this.found(tree) answers, `extra` the spans of extra pairs
  reports(tree, text, found, extra, settings) {
    const view = { tree, text: antt.bytes(text), found, extra: antt.fromArray(extra), settings: this.settings(settings) };
    return this.rules
      .filter(([name]) => this.isOn(antt.bytes(name), view.settings))
      .flatMap(([, rule]) => antt.toArray(rule(view)))
      .map((r) => ({ start: r.start, end: r.stop, rule: antt.text(r.rule), text: antt.text(r.text), warns: this.isWarning(r.rule, view.settings) }))
      .sort(ORDER);
  }
}

module.exports = { REPORTING, Reports, plainFound };
