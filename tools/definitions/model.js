'use strict';
// What the runners look up in the definitions, and the trees between them and the plain model.

const path = require('path');
const antt = require('./antt.js');
const PLAIN_MODEL = path.join(__dirname, '../model');
const { KINDS_OF_2022 } = require(path.join(PLAIN_MODEL, 'kinds.js'));
const CRATES = ['source_text', 'tokens', 'tree', 'language', 'name_tables', 'regular_expressions', 'early_errors'].map((c) =>
  path.join(__dirname, '../../crates', c)
);

// Names of the definitions: ours -> [name, the last part of its module, its crate].
// Change these when the definitions move or are renamed.
const NAMES = {
  // trees and positions
  node: ['node', 'Tree', 'tree'],
  none: ['none', 'Tree', 'tree'],
  part: ['part', 'Tree', 'tree'],
  gap: ['gap', 'Tree', 'tree'],
  height: ['height', 'Tree', 'tree'],
  is_lean: ['is_lean', 'Uses', 'tree'],
  expr: ['expr', 'Pieces', 'language'],
  script: ['script', 'Pieces', 'language'],
  // the relation
  ways: ['ways', 'Grammar', 'language'],
  place: ['place', 'Derivation', 'language'],
  rows: ['rows', 'RowPositions', 'language'],
  is_token: ['is_token', 'Token', 'language'],
  is_mark: ['is_mark', 'Token', 'language'],
  as_read: ['as_read', 'Token', 'language'],
  may_miss: ['may_omit_semicolon', 'Edges', 'language'],
  begins_no_operand: ['begins_no_operand', 'Edges', 'language'],
  is_semicolon: ['is_semicolon', 'Edges', 'language'],
  beginning: ['beginning', 'Cursor', 'language'],
  // languages
  seen_in: ['seen_in', 'Languages', 'language'],
  beginning_in: ['beginning_in', 'Languages', 'language'],
  is_tree_of: ['is_tree_of', 'Languages', 'language'],
  is_keyword: ['is_keyword', 'Vocabulary', 'language'],
  // a search that the definitions have themselves
  spelled: ['spelled', 'Search', 'language'],
  // where expressions end
  edge: ['edge', 'Edges', 'language'],
  stops: ['stops', 'Continuations', 'language'],
  operation: ['operation', 'Continuations', 'language'],
  // costs and layout
  least: ['least', 'Cost', 'language'],
  cells: ['cells', 'Cost', 'language'],
  fixed_text: ['fixed_text', 'Layout', 'language'],
  layout: ['layout', 'Layout', 'language'],
  fits: ['fits', 'LayoutFits', 'language'],
  printed: ['printed', 'Printed', 'language'],
  items_text: ['items_text', 'Printed', 'language'],
  stand_apart: ['stand_apart', 'Readable', 'language'],
  wrapped_rows: ['wrapped_rows', 'Layout', 'language'],
  row_nodes: ['row_nodes', 'Claims', 'language'],
  cell_bound: ['cell_bound', 'Claims', 'language'],
  total_bound: ['total_bound', 'Claims', 'language'],
  contexts: ['contexts', 'Claims', 'language'],
  // early errors
  errors: ['errors', 'Early', 'early_errors'],
  least_error: ['least_error', 'Early', 'early_errors'],
  // tokens as texts, and their values
  token_at: ['is_token', 'Lexical', 'tokens'],
  punctuators: ['punctuators', 'Lexical', 'tokens'],
  allows: ['allows', 'Goals', 'tokens'],
  begins_comment: ['begins_comment', 'Comments', 'tokens'],
  is_comment: ['is_comment', 'Comments', 'tokens'],
  is_white_space: ['is_white_space', 'Spaces', 'source_text'],
  is_line_terminator: ['is_line_terminator', 'Lines', 'source_text'],
  size: ['size', 'Tokens', 'tokens'],
  line_column: ['line_column', 'Lines', 'source_text'],
  string_units: ['string_units', 'Strings', 'tokens'],
  raw_value: ['raw_value', 'Templates', 'tokens'],
  cooked_value: ['cooked_value', 'Templates', 'tokens'],
  literal_units: ['literal_units', 'Strings', 'language'],
  cooks: ['cooks', 'Cooked', 'early_errors'],
};
// The constructors of the classes and goals of tokens, by the words of the model; enumerations of the Rust source.
const CLASS = {
  name: 'IdentifierName',
  punctuator: 'Punctuator',
  number: 'NumericLiteral',
  string: 'StringLiteral',
  template: 'Template',
  regexp: 'RegularExpressionLiteral',
  private: 'PrivateName',
  keyword: 'Keyword',
  end: 'End',
};
const GOALS = ['Div', 'RegExp', 'TemplateTail'];
const FORM = {
  init: 'Init',
  get: 'Get',
  set: 'Set',
  method: 'Method',
  shorthand: 'Shorthand',
  constructor: 'Constructor',
  generator: 'Generator',
  async: 'Async',
  async_generator: 'AsyncGenerator',
};
const LANGUAGE = { base: 'Base', script: 'Script', module: 'Module' };
const PROGRAM_TEXT = { base: '', script: '2022', module: 'module' };
const FLAGS = ['computed', 'optional', 'is_static', 'prefix', 'directive', 'expression'];

class Model {
  // of these folders' definitions, or of some that are loaded
  constructor(folders, spec = antt.load(folders)) {
    this.spec = spec;
    for (const [key, where] of Object.entries(NAMES)) this[key] = this.spec.fn(...where);
    const unwrap = (v) => (typeof v === 'function' ? v() : v);
    this.none = unwrap(this.none);
    this.script = unwrap(this.script);
    this.contexts = unwrap(this.contexts);
    this.beginning = unwrap(this.beginning);
    this.classes = Object.fromEntries(Object.entries(CLASS).map(([k, v]) => [k, this.spec.variant('TokenClass', v)]));
    this.languages = Object.fromEntries(Object.entries(LANGUAGE).map(([k, v]) => [k, this.spec.variant('Language', v)]));
    this.goals = Object.fromEntries(GOALS.map((v) => [v, this.spec.variant('Goal', v)]));
    this.forms = Object.fromEntries(Object.entries(FORM).map(([k, v]) => [k, this.spec.variant('Form', v)]));
    const wide = [this.spec.variant('Rank', 'Expression'), true, this.spec.variant('Start', 'Any')];
    this.exprAny = this.expr(...wide);
  }
  kind(name) {
    return this.spec.variant('Kind', name);
  }

  // A plain tree {kind, text, flags, start, stop, parts} (a gap is null) as a tree of the definitions.
  // The plain node keeps it as `.spec`, and it keeps the plain node as `.plain`.
  tree(n) {
    const flags = { ...n.flags, form: this.forms[n.flags.form] };
    let parts = this.none;
    for (let i = n.parts.length - 1; i >= 0; i--) parts = n.parts[i] === null ? this.gap(parts) : this.part(this.tree(n.parts[i]), parts);
    const v = this.node(this.kind(n.kind), antt.bytes(n.text), flags, n.start, n.stop, parts);
    v.plain = n;
    n.spec = v;
    return v;
  }
  token(t) {
    return { class: this.classes[t.cls], text: antt.bytes(t.text), start: t.start, stop: t.stop, after_break: t.afterBreak };
  }
}

// ---------------------------------------------------------------- ESTree to plain trees

const noFlags = () => ({ computed: false, optional: false, is_static: false, prefix: false, directive: false, expression: false, form: 'init' });
// What a node's flag is, where it isn't a field of that name. (A unary operator has ESTree's `prefix` too, which is no flag of its kind.)
const FLAG = {
  is_static: (e) => e.static,
  directive: (e) => typeof e.directive === 'string',
  form: (e) => (FORMS.get(e.type) ?? ownForm)(e),
};
const ownForm = (e) => (e.shorthand ? 'shorthand' : e.method ? 'method' : e.kind);
const functionForm = (e) => (e.async ? (e.generator ? 'async_generator' : 'async') : e.generator ? 'generator' : 'init');
const samePlace = (x, y) => x.start === y.start && x.end === y.end;
const isOneName = (e) => samePlace(e, e.local) && samePlace(e, e.imported ?? e.exported);
const specifierForm = (e) => (isOneName(e) ? 'shorthand' : 'init');
const FORMS = new Map([
  ['YieldExpression', (e) => (e.delegate ? 'generator' : 'init')],
  ['ForOfStatement', (e) => (e.await ? 'async' : 'init')],
  ['FunctionExpression', functionForm],
  ['FunctionDeclaration', functionForm],
  ['ArrowFunctionExpression', functionForm],
  ['ImportSpecifier', specifierForm],
  ['ExportSpecifier', specifierForm],
]);
// The parts of a node where they aren't its fields in their order: a template's chunks and expressions take turns, and a specifier's one name is one part.
const oneName = (first, second) => (e) => (isOneName(e) ? [e[first]] : [e[first], e[second]]);
const PARTS = new Map([
  ['TemplateLiteral', (e) => e.quasis.flatMap((q, i) => (i < e.expressions.length ? [q, e.expressions[i]] : [q]))],
  ['ImportSpecifier', oneName('imported', 'local')],
  ['ExportSpecifier', oneName('local', 'exported')],
]);
const partsOf = (row, e) => PARTS.get(e.type)?.(e) ?? row.parts.flatMap(({ field, isList }) => (isList ? [...e[field]] : [e[field]]));
// A node of the model (or of the outside judge) as a plain tree; `n.from` is the ESTree node. `language` is that of a Program.
function plainTree(e, language = 'base') {
  const row = KINDS_OF_2022.get(e.type);
  if (row === undefined) throw new Error('no plain form: ' + e.type);
  const text = e.type === 'Program' ? PROGRAM_TEXT[language] : row.text === undefined ? '' : row.text.split('.').reduce((at, field) => at[field], e);
  const flags = Object.fromEntries(row.flags.map((flag) => [flag, FLAG[flag] === undefined ? e[flag] : FLAG[flag](e)]));
  return {
    kind: e.type,
    text,
    flags: { ...noFlags(), ...flags },
    start: e.start ?? 0,
    stop: e.end ?? 0,
    parts: partsOf(row, e).map((p) => (p === null || p === undefined ? null : plainTree(p))),
    from: e,
  };
}
const copyTree = (n) => (n === null ? null : { kind: n.kind, text: n.text, flags: { ...n.flags }, start: n.start, stop: n.stop, parts: n.parts.map(copyTree) });
// "The same tree": places left out.
function bareText(n) {
  if (n === null) return '~';
  const flags = FLAGS.filter((f) => n.flags[f]).join(',') + (n.flags.form === 'init' ? '' : ':' + n.flags.form);
  return `(${n.kind} ${JSON.stringify(n.text)} ${flags}${n.parts.map((p) => ' ' + bareText(p)).join('')})`;
}
function nodesOf(n, list = []) {
  list.push(n);
  for (const p of n.parts) if (p !== null) nodesOf(p, list);
  return list;
}

module.exports = { Model, NAMES, PLAIN_MODEL, CRATES, FLAGS, FORM, LANGUAGE, PROGRAM_TEXT, plainTree, copyTree, bareText, nodesOf, noFlags };
