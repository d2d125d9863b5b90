'use strict';
// The kinds of nodes, a row each, in the order of `Kind` (crates/tree/src/kind.rt has what each holds). What only lists kinds reads them here: the plain
// model (parse.js, plan.js, print.js, scopes.js, canon.js), what makes trees and texts (trees.js, ../definitions/model.js and texts.js, ../rows), and the
// maker of rows. What one of these thinks about a kind stands there, by its name.
//
// brute.js takes nothing from here, and nor do the program, the definitions, tools/standard and tools/table_checker, to which all that is compared.

// [kind, family, parts, more]
//   family  expression, pattern, statement, or part: what only stands in nodes of some kinds
//   parts   the fields that hold nodes, in source order, each with what stands there (`?`: or null; `..`: a list):
//             a symbol   an expression, spelled at that symbol, with In, and anything may begin it
//             object     an expression or Super, at a symbol that depends on where the node is
//             operand    an expression, at a symbol that depends on the operator
//             argument   an expression at Assignment, or a SpreadElement
//             statement  a statement or declaration
//             binding    a pattern that declares, or such a name
//             target     what is assigned to
//             node       something else, with which whoever reads the row deals by the kind
//             name       an Identifier that is a word of its node, and no reference
//   more    text    the field that is the text of its node, if it has one
//           flags   the flags of its node (`form` is what a property or a method is)
//           fields  the fields that tell trees apart, in ESTree's order: if they aren't text, parts and flags
//           rank    of an expression: the tightest symbol that spells it; none where that depends on its operator
//           layout  its fixed text where nothing but its parts (an argument as it is, a list with commas) and its text varies
const ROWS = [
  ['Program', 'part', 'body statement..'],
  ['Identifier', 'expression', '', { rank: 'Primary', text: 'name', layout: '{name}' }],
  ['Literal', 'expression', '', { rank: 'Primary', text: 'raw', layout: '{raw}' }],
  ['ThisExpression', 'expression', '', { rank: 'Primary', layout: 'this' }],
  ['Super', 'part', '', { layout: 'super' }],
  ['ArrayExpression', 'expression', 'elements argument?..', { rank: 'Primary' }],
  ['ObjectExpression', 'expression', 'properties node..', { rank: 'Primary' }],
  ['Property', 'part', 'key node, value node', { flags: 'form computed', fields: 'key value kind method shorthand computed' }],
  ['SpreadElement', 'part', 'argument Assignment', { layout: '...{argument}' }],
  ['FunctionExpression', 'expression', 'id name?, params binding.., body node', { rank: 'Primary' }],
  ['ArrowFunctionExpression', 'expression', 'params binding.., body node', { rank: 'Assignment', flags: 'expression', fields: 'params body' }],
  ['ClassExpression', 'expression', 'id name?, superClass LeftHandSide?, body node', { rank: 'Primary' }],
  ['ClassBody', 'part', 'body node..'],
  ['MethodDefinition', 'part', 'key node, value node', { flags: 'form computed is_static', fields: 'key value kind computed static' }],
  ['TemplateLiteral', 'expression', 'quasis node.., expressions Expression..', { rank: 'Primary' }],
  ['TemplateElement', 'part', '', { text: 'value.raw', fields: 'value' }],
  ['TaggedTemplateExpression', 'expression', 'tag object, quasi node', { rank: 'Member' }],
  ['MemberExpression', 'expression', 'object object, property node', { rank: 'Member', flags: 'computed optional' }],
  ['CallExpression', 'expression', 'callee object, arguments argument..', { rank: 'Call', flags: 'optional' }],
  ['NewExpression', 'expression', 'callee Member, arguments argument..', { rank: 'Member', layout: 'new {callee}({arguments})' }],
  ['MetaProperty', 'expression', 'meta name, property name', { rank: 'Member', layout: '{meta}.{property}' }],
  ['ImportExpression', 'expression', 'source Assignment', { rank: 'Call', layout: 'import({source})' }],
  ['ChainExpression', 'expression', 'expression node', { rank: 'LeftHandSide' }],
  ['UpdateExpression', 'expression', 'argument LeftHandSide', { rank: 'Update', text: 'operator', flags: 'prefix', fields: 'operator prefix argument' }],
  ['UnaryExpression', 'expression', 'argument Unary', { rank: 'Unary', text: 'operator' }],
  ['BinaryExpression', 'expression', 'left operand, right operand', { text: 'operator', layout: '{left} {operator} {right}' }],
  ['LogicalExpression', 'expression', 'left operand, right operand', { text: 'operator', layout: '{left} {operator} {right}' }],
  [
    'ConditionalExpression',
    'expression',
    'test ShortCircuit, consequent Assignment, alternate Assignment',
    { rank: 'Conditional', layout: '{test} ? {consequent} : {alternate}' },
  ],
  ['AssignmentExpression', 'expression', 'left target, right Assignment', { rank: 'Assignment', text: 'operator' }],
  ['SequenceExpression', 'expression', 'expressions Assignment..', { rank: 'Expression', layout: '{expressions}' }],
  ['ArrayPattern', 'pattern', 'elements node?..'],
  ['ObjectPattern', 'pattern', 'properties node..'],
  ['AssignmentPattern', 'pattern', 'left node, right Assignment'],
  ['RestElement', 'pattern', 'argument node'],
  ['ExpressionStatement', 'statement', 'expression Expression', { flags: 'directive', layout: '{expression};' }],
  ['BlockStatement', 'statement', 'body statement..'],
  ['EmptyStatement', 'statement', '', { layout: ';' }],
  ['DebuggerStatement', 'statement', '', { layout: 'debugger;' }],
  ['ReturnStatement', 'statement', 'argument Expression?'],
  ['ThrowStatement', 'statement', 'argument Expression', { layout: 'throw {argument};' }],
  ['BreakStatement', 'statement', 'label name?'],
  ['ContinueStatement', 'statement', 'label name?'],
  ['LabeledStatement', 'statement', 'label name, body statement', { layout: '{label}: {body}' }],
  ['IfStatement', 'statement', 'test Expression, consequent statement, alternate statement?'],
  ['SwitchStatement', 'statement', 'discriminant Expression, cases node..'],
  ['SwitchCase', 'part', 'test Expression?, consequent statement..'],
  ['TryStatement', 'statement', 'block statement, handler node?, finalizer statement?'],
  ['CatchClause', 'part', 'param binding?, body statement'],
  ['WhileStatement', 'statement', 'test Expression, body statement', { layout: 'while ({test}) {body}' }],
  ['DoWhileStatement', 'statement', 'body statement, test Expression', { fields: 'test body', layout: 'do {body} while ({test});' }],
  ['ForStatement', 'statement', 'init node?, test Expression?, update Expression?, body statement'],
  ['ForInStatement', 'statement', 'left node, right Expression, body statement'],
  ['ForOfStatement', 'statement', 'left node, right Assignment, body statement'],
  ['VariableDeclaration', 'statement', 'declarations node..', { text: 'kind' }],
  ['VariableDeclarator', 'part', 'id binding, init Assignment?'],
  ['FunctionDeclaration', 'statement', 'id name, params binding.., body node'],
  ['ClassDeclaration', 'statement', 'id name, superClass LeftHandSide?, body node'],
];

// The kinds of the language of 2022, and older ones that have a flag more there. parse.js, early.js, ../definitions and the maker of rows know these, nothing else.
const ROWS_OF_2022 = [
  ['YieldExpression', 'expression', 'argument Assignment?', { rank: 'Assignment', flags: 'form', fields: 'argument delegate' }],
  ['AwaitExpression', 'expression', 'argument Unary', { rank: 'Unary' }],
  ['PrivateIdentifier', 'part', '', { text: 'name' }],
  ['PropertyDefinition', 'part', 'key node, value Assignment?', { flags: 'computed is_static', fields: 'key value computed static' }],
  ['StaticBlock', 'part', 'body statement..'],
  ['ImportDeclaration', 'part', 'specifiers node.., source node'],
  ['ImportSpecifier', 'part', 'imported node, local node', { flags: 'form', fields: 'imported local' }],
  ['ImportDefaultSpecifier', 'part', 'local node'],
  ['ImportNamespaceSpecifier', 'part', 'local node'],
  ['ExportNamedDeclaration', 'part', 'declaration node?, specifiers node.., source node?'],
  ['ExportSpecifier', 'part', 'local node, exported node', { flags: 'form', fields: 'local exported' }],
  ['ExportDefaultDeclaration', 'part', 'declaration node'],
  ['ExportAllDeclaration', 'part', 'exported node?, source node'],
  ['FunctionExpression', 'expression', 'id name?, params binding.., body node', { rank: 'Primary', flags: 'form', fields: 'id params body generator async' }],
  ['FunctionDeclaration', 'statement', 'id name?, params binding.., body node', { flags: 'form', fields: 'id params body generator async' }],
  ['ClassDeclaration', 'statement', 'id name?, superClass LeftHandSide?, body node'],
  ['ArrowFunctionExpression', 'expression', 'params binding.., body node', { rank: 'Assignment', flags: 'expression form', fields: 'params body async' }],
  ['ForOfStatement', 'statement', 'left node, right Assignment, body statement', { flags: 'form', fields: 'left right body await' }],
];

// Kinds that are much alike: a tree with one of them in another's place is nearly right.
const LIKE = `
ArrayExpression ArrayPattern
ObjectExpression ObjectPattern
SpreadElement RestElement
AssignmentExpression AssignmentPattern BinaryExpression LogicalExpression
CallExpression NewExpression ImportExpression ChainExpression
MemberExpression TaggedTemplateExpression MetaProperty
UnaryExpression UpdateExpression
FunctionExpression FunctionDeclaration ArrowFunctionExpression
ClassExpression ClassDeclaration
Identifier Literal ThisExpression Super
Property MethodDefinition
ForInStatement ForOfStatement ForStatement
BreakStatement ContinueStatement ReturnStatement ThrowStatement
WhileStatement DoWhileStatement
ConditionalExpression IfStatement
BlockStatement ClassBody Program
EmptyStatement DebuggerStatement
SequenceExpression ArrayExpression`
  .trim()
  .split('\n')
  .map((line) => line.split(' '));
// Kinds that may be put around a single node.
const AROUND = (
  'ChainExpression UnaryExpression SequenceExpression ExpressionStatement BlockStatement SpreadElement NewExpression CallExpression ImportExpression ' +
  'ArrayExpression ArrayPattern ReturnStatement RestElement'
).split(' ');

const words = (text = '') => text.split(' ').filter(Boolean);

function rowOf([kind, family, written, { rank, text, flags, fields, layout } = {}]) {
  const parts = written
    .split(', ')
    .filter(Boolean)
    .map((part) => {
      const [, field, role, isGap, isList] = /^(\w+) (\w+)(\?)?(\.\.)?$/.exec(part);
      return { field, role, mayBeGap: isGap !== undefined, isList: isList !== undefined };
    });
  return {
    kind,
    family,
    parts,
    rank,
    text,
    flags: words(flags),
    written: layout,
    layout: layout?.split(/\{(\w+)\}/).map((it, i) => (i % 2 === 0 ? { word: it } : { field: it, role: parts.find((part) => part.field === it)?.role })),
    fields: fields === undefined ? [...words(text), ...parts.map((it) => it.field), ...words(flags)] : words(fields),
  };
}

const KINDS = new Map(ROWS.map(rowOf).map((row) => [row.kind, row]));
const KINDS_OF_2022 = new Map([...KINDS, ...ROWS_OF_2022.map(rowOf).map((row) => [row.kind, row])]);
const ofFamily = (family) => [...KINDS.values()].filter((row) => row.family === family).map((row) => row.kind);
const EXPRESSIONS = new Set(ofFamily('expression'));
const STATEMENTS = new Set(ofFamily('statement'));

// The parts of a node that are there, in source order by their fields, each with what stands in its place.
function* partsOf(node) {
  for (const { field, role } of KINDS.get(node.type).parts) {
    for (const part of [node[field]].flat()) if (part !== null) yield { part, role };
  }
}

// Kinds by their layout: of a statement that is a word, by that word; of an expression that is a word and an expression in parentheses, with its field.
const laidOut = (shape) => [...KINDS.values()].map(({ kind, written = '' }) => [kind, shape.exec(written)]).filter(([, found]) => found !== null);
const WORD_STATEMENTS = new Map(laidOut(/^([a-z]+);$/).map(([kind, [, word]]) => [word, kind]));
const WORD_CALLS = new Map(laidOut(/^([a-z]+)\(\{(\w+)\}\)$/).map(([kind, [, word, field]]) => [word, { kind, field }]));

module.exports = { AROUND, EXPRESSIONS, KINDS, KINDS_OF_2022, LIKE, STATEMENTS, WORD_CALLS, WORD_STATEMENTS, partsOf };
