'use strict';
// Why a change of tokens may be made on one side alone: of each rule and side the reasons, each with what has to hold of the change. What none of
// them holds of has no reason yet.

const { isBeforeNothing } = require('./eslint_reasons.js');

// The nodes of these types round the last token that goes, or that stands before what comes, from the outermost on.
function round(source, { first, gone }, ...types) {
  const { range } = source.code.ast.tokens[Math.max(first + gone - 1, 0)];
  return source.nodes.filter((it) => types.includes(it.type) && it.range[0] <= range[0] && range[1] <= it.range[1]);
}

const isText = (node) => (node.type === 'Literal' && typeof node.value === 'string') || (node.type === 'UnaryExpression' && node.operator === 'typeof');
const isKeyOfText = (node) => node.key.type === 'Literal' && !node.computed;

// Whether something round the change is so.
const some = (types, holds) => (source, change) => round(source, change, ...types).some((it) => holds(it, source));

const REASONS = {
  curly: { jslint: [['a body of an `if` that ESLint 6.4 passes by', some(['IfStatement'], (it) => it.parent.type === 'IfStatement')]] },
  eqeqeq: {
    eslint: [['one side alone is a `typeof`, or both are literals and no strings', some(['BinaryExpression'], (it) => !isText(it.left) || !isText(it.right))]],
  },
  'no-debugger': { jslint: [['ESLint has no change', () => true]] },
  'no-extra-boolean-cast': {
    eslint: [['a call of `Boolean`', some(['CallExpression', 'NewExpression'], (it) => it.callee.name === 'Boolean')]],
  },
  'no-extra-semi': { eslint: [['in a class', some(['ClassBody'], () => true)]] },
  'no-useless-return': {
    eslint: [
      ['without a `;`', (source, { first, gone }) => source.code.ast.tokens[first + gone]?.value !== ';'],
      ['in a `try` block, or before nothing but a further such `return`', some(['ReturnStatement'], (it, source) => isBeforeNothing(source, it.range[0]))],
    ],
  },
  'object-shorthand': {
    eslint: [
      ['a function', some(['Property'], (it) => it.value.type === 'FunctionExpression')],
      ['a key in quotation marks', some(['Property'], isKeyOfText)],
    ],
  },
  'operator-assignment': {
    eslint: [['a member of a name', some(['AssignmentExpression'], (it) => it.left.type === 'MemberExpression')]],
  },
  'prefer-const': {
    eslint: [['a pattern', some(['VariableDeclaration'], (it) => it.declarations.some(({ id }) => id.type !== 'Identifier'))]],
  },
};

// The reason of a change of tokens on one side alone, or none.
function reasonOf(rule, change, source) {
  return REASONS[rule]?.[change.side]?.find(([, holds]) => holds(source, change))?.[0] ?? null;
}

module.exports = { reasonOf };
