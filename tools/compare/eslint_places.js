'use strict';
// Where ESLint's rules report what `jslint` reports at another place: of a report of ESLint that place, or none if there is none.

const LOOPS = ['WhileStatement', 'DoWhileStatement', 'ForStatement', 'ForInStatement', 'ForOfStatement'];
const EQUALITIES = ['==', '!='];

// The operator's places of these binary expressions.
function operators(source, list) {
  const found = new Map();
  for (const node of source.nodes) {
    if (node.type !== 'BinaryExpression' || !list.includes(node.operator)) continue;
    found.set(source.code.getFirstTokenBetween(node.left, node.right, (it) => it.value === node.operator).range[0], node);
  }
  return found;
}

// The function that ESLint reports by its `=>`, its name, the key of its member or its head.
function functionAt(source, place) {
  if (source.text.startsWith('=>', place))
    return source.nodes.find((it) => it.type === 'ArrowFunctionExpression' && source.code.getTokenBefore(it.body, (t) => t.value === '=>').range[0] === place);
  const node = (source.starts.get(place) ?? []).at(-1);
  if (node === undefined) return null;
  const { parent } = node;
  if (/Function/.test(parent?.type) && parent.id === node) return parent;
  if (parent?.key === node && /Function/.test(parent.value?.type)) return parent.value;
  return source.nodeAt(place, 'FunctionDeclaration', 'FunctionExpression', 'ArrowFunctionExpression');
}

// The names that a declarator declares, in order.
function namesIn(pattern) {
  if (pattern === null) return [];
  if (pattern.type === 'Identifier') return [pattern];
  const parts = pattern.elements ?? pattern.properties?.map((it) => it.value ?? it.argument) ?? [pattern.left ?? pattern.argument];
  return parts.flatMap(namesIn);
}

const PLACES = {
  'array-callback-return': (source, place) => source.nodeAt(place, 'ReturnStatement')?.range[0] ?? functionAt(source, place)?.range[0],
  'consistent-return': (source, place) => {
    const statement = source.nodeAt(place, 'ReturnStatement');
    return (statement === undefined ? functionAt(source, place) : source.functionRound(statement))?.range[0];
  },
  curly: (source, place) => {
    if (/^else\b/.test(source.text.slice(place, place + 5))) {
      const behind = source.code.getTokenAfter(source.code.getTokenByRangeStart(place)).range[0];
      return source.starts.get(behind).find((it) => it.parent.alternate === it).range[0];
    }
    const node = source.nodeAt(place, 'IfStatement', ...LOOPS);
    return (node.consequent ?? node.body).range[0];
  },
  eqeqeq: (source, place) => {
    source.equalities ??= operators(source, EQUALITIES);
    return source.equalities.get(place)?.range[0];
  },
  'getter-return': (source, place) => source.nodeAt(place, 'ReturnStatement')?.range[0] ?? functionAt(source, place)?.parent.range[0],
  'no-implicit-globals': (source, place, nth) => {
    const node = source.nodeAt(place, 'FunctionDeclaration', 'VariableDeclarator');
    return node.type === 'FunctionDeclaration' ? node.id.range[0] : namesIn(node.id)[nth]?.range[0];
  },
  'no-regex-spaces': (source, place) => (source.text[place] === '/' ? place + source.text.slice(place).search(/ {2}/) : undefined),
  'no-unneeded-ternary': (source, place) => (source.starts.get(place) ?? []).find((it) => it.parent.consequent === it)?.parent.range[0],
  'no-useless-concat': (source, place) => {
    source.sums ??= operators(source, ['+']);
    const sum = source.sums.get(place);
    let second = sum?.right;
    while (second?.type === 'BinaryExpression' && second.operator === '+') second = second.left;
    return second?.range[0];
  },
};

// These `jslint` reports once of a function or a literal, ESLint as often as there is something to say of it.
const ONCE = new Set(['consistent-return', 'no-misleading-character-class']);

module.exports = { ONCE, PLACES };
