'use strict';
// A tree as a text in which nothing is left of what `mend` changes: two trees have one such text if they differ by changes of its rules alone.
// It is written from what docs/rules says of each change, apart from the crates.

const IN_ROUNDS = ['+', '-', '*', '/', '%', '**', '<<', '>>', '>>>', '&', '|', '^'];
const PLACES = new Set(['start', 'end', 'loc', 'range', 'raw', 'parent', 'tokens', 'comments']);

const isLiteral = (node, type) => node?.type === 'Literal' && (type === undefined || typeof node.value === type);
const isText = (node) => isLiteral(node, 'string') || (node.type === 'UnaryExpression' && node.operator === 'typeof');
const isNot = (node) => node?.type === 'UnaryExpression' && node.operator === '!';
const isProto = (node) => (node.name ?? node.value) === '__proto__';
const isBare = (node) => node.type === 'ReturnStatement' && node.argument === null;

// `!!a` in a place where only its being true counts.
function truth(node) {
  return isNot(node) && isNot(node.argument) ? truth(node.argument.argument) : node;
}

// Whether something in a statement jumps to a label.
function isJumpedTo(node, label) {
  if (node === null || typeof node !== 'object') return false;
  if (/^(Break|Continue)Statement$/.test(node.type)) return node.label?.name === label;
  return Object.entries(node).some(([key, part]) => key !== 'parent' && (Array.isArray(part) ? part : [part]).some((it) => isJumpedTo(it, label)));
}

function withoutLabel(node) {
  return node.type === 'LabeledStatement' && !isJumpedTo(node.body, node.label.name) ? withoutLabel(node.body) : node;
}

// The statements of a list that stay.
const staying = (list) => list.map(withoutLabel).filter((it) => !/^(?:Empty|Debugger)Statement$/.test(it.type));

const block = (list) => ({ type: 'BlockStatement', body: list });

// A body in braces.
const braced = (node) => (node.type === 'BlockStatement' ? node : block([node]));

// What stands behind `else`: an `if` alone in a block is that `if`.
function behindElse(node) {
  if (node === null) return null;
  const list = staying(braced(node).body);
  return list.length === 1 && list[0].type === 'IfStatement' ? list[0] : block(list);
}

// A list of statements at the end of a function, without the `return` that are of no use.
function ending(list) {
  const left = staying(list);
  while (left.length > 0 && isBare(left.at(-1))) left.pop();
  if (left.length > 0) left.push(endingStatement(left.pop()));
  return left;
}

function endingStatement(node) {
  const endingBody = (it) => (it === null ? null : block(ending(braced(it).body)));
  switch (node.type) {
    case 'BlockStatement':
      return block(ending(node.body));
    case 'IfStatement': {
      const alternate = behindElse(node.alternate);
      return {
        ...node,
        consequent: endingBody(node.consequent),
        alternate: alternate?.type === 'IfStatement' ? endingStatement(alternate) : endingBody(alternate),
      };
    }
    case 'SwitchStatement':
      return { ...node, cases: node.cases.map((it, i, all) => (i + 1 === all.length ? { ...it, consequent: ending(it.consequent) } : it)) };
    case 'TryStatement':
      return node.finalizer === null && node.handler !== null ? { ...node, handler: { ...node.handler, body: endingBody(node.handler.body) } } : node;
    default:
      return node;
  }
}

function expression(node) {
  switch (node.type) {
    case 'MemberExpression':
      return node.computed && isLiteral(node.property, 'string')
        ? { ...node, computed: false, property: { type: 'Identifier', name: node.property.value } }
        : node;
    case 'BinaryExpression':
      return /^[!=]=$/.test(node.operator) && isText(node.left) && isText(node.right) ? { ...node, operator: node.operator + '=' } : node;
    case 'UnaryExpression':
      return isNot(node) ? { ...node, argument: truth(node.argument) } : node;
    case 'AssignmentExpression': {
      const { left, right, operator } = node;
      const isSame = operator === '=' && left.type === 'Identifier' && right.type === 'BinaryExpression' && IN_ROUNDS.includes(right.operator);
      return isSame && right.left.type === 'Identifier' && right.left.name === left.name
        ? { ...node, operator: right.operator + '=', right: right.right }
        : node;
    }
    case 'Property': {
      const isKept = isProto(node.key);
      return { ...node, shorthand: isKept && node.shorthand, computed: node.computed && (isKept || !isLiteral(node.key)) };
    }
    case 'CallExpression':
    case 'NewExpression':
      return node.callee.name === 'Boolean' && node.arguments.length > 0
        ? { ...node, arguments: [truth(node.arguments[0]), ...node.arguments.slice(1)] }
        : node;
    default:
      return node;
  }
}

function statement(node) {
  if (node.type === 'VariableDeclaration' && node.kind === 'let') return { ...node, kind: 'const' };
  if (Array.isArray(node.body) && /^(Program|BlockStatement)$/.test(node.type)) return { ...node, body: staying(node.body) };
  if (node.type === 'SwitchCase') return { ...node, consequent: staying(node.consequent) };
  if (/Function/.test(node.type) && node.body.type === 'BlockStatement') return { ...node, body: block(ending(node.body.body)) };
  const found = { ...node };
  if (/^(If|While|DoWhile|For)Statement$|^ConditionalExpression$/.test(node.type) && node.test !== null) found.test = truth(node.test);
  if (node.type === 'IfStatement') Object.assign(found, { consequent: braced(withoutLabel(node.consequent)), alternate: behindElse(node.alternate) });
  else if (/^(While|DoWhile|For|ForIn|ForOf)Statement$/.test(node.type)) found.body = braced(withoutLabel(node.body));
  return found;
}

// The tree without what the rules change and without places.
function bare(node) {
  if (Array.isArray(node)) return node.map(bare);
  if (typeof node === 'bigint') return `${node}n`;
  if (node === null || typeof node !== 'object' || node instanceof RegExp) return node;
  if (typeof node.type !== 'string') return node;
  const it = statement(expression(withoutLabel(node)));
  return Object.keys(it)
    .sort()
    .filter((key) => !PLACES.has(key))
    .map((key) => [key, bare(it[key])]);
}

const shape = (tree) => JSON.stringify(bare(tree));

module.exports = { shape };
