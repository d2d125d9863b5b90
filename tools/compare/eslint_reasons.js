'use strict';
// Why a report of a rule may stand on one side alone: of each rule and side the reasons, each with what has to hold of the report. What none of
// them holds of has no reason yet. `docs/rules` says the same of each rule, under "What differs from ESLint's rule".

// Names that ESLint 6.4 knows as built in, or doesn't, and `jslint` the other way round.
const OF_OBJECT_PROTOTYPE = ['constructor', 'hasOwnProperty', 'isPrototypeOf', 'propertyIsEnumerable', 'toLocaleString', 'toString', 'valueOf'];
const OF_ANNEX_B = ['escape', 'unescape'];
const LATER = ['globalThis', 'AggregateError', 'FinalizationRegistry', 'WeakRef'];

// The node that begins here and is this part of what it stands in.
const partAt = (source, place, part, ...types) =>
  (source.starts.get(place) ?? []).find((it) => it.parent?.[part] === it && (types.length === 0 || types.includes(it.parent.type)));

const isName = (node, name) => node?.type === 'Identifier' && node.name === name;
const isInvoked = (node) => node.type === 'CallExpression' && node.callee.type === 'FunctionExpression';
const beginsWithWord = (source, node) => /^(function|class|\{)/.test(source.text.slice(node.range[0]));

// Whether a branch always returns, as ESLint's no-else-return asks: by a `return`, or an `if` and its `else` that end with one.
function alwaysReturns(branch) {
  const returns = (it) => it?.type === 'ReturnStatement';
  const endsSo = (it) => returns(it?.type === 'BlockStatement' ? it.body.at(-1) : it);
  const doesSo = (it) => returns(it) || (it.type === 'IfStatement' && endsSo(it.alternate) && endsSo(it.consequent));
  return branch.type === 'BlockStatement' ? branch.body.some(doesSo) : doesSo(branch);
}

// The branches before what stands behind the last `else` of a chain.
function branchesBefore(alternate) {
  const found = [];
  for (let it = alternate; it.parent.type === 'IfStatement' && it.parent.alternate === it; it = it.parent) found.push(it.parent.consequent);
  return found;
}

// Whether a name stands in the initializer of its own declaration.
function isInOwnInitializer(source, place) {
  const variable = source.variableAt(place);
  return (variable?.defs ?? []).some(({ node }) => {
    const round =
      node.type === 'VariableDeclarator'
        ? node.init ?? (/^For(In|Of)Statement$/.test(node.parent.parent.type) ? node.parent.parent.right : null)
        : node.value ?? node.superClass;
    return round !== null && round !== undefined && round.range[0] <= place && place < round.range[1];
  });
}

// Whether all that reads a variable serves to write it, or stands in the function or class that it is.
function isReadBySelfAlone(source, variable) {
  const reads = variable.references.filter((it) => it.isRead());
  return reads.every(({ identifier }) => {
    for (let it = identifier.parent; it !== null; it = it.parent) {
      if (it.type === 'UpdateExpression' && it.argument === identifier) return true;
      if (it.type === 'AssignmentExpression' && isName(it.left, variable.name)) return true;
      if (variable.defs.some(({ node }) => node === it && node.type !== 'VariableDeclarator')) return true;
      if (variable.defs.some(({ node }) => node.type === 'VariableDeclarator' && node.init === it && /Function|Class/.test(it.type))) return true;
      if (it.type === 'FunctionExpression' || it.type === 'ArrowFunctionExpression') {
        const { parent } = it;
        if (parent.type === 'AssignmentExpression' && parent.right === it && isName(parent.left, variable.name)) return true;
      }
    }
    return false;
  });
}

// Whether the body that begins here belongs to an `if`, or to an `else` of it, that is itself what another one does.
function isBelowIf(source, place) {
  let it = (partAt(source, place, 'consequent', 'IfStatement') ?? partAt(source, place, 'alternate', 'IfStatement'))?.parent;
  while (it?.parent.alternate === it && it?.parent.type === 'IfStatement') it = it.parent;
  return it?.parent.type === 'IfStatement' && it.parent.consequent === it;
}

// Whether a node is a member of `this` or `super`, or of such a member.
const isOfThis = (source, it) => it?.type === 'MemberExpression' && source.has(it, (part) => part.type === 'ThisExpression' || part.type === 'Super');

const startsWithCapital = (name) => name !== '' && name[0] !== name[0].toLowerCase();

// Whether the function that begins here has a name like a constructor, or is one.
function isConstructor(source, place) {
  const it = source.nodeAt(place, 'FunctionDeclaration', 'FunctionExpression');
  return it !== undefined && (startsWithCapital(it.id?.name ?? '') || it.parent.kind === 'constructor');
}

// Whether a `return` stands in a `try` block, or nothing but a further `return` without argument comes behind it.
function isBeforeNothing(source, place) {
  let it = source.nodeAt(place, 'ReturnStatement');
  for (; it !== undefined && !/Function/.test(it.parent.type); it = it.parent) {
    if (it.parent.type === 'TryStatement' && it.parent.block === it) return true;
    const list = it.parent.consequent ?? it.parent.body;
    const behind = Array.isArray(list) ? list.slice(list.indexOf(it) + 1).filter((other) => other.type !== 'FunctionDeclaration') : [];
    if (behind.length > 0) return behind.every((other) => other.type === 'ReturnStatement' && other.argument === null);
  }
  return false;
}

// Whether a `+` adds a text that stands more than one `+` deep in one of its sides.
function isDeep(source, place) {
  const isSum = (it) => it.type === 'BinaryExpression' && it.operator === '+';
  let it = source.starts.get(place).at(-1);
  while (isSum(it.parent) && it.parent.left === it) it = it.parent;
  const sum = it.parent;
  return isSum(sum) && ((isSum(sum.right) && isSum(sum.right.left)) || (isSum(sum.left) && isSum(sum.left.right)));
}

const REASONS = {
  'consistent-return': { jslint: [['a function that is called like a constructor', isConstructor]] },
  curly: {
    jslint: [['a body in an `if` that is itself the body of one, which ESLint 6.4 passes by', isBelowIf]],
  },
  'getter-return': {
    eslint: [
      [
        'a getter of `Object.defineProperty` or its kin',
        (source, place) => {
          const node = source.nodeAt(place, 'Property', 'ReturnStatement');
          const property = node?.type === 'Property' ? node : source.functionRound(node)?.parent;
          return property?.kind === 'init' && (property.key.name ?? property.key.value) === 'get';
        },
      ],
    ],
  },
  'no-cond-assign': {
    eslint: [['the test of `?:` in one pair', (source, place) => partAt(source, place, 'test', 'ConditionalExpression')?.type === 'AssignmentExpression']],
  },
  'no-constant-condition': {
    eslint: [
      [
        '`&&` and `||`, or an operator with constant sides',
        (source, place) => /^(Logical|Binary|Sequence)Expression$/.test(partAt(source, place, 'test')?.type),
      ],
    ],
  },
  'no-else-return': {
    eslint: [
      [
        'a branch that `break` or `continue` may leave',
        (source, place) =>
          branchesBefore(partAt(source, place, 'alternate')).some((it) => source.has(it, (part) => /^(Break|Continue)Statement$/.test(part.type))),
      ],
    ],
    jslint: [
      [
        'a branch that never completes, in which ESLint sees no `return` at its end',
        (source, place) => branchesBefore(partAt(source, place, 'alternate')).some((it) => !alwaysReturns(it)),
      ],
    ],
  },
  'no-eval': {
    eslint: [['`eval` that isn\'t called by its name', (source, place) => source.nameAt(place)?.parent.callee === undefined || source.text[place - 1] === '.']],
  },
  'no-extend-native': {
    eslint: [
      ['`Object.defineProperty` or its kin', (source, place) => source.nodeAt(place, 'CallExpression') !== undefined],
      ['a name that the script declares', (source, place) => source.variableAt(place)?.defs.length > 0],
    ],
  },
  'no-extra-parens': {
    eslint: [
      ['a pair round `??`, which ESLint 6.4 doesn\'t know', (source, place) => source.inParentheses(place)?.node.operator === '??'],
      [
        'a sequence in a sequence, which would be one',
        (source, place) => {
          const node = source.inParentheses(place)?.node;
          return node?.type === 'SequenceExpression' && node.parent.type === 'SequenceExpression';
        },
      ],
    ],
    jslint: [
      [
        'a function that is called at once',
        (source, place) => {
          const { node } = source.inParentheses(place);
          return isInvoked(node) || (node.type === 'FunctionExpression' && node.parent.callee === node);
        },
      ],
      [
        'behind `return` or `throw`, with a line end in the pair',
        (source, place) => {
          const { node } = source.inParentheses(place);
          return /^(Return|Throw)Statement$/.test(node.parent.type) &&
            source.code.lines.length > 0 &&
            /[\n\r\u2028\u2029]/.test(source.text.slice(place, node.range[0]));
        },
      ],
      [
        'a statement that would begin with `function`, where a smaller pair would do',
        (source, place) => {
          const { node } = source.inParentheses(place);
          return node.parent.type === 'ExpressionStatement' && beginsWithWord(source, node);
        },
      ],
      [
        '`new` before a member',
        (source, place) => {
          const { node } = source.inParentheses(place);
          return node.type === 'NewExpression' && node.parent.object === node;
        },
      ],
      ['a regular expression', (source, place) => source.inParentheses(place).node.regex !== undefined],
      ['in an operand of `??`, which ESLint 6.4 doesn\'t know', (source, place) => source.inParentheses(place).node.parent.operator === '??'],
      ['one of several pairs round the same', (source, place) => source.inParentheses(place).pairs > 1],
      [
        'a call in what `new` makes, round which a smaller pair would do',
        (source, place) => {
          const { node } = source.inParentheses(place);
          return node.parent.type === 'NewExpression' && node.parent.callee === node;
        },
      ],
    ],
  },
  'no-fallthrough': {
    eslint: [
      [
        'a case without statements, before a blank line or a comment',
        (source, place) => {
          const it = source.nodeAt(place, 'SwitchCase');
          const { cases } = it.parent;
          return cases[cases.indexOf(it) - 1].consequent.length === 0;
        },
      ],
    ],
  },
  'no-implicit-coercion': {
    eslint: [
      [
        'a factor that is 1 and isn\'t written `1`',
        (source, place) => {
          const { left, right } = source.nodeAt(place, 'BinaryExpression') ?? {};
          return [left, right].some((it) => it?.value === 1 && it.raw !== '1');
        },
      ],
    ],
  },
  'no-implicit-globals': {
    eslint: [['a further declaration of a name', (source, place) => source.variableAt(place)?.identifiers[0].range[0] < place]],
  },
  'no-inner-declarations': {
    jslint: [
      [
        'in a block that is an item of the script, which ESLint 6.4 lets be',
        (source, place) => {
          const { parent } = source.nodeAt(place, 'FunctionDeclaration');
          return parent.type === 'BlockStatement' && parent.parent.type === 'Program';
        },
      ],
    ],
  },
  'no-irregular-whitespace': { eslint: [['in a comment', (source, place) => source.commentAt(place) !== null]] },
  'no-misleading-character-class': {
    eslint: [['a text that `RegExp` is called with', (source, place) => source.nodeAt(place, 'CallExpression', 'NewExpression') !== undefined]],
  },
  'no-redeclare': {
    eslint: [
      [
        'a name of `Object.prototype` or of Annex B, which counts as built in',
        (source, place) => [...OF_OBJECT_PROTOTYPE, ...OF_ANNEX_B].includes(source.nameAt(place)?.name) && source.variableAt(place)?.scope.type === 'global',
      ],
    ],
  },
  'no-self-assign': {
    jslint: [['a member of `this` or `super`, which ESLint 6.4 lets be', (source, place) => isOfThis(source, partAt(source, place, 'right'))]],
  },
  'no-self-compare': {
    eslint: [
      [
        'sides that are more than names, literals and members',
        (source, place) => {
          const it = source.nodeAt(place, 'BinaryExpression');
          return it !== undefined && source.has(it.left, (part) => !/^(Identifier|Literal|MemberExpression|ThisExpression|Super)$/.test(part.type));
        },
      ],
    ],
  },
  'no-shadow': {
    eslint: [
      [
        'the own name of a function or class expression',
        (source, place) => {
          const it = source.nameAt(place);
          return /^(Function|Class)Expression$/.test(it?.parent.type) && it.parent.id === it;
        },
      ],
    ],
  },
  'no-undef': {
    eslint: [['a name that ESLint 6.4 doesn\'t know', (source, place) => LATER.includes(source.nameAt(place)?.name)]],
    jslint: [
      [
        'a name of `Object.prototype` or of Annex B, which ESLint knows',
        (source, place) => [...OF_OBJECT_PROTOTYPE, ...OF_ANNEX_B].includes(source.nameAt(place)?.name),
      ],
    ],
  },
  'no-unused-expressions': {
    eslint: [
      [
        'an optional chain, which ESLint 6.4 doesn\'t know',
        (source, place) => source.nodeAt(place, 'ExpressionStatement')?.expression.type === 'ChainExpression',
      ],
    ],
  },
  'no-unused-vars': {
    eslint: [
      [
        'a name that is read only to write it, or inside itself',
        (source, place) => {
          const it = source.variableAt(place);
          return it !== null && isReadBySelfAlone(source, it);
        },
      ],
    ],
    jslint: [
      [
        'the name of a for-in head whose body is a `return`',
        (source, place) => {
          let it = source.nameAt(place);
          const variable = source.variableAt(place);
          return variable.references.some(({ identifier }) => {
            it = identifier;
            while (it !== null && it.type !== 'ForInStatement') it = it.parent;
            const body = it?.body.type === 'BlockStatement' ? it.body.body[0] : it?.body;
            return body?.type === 'ReturnStatement';
          });
        },
      ],
    ],
  },
  'no-use-before-define': { eslint: [['a name in its own initializer', isInOwnInitializer]] },
  'no-useless-concat': { eslint: [['a text more than one `+` deep in a side', isDeep]] },
  'no-useless-return': {
    eslint: [['in a `try` block, or before nothing but a further such `return`', isBeforeNothing]],
  },
  'no-useless-rename': {
    jslint: [['with a default, which ESLint 6.4 lets be', (source, place) => source.nodeAt(place, 'Property')?.value.type === 'AssignmentPattern']],
  },
  'operator-assignment': {
    jslint: [
      ['a member of `this` or `super`, which ESLint 6.4 lets be', (source, place) => isOfThis(source, source.nodeAt(place, 'AssignmentExpression')?.left)],
    ],
  },
  'prefer-const': {
    eslint: [
      [
        'a declaration without a value that is written once',
        (source, place) => {
          const it = source.variableAt(place);
          return it !== null && it.defs[0].node.init === null && it.references.filter((r) => r.isWrite()).length === 1;
        },
      ],
    ],
  },
  radix: {
    jslint: [
      [
        'a number that is no radix, which ESLint 6.4 lets be',
        (source, place) => {
          const it = source.nodeAt(place, 'CallExpression')?.arguments[1];
          return typeof it?.value === 'number' && !(it.value >= 2 && it.value <= 36);
        },
      ],
    ],
  },
  'symbol-description': { jslint: [['`Symbol` that the script declares', (source, place) => source.variableAt(place)?.defs.length > 0]] },
};

// The reason of a report on one side (`eslint` or `jslint`) alone, or none.
function reasonOf(side, rule, place, source) {
  return REASONS[rule]?.[side]?.find(([, holds]) => holds(source, place))?.[0] ?? null;
}

module.exports = { isBeforeNothing, reasonOf };
