'use strict';
// Rules on completions, of ESTree's trees: by nodes with their parents, and by searches below a node, as often as need be.

const FUNCTION = /^(?:Function|ArrowFunction)/;
const LOOP = /^(?:While|DoWhile|For|ForIn|ForOf)Statement$/;
const isFunction = (node) => FUNCTION.test(node.type);
const isCode = (node) => isFunction(node) || node.type === 'ClassBody';

function partsOf(node) {
  const parts = [];
  for (const part of Object.values(node)) {
    for (const one of Array.isArray(part) ? part : [part]) if (one !== null && typeof one === 'object' && typeof one.type === 'string') parts.push(one);
  }
  return node.type === 'Property' && node.shorthand ? parts.slice(-1) : parts;
}

// a node, or one below, passes a test; below what a second test says nothing is looked for
const finds = (node, test, ends) => test(node) || (!ends(node) && partsOf(node).some((part) => finds(part, test, ends)));

const jumpsOut = (type, label, ends) => (node) =>
  finds(node, (it) => it.type === type && (label === undefined ? it.label === null : it.label !== null && (label === null || it.label.name === label)), ends);
const breaks = jumpsOut('BreakStatement', undefined, (it) => isCode(it) || LOOP.test(it.type) || it.type === 'SwitchStatement');
const breaksFar = jumpsOut('BreakStatement', null, isCode);
const continues = jumpsOut('ContinueStatement', undefined, (it) => isCode(it) || LOOP.test(it.type));
const continuesFar = jumpsOut('ContinueStatement', null, isCode);
const goesOn = (node) => continues(node) || continuesFar(node);
const returnsWith = (hasValue) => (node) => finds(node, (it) => it.type === 'ReturnStatement' && (it.argument !== null) === hasValue, isCode);
const values = returnsWith(true);
const empties = returnsWith(false);
const isSuperCall = (it) => it.type === 'CallExpression' && it.callee.type === 'Super';
const callsSuper = (node) => finds(node, isSuperCall, (it) => isFunction(it) && it.type !== 'ArrowFunctionExpression');

const always = (test) => test === null || (test.type === 'Literal' && /^(?:true|[1-9][0-9]*)$/.test(test.raw));

function normal(node) {
  switch (node.type) {
    case 'BreakStatement':
    case 'ContinueStatement':
    case 'ReturnStatement':
    case 'ThrowStatement':
      return false;
    case 'BlockStatement':
      return node.body.every(normal);
    case 'IfStatement':
      return node.alternate === null || normal(node.consequent) || normal(node.alternate);
    case 'LabeledStatement':
      return normal(node.body) || jumpsOut('BreakStatement', node.label.name, isCode)(node.body);
    case 'WhileStatement':
    case 'ForStatement':
      return breaks(node.body) || !always(node.test);
    case 'DoWhileStatement':
      return breaks(node.body) || (!always(node.test) && (normal(node.body) || goesOn(node.body)));
    case 'SwitchStatement': {
      const { cases } = node;
      return cases.every((it) => it.test !== null) || cases[cases.length - 1].consequent.every(normal) || cases.some((it) => it.consequent.some(breaks));
    }
    case 'TryStatement':
      return (normal(node.block) || (node.handler !== null && normal(node.handler.body))) && (node.finalizer === null || normal(node.finalizer));
    default:
      return true;
  }
}

const listOf = (node) => (node.type === 'SwitchCase' ? node.consequent : ['Program', 'BlockStatement', 'StaticBlock'].includes(node.type) ? node.body : null);
const isHoisted = (it) =>
  it.type === 'FunctionDeclaration' ||
  it.type === 'EmptyStatement' ||
  (it.type === 'VariableDeclaration' && it.kind === 'var' && it.declarations.every((one) => one.init === null));

// what goes over the whole tree knows of each node its parents, the nearest first, with the fields
function everyNode(node, visit, above = []) {
  visit(node, above);
  for (const [field, part] of Object.entries(node)) {
    for (const one of Array.isArray(part) ? part : [part]) {
      if (one !== null && typeof one === 'object' && typeof one.type === 'string' && !(node.type === 'Property' && node.shorthand && field === 'key'))
        everyNode(one, visit, [[node, field], ...above]);
    }
  }
}

const USES = new Set(['every', 'filter', 'find', 'findIndex', 'flatMap', 'map', 'reduce', 'reduceRight', 'some', 'sort']);
function isCallback(node, above) {
  if (node.async || node.generator || node.type === 'FunctionDeclaration') return false;
  let at = node,
    i = 0;
  while (above[i][0].type === 'LogicalExpression' || (above[i][0].type === 'ConditionalExpression' && above[i][1] !== 'test')) at = above[i++][0];
  const [call, field] = above[i];
  if (call.type !== 'CallExpression' || field !== 'arguments') return false;
  const callee = call.callee.type === 'ChainExpression' ? call.callee.expression : call.callee;
  if (callee.type !== 'MemberExpression' || callee.computed || callee.property.type !== 'Identifier') return false;
  if (USES.has(callee.property.name)) return call.arguments[0] === at;
  return callee.property.name === 'from' && callee.object.type === 'Identifier' && callee.object.name === 'Array' && call.arguments[1] === at;
}

const isGetter = (above) => above[0][1] === 'value' && above[0][0].kind === 'get';
const isDerived = (above) => above[0][1] === 'value' && above[0][0].kind === 'constructor' && above[2][0].superClass !== null;

// the nodes of a function that don't stand in an inner one, nor in a field or a static block of a class
function own(node, test) {
  const found = [];
  const go = (it) => {
    if (test(it)) found.push(it);
    if (!isFunction(it) && !['PropertyDefinition', 'StaticBlock'].includes(it.type)) partsOf(it).forEach(go);
  };
  partsOf(node).forEach(go);
  return found;
}

function ofFunction(node, above, report) {
  const emptyReturns = () => own(node, (it) => it.type === 'ReturnStatement' && it.argument === null);
  const body = node.body.type === 'BlockStatement' ? node.body : null;
  if (body !== null && values(body) && (normal(body) || empties(body))) report('consistent-return', node, 'may end without a value');
  if (isGetter(above)) {
    if (normal(body)) report('getter-return', above[0][0], 'getter may end without a value');
    emptyReturns().forEach((it) => report('getter-return', it, 'getter returns nothing'));
  } else if (isDerived(above)) {
    const [member] = above[0];
    if (!node.params.concat([body]).some(callsSuper) && (normal(body) || empties(body))) report('constructor-super', member, 'no super(..)');
    const calls = [];
    everyNode({ type: 'Nothing', params: node.params, body }, (it, round) => {
      if (isSuperCall(it) && !round.some(([one]) => isFunction(one) && one.type !== 'ArrowFunctionExpression')) calls.push(it.end);
    });
    const members = own(node, (it) => it.type === 'MemberExpression' && it.object.type === 'Super').map((it) => it.object);
    for (const it of [...own(node, (one) => one.type === 'ThisExpression'), ...members])
      if (!calls.some((end) => end <= it.start)) report('no-this-before-super', it, "'this' before super(..)");
  } else if (isCallback(node, above)) {
    if (body !== null && normal(body)) report('array-callback-return', node, 'callback may end without a value');
    emptyReturns().forEach((it) => report('array-callback-return', it, 'callback returns nothing'));
  }
}

// nothing comes behind a node in its function
function isLast(node, above) {
  let at = node;
  for (const [parent, field] of above) {
    const last = (list) => list[list.length - 1] === at;
    if (isFunction(parent)) return true;
    const goes =
      parent.type === 'IfStatement' ||
      parent.type === 'CatchClause' ||
      (parent.type === 'BlockStatement' && last(parent.body)) ||
      (parent.type === 'SwitchCase' && last(parent.consequent)) ||
      (parent.type === 'SwitchStatement' && last(parent.cases)) ||
      (parent.type === 'TryStatement' && field === 'handler' && parent.finalizer === null);
    if (!goes) return false;
    at = parent;
  }
  return false;
}

const returns = (node) => !normal(node) && (values(node) || empties(node)) && !(breaks(node) || breaksFar(node) || goesOn(node));

function ofIf(node, above, report) {
  if (listOf(above[0][0]) === null) return;
  let at = node;
  while (at !== null && at.type === 'IfStatement') {
    if (!returns(at.consequent)) return;
    at = at.alternate;
  }
  if (at !== null) report('no-else-return', at, "'else' behind return");
}

function ofSwitch(node, text, report) {
  node.cases.forEach((it, i) => {
    const before = node.cases[i - 1];
    if (i === 0 || before.consequent.length === 0 || !before.consequent.every(normal)) return;
    const only = before.consequent.length === 1 && before.consequent[0].type === 'BlockStatement' ? before.consequent[0] : null;
    const from = only === null ? before.end : only.body.length === 0 ? only.start : only.body[only.body.length - 1].end;
    if (!/falls?[\t-\r ]?through/i.test(Buffer.from(text).subarray(from, it.start).toString('latin1')))
      report('no-fallthrough', it, 'the case before goes on here');
  });
}

// { tree, text (string or bytes) }; what is found is handed to report(rule, node, text)
function flowRules(view, report) {
  everyNode(view.tree, (node, above) => {
    const list = listOf(node);
    if (list !== null) {
      const stop = list.findIndex((it) => !normal(it));
      list.forEach((it, i) => {
        if (stop >= 0 && i > stop && !isHoisted(it) && (i === stop + 1 || isHoisted(list[i - 1]))) report('no-unreachable', it, 'unreachable');
      });
    }
    if (isFunction(node)) ofFunction(node, above, report);
    if (LOOP.test(node.type) && !normal(node.body) && !goesOn(node.body)) report('no-unreachable-loop', node, 'never goes round twice');
    if (node.type === 'IfStatement') ofIf(node, above, report);
    if (node.type === 'SwitchStatement') ofSwitch(node, view.text, report);
    if (node.type === 'ReturnStatement' && node.argument === null && isLast(node, above)) report('no-useless-return', node, 'returns anyway');
  });
}

module.exports = { flowRules };
