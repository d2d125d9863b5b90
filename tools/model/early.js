'use strict';
// The early errors: those of the base profile, and those of the language of 2022.
// earlyErrors(tree, text) answers every error as {number, at} (byte offsets), sorted by
// place, then by number; the first one is what `read_script` names.

const isFunction = (node) => node.type === 'FunctionDeclaration' || node.type === 'FunctionExpression' || node.type === 'ArrowFunctionExpression';
const isLoop = (node) => ['WhileStatement', 'DoWhileStatement', 'ForStatement', 'ForInStatement', 'ForOfStatement'].includes(node.type);

const { RESERVED } = require('./scan.js');
const { patternFault } = require('./patterns.js');

// The declaring identifiers of a name or pattern, in source order.
function boundNames(pattern) {
  if (pattern === null) return [];
  switch (pattern.type) {
    case 'Identifier':
      return [pattern];
    case 'ArrayPattern':
      return pattern.elements.flatMap(boundNames);
    case 'ObjectPattern':
      return pattern.properties.flatMap((p) => boundNames(p.type === 'Property' ? p.value : p));
    case 'AssignmentPattern':
      return boundNames(pattern.left);
    case 'RestElement':
      return boundNames(pattern.argument);
    default:
      throw new Error('not a binding: ' + pattern.type);
  }
}
const declaredBy = (declaration) => declaration.declarations.flatMap((d) => boundNames(d.id));
const isDeclaration = (node, ...kinds) => node !== null && node.type === 'VariableDeclaration' && kinds.includes(node.kind);

// The identifiers that an assignment target or pattern assigns.
function assignedNames(target) {
  if (target === null) return [];
  switch (target.type) {
    case 'Identifier':
      return [target];
    case 'MemberExpression':
      return [];
    case 'ArrayPattern':
      return target.elements.flatMap(assignedNames);
    case 'ObjectPattern':
      return target.properties.flatMap((p) => assignedNames(p.type === 'Property' ? p.value : p));
    case 'AssignmentPattern':
      return assignedNames(target.left);
    case 'RestElement':
      return assignedNames(target.argument);
    default:
      throw new Error('not a target: ' + target.type);
  }
}

// What an export declares, or the item itself.
const declarationOf = (item) => {
  if (item.type === 'ExportNamedDeclaration') return item.declaration;
  if (item.type === 'ExportDefaultDeclaration') return /Declaration$/.test(item.declaration.type) && item.declaration.id !== null ? item.declaration : null;
  return item;
};

// Lexical names of a list. `top`: of a Program that is a script, a function body or a static block.
function lexicalNames(list, top) {
  return list.flatMap((outer) => {
    const item = declarationOf(outer);
    if (item === null) return [];
    if (item.type === 'ImportDeclaration') return item.specifiers.map((s) => s.local);
    if (isDeclaration(item, 'let', 'const')) return declaredBy(item);
    if (item.type === 'ClassDeclaration') return [item.id];
    if (item.type === 'FunctionDeclaration' && !top) return [item.id];
    return [];
  });
}

// Var names of a statement: `var` at any depth outside inner functions.
function varNames(node) {
  if (node === null) return [];
  switch (node.type) {
    case 'VariableDeclaration':
      return node.kind === 'var' ? declaredBy(node) : [];
    case 'ExportNamedDeclaration':
      return varNames(node.declaration);
    case 'BlockStatement':
      return node.body.flatMap(varNames);
    case 'IfStatement':
      return [...varNames(node.consequent), ...varNames(node.alternate)];
    case 'LabeledStatement':
    case 'WhileStatement':
    case 'DoWhileStatement':
      return varNames(node.body);
    case 'ForStatement':
      return [...varNames(node.init), ...varNames(node.body)];
    case 'ForInStatement':
    case 'ForOfStatement':
      return [...varNames(node.left), ...varNames(node.body)];
    case 'SwitchStatement':
      return node.cases.flatMap((c) => c.consequent.flatMap(varNames));
    case 'TryStatement':
      return [...varNames(node.block), ...(node.handler ? varNames(node.handler.body) : []), ...varNames(node.finalizer)];
    default:
      return [];
  }
}
const varNamesOfTop = (list) => list.flatMap((item) => (item.type === 'FunctionDeclaration' ? [item.id] : varNames(item)));

// Second and later identifiers of a name.
function repeated(names) {
  const seen = new Set();
  return names.filter((id) => seen.has(id.name) || (seen.add(id.name), false));
}
const nameSet = (ids) => new Set(ids.map((id) => id.name));

const keyValue = (member) =>
  (member.computed || member.key.type === 'PrivateIdentifier' ? null : member.key.type === 'Identifier' ? member.key.name : member.key.value ?? null);

const isLoneString = (node) => node.type === 'Literal' && node.value === undefined;

// What is wrong with the names that a module imports and exports: {number, node} each.
function moduleErrors(items) {
  const found = [];
  const declared = new Set([...lexicalNames(items, false), ...items.flatMap(varNames)].map((id) => id.name));
  const exported = new Set();
  const name = (node) => (node.type === 'Literal' ? node.value ?? node.raw : node.name);
  const exportName = (text, node) => {
    if (exported.has(text)) found.push({ number: 31, node });
    exported.add(text);
  };
  for (const item of items) {
    if (item.type === 'ImportDeclaration') {
      for (const s of item.specifiers) if (s.type === 'ImportSpecifier' && isLoneString(s.imported)) found.push({ number: 34, node: s.imported });
    } else if (item.type === 'ExportAllDeclaration') {
      if (item.exported !== null) {
        if (isLoneString(item.exported)) found.push({ number: 34, node: item.exported });
        exportName(name(item.exported), item.exported);
      }
    } else if (item.type === 'ExportDefaultDeclaration') exportName('default', item);
    else if (item.type === 'ExportNamedDeclaration') {
      if (item.declaration !== null) {
        const d = item.declaration;
        for (const id of d.type === 'VariableDeclaration' ? declaredBy(d) : [d.id]) exportName(id.name, id);
      }
      for (const s of item.specifiers) {
        for (const node of [s.local, s.exported]) if (isLoneString(node)) found.push({ number: 34, node });
        if (item.source === null) {
          if (s.local.type === 'Literal' || RESERVED.has(s.local.name) || s.local.name === 'await') found.push({ number: 32, node: s.local });
          else if (!declared.has(s.local.name)) found.push({ number: 33, node: s.local });
        }
        exportName(name(s.exported), s.exported);
      }
    }
  }
  return found;
}

function earlyErrors(tree, text, { edition = 2021 } = {}) {
  const flagLetters = edition >= 2022 ? 'dgimsuy' : 'gimsuy';
  const isModule = tree.sourceType === 'module';
  const errors = new Map();
  const report = (number, node) => errors.set(`${node.start} ${number}`, { number, at: node.start });

  const restricted = (ids) => {
    for (const id of ids) if (id.name === 'eval' || id.name === 'arguments') report(1, id);
  };
  const bind = (...patterns) => patterns.forEach((p) => restricted(boundNames(p)));
  const assign = (target) => restricted(assignedNames(target));

  // E3 and E4 of a Program, body, block or switch.
  function checkList(list, top) {
    const lexical = lexicalNames(list, top);
    const vars = nameSet(top ? varNamesOfTop(list) : list.flatMap(varNames));
    repeated(lexical).forEach((id) => report(3, id));
    lexical.filter((id) => vars.has(id.name)).forEach((id) => report(4, id));
  }

  // E6 to E8.
  function checkFunction(node) {
    bind(...node.params);
    if (node.id !== null) restricted([node.id]);
    const params = node.params.flatMap(boundNames);
    repeated(params).forEach((id) => report(6, id));
    if (node.body.type !== 'BlockStatement') return;
    const names = nameSet(params);
    lexicalNames(node.body.body, true)
      .filter((id) => names.has(id.name))
      .forEach((id) => report(7, id));
    if (node.params.every((p) => p.type === 'Identifier')) return;
    node.body.body.filter((item) => item.directive === 'use strict').forEach((item) => report(8, item));
  }

  function checkForHead(head, body) {
    if (!isDeclaration(head, 'let', 'const')) return;
    const vars = nameSet(varNames(body));
    declaredBy(head)
      .filter((id) => vars.has(id.name))
      .forEach((id) => report(13, id));
  }

  function checkCatch(clause) {
    if (clause.param === null) return;
    bind(clause.param);
    const names = boundNames(clause.param);
    repeated(names).forEach((id) => report(12, id));
    const inBlock = nameSet([...lexicalNames(clause.body.body, false), ...clause.body.body.flatMap(varNames)]);
    names.filter((id) => inBlock.has(id.name)).forEach((id) => report(12, id));
  }

  function checkClass(node) {
    if (node.id !== null) restricted([node.id]);
    let constructors = 0;
    const declarations = new Map();
    for (const member of node.body.body) {
      if (member.type === 'StaticBlock') continue;
      if (member.key.type === 'PrivateIdentifier') {
        const name = member.key.name;
        if (name === 'constructor') report(25, member.key);
        declarations.set(name, [...(declarations.get(name) ?? []), member]);
      }
      if (member.type === 'PropertyDefinition') {
        const value = keyValue(member);
        if (value === 'constructor') report(24, member.key);
        if (member.static && value === 'prototype') report(19, member.key);
        continue;
      }
      if (member.kind === 'constructor' && ++constructors > 1) report(17, member.key);
      const value = keyValue(member);
      const accessor = member.kind === 'get' || member.kind === 'set';
      const special = accessor || member.value.async || member.value.generator;
      if (special && !member.static && value === 'constructor') report(18, member.key);
      if (member.static && value === 'prototype') report(19, member.key);
    }
    for (const list of declarations.values()) {
      const isPair = list.length === 2 && list[0].static === list[1].static && list.some((m) => m.kind === 'get') && list.some((m) => m.kind === 'set');
      if (!isPair) list.slice(1).forEach((m) => report(26, m.key));
    }
  }

  // `context`: what surrounds a node.
  //   labels: [{name, loop}] of the same function, innermost last; breakable, loop: booleans
  //   superProperty, superCall, newTarget: what is allowed here
  //   yields, awaits: in the body of a generator, of an async function; awaits also outside functions in a module
  //   noArguments: in a field's value or a static block; privates: the private names of the classes around
  function walk(node, context) {
    if (node === null) return;
    const walkAll = (list, c = context) => list.forEach((item) => walk(item, c));
    const inBody = (changes) => ({ ...context, ...changes });
    // The scope of a function's parameters and body. `method` is null for plain functions.
    const functionContext = (fn, method) => {
      const fresh = { labels: [], breakable: false, loop: false, yields: false, awaits: false };
      if (fn.type === 'ArrowFunctionExpression') return { ...context, ...fresh };
      return { ...fresh, superProperty: method !== null, superCall: method === 'derived', newTarget: true, noArguments: false, privates: context.privates };
    };
    const walkFunction = (fn, method) => {
      checkFunction(fn);
      const inner = functionContext(fn, method);
      walkAll(fn.params, inner);
      const body = { ...inner, yields: fn.generator, awaits: fn.async };
      if (fn.body.type === 'BlockStatement') {
        checkList(fn.body.body, true);
        walkAll(fn.body.body, body);
      } else walk(fn.body, body);
    };
    // Round the value of a field and in a static block.
    const initContext = (privates) => ({
      labels: [],
      breakable: false,
      loop: false,
      superProperty: true,
      superCall: false,
      newTarget: true,
      forInOfHead: false,
      yields: false,
      awaits: false,
      noArguments: true,
      privates,
    });

    if (isFunction(node)) {
      const { method = null } = context;
      if (method !== null) context = { ...context, method: null };
      walkFunction(node, method);
      return;
    }
    const loopContext = () => inBody({ breakable: true, loop: true });
    const walkMembers = (cls) => {
      const own = cls.body.body.filter((m) => m.type !== 'StaticBlock' && m.key.type === 'PrivateIdentifier').map((m) => m.key.name);
      const privates = new Set([...context.privates, ...own]);
      const keys = inBody({ privates });
      for (const member of cls.body.body) {
        if (member.type === 'StaticBlock') {
          checkList(member.body, true);
          walkAll(member.body, initContext(privates));
          continue;
        }
        if (member.computed) walk(member.key, keys);
        if (member.type === 'PropertyDefinition') {
          walk(member.value, initContext(privates));
          continue;
        }
        const derived = member.kind === 'constructor' && cls.superClass !== null;
        walkMethod(member.value, derived ? 'derived' : 'method', privates);
      }
    };
    const walkMethod = (fn, method, privates) => walk(fn, { ...context, privates, method });

    switch (node.type) {
      case 'Program':
        checkList(node.body, !isModule);
        if (isModule) moduleErrors(node.body).forEach((e) => report(e.number, e.node));
        walkAll(node.body);
        return;
      case 'ImportDeclaration':
        restricted(node.specifiers.map((s) => s.local));
        return;
      case 'ExportAllDeclaration':
        return;
      case 'ExportNamedDeclaration':
        walk(node.declaration, context);
        return;
      case 'Identifier':
        if (context.noArguments && node.name === 'arguments') report(28, node);
        return;
      case 'PrivateIdentifier':
        if (!context.privates.has(node.name)) report(27, node);
        return;
      case 'YieldExpression':
        if (!context.yields) report(22, node);
        walk(node.argument, context);
        return;
      case 'AwaitExpression':
        if (!context.awaits) report(23, node);
        walk(node.argument, context);
        return;
      case 'BlockStatement':
        checkList(node.body, false);
        walkAll(node.body);
        return;
      case 'VariableDeclaration': {
        const ids = declaredBy(node);
        restricted(ids);
        if (node.kind !== 'var') repeated(ids).forEach((id) => report(3, id));
        if (node.kind === 'const' && !context.forInOfHead) {
          node.declarations.filter((d) => d.init === null).forEach((d) => report(5, d));
        }
        const plain = inBody({ forInOfHead: false });
        for (const d of node.declarations) {
          walk(d.id, plain);
          walk(d.init, plain);
        }
        return;
      }
      case 'LabeledStatement': {
        if (context.labels.some((l) => l.name === node.label.name)) report(11, node.label);
        let labelled = node.body;
        while (labelled.type === 'LabeledStatement') labelled = labelled.body;
        walk(node.body, inBody({ labels: [...context.labels, { name: node.label.name, loop: isLoop(labelled) }] }));
        return;
      }
      case 'BreakStatement':
        if (node.label === null) {
          if (!context.breakable) report(9, node);
        } else if (!context.labels.some((l) => l.name === node.label.name)) report(10, node.label);
        return;
      case 'ContinueStatement':
        if (node.label === null) {
          if (!context.loop) report(9, node);
        } else if (!context.labels.some((l) => l.name === node.label.name && l.loop)) report(10, node.label);
        return;
      case 'WhileStatement':
      case 'DoWhileStatement':
        walk(node.test, context);
        walk(node.body, loopContext());
        return;
      case 'ForStatement':
        checkForHead(node.init, node.body);
        walk(node.init, context);
        walk(node.test, context);
        walk(node.update, context);
        walk(node.body, loopContext());
        return;
      case 'ForInStatement':
      case 'ForOfStatement':
        if (node.await === true && !context.awaits) report(23, node);
        if (edition >= 2022 && node.await === false && node.left.type === 'Identifier' && node.left.name === 'async') report(35, node.left);
        if (node.left.type === 'VariableDeclaration') walk(node.left, inBody({ forInOfHead: true }));
        else {
          assign(node.left);
          walk(node.left, context);
        }
        checkForHead(node.left, node.body);
        walk(node.right, context);
        walk(node.body, loopContext());
        return;
      case 'SwitchStatement': {
        walk(node.discriminant, context);
        checkList(node.cases.flatMap((c) => c.consequent), false);
        const inner = inBody({ breakable: true });
        for (const c of node.cases) {
          walk(c.test, context);
          walkAll(c.consequent, inner);
        }
        return;
      }
      case 'CatchClause':
        checkCatch(node);
        walk(node.param, context);
        walk(node.body, context);
        return;
      case 'AssignmentExpression':
        assign(node.left);
        walk(node.left, context);
        walk(node.right, context);
        return;
      case 'UpdateExpression':
        assign(node.argument);
        walk(node.argument, context);
        return;
      case 'UnaryExpression':
        if (node.operator === 'delete' && node.argument.type === 'Identifier') report(2, node);
        if (node.operator === 'delete' && endsInPrivate(node.argument)) report(29, node);
        walk(node.argument, context);
        return;
      case 'MemberExpression':
        if (node.object.type === 'Super') {
          if (!context.superProperty) report(14, node.object);
        } else walk(node.object, context);
        if (node.computed || node.property.type === 'PrivateIdentifier') walk(node.property, context);
        return;
      case 'CallExpression':
        if (node.callee.type === 'Super') {
          if (!context.superCall) report(15, node.callee);
        } else walk(node.callee, context);
        walkAll(node.arguments);
        return;
      case 'MetaProperty':
        if (node.meta.name === 'import') {
          if (!isModule) report(30, node);
        } else if (!context.newTarget) report(16, node);
        return;
      case 'ClassDeclaration':
      case 'ClassExpression':
        checkClass(node);
        walk(node.superClass, context);
        return walkMembers(node, context);
      case 'Property':
        if (node.computed) walk(node.key, context);
        if (node.method || node.kind !== 'init') walkFunction(node.value, 'method');
        else walk(node.value, context);
        return;
      case 'ObjectExpression': {
        const setsPrototype = (p) => p.type === 'Property' && p.kind === 'init' && !p.method && !p.shorthand && keyValue(p) === '__proto__';
        if (edition >= 2022)
          node.properties
            .filter(setsPrototype)
            .slice(1)
            .forEach((p) => report(36, p.key));
        return walkAll(node.properties);
      }
      case 'TaggedTemplateExpression':
        walk(node.tag, context);
        walkAll(node.quasi.expressions);
        return;
      case 'TemplateLiteral':
        if (node.quasis.some((q) => q.value.cooked === null)) report(20, node);
        walkAll(node.expressions);
        return;
      case 'Literal':
        if (node.regex !== undefined) {
          const flags = [...node.regex.flags];
          if (flags.some((f) => !flagLetters.includes(f)) || new Set(flags).size !== flags.length) report(21, node);
          if (edition >= 2022 && patternFault(node.raw) !== null) report(37, node);
        }
        return;
      default:
        for (const key of Object.keys(node)) {
          const value = node[key];
          if (Array.isArray(value)) walkAll(value.filter((item) => item !== null && typeof item === 'object'));
          else if (value !== null && typeof value === 'object' && typeof value.type === 'string') walk(value, context);
        }
    }
  }

  walk(tree, {
    labels: [],
    breakable: false,
    loop: false,
    superProperty: false,
    superCall: false,
    newTarget: false,
    forInOfHead: false,
    yields: false,
    awaits: isModule,
    noArguments: false,
    privates: new Set(),
  });
  return [...errors.values()].sort((a, b) => a.at - b.at || a.number - b.number);
}

const endsInPrivate = (node) =>
  (node.type === 'ChainExpression' ? endsInPrivate(node.expression) : node.type === 'MemberExpression' && node.property.type === 'PrivateIdentifier');

module.exports = { earlyErrors, boundNames, varNames, lexicalNames };
