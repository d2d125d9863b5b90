'use strict';
// The plain model of `no-unused-private-class-members`, by what stands above each private name.

// the ways of a name that is only written, by the node above its member, and the one above that
function isOnlyWritten(member, above) {
  const [parent, field] = above[0];
  const outer = above[1]?.[0].type;
  switch (parent.type) {
    case 'AssignmentExpression':
      return field === 'left' && (parent.operator === '=' || outer === 'ExpressionStatement');
    case 'ForInStatement':
    case 'ForOfStatement':
    case 'AssignmentPattern':
      return field === 'left';
    case 'UpdateExpression':
      return outer === 'ExpressionStatement';
    case 'Property':
      return field === 'value' && outer === 'ObjectPattern';
    default:
      return parent.type === 'RestElement' || parent.type === 'ArrayPattern';
  }
}

// reports each private member of a class that nothing in it uses
function privateRules(tree, report) {
  const classes = [];
  const use = (node, above) => {
    const [parent, field] = above[0];
    if (field === 'key' && (parent.type === 'MethodDefinition' || parent.type === 'PropertyDefinition')) return;
    const members = classes.find((one) => one.has(node.name))?.get(node.name) ?? [];
    const isRead = parent.type !== 'MemberExpression' || !isOnlyWritten(parent, above.slice(1));
    for (const it of members) it.used ||= isRead || it.isAccessor;
  };
  const walk = (node, above) => {
    if (node.type === 'PrivateIdentifier') use(node, above);
    const isClass = node.type === 'ClassBody';
    if (isClass) {
      const members = new Map();
      for (const { key, kind } of node.body)
        if (key?.type === 'PrivateIdentifier')
          members.set(key.name, [...(members.get(key.name) ?? []), { key, isAccessor: kind === 'get' || kind === 'set', used: false }]);
      classes.unshift(members);
    }
    for (const [field, part] of Object.entries(node))
      for (const one of [part].flat()) if (one !== null && typeof one === 'object' && typeof one.type === 'string') walk(one, [[node, field], ...above]);
    if (isClass)
      for (const it of [...classes.shift().values()].flat()) if (!it.used) report('no-unused-private-class-members', it.key, 'private member is never used');
  };
  walk(tree, []);
}

module.exports = { privateRules };
