'use strict';
// A script as ESLint read it: what stands at a place (in UTF-16 units, without a byte order mark), and what its names mean.

class Source {
  constructor(code) {
    this.code = code;
    this.text = code.text;
    this.nodes = [];
    this.starts = new Map();
    this.names = new Map();
    this.collect(code.ast);
    for (const scope of code.scopeManager.scopes) for (const it of scope.references) this.names.set(it.identifier.range[0], it);
  }

  // All nodes, those that begin at one place from the outermost on.
  collect(node) {
    const above = [node];
    while (above.length > 0) {
      const it = above.pop();
      this.nodes.push(it);
      const at = this.starts.get(it.range[0]);
      if (at === undefined) this.starts.set(it.range[0], [it]);
      else at.push(it);
      const parts = (this.code.visitorKeys[it.type] ?? []).flatMap((key) => it[key]).filter((part) => part !== null && part !== undefined);
      above.push(...parts.reverse());
    }
  }

  // The outermost node of one of these types that begins here.
  nodeAt(place, ...types) {
    return (this.starts.get(place) ?? []).find((it) => types.length === 0 || types.includes(it.type));
  }

  // The identifier that stands here.
  nameAt(place) {
    return this.nodeAt(place, 'Identifier');
  }

  // The innermost function round a node, which may be the node.
  functionRound(node) {
    let it = node;
    while (it !== null && it !== undefined && !/Function/.test(it.type)) it = it.parent;
    return it ?? null;
  }

  // The variable that the name here means or declares, if the script declares it.
  variableAt(place) {
    const read = this.names.get(place);
    if (read !== undefined) return read.resolved;
    if (this.declared === undefined) {
      this.declared = new Map();
      for (const scope of this.code.scopeManager.scopes)
        for (const variable of scope.variables)
          for (const it of variable.identifiers) if (!this.declared.has(it.range[0])) this.declared.set(it.range[0], variable);
    }
    return this.declared.get(place) ?? null;
  }

  // The node that is in the parentheses of which the first stands here, and how many pairs are round it.
  inParentheses(place) {
    if (this.pairs === undefined) {
      this.pairs = new Map();
      for (const node of this.nodes) {
        const open = [];
        let [before, behind] = [this.code.getTokenBefore(node), this.code.getTokenAfter(node)];
        while (before?.value === '(' && behind?.value === ')') {
          open.push(before.range[0]);
          [before, behind] = [this.code.getTokenBefore(before), this.code.getTokenAfter(behind)];
        }
        for (const at of open) if (!this.pairs.has(at)) this.pairs.set(at, { node, pairs: open.length });
      }
    }
    return this.pairs.get(place) ?? null;
  }

  // Whether one node, or what stands from one place to another, has a part for which this holds; inner functions aside.
  has(node, holds) {
    if (holds(node)) return true;
    return (this.code.visitorKeys[node.type] ?? [])
      .flatMap((key) => node[key])
      .some((part) => part !== null && part !== undefined && !/Function/.test(part.type) && this.has(part, holds));
  }

  commentAt(place) {
    return this.code.getAllComments().find((it) => it.range[0] <= place && place < it.range[1]) ?? null;
  }
}

module.exports = { Source };
