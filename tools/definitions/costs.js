'use strict';
// Costs of the definitions against plan.js: rows, cells, least, wrapped rows, bounds of tables.

const path = require('path');
const antt = require('./antt.js');
const { PLAIN_MODEL } = require('./model.js');
const P = require(path.join(PLAIN_MODEL, 'plan.js'));

const option = (o) => (o.$.name === 'None' ? '-' : String(o.a[0]));
const cellText = (c) => (c === P.NONE ? '-' : String(c));

// problems [{what, detail}] for an ESTree program and its tree
function compareCosts(m, program, root, random) {
  const out = [];
  const pl = P.plan(program);
  const say = (what, detail) => out.push({ what, detail });
  const total = option(m.least(root, m.script));
  if (total !== cellText(pl.total)) say('least', `definitions ${total}, model ${pl.total}`);
  const nodes = antt.toArray(m.row_nodes(root, m.script));
  const theirs = pl.rows.map((r) => r.node);
  if (nodes.length !== theirs.length || nodes.some((n, i) => n.plain?.from !== theirs[i])) {
    say('row_nodes', `definitions ${nodes.map((n) => n.a[0].$.name)}, model ${theirs.map((n) => n.type)}`);
    return { out, pl };
  }
  if (m.rows(root, m.script) !== nodes.length) say('rows', `${m.rows(root, m.script)} and ${nodes.length}`);
  nodes.forEach((n, i) => {
    const got = antt.toArray(m.cells(n)).map(option).join(' ');
    const want = pl.rows[i].cells.map(cellText).join(' ');
    if (got !== want) say('cells', `row ${i + 1} ${n.a[0].$.name}: definitions ${got}, model ${want}`);
  });
  const wrapped = antt.toArray(m.wrapped_rows(root, m.script, 1));
  const want = [...pl.wrappedRows].sort((a, b) => a - b);
  if (
    wrapped
      .slice()
      .sort((a, b) => a - b)
      .join(' ') !== want.join(' ')
  )
    say('wrapped', `definitions ${wrapped}, model ${want}`);
  if (nodes.length <= 400) {
    const OPT = (c) => (c === P.NONE ? optionNone(m) : optionSome(m, c));
    const tableOf = (cells, t) => ({ rows: antt.fromArray(cells.map((row, i) => [nodes[i].a[0], antt.fromArray(row.map(OPT))])), total: t });
    const contexts = antt.toArray(m.contexts);
    const check = (cells, name) => {
      const t = tableOf(cells, 0);
      const cellsOf = (node) => cells[pl.numberOf.get(node) - 1];
      nodes.forEach((n, i) =>
        contexts.forEach((a, k) => {
          const got = option(m.cell_bound(t, n, a, i + 1));
          const wanted = cellText(P.boundOf(pl.rows[i].node, k, cellsOf));
          if (got !== wanted)
            say(
              got === cellText(otherBound(pl.rows[i].node, k, cellsOf))
                ? 'bound: a number counts where only start or In forbids (' + name + ')'
                : 'bound, ' + name,
              `row ${i + 1} ${n.a[0].$.name} cell ${k + 1}: definitions ${got}, model ${wanted}, table ${cells.map((r) => r.map(cellText).join(' ')).join(' / ')}`
            );
        })
      );
      const positions = P.programPositions(program);
      const sum = (strict) =>
        positions.reduce((s, p) => {
          const c = cellsOf(p.node);
          const passed = p.forced || !P.permits(p) || (strict && P.directPositions(p.node, P.CONTEXTS[P.cellOf(p)]) === null);
          return s + (passed ? 1 + c[0] : Math.min(c[P.cellOf(p)], 1 + c[0]));
        }, 0);
      const got = option(m.total_bound(t, root));
      if (got !== cellText(sum(false)))
        say(
          got === cellText(sum(true)) ? 'bound: a number counts where only start or In forbids (' + name + ')' : 'total bound, ' + name,
          `total: definitions ${got}, model ${cellText(sum(false))}, table ${cells.map((r) => r.map(cellText).join(' ')).join(' / ')}`
        );
    };
    check(pl.rows.map((r) => r.cells), 'own table');
    if (random !== undefined && nodes.length <= 40) {
      // tables that pass as Sound or not: numbers lowered, then any numbers
      check(pl.rows.map((r) => r.cells.map((c) => (c !== P.NONE && random.chance(30) ? random.below(c + 1) : c))), 'lowered table');
      check(pl.rows.map((r) => r.cells.map((c) => (random.chance(20) ? random.below(3) : c))), 'foreign table');
    }
  }
  return { out, pl };
}
// Part 8's bound with a number passed over where start or In forbids the node, not the symbol alone.
function otherBound(node, cell, cellsOf) {
  const positions = P.directPositions(node, P.CONTEXTS[cell]);
  if (positions === null) return P.NONE;
  return positions.reduce((sum, p) => {
    const cells = cellsOf(p.node);
    if (p.forced || !P.permits(p) || P.directPositions(p.node, P.CONTEXTS[P.cellOf(p)]) === null) return sum + 1 + cells[0];
    return sum + Math.min(cells[P.cellOf(p)], 1 + cells[0]);
  }, 0);
}
let someMake = null;
let noneValue = null;
function prepare(m) {
  if (someMake !== null) return;
  // Option's constructors, taken from a result of the definitions
  const leaf = m.node(
    m.kind('ThisExpression'),
    null,
    { computed: false, optional: false, is_static: false, prefix: false, directive: false, expression: false, form: m.forms.init },
    0,
    0,
    m.none
  );
  const some = antt.toArray(m.cells(leaf))[0];
  const none = antt.toArray(m.cells(m.node(m.kind('Program'), null, leaf.a[2], 0, 0, m.none)))[0];
  if (some.$.name !== 'Some' || none.$.name !== 'None') throw new Error('no Option');
  someMake = (n) => some.$.make(n);
  noneValue = none;
}
function optionSome(m, n) {
  prepare(m);
  return someMake(n);
}
function optionNone(m) {
  prepare(m);
  return noneValue;
}

// The least number of pairs over all ways of the table, not the first alone, at the exact
// positions: what no derivation goes below. By recursion on the tree; null is none.
class Least {
  constructor(m) {
    this.m = m;
    this.memo = new Map();
  }
  at(n, a) { // {any, direct}
    let mine = this.memo.get(n);
    if (mine === undefined) this.memo.set(n, mine = new Map());
    const key = antt.keyOf(a);
    let v = mine.get(key);
    if (v === undefined) {
      v = { direct: this.direct(n, a), any: null };
      v.any = v.direct;
      if (a.$.name === 'expr') {
        const inner = this.direct(n, this.m.exprAny);
        if (inner !== null && (v.any === null || inner + 1 < v.any)) v.any = inner + 1;
      }
      mine.set(key, v);
    }
    return v;
  }
  direct(n, a) {
    let best = null;
    for (let ways = this.m.ways(a, n); ways !== null; ways = ways.t) {
      let sum = 0;
      let ps = n.a[5];
      for (let qs = ways.h; qs !== null && sum !== null; qs = qs.t) {
        const q = qs.h;
        if (q.$.name === 'never') sum = null;
        else if (q.$.name === 'absent') {
          if (ps.$.name !== 'gap') sum = null;
          else ps = ps.a[0];
        } else if (q.$.name === 'sub') {
          if (ps.$.name !== 'part') {
            sum = null;
            continue;
          }
          const x = this.at(ps.a[0], q.a[0]).any;
          sum = x === null ? null : sum + x;
          ps = ps.a[1];
        }
      }
      if (sum !== null && ps.$.name === 'none' && (best === null || sum < best)) best = sum;
    }
    return best;
  }
}
function compareLeast(m, root) {
  const out = [];
  const l = new Least(m);
  const word = (x) => (x === null ? '-' : String(x));
  const least = word(l.at(root, m.script).any);
  const said = option(m.least(root, m.script));
  if (least !== said) out.push({ what: 'least is not the least over all ways', detail: `least ${said}, over all ways ${least}` });
  antt.toArray(m.row_nodes(root, m.script)).forEach((n, i) => {
    const got = antt.toArray(m.cells(n)).map(option).join(' ');
    const want = antt
      .toArray(m.contexts)
      .map((a) => word(l.at(n, a).direct))
      .join(' ');
    if (got !== want) out.push({ what: 'a cell is not the least over all ways', detail: `row ${i + 1} ${n.a[0].$.name}: cells ${got}, over all ways ${want}` });
  });
  return out;
}
module.exports = { compareCosts, compareLeast };
