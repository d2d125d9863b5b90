'use strict';
// A search for derivations, one case for each constructor of Step, Spells and Runs.
//   const d = new Derive(model);  d.derive(text, plainTree, {places, language, bounds}) -> [{pairs, open}]
// pairs: [{left, right}] in order; open: the least o. All readings of the text are searched
// (at `/` punctuator or regular expression, at `}` punctuator or template part). To `bounds` comes each place behind an expression:
// {role, node, cursor, goesOn}: the position's role, or, where the expression begins another one and goes on, the role of that.

const path = require('path');
const antt = require('./antt.js');
const { PLAIN_MODEL } = require('./model.js');
const { GOAL, makeSource, scan } = require(path.join(PLAIN_MODEL, 'scan.js'));

class Reading {
  constructor(model, text, language = 'base') {
    this.model = model;
    this.language = model.languages[language];
    const s = makeSource(text);
    if (!s.ok) throw new Error('bad text');
    this.source = s;
    this.memo = new Map();
    this.cursors = new Map();
    this.n = 0;
  }
  // the tokens that may stand from this place on
  choices(at) {
    let list = this.memo.get(at);
    if (list !== undefined) return list;
    const { text, byteAt } = this.source;
    // tokens are those of each language; what a text may begin with is `begin`'s
    const edition = text.startsWith('#!') && at === 0 ? 2021 : 2022;
    const found = [scan(text, at, GOAL.Div, edition)];
    if (found[0].text?.[0] === '/' || text[found[0].start] === '/') found.push(scan(text, at, GOAL.RegExp, edition));
    if (text[found[0].start] === '}') found.push(scan(text, at, GOAL.TemplateTail, edition));
    list = [];
    for (const t of found) {
      if (t.cls === 'fault') continue;
      const v = this.model.seen_in(
        this.language,
        this.model.as_read(this.model.token({ cls: t.cls, text: t.text, start: byteAt(t.start), stop: byteAt(t.end), afterBreak: t.afterBreak }))
      );
      list.push({ v, end: t.end, last: t.cls === 'end', id: this.n++ });
    }
    this.memo.set(at, list);
    return list;
  }
  cursor(b, t) {
    const key = b.id * 4096 * 4096 + (t === null ? 0 : t.id + 1);
    let c = this.cursors.get(key);
    if (c === undefined) this.cursors.set(key, c = { b, t, id: this.cursors.size });
    return c;
  }
  begin() {
    const { text, byteAt } = this.source;
    const b = { v: this.model.beginning_in(this.language, antt.bytes(text)), end: 0, last: false, id: this.n++ };
    while (byteAt(b.end) < b.v.stop) b.end += 1;
    return this.choices(b.end).map((t) => this.cursor(b, t));
  }
  // over the next token
  over(c) {
    if (c.next === undefined) c.next = c.t === null ? [] : c.t.last ? [this.cursor(c.t, null)] : this.choices(c.t.end).map((t) => this.cursor(c.t, t));
    return c.next;
  }
}

class TooMuch extends Error {}

class Derive {
  constructor(model) {
    this.m = model;
    this.open = antt.codes('(');
    this.close = antt.codes(')');
    this.names = new Map();
  }
  derive(text, tree, options = {}) {
    const { m } = this;
    this.places = options.places !== false;
    this.reading = new Reading(m, text, options.language);
    this.found = new Map();
    this.bounds = options.bounds ?? null;
    this.budget = options.budget ?? 3e6;
    const root = tree.spec ?? m.tree(tree);
    this.ids = new Map();
    const out = new Map();
    if (!m.is_tree_of(this.reading.language, root)) return [];
    for (const c of this.reading.begin()) {
      for (const r of this.spells(m.script, root, c)) {
        if (r.c.t !== null) continue;
        const pairs = flatten(r.P);
        const key = pairs.map((p) => `${p.left}-${p.right}`).join(' ');
        const old = out.get(key);
        if (old === undefined || old.open > r.o) out.set(key, { pairs, open: r.o, key });
      }
    }
    return [...out.values()];
  }
  isMark(w, c) {
    return c.t !== null && this.m.is_mark(w, c.t.v);
  }
  // the next token is a keyword, and the node the identifier of its text
  isReserved(n, c) {
    return c.t !== null &&
      n.a[0].$.name === 'Identifier' &&
      n.a[5].$.name === 'none' &&
      this.m.is_lean(n) &&
      this.m.is_keyword(n.a[1]) &&
      this.m.is_token(this.m.classes.keyword, n.a[1], c.t.v);
  }
  placed(a, n, c, end) {
    if (!this.places) return c.t !== null;
    if (c.t === null) return false;
    const p = this.m.place(a, c.t.v, end.b.v);
    return p[0] === n.a[3] && p[1] === n.a[4];
  }
  // no end can give the node its start
  hopeless(a, n, c) {
    if (c.t === null) return true;
    if (!this.places) return false;
    const p = this.m.place(a, c.t.v, c.t.v);
    const q = this.m.place(a, c.t.v, { ...c.t.v, start: 1 << 28, stop: 1 << 28 });
    return p[0] === q[0] && p[0] !== n.a[3];
  }
  spells(a, n, c) {
    if (--this.budget < 0) throw new TooMuch();
    let id = this.ids.get(n);
    if (id === undefined) this.ids.set(n, id = this.ids.size);
    const key = id + ' ' + c.id + ' ' + antt.keyOf(a);
    const known = this.found.get(key);
    if (known !== undefined) return known;
    const { m } = this;
    const out = [];
    // direct
    if (!this.hopeless(a, n, c)) {
      for (let ways = m.ways(a, n); ways !== null; ways = ways.t) {
        for (const x of this.runs(ways.h, n.a[5], c, a)) if (this.placed(a, n, c, x.c)) out.push(x);
      }
    }
    // reserved_key, reserved_word
    if ((a.$.name === 'key' || a.$.name === 'word') && this.isReserved(n, c)) {
      for (const d of this.reading.over(c)) if (this.placed(a, n, c, d)) out.push({ c: d, P: null, o: 0 });
    }
    // grouped
    if (a.$.name === 'expr' && this.isMark(this.open, c)) {
      for (const c1 of this.reading.over(c)) {
        for (const x of this.spells(m.exprAny, n, c1)) {
          if (!this.isMark(this.close, x.c)) continue;
          const pair = { left: c.t.v.start, right: x.c.t.v.start };
          for (const c2 of this.reading.over(x.c)) out.push({ c: c2, P: { pair, rest: x.P }, o: x.o + 1 });
        }
      }
    }
    this.found.set(key, out);
    return out;
  }
  bound(role, node, cursor, within) {
    if (cursor.t === null || within?.$.name === 'chain_part') return;
    const goesOn = within?.$.name === 'expr';
    this.bounds.push({ role: goesOn ? within : role, node, cursor, goesOn });
  }
  // `within`: the position of the node that begins here
  runs(qs, ps, c, within = null) {
    const { m, reading } = this;
    // steps with one way on, without recursion
    for (;;) {
      if (qs === null) return ps.$.name === 'none' ? [{ c, P: null, o: 0 }] : [];
      const q = qs.h;
      switch (q.$.name) {
        case 'lay':
          qs = qs.t;
          continue;
        case 'never':
          return [];
        case 'tok': {
          if (c.t === null || !m.is_token(q.a[0], q.a[1], c.t.v)) return [];
          const next = reading.over(c);
          within = null;
          if (next.length === 1) {
            c = next[0];
            qs = qs.t;
            continue;
          }
          return next.flatMap((d) => this.runs(qs.t, ps, d));
        }
        case 'may': {
          const out = [...this.runs(qs.t, ps, c)];
          if (this.isMark(q.a[0], c)) for (const d of reading.over(c)) out.push(...this.runs(qs.t, ps, d));
          return out;
        }
        case 'many': {
          const out = [...this.runs(qs.t, ps, c)];
          if (this.isMark(q.a[0], c)) for (const d of reading.over(c)) out.push(...this.runs(qs, ps, d));
          return out;
        }
        case 'ahead':
          if (c.t === null || !m.is_token(m.classes.name, q.a[0], c.t.v)) return [];
          qs = qs.t;
          continue;
        case 'unbroken':
          if (c.t === null || c.t.v.after_break) return [];
          qs = qs.t;
          continue;
        case 'no_operand':
          if (c.t === null || !m.begins_no_operand(c.t.v)) return [];
          qs = qs.t;
          continue;
        case 'ending': {
          if (c.t === null) return [];
          const out = [];
          if (m.may_miss(q.a[0], c.b.v, c.t.v)) out.push(...this.runs(qs.t, ps, c));
          if (m.is_semicolon(c.t.v)) for (const d of reading.over(c)) out.push(...this.runs(qs.t, ps, d));
          return out;
        }
        case 'open_parameters':
          if (!this.isMark(this.open, c)) return [];
          return reading.over(c).flatMap((d) => this.runs(qs.t, ps, d).map((x) => ({ ...x, o: x.o + 1 })));
        case 'close_parameters':
          if (!this.isMark(this.close, c)) return [];
          return reading.over(c).flatMap((d) => this.runs(qs.t, ps, d).map((x) => ({ ...x, o: Math.max(x.o, 1) - 1 })));
        case 'absent':
          if (ps.$.name !== 'gap') return [];
          qs = qs.t;
          ps = ps.a[0];
          continue;
        case 'sub': {
          if (ps.$.name !== 'part') return [];
          const [n, rest] = ps.a;
          const found = this.spells(q.a[0], n, c);
          if (found.length === 0) return [];
          if (this.bounds !== null && q.a[0].$.name === 'expr') for (const x of found) this.bound(q.a[0], n, x.c, within);
          const out = [];
          for (const x of found) for (const y of this.runs(qs.t, rest, x.c)) out.push({ c: y.c, P: join(x.P, y.P), o: Math.max(x.o, y.o) });
          return out;
        }
        default:
          throw new Error('unknown piece ' + q.$.name);
      }
    }
  }
}
const join = (a, b) => (a === null ? b : b === null ? a : { a, b });
function flatten(P) {
  const out = [];
  const stack = [P];
  while (stack.length > 0) {
    const p = stack.pop();
    if (p === null) continue;
    if (p.pair !== undefined) {
      out.push(p.pair);
      stack.push(p.rest);
    } else {
      stack.push(p.b);
      stack.push(p.a);
    }
  }
  return out;
}

module.exports = { Derive, Reading, TooMuch };
