'use strict';
// An interpreter for the part of antt that spec files use: loads specs/ folders, compiles each
// definition to JavaScript, runs them. Types are skipped; a form that isn't known is an error.
//
//   const spec = load([folder, ...])   folders: crates (with specs/), specs folders, or trees of crates
//   spec.call(name, ...args)           a definition by its name, see `find`
//   spec.examples                      closed statements  a ≡ b , for `runExamples`
//
// Values: ℕ numbers, Bool booleans, [] null, x ∷ xs a Cons, tuples arrays, records plain objects,
// String a JS string, a constructor an object {$: Constructor, a: [arguments]}, functions curried.

const fs = require('fs');
const path = require('path');
const { floatWords } = require('./floats.js');

class AnttError extends Error {}

// Of proofs/, only examples and the words that they are written with.
const EXAMPLES = /\/(?:language\/proofs\/examples|(?:early_errors|scopes|regular_expressions)\/proofs)\/(Trees|Sources|Tables|\w*Examples|\w*Rows)\.antt$/;
// Modules that aren't loaded, by crate: they speak of the program's own values (its trees, devices, tables), not of texts and trees.
const LEFT_OUT = {
  source_text: 'specs: Io Memory Source Located Writing',
  suppressions: 'specs: Sweeps Told',
  tokens: 'specs: Scanned Reading Closers TokenStarts States PunctuatorSets Sets Escaped Laws',
  tree: 'specs: Whole Places PartNumber RowNumber FlagBits KeptFlags Linked Growth TreeCode Node Labels Standing Building Witness',
  language: 'specs: Promises',
  early_errors: 'specs: Owns Walk Walks Passed Knowing PrivateUses ExportsRead; proofs: Tables',
  name_tables: 'specs: DeclaratorParts Keys PatternParts Sets Tables',
  scopes: 'specs: Shown Walks Gathered; proofs: Tables',
  rule_words: 'specs: Order Appends',
  node_rules: 'specs: KindNumbers Due Laws',
  reference_rules: 'specs: Laws',
  native_prototypes: 'specs: Sets',
  private_members: 'specs: Sets',
  repetition_rules: 'specs: Chains Laws Seen',
  literal_rules: 'specs: Laws',
  number_precision: 'specs: Limbs Near',
  pattern_analysis: 'specs: Read ReadReferences',
  text_rules: 'specs: Laws',
  value_rules: 'specs: Laws',
  flow_rules: 'specs: Laws Steps',
  rules: 'specs: Toml Misfits ListsShown NameOrder Run RuleViews Used Nodes NodeRules Groups Refusals Lines',
  estree_json: 'specs: Sent Primitives Table',
  regular_expressions: 'specs: Scanned',
};
const LEFT_OUT_NAMES = new Set(
  Object.entries(LEFT_OUT).flatMap(([crate, parts]) =>
    parts.split('; ').flatMap((part) => {
      const [folder, names] = part.split(': ');
      return names.split(' ').map((name) => `Rattle.${crate}.${folder}.${name}`);
    })
  )
);
const HINT =
  'A module that speaks of the program\'s own values alone is left out by its name (LEFT_OUT in tools/definitions/antt.js). One that says what a text or a tree is has to be read: a crate that is missing is added to CRATES (model.js), a new form to antt.js.';

// ---------------------------------------------------------------- values

class Cons {
  constructor(h, t) {
    this.h = h;
    this.t = t;
  }
}
const toArray = (l) => {
  const out = [];
  for (; l !== null; l = l.t) out.push(l.h);
  return out;
};
const fromArray = (a, tail = null) => {
  let l = tail;
  for (let i = a.length - 1; i >= 0; i--) l = new Cons(a[i], l);
  return l;
};
const codesMemo = new Map();
function codes(s) { // the characters of a literal
  let l = codesMemo.get(s);
  if (l === undefined) codesMemo.set(s, l = fromArray([...s].map((c) => c.codePointAt(0))));
  return l;
}
const lowercase = (l) => fromArray(toArray(l).map((c) => (c >= 65 && c <= 90 ? c + 32 : c))); // letters of ASCII
const bytesMemo = new Map();
function bytes(s) { // the UTF-8 bytes of a JS string
  let l = bytesMemo.get(s);
  if (l === undefined) {
    l = fromArray([...Buffer.from(s, 'utf8')]);
    if (bytesMemo.size > 200000) bytesMemo.clear();
    bytesMemo.set(s, l);
  }
  return l;
}
const text = (l) => Buffer.from(toArray(l)).toString('utf8');
function bytesEq(a, b) {
  for (;;) {
    if (a === b) return true;
    if (a === null || b === null || a.h !== b.h) return false;
    a = a.t;
    b = b.t;
  }
}
function append(a, b) {
  return a === null ? b : b === null ? a : fromArray(toArray(a), b);
}

class Constructor {
  constructor(name, arity, type, module) {
    this.name = name;
    this.arity = arity;
    this.type = type;
    this.module = module;
    this.constant = arity === 0 ? new Data(this, []) : null;
  }
  make(...args) {
    return this.arity === 0 ? this.constant : new Data(this, args);
  }
}
class Data {
  constructor($, a) {
    this.$ = $;
    this.a = a;
  }
}

function show(v, depth = 6) {
  if (v === null) return '[]';
  if (depth === 0) return '…';
  if (v instanceof Cons) {
    const list = toArray(v);
    if (list.length > 0 && list.every((c) => typeof c === 'number' && ((c >= 32 && c < 127) || c === 10))) return JSON.stringify(text(v));
    return '[' + list.map((x) => show(x, depth - 1)).join(', ') + ']';
  }
  if (v instanceof Data) return v.a.length === 0 ? v.$.name : '(' + v.$.name + v.a.map((x) => ' ' + show(x, depth - 1)).join('') + ')';
  if (Array.isArray(v)) return '(' + v.map((x) => show(x, depth - 1)).join(', ') + ')';
  if (typeof v === 'function') return 'λ';
  if (typeof v === 'object')
    return '{' +
      Object.keys(v)
        .map((k) => k + '=' + show(v[k], depth - 1))
        .join('; ') +
      '}';
  return typeof v === 'string' ? JSON.stringify(v) : String(v);
}
function equal(x, y) {
  if (x === y) return true;
  if (typeof x !== 'object' || typeof y !== 'object' || x === null || y === null) return false;
  if (x instanceof Cons) {
    for (; x !== null && y !== null; x = x.t, y = y.t) {
      if (x === y) return true;
      if (!(y instanceof Cons) || !equal(x.h, y.h)) return false;
    }
    return x === y;
  }
  if (x instanceof Data) return y instanceof Data && x.$ === y.$ && x.a.every((v, i) => equal(v, y.a[i]));
  if (Array.isArray(x)) return Array.isArray(y) && x.length === y.length && x.every((v, i) => equal(v, y[i]));
  const keys = Object.keys(x);
  return keys.length === Object.keys(y).length && keys.every((k) => equal(x[k], y[k]));
}

// ---------------------------------------------------------------- the library

const nat = (n) => {
  if (!Number.isSafeInteger(n) || n < 0) throw new AnttError('not a number: ' + n);
  return n;
};
// Numbers beyond 2 ** 53 are BigInts, no others.
const narrow = (n) => (n <= Number.MAX_SAFE_INTEGER ? Number(n) : n);
const plus = (a, b) => {
  const n = Number(a) + Number(b);
  return Number.isSafeInteger(n) ? nat(n) : narrow(BigInt(a) + BigInt(b));
};
const times = (a, b) => {
  const n = Number(a) * Number(b);
  return Number.isSafeInteger(n) ? nat(n) : narrow(BigInt(a) * BigInt(b));
};
const minus = (a, b) => (a <= b ? 0 : typeof a === 'number' ? a - b : narrow(a - BigInt(b)));
const UTF8 = (c) => [...Buffer.from(String.fromCodePoint(c), 'utf8')];
// name -> [arity, function]
const LIBRARY = {
  '◌+◌': [2, plus],
  '◌-◌': [2, minus],
  '◌*◌': [2, times],
  '◌/◌': [2, (a, b) => (b === 0 ? 0 : Math.floor(a / b))],
  '◌%◌': [2, (a, b) => (b === 0 ? a : a % b)],
  suc: [1, (a) => plus(a, 1)],
  pred: [1, (a) => minus(a, 1)],
  min: [2, Math.min],
  max: [2, Math.max],
  nat_eq: [2, (a, b) => a === b],
  int_eq: [2, (a, b) => a === b],
  pos: [1, (a) => a],
  nat_lt: [2, (a, b) => a < b],
  nat_le: [2, (a, b) => a <= b],
  '◌==◌': [2, (a, b) => a === b],
  not: [1, (a) => !a],
  cond: [3, (b, x, y) => (b ? x : y)],
  'if◌then◌else◌': [3, (b, x, y) => (b ? x : y)],
  '◌&&◌': [2, (a, b) => a && b],
  '◌||◌': [2, (a, b) => a || b],
  xor: [2, (a, b) => a !== b],
  beq: [2, (a, b) => a === b],
  '◌++◌': [2, append],
  '◌∷◌': [2, (h, t) => new Cons(h, t)],
  map: [2, (f, l) => fromArray(toArray(l).map((x) => f(x)))],
  filter: [2, (f, l) => fromArray(toArray(l).filter((x) => f(x)))],
  reverse: [1, (l) => fromArray(toArray(l).reverse())],
  length: [
    1,
    (l) => {
      let n = 0;
      for (; l !== null; l = l.t) n += 1;
      return n;
    },
  ],
  take: [2, (n, l) => fromArray(toArray(l).slice(0, n))],
  drop: [
    2,
    (n, l) => {
      for (; n > 0 && l !== null; n--) l = l.t;
      return l;
    },
  ],
  replicate: [2, (n, x) => fromArray(new Array(n).fill(x))],
  concat: [1, (l) => fromArray(toArray(l).flatMap(toArray))],
  slice_index_or: [
    3,
    (l, i, d) => {
      for (; i > 0 && l !== null; i--) l = l.t;
      return l === null ? d : l.h;
    },
  ],
  slice_index: [2, (l, i) => LIBRARY.slice_index_or[1](l, i, 0)],
  slice_get: [
    2,
    (l, i) => {
      for (; i > 0 && l !== null; i--) l = l.t;
      return l === null ? OPTION.None.constant : OPTION.Some.make(l.h);
    },
  ],
  list_any: [2, (f, l) => toArray(l).some((x) => f(x))],
  list_all: [2, (f, l) => toArray(l).every((x) => f(x))],
  find: [
    2,
    (f, l) => {
      const k = toArray(l).find((x) => f(x));
      return k === undefined ? OPTION.None.constant : OPTION.Some.make(k);
    },
  ],
  fold: [3, (f, a, l) => toArray(l).reduce((b, x) => f(b)(x), a)],
  sum: [1, (l) => toArray(l).reduce((a, b) => a + b, 0)],
  flat_map: [2, (f, l) => fromArray(toArray(l).flatMap((x) => toArray(f(x))))],
  filter_map: [2, (f, l) => fromArray(toArray(l).flatMap((x) => f(x).a))],
  starts_with: [
    3,
    (eq, l, n) => {
      for (; n !== null; l = l.t, n = n.t) if (l === null || !eq(l.h)(n.h)) return false;
      return true;
    },
  ],
  ends_with: [
    3,
    (eq, l, needle) => {
      const xs = toArray(l),
        ys = toArray(needle);
      return ys.length <= xs.length && ys.every((y, i) => eq(xs[xs.length - ys.length + i])(y));
    },
  ],
  codes: [1, codes],
  bytes_eq: [2, bytesEq],
  string_eq: [2, bytesEq],
  str_eq_ignore_ascii_case: [2, (a, b) => bytesEq(lowercase(a), lowercase(b))],
  encode_utf8_all: [1, (l) => fromArray(toArray(l).flatMap(UTF8))],
  encode_utf8: [1, (c) => fromArray(UTF8(c))],
  has_unpaired_surrogate: [1, (l) => !String.fromCharCode(...toArray(l)).isWellFormed()],
  utf16_lossy_chars: [1, (l) => codes(String.fromCharCode(...toArray(l)).toWellFormed())],
  decimal: [1, (n) => codes(String(n))],
  encode_utf16: [1, (c) => fromArray(c < 0x10000 ? [c] : [0xD800 + ((c - 0x10000) >> 10), 0xDC00 + ((c - 0x10000) & 0x3FF)])],
  digit_value: [
    1,
    (c) => {
      const v = parseInt(String.fromCodePoint(c), 36);
      return Number.isNaN(v) ? 36 : v;
    },
  ],
  take_while: [
    2,
    (f, l) => {
      const out = [];
      for (; l !== null && f(l.h); l = l.t) out.push(l.h);
      return fromArray(out);
    },
  ],
  slice_range: [3, (l, s, e) => fromArray(toArray(l).slice(s, e))],
  chars: [1, (l) => codes(text(l))],
  is_utf8: [
    1,
    (l) => {
      const b = Buffer.from(toArray(l));
      return Buffer.from(b.toString('utf8'), 'utf8').equals(b);
    },
  ],
  unwrap_or: [2, (o, d) => (o.$ === OPTION.Some ? o.a[0] : d)],
  is_some: [1, (o) => o.$ === OPTION.Some],
  is_none: [1, (o) => o.$ === OPTION.None],
  option_map: [2, (f, o) => (o.$ === OPTION.Some ? OPTION.Some.make(f(o.a[0])) : o)],
  option_to_list: [1, (o) => fromArray(o.a)],
  is_xid_start: [1, (c) => /^\p{XID_Start}$/u.test(String.fromCodePoint(c))],
  is_xid_continue: [1, (c) => /^\p{XID_Continue}$/u.test(String.fromCodePoint(c))],
  // of General_Category one group alone is asked for
  general_category: [1, (c) => (/^\p{M}$/u.test(String.fromCodePoint(c)) ? 'Mark' : 'none')],
  in_group: [2, (group, category) => group === category],
};
const OPTION = { Some: new Constructor('Some', 1, 'Option', ''), None: new Constructor('None', 0, 'Option', '') };
const { FLOATS, LIBRARY: FLOAT_WORDS } = floatWords({ Constructor, codes, narrow, text });
Object.assign(LIBRARY, FLOAT_WORDS);
const CONSTANTS = { Mark: "'Mark'", binary64: '0', true: 'true', false: 'false', zero: '0', '[]': 'null', tt: '0', refl: '0' };
const FIXITY = {
  '≡': [4, 'n'],
  '||': [30, 'l'],
  '&&': [35, 'l'],
  '<': [50, 'n'],
  '≤': [50, 'n'],
  '==': [50, 'n'],
  '+': [65, 'l'],
  '-': [65, 'l'],
  '++': [65, 'l'],
  '∷': [67, 'r'],
  '*': [70, 'l'],
  '/': [70, 'l'],
  '%': [70, 'l'],
  '^': [75, 'r'],
};
const TYPE_NAMES = new Set('ℕ Bool List Option String Type Unit IsTrue IsFalse ⊤ ⊥ ◌≡◌ ◌≤◌ ◌<◌ ◌⊎◌ ◌↔◌ All ◌≢◌ T'.split(' '));

// ---------------------------------------------------------------- tokens and items

const NAME_STOP = /[\s(){}.;,@"«»]/u;
// (`c` and `e`: the columns from which to which a token stands in its line, for what changes definitions in their text)
function tokenize(lines, where) { // lines: [{no, text}]
  const out = [];
  for (const { no, text: line } of lines) {
    let i = 0;
    let spaced = true;
    while (i < line.length) {
      const c = line[i];
      if (/\s/.test(c)) {
        i++;
        spaced = true;
        continue;
      }
      if (c === '"') {
        let j = i + 1;
        let s = '';
        while (line[j] !== '"') {
          if (line[j] === undefined) throw new AnttError(`${where}:${no}: string without end`);
          if (line[j] === '\\') {
            const e = { n: '\n', t: '\t', r: '\r', '"': '"', '\\': '\\', '0': '\0' }[line[j + 1]];
            if (e === undefined) throw new AnttError(`${where}:${no}: unknown escape \\${line[j + 1]}`);
            s += e;
            j += 2;
          } else {
            const ch = String.fromCodePoint(line.codePointAt(j));
            s += ch;
            j += ch.length;
          }
        }
        out.push({ k: 'string', v: s, spaced, no, c: i, e: j + 1 });
        i = j + 1;
        spaced = false;
        continue;
      }
      if (c === '«') {
        const j = line.indexOf('»', i);
        out.push({ k: 'name', v: line.slice(i + 1, j), spaced, no, c: i, e: j + 1 });
        i = j + 1;
        spaced = false;
        continue;
      }
      if ('(){}.;,@'.includes(c)) {
        out.push({ k: c, v: c, spaced, no, c: i, e: i + 1 });
        i++;
        spaced = false;
        continue;
      }
      let j = i;
      while (j < line.length && !NAME_STOP.test(line[j])) j++;
      const v = line.slice(i, j);
      if (v.startsWith('--')) break;
      if (['→', '×', '↦', '=', '|', ':', '[', ']', 'λ', 'let', 'in', 'elim', 'record', '_', 'as', 'where', 'do'].includes(v))
        out.push({ k: v, v, spaced, no, c: i, e: j });
      else if (/^(0x[0-9a-fA-F_]+|0o[0-7_]+|0b[01_]+|[0-9][0-9_]*)$/.test(v)) out.push({ k: 'number', v: Number(v.replace(/_/g, '')), spaced, no, c: i, e: j });
      else out.push({ k: 'name', v, spaced, no, c: i, e: j });
      i = j;
      spaced = false;
    }
  }
  return out;
}
const indentOf = (s) => s.length - s.trimStart().length;
// Lines to items: the first line of least indent and those that stand deeper under it.
function items(lines, where) {
  const list = [];
  if (lines.length === 0) return list;
  const indent = indentOf(lines[0].text);
  for (const line of lines) {
    const n = indentOf(line.text);
    if (n < indent) throw new AnttError(`${where}:${line.no}: layout`);
    if (n === indent && !/^[)\]}]/.test(line.text.trimStart())) list.push([line]);
    else list[list.length - 1].push(line); // a bracket that closes goes on
  }
  return list;
}
function readLines(source, where) {
  const out = [];
  if (/\{-/.test(source)) throw new AnttError(where + ': block comments are not read');
  source.split('\n').forEach((raw, i) => {
    const t = raw.trim();
    if (t === '' || /^--(\s|$)/.test(t)) return;
    out.push({ no: i + 1, text: raw });
  });
  return out;
}

// ---------------------------------------------------------------- parsing

class Reader {
  constructor(tokens, where) {
    this.t = tokens;
    this.i = 0;
    this.where = where;
  }
  get look() {
    return this.t[this.i] ?? { k: 'eof', v: 'end' };
  }
  at(k) {
    return this.look.k === k;
  }
  next() {
    return this.t[this.i++];
  }
  fail(what) {
    throw new AnttError(`${this.where}:${this.look.no ?? this.t[this.t.length - 1]?.no}: ${what}, at ${this.look.v}`);
  }
  expect(k) {
    if (!this.at(k)) this.fail('expected ' + k);
    return this.next();
  }
  done() {
    if (!this.at('eof')) this.fail('text left over');
  }

  expr() {
    if (this.at('λ')) {
      this.next();
      const names = [];
      while (!this.at('.')) names.push(this.patternAtom());
      this.next();
      return { k: 'lambda', names, body: this.expr() };
    }
    if (this.at('let')) {
      this.next();
      const pattern = this.patternAtom();
      if (this.at(':')) this.skipType(['=']);
      this.expect('=');
      const value = this.expr();
      this.expect('in');
      return { k: 'let', pattern, value, body: this.expr() };
    }
    if (this.word('if')) {
      this.next();
      const test = this.expr();
      if (!this.word('then')) this.fail('expected then');
      this.next();
      const yes = this.expr();
      if (!this.word('else')) this.fail('expected else');
      this.next();
      return { k: 'apply', f: { k: 'name', path: ['if◌then◌else◌'] }, args: [test, yes, this.expr()] };
    }
    return this.operators(0);
  }
  word(w) {
    return this.at('name') && this.look.v === w;
  }
  operator() {
    const t = this.look;
    return t.k === 'name' && Object.hasOwn(FIXITY, t.v) ? t.v : null;
  }
  operators(least) {
    let left = this.application();
    for (;;) {
      const op = this.operator();
      if (op === null) return left;
      const [level, side] = FIXITY[op];
      if (level < least) return left;
      this.next();
      const right = this.at('λ') || this.at('let') || this.word('if') ? this.expr() : this.operators(side === 'r' ? level : level + 1);
      left = { k: 'apply', f: { k: 'name', path: ['◌' + op + '◌'] }, args: [left, right] };
    }
  }
  startsAtom() {
    const k = this.look.k;
    return !this.word('then') &&
      !this.word('else') &&
      !this.word('if') &&
      ['name', 'number', 'string', '(', 'record', '{', 'elim'].includes(k) &&
      this.operator() === null;
  }
  application() {
    let head = this.atom();
    const args = [];
    for (;;) {
      if (this.at('{')) {
        this.skipBraces();
        continue;
      } // an implicit argument
      if (this.at('λ') || this.at('let')) {
        args.push(this.expr());
        break;
      }
      if (!this.startsAtom()) break;
      args.push(this.atom());
    }
    return args.length === 0 ? head : { k: 'apply', f: head, args };
  }
  skipBraces() {
    let depth = 0;
    do {
      const t = this.next();
      if (t === undefined) this.fail('braces');
      if (t.k === '{') depth++;
      if (t.k === '}') depth--;
    } while (depth > 0);
  }
  skipType(stops) {
    let depth = 0;
    for (;;) {
      const k = this.look.k;
      if (k === 'eof') this.fail('type');
      if (depth === 0 && stops.includes(k)) return;
      if ('({['.includes(k)) depth++;
      if (')}]'.includes(k)) depth--;
      this.next();
    }
  }
  atom() {
    const t = this.look;
    let e;
    switch (t.k) {
      case 'name': {
        this.next();
        const names = [t.v];
        while (
          this.at('.') &&
          !this.look.spaced &&
          (this.t[this.i + 1]?.k === 'name' || this.t[this.i + 1]?.k === 'number' || this.t[this.i + 1]?.k === 'in') &&
          !this.t[this.i + 1].spaced
        ) {
          this.next();
          names.push(this.next().v);
        }
        return { k: 'name', path: names, no: t.no };
      }
      case 'number':
        this.next();
        return { k: 'number', v: t.v, no: t.no };
      case 'string':
        this.next();
        return { k: 'string', v: t.v, no: t.no };
      case '(': {
        this.next();
        const parts = [this.expr()];
        while (this.at(',')) {
          this.next();
          parts.push(this.expr());
        }
        this.expect(')');
        e = parts.length === 1 ? parts[0] : { k: 'tuple', parts };
        while (this.at('.') && !this.look.spaced) {
          this.next();
          e = { k: 'field', e, f: this.next().v };
        }
        return e;
      }
      case 'record': {
        this.next();
        const base = this.at('{') ? null : this.atom();
        this.expect('{');
        const fields = [];
        while (!this.at('}')) {
          const f = this.expect('name').v;
          this.expect('=');
          fields.push([f, this.expr()]);
          if (this.at(';')) this.next();
          else break;
        }
        this.expect('}');
        return { k: 'record', base, fields };
      }
      case 'elim': {
        this.next();
        const e2 = this.atom();
        if (this.at('as')) this.skipType(['[']);
        this.expect('[');
        const cases = [];
        while (!this.at(']')) {
          const p = this.pattern();
          this.expect('↦');
          cases.push([p, this.expr()]);
          if (this.at('|')) this.next();
          else break;
        }
        this.expect(']');
        return { k: 'elim', e: e2, cases };
      }
      default:
        return this.fail('no expression');
    }
  }

  // patterns
  pattern() {
    const first = this.patternApplication();
    if (this.at('name') && this.look.v === '∷') {
      this.next();
      return { k: 'con', path: ['◌∷◌'], args: [first, this.pattern()] };
    }
    return first;
  }
  patternApplication() {
    const head = this.patternAtom();
    const args = [];
    for (;;) {
      if (this.at('{')) {
        this.skipBraces();
        continue;
      }
      if (!['name', '_', '('].includes(this.look.k) || this.look.v === '∷') break;
      args.push(this.patternAtom());
    }
    if (args.length === 0) return head;
    if (head.k !== 'pname') this.fail('pattern');
    return { k: 'con', path: head.path, args };
  }
  patternAtom() {
    const t = this.next();
    if (t === undefined) this.fail('pattern');
    if (t.k === '_') return { k: 'any' };
    if (t.k === 'name') {
      const names = [t.v];
      while (this.at('.') && !this.look.spaced && this.t[this.i + 1]?.k === 'name' && !this.t[this.i + 1].spaced) {
        this.next();
        names.push(this.next().v);
      }
      return { k: 'pname', path: names, no: t.no };
    }
    if (t.k === '(') {
      const parts = [this.pattern()];
      while (this.at(',')) {
        this.next();
        parts.push(this.pattern());
      }
      this.expect(')');
      return parts.length === 1 ? parts[0] : { k: 'ptuple', parts };
    }
    this.i -= 1;
    return this.fail('pattern');
  }
}

// the parts of a type between its top-level arrows, as token lists
function arrowParts(tokens) {
  const parts = [[]];
  let depth = 0;
  for (const t of tokens) {
    if ('({['.includes(t.k)) depth++;
    if (')}]'.includes(t.k)) depth--;
    if (t.k === '→' && depth === 0) parts.push([]);
    else parts[parts.length - 1].push(t);
  }
  return parts;
}
// of one part: the texts of its explicit arguments' types
function argumentsOf(part) {
  const groups = [];
  let i = 0;
  while (i < part.length && (part[i].k === '(' || part[i].k === '{')) {
    let depth = 0;
    let j = i;
    let colon = -1;
    do {
      if ('({'.includes(part[j].k)) depth++;
      if (')}'.includes(part[j].k)) depth--;
      if (part[j].k === ':' && depth === 1 && colon < 0) colon = j;
      j++;
    } while (depth > 0);
    if (colon < 0) break;
    if (part[i].k === '(') {
      const type = part
        .slice(colon + 1, j - 1)
        .map((t) => t.v)
        .join(' ');
      for (let k = i + 1; k < colon; k++) groups.push(type);
    }
    i = j;
  }
  if (i === part.length && i > 0) return groups;
  return [
    ...groups,
    part
      .slice(i)
      .map((t) => t.v)
      .join(' '),
  ];
}
function readSignature(tokens) {
  const parts = arrowParts(tokens);
  const result = parts[parts.length - 1];
  const args = parts.slice(0, -1).flatMap(argumentsOf);
  return { args, result: result.map((t) => t.v).join(' '), isType: result[0]?.v === 'Type', closed: parts.length === 1, tokens };
}

// ---------------------------------------------------------------- modules

class Module {
  constructor(name, file) {
    this.name = name;
    this.file = file;
    this.exports = new Map();
    this.scope = new Map();
    this.definitions = [];
    this.uses = [];
    this.skipped = [];
    this.examples = [];
  }
}

class Spec {
  constructor() {
    this.modules = new Map();
    this.crates = new Set();
    this.enums = new Map();
    this.records = new Map();
    this.n = 0;
    this.examples = [];
    this.skipped = [];
    this.called = new Map();
  }

  // ---- loading
  addFolder(folder) {
    const found = [];
    const walk = (dir) => {
      for (const e of fs.readdirSync(dir, { withFileTypes: true })) {
        const p = path.join(dir, e.name);
        if (e.isDirectory()) {
          if (!['out', 'target', '.git', 'node_modules', 'declared'].includes(e.name)) walk(p);
        } else if (e.name.endsWith('.antt') && (p.split(path.sep).includes('specs') || EXAMPLES.test(p))) found.push(p);
      }
    };
    walk(path.resolve(folder));
    if (found.length === 0) throw new AnttError('no specs in ' + folder);
    const roots = new Set();
    for (const file of found) {
      const bits = file.split(path.sep);
      const at = Math.max(bits.lastIndexOf('specs'), bits.lastIndexOf('proofs'));
      roots.add(bits.slice(0, at).join(path.sep));
      const name = ['Rattle', ...bits.slice(at - 1)].join('.').replace(/\.antt$/, '');
      if (!LEFT_OUT_NAMES.has(name) && !this.modules.has(name)) this.modules.set(name, new Module(name, file));
    }
    for (const root of roots) {
      this.crates.add(path.basename(root));
      this.addDeclared(root);
    }
  }
  addDeclared(root) { // enums and structs of src/
    const crate = path.basename(root);
    const walk = (dir) => {
      if (!fs.existsSync(dir)) return;
      for (const e of fs.readdirSync(dir, { withFileTypes: true })) {
        const p = path.join(dir, e.name);
        if (e.isDirectory()) walk(p);
        else if (/\.r[st]$/.test(e.name)) {
          const source = fs.readFileSync(p, 'utf8').replace(/\/\/[^\n]*/g, '');
          for (const m of source.matchAll(/\benum\s+(\w+)\s*\{([^}]*)\}/g)) {
            const variants = m[2]
              .replace(/#\[[^\]]*\]/g, '')
              .split(/,(?![^(]*\))/)
              .map((s) => s.trim())
              .filter(Boolean);
            if (variants.some((v) => !/^\w+(\((\w+(, *\w+)*)\))?$/.test(v))) continue; // others: made when used, by name
            this.declare(crate, m[1], variants);
          }
          for (const m of source.matchAll(/\bstruct\s+(\w+)\s*\{([^}]*)\}/g)) this.records.set(crate + '.' + m[1], m[2]);
        }
      }
    };
    walk(path.join(root, 'src'));
  }
  declare(crate, type, variants) {
    if (this.enums.has(crate + '.' + type)) return;
    const fields = (v) => (v.includes('(') ? v.split(',').length : 0);
    this.enums.set(crate + '.' + type, new Map(variants.map((v) => [v.replace(/\(.*/, ''), new Constructor(v.replace(/\(.*/, ''), fields(v), type, crate)])));
  }

  readModules() {
    for (const m of this.modules.values()) this.readModule(m);
    for (const m of this.modules.values()) this.link(m);
  }
  readModule(m) {
    const where = path.relative(process.cwd(), m.file);
    this.readItems(m, items(readLines(fs.readFileSync(m.file, 'utf8'), where), where), where, { public: false });
  }
  readItems(m, list, where) {
    let current = null;
    for (const lines of list) {
      const tokens = tokenize(lines, where);
      const words = tokens.map((t) => t.v);
      let i = 0;
      while (['pattern', 'unfoldable', 'abbrev', 'pub'].includes(words[i])) i++;
      const head = words[i];
      if (head === 'mod') {
        current = null;
        continue;
      }
      if (head === 'use') {
        current = null;
        this.readUse(m, tokens.slice(i + 1), where, words.slice(0, i).includes('pub'));
        continue;
      }
      if (['infix', 'infixl', 'infixr'].includes(head)) {
        for (const op of words.slice(i + 2)) FIXITY[op.replace(/◌/g, '')] = [Number(words[i + 1]), head === 'infix' ? 'n' : head.slice(5)];
        continue;
      }
      // A section over types: its relations are mirrored by hand, and a function in it would need the parameters.
      if (head === 'module' && words[i + 1] === '_') {
        const onlyData = (of) =>
          of.every((one) => {
            const w = tokenize(one, where)
              .map((t) => t.v)
              .filter((v) => v !== 'pub');
            return w[0] === 'data' || w[0] === 'record' || (w[0] === 'mutual' && onlyData(items(one.slice(1), where)));
          });
        const inner = items(lines.slice(1), where);
        if (!onlyData(inner)) throw new AnttError(`${where}:${lines[0].no}: a section with more than relations`);
        this.readItems(m, inner, where);
        current = null;
        continue;
      }
      if (head === 'mutual') {
        this.readItems(m, items(lines.slice(1), where), where);
        current = null;
        continue;
      }
      if (head === 'data') {
        const name = words[i + 1];
        for (const one of items(lines.slice(1), where)) {
          const ts = tokenize(one, where);
          if (ts[0].v === 'deriving') continue;
          const colon = ts.findIndex((t) => t.k === ':');
          const parts = colon < 0 ? [[]] : arrowParts(ts.slice(colon + 1));
          const arity = parts.slice(0, -1).flatMap(argumentsOf).length;
          for (const t of ts.slice(0, colon < 0 ? ts.length : colon))
            m.exports.set(t.v, { k: 'con', con: new Constructor(t.v, arity, name, m.name), type: name, no: t.no, home: m });
        }
        m.exports.set(name, { k: 'type', name });
        current = null;
        continue;
      }
      if (head === 'record') {
        m.exports.set(words[i + 1], { k: 'type', name: words[i + 1] });
        current = null;
        continue;
      }
      if (head === 'unfolding' || head === 'ruleset') continue;
      if (['open', 'module', 'axiom', 'deriving', 'unfold', 'package'].includes(head)) throw new AnttError(`${where}:${lines[0].no}: unknown form ${head}`);
      // a signature or a clause
      let depth = 0;
      let mark = -1;
      for (let k = 0; k < tokens.length; k++) {
        const kind = tokens[k].k;
        if ('({['.includes(kind)) depth++;
        if (')}]'.includes(kind)) depth--;
        if (depth === 0 && (kind === ':' || kind === '=')) {
          mark = k;
          break;
        }
      }
      if (mark < 0) throw new AnttError(`${where}:${lines[0].no}: unknown form: ${words.slice(0, 6).join(' ')}`);
      if (tokens[mark].k === ':') {
        current = { name: head, module: m, where, no: lines[0].no, signature: readSignature(tokens.slice(mark + 1)), clauses: [], id: this.n++ };
        m.exports.set(head, { k: 'def', def: current });
        m.definitions.push(current);
        continue;
      }
      if (current === null || head !== current.name) throw new AnttError(`${where}:${lines[0].no}: a clause of ${head} without its signature`);
      current.clauses.push(lines);
    }
  }
  readUse(m, tokens, where, passedOn) {
    const bits = [];
    let i = 0;
    while (tokens[i]?.k === 'name' || tokens[i]?.k === 'number') {
      bits.push(String(tokens[i].v));
      i++;
      if (tokens[i]?.k === '.') i++;
      else break;
    }
    if (tokens[i] === undefined) {
      m.uses.push({ module: bits.join('.'), names: null, as: bits[bits.length - 1] });
      return;
    }
    if (tokens[i].k === 'as' && tokens[i + 1]?.k === 'name') {
      m.uses.push({ module: bits.join('.'), names: null, as: tokens[i + 1].v });
      return;
    }
    if (tokens[i].k !== '{') throw new AnttError(`${where}:${tokens[0].no}: unknown use`);
    const names = [];
    i++;
    while (tokens[i].k !== '}') {
      const name = String(tokens[i].v);
      i++;
      let as = name;
      if (tokens[i].k === 'as') {
        as = String(tokens[i + 1].v);
        i += 2;
      }
      names.push([name, as, tokens[0].no]);
      if (tokens[i].k === ',') i++;
    }
    m.uses.push({ module: bits.join('.'), names, passedOn });
  }
  entryOf(moduleName, name, where) {
    const m = this.modules.get(moduleName);
    if (m !== undefined) {
      const e = m.exports.get(name);
      if (e !== undefined) return e;
      for (const use of m.uses) { // `pub use`
        const found = use.passedOn && use.names !== null && use.names.find(([, as]) => as === name);
        if (found) return this.entryOf(use.module, found[0], where);
      }
      throw new AnttError(`${where}: ${moduleName} has no ${name}`);
    }
    if (/^Rattle\.(unicode|ucd_\w+)\.specs\b/.test(moduleName)) return this.library(name) ?? { k: 'missing', name: moduleName + '.' + name };
    const declared = /^Rattle\.(\w+)\.specs\.declared\.(?:.*\.)?(\w+)\.TheVariants$/.exec(moduleName);
    if (declared && !/\.(?:option|result)\./.test(moduleName)) {
      const variants = this.enums.get(declared[1] + '.' + declared[2]) ?? [...this.enums].find(([k]) => k.endsWith('.' + declared[2]))?.[1];
      const con = variants?.get(name);
      if (con === undefined) throw new AnttError(`${where}: no variant ${declared[2]}::${name} in src/`);
      return { k: 'con', con, type: declared[2] };
    }
    if (/\.specs\.declared\./.test(moduleName)) return { k: 'type', name };
    if (/^(Rattle\.(std|core|std_alloc|unicode_ident)\b|Prim\.|lib\.|mathlib\.)/.test(moduleName))
      return this.library(name) ?? { k: 'missing', name: moduleName + '.' + name };
    // types alone are taken from what is left out, and from a crate that isn't there
    if (LEFT_OUT_NAMES.has(moduleName) || !this.crates.has(moduleName.split('.')[1])) return { k: 'missing', name: moduleName + '.' + name };
    throw new AnttError(`${where}: module ${moduleName} isn't loaded`);
  }
  library(name) {
    if (Object.hasOwn(LIBRARY, name)) return { k: 'lib', name };
    if (Object.hasOwn(CONSTANTS, name)) return { k: 'constant', name };
    if (Object.hasOwn(OPTION, name)) return { k: 'con', con: OPTION[name], type: 'Option' };
    if (Object.hasOwn(FLOATS, name)) return { k: 'con', con: FLOATS[name], type: 'Float' };
    if (TYPE_NAMES.has(name)) return { k: 'type', name };
    return null;
  }
  link(m) {
    for (const use of m.uses) {
      if (use.names === null) {
        m.scope.set(use.as, { k: 'module', name: use.module });
        continue;
      }
      for (const [name, as, no] of use.names) m.scope.set(as, this.entryOf(use.module, name, `${m.file}:${no}`));
    }
    for (const [name, e] of m.exports) m.scope.set(name, e);
  }

  // ---- resolving a name in a module: an entry, or null
  resolve(m, names, where) {
    const last = String(names[names.length - 1]);
    if (names.length === 1) return m.scope.get(last) ?? this.library(last);
    const front = names.slice(0, -1).join('.');
    if (this.modules.has(front) || /^(Rattle|Prim|lib|mathlib)\./.test(front)) return this.entryOf(front, last, where);
    if (names.length === 2) {
      const e = m.scope.get(names[0]);
      if (e?.k === 'module') return this.entryOf(e.name, last, where);
      if (names[0] === 'ℕ') return this.library(last);
      if (e?.k === 'type') { // Type.constructor
        for (const variants of this.enums)
          if (variants[0].endsWith('.' + e.name) && variants[1].has(last)) return { k: 'con', con: variants[1].get(last), type: e.name };
        for (const other of this.modules.values()) {
          const x = other.exports.get(last);
          if (x?.k === 'con' && x.type === e.name) return x;
        }
      }
    }
    return null;
  }

  // ---- compiling
  compile() {
    const out = [];
    this.cons = [];
    const defs = [...this.modules.values()].flatMap((m) => m.definitions);
    for (const d of defs) {
      const s = d.signature;
      if (s.isType) {
        d.skip = 'a type';
      } else if (/≡|≤|IsTrue|IsFalse|⊎|⊥|↔|×.*≡/.test(s.result) || s.result === 'Unit {0}') {
        d.skip = 'a statement';
        if (s.closed && / ≡ /.test(s.result)) this.examples.push(d);
      }
      if (d.skip) this.skipped.push([d.module.name + '.' + d.name, d.skip]);
    }
    for (const d of defs) {
      if (d.skip) continue;
      if (d.clauses.length === 0) throw new AnttError(`${d.where}:${d.no}: ${d.name} has no clause`);
      d.parsed = d.clauses.map((lines) => this.readClause(lines, d.where, d.name));
      d.arity = d.parsed[0].patterns.length;
      if (d.parsed.some((c) => c.patterns.length !== d.arity)) throw new AnttError(`${d.where}:${d.no}: ${d.name}: clauses of several lengths`);
    }
    for (const d of defs) {
      if (d.skip) continue;
      out.push(this.definition(d));
    }
    for (const d of this.examples) out.push(this.example(d));
    const source = `'use strict';\n${out.join('\n')}\nreturn { ${defs
      .filter((d) => !d.skip)
      .map((d) => `${this.js(d)}: ${this.js(d)}`)
      .concat(this.examples.map((d) => `e${d.id}: e${d.id}`))
      .join(', ')} };`;
    this.source = source;
    const lib = Object.fromEntries(Object.entries(LIBRARY).map(([k, v]) => [k, v[1]]));
    for (const [k, v] of Object.entries(this.overrides)) lib['override ' + k] = v.run;
    this.compiled = new Function('C', 'L', 'Cons', 'Data', 'append', 'memo', 'fail', 'curry', 'count', source)(
      this.cons,
      lib,
      Cons,
      Data,
      append,
      memo,
      (name) => {
        throw new AnttError('no clause fits: ' + name);
      },
      curry,
      (name) => {
        this.called.set(name, (this.called.get(name) ?? 0) + 1);
      }
    );
    for (const d of defs) if (!d.skip) d.run = this.compiled[this.js(d)];
  }
  js(d) {
    return 'f' + d.id + '_' + d.name.replace(/[^A-Za-z0-9_]/g, (c) => '$' + c.codePointAt(0).toString(16));
  }
  con(c) {
    let k = this.cons.indexOf(c);
    if (k < 0) {
      k = this.cons.length;
      this.cons.push(c);
    }
    return k;
  }

  readClause(lines, where, name) {
    const at = lines.findIndex((l) => l.text.trim() === 'where');
    const own = at < 0 ? lines : lines.slice(0, at);
    const r = new Reader(tokenize(own, where), where);
    r.expect('name');
    const patterns = [];
    while (!r.at('=')) {
      if (r.at('{')) {
        r.skipBraces();
        continue;
      }
      patterns.push(r.patternAtom());
    }
    r.expect('=');
    const body = r.expr();
    r.done();
    const helpers = [];
    if (at >= 0) {
      let current = null;
      for (const one of items(lines.slice(at + 1), where)) {
        const tokens = tokenize(one, where);
        let i = 0;
        while (['unfoldable', 'abbrev', 'pub', 'pattern'].includes(tokens[i].v)) i++;
        if (['open', 'mutual', 'module', 'use'].includes(tokens[i].v)) throw new AnttError(`${where}:${tokens[i].no}: unknown form in where: ${tokens[i].v}`);
        let depth = 0;
        const mark = tokens.find((t) => {
          if ('({['.includes(t.k)) depth++;
          if (')}]'.includes(t.k)) depth--;
          return depth === 0 && (t.k === ':' || t.k === '=');
        });
        if (mark?.k === ':') {
          current = { name: tokens[i].v, clauses: [] };
          helpers.push(current);
          continue;
        }
        if (mark === undefined || current === null || tokens[i].v !== current.name)
          throw new AnttError(`${where}:${tokens[0].no}: unknown form in where of ${name}`);
        current.clauses.push(this.readClause(one, where, current.name));
      }
      for (const h of helpers) h.arity = h.clauses[0].patterns.length;
    }
    return { patterns, body, helpers, no: lines[0].no };
  }

  definition(d) {
    const f = this.js(d);
    if (this.overrides[d.name] !== undefined && d.module.name.endsWith('.' + this.overrides[d.name].module))
      return `const ${f} = L[${JSON.stringify('override ' + d.name)}];`;
    const body = this.clauses(d.parsed, d.arity, { m: d.module, where: d.where, locals: new Map(), name: d.name, no: d.no });
    const params = Array.from({ length: d.arity }, (_, i) => 'a' + i).join(', ');
    if (d.arity === 0)
      return `let v${f}; let s${f} = 0;\nfunction ${f}() { if (s${f} === 0) { count(${JSON.stringify(d.module.name + '.' + d.name)}); v${f} = b${f}(); s${f} = 1; } return v${f}; }\nfunction b${f}() {\n${body}}`;
    const types = d.signature.args.slice(0, d.arity);
    const keyable = types.length === d.arity && types.includes('Tree') && types.every((t) => ['Tree', 'Role', 'Bool', 'Rank', 'Start'].includes(t));
    d.memo = keyable;
    const counting = `count(${JSON.stringify(d.module.name + '.' + d.name)}); `;
    if (keyable) return `const ${f} = memo(${d.arity}, ${JSON.stringify(types)}, function ${f}_(${params}) { ${counting}\n${body}});`;
    return `function ${f}(${params}) { ${counting}\n${body}}`;
  }
  example(d) {
    const r = new Reader(d.signature.tokens, d.where);
    const e = r.operators(5);
    if (!(r.at('name') && r.look.v === '≡')) r.fail('example');
    r.next();
    const right = r.expr();
    r.done();
    const x = { m: d.module, where: d.where, locals: new Map(), name: d.name };
    return `function e${d.id}() { return [${this.expr(e, x)}, ${this.expr(right, x)}]; }`;
  }

  clauses(list, arity, x) {
    const out = [];
    let sure = false;
    for (const c of list) {
      if (sure) throw new AnttError(`${x.where}:${c.no}: a clause of ${x.name} that nothing reaches`);
      const y = { ...x, locals: new Map(x.locals) };
      const tests = [];
      const binds = [];
      c.patterns.forEach((p, i) => this.pattern(p, (x.prefix ?? '') + 'a' + i, tests, binds, y));
      const helpers = c.helpers.map((h) => {
        const id = 'w' + this.n++;
        y.locals.set(h.name, { k: 'helper', id, arity: h.arity });
        return { ...h, id };
      });
      const text2 = helpers
        .map((h) => {
          const prefix = h.id + '_';
          const params = Array.from({ length: h.arity }, (_, i) => prefix + 'a' + i).join(', ');
          return `function ${h.id}(${params}) {\n${this.clauses(h.clauses, h.arity, { ...y, name: h.name, prefix })}}\n`;
        })
        .join('');
      const inside = `${binds.join('')}${text2}return ${this.expr(c.body, y)};`;
      if (tests.length === 0) {
        out.push(`{ ${inside} }\n`);
        sure = true;
      } else out.push(`if (${tests.join(' && ')}) { ${inside} }\n`);
    }
    if (!sure) out.push(`return fail(${JSON.stringify(x.name)});\n`);
    return out.join('');
  }
  variable(name, x) {
    const id = 'v' + this.n++ + '_' + name.replace(/[^A-Za-z0-9_]/g, '$');
    x.locals.set(name, { k: 'var', id });
    return id;
  }
  pattern(p, value, tests, binds, x) {
    switch (p.k) {
      case 'any':
        return;
      case 'ptuple':
        p.parts.forEach((q, i) => this.pattern(q, `${value}[${i}]`, tests, binds, x));
        return;
      case 'pname': {
        const e = p.path.length === 1 && x.locals.has(p.path[0]) ? null : this.resolve(x.m, p.path, x.where);
        const later = e?.k === 'con' && e.home === x.m && e.no > x.no && p.path.length === 1; // declared further down: a variable here
        if (e !== null && e !== undefined && !later && (e.k === 'con' || e.k === 'constant')) {
          this.constructorPattern(e, [], p, value, tests, binds, x);
          return;
        }
        if (p.path.length > 1) throw new AnttError(`${x.where}:${p.no}: unknown pattern ${p.path.join('.')}`);
        binds.push(`const ${this.variable(p.path[0], x)} = ${value}; `);
        return;
      }
      case 'con': {
        const name = p.path.join('.');
        if (name === '◌∷◌') {
          tests.push(`${value} !== null`);
          this.pattern(p.args[0], value + '.h', tests, binds, x);
          this.pattern(p.args[1], value + '.t', tests, binds, x);
          return;
        }
        if (name === 'suc' || name === 'ℕ.suc') {
          tests.push(`${value} > 0`);
          this.pattern(p.args[0], `(${value} - 1)`, tests, binds, x);
          return;
        }
        const e = this.resolve(x.m, p.path, x.where);
        if (e === null || e === undefined || e.k !== 'con') throw new AnttError(`${x.where}: unknown constructor ${name}`);
        this.constructorPattern(e, p.args, p, value, tests, binds, x);
        return;
      }
      default:
        throw new AnttError(`${x.where}: unknown pattern ${p.k}`);
    }
  }
  constructorPattern(e, args, p, value, tests, binds, x) {
    if (e.k === 'constant') {
      if (e.name === '[]') tests.push(`${value} === null`);
      else if (e.name === 'true' || e.name === 'false') tests.push(`${value} === ${e.name}`);
      else if (e.name === 'zero') tests.push(`${value} === 0`);
      else throw new AnttError(`${x.where}: no pattern ${e.name}`);
      return;
    }
    if (args.length !== e.con.arity) throw new AnttError(`${x.where}: ${e.con.name} has ${e.con.arity} arguments, the pattern ${args.length}`);
    tests.push(`${value}.$ === C[${this.con(e.con)}]`);
    args.forEach((q, i) => this.pattern(q, `${value}.a[${i}]`, tests, binds, x));
    // a value that is built again from all its parts is itself: so that it keeps its identity
    const ids = args.map((q) => (q.k === 'pname' && q.path.length === 1 ? x.locals.get(q.path[0])?.id : undefined));
    if (args.length > 0 && ids.every((id) => id !== undefined)) x.rebuilt = [...(x.rebuilt ?? []), { con: e.con, args: ids.join(', '), value }];
  }

  lookup(e, x) { // {entry, fields left}
    const local = x.locals.get(e.path[0]);
    if (local !== undefined) return { entry: local, fields: e.path.slice(1) };
    const first = this.resolve(x.m, [e.path[0]], x.where);
    if (e.path.length > 1 && first !== null && first !== undefined && ['def', 'lib', 'constant'].includes(first.k))
      return { entry: first, fields: e.path.slice(1) };
    const entry = this.resolve(x.m, e.path, x.where);
    if (entry === null || entry === undefined) throw new AnttError(`${x.where}:${e.no ?? ''}: unknown name ${e.path.join('.')} in ${x.name}`);
    return { entry, fields: [] };
  }
  fields(js, names) {
    return names.reduce((s, f) => (/^\d+$/.test(f) ? `${s}[${f}]` : `${s}[${JSON.stringify(f)}]`), js);
  }

  // a name applied to compiled arguments
  applyEntry(entry, fields, args, x, shown) {
    let arity;
    let call;
    let value;
    const wrap = (name, n) => (n === 0 ? `${name}()` : n === 1 ? name : `curry(${n}, ${name})`);
    if (fields.length > 0) {
      const base = this.applyEntry(entry, [], [], x, shown);
      return this.over(this.fields(base, fields), args);
    }
    switch (entry.k) {
      case 'var':
        return this.over(entry.id, args);
      case 'helper':
        arity = entry.arity;
        call = (a) => `${entry.id}(${a.join(', ')})`;
        value = wrap(entry.id, arity);
        break;
      case 'def': {
        const d = entry.def;
        if (d.skip) throw new AnttError(`${x.where}: ${x.name} computes with ${d.name}, which is ${d.skip}`);
        arity = d.arity;
        call = (a) => `${this.js(d)}(${a.join(', ')})`;
        value = wrap(this.js(d), arity);
        break;
      }
      case 'lib': {
        arity = LIBRARY[entry.name][0];
        const name = JSON.stringify(entry.name);
        call = (a) => {
          switch (entry.name) {
            case 'cond':
            case 'if◌then◌else◌':
              return `(${a[0]} ? ${a[1]} : ${a[2]})`;
            case '◌&&◌':
              return `(${a[0]} && ${a[1]})`;
            case '◌||◌':
              return `(${a[0]} || ${a[1]})`;
            case 'not':
              return `!${a[0]}`;
            case 'nat_eq':
              return `(${a[0]} === ${a[1]})`;
            case '◌∷◌':
              return `new Cons(${a[0]}, ${a[1]})`;
            default:
              return `L[${name}](${a.join(', ')})`;
          }
        };
        value = arity === 1 ? `L[${name}]` : `curry(${arity}, L[${name}])`;
        break;
      }
      case 'constant':
        return this.over(CONSTANTS[entry.name], args);
      case 'con': {
        const k = this.con(entry.con);
        arity = entry.con.arity;
        if (arity === 0) return this.over(`C[${k}].constant`, args);
        call = (a) => x.rebuilt?.find((r) => r.con === entry.con && r.args === a.join(', '))?.value ?? `new Data(C[${k}], [${a.join(', ')}])`;
        value = `curry(${arity}, (...a) => new Data(C[${k}], a))`;
        break;
      }
      default:
        throw new AnttError(`${x.where}: ${shown} (${entry.k} ${entry.name ?? ''}) has no value, in ${x.name}`);
    }
    if (args.length === 0) return value;
    if (args.length >= arity) return this.over(call(args.slice(0, arity)), args.slice(arity));
    return this.over(
      arity === 1
        ? value
        : `curry(${arity}, ${entry.k === 'con' ? `(...a) => new Data(C[${this.con(entry.con)}], a)` : entry.k === 'lib' ? `L[${JSON.stringify(entry.name)}]` : entry.k === 'def' ? this.js(entry.def) : entry.id})`,
      args
    );
  }
  over(f, args) {
    return args.reduce((s, a) => `${s}(${a})`, f);
  }

  expr(e, x) {
    switch (e.k) {
      case 'number':
        return String(e.v);
      case 'string':
        return JSON.stringify(e.v);
      case 'name': {
        const { entry, fields } = this.lookup(e, x);
        return this.applyEntry(entry, fields, [], x, e.path.join('.'));
      }
      case 'apply': {
        const args = e.args.map((a) => this.expr(a, x));
        if (e.f.k === 'name') {
          const { entry, fields } = this.lookup(e.f, x);
          return this.applyEntry(entry, fields, args, x, e.f.path.join('.'));
        }
        return this.over(`(${this.expr(e.f, x)})`, args);
      }
      case 'tuple':
        return `[${e.parts.map((p) => this.expr(p, x)).join(', ')}]`;
      case 'field':
        return this.fields(`(${this.expr(e.e, x)})`, [String(e.f)]);
      case 'record':
        return `({ ${e.base === null ? '' : `...${this.expr(e.base, x)}, `}${e.fields.map(([f, v]) => `${JSON.stringify(f)}: ${this.expr(v, x)}`).join(', ')} })`;
      case 'lambda': {
        const y = { ...x, locals: new Map(x.locals) };
        let open = '';
        let close = '';
        for (const p of e.names) {
          const id = 'p' + this.n++;
          const tests = [];
          const binds = [];
          this.pattern(p, id, tests, binds, y);
          if (tests.length > 0) throw new AnttError(`${x.where}: a λ that matches`);
          open += `((${id}) => { ${binds.join('')}return `;
          close = '; })' + close;
        }
        return open + this.expr(e.body, y) + close;
      }
      case 'let': {
        const y = { ...x, locals: new Map(x.locals) };
        const id = 'p' + this.n++;
        const tests = [];
        const binds = [];
        const value = this.expr(e.value, x);
        this.pattern(e.pattern, id, tests, binds, y);
        if (tests.length > 0) throw new AnttError(`${x.where}: a let that matches`);
        return `((${id}) => { ${binds.join('')}return ${this.expr(e.body, y)}; })(${value})`;
      }
      case 'elim': {
        const id = 'p' + this.n++;
        const arms = e.cases.map(([p, body]) => {
          const y = { ...x, locals: new Map(x.locals) };
          const tests = [];
          const binds = [];
          this.pattern(p, id, tests, binds, y);
          return `if (${tests.join(' && ') || 'true'}) { ${binds.join('')}return ${this.expr(body, y)}; }`;
        });
        return `((${id}) => { ${arms.join(' ')} return fail('elim'); })(${this.expr(e.e, x)})`;
      }
      default:
        throw new AnttError(`${x.where}: unknown form ${e.k}`);
    }
  }

  // ---- using
  // A definition or constructor by its name; `module` (its last part) and `crate` where several have it.
  find(name, module, crate) {
    const hits = [];
    for (const m of this.modules.values()) {
      if (module !== undefined && m.name.split('.').pop() !== module) continue;
      if (crate !== undefined && m.name.split('.')[1] !== crate) continue;
      const e = m.exports.get(name);
      if (e !== undefined && (e.k === 'con' || (e.k === 'def' && !e.def.skip))) hits.push(e);
    }
    const where = (module === undefined ? '' : ' in ' + module) + (crate === undefined ? '' : ' of ' + crate);
    if (hits.length === 0) throw new AnttError(`the definitions have no ${name}${where}`);
    if (hits.length > 1) throw new AnttError(`several definitions have the name ${name}${where}; give module and crate`);
    return hits[0];
  }
  fn(name, module, crate) {
    const e = this.find(name, module, crate);
    if (e.k === 'con') return (...a) => e.con.make(...a);
    return e.def.arity === 0 ? e.def.run() : e.def.run;
  }
  variant(type, name) {
    for (const [key, variants] of this.enums)
      if (key.endsWith('.' + type)) {
        const c = variants.get(name);
        if (c) return c.constant;
      }
    throw new AnttError(`no variant ${type}::${name}`);
  }
  runExamples() {
    const bad = [];
    for (const d of this.examples) {
      let pair;
      try {
        pair = this.compiled['e' + d.id]();
      } catch (error) {
        bad.push([d.module.name + '.' + d.name, String(error.message)]);
        continue;
      }
      if (!equal(pair[0], pair[1])) bad.push([d.module.name + '.' + d.name, `${show(pair[0])} is not ${show(pair[1])}`]);
    }
    return { count: this.examples.length, bad };
  }
}

function curry(n, f) {
  if (n === 0) return f();
  if (n === 1) return (a) => f(a);
  if (n === 2) return (a) => (b) => f(a, b);
  if (n === 3) return (a) => (b) => (c) => f(a, b, c);
  const more = (got) => (a) => {
    const all = [...got, a];
    return all.length === n ? f(...all) : more(all);
  };
  return more([]);
}

// Results by the tree itself (identity) and by what the other arguments say.
function keyOf(v) {
  if (v === null) return '~';
  if (typeof v !== 'object') return String(v);
  if (v instanceof Data) {
    if (v.a.length === 0) return v.$.name;
    if (v.key === undefined) v.key = '(' + v.$.name + ' ' + v.a.map(keyOf).join(' ') + ')';
    return v.key;
  }
  throw new AnttError('no key for ' + show(v));
}
let memoCount = 0;
function memo(arity, types, f) {
  const me = memoCount++;
  const tree = types.indexOf('Tree');
  const others = types.map((_, i) => i).filter((i) => i !== tree);
  const trees = others.filter((i) => types[i] === 'Tree');
  if (trees.length > 0) return f;
  return function (...args) {
    const n = args[tree];
    if (n.memo === undefined) n.memo = new Map();
    let key = me;
    for (const i of others) key += ' ' + keyOf(args[i]);
    let v = n.memo.get(key);
    if (v === undefined) {
      v = f(...args);
      n.memo.set(key, v);
    }
    return v;
  };
}

function load(folders, overrides = {}) {
  const spec = new Spec();
  spec.overrides = overrides; // name -> {module, run}: run instead of the definition
  try {
    for (const f of folders) spec.addFolder(f);
    spec.readModules();
    spec.compile();
  } catch (error) {
    if (error instanceof AnttError) error.message += '\n' + HINT;
    throw error;
  }
  return spec;
}

module.exports = { load, Spec, Reader, LIBRARY, memo, curry, append, AnttError, Cons, Data, toArray, fromArray, bytes, codes, text, show, equal, keyOf };

if (require.main === module) {
  const spec = load(process.argv.slice(2));
  const { count, bad } = spec.runExamples();
  console.log(`${spec.modules.size} modules, ${count} examples, ${bad.length} bad; not run: ${spec.skipped.length - count} types and statements`);
  for (const [name, what] of bad) console.log(name, what);
}
