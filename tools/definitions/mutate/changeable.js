'use strict';
// Definitions that can be changed one at a time and asked at once: all are compiled in one scope, in which a changed one takes the place of its own,
// so that what V8 has made of the others stays. And they say which clauses have run.
//
//   const definitions = new Changeable(folders)
//   definitions.ran(() => ..)     the numbers of the clauses that run meanwhile
//   definitions.plant(mutant)     puts a mutant in; answers what takes it out again. An AnttError where it doesn't compile.

const antt = require('../antt.js');

const LIB = Object.fromEntries(Object.entries(antt.LIBRARY).map(([name, [, run]]) => [name, run]));
const fail = (name) => {
  throw new antt.AnttError('no clause fits: ' + name);
};

// `node`, an expression or a pattern, is `other` while `work` runs
function inPlaceOf(node, other, work) {
  const kept = { ...node };
  const become = (it) => {
    for (const key of Object.keys(node)) delete node[key];
    Object.assign(node, it);
  };
  become(other);
  try {
    return work();
  } finally {
    become(kept);
  }
}
// all clauses of a definition, those of its helpers too
const clausesOf = (clauses) => clauses.flatMap((c) => [c, ...c.helpers.flatMap((h) => clausesOf(h.clauses))]);

class Changeable extends antt.Spec {
  constructor(folders) {
    super();
    this.overrides = {};
    for (const folder of folders) this.addFolder(folder);
    this.readModules();
    this.compile();
    this.all = [...this.modules.values()].flatMap((m) => m.definitions).filter((d) => !d.skip);
    const clauses = this.all.flatMap((d) => clausesOf(d.parsed));
    clauses.forEach((c, number) => {
      c.number = number;
      c.body.clause = number;
    });
    this.marks = new Uint8Array(clauses.length);
    this.connect();
  }
  // an entry stands for a name that its module may not have; the body of a clause marks that it runs
  expr(e, x) {
    if (e.k === 'entry') return this.applyEntry(e.entry, [], [], x, e.shown);
    const compiled = super.expr(e, x);
    return e.clause === undefined ? compiled : `(marks[${e.clause}] = 1, ${compiled})`;
  }
  pattern(p, value, tests, binds, x) {
    if (p.k === 'entry') this.constructorPattern(p.entry, [], p, value, tests, binds, x);
    else super.pattern(p, value, tests, binds, x);
  }

  connect() {
    this.texts = new Map(this.all.map((d) => [d, this.definition(d)]));
    const names = this.all.map((d) => this.js(d));
    const constants = this.all.filter((d) => d.arity === 0).map((d) => `s${this.js(d)} = 0;`);
    const source = [
      "'use strict';",
      ...[...this.texts.values()].map((it) => it.replace(/^const /, 'let ')),
      'function compiled(code) { return eval(code); }',
      `function forget() { ${constants.join(' ')} }`,
      `return { compiled, forget, ${names.map((name) => `get ${name}() { return ${name}; }`).join(', ')} };`,
    ].join('\n');
    // eslint-disable-next-line no-new-func
    this.live = new Function('C', 'L', 'Cons', 'Data', 'append', 'memo', 'fail', 'curry', 'count', 'marks', source)(
      this.cons,
      LIB,
      antt.Cons,
      antt.Data,
      antt.append,
      antt.memo,
      fail,
      antt.curry,
      () => {},
      this.marks
    );
    for (const d of this.all) d.run = this.live[this.js(d)];
  }
  // a definition is this text from now on, and what constants were is forgotten
  put(d, text) {
    const name = this.js(d);
    const own = d.arity === 0 ? `b${name}` : name;
    const from = text.startsWith('const ') ? text.indexOf('=') + 1 : text.indexOf(`function ${own}(`);
    this.live.compiled(`${own} = ${text.slice(from).replace(`function ${own}(`, () => 'function (')}`);
    this.live.forget();
    d.run = this.live[name];
  }
  plant({ d, node, other, dropped }) {
    const own = d.parsed;
    let text;
    if (dropped === undefined) text = inPlaceOf(node, other, () => this.definition(d));
    else
      try {
        d.parsed = own.filter((c) => c !== dropped);
        text = this.definition(d);
      } finally {
        d.parsed = own;
      }
    this.put(d, text);
    return () => this.put(d, this.texts.get(d));
  }
  ran(work) {
    this.live.forget();
    this.marks.fill(0);
    work();
    return [...this.marks.keys()].filter((number) => this.marks[number] === 1);
  }
}

module.exports = { Changeable, clausesOf };
