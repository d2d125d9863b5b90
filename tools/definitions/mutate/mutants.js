'use strict';
// All mutants of some definitions: each is one change of one clause (changes.js), or a clause left out.
// A mutant: {file, line, name, text} says what it is, and is its line in the list; {d, node, other} or {d, dropped} is what Changeable plants;
// `clauses` are the numbers of those of which one has to run so that it matters.

const fs = require('node:fs');
const path = require('node:path');
const { clausesOf } = require('./changeable.js');
const { changesOf, changesOfPattern, changesOfBody } = require('./changes.js');
const { shown, shownAsArgument, short } = require('./shown.js');

const CRATES = path.join(__dirname, '../../../crates');
// the types of the arguments of what trees are made of
const ARGUMENTS = { node: ['Kind', 'List ℕ', 'Flags', 'ℕ', 'ℕ', 'Parts'], part: ['Tree', 'Parts'], gap: ['Parts'] };

// ---------------------------------------------------------------- records and variables

// the fields of each record, with their types
function fieldsOf(spec) {
  const structs = [...spec.records.values()].map((body) => [...body.matchAll(/(\w+)\s*:\s*([^,\n]+)/g)]);
  const records = [...spec.modules.values()]
    .flatMap((m) => fs.readFileSync(m.file, 'utf8').match(/^(?:pub )?record [^]*?(?=\n\S|$(?![^]))/gm) ?? [])
    .map((it) => [...it.matchAll(/^ +(?:pub )?(\w+) : (.*)$/gm)]);
  return [...records, ...structs].map((fields) => new Map(fields.map(([, name, type]) => [name, type.trim()])));
}
const isVariable = (spec, d, p) => p.k === 'pname' && p.path.length === 1 && !['con', 'constant'].includes(spec.resolve(d.module, p.path, d.where)?.k);
const inner = (p) => p.args ?? p.parts ?? [];
function typesInside(p, type) {
  if (p.k === 'con' && ARGUMENTS[p.path[0]] !== undefined) return ARGUMENTS[p.path[0]];
  if (p.k !== 'con' || p.path[0] !== '◌∷◌' || type === null) return inner(p).map(() => null);
  return [type.replace(/^List /, '').replace(/^\( (.*) \)$/, '$1'), type];
}
// the variables of a pattern with their types
function bind(spec, d, p, type, locals) {
  if (isVariable(spec, d, p)) locals.set(p.path[0], type);
  const types = typesInside(p, type);
  inner(p).forEach((it, i) => bind(spec, d, it, types[i] ?? null, locals));
}

// ---------------------------------------------------------------- walking

const bound = (at, patterns) => {
  const locals = new Map(at.locals);
  for (const p of patterns) bind(at.spec, at.d, p, null, locals);
  return { ...at, locals };
};
const INNER = {
  apply: (e, at) => [e.f, ...e.args].map((it) => [it, at]),
  tuple: (e, at) => e.parts.map((it) => [it, at]),
  field: (e, at) => [[e.e, at]],
  record: (e, at) => [...(e.base === null ? [] : [[e.base, at]]), ...e.fields.map(([field, value]) => [value, { ...at, field }])],
  lambda: (e, at) => [[e.body, bound(at, e.names)]],
  let: (e, at) => [
    [e.value, at],
    [e.body, bound(at, [e.pattern])],
  ],
  elim: (e, at) => [[e.e, at], ...e.cases.map(([p, body]) => [body, bound(at, [p])])],
};
// the line where an expression begins, as far as its tokens say it
const lineOf = (e) =>
  e.no ??
  [e.f, e.e, e.base, e.body, ...inner(e)]
    .filter((it) => it?.k !== undefined)
    .map(lineOf)
    .filter((it) => it !== undefined)
    .sort((a, b) => a - b)[0];

// the changes of an expression and in it; those of a field's value say which
function inExpression(e, { field, ...at }) {
  const own = changesOf(e, at).map((it) => (field === undefined ? it : { ...it, text: `${field} = ${it.text}` }));
  return [...own, ...(INNER[e.k]?.(e, at) ?? []).flatMap(([it, where]) => inExpression(it, where))];
}
const inPattern = (p, at) => [...changesOfPattern(p, at), ...inner(p).flatMap((it) => inPattern(it, at))];

// Whether a pattern takes all that another takes.
function covers(spec, d, q, p) {
  if (q.k === 'any' || isVariable(spec, d, q)) return true;
  return q.k === p.k &&
    (q.path ?? []).join() === (p.path ?? []).join() &&
    inner(q).length === inner(p).length &&
    inner(q).every((it, i) => covers(spec, d, it, inner(p)[i]));
}

// ---------------------------------------------------------------- mutants

// those of one clause among its own, of a definition or a helper of it
function ofClause(clause, clauses, at, name) {
  const { spec, d } = at,
    locals = new Map(at.locals);
  const types = clauses === d.parsed ? d.signature.args : [];
  clause.patterns.forEach((p, i) => bind(spec, d, p, types[i] ?? null, locals));
  for (const h of clause.helpers) locals.set(h.name, null);
  const here = { ...at, locals };
  const head = [name, ...clause.patterns.map(shownAsArgument)].join(' ');
  const put = (clausesRun) => (change) => ({ d, file: at.file, name: head, line: lineOf(change.node) ?? clause.no, clauses: clausesRun, ...change });
  return [
    ...clause.patterns.flatMap((p) => inPattern(p, here)).map(put(clauses.map((c) => c.number))),
    ...[...(clauses === d.parsed ? changesOfBody(clause.body, d.signature.result) : []), ...inExpression(clause.body, here)].map(put([clause.number])),
    ...clause.helpers.flatMap((h) => h.clauses.flatMap((c) => ofClause(c, h.clauses, here, `${name}, ${h.name}`))),
  ];
}
// a clause left out, where later ones take what it took
function leftOut(d, file, spec) {
  const isCovered = (c, i) => d.parsed.slice(i + 1).some((later) => later.patterns.every((q, k) => covers(spec, d, q, c.patterns[k])));
  return d.parsed
    .filter(isCovered)
    .map((c) => ({
      d,
      file,
      line: c.no,
      what: 'clause left out',
      text: shown(c.body),
      dropped: c,
      clauses: clausesOf([c]).map((it) => it.number),
      name: [d.name, ...c.patterns.map(shownAsArgument)].join(' '),
    }));
}
// Two that would have one name get numbers.
function withNames(mutants) {
  const seen = new Map();
  return mutants.map((mutant) => {
    const whole = `${mutant.what}: ${short(mutant.text)}`;
    const key = [mutant.file, mutant.name, whole].join('\t'),
      count = (seen.get(key) ?? 0) + 1;
    seen.set(key, count);
    const text = count === 1 ? whole : `${whole} (${count})`;
    return { ...mutant, text, key: [mutant.file, mutant.name, text].join('\t') };
  });
}
// all mutants of these files: paths below crates/
function mutantsOf(spec, files) {
  spec.recordFields = fieldsOf(spec);
  const fileOf = (d) => path.relative(CRATES, d.module.file);
  const mine = spec.all.filter((d) => files.includes(fileOf(d)));
  return withNames(
    mine.flatMap((d) => {
      const at = { spec, d, module: d.module, file: fileOf(d), locals: new Map() };
      return [...leftOut(d, at.file, spec), ...d.parsed.flatMap((c) => ofClause(c, d.parsed, at, d.name))];
    })
  );
}

module.exports = { mutantsOf };
