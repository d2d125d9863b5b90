'use strict';
// The single small changes of an expression or a pattern: of each what it is, and what stands there in its place.
// `at` is where it stands: {spec, module, d, locals}, `locals` the variables with their types as the signature has them, null where it doesn't say.

const { shown } = require('./shown.js');

const LISTS_OF_NAMES = new Set(['is', 'codes']);
const called = (name, ...args) => ({ k: 'apply', f: { k: 'name', path: [name] }, args });
const named = (e, name) => e.k === 'name' && e.path.length === 1 && e.path[0] === name;
const change = (node, what, other) => ({ node, what, other, text: `${shown(node)} → ${shown(other)}` });

// the one behind it in a list, or the first
const next = (list, it) => list[(list.indexOf(it) + 1) % list.length];

// ---------------------------------------------------------------- names

// the constructors of a type that have no arguments, in their order
function constructorsLike(spec, module, con) {
  for (const variants of spec.enums.values()) if ([...variants.values()].includes(con)) return [...variants.values()].filter((it) => it.arity === 0);
  const exported = [module, ...spec.modules.values()]
    .flatMap((m) => [...m.exports.values()])
    .filter((e) => e.k === 'con' && e.con.module === con.module && e.con.type === con.type && e.con.arity === 0);
  return [...new Set(exported.map((e) => e.con))];
}
function otherConstructor(node, { spec, module }, { con, type }) {
  const other = next(constructorsLike(spec, module, con), con);
  return other === undefined || other === con ? [] : [change(node, 'constructor', { k: 'entry', entry: { k: 'con', con: other, type }, shown: other.name })];
}
const typeOf = ({ signature }) => [...signature.args, signature.result].join(' → ');
// a function for another of its module and type
function otherFunction(node, { d }, own) {
  if (own.skip || own.arity === 0) return [];
  const alike = own.module.definitions.filter((it) => it === own || (it !== d && !it.skip && it.arity === own.arity && typeOf(it) === typeOf(own)));
  const other = next(alike, own);
  return other === own ? [] : [change(node, 'function', { k: 'entry', entry: { k: 'def', def: other }, shown: other.name })];
}
function otherVariable(node, { locals }) {
  const type = locals.get(node.path[0]);
  const alike = [...locals].filter(([, it]) => it !== null && it === type).map(([name]) => name);
  return alike.length < 2 ? [] : [change(node, 'variable', { k: 'name', path: [next(alike, node.path[0])], no: node.no })];
}
// a field for another of its type and record
function otherField(node, { spec }) {
  const [name, field] = node.path;
  const fields = spec.recordFields.find((it) => it.has(field));
  if (fields === undefined) return [];
  const alike = [...fields].filter(([, type]) => type === fields.get(field)).map(([it]) => it);
  return alike.length < 2 ? [] : [change(node, 'field', { k: 'name', path: [name, next(alike, field)], no: node.no })];
}
function ofName(node, at) {
  const { spec, module, d, locals } = at,
    [first] = node.path;
  if (named(node, 'true') || named(node, 'false')) return [change(node, 'truth', { k: 'name', path: [String(first !== 'true')], no: node.no })];
  if (locals.has(first)) return node.path.length === 1 ? otherVariable(node, at) : node.path.length === 2 ? otherField(node, at) : [];
  const entry = spec.resolve(module, node.path, d.where);
  if (entry?.k === 'con' && entry.con.arity === 0) return otherConstructor(node, at, entry);
  return entry?.k === 'def' ? otherFunction(node, at, entry.def) : [];
}

// ---------------------------------------------------------------- applications

const CONNECTIVES = { '◌&&◌': '◌||◌', '◌||◌': '◌&&◌' };
const APPLIED = {
  connective: (node, [a, b], name) => [
    change(node, '&& and ||', called(CONNECTIVES[name], a, b)),
    change(node, 'condition left out', b),
    change(node, 'condition left out', a),
  ],
  not: (node, [a]) => [change(node, 'not left out', a)],
  cond: (node, [test, a, b]) => [
    change(node, 'turned round', called('cond', called('not', test), a, b)),
    change(node, 'always the first', a),
    change(node, 'always the second', b),
  ],
  '◌∷◌': (node, [item, rest]) => [{ node, what: 'item left out', other: rest, text: shown(item) }],
  '◌++◌': (node, [a, b]) => [change(node, 'list left out', b), change(node, 'list left out', a)],
};
const WANTED = { not: 1, cond: 3 };
// the first two arguments exchanged, where they are of one type
function exchanged(node, { spec, module, d, locals }) {
  const [a, b, ...more] = node.args;
  if (node.f.k !== 'name' || b === undefined || locals.has(node.f.path[0])) return [];
  const types = spec.resolve(module, node.f.path, d.where)?.def?.signature?.args;
  return types === undefined || types[0] !== types[1] || shown(a) === shown(b)
    ? []
    : [change(node, 'arguments', { ...node, args: [b, a, ...more], clause: undefined })];
}
function ofApplication(node, at) {
  const name = node.f.k === 'name' ? node.f.path[0] : '';
  if (Object.hasOwn(CONNECTIVES, name)) return APPLIED.connective(node, node.args, name);
  const special = name === 'if◌then◌else◌' ? 'cond' : name;
  if (Object.hasOwn(APPLIED, special) && node.args.length >= (WANTED[special] ?? 2)) return APPLIED[special](node, node.args);
  const words = LISTS_OF_NAMES.has(name) ? node.args.filter((it) => it.k === 'string').map((it) => change(it, 'word', { ...it, v: it.v + '_' })) : [];
  return [...words, ...exchanged(node, at)];
}

// ---------------------------------------------------------------- all forms

const numbers = (node) => [node.v + 1, node.v - 1].filter((v) => v >= 0).map((v) => change(node, 'number', { ...node, v }));
function ofRecord(node) {
  if (node.base === null) return [];
  return node.fields.map((field) => ({
    node,
    what: 'field left out',
    other: { ...node, fields: node.fields.filter((it) => it !== field) },
    text: `${shown(node)} → without ${field[0]}`,
  }));
}
const FORMS = { number: numbers, name: ofName, apply: ofApplication, record: ofRecord };
const changesOf = (node, at) => FORMS[node.k]?.(node, at) ?? [];

// of a constructor that stands in a pattern
function changesOfPattern(node, at) {
  const entry = node.k === 'pname' ? at.spec.resolve(at.module, node.path, at.d.where) : undefined;
  return entry?.k === 'con' && entry.con.arity === 0 ? otherConstructor(node, at, entry).map((it) => ({ ...it, what: 'pattern' })) : [];
}
// of a whole body
function changesOfBody(node, result) {
  if (result === 'Bool' && node.k !== 'name') return ['true', 'false'].map((it) => change(node, `always ${it}`, { k: 'name', path: [it] }));
  return /^List\b/.test(result) && !named(node, '[]') ? [change(node, 'always []', { k: 'name', path: ['[]'] })] : [];
}

module.exports = { changesOf, changesOfPattern, changesOfBody };
