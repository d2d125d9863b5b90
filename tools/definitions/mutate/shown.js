'use strict';
// Expressions and patterns of the definitions as text, in short.

const LONGEST = 140;
// where it stands: as a whole, at the side of an operator, as an argument
const WHOLE = 0,
  SIDE = 1,
  ARGUMENT = 2;
const operatorOf = (path) => /^◌(.+)◌$/.exec(path[0])?.[1] ?? null;
const inPairs = (text, isNeeded) => (isNeeded ? `(${text})` : text);

// `a ∷ b ∷ c` has no pairs, nor has any other operator at the right side of itself
function joined(operator, [left, right], place) {
  const isChain = right.k === 'apply' && right.f.k === 'name' && operatorOf(right.f.path) === operator;
  return inPairs(`${shown(left, SIDE)} ${operator} ${shown(right, isChain ? WHOLE : SIDE)}`, place !== WHOLE);
}
function applied(e, place) {
  const operator = e.f.k === 'name' ? operatorOf(e.f.path) : null;
  return operator === null ? inPairs([e.f, ...e.args].map((it) => shown(it, ARGUMENT)).join(' '), place === ARGUMENT) : joined(operator, e.args, place);
}
function constructed(p, place) {
  const operator = operatorOf(p.path);
  return operator === null
    ? inPairs([p.path.join('.'), ...p.args.map((it) => shown(it, ARGUMENT))].join(' '), place === ARGUMENT)
    : joined(operator, p.args, place);
}
const inTuple = (e) => `(${e.parts.map((it) => shown(it)).join(', ')})`;
const FORMS = {
  any: () => '_',
  pname: (e) => e.path.join('.'),
  con: constructed,
  ptuple: inTuple,
  entry: (e) => e.shown,
  number: (e) => (e.v > 255 ? `0x${e.v.toString(16).toUpperCase()}` : String(e.v)),
  string: (e) => JSON.stringify(e.v),
  name: (e) => e.path.join('.'),
  apply: applied,
  tuple: inTuple,
  field: (e) => `${shown(e.e, ARGUMENT)}.${e.f}`,
  record: (e, place) =>
    inPairs(
      `record ${e.base === null ? '' : `${shown(e.base, ARGUMENT)} `}{ ${e.fields.map(([name, value]) => `${name} = ${shown(value)}`).join('; ')} }`,
      place === ARGUMENT
    ),
  lambda: (e, place) => inPairs(`λ ${e.names.map((it) => shown(it, ARGUMENT)).join(' ')}. ${shown(e.body)}`, place !== WHOLE),
  let: (e, place) => inPairs(`let ${shown(e.pattern)} = ${shown(e.value)} in ${shown(e.body)}`, place !== WHOLE),
  elim: (e, place) => inPairs(`elim ${shown(e.e, ARGUMENT)} [${e.cases.map(([p, body]) => `${shown(p)} ↦ ${shown(body)}`).join(' | ')}]`, place !== WHOLE),
};
function shown(e, place = WHOLE) {
  return FORMS[e.k](e, place);
}
const shownAsArgument = (e) => shown(e, ARGUMENT);
// of a long text both ends
const short = (text) => (text.length <= LONGEST ? text : `${text.slice(0, LONGEST / 2)} .. ${text.slice(-LONGEST / 2)}`);

module.exports = { shown, shownAsArgument, short };
