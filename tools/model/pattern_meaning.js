'use strict';
// What the pattern of a RegExp literal says that it hardly means, of the literal's raw text. The pattern is one of the 13th edition without Annex B, as early errors see to.

// the characters of classes that stand side by side: a list for each class, begun anew by a class of characters and within a range
const WITH_U = /\\u\{[\da-f]+\}|\\ud[89ab][\da-f]{2}\\ud[c-f][\da-f]{2}|\\u[\da-f]{4}|\\x[\da-f]{2}|\\p\{[^}]*\}|\\c.|\\[^]|[^]/giu;
const WITHOUT_U = /\\u[\da-f]{4}|\\x[\da-f]{2}|\\c.|\\[^]|[^]/gi;
const CONTROLS = { b: 8, t: 9, n: 10, v: 11, f: 12, r: 13, 0: 0 };
function valueOf(atom) {
  if (/^\\[dDsSwW]$|^\\[pP]\{/.test(atom)) return null;
  if (/^\\u[^{].{3}\\u/.test(atom)) return JSON.parse(`"${atom}"`).codePointAt(0);
  if (/^\\[ux]./.test(atom)) return parseInt(atom.replace(/[\\ux{}]/g, ''), 16);
  if (/^\\c./.test(atom)) return atom.charCodeAt(2) % 32;
  if (atom[0] === '\\') return CONTROLS[atom[1]] ?? atom.codePointAt(1);
  return atom.codePointAt(0);
}
function runsOf(pattern, unicode) {
  const runs = [];
  for (const [klass] of pattern.matchAll(/\[(?:\\[^]|[^\]\\])*\]|\\[^]/g)) {
    if (klass[0] !== '[') continue;
    const atoms =
      klass
        .slice(1, -1)
        .replace(/^\^/, '')
        .match(unicode ? WITH_U : WITHOUT_U) ?? [];
    const run = () => runs[runs.length - 1];
    runs.push([]);
    for (let i = 0; i < atoms.length; i++) {
      const value = valueOf(atoms[i]);
      if (value === null) runs.push([]);
      else run().push(value);
      if (value === null || atoms[i + 1] !== '-' || i + 2 >= atoms.length) continue;
      runs.push([valueOf(atoms[i + 2])]);
      i += 2;
    }
  }
  return runs;
}

const isMark = (c) => /^\p{M}$/u.test(String.fromCodePoint(c));
const within = (from, to) => (c) => c >= from && c <= to;
const isLead = within(0xd800, 0xdbff);
const isTrail = within(0xdc00, 0xdfff);
const isTone = within(0x1f3fb, 0x1f3ff);
const isIndicator = within(0x1f1e6, 0x1f1ff);
const JOINER = 0x200d;
const areOne = (c, before, after) =>
  (isLead(before) && isTrail(c)) ||
  (isMark(c) && !isMark(before)) ||
  (isTone(c) && !isTone(before)) ||
  (isIndicator(c) && isIndicator(before)) ||
  (c === JOINER && before !== JOINER && after !== undefined && after !== JOINER);

const partsOf = (raw) => ({ pattern: raw.slice(1, raw.lastIndexOf('/')), unicode: raw.slice(raw.lastIndexOf('/')).includes('u') });

// whether in a class characters stand side by side that are seen as one
function hasMisleadingClass(raw) {
  const { pattern, unicode } = partsOf(raw);
  return runsOf(pattern, unicode).some((run) => run.some((c, i) => i > 0 && areOne(c, run[i - 1], run[i + 1])));
}

// the pieces that references ask for: {type, start, end, ..}; types: open (with kind and number), close, bar, reference
function piecesOf(pattern) {
  const pieces = [];
  let number = 0;
  for (let at = 0; at < pattern.length;) {
    const rest = pattern.slice(at);
    const klass = /^\[(?:\\[^]|[^\]\\])*\]/.exec(rest);
    const opening = /^\((?:\?(?:<?[=!]|:|<(?![=!])[^>]*>))?/.exec(rest);
    const digits = /^\\([1-9]\d*)/.exec(rest);
    const put = (length, piece) => {
      if (piece !== null) pieces.push({ start: at, end: at + length, ...piece });
      at += length;
    };
    if (klass !== null) put(klass[0].length, null);
    else if (opening !== null) {
      const kind = { '(?=': 'ahead', '(?!': 'notAhead', '(?<=': 'behind', '(?<!': 'notBehind', '(?:': 'plain' }[opening[0]] ?? 'group';
      put(opening[0].length, { type: 'open', kind, number: kind === 'group' ? (number += 1) : 0 });
    } else if (rest[0] === ')') put(1, { type: 'close' });
    else if (rest[0] === '|') put(1, { type: 'bar' });
    else if (digits !== null) put(digits[0].length, { type: 'reference', to: Number(digits[1]) });
    else put(rest[0] === '\\' ? 2 : 1, null);
  }
  return pieces;
}

// groups and references, each with its path: the frames that it stands in, from outside, each with the alternative in it
function pathsOf(pieces) {
  const groups = [];
  const references = [];
  const frames = [{ kind: 'plain', alternative: 0, id: 0 }];
  const path = () => frames.map((it) => ({ ...it }));
  let id = 0;
  for (const piece of pieces) {
    if (piece.type === 'open') {
      const own = { ...piece, path: path(), id: (id += 1) };
      if (piece.kind === 'group') groups.push(own);
      frames.push({ kind: piece.kind, alternative: 0, id: own.id, own });
    } else if (piece.type === 'close') {
      if (frames.length > 1) frames.pop().own.end = piece.end;
    } else if (piece.type === 'bar') frames[frames.length - 1].alternative += 1;
    else references.push({ ...piece, path: path() });
  }
  return { groups, references };
}

const isBehind = (frame) => /ehind/.test(frame.kind);
function isUseless(reference, group) {
  if (reference.path.some((frame) => frame.id === group.id)) return true;
  let common = 0;
  while (common < reference.path.length && common < group.path.length && reference.path[common].id === group.path[common].id) common += 1;
  const shared = reference.path.slice(0, common);
  if (reference.end <= group.start) return !shared.some(isBehind);
  const around = [...shared].reverse().find((frame) => /head|ehind/.test(frame.kind));
  if (around !== undefined && isBehind(around)) return true;
  return reference.path[common - 1].alternative !== group.path[common - 1].alternative || group.path.slice(common).some((frame) => /^not/.test(frame.kind));
}
// whether a reference by number matches nothing but the empty string
function hasUselessReference(raw) {
  const { groups, references } = pathsOf(piecesOf(partsOf(raw).pattern));
  return references.some((reference) => groups.some((group) => group.number === reference.to && isUseless(reference, group)));
}

module.exports = { hasMisleadingClass, hasUselessReference };
