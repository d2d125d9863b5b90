'use strict';
// Tokens at places (IsTokenAt of crate tokens) by a search over its parts, against scan.js of the
// model for each goal; values of strings and templates against stringValue and templateValue.

const path = require('path');
const antt = require('./antt.js');
const { PLAIN_MODEL } = require('./model.js');
const { PUNCTUATORS } = require(path.join(PLAIN_MODEL, 'operators.js'));
const { GOAL, makeSource, scan, stringValue, templateValue, lineColumn } = require(path.join(PLAIN_MODEL, 'scan.js'));

const points = (text) => [...text].map((c) => c.codePointAt(0));
const units = (text) => Array.from({ length: text.length }, (_, i) => text.charCodeAt(i));
const show = (cs) => JSON.stringify(String.fromCodePoint(...cs));
const WORD = {
  name: 'IdentifierName',
  punctuator: 'Punctuator',
  number: 'NumericLiteral',
  string: 'StringLiteral',
  template: 'Template',
  regexp: 'RegularExpressionLiteral',
  private: 'PrivateName',
  end: 'End',
};
const yes = (o) => (o.$.name === 'None' ? null : antt.toArray(o.a[0]));

// [{what, detail}] of one text; `info` counts
function compareReading(m, text, info) {
  const out = [];
  const cs = points(text);
  const n = cs.length;
  const say = (what, detail) => out.push({ what, detail });
  const list = (i, j) => antt.fromArray(cs.slice(i, j));
  const rests = Array.from({ length: n + 1 }, (_, i) => list(i, n));
  const indexOf = [0];
  for (let i = 0; i < n; i++) indexOf.push(indexOf[i] + (cs[i] > 0xffff ? 2 : 1));
  const byteOf = [0];
  for (let i = 0; i < n; i++) byteOf.push(byteOf[i] + m.size(list(i, i + 1)));
  const source = makeSource(text);
  // tokens of any goal whose text begins at i: [{class, end}]
  const words = new Map();
  const at = (i) => {
    if (words.has(i)) return words.get(i);
    const found = [];
    words.set(i, found);
    if (m.begins_comment(rests[i])) return found;
    for (const c of Object.values(m.classes)) {
      for (let j = i; j <= n; j++) if (m.token_at(c, list(i, j), rests[j])) found.push({ class: c, end: j });
    }
    return found;
  };
  // where all that stands from i on may be separators
  const blanks = new Map();
  const reach = (i) => {
    if (blanks.has(i)) return blanks.get(i);
    const to = new Set([i]);
    if (i < n) {
      if (m.is_white_space(cs[i]) || m.is_line_terminator(cs[i])) for (const j of reach(i + 1)) to.add(j);
      for (let j = i + 1; j <= n; j++) if (m.is_comment(list(i, j), rests[j])) for (const k of reach(j)) to.add(k);
    }
    blanks.set(i, to);
    return to;
  };
  for (let i = 0; i <= n; i++) {
    for (const goal of Object.keys(m.goals)) {
      const ours = [];
      for (const j of reach(i)) {
        for (const t of at(j)) {
          const w = list(j, t.end);
          if (!m.allows(m.goals[goal], t.class, w)) continue;
          const broken = cs.slice(i, j).some((c) => m.is_line_terminator(c));
          ours.push(`${t.class.$.name} ${show(cs.slice(j, t.end))} ${byteOf[j]}-${byteOf[t.end]} ${broken}`);
        }
      }
      const t = scan(text, indexOf[i], GOAL[goal], i === 0 && text.startsWith('#!') ? 2021 : 2022);
      const theirs = t.cls === 'fault' ? [] : [`${WORD[t.cls]} ${JSON.stringify(t.text)} ${source.byteAt(t.start)}-${source.byteAt(t.end)} ${t.afterBreak}`];
      info.count('tokens looked for (place and goal)');
      if (theirs.length > 0) info.count(`tokens read: ${WORD[t.cls]}`);
      if (ours.join('\n') !== theirs.join('\n')) say(`token, goal ${goal}`, `at ${i}: definitions [${ours.join('] [')}], model [${theirs.join('')}]`);
      if (t.cls === 'string' || t.cls === 'template') out.push(...compareValues(m, t, info));
    }
    const place = lineColumn(text, byteOf[i]);
    const mine = m.line_column(antt.bytes(text), byteOf[i]);
    if (mine[0] !== place.line || mine[1] !== place.column)
      say('line and column', `at byte ${byteOf[i]}: definitions ${mine}, model ${place.line},${place.column}`);
  }
  return out;
}
function compareValues(m, t, info) {
  if (t.cls === 'template') return compareTemplate(m, t.text.slice(1, t.text.endsWith('${') ? -2 : -1), info);
  const out = [];
  info.count('values of strings');
  const want = units(stringValue(t.text)).join(' ');
  const ours = antt.toArray(m.string_units(antt.fromArray(points(t.text)))).join(' ');
  if (ours !== want) out.push({ what: 'value of a string', detail: `${JSON.stringify(t.text)}: definitions ${ours}, model ${want}` });
  const bytes = antt.toArray(m.literal_units(antt.bytes(t.text))).join(' ');
  if (bytes !== want) out.push({ what: 'value of a string in UTF-8', detail: `${JSON.stringify(t.text)}: definitions ${bytes}, model ${want}` });
  return out;
}
function compareTemplate(m, characters, info) {
  const out = [];
  info.count('values of template parts');
  const { raw, cooked } = templateValue(characters);
  const cs = antt.fromArray(points(characters));
  const ours = antt.toArray(m.raw_value(cs)).join(' ');
  if (ours !== points(raw).join(' '))
    out.push({ what: 'raw value', detail: `${JSON.stringify(characters)}: definitions ${ours}, model ${points(raw).join(' ')}` });
  const mine = yes(m.cooked_value(cs));
  const want = cooked === null ? null : units(cooked);
  if (String(mine === null ? 'none' : mine.join(' ')) !== String(want === null ? 'none' : want.join(' ')))
    out.push({ what: 'cooked value', detail: `${JSON.stringify(characters)}: definitions ${mine}, model ${want}` });
  if (m.cooks(antt.bytes(raw)) !== (cooked !== null)) out.push({ what: 'whether a part cooks', detail: JSON.stringify(characters) });
  return out;
}

const CHARACTERS = [
  '0',
  '1',
  '7',
  '9',
  '.',
  'e',
  'E',
  '+',
  '-',
  'x',
  'X',
  'o',
  'b',
  'n',
  '_',
  'a',
  'f',
  '/',
  '*',
  '=',
  '>',
  '<',
  '?',
  '!',
  '&',
  '|',
  '$',
  ' ',
  '\n',
  '\r',
  '\u2028',
  '\u2029',
  '\u00a0',
  '\ufeff',
  '\u200c',
  '\u200d',
  'é',
  '𝒜',
  '²',
  '\u180e',
  '\u0085',
  '(',
  ')',
  '[',
  ']',
  '{',
  '}',
  ';',
  ',',
  ':',
  '%',
  '^',
  '~',
  '@',
  '#',
  '\\',
  '0x',
  '1.',
  '..',
  '?.',
  '//',
  '/*',
  '*/',
  '>>>',
  '**',
  '\t',
  '\v',
  '\f',
  '\u1680',
  '\u2000',
  '\u200a',
  '\u200b',
  '\u202f',
  '\u205f',
  '\u3000',
  '\u0301',
  '℘',
  '゛',
  '=>',
  '\r\n',
];
const QUOTED = [
  "'",
  '"',
  "'",
  '"',
  '\\',
  '\\',
  '\\x4',
  '\\x4f',
  '\\u',
  '\\u{',
  '\\u{63}',
  '\\u{10FFFF}',
  '\\u{110000}',
  '\\u{}',
  '\\u0063',
  '\\uD83D',
  '\\00',
  '\\0',
  '\\8',
  '1',
  '0',
  'c',
  '}',
  '\n',
  '\r',
  '\r\n',
  '\\\r\n',
  '\u2028',
  '\u2029',
  '\\\u2028',
  '😀',
  'é',
  '\\😀',
  '\\b',
  '\\t',
  '\\n',
  '\\v',
  '\\f',
  '\\r',
  '\\z',
  'g',
  'a',
  '//',
  '/*',
  '$',
  ' ',
];
const TEMPLATES = [
  '`',
  '`',
  '}',
  '}',
  '$',
  '{',
  '${',
  '\\`',
  '\\',
  '\\$',
  '$$',
  '\n',
  '\r',
  '\r\n',
  '\\\r\n',
  '\\u',
  '\\u{',
  '\\u{63}',
  '\\u{110000}',
  '\\x6',
  '\\x61',
  '\\0',
  '\\01',
  '\\1',
  'a',
  '0',
  "'",
  '/',
  '//',
  '/*',
  '\u2028',
  '😀',
  'é',
  ' ',
];
const REGEXPS = [
  '/',
  '/',
  '/',
  '[',
  ']',
  '\\',
  '\\/',
  '\\[',
  '\\]',
  '*',
  '=',
  'a',
  'g',
  'u',
  '1',
  '$',
  '_',
  '\u200d',
  '\n',
  '\r',
  '\u2028',
  '\\\n',
  '😀',
  '\\😀',
  '(',
  ')',
  '+',
  ' ',
  '//',
  '[/]',
  'é',
  '}',
  '{',
];
const COMMENTS = ['/*', '/*', '*/', '*/', '*', '/', '//', '\n', '\r', '\r\n', '\u2028', '\u2029', 'a', '1', ' ', '\u205f', '**', '}', '`', '=', "'"];
// A random text for tokens.
function randomText(random) {
  const from = random.pick([CHARACTERS, CHARACTERS, QUOTED, TEMPLATES, REGEXPS, COMMENTS]);
  const some = Array.from({ length: 3 + random.below(5) }, () => random.pick(from));
  const opening =
    from === QUOTED
      ? random.pick(["'", '"', ''])
      : from === TEMPLATES
      ? random.pick(['`', '}', ''])
      : from === REGEXPS
      ? random.pick(['/', '/a', '/[', ''])
      : '';
  const body = Array.from({ length: 1 + random.below(7) }, () => random.pick(random.chance(60) ? some : random.chance(80) ? from : CHARACTERS)).join('');
  const closing =
    from === QUOTED
      ? random.pick([opening, opening, ''])
      : from === TEMPLATES
      ? random.pick(['`', '${', ''])
      : from === REGEXPS
      ? random.pick(['/', '/g', ']/', ''])
      : '';
  return opening + body + closing;
}
// Every character up to a bound, characters beside each other, punctuators (the model's and the definitions'), numbers, and pairs of pieces inside regular expressions,
// strings, templates and comments.
function allTexts(m) {
  const out = [];
  for (let c = 0; c < 0x3100; c++) out.push(`a${String.fromCodePoint(c)}1`);
  for (const a of CHARACTERS) for (const b of CHARACTERS) out.push(a + b);
  for (const p of new Set([...PUNCTUATORS, ...antt.toArray(m.punctuators)])) {
    for (const b of ['', '=', '.', '1', 'a', '>', '?', '/', '*', '&', '|', '+', '-', '<', '!', '..', '.1', '>=', "'", '`', '}']) out.push(p + b);
  }
  for (const a of [
    '0',
    '1',
    '9',
    '10',
    '01',
    '0.',
    '0.5',
    '.5',
    '5.',
    '1e',
    '1e1',
    '1e+',
    '1E-1',
    '0x',
    '0xF',
    '0XfFn',
    '0o7',
    '0O8',
    '0b1',
    '0B2',
    '0b',
    '0o',
    '1n',
    '0n',
    '1.n',
    '1e1n',
    '1_0',
    '1__0',
    '1_',
    '0_1',
    '1_0.0_1',
    '1_.0',
    '1._0',
    '.0_1',
    '._1',
    '1e1_0',
    '1e_1',
    '1_e1',
    '1e1_',
    '1_0n',
    '1_n',
    '0x1_0',
    '0x_1',
    '0x1_',
    '0x1__0',
    '0o1_0',
    '0o_1',
    '0b1_0',
    '0b1_',
    '00',
    '08',
    '1.e1',
    '.e1',
    '.',
    '..',
    '1..',
    '1...',
  ]) {
    for (const b of ['', 'n', 'a', '$', '\\', '1', '.', '.a', '.1', 'e1', ' ', '\u200c', 'é', '(', '_', '/', '+1']) out.push(a + b);
  }
  for (const [list, open, close] of [
    [REGEXPS, '/', '/g'],
    [QUOTED, "'", "'"],
    [TEMPLATES, '`', '`'],
    [COMMENTS, '/*', '*/'],
  ]) {
    const parts = [...new Set(list)];
    for (const a of parts) for (const b of parts) out.push(open + a + b + close);
  }
  return out.filter((t) => !/[\ud800-\udfff]/.test(t) || Buffer.from(t).toString() === t);
}
module.exports = { compareReading, compareTemplate, randomText, allTexts, TEMPLATES };
