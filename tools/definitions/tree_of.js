#!/usr/bin/env node
'use strict';
// What the model makes of a text, as antt source for an example, in the words of language/proofs/examples/Trees.antt and Sources.antt:
//   node tree_of.js TEXT              the tree, with the tokens and the grouping pairs; `\n` in TEXT is a line feed
//   node tree_of.js --relaxed TEXT    the trees that parsers with one check left out make of a text that is refused
// The output is checked by the proof of the example, so nothing rests on this.

const path = require('path');
const { PLAIN_MODEL, plainTree } = require('./model.js');
const { parseOnly } = require(path.join(PLAIN_MODEL, 'parse.js'));
const { GOAL, scan } = require(path.join(PLAIN_MODEL, 'scan.js'));

const quoted = (s) => '"' + s.replace(/\\/g, '\\\\').replace(/"/g, '\\"').replace(/\n/g, '\\n') + '"';
const KIND = {
  string: 'StringLiteral',
  name: 'IdentifierName',
  punctuator: 'Punctuator',
  number: 'NumericLiteral',
  template: 'Template',
  regexp: 'RegularExpressionLiteral',
  end: 'End',
};
const FORMS = { get: 'Get', set: 'Set', method: 'Method', shorthand: 'Shorthand', constructor: 'Constructor' };
const WRAPPERS = { computed: 'computed', optional: 'optional', is_static: 'static_one', prefix: 'before', directive: 'directive', expression: 'short' };

// A plain tree (model.js) as a term that may stand as an argument; `used` gathers the names that it needs.
function term(n, used = new Set()) {
  const word = (w) => {
    used.add(w);
    return w;
  };
  const parts = (list) => {
    if (list.length === 0) return word('none');
    const few = [undefined, 'one', 'two', 'three'][list.length];
    if (few !== undefined && !list.includes(null)) return `(${word(few)} ${list.map((p) => term(p, used)).join(' ')})`;
    return list[0] === null ? `(${word('gap')} ${parts(list.slice(1))})` : `(${word('part')} ${term(list[0], used)} ${parts(list.slice(1))})`;
  };
  const plain = Object.keys(WRAPPERS).every((f) => !n.flags[f]) && n.flags.form === 'init';
  const fits = n.parts.length === 0 && n.stop - n.start === Buffer.byteLength(n.text);
  if (plain && fits && n.kind === 'Identifier') return `(${word('id')} ${quoted(n.text)} ${n.start})`;
  if (plain && fits && n.kind === 'Literal') return `(${word('lit')} ${quoted(n.text)} ${n.start})`;
  if (plain && n.text === '' && n.kind === 'Program' && n.start === 0) return `(${word('program')} ${n.stop} ${parts(n.parts)})`;
  if (plain && n.text === '' && n.kind === 'ExpressionStatement' && n.parts.length === 1 && n.parts[0] !== null)
    return `(${word('st')} ${n.start} ${n.stop} ${term(n.parts[0], used)})`;
  const head = n.text === '' ? `${word('n')} ${word(n.kind)}` : `${word('t')} ${word(n.kind)} ${quoted(n.text)}`;
  let out = `(${head} ${n.start} ${n.stop} ${parts(n.parts)})`;
  for (const [flag, wrapper] of Object.entries(WRAPPERS)) if (n.flags[flag]) out = `(${word(wrapper)} ${out})`;
  if (n.flags.form !== 'init') out = `(${word('formed')} ${word(FORMS[n.flags.form])} ${out})`;
  return out;
}
const bare = (s) => (s.startsWith('(') ? s.slice(1, -1) : s);

// The tokens with one choice at `/`; `}` belongs to a template where a `${` is open.
function tokensOf(text, regexps) {
  const list = [];
  let inTemplate = false;
  for (let at = 0;;) {
    const probe = scan(text, at, GOAL.Div);
    const ch = text[probe.start];
    const goal = ch === '/' && regexps ? GOAL.RegExp : ch === '}' && inTemplate ? GOAL.TemplateTail : GOAL.Div;
    const token = scan(text, at, goal);
    if (token.cls === 'fault') return null;
    list.push({ cls: KIND[token.cls], text: token.text, start: token.start, stop: token.end, afterBreak: token.afterBreak });
    if (token.cls === 'template') inTemplate = token.text.endsWith('{');
    if (token.cls === 'end') return list;
    at = token.end;
  }
}
const readTree = (text, parser = parseOnly) => {
  const answer = parser(text);
  return answer.ok ? { tree: plainTree(answer.tree), pairs: answer.pairs } : null;
};

module.exports = { bare, quoted, readTree, term, tokensOf };

if (require.main === module) {
  const all = process.argv[2] === '--relaxed';
  const text = (process.argv[all ? 3 : 2] ?? '').replace(/\\n/g, '\n');
  const show = (name, answer) => {
    if (answer === null) return;
    const used = new Set();
    console.log(`-- ${name}\n${bare(term(answer.tree, used))}`);
    console.log(`  pairs: ${answer.pairs.map((p) => `pair ${p.left} ${p.right} ∷ `).join('')}[]\n  names: ${[...used].sort().join(', ')}`);
  };
  const regexps = text.includes('/') && readTree(text) !== null && tokensOf(text, false) === null;
  const tokens = tokensOf(text, regexps) ?? tokensOf(text, true);
  if (tokens === null) console.log('no tokens');
  else for (const t of tokens) console.log(`  ${t.cls} ${quoted(t.text)} ${t.start} ${t.stop}${t.afterBreak ? ' after a break' : ''}`);
  show('the model', readTree(text));
  if (all) for (const r of require('./relaxed.js').relaxed()) show(r.name, readTree(text, r.parseOnly));
}
