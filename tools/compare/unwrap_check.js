#!/usr/bin/env node
'use strict';
// Checks one answer of `unwrap` against the text it was made from, by the plain model's parser and by V8:
//
//   check(before, after, unwrap, options) -> null, or what is wrong
//
// `options` are those of the model's parser: they say the language. The model plans scripts of the base profile; what the fewest pairs of another
// language's tree are the definitions say, run by antt.js.
//
// 1 `after` is accepted                          5 the comments are the same, in order
// 2 it has the same tree, places aside           6 the tokens are the same, in order, grouping pairs
// 3 it has as many pairs as the planner's total    aside, `()` after `new`, `;` after `++`, `--`, `}` before `from`
// 4 unwrapped again it is the same text          7 where the text had just so many, it is the same text
//                                                8 gaps without a pair at them are the same, bytes and all
//                                                9 no browser sees an HTML-like comment that wasn't there
//                                               10 V8 takes it, strict and not, or as a module, where it took the text
//
// Texts with `for (async of` are left out of 10: they are scripts of the 11th edition, and none of the 12th, which V8 reads.

const vm = require('node:vm');
const { parse } = require('../model/parse.js');
const { plan } = require('../model/plan.js');
const { canon } = require('../model/canon.js');
const { tokensOf, FINAL } = require('../model/unwrap.js');
const { CRATES, Model, bareText, plainTree } = require('../definitions/model.js');

const COMMENTS = /\/\/[^\n\r\u2028\u2029]*|\/\*[^]*?\*\//g;

const languageOf = ({ edition, module }) => (edition !== 2022 ? 'base' : module ? 'module' : 'script');

let definitions = null;
// The fewest pairs that a tree of the language has in any text.
function fewest(tree, language) {
  if (language === 'base') return plan(tree).total;
  definitions ??= new Model(CRATES);
  return Number(definitions.least(definitions.tree(plainTree(tree, language)), definitions.script).a[0]);
}
// The tree as a text, without its places.
const shown = (tree, language) => (language === 'base' ? canon(tree) : bareText(plainTree(tree, language)));

function pieces(parsed, edition) {
  const tokens = tokensOf(parsed.text, parsed.tree, edition);
  const grouping = new Set(parsed.pairs.flatMap((pair) => [pair.left, pair.right]));
  const list = [];
  let gap = '';
  let touched = false;
  for (const token of tokens) {
    gap += token.gap;
    if (grouping.has(token.start)) {
      touched = true;
      continue;
    }
    list.push({ text: token.text, cls: token.cls, postfix: token.postfix, gap, touched });
    gap = '';
    touched = false;
  }
  return { list, comments: tokens.flatMap((token) => token.gap.match(COMMENTS) ?? []) };
}

// `<!--` where tokens stand, and `-->` where nothing but blanks and comments stands before it on its line.
function htmlLike({ list }) {
  let count = 0;
  for (let i = 0; i < list.length; i++) {
    const [a, b, c] = [list[i], list[i + 1], list[i + 2]];
    if (a.text === '<' && b?.text === '!' && c?.text === '--' && b.gap + c.gap === '' && !b.touched && !c.touched) count += 1;
    if (a.text === '--' && b?.text === '>' && b.gap === '' && !b.touched && (i === 0 || /[\n\r\u2028\u2029]/.test(a.gap))) count += 1;
  }
  return count;
}

// Goes over both lists of tokens; null, or what is wrong. Where `()` was put in after a `new` isn't told, so
// each `()` that may be one is tried both ways.
function compare(source, written) {
  const isPut = (j) =>
    written[j]?.text === '(' &&
    written[j + 1]?.text === ')' &&
    written[j + 1].gap === '' &&
    !written[j + 1].touched &&
    (written[j].gap === '' || written[j].touched);
  const choices = []; // where else to go on: [i, j, places of comments so far]
  let first = null;
  let [i, j, from, to] = [0, 0, [], []];
  for (let tries = 0; tries < 5000;) {
    let fault = null;
    const put = [];
    const mayEnd = source[i - 1]?.postfix || (source[i - 1]?.text === '}' && source[i].text === 'from');
    if (written[j]?.text === ';' && mayEnd && source[i].text !== ';') put.push(written[j++]);
    if (j - i + 2 <= written.length - source.length && isPut(j)) choices.push([i, j + 2, from.slice(), [...to, ...commentsOf(written[j]).map(() => i)]]);
    const [a, b] = [source[i], written[j]];
    if (b === undefined || a.text !== b.text || a.cls !== b.cls) fault = `6 token ${i}: ${a.text} became ${b?.text}`;
    else {
      from.push(...commentsOf(a).map(() => i));
      to.push(...[...put, b].flatMap(commentsOf).map(() => i));
      const before = source[i - 1];
      const moved = (BINDS_NEXT.test(a.text) && leadsToPair(source, i + 1)) || (/^(\+\+|--|;|,)$/.test(before?.text) && before.touched);
      if (!a.touched && a.gap !== b.gap && !moved) fault = `8 gap before token ${i}: ${JSON.stringify(a.gap)} became ${JSON.stringify(b.gap)}`;
      i += 1;
      j += 1;
      if (fault === null && i === source.length) {
        fault = j === written.length ? misplaced(source, from, to) : '6 more tokens';
        if (fault === null) return null;
      }
    }
    if (fault !== null) {
      first ??= fault;
      if (choices.length === 0) return first;
      [i, j, from, to] = choices.pop();
      tries += 1;
    }
  }
  return first;
}
const BINDS_NEXT = /^(return|throw|yield)$/;
// Whether a pair begins before this token, perhaps behind further words behind which no line may end.
const leadsToPair = (source, i) => source[i].touched || (BINDS_NEXT.test(source[i].text) && leadsToPair(source, i + 1));
const commentsOf = (token) => token.gap.match(COMMENTS) ?? [];

// For each comment the number of the token after it, before and after: it may have gone before `return`, `throw` or
// `yield`, several of which may follow each other, and after `++`, `--`, `;` and `,`.
function misplaced(source, from, to) {
  for (let k = 0; k < from.length; k++) {
    const over = source.slice(Math.min(from[k], to[k]), Math.max(from[k], to[k])).map((token) => token.text);
    const isLawful =
      to[k] === from[k] ||
      (to[k] < from[k] && over.every((text) => BINDS_NEXT.test(text))) ||
      (to[k] > from[k] && over.every((text) => /^(\+\+|--|;|,)$/.test(text)));
    if (!isLawful) return `5 comment ${k} moved from ${from[k]} to ${to[k]}`;
  }
  return null;
}

// Whether V8 takes a text, as a script that begins with this, or as a module.
function isTaken(text, prefix, isModule) {
  if (isModule && vm.SourceTextModule === undefined) throw new Error('node --experimental-vm-modules is needed');
  try {
    return (isModule ? new vm.SourceTextModule(text) : new vm.Script(prefix + text)) !== null;
  } catch {
    return false;
  }
}

const hasAsyncOf = (tokens) => tokens.some((_, i) => ['for', '(', 'async', 'of'].every((word, k) => tokens[i + k]?.text === word));

// Of each text to be checked, and of its answer: null, or how V8 took the one and not the other.
function refusedByV8(source, written, tokens, isModule) {
  const prefix = (isModule ? [''] : ['', "'use strict';"]).find((it) => isTaken(source.text, it, isModule) && !isTaken(written.text, it, isModule));
  return prefix === undefined || hasAsyncOf(tokens) ? null : `10 V8 takes it no more${prefix && ', as strict code'}`;
}

function check(before, after, unwrap, options = FINAL) {
  const source = parse(before, options);
  if (!source.ok) return 'the source is refused';
  const language = languageOf(options),
    total = fewest(source.tree, language);
  const written = parse(after, options);
  if (!written.ok) return '1 refused: ' + JSON.stringify(written.fault);
  if (shown(source.tree, language) !== shown(written.tree, language)) return '2 another tree';
  if (written.pairs.length !== total) return `3 ${written.pairs.length} pairs, not ${total}`;
  const again = unwrap(after, options);
  if (!again.ok || again.text !== after) return '4 changes when unwrapped again';
  const [s, w] = [source, written].map((it) => pieces(it, options.edition));
  if (s.comments.join('\n') !== w.comments.join('\n') || s.comments.length !== w.comments.length) return '5 other comments';
  if (source.pairs.length === total && source.text !== written.text && options.ties !== 'planner') return '7 not the same text';

  const fault = compare(s.list, w.list);
  if (fault !== null) return fault;
  if (htmlLike(w) > htmlLike(s)) return '9 an HTML-like comment';
  return refusedByV8(source, written, w.list, language === 'module');
}

module.exports = { check };

if (require.main === module) {
  const fs = require('fs');
  const { unwrap } = require('../model/unwrap.js');
  let bad = 0;
  for (const name of process.argv.slice(2)) {
    const before = fs.readFileSync(name);
    const answer = unwrap(before);
    const fault = answer.ok ? check(before, answer.text, unwrap) : 'refused: ' + JSON.stringify(answer.fault);
    if (fault !== null) {
      bad += 1;
      console.log(`${name}: ${fault}`);
    }
  }
  process.exitCode = bad > 0 ? 1 : 0;
}
