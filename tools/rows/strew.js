'use strict';
// Strews a script: puts pairs of parentheses round expressions, and blanks, line ends and comments between tokens, and takes out a `;`
// here and there. The result may be no script. `options` are those of the model's parser: they say the language.

const { EXPRESSIONS, KINDS_OF_2022 } = require('../model/kinds.js');
const { parse, children } = require('../model/parse.js');
const { tokensOf } = require('../model/unwrap.js');

const LINE_ENDS = ['\n', '\n', '\n', '\r\n', '\r', '\u2028', '\u2029'];
const BLANKS = [' ', ' ', '  ', '\t', '\u00a0', '\u3000', '\ufeff', '\v', '\u2003'];
const COMMENTS = ['/* c */', '/**/', '/* ( */', '/*/ */', '/*\n*/', '/* d\r\n * d */', '/*\u2028*/', '/***/'];
const LINE_COMMENTS = ['// l', '//', '// )', '// /* '];

const isExpression = (kind) => EXPRESSIONS.has(kind) || KINDS_OF_2022.get(kind)?.family === 'expression';

// The expressions that the model's parser accepts in a pair where they stand, tried one by one.
function expressionsOf(tree) {
  const found = [];
  const visit = (node) => {
    if (isExpression(node.type)) found.push(node);
    children(node).forEach(visit);
  };
  visit(tree);
  return found;
}

function gapOf(source, share) {
  let gap = '';
  while (source.chance(share)) {
    const kind = source.below(10);
    if (kind < 4) gap += source.pick(BLANKS);
    else if (kind < 6) gap += source.pick(LINE_ENDS) + source.pick(['', '  ', '\t', '        ']);
    else if (kind < 8) gap += source.pick(COMMENTS);
    else gap += source.pick(LINE_COMMENTS) + source.pick(LINE_ENDS) + source.pick(['', '', '  ', '\t']);
  }
  return gap;
}

// The text of tokens with pairs, as lists of `(` and `)` by the index of the token.
function spelled(tokens, opened, closed, gapBefore) {
  return tokens
    .map((token, i) => {
      const pieces = [...Array(opened[i]).fill('('), token.text, ...Array(closed[i]).fill(')')];
      return pieces.map((piece, k) => gapBefore(k === 0 ? token.gap : '', piece) + piece).join('');
    })
    .join('');
}

// Pairs round expressions, up to three each; those that don't parse there are left out again.
function withPairs(source, text, share, options) {
  const parsed = parse(text, options);
  if (!parsed.ok) return text;
  const tokens = tokensOf(parsed.text, parsed.tree, options?.edition);
  const byStart = new Map(tokens.map((token, i) => [token.start, i]));
  const byEnd = new Map(tokens.slice(0, -1).map((token, i) => [token.end, i]));
  const opened = tokens.map(() => 0);
  const closed = tokens.map(() => 0);
  const put = (node, by) => {
    const [from, to] = [byStart.get(node.start), byEnd.get(node.end)];
    if (from === undefined || to === undefined || from > to) return false;
    opened[from] += by;
    closed[to] += by;
    return true;
  };
  const plain = (gap) => gap;
  for (const node of expressionsOf(parsed.tree)) {
    if (!source.chance(share)) continue;
    const count = source.pick([1, 1, 1, 2, 3]);
    if (put(node, count) && !parse(spelled(tokens, opened, closed, plain), options).ok) put(node, -count);
  }
  return spelled(tokens, opened, closed, plain);
}

// Gaps between tokens, where the text stays a script: half of the text at most is tried anew.
function withGaps(source, text, share, options) {
  const parsed = parse(text, options);
  if (!parsed.ok) return text;
  const tokens = tokensOf(parsed.text, parsed.tree, options?.edition);
  const drops = source.chance(30);
  const gaps = tokens.map((token) => {
    if (source.chance(15) && /^\s+$/.test(token.gap)) return gapOf(source, share) || token.gap;
    return source.chance(50) ? gapOf(source, share) + token.gap : token.gap + gapOf(source, share);
  });
  const made = tokens.map((token, i) => (drops && token.text === ';' && source.chance(20) ? gaps[i] : gaps[i] + token.text)).join('');
  if (parse(made, options).ok) return made;
  // gap by gap
  const kept = tokens.map((token) => token.gap);
  const join = () => tokens.map((token, i) => kept[i] + token.text).join('');
  for (let i = 0; i < tokens.length; i++) {
    const before = kept[i];
    if (gaps[i] === before) continue;
    kept[i] = gaps[i];
    if (!parse(join(), options).ok) kept[i] = before;
  }
  return join();
}

function strewn(source, text, options) {
  const paired = withPairs(source, text, source.pick([5, 15, 30, 60]), options);
  return withGaps(source, paired, source.pick([10, 25, 45, 60]), options);
}

module.exports = { strewn };
