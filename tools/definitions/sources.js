'use strict';
// The tokens that the examples of `language` give their texts (proofs/Sources.antt) against scan.js.

const fs = require('fs');
const path = require('path');
const antt = require('./antt.js');
const { tokensOf } = require('./tree_of.js');

const PROOFS = path.join(__dirname, '../../crates/language/proofs/examples');
const CALL = /\((tokens|tokens_with_regexps) ("(?:[^"\\]|\\.)*")\)/g;

// problems [{what, text, detail}], and how many texts were looked at
function compareSources(spec) {
  const tokensBy = spec.fn('tokens_by', 'Sources', 'language');
  const out = [];
  let count = 0;
  for (const file of fs.readdirSync(PROOFS).filter((f) => f.endsWith('.antt'))) {
    for (const [, name, literal] of fs.readFileSync(path.join(PROOFS, file), 'utf8').matchAll(CALL)) {
      const text = JSON.parse(literal);
      const regexps = name === 'tokens_with_regexps';
      const want = tokensOf(text, regexps);
      const got = antt.toArray(tokensBy(regexps, text)).slice(1);
      const ours = got.map((t) => [t.class.$.name, Buffer.from(antt.toArray(t.text).map(Number)).toString(), t.start, t.stop, t.after_break].join(' '));
      const theirs = want === null ? ['none'] : want.map((t) => [t.cls, t.text, t.start, t.stop, t.afterBreak].join(' '));
      count++;
      if (ours.join('\n') !== theirs.join('\n'))
        out.push({ what: 'tokens of an example', text, detail: `${file}: ${ours.join(', ')}; model ${theirs.join(', ')}` });
    }
  }
  return { out, count };
}
module.exports = { compareSources };
