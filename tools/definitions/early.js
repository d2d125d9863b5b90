'use strict';
// The early errors of the definitions against early.js of the model, as sets.

const path = require('path');
const antt = require('./antt.js');
const { PLAIN_MODEL } = require('./model.js');
const { earlyErrors } = require(path.join(PLAIN_MODEL, 'early.js'));

// [{what, detail}]; what names the error, so that disagreements are sorted by it
function compareEarly(m, program, root) {
  const ours = new Set(antt.toArray(m.errors(root)).map(([n, at]) => `E${n} ${at}`));
  const theirs = new Set(earlyErrors(program).map((e) => `E${e.number} ${e.at}`));
  const out = [];
  for (const e of theirs) if (!ours.has(e)) out.push({ what: `early ${e.split(' ')[0]} missing`, detail: `the model has ${e}, the definitions don't` });
  for (const e of ours) if (!theirs.has(e)) out.push({ what: `early ${e.split(' ')[0]} too much`, detail: `the definitions have ${e}, the model doesn't` });
  const least = m.least_error(root);
  const mine = least.a.length === 0 ? 'none' : `E${least.a[0][0]} ${least.a[0][1]}`;
  const first = earlyErrors(program)[0];
  const want = first === undefined ? 'none' : `E${first.number} ${first.at}`;
  if (mine !== want) out.push({ what: 'least early error', detail: `the definitions have ${mine}, the model ${want}` });
  return { out, errors: theirs };
}
module.exports = { compareEarly };
