'use strict';
// The layout of the definitions against print.js: the fixed text, its items, which stand apart, and the text with any wrapped set.

const path = require('path');
const antt = require('./antt.js');
const { PLAIN_MODEL } = require('./model.js');
const { layout } = require(path.join(PLAIN_MODEL, 'print.js'));

function compareLayout(m, program, root, pl, random) {
  const out = [];
  const differ = (what, got, want) => {
    if (got !== want) out.push({ what, detail: `definitions ${JSON.stringify(got)}, model ${JSON.stringify(want)}` });
  };
  const fixed = layout(program, pl.wrapped);
  differ('fixed text', antt.text(m.fixed_text(root)), fixed);
  const planned = new Set(pl.wrappedRows);
  const items = m.printed((r) => planned.has(r), root, m.script, 1, 0);
  differ('text of the items', antt.text(m.items_text(items)), fixed);
  if (fixed.length <= 400) differ('items that stand apart', m.stand_apart(items), true);
  differ('a tree that fits', m.fits((r) => planned.has(r), root, m.script, 1), true);
  if (random !== undefined && pl.rows.length <= 300) {
    const wrapped = new Set(pl.wrapped);
    const numbers = new Set(pl.wrappedRows);
    pl.rows.forEach((r, i) => {
      if (random.chance(15)) {
        wrapped.add(r.node);
        numbers.add(i + 1);
      }
    });
    let got;
    try {
      got = antt.text(m.layout((r) => numbers.has(r), root, m.script, 1, 0));
    } catch (error) {
      got = String(error.message);
    }
    differ('layout of more pairs', got, layout(program, wrapped));
  }
  return out;
}
module.exports = { compareLayout };
