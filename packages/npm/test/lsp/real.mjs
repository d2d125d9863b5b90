// usage: real.mjs FOLDER [STEP]    the small changes over real scripts, each compared by the trees themselves: an independent way to see that they
// keep the tree, or change the kind of one declaration alone. Prints counts.
import assert from 'node:assert/strict';
import { readFileSync, readdirSync } from 'node:fs';
import path from 'node:path';
import { Refused, fix, spans, tree, unwrap } from '../../jslint.mjs';
import { Judge } from '../../lib/changes.mjs';
import { applied, editsBetween } from '../../lib/edits.mjs';

const MOST_LENGTH = 80000;
const answered = (call) => {
  try {
    return call();
  } catch (error) {
    if (error instanceof Refused) return null;
    throw error;
  }
};
const judgeOf = (text) => new Judge({ fix, spans, tree, unwrap }, answered, text);
/** The tree without places. */
const shape = (text) => JSON.stringify(tree(text), (key, value) => (key === 'start' || key === 'end' ? undefined : value));
const count = (text, pattern) => (text.match(pattern) ?? []).length;
/** What isn't a parenthesis or a blank: it all stays where a pair goes, comments too. */
const others = (text) => text.replace(/[()\s]/g, '');
const sum = { files: 0, refused: 0, unwrapped: 0, edits: 0, pairs: 0, alone: 0, lets: 0, toConst: 0 };

function tryPairs(text, starts, before, file) {
  const judge = judgeOf(text);
  for (const start of starts) {
    sum.pairs++;
    const edits = judge.withoutPair(start),
      after = edits && applied(text, edits);
    if (!edits) continue;
    sum.alone++;
    assert.ok(shape(after) === before && others(after) === others(text) && count(text, /[()]/g) - count(after, /[()]/g) === 2, file);
  }
}

function tryLets(text, names, before, file) {
  const judge = judgeOf(text),
    isConst = /"kind":"const"/g;
  for (const name of names) {
    sum.lets++;
    const found = judge.letToConst(name),
      after = found && shape(applied(text, found.edits));
    if (!found) continue;
    sum.toConst++;
    assert.ok(count(after, isConst) === count(before, isConst) + 1 && after.replace(isConst, '"kind":"let"') === before.replace(isConst, '"kind":"let"'), file);
  }
}

function tryFile(file) {
  const text = readFileSync(file, 'utf8'),
    reports = text.length > MOST_LENGTH ? null : answered(() => spans(text));
  if (reports === null) {
    sum.refused++;
    return;
  }
  sum.files++;
  const before = shape(text),
    to = unwrap(text),
    edits = editsBetween(text, to),
    of = (rule, most) =>
      reports
        .filter((it) => it.rule === rule)
        .slice(0, most)
        .map((it) => it.start);
  assert.equal(applied(text, edits), to);
  sum.unwrapped += edits.length > 0;
  sum.edits += edits.length;
  tryPairs(text, of('no-extra-parens', 8), before, file);
  tryLets(text, of('prefer-const', 5), before, file);
}

const [folder, step = '10'] = process.argv.slice(2);
const files = readdirSync(folder, { recursive: true, withFileTypes: true })
  .filter((it) => it.isFile() && it.name.endsWith('.js'))
  .map((it) => path.join(it.path, it.name))
  .sort();
for (const file of files.filter((_, number) => number % Number(step) === 0)) tryFile(file);
console.log(JSON.stringify(sum));
