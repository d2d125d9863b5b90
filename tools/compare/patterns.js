#!/usr/bin/env node
'use strict';
// Holds the plain model's verdict on patterns of regular expressions (model/patterns.js) to V8's, over the literals of published files:
//   NODE_PATH=/usr/share/nodejs node patterns.js FOLDER ..
// With the flag `u` V8 has no Annex B, so both must agree. Without it V8 takes Annex B too: it has to take what the model takes. Prints how many literals there
// were, how many the 13th edition refuses, and each on which they differ; exit status 1 where there is one. The flag `v` is of a later edition, and left out.
// Numbers in `{n,m}` that V8 clamps are none to compare.

const fs = require('node:fs');
const path = require('node:path');
const acorn = require('acorn');
const { patternFault } = require('../model/patterns.js');

function* scriptsBelow(folder) {
  for (const entry of fs.readdirSync(folder, { withFileTypes: true })) {
    const file = path.join(folder, entry.name);
    if (entry.isDirectory()) yield* scriptsBelow(file);
    else if (entry.isFile() && /\.[cm]?js$/.test(entry.name)) yield file;
  }
}

// the literals of a text, or null where acorn reads none of it
function literalsOf(text) {
  for (const sourceType of ['script', 'module']) {
    const found = [];
    const onToken = (token) => {
      if (token.type.label === 'regexp') found.push(`/${token.value.pattern}/${token.value.flags}`);
    };
    try {
      acorn.parse(text, { ecmaVersion: 'latest', sourceType, allowReturnOutsideFunction: true, allowHashBang: true, onToken });
      return found;
    } catch {
      /* perhaps it is a module */
    }
  }
  return null;
}

function isTakenByV8(pattern, flags) {
  try {
    return new RegExp(pattern, flags) instanceof RegExp;
  } catch {
    return false;
  }
}

const isClamped = (pattern) => /\{\d{10,}/.test(pattern);
// whether the two differ on a literal
function differs(literal) {
  const end = literal.lastIndexOf('/'),
    pattern = literal.slice(1, end),
    flags = literal.slice(end + 1);
  if (flags.includes('v') || isClamped(pattern)) return false;
  const ours = patternFault(literal) === null,
    theirs = isTakenByV8(pattern, flags);
  return flags.includes('u') ? ours !== theirs : ours && !theirs;
}

const literals = new Set();
let files = 0;
for (const folder of process.argv.slice(2)) {
  for (const file of scriptsBelow(folder)) {
    const found = literalsOf(fs.readFileSync(file, 'utf8'));
    if (found === null) continue;
    files += 1;
    found.forEach((literal) => literals.add(literal));
  }
}
const refused = [...literals].filter((literal) => patternFault(literal) !== null),
  unlike = [...literals].filter(differs);
unlike.forEach((literal) => console.log(literal));
console.log(`${literals.size} literals of ${files} files: ${refused.length} refused by the 13th edition, ${unlike.length} unlike`);
process.exitCode = unlike.length === 0 ? 0 : 1;
