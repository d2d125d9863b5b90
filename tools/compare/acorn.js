#!/usr/bin/env node
'use strict';
// Holds the program to `acorn`, over published files, in the languages of 2022.
//
//   node tools/compare/acorn.js FILE|FOLDER ..
//
// The environment's ACORN names acorn's folder (else Debian's `/usr/share/nodejs/acorn`), its JSLINT the program. Each file is read as a module and as a strict
// script, by both. Where both take it, the trees are compared with all places. Then, in the language that the file is of (a module where it is no
// script), `fix` and `unwrap` are judged: acorn has to read the same tree from what they wrote, places aside; once more it is the same text; it has
// the least number of pairs that the file's own cost table shows, which `verify` takes; `same` finds one tree; and `check` answers.
//
// Where one takes a text and the other doesn't, REASONS say why that may be; what has no reason is printed, and makes the status 1.

const fs = require('node:fs');
const os = require('node:os');
const path = require('node:path');
const { spawnSync } = require('node:child_process');
const { program } = require('./shared.js');
const { runInBigStack } = require('../model/bigstack.js');
const FOLDER = process.env.ACORN ?? '/usr/share/nodejs/acorn';
const LANGUAGES = { module: ['--module'], script: ['--edition', '2022'] };
// Whether acorn may have a member that `tree` hasn't: what a literal is worth, and `expression` of what is no arrow function.
const isBeside = (key, node) => ['regex', 'bigint', 'value'].includes(key) || (key === 'expression' && /^Function/.test(node.type));

// acorn, as strict code.
function reader() {
  const acorn = require(FOLDER);
  class Strict extends acorn.Parser {
    constructor(...words) {
      super(...words);
      this.strict = true;
    }
  }
  return (text, language) => {
    try {
      return { tree: Strict.parse(text, { ecmaVersion: 2022, sourceType: language, allowHashBang: true }) };
    } catch (error) {
      if (error instanceof RangeError || !(error instanceof SyntaxError)) throw error;
      return { fault: error.message };
    }
  };
}

// The byte at which each UTF-16 unit of a text begins.
function bytesOf(text) {
  const at = new Uint32Array(text.length + 1);
  for (let i = 0, byte = 0; i <= text.length; i += 1) {
    at[i] = byte;
    const unit = text.charCodeAt(i);
    byte += unit < 0x80 ? 1 : unit < 0x800 ? 2 : unit >= 0xd800 && unit < 0xdc00 ? 4 : unit >= 0xdc00 && unit < 0xe000 ? 0 : 3;
  }
  return at;
}

// Where our tree and acorn's differ first: a path; null where they don't. Without `at` places are left out.
function apart(ours, theirs, at, where = '') {
  if (typeof ours !== 'object' || ours === null || typeof theirs !== 'object' || theirs === null)
    return ours === theirs ? null : `${where}: ${JSON.stringify(ours)} | ${JSON.stringify(theirs)}`;
  if (Array.isArray(ours) && ours.length !== theirs.length) return `${where}: ${ours.length} | ${theirs.length} parts`;
  for (const key of new Set([...Object.keys(ours), ...Object.keys(theirs)])) {
    if (key === 'start' || key === 'end') {
      if (at && ours[key] !== at[theirs[key]]) return `${where}.${key}: ${ours[key]} | ${at[theirs[key]]}`;
    } else if (!(key in ours) && isBeside(key, theirs)) {
      continue;
    } else {
      const found = key in ours && key in theirs ? apart(ours[key], theirs[key], at, `${where}.${key}`) : `${where}: only one has ${key}`;
      if (found) return found;
    }
  }
  return null;
}

function* nodes(it) {
  if (typeof it !== 'object' || it === null) return;
  if (typeof it.type === 'string') yield it;
  for (const part of Object.values(it)) yield* nodes(part);
}

const some = (tree, test) => {
  for (const node of nodes(tree)) if (test(node)) return true;
  return false;
};

// Why one may take what the other refuses: what acorn took, or said, and what we said.
const REASONS = {
  'an escape in a name': (text, { tree }) => tree && some(tree, (it) => /Identifier$/.test(it.type) && /\\/.test(text.slice(it.start, it.end))),
  '`await` as a name': (text, { tree }) =>
    tree && some(tree, (it) => (it.type === 'Identifier' || it.type === 'LabeledStatement') && (it.name ?? it.label.name) === 'await'),
  'an HTML-like comment': (text, { tree }) => tree && /<!--|-->/.test(text),
  'a name of `catch` declared by `var`': (text, { tree }, ours) => tree && /early error E12 /.test(ours),
  'nested too deep': (text, { tree }, ours) => tree && /nested too deep/.test(ours),
  'a pattern of Annex B': (text, { tree }, ours) => tree && /early error E37 /.test(ours),
};

function run(words, input) {
  const done = spawnSync(program(), words, { encoding: 'utf8', maxBuffer: 1 << 30, input });
  return { status: done.status, out: done.stdout, err: done.stderr };
}

// What is wrong with a text that a command wrote, whose tree has to be this one.
function misjudged(command, text, tree, language, least, folder, read) {
  const file = path.join(folder, 'written.js'),
    table = path.join(folder, 'table');
  fs.writeFileSync(file, text);
  const theirs = read(text, language);
  const words = LANGUAGES[language];
  if (!theirs.tree) return `acorn refuses it: ${theirs.fault}`;
  const other = apart(theirs.tree, tree, null);
  if (other) return `another tree: ${other}`;
  if (run([command, ...words, file]).out !== text) return 'once more it is another text';
  fs.writeFileSync(table, run(['cost', ...words, file]).out);
  const pairs = run(['verify', ...words, file, table]).out;
  return pairs === `pairs ${least} least ${least}\n` ? null : `it has ${pairs.trim()}, and the least is ${least}`;
}

// What is wrong with what is answered of a file in a language, of which acorn has this tree.
function* faults(file, language, tree, folder, read) {
  const words = LANGUAGES[language],
    table = path.join(folder, 'own');
  fs.writeFileSync(table, run(['cost', ...words, file]).out);
  const pairs = /^pairs \d+ least (\d+)\n$/.exec(run(['verify', ...words, file, table]).out);
  if (!pairs) return yield 'verify refuses the table of cost';
  for (const command of ['fix', 'unwrap']) {
    const wrote = run([command, ...words, file]);
    const fault = wrote.status === 0 ? misjudged(command, wrote.out, tree, language, Number(pairs[1]), folder, read) : `status ${wrote.status}`;
    if (fault) yield `${command}: ${fault}`;
    else if (run(['same', ...words, file, path.join(folder, 'written.js')]).status !== 0) yield `${command}: same finds another tree`;
  }
  if (run(['check', ...words, file]).status > 1) yield 'check: refused';
}

// What is found of a file: of each language whether both took it, whether both refused it, or the reason, or what is unexplained.
function look(file, folder, read) {
  const text = fs.readFileSync(file, 'utf8');
  if (text.includes('\ufffd')) return [];
  const found = [];
  let judged = false;
  for (const language of ['script', 'module']) {
    const ours = run(['tree', ...LANGUAGES[language], file]),
      theirs = read(text, language);
    if (ours.status !== 0 && theirs.fault) {
      found.push([language, 'refused by both']);
      continue;
    }
    if (ours.status !== 0 || theirs.fault) {
      const reason = Object.keys(REASONS).find((it) => REASONS[it](text, theirs, ours.err));
      found.push([language, reason ?? 'UNEXPLAINED', `${ours.err.trim()} | ${theirs.fault ?? 'taken'}`]);
      continue;
    }
    const other = apart(JSON.parse(ours.out), theirs.tree, bytesOf(text));
    found.push(other ? [language, 'UNEXPLAINED', other] : [language, 'one tree']);
    if (!judged) for (const fault of faults(file, language, theirs.tree, folder, read)) found.push([language, 'UNEXPLAINED', fault]);
    if (!judged) found.push([language, 'judged']);
    judged = true;
  }
  return found;
}

// What is found of files, in a thread with room for acorn.
function looked(list) {
  const folder = fs.mkdtempSync(path.join(os.tmpdir(), 'acorn-')),
    read = reader();
  const found = list.map((file) => look(file, folder, read));
  fs.rmSync(folder, { recursive: true });
  return found;
}

// The files of names: of a folder its *.js and *.mjs, links aside.
function* filesOf(name) {
  if (!fs.statSync(name).isDirectory()) return yield name;
  for (const it of fs.readdirSync(name, { withFileTypes: true }).sort((a, b) => (a.name < b.name ? -1 : 1))) {
    const inner = path.join(name, it.name);
    if (it.isDirectory()) yield* filesOf(inner);
    else if (it.isFile() && /\.m?js$/.test(it.name)) yield inner;
  }
}

function main() {
  const every = process.argv.slice(2).flatMap((name) => [...filesOf(name)]),
    counts = new Map();
  for (let i = 0; i < every.length; i += 50) {
    const list = every.slice(i, i + 50);
    runInBigStack(__filename, 'looked', [list]).forEach((found, k) =>
      found.forEach(([language, what, why]) => {
        const key = `${language}: ${what}`;
        counts.set(key, (counts.get(key) ?? 0) + 1);
        if (what === 'UNEXPLAINED') console.log(`${list[k]}: ${language}: ${why}`);
      })
    );
  }
  if (every.length === 0) console.log('name files or folders');
  for (const [key, count] of [...counts].sort()) console.log(`${key}: ${count}`);
  return every.length > 0 && ![...counts.keys()].some((it) => it.endsWith('UNEXPLAINED')) ? 0 : 1;
}

module.exports = { looked };
if (require.main === module) process.exitCode = main();
