'use strict';
// Holds the commands of `jslint` against the plain model, byte for byte, over scripts of Debian's packages.
//
//   node scripts.js [all|COMMAND,..] [FILE..]
//
// The commands are check, tree, fix, unwrap, cost and verify. Without files: every .js file of the packages named below, as far as they are
// installed; what the model refuses must be refused with the same line. Of `fix` and `unwrap` also: the same command on what it wrote gives that
// again. What `unwrap` writes is also judged by unwrap_check.js: the same tree, the fewest pairs, each token and each comment in its place, and a
// script for V8 where the text was one; how many pairs went and how many lines differ is printed.
// `verify` is given the table that `cost` writes, and its two numbers are the pairs of the script and those of its fixed text. JSLINT names
// another program than the one that ./jslint runs. Exit status 1 where anything disagrees.

const crypto = require('node:crypto');
const fs = require('node:fs');
const os = require('node:os');
const path = require('node:path');
const { spawnSync } = require('node:child_process');
const { program } = require('./shared.js');
const { LIMITS, parse } = require('../model/parse.js');
const { treeJson } = require('../model/json.js');
const { extraPairs, plan, writeTable } = require('../model/plan.js');
const { layout } = require('../model/print.js');
const { defaultSettings, runRules } = require('../model/rules.js');
const { resolve } = require('../model/scopes.js');
const { unwrap, unwrapped } = require('../model/unwrap.js');
const { runInBigStack } = require('../model/bigstack.js');
const { check: judged } = require('./unwrap_check.js');
const PACKAGES = ['libjs-jquery', 'libjs-d3', 'libjs-three', 'node-react-dom', 'node-react', 'node-acorn', 'libjs-underscore', 'libjs-highlight.js'];

const plans = new WeakMap();
function planOf(tree) {
  if (!plans.has(tree)) plans.set(tree, plan(tree));
  return plans.get(tree);
}

// What each command writes of an accepted script, from its tree, its grouping pairs and its bytes, and the exit status.
const ANSWERS = {
  check: (tree, pairs, bytes) => {
    const reports = runRules({ tree, text: bytes, scopes: resolve(tree), extra: extraPairs(pairs, planOf(tree).wrapped), settings: defaultSettings() });
    const places = linesColumns(bytes, reports.map((it) => it.start));
    return [reports.map((it, i) => `${places[i]} ${it.rule} ${it.text}\n`).join(''), reports.length > 0 ? 1 : 0];
  },
  tree: (tree) => [treeJson(tree) + '\n', 0],
  fix: (tree) => [layout(tree, planOf(tree).wrapped), 0],
  unwrap: (tree, pairs, bytes) => [unwrapped({ tree, pairs, text: bytes.toString() }, planOf(tree)), 0],
  cost: (tree) => [writeTable(planOf(tree)), 0],
  verify: (tree, pairs) => [`pairs ${pairs.length} least ${planOf(tree).total}\n`, 0],
};

// The files of the command line, from this word on, or those of the packages.
function files(from = 3) {
  return process.argv.length > from ? process.argv.slice(from) : packaged();
}

// The scripts of the packages.
function packaged() {
  const found = new Set();
  for (const name of PACKAGES) {
    const listed = spawnSync('dpkg', ['-L', name], { encoding: 'utf8' });
    for (const line of listed.stdout.split('\n')) {
      if (!line.endsWith('.js') || !fs.existsSync(line)) continue;
      const real = fs.realpathSync(line);
      if (fs.statSync(real).isFile()) found.add(real);
    }
  }
  return [...found].sort();
}

// Line and column of a place in bytes, both from 1, the column in characters.
function lineColumn(bytes, at) {
  const before = bytes.subarray(0, at).toString('utf8');
  const inside = before.endsWith('\r') && bytes[at] === 0x0a;
  const lines = (inside ? before.slice(0, -1) : before).split(/\r\n|[\n\r\u2028\u2029]/);
  return `${lines.length}:${[...lines[lines.length - 1]].length + 1 + (inside ? 1 : 0)}`;
}

// The same of places in ascending order, in one pass.
function linesColumns(bytes, places) {
  const found = [];
  let line = 1,
    column = 1,
    at = 0;
  for (const place of places) {
    for (; at < place; at++) {
      const c = bytes[at];
      const separator = c === 0xe2 && bytes[at + 1] === 0x80 && (bytes[at + 2] === 0xa8 || bytes[at + 2] === 0xa9);
      if (c === 0x0a || separator || (c === 0x0d && bytes[at + 1] !== 0x0a)) {
        line += 1;
        column = 1;
        at += separator ? 2 : 0;
      } else if ((c & 0xc0) !== 0x80) {
        column += 1;
      }
    }
    found.push(`${line}:${column}`);
  }
  return found;
}

function words(fault, bytes) {
  switch (fault.kind) {
    case 'NotUtf8':
      return `not UTF-8 at byte ${fault.at}`;
    case 'TooLong':
      return 'longer than 16777216 bytes';
    case 'Syntax':
      return `syntax error at ${lineColumn(bytes, fault.at)}`;
    case 'Early':
      return `early error E${fault.number} at ${lineColumn(bytes, fault.at)}`;
    case 'TooDeep':
      return 'nested too deep';
    default:
      return fault.kind;
  }
}

// What a command answers by the model.
function modelOf(command, bytes, limits) {
  return modelsOf([command], bytes, limits)[0];
}

function modelsOf(commands, bytes, limits) {
  const parsed = parse(bytes, limits);
  if (!parsed.ok) return commands.map(() => ({ status: 2, out: '', err: `jslint: ${words(parsed.fault, bytes)}\n` }));
  return commands.map((command) => {
    const [out, status] = ANSWERS[command](parsed.tree, parsed.pairs, bytes);
    return { status, out, err: '' };
  });
}

const sum = (text) => crypto.createHash('sha256').update(text).digest('hex');
const short = ({ status, out, err }) => `${status} ${out.length} ${sum(out)} ${err}`;

// What the judge says of an answer of `unwrap`, where it isn't content.
function judgement(command, bytes, { status, out }, limits) {
  const fault = command === 'unwrap' && status === 0 ? judged(bytes, out, unwrap, limits) : null;
  return fault === null ? '' : ` judged: ${fault}`;
}

// Which the model answers: of each file what each command does, in short. The program has to answer the same, so what is judged is its answer too.
function models(commands, list) {
  return list.map((file) => {
    const bytes = fs.readFileSync(file);
    return modelsOf(commands, bytes, LIMITS).map((it, i) => short(it) + judgement(commands[i], bytes, it, LIMITS));
  });
}

// The model reads one language, so it has no hint of another.
const withoutHint = (line) => line.replace(/ \(perhaps: --(?:edition 2022|module)\)\n$/, '\n');

function jslint(...words) {
  const done = spawnSync(program(), words, { encoding: 'utf8', maxBuffer: 1 << 30 });
  return { status: done.status, out: done.stdout, err: withoutHint(done.stderr) };
}

// What the program answers: `verify` of the table that `cost` wrote.
function answer(command, file, folder) {
  if (command !== 'verify') return jslint(command, file);
  const table = path.join(folder, 'table');
  const written = jslint('cost', file);
  fs.writeFileSync(table, written.out);
  return jslint('verify', file, table);
}

// Whether a command that wrote this text writes it again when it is given it.
function isStable(command, text, folder) {
  return jslint(command, written(text, folder)).out === text;
}

// A file with this text.
function written(text, folder) {
  const file = path.join(folder, 'written.js');
  fs.writeFileSync(file, text);
  return file;
}

// What is seen of one command over all files.
class Seen {
  constructor(command) {
    Object.assign(this, { command, written: 0, refused: 0, apart: 0, size: 0 });
  }

  look(file, folder, wanted) {
    const ours = answer(this.command, file, folder);
    if (short(ours) !== wanted) {
      this.apart += 1;
      console.log(`${this.command} ${file}: ${short(ours).trim()} | ${wanted.trim()}`);
    } else if (ours.status === 2) {
      this.refused += 1;
    } else if (/^(fix|unwrap)$/.test(this.command) && !isStable(this.command, ours.out, folder)) {
      this.apart += 1;
      console.log(`${this.command} ${file}: once more it is another text`);
    } else {
      this.written += 1;
      this.size += ours.out.length;
      this.note(file, ours.out, folder);
    }
  }

  note() {}

  tell() {
    console.log(`${this.command}: ${this.written} answers alike (${this.size} characters), ${this.refused} texts refused alike, ${this.apart} disagreements`);
  }
}

// Of `unwrap` also how many scripts became others, the pairs before and after, as `verify` counts them, and the lines that differ, as `diff` does.
class SeenUnwrap extends Seen {
  constructor() {
    super('unwrap');
    Object.assign(this, { changed: 0, before: 0, after: 0, lines: 0, linesChanged: 0 });
  }

  note(file, text, folder) {
    const after = written(text, folder);
    const [lines, others] = [fs.readFileSync(file, 'utf8').split('\n').length - 1, linesOtherwise(file, after)];
    this.changed += others > 0;
    this.before += pairsOf(file, folder);
    this.after += pairsOf(after, folder);
    this.lines += lines;
    this.linesChanged += others;
  }

  tell() {
    super.tell();
    console.log(
      `  ${this.changed} of them became others: ${this.before} pairs before, ${this.after} after; ${this.linesChanged} of ${this.lines} lines differ`
    );
  }
}

// The pairs of an accepted script.
const pairsOf = (file, folder) => Number(/^pairs (\d+) least \d+\n$/.exec(answer('verify', file, folder).out)[1]);

// How many lines of a file another one has otherwise.
function linesOtherwise(file, other) {
  const { stdout } = spawnSync('diff', ['-a', '--', file, other], { encoding: 'utf8', maxBuffer: 1 << 30 });
  return stdout.split('\n').filter((it) => it.startsWith('<')).length;
}

function main() {
  const word = process.argv[2] ?? 'all';
  const commands = word === 'all' ? Object.keys(ANSWERS) : word.split(',');
  if (!commands.every((it) => it in ANSWERS)) throw new Error('check, tree, fix, unwrap, cost or verify?');
  const folder = fs.mkdtempSync(path.join(os.tmpdir(), 'scripts-'));
  const every = files(),
    seen = commands.map((it) => (it === 'unwrap' ? new SeenUnwrap() : new Seen(it)));
  for (let i = 0; i < every.length; i += 20) {
    const list = every.slice(i, i + 20);
    const wanted = runInBigStack(__filename, 'models', [commands, list]);
    list.forEach((file, k) => seen.forEach((it, c) => it.look(file, folder, wanted[k][c])));
  }
  fs.rmSync(folder, { recursive: true });
  if (every.length === 0) console.log('there is no script: install the packages, or name files');
  for (const it of seen) it.tell();
  return every.length > 0 && seen.every((it) => it.apart === 0) ? 0 : 1;
}

module.exports = { files, judgement, lineColumn, linesColumns, modelOf, models, packaged, withoutHint, words };
if (require.main === module) process.exitCode = main();
