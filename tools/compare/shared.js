'use strict';
// What the comparisons share: a copy of crates with a program over them, which runs without a proof and answers texts.

const fs = require('node:fs');
const os = require('node:os');
const path = require('node:path');
const { execFileSync, spawnSync } = require('node:child_process');
const { ADDED, ASSIGNMENTS } = require('../model/operators.js');
const CRATES = path.join(__dirname, '..', '..', 'crates');

// The word behind --name on the command line.
function option(name, otherwise) {
  const i = process.argv.indexOf('--' + name);
  return i < 0 ? otherwise : process.argv[i + 1];
}

// A script's text in pieces of about a token.
const pieces = (text) => text.match(/\s+|[$\w]+|'[^']*'|"[^"]*"|=>|\*\*|\+\+|--|\?\.|\?\?|\|\||&&|\.\.\.|\$\{|[^]/g) ?? [];

// Numbers with separators, right ones and wrong ones.
const NUMBERS = ['1_0', '1_000.5_0', '0x1_F', '0b1_0', '0o7_7', '.1_2e1_0', '1_0n'];
const NO_NUMBERS = ['1__0', '1_', '0_1', '1_.5', '1_e1', '0x_1'];
const LOGICAL = ADDED.filter((text) => ASSIGNMENTS.includes(text));
const BEFORE_OPERAND = /^([=+*/%<>!~?&|(]|\*\*|&&|\|\||\?\?|=>|return|typeof|throw|\.\.\.)$/;
const BEHIND_OPERAND = /^([;)\]},+*/%<>?&|]|\*\*|&&|\|\||\?\?|)$/;

// The text with what the 12th edition adds: logical assignments in place of others, and numbers with separators. In three texts of four only
// where they have a chance to stand; in the fourth anywhere, and numbers that are none too.
function extended(source, text) {
  const list = pieces(text),
    isWild = source.below(4) === 0;
  const seen = list.map((_, i) => i).filter((i) => !/^\s/.test(list[i]));
  const numbers = isWild ? [...NUMBERS, ...NO_NUMBERS] : NUMBERS;
  seen.forEach((i, k) => {
    const [first, before, it, next] = [-2, -1, 0, 1].map((by) => list[seen[k + by]] ?? '');
    const isTarget = isWild || (/^[$\w]+$/.test(before) && !/^(let|var|const|[[{(,])$/.test(first));
    const isOperand = isWild ? source.below(6) === 0 : BEFORE_OPERAND.test(before) && BEHIND_OPERAND.test(next);
    if (it === '=' && isTarget && source.below(2) === 0) list[i] = source.pick(LOGICAL);
    else if (/^\d+$/.test(it) && source.below(2) === 0) list[i] = source.pick(numbers);
    else if (/^[a-z]$/.test(it) && isOperand && source.below(3) === 0) list[i] = source.pick([...numbers, ...LOGICAL.map((w) => `(a ${w} b)`)]);
  });
  return list.join('');
}

// The texts, half of which are extended so, where they have room.
const withAdditions = (source, texts) => texts.map((it) => (source.below(2) === 0 ? extended(source, it) : it));

// A line of crates.txt: a crate and the libraries that it names.
function crateLines() {
  const lines = fs
    .readFileSync(path.join(CRATES, '..', 'crates.txt'), 'utf8')
    .split('\n')
    .filter((l) => l !== '');
  return new Map(lines.map((l) => [l.split(':')[0], { line: l, needs: l.split(':')[1].trim().split(/\s+/) }]));
}

// The repository's crates that these stand on, and these.
function below(names, lines, found = new Set()) {
  for (const name of names) {
    if (found.has(name) || !lines.has(name)) continue;
    found.add(name);
    below(lines.get(name).needs, lines, found);
  }
  return found;
}

// A folder (option --keep, else a new one) with copies of the crates and of the program file `source`, which names the crates `needs`.
function copied(source, needs) {
  const folder = option('keep', null) ?? fs.mkdtempSync(path.join(os.tmpdir(), 'dump-'));
  const lines = crateLines();
  const names = [...below(needs, lines)];
  for (const name of names) {
    for (const part of ['src', 'specs', 'proofs']) {
      const from = path.join(CRATES, name, part);
      if (fs.existsSync(from)) fs.cpSync(from, path.join(folder, 'crates', name, part), { recursive: true });
    }
  }
  fs.writeFileSync(path.join(folder, 'crates.txt'), [...names.map((name) => lines.get(name).line), 'dump: ' + needs.join(' '), ''].join('\n'));
  const program = path.join(folder, 'crates', 'dump', 'src');
  fs.mkdirSync(program, { recursive: true });
  fs.copyFileSync(source, path.join(program, 'main.rt'));
  return folder;
}

// The program's answers for the texts, `size` of them a run: it reads them from the file `texts`, with U+0000 between them, and
// writes U+0000 behind each answer. The environment's RT may name another command for rt.
function answersOf(folder, texts, size) {
  const answers = [];
  for (let i = 0; i < texts.length; i += size) {
    const given = texts.slice(i, i + size);
    const file = path.join(folder, 'texts');
    fs.writeFileSync(file, given.join('\0'));
    const done = spawnSync(process.env.RT ?? 'rt', ['try', '--steps', '1000000000000', '--seconds', '600', '--data', 'texts=' + file], {
      cwd: path.join(folder, 'crates', 'dump'),
      maxBuffer: 1 << 30,
      encoding: 'utf8',
    });
    const list = done.stdout.split('\0');
    const rest = list.pop();
    answers.push(...list);
    if (list.length === given.length) continue;
    console.log(`stopped after ${list.length} texts:\n${rest}\n${done.stderr}`);
    process.exitCode = 1;
    break;
  }
  return answers;
}

let named = process.env.JSLINT;

// The program that JSLINT names, or else the one that the launcher runs; where it is to be built first, the launcher does so and says it.
function program() {
  named ??= execFileSync(path.join(__dirname, '..', '..', 'jslint'), ['--program'], { encoding: 'utf8', stdio: ['ignore', 'pipe', 'inherit'] }).trim();
  return named;
}

module.exports = { answersOf, copied, option, pieces, program, withAdditions };
