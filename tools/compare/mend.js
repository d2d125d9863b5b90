'use strict';
// Holds `jslint mend` to what it says of itself, and its changes to those of ESLint's --fix (Debian's eslint 6.4, strict scripts or modules of
// ES2020), over published files.
//
//   NODE_PATH=/usr/share/nodejs node mend.js [--module] [--beside N] [--list FILE | FILE..]
//
// Of each file that mends, with all rules that have a change: the mended text is read, by acorn too, has the comments of the text in order, is
// mended to itself, writes no name of a `const`, and has the text's tree but for what the rules change (mend_tree.js). With --beside, of each Nth
// file also, rule by rule, which tokens go and come here and there: a change on one side alone has a reason (mend_reasons.js), or it is printed
// with its place. Exit status 1 if there is one.

const acorn = require('/usr/share/nodejs/acorn');
const fs = require('node:fs');
const os = require('node:os');
const path = require('node:path');
const { spawnSync } = require('node:child_process');
const { Worker, isMainThread, parentPort, workerData } = require('node:worker_threads');
const { option, program } = require('./shared.js');
const { packaged } = require('./scripts.js');
const { shape } = require('./mend_tree.js');

const RULES = [
  'curly',
  'dot-notation',
  'eqeqeq',
  'no-debugger',
  'no-extra-boolean-cast',
  'no-extra-semi',
  'no-lonely-if',
  'no-unused-labels',
  'no-useless-computed-key',
  'no-useless-rename',
  'no-useless-return',
  'object-shorthand',
  'operator-assignment',
  'prefer-const',
];
const UNCHECKED = { allowInlineConfig: false };
let linter = null;

const configOf = (rules, isModule) => ({
  env: { es2020: true },
  parserOptions: { ecmaVersion: 2020, sourceType: isModule ? 'module' : 'script', ecmaFeatures: { impliedStrict: true } },
  rules: Object.fromEntries(rules.map((it) => [it, 2])),
});

// A text as ESLint reads it, with what these rules report; none if it is refused.
function read(text, rules, isModule) {
  linter ??= new (require('/usr/share/nodejs/eslint').Linter)();
  const messages = linter.verify(text, configOf(rules, isModule), UNCHECKED);
  return messages.some((it) => it.fatal) ? null : { code: linter.getSourceCode(), messages };
}

// What a command answers of a text under the settings for these rules, none if it is refused.
function jslint(command, text, { settings, isModule }, rule = 'all') {
  const words = [command, '--settings', path.join(settings, rule), ...(isModule ? ['--module'] : []), '-'];
  const done = spawnSync(program(), words, { input: text, encoding: 'utf8', maxBuffer: 1 << 30 });
  return done.status === 2 ? null : done.stdout;
}

// The tree and the comments of a text by acorn, in which `return` may stand anywhere.
function parsed(text, isModule) {
  const comments = [];
  const onComment = (isBlock, comment) => comments.push([isBlock, comment]);
  const tree = acorn.parse(text, { ecmaVersion: 2022, sourceType: isModule ? 'module' : 'script', allowHashBang: true, onComment });
  return { shape: shape(tree), comments: JSON.stringify(comments) };
}

// What is wrong with the mended text of a file.
function faultsOf(text, mended, given) {
  const found = [];
  if (jslint('mend', mended, given) !== mended) found.push('mended again it is another text');
  if (jslint('check', mended, given, 'no-const-assign') !== '') found.push('a `const` is written');
  const [before, after] = [text, mended].map((it) => parsed(it, given.isModule));
  if (before.comments !== after.comments) found.push('other comments');
  if (before.shape !== after.shape) found.push('a tree other than said');
  return found;
}

const wordsOf = (code) => code.ast.tokens.map((it) => it.value.replaceAll('\n', '\\n'));

// Which tokens of one list become others in another one, by `diff`: of each stretch the first token's number, how many go, and what comes.
function changes(words, others, folder) {
  const [from, to] = ['from', 'to'].map((it) => path.join(folder, it));
  fs.writeFileSync(from, words.join('\n') + '\n');
  fs.writeFileSync(to, others.join('\n') + '\n');
  const { stdout } = spawnSync('diff', ['-a', '--minimal', from, to], { encoding: 'utf8', maxBuffer: 1 << 30 });
  const found = [];
  for (const line of stdout.split('\n')) {
    const head = /^(\d+)(?:,(\d+))?([acd])/.exec(line);
    if (head !== null) found.push(stretch(+head[1], +(head[2] ?? head[1]), head[3] === 'a'));
    else if (line.startsWith('> ')) found.at(-1).come.push(line.slice(2));
  }
  for (const it of found) slide(words, it);
  return found.map((it) => ({ ...it, key: `${it.first} ${it.gone} ${it.come.join(' ')}` }));
}

const stretch = (from, to, isBehind) => ({ first: isBehind ? from : from - 1, gone: isBehind ? 0 : to - from + 1, come: [] });

// Where tokens only go, or only come, and it could be so further left too, it is put there.
function slide(words, it) {
  const { gone, come } = it;
  if (gone > 0 && come.length > 0) return;
  while (it.first > 0 && words[it.first - 1] === (gone > 0 ? words[it.first + gone - 1] : come.at(-1))) {
    it.first -= 1;
    if (gone === 0) come.unshift(come.pop());
  }
}

// The changes of a rule here and there: how many both make, and those of one side.
function besides(before, text, rule, given) {
  const [ours, theirs] = [jslint('mend', text, given, rule), linter.verifyAndFix(text, configOf([rule], given.isModule), UNCHECKED).output];
  const words = wordsOf(before.code);
  const [left, right] = [ours, theirs].map((it) => (it === text ? [] : changes(words, wordsOf(read(it, [], given.isModule).code), given.settings)));
  const [here, there] = [left, right].map((list) => new Set(list.map((it) => it.key)));
  const apart = [
    ...left.filter((it) => !there.has(it.key)).map((it) => ({ ...it, side: 'jslint' })),
    ...right.filter((it) => !here.has(it.key)).map((it) => ({ ...it, side: 'eslint' })),
  ];
  return { both: left.length - apart.filter((it) => it.side === 'jslint').length, apart };
}

class Seen {
  constructor() {
    this.counts = new Map();
    this.lines = [];
  }

  add(key, by = 1) {
    this.counts.set(key, (this.counts.get(key) ?? 0) + by);
  }

  // One file; of each Nth also rule by rule.
  look(file, given, isCompared) {
    const text = fs.readFileSync(file, 'utf8').replace(/^\ufeff/, '');
    const mended = jslint('mend', text, given);
    if (mended === null) return this.add('refused');
    this.add(mended === text ? 'stays' : 'mended');
    for (const fault of mended === text ? [] : faultsOf(text, mended, given)) {
      this.add(fault);
      this.lines.push(`${file}: ${fault}`);
    }
    if (isCompared) this.compare(file, text, given);
  }

  compare(file, text, given) {
    const before = read(text, RULES, given.isModule);
    if (before === null) return this.add('not read by ESLint');
    const { Source } = require('./eslint_source.js');
    const { reasonOf } = require('./mend_reasons.js');
    this.add('beside ESLint');
    const reported = new Set(before.messages.map((it) => it.ruleId));
    for (const line of jslint('check', text, given).split('\n')) reported.add(line.split(' ')[1]);
    const source = new Source(before.code);
    for (const rule of RULES.filter((it) => reported.has(it))) {
      const { both, apart } = besides(before, text, rule, given);
      if (both > 0) this.add(`${rule} | both`, both);
      for (const change of apart) this.tell(file, rule, change, reasonOf(rule, change, source));
    }
  }

  tell(file, rule, { side, first, gone, come }, reason) {
    this.add(`${rule} | ${side} alone: ${reason ?? 'NOT KNOWN'}`);
    if (reason === null) this.lines.push(`${file}, token ${first}: ${rule}, ${side} alone: ${gone} tokens become ${come.join(' ').slice(0, 100)}`);
  }
}

function overFiles({ files, isModule, settings, every }) {
  const seen = new Seen();
  files.forEach((file, i) => seen.look(file, { isModule, settings }, every > 0 && i % every === 0));
  return { counts: seen.counts, lines: seen.lines };
}

// The files of the command line, or those of the packages.
function files() {
  const list = option('list', null);
  if (list !== null)
    return fs
      .readFileSync(list, 'utf8')
      .split('\n')
      .filter((it) => it !== '');
  const named = process.argv.slice(2).filter((it, i, words) => !it.startsWith('--') && words[i - 1] !== '--beside');
  return named.length > 0 ? named : packaged();
}

function main() {
  const settings = fs.mkdtempSync(path.join(os.tmpdir(), 'mend-'));
  fs.writeFileSync(path.join(settings, 'all'), `only = ${JSON.stringify(RULES)}\n`);
  for (const rule of [...RULES, 'no-const-assign']) fs.writeFileSync(path.join(settings, rule), `only = ["${rule}"]\n`);
  const data = { files: files(), isModule: process.argv.includes('--module'), settings, every: Number(option('beside', 0)) };
  const worker = new Worker(__filename, { workerData: data, resourceLimits: { stackSizeMb: 64 } });
  worker.on('message', ({ counts, lines }) => {
    for (const line of lines) console.log(line);
    for (const [key, count] of [...counts].sort()) console.log(`${key}: ${count}`);
    fs.rmSync(settings, { recursive: true });
    process.exitCode = lines.length > 0 ? 1 : 0;
  });
}

if (!isMainThread) parentPort.postMessage(overFiles(workerData));
else if (require.main === module) main();
