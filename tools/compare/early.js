'use strict';
// Holds `first_early_error` against the plain model over random scripts.
//
//   node early.js [--n COUNT] [--seed S] [--show K] [--keep FOLDER] [--file TEXTS]
//
// Makes COUNT scripts that are dense in names, labels, jumps, functions and classes, beside the model's own programs and
// mutations of them, half of them with what the 12th edition adds, copies the crates to a temporary folder, runs the program early.txt there by `rt try` (no proof) and
// compares its answers with early.js. Exit status 1 where anything disagrees.

const fs = require('node:fs');
const path = require('node:path');
const { answersOf, copied, option, pieces, withAdditions } = require('./shared.js');
const { sample } = require('../model/brute.js');
const { earlyErrors } = require('../model/early.js');
const { PROGRAMS } = require('../model/fuzz-programs.js');
const { LIMITS, parseOnly } = require('../model/parse.js');
const { randomSource } = require('../model/random.js');

// ---------------------------------------------------------------- scripts dense in early errors

function makeScript(source) {
  const names = source.pick([
    ['a', 'b'],
    ['a', 'b', 'c', 'd'],
    ['a', 'b', 'c', 'd', 'e', 'f', 'g', 'h'],
  ]);
  const rare = (x, y) => (source.below(60) === 0 ? x : y);
  const name = () => rare(source.pick(['eval', 'arguments']), source.pick(names));
  const many = (n, f, glue) => Array.from({ length: source.below(n + 1) }, f).join(glue);
  const pattern = (d) => {
    if (d <= 0) return name();
    switch (source.below(9)) {
      case 0:
        return `[${many(2, () => pattern(d - 1) + source.pick(['', ' = ' + expr(d - 1)]), ', ')}${source.pick(['', ', ...' + pattern(d - 1)])}]`.replace(
          '[, ',
          '['
        );
      case 1:
        return `{${many(2, () => source.pick([name(), `${name()}: ${pattern(d - 1)}`, `${name()} = ${expr(d - 1)}`]), ', ')}}`;
      default:
        return name();
    }
  };
  const key = () =>
    source.pick([name(), 'constructor', 'prototype', "'constructor'", "'prototype'", '"\\x63onstructor"', '0', `[${name()}]`, "'proto\\\ntype'"]);
  const params = (d) => many(3, () => pattern(d) + source.pick(['', '', '', ' = 1']), ', ');
  const body = (d) => `{ ${source.pick(['', '', '', "'use strict'; "])}${list(d - 1, true)} }`;
  const member = (d) =>
    source.pick(['', '', 'static ']) +
    source.pick([() => `${key()}(${params(1)}) ${body(d)}`, () => `get ${key()}() ${body(d)}`, () => `set ${key()}(${pattern(1)}) ${body(d)}`])();
  const klass = (d) => `${source.pick(['', '', ' extends ' + name()])} { ${many(3, () => member(d), ' ')} }`;
  const expr = (d) => {
    if (d <= 0) return source.pick([name, () => '1', name])();
    switch (source.below(16)) {
      case 0:
        return `(${params(1)}) => ${source.pick([() => body(d), () => expr(d - 1).replace(/^\{/, '1 + {')])()}`;
      case 1:
        return `(function ${source.pick(['', name()])}(${params(1)}) ${body(d)})`;
      case 2:
        return rare(`(class ${source.pick(['', name()])}${klass(d)})`, `(class${klass(d)})`);
      case 3:
        return `(${name()} = ${expr(d - 1)})`;
      case 4:
        return `({ ${many(2, () => source.pick([`${key()}: ${expr(d - 1)}`, member(d).replace('static ', '')]), ', ')} })`;
      case 5:
        return rare('super.a', rare('super()', rare('new.target', name())));
      case 6:
        return rare('delete a', 'delete a.b');
      case 7:
        return rare('`\\1`', 'a`\\1`');
      case 8:
        return rare('/a/gg', '/[/]/gi');
      case 9:
        return `${name()}++`;
      case 10:
        return `(${pattern(1).replace(/^[a-z]+$/, '[$&]')} = ${expr(d - 1)})`;
      case 11:
        return `f(${expr(d - 1)}, super.x)`.replace(/, super\.x/, source.below(10) ? '' : ', super.x');
      default:
        return `${name()} + ${name()}`;
    }
  };
  const statement = (d, inFunction) => {
    if (d <= 0) return source.pick([`${name()};`, ';', `var ${name()};`]);
    const inner = () => statement(d - 1, inFunction);
    switch (source.below(24)) {
      case 0:
      case 1:
        return `{ ${list(d - 1, inFunction)} }`;
      case 2:
        return `var ${pattern(2).replace(/^[[{].*$/s, (p) => p + ' = 1')};`;
      case 3:
        return `if (${name()}) ${inner()} else ${inner()}`;
      case 4:
        return `while (${name()}) ${inner()}`;
      case 5:
        return `do ${inner()} while (${name()});`;
      case 6:
        return `for (${source.pick(['let', 'var', 'const'])} ${name()} = 1${source.pick(['', ', ' + name() + ' = 2'])}; ;) ${inner()}`;
      case 7:
        return `for (${source.pick(['let ', 'var ', 'const '])}${pattern(2)} ${source.pick(['of', 'in'])} ${expr(d - 1)}) ${inner()}`;
      case 8:
        return `for (${name()} ${source.pick(['of', 'in'])} ${name()}) ${inner()}`;
      case 9:
        return `switch (${expr(d - 1)}) { ${many(3, () => `case ${expr(d - 1)}: ${list(d - 2, inFunction)}`, ' ')} }`;
      case 10:
        return `try { ${list(d - 1, inFunction)} } catch ${source.pick(['', `(${pattern(2)}) `])}{ ${list(d - 1, inFunction)} }`;
      case 11:
      case 12:
        return `${source.pick(names)}: ${inner()}`;
      case 13:
        return rare('break;', `while (1) break;`);
      case 14:
        return rare(
          'continue;',
          `while (1) { ${source.pick(['if (1) ', 'switch (1) { case 1: '])}`
            .replace(/switch.*$/, 'switch (1) { case 1: continue; } }')
            .replace(/if \(1\) $/, 'if (1) continue; }')
        );
      case 15:
        return `${source.pick(names)}: while (1) { ${source.pick(['break', 'continue'])} ${source.pick(names)}; }`;
      case 16:
        return source.below(4) ? ';' : `${source.pick(['break', 'continue'])} ${source.pick(names)};`;
      case 17:
        return inFunction ? `return ${expr(d - 1)};` : ';';
      default:
        return expr(d).replace(/^(\{|function|class)/, '1 + $1') + ';';
    }
  };
  const item = (d, inFunction) => {
    switch (source.below(9)) {
      case 0:
        return `let ${name()}${source.pick(['', ' = 1'])};`;
      case 1:
        return source.below(12) ? `const ${pattern(2)} = 1;` : `const ${name()};`;
      case 2:
        return `function ${name()}(${params(2)}) ${body(d)}`;
      case 3:
        return `class ${name()}${klass(d)}`;
      case 4:
        return `let ${name()}, ${name()};`;
      default:
        return statement(d, inFunction);
    }
  };
  const list = (d, inFunction) => (d <= 0 ? '' : many(4, () => item(d - 1, inFunction), ' '));
  return list(2 + source.below(5), false);
}

function mutated(source, pool) {
  const list = pieces(source.pick(PROGRAMS));
  for (let m = source.below(3); m >= 0; m--) {
    const i = source.below(list.length + 1);
    switch (source.below(3)) {
      case 0:
        list.splice(i, 1);
        break;
      case 1:
        list.splice(i, 0, source.pick(pool));
        break;
      default:
        list[Math.min(i, list.length - 1)] = source.pick(pool);
    }
  }
  return list.join('');
}

function makeTexts(count, seed) {
  const source = randomSource(seed);
  const pool = PROGRAMS.flatMap(pieces).filter((p) => p.trim() !== '');
  const texts = [];
  for (let k = 0; k < count; k++) {
    texts.push(makeScript(source));
    if (k % 4 === 0) texts.push(mutated(source, pool));
    if (k % 4 === 1) texts.push(sample(source.next, 10 + source.below(80)).join(' '));
  }
  return [...PROGRAMS, ...withAdditions(source, texts)].filter((t) => t.isWellFormed() && !t.includes('\0'));
}

function answer(text) {
  const result = parseOnly(text, { maxHeight: 1e6, maxParens: 1e6 });
  if (!result.ok) return result.fault.kind;
  if (result.height > LIMITS.maxHeight || result.openParens > LIMITS.maxParens) return 'TooDeep';
  const first = earlyErrors(result.tree, text)[0];
  return first === undefined ? 'none' : `E${first.number} ${first.at}`;
}

function main() {
  const file = option('file', null);
  const texts = file !== null ? fs.readFileSync(file, 'utf8').split('\0') : makeTexts(Number(option('n', 1000)), Number(option('seed', 1)));
  const answers = answersOf(copied(path.join(__dirname, 'early.txt'), ['source_text', 'language', 'parser', 'early_errors']), texts, 8000);
  const seen = {};
  let differ = 0;
  for (let i = 0; i < answers.length; i++) {
    const wanted = answer(texts[i]);
    const what = wanted.split(' ')[0];
    seen[what] = (seen[what] ?? 0) + 1;
    if (wanted === answers[i]) continue;
    differ += 1;
    if (differ > Number(option('show', 20))) continue;
    console.log(JSON.stringify(texts[i]) + '\n  model: ' + wanted + '\n  crate: ' + answers[i]);
  }
  console.log(JSON.stringify(seen));
  console.log(`${answers.length} texts, ${differ} disagreements`);
  if (differ > 0) process.exitCode = 1;
}

module.exports = { makeScript };
if (require.main === module) main();
