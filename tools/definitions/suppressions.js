'use strict';
// Runs the definitions of comments that turn reports off (crate suppressions) on rows, and beside ESLint:
//
//   node suppressions.js [--plant]         the rows; with --plant each of some faults is planted in the definitions, and a row must see it
//   node suppressions.js --eslint N [S]    N random scripts, from a seed on: what ESLint's rules report with its own comments is what the definitions leave of what they report without

const fs = require('node:fs');
const path = require('node:path');
const antt = require('./antt.js');
const { copyOf } = require('./planting.js');
const { Model, CRATES, PLAIN_MODEL, plainTree } = require('./model.js');
const { parseOnly } = require(path.join(PLAIN_MODEL, 'parse.js'));
const { randomSource } = require(path.join(PLAIN_MODEL, 'random.js'));

const crates = path.join(__dirname, '../../crates');
const OWN = ['rule_words', 'text_rules', 'suppressions'];
class Suppressions {
  constructor(folder = crates) {
    this.model = new Model([...CRATES, ...OWN.map((crate) => path.join(folder, crate))]);
    const { spec } = this.model;
    this.left = spec.fn('left', 'Left', 'suppressions');
    this.unused = spec.fn('unused', 'Left', 'suppressions');
  }
  // the tree of a text
  treeOf(text, language = 'base') {
    const read = parseOnly(text, { maxHeight: 1e5, maxParens: 1e5, ...(language === 'base' ? {} : { edition: 2022, module: language === 'module' }) });
    if (!read.ok) throw new Error(`no script: ${text}`);
    return this.model.tree(plainTree(read.tree, language));
  }
  // which of these reports are left, [start, end, rule] each, and the unused suppressions as [start, end, text]
  told(text, reports, eslint = false, language = 'base') {
    const tree = this.treeOf(text, language),
      bytes = antt.bytes(text),
      given = antt.fromArray(reports.map(([start, stop, rule]) => ({ start, stop, rule: antt.bytes(rule), text: antt.bytes('') })));
    const left = antt.toArray(this.left(eslint, bytes, tree, given)).map((it) => [it.start, it.stop, antt.text(it.rule)]);
    const unused = antt.toArray(this.unused(eslint, bytes, tree, given)).map((it) => [it.start, it.stop, antt.text(it.text)]);
    return { left, unused };
  }
}

// ---------------------------------------------------------------- rows

// A report stands at each `debugger` (no-debugger), and at each `var` (no-var). A row: a text; which of them are left, by their number; what is said of comments that turn none off.
const ALL = 'there is no report to turn off';
const vain = (rule) => `'${rule}' has no report to turn off`;
const ROWS = [
  ['debugger; var a;', '0 1', []],
  // a line
  ['debugger; // jslint-disable-line', '', []],
  ['debugger; // jslint-disable-line\ndebugger;', '1', []],
  ['// jslint-disable-line\ndebugger;', '0', [ALL]],
  ['debugger; /* jslint-disable-line */', '', []],
  ['/* jslint-disable-line */ debugger', '', []],
  ['debugger; var a; // jslint-disable-line no-var', '0', []],
  ['debugger; var a; // jslint-disable-line no-debugger, no-var', '', []],
  ['debugger; var a; // jslint-disable-line no-debugger no-var', '', []],
  ['debugger; var a; // jslint-disable-line no-debugger,no-such -- no-var', '1', [vain('no-such')]],
  ['debugger; // jslint-disable-line -- why', '', []],
  ['debugger; // jslint-disable-line --why', '', []],
  ['debugger; // jslint-disable-line - why', '0', [vain('-'), vain('why')]],
  ['debugger; // jslint-disable-line -no-var', '0', [vain('-no-var')]],
  ['debugger; // jslint-disable-lines', '0', []],
  ['debugger; // xjslint-disable-line', '0', []],
  ['debugger; // a jslint-disable-line', '0', []],
  ['debugger; //jslint-disable-line', '', []],
  ['debugger; //\tjslint-disable-line\tno-debugger', '', []],
  ['debugger; // JSLINT-disable-line', '0', []],
  ['debugger; // eslint-disable-line', '0', []],
  ['debugger; // eslint-disable-line', '', [], 'eslint'],
  ['debugger; // jslint-disable-line', '', [], 'eslint'],
  ['debugger; /* jslint-disable-line\n*/', '', []],
  ['debugger; /*\njslint-disable-line */ debugger;', '1', []],
  // the next line
  ['// jslint-disable-next-line\ndebugger;', '', []],
  ['// jslint-disable-next-line\r\ndebugger;', '', []],
  ['// jslint-disable-next-line\u2028debugger;', '', []],
  ['// jslint-disable-next-line\n\ndebugger;', '0', [ALL]],
  ['debugger; // jslint-disable-next-line\ndebugger;', '0', []],
  ['/* jslint-disable-next-line\n no-var */ debugger;\ndebugger; var a;', '0 1', []],
  ['// jslint-disable-next-line', '', [ALL]],
  ['// jslint-disable-next-line\n// jslint-disable-next-line no-var\ndebugger; var a;', '0', [ALL]],
  // regions
  ['/* jslint-disable */ debugger;\nvar a;', '', []],
  ['debugger; /* jslint-disable */ debugger;', '0', []],
  ['/* jslint-disable */ debugger; /* jslint-enable */ debugger;', '1', []],
  ['/* jslint-disable no-var */ debugger; var a;', '0', []],
  ['/* jslint-disable */ debugger; /* jslint-enable no-var */ debugger; var a;', '2', []],
  ['/* jslint-disable no-var */ var a; /* jslint-enable */ var b;', '1', []],
  ['/* jslint-disable no-var */ var a; /* jslint-enable no-debugger */ var b;', '', []],
  ['/* jslint-disable */ /* jslint-disable no-var */ var a; debugger;', '', []],
  ['/* jslint-disable no-debugger */ /* jslint-enable */ debugger;', '0', [vain('no-debugger')]],
  ['/* jslint-disable *//* jslint-disable */ debugger;', '', [ALL]],
  ['// jslint-disable\ndebugger;', '0', []],
  ['/* jslint-disable */ debugger; // jslint-enable\ndebugger;', '', []],
  ['/* jslint-disable\n no-debugger,\n no-var -- why\n*/ debugger; var a;', '', []],
  ['/** jslint-disable */ debugger;', '0', []],
  ['/*jslint-disable*/ debugger', '', []],
  ['/* jslint-disable */ debugger; // jslint-disable-line', '', [ALL]],
  ['/* eslint-disable */ debugger;', '', [], 'eslint'],
  ['/* eslint-disable */ /* jslint-enable */ debugger;', '0', [ALL], 'eslint'],
  // what is no comment, and what is one
  ['debugger; "// jslint-disable-line"', '0', []],
  ['debugger; x = /[// jslint-disable-line]/', '0', []],
  ['debugger; x = a / 2 // jslint-disable-line -- /', '', []],
  ['debugger; `// jslint-disable-line`', '0', []],
  ['`${debug /* jslint-disable-line */}`; debugger', '', []],
  ['debugger; `a${b}// jslint-disable-line`', '0', []],
  ['debugger; /* // jslint-disable-line */', '0', []],
  ['debugger; // /* jslint-disable-line */', '0', []],
  ['debugger; x = "\\"" // jslint-disable-line -- "', '', []],
  ['\ufeffdebugger; // jslint-disable-line', '', []],
  ['#! jslint-disable-line\ndebugger;', '0', [], '', 'script'],
  ['#!/* jslint-disable */\ndebugger; // jslint-disable-line', '', [], '', 'script'],
  ['\u00e9\u6f22(); debugger; // jslint-disable-line \u6f22', '0', [vain('\u6f22')]],
  ['debugger; //\u00a0jslint-disable-line\u3000no-debugger', '', []],
];

function reportsIn(text) {
  const found = [];
  for (const it of text.matchAll(/\b(?:debugger|var)\b(?!\*)/g)) {
    const before = text.slice(0, it.index);
    if (/(?:no-|[`"'\w-])$/.test(before)) continue;
    const start = Buffer.byteLength(before);
    found.push([start, start + it[0].length, `no-${it[0]}`]);
  }
  return found;
}

// what the definitions say otherwise of the rows
function otherwise(definitions) {
  const lines = [];
  for (const [text, wanted, said, words = '', language = 'base'] of ROWS) {
    const reports = reportsIn(text),
      { left, unused } = definitions.told(text, reports, words === 'eslint', language);
    const got = left.map((it) => reports.findIndex((other) => other[0] === it[0] && other[2] === it[2])).join(' '),
      saying = unused.map((it) => it[2]);
    if (got !== wanted || saying.join() !== said.join())
      lines.push(`${JSON.stringify(text)}\n  definitions [${got}] ${saying.join('; ')}\n  row         [${wanted}] ${said.join('; ')}`);
  }
  return lines;
}

// ---------------------------------------------------------------- faults

const FAULTS = [
  [
    'a comment goes on past its line',
    'Comments',
    'end_at LineComment c at stop = cond (is_line_terminator c) (Some at) None',
    'end_at LineComment c at stop = None',
  ],
  ['a comment has its line end', 'Comments', '(Some at) None\nend_at Block', '(Some stop) None\nend_at Block'],
  ['the last comment of a text is lost', 'Comments', 'last_end LineComment at = Some at', 'last_end LineComment at = None'],
  ['a comment begins with its second mark', 'Comments', 'begun_after Slash begun at = begun', 'begun_after Slash begun at = at'],
  ['literals are read', 'Comments', 'cond (is_opaque (kind_of tree)) (comments_between text from (start_of tree)) []', '[]'],
  [
    'a block is closed by a line end',
    'Comments',
    'end_at BlockComment c at stop = None',
    'end_at BlockComment c at stop = cond (is_line_terminator c) (Some at) None',
  ],
  ['no comma parts words', 'Words', 'one_of "," c || (is_white_space', '(is_white_space'],
  ['a line end parts no words', 'Words', ' || is_line_terminator c)', ')'],
  ['the last word is lost', 'Words', 'words_from text from at [] = word text from at', 'words_from text from at [] = []'],
  ['a dash begins the reason', 'Words', ' && nat_eq (slice_index word 1) 0x2D)', ')'],
  ['the last mark is a word', 'Words', '(length comment - 2)', '(length comment)'],
  ['every comment is a block', 'Words', 'nat_eq (slice_index comment 1) 0x2A', 'true'],
  ["ESLint's words count unasked", 'Directives', '(cond eslint (eslint_directive word) None)', '(eslint_directive word)'],
  ["ESLint's words never count", 'Directives', '(cond eslint (eslint_directive word) None)', 'None'],
  ['a region begins in any comment', 'Directives', 'reaches Region is_block Disable = is_block', 'reaches Region is_block Disable = true'],
  ['a region ends in any comment', 'Directives', 'reaches Region is_block Enable = is_block', 'reaches Region is_block Enable = true'],
  ['the next line is its own', 'Suppressions', 'line_of text comment.end + 1', 'line_of text comment.end'],
  ['the next line is counted from the beginning', 'Suppressions', 'line_of text comment.end + 1', 'line_of text comment.start + 1'],
  [
    'its line is that of its end',
    'Suppressions',
    'from_of Line text comment = line_of text comment.start',
    'from_of Line text comment = line_of text comment.end',
  ],
  ['names in the reason count', 'Suppressions', 'cond (begins_reason name) [] (suppression o', 'cond false [] (suppression o'],
  ['a reason alone names nothing', 'Suppressions', 'cond (begins_reason name) (suppression o None ∷ [])', 'cond (begins_reason name) []'],
  ['the first decides', 'Deciding', '(Some (decision index s)) so_far)', '(or_first so_far (decision index s)) so_far)'],
  ['names are not looked at', 'Deciding', 'is_named (Some name) rule = bytes_eq name rule', 'is_named (Some name) rule = true'],
  ['a region begins behind its comment', 'Deciding', 'nat_le s.from key', 'nat_lt s.from key'],
  ['a line goes on', 'Deciding', 'is_there Line from key = nat_eq from key', 'is_there Line from key = true'],
  ['the next line goes on', 'Deciding', 'is_there NextLine from key = nat_eq from key', 'is_there NextLine from key = true'],
  ['what turns on turns off', 'Deciding', 'd.turns_off && is_there', 'is_there'],
  ['what is on is unused', 'Left', 's.turns_off && not is_used', 'not is_used'],
  ['nothing is unused', 'Left', 's.turns_off && not is_used', 'false'],
  [
    'a line sees what a region turned off',
    'Left',
    'unused_in Line eslint text tree (in_regions eslint text tree reports)',
    'unused_in Line eslint text tree reports',
  ],
];

function plant() {
  let unseen = 0;
  for (const [name, module, old, now] of FAULTS) {
    const folder = copyOf(crates, OWN),
      file = path.join(folder, `suppressions/specs/${module}.antt`),
      text = fs.readFileSync(file, 'utf8');
    if (text.split(old).length !== 2) throw new Error(`${name}: stands ${text.split(old).length - 1} times`);
    let changed = text
      .replace(old, () => now)
      .replace('nat_le,', 'nat_le, nat_lt,')
      .replace('◌||◌, cond, length', '◌||◌, true, cond, length')
      .replace('{ℕ, ◌+◌, Bool, cond, List', '{ℕ, ◌+◌, Bool, false, cond, List');
    if (now.includes('or_first'))
      changed += '\nabbrev pub or_first : Option Decision → Decision → Option Decision\nor_first None d = Some d\nor_first (Some a) d = Some a\n';
    fs.writeFileSync(file, changed);
    const lines = otherwise(new Suppressions(folder));
    fs.rmSync(folder, { recursive: true });
    unseen += lines.length === 0 ? 1 : 0;
    console.log(`${lines.length === 0 ? 'NOT SEEN' : 'seen'}: ${name}${lines.length ? `: ${lines[0].split('\n')[0]}` : ''}`);
  }
  console.log(`${FAULTS.length} faults, ${unseen} not seen`);
  return unseen === 0;
}

// ---------------------------------------------------------------- beside ESLint

const DIRECTIVES = ['disable', 'enable', 'disable-line', 'disable-next-line', 'disable-lines'];
const NAMES = ['', '', ' no-debugger', ' no-var', ' no-var, no-debugger', ' no-such', ' -- why', ' no-var -- no-debugger'];
const ENDS = ['\n', '\r\n', '\u2028', '\n\n'];
const PIECES = ['debugger;', 'var a;', '"// eslint-disable-line";', '`/* eslint-disable */`;', 'a / 2;', '/[//]/;', 'f();', '`a${b}`;'];

function randomScript(random) {
  let text = '';
  for (let left = 2 + random.below(9); left > 0; left -= 1) {
    const pick = random.below(5);
    if (pick < 2) text += PIECES[random.below(PIECES.length)];
    else if (pick === 2) text += ENDS[random.below(ENDS.length)];
    else {
      const words = `${random.below(4) ? ' ' : ''}eslint-${DIRECTIVES[random.below(DIRECTIVES.length)]}${NAMES[random.below(NAMES.length)]}`;
      text += random.below(2) ? `/*${words}${random.below(3) ? ' ' : '\n'}*/` : `//${words}${ENDS[random.below(ENDS.length)]}`;
    }
  }
  return text;
}

// ESLint ignores what the definitions take: a comment of several lines for lines, and reasons where they are of a later version
const isLeftOut = (text) => /\/\*(?:(?!\*\/)[^])*-line(?:(?!\*\/)[^])*[\n\r\u2028\u2029](?:(?!\*\/)[^])*\*\//.test(text);

function besideEslint(count, seed) {
  const { Linter } = require('eslint'),
    linter = new Linter(),
    definitions = new Suppressions(),
    random = randomSource(seed);
  const verify = (text, options) =>
    linter
      .verify(text, { parserOptions: { ecmaVersion: 2020 }, rules: { 'no-debugger': 2, 'no-var': 2 } }, options)
      .filter((it) => it.ruleId === 'no-debugger' || it.ruleId === 'no-var')
      .map((it) => `${it.line}:${it.column} ${it.ruleId}`);
  // (version 6 knows no reasons)
  const withoutReasons = (text) => text.replace(/ -- (?:why|no-debugger)/g, (it) => ' '.repeat(it.length));
  let tried = 0,
    wrong = 0;
  while (tried < count) {
    const text = randomScript(random);
    if (isLeftOut(text)) continue;
    tried += 1;
    const all = verify(text, { allowInlineConfig: false }),
      wanted = verify(withoutReasons(text), {});
    const starts = [0, ...Array.from(text.matchAll(/\r\n|[\n\r\u2028\u2029]/g), (it) => it.index + it[0].length)];
    const reports = all.map((it) => {
      const [, line, column, rule] = /(\d+):(\d+) (.*)/.exec(it),
        at = Buffer.byteLength(text.slice(0, starts[line - 1] + Number(column) - 1));
      return [at, at + 3, rule];
    });
    const left = definitions.told(text, reports, true).left.map((it) => all[reports.findIndex((other) => other[0] === it[0] && other[2] === it[2])]);
    if (left.join() === wanted.join()) continue;
    wrong += 1;
    if (wrong < 6) console.log(`${JSON.stringify(text)}\n  definitions ${left.join(', ')}\n  ESLint      ${wanted.join(', ')}`);
  }
  console.log(`${tried} scripts, ${wrong} otherwise`);
  return wrong === 0;
}

function main(words) {
  if (words[0] === '--eslint') return besideEslint(Number(words[1]), Number(words[2] ?? 1));
  if (words[0] === '--plant') return plant();
  const lines = otherwise(new Suppressions());
  console.log([...lines, `${ROWS.length} rows, ${lines.length} otherwise`].join('\n'));
  return lines.length === 0;
}

module.exports = { Suppressions };
if (require.main === module) process.exitCode = main(process.argv.slice(2)) ? 0 : 1;
