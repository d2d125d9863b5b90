// Documents, edits, underlines, ignore files, settings, hints and small changes, without a server.
import assert from 'node:assert/strict';
import { spawnSync } from 'node:child_process';
import { mkdirSync, mkdtempSync, readFileSync, rmSync, symlinkSync, writeFileSync } from 'node:fs';
import { tmpdir } from 'node:os';
import path from 'node:path';
import { test } from 'node:test';
import { Refused, check, fix, format, indexOf, same, spans, tree, unwrap } from '../../jslint.mjs';
import { Beside } from '../../lib/beside.mjs';
import { isCast, losesCast } from '../../lib/casts.mjs';
import { Judge } from '../../lib/changes.mjs';
import { Document, ENCODINGS } from '../../lib/document.mjs';
import { applied, editsBetween, layoutEditsBetween } from '../../lib/edits.mjs';
import { Engine } from '../../lib/engine.mjs';
import { Frames, framed } from '../../lib/frames.mjs';
import { earlyHint, syntaxHint } from '../../lib/hints.mjs';
import { isIgnored, patternsOf } from '../../lib/ignore.mjs';
import { Jobs } from '../../lib/jobs.mjs';
import { ENVIRONMENTS, settingsWith, withoutFormat } from '../../lib/settings.mjs';
import { withoutSuppressed } from '../../lib/suppressions.mjs';

const answered = (call) => {
  try {
    return call();
  } catch (error) {
    if (error instanceof Refused) return null;
    throw error;
  }
};
const judge = (text) => new Judge({ fix, spans, tree, unwrap }, answered, text);
const jobs = new Jobs({ check, fix, format, spans, tree, unwrap });

let seed = Number(process.env.SEED ?? 20261128);
const random = (most) => {
  seed = (seed * 1103515245 + 12345) % 2147483648;
  return seed % most;
};
const PIECES = ['a', 'bc', ' ', '\n', '\r', '\r\n', '\u2028', 'é', '漢', '😀', '\ufeff', 'let x = (1);', ''];
const some = (most) => Array.from({ length: random(most) }, () => PIECES[random(PIECES.length)]).join('');

test('documents: lines and places after random changes are those of the whole text', () => {
  for (let round = 0; round < 3000; round++) {
    const encoding = ENCODINGS[round % 3],
      document = new Document({ uri: 'a', text: some(12), version: 1 }, encoding);
    for (let step = 0; step < 5; step++) {
      const points = [...boundaries(document.text)],
        [a, b] = [points[random(points.length)], points[random(points.length)]].sort((x, y) => x - y),
        put = some(4);
      const wanted = document.text.slice(0, a) + put + document.text.slice(b);
      // (a place within a CR LF isn't a place of the protocol's: it counts as the line's end)
      const isPlace = (at) => document.indexAt(document.positionAt(at)) === at;
      if (!isPlace(a) || !isPlace(b)) continue;
      document.change([{ range: document.rangeOf(a, b), text: put }], step);
      assert.equal(document.text, wanted);
      assert.deepEqual(document.lines, new Document({ text: wanted }, encoding).lines);
    }
    for (const at of boundaries(document.text)) {
      const place = document.positionAt(at),
        back = document.indexAt(place);
      assert.ok(back === at || document.text.slice(back, at) === '\r', JSON.stringify([document.text, at, place, back]));
      const line = document.text.slice(document.lines[place.line], at);
      const width = { 'utf-16': line.length, 'utf-8': Buffer.byteLength(line), 'utf-32': [...line].length }[encoding];
      assert.equal(place.character, width);
    }
  }
});

function* boundaries(text) {
  for (let at = 0; at <= text.length; at++) if (!/^[\ud800-\udbff][\udc00-\udfff]$/.test(text.slice(at - 1, at + 1)) || at === 0) yield at;
}

test('documents: what is beyond a line or the text', () => {
  const document = new Document({ text: 'a😀\r\nb' }, 'utf-8');
  assert.equal(document.indexAt({ line: 0, character: 99 }), 3);
  assert.equal(document.indexAt({ line: 9, character: 9 }), 6);
  assert.equal(document.indexAt({ line: 0, character: 3 }), 1, 'within a character: its start');
  for (const it of [undefined, null, 1, {}, { line: -1, character: 0 }, { line: 0, character: 1.5 }, { line: '0', character: 0 }])
    assert.throws(() => document.indexAt(it), { code: -32602 });
});

test('edits: they make the second text, whatever the texts are', () => {
  for (let round = 0; round < 4000; round++) {
    const a = some(20),
      b = random(2) ? some(20) : a.slice(0, random(a.length + 1)) + some(3) + a.slice(random(a.length + 1));
    assert.equal(applied(a, editsBetween(a, b)), b);
  }
});

test('edits: small ones for small differences', () => {
  const a = 'f((a), b);\n'.repeat(50),
    b = 'f(a, b);\n'.repeat(50),
    edits = editsBetween(a, b);
  assert.equal(applied(a, edits), b);
  assert.ok(edits.length === 100 || edits.length === 50, `${edits.length}`);
  assert.ok(edits.every((it) => it.end - it.start <= 3 && it.text.length <= 1));
});

test('ignore files: as git says', (t) => {
  const folder = mkdtempSync(path.join(tmpdir(), 'jslint-'));
  t.after(() => rmSync(folder, { recursive: true }));
  if (spawnSync('git', ['init', '-q', folder]).status !== 0) return t.skip('no git');
  const PARTS = ['a', 'b', 'a.js', 'b.js', '*', '**', '/', '/', '?', '[ab]', '[!a]', '!', '*.js', 'c', '\\', '#', ' ', 'd/', '[[:alpha:]]', 'a*b'];
  const paths = [];
  for (const one of ['a', 'b', 'c', 'a.js', 'ab'])
    for (const two of ['', 'a', 'b.js', 'c'])
      for (const three of ['', 'a.js', 'd', '!a']) if (two || !three) paths.push([one, two, three].filter(Boolean).join('/'));
  let differ = 0;
  for (let round = 0; round < Number(process.env.ROUNDS ?? 100); round++) {
    const lines = Array.from({ length: 1 + random(4) }, () => Array.from({ length: 1 + random(4) }, () => PARTS[random(PARTS.length)]).join('')).join('\n');
    // (git compares what stands before the first wildcard by itself, and takes the `**` of `a**/b` for one at the beginning; gitignore(5) has it as
    // two plain stars)
    if (/[^/\n]\*\*+\//.test(lines)) continue;
    writeFileSync(path.join(folder, '.gitignore'), `${lines}\n`);
    const ran = spawnSync('git', ['-C', folder, 'check-ignore', '--no-index', '-z', '--stdin'], { input: paths.join('\0') });
    const wanted = new Set(ran.stdout.toString().split('\0').filter(Boolean)),
      list = patternsOf(lines);
    for (const it of paths) {
      const is = isIgnored(it, false, (at) => (at === '' ? list : []));
      if (is !== wanted.has(it)) {
        differ++;
        if (differ < 9) t.diagnostic(JSON.stringify([lines, it, is, wanted.has(it)]));
      }
    }
  }
  assert.equal(differ, 0);
});

test('ignore files: a nearer file decides, and nothing comes back below an ignored folder', () => {
  const files = { '': patternsOf('*.js\nout/'), a: patternsOf('!keep.js'), out: patternsOf('!*.js') },
    of = (at) => files[at] ?? [];
  assert.equal(isIgnored('a/keep.js', false, of), false);
  assert.equal(isIgnored('a/other.js', false, of), true);
  assert.equal(isIgnored('out/x.js', false, of), true);
});

test('ignore files: no pattern takes long', () => {
  const begun = process.cpuUsage();
  for (const line of [`${'*a'.repeat(60)}b`, Array(60).fill('**/*a').join('/'), `/${'**/'.repeat(200)}b`]) {
    const list = patternsOf(line);
    assert.equal(isIgnored(Array(8).fill('a'.repeat(200)).join('/'), false, (at) => (at === '' ? list : [])), false);
  }
  assert.ok(process.cpuUsage(begun).user < 3e6);
});

test('ignore files: in a folder, in those above it, and in .git', () => {
  const top = mkdtempSync(path.join(tmpdir(), 'jslint-ignore-')),
    beside = new Beside();
  try {
    for (const folder of ['.git/info', 'a/b', 'inner']) mkdirSync(path.join(top, folder), { recursive: true });
    for (const [name, text] of [
      ['.git/info/exclude', 'x*.js\ny.js\n'],
      ['.gitignore', '!xa.js\n'],
      ['a/.jslintignore', '!y.js\n'],
      ['inner/.git', 'gitdir: elsewhere\n'],
    ]) writeFileSync(path.join(top, name), text);
    const is = (name) => beside.isIgnored(path.join(top, name));
    assert.deepEqual(['x.js', 'a/b/x.js', 'xa.js', 'y.js', 'a/y.js', 'z.js', 'inner/x.js'].map(is), [true, true, false, true, false, false, false]);
  } finally {
    rmSync(top, { recursive: true, force: true });
  }
});

test('edits of a layout: blanks alone, or few characters more; always exactly the other text', () => {
  const told = (a, b) => layoutEditsBetween(a, b).map((it) => [it.start, it.end, it.text]);
  assert.deepEqual(told('f(a,b)\n', 'f(a, b);\n'), [
    [4, 4, ' '],
    [6, 6, ';'],
  ]);
  assert.deepEqual(told('if(a){\n    b\n}\n', 'if (a) {\n  b;\n}\n'), [
    [2, 2, ' '],
    [5, 5, ' '],
    [9, 11, ''],
    [12, 12, ';'],
  ]);
  assert.deepEqual(told('f(\r\n  a,\r\n)\r\n', 'f(a)\r\n'), [
    [2, 6, ''],
    [7, 10, ''],
  ]);
  assert.deepEqual(told('\u{1f600}  \u{1f601}', '\u{1f600} \u{1f601}'), [[3, 4, '']]);
  assert.deepEqual([told('', ''), told('a', 'a'), told('', 'a'), told('a', ''), told(' ', '')], [[], [], [[0, 0, 'a']], [[0, 1, '']], [[0, 1, '']]]);
  for (let round = 0; round < 3000; round++) {
    const parts = Array.from({ length: random(30) }, () => ['a', 'bc', ';', ',', '(', ')', '{', '}', '=>', '/* c */', '😀', 'é', 'x = 1', '`\n`'][random(14)]);
    const spread = () =>
      parts.map((it) => (random(12) === 0 && it.length === 1 ? '' : it) + [' ', '\n', '\r\n', '', '', '  \u2028', '\ufeff'][random(7)]).join('');
    const a = round % 3 ? spread() : some(12),
      b = round % 3 ? spread() : some(12),
      edits = layoutEditsBetween(a, b);
    assert.equal(applied(a, edits), b, JSON.stringify([a, b, edits]));
    assert.ok(edits.every((it) => a.slice(it.start, it.end) !== it.text));
  }
  // (a large text takes no long time, and one changed line one edit)
  const large = 'f(a, b);\n'.repeat(100000),
    begun = process.cpuUsage();
  assert.deepEqual(told(large, `${large.slice(0, 450000)}f( a, b);\n${large.slice(450009)}`), [[450002, 450002, ' ']]);
  assert.ok(process.cpuUsage(begun).user < 5e6);
});

test('jobs: formatting, whole or a stretch', () => {
  const job = (text, more = {}) => jobs.format({ text, settings: '', kind: null, words: [], program: null, ...more });
  const done = (text, more) => applied(text, job(text, more).edits);
  const text = 'f( (a),b ) // c\nif(a){\n    b\n}\n';
  assert.equal(done(text), 'f((a), b); // c\nif (a) {\n  b;\n}\n');
  assert.equal(done(text, { stretch: { start: 16, end: text.length } }), 'f( (a),b ) // c\nif (a) {\n  b;\n}\n');
  assert.equal(done(text, { stretch: { start: 0, end: 15 } }), 'f((a), b); // c\nif(a){\n    b\n}\n');
  assert.equal(done(text, { stretch: { start: 3, end: 3 } }), text);
  assert.equal(done('a\r\n;b = `\r\n`\r\n/*\r\na */'), 'a;\r\nb = `\r\n`;\r\n/*\r\na */\r\n');
  assert.equal(done('export   let a=1'), 'export let a = 1;\n');
  assert.deepEqual([done(''), done('a;\n'), job('a b').refusal.code, job('"a\ud800"').refusal.code], ['', 'a;\n', 'syntax', 'utf8']);
  // (each stretch of a text: the tree stays, and the rest is formatted to the same)
  const made = 'let  x = {a:1,\nb : [1,2 ,3]};// d\nfor(;;){ if(x)\nbreak\nelse { f( ( x ) ) }}\n',
    whole = done(made);
  for (let start = 0; start <= made.length; start += 3) {
    for (let end = start; end <= made.length; end += 5) {
      const it = done(made, { stretch: { start, end } });
      assert.ok(
        it.startsWith(made.slice(0, start)) && it.endsWith(made.slice(end)) && same(it, made) && format(it) === whole,
        JSON.stringify([start, end, it])
      );
    }
  }
  assert.equal(done('x = /** @type {T} */ (a)  ;'), 'x = /** @type {T} */ (a);\n');
});

test('settings: what is put in is read', () => {
  const texts = [
    '',
    'allow-null = true\n',
    'globals = ["a"]\n',
    'globals = [\n  "a",\n  "b",\n]\n[rules]\nno-var = true\n',
    'rules = { no-var = true }\n',
    'rules.no-empty = false\n',
    '[rules]\nno-empty = false\n',
    'globals = []',
  ];
  for (const text of texts) {
    assert.deepEqual(check('zz;', { settings: settingsWith(text, { rule: 'no-undef', name: 'zz' }) }).map((it) => it.rule), [], text);
    assert.deepEqual(check('var $ = 1; $;', { settings: settingsWith(text, { rule: 'no-var', name: null }) }).map((it) => it.rule), [], text);
  }
  for (const it of ['"warn"', "'error'", '1', '2', 'true'])
    assert.equal(settingsWith(`[rules]\nno-var = ${it} # c\n`, { rule: 'no-var', name: null }), '[rules]\nno-var = false # c\n');
});

test('settings: a rule that has options is turned off in its table, and the options stay', () => {
  for (const [text, wanted] of [
    ['rules.no-undef = { typeof = true }\n', 'rules.no-undef = { severity = "off", typeof = true }\n'],
    ['rules.no-undef = {}\n', 'rules.no-undef = { severity = "off"}\n'],
    ['rules = { no-var = 1, no-undef = { typeof = true, severity = 1 } }\n', 'rules = { no-var = 1, no-undef = { typeof = true, severity = "off" } }\n'],
    ['[rules]\n"no-undef" = {severity=true,typeof = true} # c\nno-var = 0\n', '[rules]\n"no-undef" = {severity="off",typeof = true} # c\nno-var = 0\n'],
    ['[rules.no-undef] # c\r\ntypeof = true\r\n', '[rules.no-undef] # c\r\nseverity = "off"\r\ntypeof = true\r\n'],
    [
      "[rules.no-undef]\ntypeof = true\nseverity = 'warn'\n[rules.eqeqeq]\nseverity = 2\n",
      '[rules.no-undef]\ntypeof = true\nseverity = "off"\n[rules.eqeqeq]\nseverity = 2\n',
    ],
    ['[rules.no-undef]', '[rules.no-undef]\nseverity = "off"'],
    ['rules.no-undef.typeof = true\nrules.no-var = 1\n', 'rules.no-undef.severity = "off"\nrules.no-undef.typeof = true\nrules.no-var = 1\n'],
    ['rules.no-undef.typeof = true\nrules.no-undef.severity = "warn"\n', 'rules.no-undef.typeof = true\nrules.no-undef.severity = "off"\n'],
  ]) {
    assert.equal(settingsWith(text, { rule: 'no-undef', name: null }), wanted);
    const rulesBy = (settings) => check('typeof x; eval(var_ == 1);', { settings }).map((it) => it.rule);
    assert.deepEqual(rulesBy(wanted), rulesBy(text).filter((it) => it !== 'no-undef'), text);
    assert.ok(rulesBy(text).includes('no-undef'), text);
  }
});

const rows = JSON.parse(readFileSync(new URL('hints.rows.json', import.meta.url), 'utf8'));
test('hints: each row', () => {
  for (const { text, id, language } of rows) {
    let found = 'accepted';
    try {
      fix(text, { language });
    } catch (error) {
      assert.ok(error instanceof Refused);
      const index = indexOf(text, error.line, error.column);
      found = (error.code === 'early' ? earlyHint(error.number, text, index, language)?.number : syntaxHint(text, index, language)?.id) ?? null;
    }
    assert.equal(found, id, text);
  }
});

test('hints: no text takes long', () => {
  const begun = process.cpuUsage();
  for (const piece of ['class//', 'class{;', 'async(', 'for(var a=', '[{(', '?? ', 'import ', '"\\', 'static '])
    for (const end of ['=', '=>', '{', '"']) syntaxHint(piece.repeat(1000).slice(0, 4000) + end, 4000);
  assert.ok(process.cpuUsage(begun).user < 3e6, process.cpuUsage(begun).user);
});

test('underlines: all that is reported, but of a declaration `var` alone, and of a pair its `(`', () => {
  const underlined = (text) => jobs.check({ text, settings: '' }).reports.map((it) => [it.rule, text.slice(it.start, it.end)]);
  assert.deepEqual(underlined('/* é漢😀 */ var 漢 = ((1));'), [
    ['no-var', 'var'],
    ['no-unused-vars', '漢'],
    ['no-extra-parens', '('],
    ['no-extra-parens', '('],
  ]);
  assert.deepEqual(underlined(''), []);
  assert.deepEqual(underlined("'😀' == 1 != 2;\nif (0) {\n}\ndebugger\nswitch (0) {}"), [
    ['eqeqeq', "'😀' == 1"],
    ['eqeqeq', "'😀' == 1 != 2"],
    ['no-empty', '{\n}'],
    ['no-debugger', 'debugger'],
    ['no-empty', 'switch (0) {}'],
  ]);
  assert.deepEqual(underlined('let a = 1;'), [
    ['no-unused-vars', 'a'],
    ['prefer-const', 'a'],
  ]);
});

test('underlines: no text takes long', () => {
  const begun = process.cpuUsage();
  for (const text of ["'é';(1);".repeat(20000), `(\`${'é'.repeat(4e6)}\`)`, `(/*${'é'.repeat(4e6)}*/ 1)`])
    assert.ok(jobs.check({ text, settings: '' }).reports.length > 0);
  assert.ok(process.cpuUsage(begun).user < 10e6, process.cpuUsage(begun).user);
});

test('one pair: taken out where the tree stays, and not where it does not', () => {
  const gone = (text, start = text.indexOf('(')) => {
    const edits = judge(text).withoutPair(start);
    return edits && applied(text, edits);
  };
  assert.equal(gone('(a);'), 'a;');
  assert.equal(gone('x = ( a ) + b;'), 'x = a + b;');
  assert.equal(gone('() => { return(a); }', 14), '() => { return a; }');
  assert.equal(gone('(1).toString();'), '1 .toString();');
  assert.equal(gone('a+(+b);'), 'a+ +b;');
  assert.equal(gone('f(`${(a)}`);', 5), 'f(`${a}`);');
  assert.equal(gone('f((/[)]/));', 2), 'f(/[)]/);');
  assert.equal(gone('x = (a /* ) */) + b;'), 'x = a /* ) */ + b;');
  assert.equal(gone('x = (\n  // (c)\n  a) + b;'), 'x = \n  // (c)\n  a + b;');
  for (const text of [
    '() => { return (\na); }',
    'throw (\na);',
    'new (f().x)();',
    'x => ({}.a);',
    'for (x = (a in b) && (c in d);;);',
    '(a + b) * c;',
    '("use strict");',
  ]) {
    assert.equal(gone(text, text.startsWith('()') ? 15 : text.startsWith('for') ? 9 : undefined), null, text);
  }
  // (two pairs round one node: one may go)
  assert.equal(gone('((a + b)) * c;'), '(a + b) * c;');
});

test('changes: a candidate with the same tree that loses a comment is seen', () => {
  const text = 'x = (a /* *)/ ; // */ );',
    it = judge(text);
  // (as if the `)` in the comment had been taken for the pair's: the comment ends earlier, and the tree is the same)
  const candidate = 'x = a /* */ ; // */ );';
  assert.deepEqual([it.hasSameTree(candidate), it.hasSameComments(candidate)], [true, false]);
  assert.equal(judge('(a); // b').hasSameComments('a;'), false);
  assert.equal(judge('(a); // b').hasSameComments('a;\n// b'), true);
});

test('a stretch: all its edits or none, and each comment stays', () => {
  const within = (text, from, to) => applied(text, judge(text).unwrappedWithin(from, to));
  const two = 'first = (a);\nsecond = (b);\n';
  assert.equal(within(two, 0, 12), two.replace('(a)', 'a'));
  assert.equal(within(two, 0, 10), two, 'half a pair');
  const moved = '() => { return ( // c\n  a); }';
  for (let from = 0; from < moved.length; from++)
    for (let to = from; to <= moved.length; to++) assert.ok(within(moved, from, to).includes('// c'), `${from} ${to}`);
});

test('let to const: all names of the declaration, and one word', () => {
  const changed = (text) => {
    const names = check(text)
        .filter((it) => it.rule === 'prefer-const')
        .map((it) => it.index),
      found = names.map((it) => judge(text).letToConst(it));
    return found.map((it) => it && applied(text, it.edits));
  };
  assert.deepEqual(changed('let a = 1; a;'), ['const a = 1; a;']);
  assert.deepEqual(changed('let a = 1, b = 2; b = a;'), [null]);
  assert.deepEqual(changed('let { a, b: [c, ...d], e = 1 } = f; a;'), Array(4).fill('const { a, b: [c, ...d], e = 1 } = f; a;'));
  assert.deepEqual(changed('let { a, b } = {}; b = a;'), [null]);
  assert.deepEqual(changed('for (let a of []) a;'), ['for (const a of []) a;']);
  assert.deepEqual(changed('{ let /* l */ a = 1; eval("a = 2"); }'), [null]);
  assert.deepEqual(changed('{ let /* l */ a = 1; }'), ['{ const /* l */ a = 1; }']);
  assert.deepEqual(['let a = 1;', '{ let a = 1; }'].map((it) => judge(it).letToConst(it.indexOf('a')).isTop), [true, false]);
  assert.equal(judge('let a; a = 1;').letToConst(4), null);
});

test('jobs: what is no text, refused settings, CR LF in one layout', () => {
  assert.equal(jobs.check({ text: '"a\ud800"', settings: '' }).refusal.code, 'utf8');
  assert.equal(jobs.check({ text: 'a', settings: '# \ud800' }).refusal.code, 'settings');
  assert.equal(jobs.check({ text: 'a b', settings: '' }).refusal.start, 2);
  const made = (text) => applied(text, jobs.fix({ text }).edits);
  assert.equal(made('(a);\r\nb'), 'a;\r\nb;\r\n');
  assert.equal(made('`a\r\nb`;\r\n'), '`a\r\nb`;\r\n');
  assert.equal(made('(a);\nb\r\n'), 'a;\nb;\n');
  assert.deepEqual(jobs.settings({ settings: 'allow-null = true\nx = 1\n' }), { line: 1 });
  assert.deepEqual(jobs.settings({ settings: Array.from({ length: 9999 }, (_, k) => `x${k} = 1\n`).join('') }), {});
  assert.deepEqual(jobs.settings({ settings: 'x = 1\nx = 1\n' }), { start: 6 });
  assert.deepEqual(jobs.settings({ settings: '# \ud800' }), { line: 0 });
  assert.deepEqual(jobs.settings({ settings: '# \u{1f600}\nx' }), { start: 6 });
});

test('engine: a thread that can not be started fails its job alone; jobs of a lower rank go first; what is cancelled is left out', async () => {
  const engine = new Engine(),
    { start } = engine;
  engine.start = () => {
    engine.start = start;
    throw new Error('no thread');
  };
  await assert.rejects(engine.run('fix', { text: 'a' }), /no thread/);
  const done = [],
    control = new AbortController();
  const runs = [
    ['first', 1],
    ['last', 1],
    ['soon', 0],
  ].map(([text, rank]) => engine.run('fix', { text }, { rank }).then(() => done.push(text)));
  const gone = engine.run('fix', { text: 'gone' }, { signal: control.signal });
  control.abort();
  await assert.rejects(gone, { name: 'AbortError' });
  await Promise.all(runs);
  assert.deepEqual(done, ['first', 'soon', 'last']);
  await engine.end();
  await assert.rejects(engine.run('fix', { text: 'a' }), { name: 'AbortError' });
});

/** A thread that answers after so long, or never. */
class Thread {
  constructor(ms) {
    Object.assign(this, { ms, heard: [], isEnded: false });
  }

  on(name, call) {
    this[name] = call;
  }

  postMessage({ id }) {
    this.heard.push(id);
    if (this.ms !== null)
      setTimeout(() => {
        if (!this.isEnded) this.message({ id, result: id });
      }, this.ms);
  }

  terminate() {
    this.isEnded = true;
  }

  ref() {}

  unref() {}
}

test('engine: a job that is not wanted any more is waited for, and no thread is started anew, unless it goes on for long', async () => {
  for (const [ms, threads] of [
    [100, 1],
    [null, 2],
  ]) {
    const engine = new Engine(),
      made = [],
      { start } = engine;
    engine.start = () => {
      const it = new Thread(made.length ? 1 : ms);
      made.push(it);
      it.on('message', (answer) => {
        if (engine.worker === it && answer.id === engine.now?.id) engine.finish(answer);
      });
      return it;
    };
    assert.equal(typeof start, 'function');
    const control = new AbortController(),
      first = engine.run('check', { text: 'a'.repeat(300000) }, { signal: control.signal }),
      second = engine.run('check', { text: 'b' });
    control.abort();
    await assert.rejects(first, { name: 'AbortError' });
    assert.equal(await second, 2);
    assert.deepEqual([made.length, made.at(-1).heard], [threads, ms === null ? [2] : [1, 2]]);
    await engine.end();
  }
});

test('engine: a job of many proved calls ends before its next one once it is not wanted, and its thread goes on', async () => {
  const said = [],
    engine = new Engine({ isTest: true, onLog: (it) => said.push(it) }),
    control = new AbortController();
  assert.equal(await engine.run('areTaken', 'env = []'), true);
  const { worker } = engine,
    calling = engine.run('callOn', {}, { signal: control.signal });
  control.abort();
  await assert.rejects(calling, { name: 'AbortError' });
  assert.equal(await engine.run('areTaken', 'env ='), false);
  assert.equal(engine.worker, worker);
  assert.deepEqual(said, []);
  await engine.end();
});

test('casts', () => {
  const is = (text) => isCast(text, text.lastIndexOf('('));
  for (const text of [
    '/** @type {T} */ (a)',
    '/** @satisfies {T} */(a)',
    '/**\n * Why.\n * @type {import("x").T}\n */\n\u2028(a)',
    '/** @type {T} */ /* b */ // c\n// d */\n(a)',
    '/* b */ /** @type {/*} */ (a)',
    'x = "/*"; /** @type {T} */ (a)',
  ]) assert.ok(is(text), text);
  for (const text of [
    '(a)',
    '/* @type {T} */ (a)',
    '/** @typedef {T} */ (a)',
    '/** @type {T} */ b = (a)',
    '/** @type {T} */ ((a)',
    '// /** @type {T} */\n(a)',
    '/** b */ (a)',
    '/**/ (a)',
    '/** @type {T} b\n(a)',
    '/** @type {T} */ x /* y */ (a)',
    ' '.repeat(9),
  ]) assert.ok(!is(text), text);
  const begun = process.cpuUsage();
  for (const text of [`/** @type {T} */ ${'/* a */ '.repeat(50000)}(a)`, `${'/* a '.repeat(50000)}*/ (a)`, `${'(// b\n'.repeat(50000)}(`]) is(text);
  assert.ok(process.cpuUsage(begun).user < 3e6);
});

test('casts: a pair that unwrap takes and that is not reported is seen', () => {
  assert.deepEqual(
    [
      ['/** @type {T} */ (a)', '/** @type {T} */ a'],
      ['/** @type {T} */ ((a))', '/** @type {T} */ (a)'],
      ['/** @type {T} */ /* b */ // c\n( (a))', '/** @type {T} */ /* b */ // c\n(a)'],
    ].map(([a, b]) => losesCast(a, b)),
    [true, true, true]
  );
  assert.deepEqual(
    [
      ['/** @type {T} */ (a) + (b)', '/** @type {T} */ (a) + b'],
      ['/** @typedef {T} */ (a)', '/** @typedef {T} */ a'],
      ['/** @type', '/** @type'],
    ].map(([a, b]) => losesCast(a, b)),
    [false, false, false]
  );
  const begun = process.cpuUsage();
  for (const text of ['(/** @type {T} */ (function () {})(a));', 'x = (/** @type {T} */ (a));', 'x = /** @type {T} */ (a);'])
    assert.equal(jobs.unwrap({ text }).hasCasts, true, text);
  for (const text of ['x = (/** @type {T} */ a);', 'x = /** @type {T} */ (a, b);', 'x = /** @type {T} */ (a) => (a);'])
    assert.equal(jobs.unwrap({ text }).hasCasts, false, text);
  for (const piece of ['/** @type {T} */ ', '/** @type ', '/**', '/** @type {T} */ ((', '/** @type {T} */ /* '])
    losesCast(piece.repeat(20000), piece.repeat(20000));
  assert.ok(process.cpuUsage(begun).user < 4e6, `${process.cpuUsage(begun).user}`);
});

test('languages: the first that has a text, by its settings and its kind; else the refusal that got furthest', () => {
  const read = (text, settings = '', kind = null) => {
    const { refusal, edits } = jobs.unwrap({ text, settings, kind });
    return refusal ? `${refusal.code} ${refusal.start}` : applied(text, edits);
  };
  assert.equal(read('export default (a)'), 'export default a');
  assert.equal(read('async () => (a)'), 'async () => a');
  assert.equal(read('await (1)'), 'await (1)');
  assert.equal(read('await (1)', '', 'module'), 'await 1');
  assert.equal(read('async () => (await 1)', 'edition = 2022'), 'async () => await 1');
  assert.deepEqual(['edition = 2022', 'source-type = "module"', ''].map((it) => read('import a from "a"; (a)', it)), Array(3).fill('import a from "a"; a'));
  assert.deepEqual(['edition = 2020', 'source-type = "script"'].map((it) => read('import a from "a"; (a)', it)), ['syntax 7', 'syntax 7']);
  assert.equal(read('import a from "a"; (a)', '', 'script'), 'syntax 7');
  assert.equal(read('(a)', 'source-type = "script"', 'module'), 'a');
  assert.equal(read('import a from "a"; let b = ;'), 'syntax 27');
  assert.equal(read('let a; let a; export {};'), 'early 11');
  assert.equal(read(`${'('.repeat(1300)}a${')'.repeat(1300)}`), 'deep 0');
  assert.equal(read('let a; let a;'), 'early 11');
});

test('environments: the program takes each, and knows others for wrong', () => {
  for (const it of ENVIRONMENTS) assert.deepEqual(check('', { settings: `env = ["${it}"]` }), []);
  assert.throws(() => check('', { settings: 'env = ["deno"]' }), Refused);
  const said = readFileSync(new URL('../../lib/no-undef.md', import.meta.url), 'utf8');
  for (const it of ENVIRONMENTS) assert.ok(said.includes(`\`${it}\``), it);
});

const suppressionRows = [
  ['debugger; // jslint-disable-line', []],
  ['debugger; // jslint-disable-line no-debugger, no-var', []],
  ['debugger; /* // jslint-disable-line\n*/', []],
  ['debugger; /* // jslint-disable-line */', ['no-debugger']],
  ['debugger; // jslint-disable-lines', ['no-debugger']],
  ['"// jslint-disable-line"; debugger;', ['no-debugger']],
  ['// jslint-disable-next-line no-var -- why\nvar a;', ['no-unused-vars']],
  ['// jslint-disable-next-line no-var\n\nvar a;', ['suppression', 'no-var', 'no-unused-vars']],
  ['(1); // jslint-disable-line', ['no-extra-parens', 'suppression']],
  ['// jslint-disable-next-line\u2028debugger;', []],
  ['debugger; // jslint-disable-line no-varr', ['no-debugger', 'suppression']],
];
test('suppressions: as jslint-files reads them', () => {
  const fixed = (text) => answered(() => fix(text));
  for (const [text, wanted] of suppressionRows) assert.deepEqual(withoutSuppressed(text, spans(text), fixed).map((it) => it.rule), wanted, text);
});

test('ignore files: bytes, a byte order mark, slashes in brackets, blanks at the end', () => {
  const top = mkdtempSync(path.join(tmpdir(), 'jslint-ignore-')),
    beside = new Beside();
  try {
    mkdirSync(path.join(top, '.git'));
    writeFileSync(path.join(top, '.gitignore'), '\ufefffirst.js\n??.js\nb[/]c.js\nblank.js  \nkept\\ .js\né.js\n');
    const is = (name) => beside.isIgnored(path.join(top, name));
    assert.deepEqual(['first.js', 'ab.js', 'ä.js', '漢.js', 'é.js', 'b/c.js', 'blank.js', 'kept .js', 'node_modules/a.js', 'a/node_modules/b/c.js'].map(is), [
      true,
      true,
      true,
      false,
      true,
      false,
      true,
      true,
      true,
      true,
    ]);
  } finally {
    rmSync(top, { recursive: true, force: true });
  }
});

test('ignore files: of another work tree, of the user, and of a file that a link leads to', (t) => {
  const top = mkdtempSync(path.join(tmpdir(), 'jslint-ignore-')),
    put = (name, text) => {
      mkdirSync(path.dirname(path.join(top, name)), { recursive: true });
      writeFileSync(path.join(top, name), text);
    };
  const git = (...words) => spawnSync('git', ['-C', path.join(top, 'one'), '-c', 'user.name=a', '-c', 'user.email=a@b', ...words]).status;
  t.after(() => rmSync(top, { recursive: true, force: true }));
  put('one/a.js', '');
  if (git('init', '-q') !== 0) return t.skip('no git');
  git('add', '.');
  git('commit', '-qm', 'a');
  assert.equal(git('worktree', 'add', '-q', '../two'), 0);
  put('one/.git/info/exclude', 'excluded.js\n');
  put('global', 'global.js\n');
  put('one/vendor/.gitignore', '*\n');
  put('one/vendor/v.js', '');
  symlinkSync(path.join(top, 'one/vendor/v.js'), path.join(top, 'one/link.js'));
  git('config', 'core.excludesFile', path.join(top, 'global'));
  const beside = new Beside(),
    is = (name) => beside.isIgnored(path.join(top, name));
  assert.deepEqual(['one/excluded.js', 'two/excluded.js', 'one/global.js', 'two/global.js', 'one/a.js', 'two/a.js', 'one/link.js', 'one/vendor/v.js'].map(is), [
    true,
    true,
    true,
    true,
    false,
    false,
    true,
    true,
  ]);
});

test('settings: the table [format] is for formatting alone, and its lines stay', () => {
  for (const [settings, wanted] of [
    ['[format]\nwidth = 100\n[rules]\nno-var = false\n', '\n\n[rules]\nno-var = false\n'],
    ['env = ["node"]\n\n[ format ] # lines\r\ntabs = true\r\n', 'env = ["node"]\n\n\n\n'],
    ['[rules]\nno-var = true\n[format]\nindent = 4', '[rules]\nno-var = true\n\n'],
    ['[format.a]\nb = 1\n', '[format.a]\nb = 1\n'],
    ['globals = ["""\n[format]\n"""]\n', 'globals = ["""\n[format]\n"""]\n'],
    ['[[overrides]]\nfiles = []\n', '[[overrides]]\nfiles = []\n'],
  ]) assert.equal(withoutFormat(settings), wanted);
  assert.equal(jobs.areTaken('[format]\nwidth = 100\n\n[rules]\nno-var = false\n'), true);
  assert.equal(jobs.areTaken('[format]\nwidth = 100\n\n[rules]\nno-vars = false\n'), false);
  assert.equal(jobs.settings({ settings: 'extends = "nine"\n[format]\nwidth = 100\n[rules]\nno-vars = false\n' }).line, 4);
});

test('frames: in pieces of any size, and what is no header', () => {
  const bodies = ['{}', '"é😀"', '', '[1]'.repeat(3000)],
    bytes = Buffer.from(bodies.map(framed).join(''));
  for (const size of [1, 2, 7, 4096, bytes.length]) {
    const found = [],
      frames = new Frames((it) => found.push(it));
    for (let at = 0; at < bytes.length; at += size) frames.push(bytes.subarray(at, at + size));
    assert.deepEqual(found, bodies);
  }
  for (const text of ['a\r\n\r\n', 'Content-Length: x\r\n\r\n', 'Content-Length: -1\r\n\r\n', 'Content-Length: 999999999999\r\n\r\n', 'x'.repeat(5000)]) {
    assert.throws(() => new Frames(() => {}).push(Buffer.from(text)), Error, text);
  }
});
