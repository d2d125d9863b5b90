// What the package answers: node --test
import assert from 'node:assert/strict';
import { readFileSync } from 'node:fs';
import { test } from 'node:test';
import { Worker } from 'node:worker_threads';
import { Refused, check, cost, fix, format, indexOf, mend, run, same, spans, tree, treeText, unwrap, verify } from '../jslint.mjs';

/** The refusal of a call. */
function refusal(call) {
  try {
    call();
  } catch (error) {
    assert.ok(error instanceof Refused, String(error));
    return error;
  }
  return assert.fail('it was taken');
}

const told = (error, ...names) => names.map((it) => error[it]);
const lines = (reports) => reports.map((it) => `${it.line}:${it.column} ${it.rule} ${it.message}`);

test('check reports by place and rule', () => {
  assert.deepEqual(lines(check('let x = (1); x; { let x = 2; x = 3; }')), [
    "1:5 prefer-const 'x' is never reassigned",
    '1:9 no-extra-parens unnecessary parentheses',
    "1:23 no-shadow 'x' shadows an outer name",
    "1:23 no-unused-vars 'x' is never read",
  ]);
  assert.deepEqual(check(''), []);
});

test('check takes settings', () => {
  assert.deepEqual(check('a == null;', { settings: 'globals = ["a"]\nallow-null = true\n' }), []);
  assert.deepEqual(lines(check('debugger;', { settings: new TextEncoder().encode('[rules]\nno-debugger = false\n') })), []);
});

test('check says which reports are warnings, and takes the mark off', () => {
  const text = 'var a = 1;\ndebugger;\n',
    settings = 'rules.no-var = "warn"\nrules.no-unused-vars = 1\n';
  assert.deepEqual(check(text, { settings }).map((it) => [it.rule, it.message, it.severity]), [
    ['no-var', 'use let or const instead of var', 'warning'],
    ['no-unused-vars', "'a' is never read", 'warning'],
    ['no-debugger', 'debugger statement', 'error'],
  ]);
  assert.deepEqual(
    [check(text), check(text, { settings: 'rules.no-var = "error"' })].map((it) => it.map(({ severity }) => severity)),
    Array(2).fill(['error', 'error', 'error'])
  );
  assert.equal(
    run('check', new TextEncoder().encode(text), new TextEncoder().encode(settings)).text.split('\n')[0],
    '1:1 no-var use let or const instead of var (warning)'
  );
  assert.deepEqual(spans(text, { settings }).map(({ message }) => message), check(text, { settings }).map(({ message }) => message));
});

test('places are indices into the string', () => {
  const text = "'\u{1f600}é'; /* \u2028 */ debugger;\r\n  debugger;";
  for (const it of check(text)) assert.equal(text.slice(it.index, it.index + 8), 'debugger');
  assert.equal(check(text).length, 2);
  assert.equal(indexOf(text, 3, 3), text.lastIndexOf('debugger'));
  const node = tree("'\u{1f600}é'; abc").body[1];
  assert.equal("'\u{1f600}é'; abc".slice(node.start, node.end), 'abc');
});

test('places are bytes where they are asked for', () => {
  assert.equal(tree("'é'; abc").body[1].start, 5);
  assert.equal(tree("'é'; abc", { places: 'bytes' }).body[1].start, 6);
  assert.equal(JSON.parse(treeText("'é'; abc")).body[1].start, 6);
});

test('fix', () => {
  assert.equal(fix('for (x = (a in b) && (c in d);;);'), 'for (x = (a in b && c in d);;) ;\n');
  assert.equal(fix(new TextEncoder().encode('((a))')), 'a;\n');
  assert.equal(fix('\ufeff(a)'), 'a;\n');
  assert.equal(fix("'\ufeff'"), "'\ufeff';\n");
  assert.equal(fix(''), '');
});

test('format', () => {
  assert.equal(format('f( (a),b ) // c'), 'f((a), b); // c\n');
  assert.equal(format('é=(a)\r\n'), 'é = (a);\n');
  assert.equal(format(''), '');
  assert.equal(format('export default(a)', { language: 'module' }), 'export default (a);\n');
  assert.deepEqual(told(refusal(() => format('é; b c')), 'code', 'line', 'column', 'status', 'command'), ['syntax', 1, 6, 2, 'format']);
});

test('mend', () => {
  assert.equal(mend("typeof é == 'b' // c\r\n"), "typeof é === 'b' // c\r\n");
  assert.equal(mend(';;', { settings: '[rules]\nno-extra-semi = true\n' }), '');
  assert.equal(mend("typeof a == 'b'", { settings: '[rules]\neqeqeq = false\n' }), "typeof a == 'b'");
  assert.equal(mend("export let a = typeof b == 'c';", { language: 'module' }), "export const a = typeof b === 'c';");
  for (const text of ['', 'a', ' f ( a , b ) // as it is\n', 'a == b']) assert.equal(mend(text), text);
  assert.deepEqual(told(refusal(() => mend('é; b c')), 'code', 'line', 'column', 'status', 'command'), ['syntax', 1, 6, 2, 'mend']);
  assert.deepEqual(told(refusal(() => mend('a', { settings: '[' })), 'code', 'status', 'command'), ['settings', 2, 'mend']);
});

test('unwrap', () => {
  assert.equal(unwrap('for (x = (a in b) && (c in d);;); // two pairs'), 'for (x = (a in b && c in d);;); // two pairs');
  assert.equal(unwrap('x = ( // c\r\n  (a) /* d */ + (b));\r\n'), 'x = // c\r\n  a /* d */ + b;\r\n');
  assert.equal(unwrap(new TextEncoder().encode('((é))')), 'é');
  assert.equal(unwrap('\ufeff(a)'), '\ufeffa');
  for (const text of ['', 'a', ' f ( a , b ) // as it is\n', '({}).a', '(a?.b).c', 'é + (b, c); // d\n'.repeat(5000)]) assert.equal(unwrap(text), text);
  assert.equal(unwrap('(a)++/b; (new f).x; // c\n'.repeat(5000)), 'a++/b; new f().x; // c\n'.repeat(5000));
});

test('cost and verify', () => {
  const table = 'jslint-cost 2\n1 MemberExpression 0 1 1 0 1 0 1 1\n2 ObjectExpression 0 - - 0 - 0 - -\ntotal 1\n';
  assert.equal(cost('({}).a;'), table);
  assert.deepEqual(verify('(({})).a;', table), { pairs: 2, least: 1 });
  const bad = refusal(() => verify('({}).a;', table.replace('total 1', 'total 2')));
  assert.deepEqual(told(bad, 'code', 'row', 'reason', 'status'), ['table', 0, 'Total', 1]);
});

test('refusals have codes, and places where they speak of one', () => {
  assert.deepEqual(told(refusal(() => fix('é; b c')), 'code', 'line', 'column', 'status', 'command'), ['syntax', 1, 6, 2, 'fix']);
  assert.deepEqual(told(refusal(() => unwrap('é; b c')), 'code', 'line', 'column', 'status', 'command'), ['syntax', 1, 6, 2, 'unwrap']);
  assert.deepEqual(told(refusal(() => tree('let a; let a;')), 'code', 'number', 'line', 'column'), ['early', 3, 1, 12]);
  assert.deepEqual(told(refusal(() => unwrap('let a; (let_); let a;')), 'code', 'number', 'line', 'column'), ['early', 3, 1, 20]);
  assert.deepEqual(told(refusal(() => fix('export {};')), 'message', 'code', 'line', 'column', 'hint'), ['syntax error at 1:1', 'syntax', 1, 1, 'module']);
  assert.deepEqual(told(refusal(() => tree('async () => 1;')), 'message', 'hint'), ['syntax error at 1:10', '2022']);
  assert.equal(refusal(() => fix('a b')).hint, undefined);
  assert.deepEqual(told(refusal(() => same('a', 'export {};')), 'message', 'inSecond', 'hint'), ['second file: syntax error at 1:1', true, 'module']);
  assert.deepEqual(told(refusal(() => fix(Uint8Array.of(0x61, 0xff))), 'code', 'byte'), ['utf8', 1]);
  assert.deepEqual(told(refusal(() => check('a', { settings: '\nx' })), 'code', 'line', 'column'), ['settings', 2, 2]);
  assert.deepEqual(told(refusal(() => check('a', { settings: 'x = 1' })), 'code', 'line', 'column'), ['settings', undefined, undefined]);
  assert.equal(refusal(() => fix(`${'('.repeat(1201)}a${')'.repeat(1201)}`)).code, 'deep');
  assert.deepEqual(told(refusal(() => fix(new Uint8Array(16777217).fill(32))), 'code', 'most'), ['long', 16777216]);
});

test('what is no text is a type error', () => {
  assert.throws(() => fix('\ud800'), TypeError);
  assert.throws(() => fix(1), TypeError);
  assert.throws(() => unwrap('(\ud800)'), TypeError);
  assert.throws(() => run('unknown', new Uint8Array(0)), TypeError);
});

test('wrong arguments throw', () => {
  const wrong = [
    () => fix(),
    () => fix(null),
    () => fix(['a']),
    () => fix(new ArrayBuffer(1)),
    () => fix(new Uint16Array(1)),
    () => fix('a', null),
    () => fix('a', '2022'),
    () => fix('a', { lang: '2022' }),
    () => fix('a', { settings: '' }),
    () => fix('a', { language: '2021' }),
    () => fix('a', { language: '' }),
    () => fix('a', { language: Symbol('a') }),
    () => fix('a', { language: 'toString' }),
    () => check('a', 'globals = []'),
    () => check('a', { settings: 5 }),
    () => check('a', { settings: null }),
    () => check('a', { places: 'bytes' }),
    () => spans('a', { places: 'characters' }),
    () => verify('a'),
    () => verify('a', {}),
    () => same('a'),
    () => same('a', 'a', 'module'),
    () => cost('a', { places: 'bytes' }),
    () => treeText('a', { places: 'bytes' }),
    () => run('fix', 'a'),
    () => run('check', new Uint8Array(1), 'a'),
    () => run('check', new Uint8Array(1), null),
    () => run('toString', new Uint8Array(1)),
    () => run(0, new Uint8Array(1)),
    () => indexOf(new Uint8Array(1), 1, 1),
  ];
  for (const [at, call] of wrong.entries()) assert.throws(call, TypeError, `${at}`);
  assert.deepEqual(
    [fix('a', { language: undefined }), fix('a', {}), check('1', { settings: undefined }), spans('1', { places: undefined })],
    ['a;\n', 'a;\n', [], []]
  );
});

test('places that a text does not have', () => {
  const text = 'a\u{1f600}\r\n\u2028b';
  assert.deepEqual(
    [
      [1, 1],
      [1, 2],
      [1, 3],
      [1, 4],
      [2, 1],
      [3, 1],
      [3, 2],
    ].map(([line, column]) => indexOf(text, line, column)),
    [0, 1, 3, 4, 5, 6, 7]
  );
  for (const [line, column] of [
    [0, 1],
    [1, 0],
    [4, 1],
    [3, 3],
    [1, 6],
    [1.5, 1],
    ['1', 1],
    [NaN, 1],
    [1, undefined],
  ]) assert.throws(() => indexOf(text, line, column), RangeError, `${line} ${column}`);
  assert.equal(indexOf('', 1, 1), 0);
});

test('answers longer than the room at first', () => {
  const text = `a={${'b,'.repeat(20000)}}`;
  assert.equal(tree(text).body[0].expression.right.properties.length, 20000);
  assert.equal(check('a==b;'.repeat(5000)).length, 15000);
  assert.equal(tree('é;'.repeat(200000)).body.length, 200000);
});

test('2,000 calls in one instance', () => {
  for (let number = 0; number < 2000; number++) assert.equal(fix(`((a${number}))`), `a${number};\n`);
});

test('scripts at the limits of nesting', () => {
  const pairs = `${'('.repeat(1200)}a${')'.repeat(1200)}`,
    arrays = `${'['.repeat(595)}${']'.repeat(595)}`;
  assert.equal(fix(pairs), 'a;\n');
  assert.equal(unwrap(pairs), 'a');
  assert.equal(unwrap(arrays), arrays);
  assert.equal(JSON.stringify(tree(arrays)).match(/ArrayExpression/g).length, 595);
  assert.deepEqual(verify(pairs, cost(pairs)), { pairs: 1200, least: 0 });
  assert.equal(fix('a'), 'a;\n');
});

// Answers calls in a thread with a small stack, without a deeper one.
const SMALL = `
  import { parentPort, workerData } from 'node:worker_threads';
  import { commandsOf } from '${new URL('../core.mjs', import.meta.url)}';
  const { fix } = commandsOf(workerData);
  const told = (text) => { try { return fix(text); } catch (error) { return error.code; } };
  parentPort.postMessage([told('('.repeat(1200) + 'a' + ')'.repeat(1200)), told('((a))')]);
`;

test('too small a stack is an answer of its own, and the next call works', async () => {
  const workerData = new WebAssembly.Module(readFileSync(new URL('../jslint.wasm', import.meta.url)));
  const worker = new Worker(new URL(`data:text/javascript,${encodeURIComponent(SMALL)}`), { workerData, resourceLimits: { stackSizeMb: 0.5 } });
  const answers = await new Promise((resolve, reject) => worker.once('message', resolve).once('error', reject));
  assert.deepEqual(answers, ['stack', 'a;\n']);
});
