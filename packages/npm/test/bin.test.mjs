// The package's two commands.
import assert from 'node:assert/strict';
import { spawnSync } from 'node:child_process';
import { closeSync, mkdirSync, mkdtempSync, openSync, readFileSync, realpathSync, rmSync, symlinkSync, writeFileSync } from 'node:fs';
import { tmpdir } from 'node:os';
import { dirname, join } from 'node:path';
import { test } from 'node:test';
import { fileURLToPath } from 'node:url';
import { resultOf } from '../eslint-json.mjs';

const bin = (name) => fileURLToPath(new URL(`../bin/${name}.mjs`, import.meta.url));

/** Status, standard output and standard error of a command. */
function ran(name, words, input = '') {
  const it = spawnSync(process.execPath, [bin(name), ...words], { input, encoding: 'utf8' });
  return [it.status, it.stdout, it.stderr];
}

function withFiles(files, call) {
  const folder = mkdtempSync(join(tmpdir(), 'jslint-npm-'));
  try {
    for (const [name, text] of Object.entries(files)) writeFileSync(join(folder, name), text);
    return call((name) => join(folder, name));
  } finally {
    rmSync(folder, { recursive: true });
  }
}

test('the commands have the words, answers and statuses of the program', () => {
  assert.deepEqual(ran('jslint', ['fix', '/dev/stdin'], '((a))'), [0, 'a;\n', '']);
  assert.deepEqual(ran('jslint', ['unwrap', '/dev/stdin'], 'x = ((a)); // c\n'), [0, 'x = a; // c\n', '']);
  assert.deepEqual(ran('jslint', ['check', '/dev/stdin'], 'debugger;'), [1, '1:1 no-debugger debugger statement\n', '']);
  assert.deepEqual(ran('jslint', ['fix', 'no such file']), [2, '', 'jslint: read failed\n']);
  assert.deepEqual(ran('jslint', ['fix', '/dev/stdin'], 'a b'), [2, '', 'jslint: syntax error at 1:3\n']);
  assert.deepEqual(ran('jslint', ['unwrap', '/dev/stdin'], 'a b'), [2, '', 'jslint: syntax error at 1:3\n']);
  assert.equal(ran('jslint', ['unwrap', '/dev/stdin', '/dev/null'], 'a')[0], 2);
  assert.equal(ran('jslint', [])[0], 2);
  assert.equal(ran('jslint', ['--help'])[0], 0);
});

test('what can not be written ends with status 2', () => {
  withFiles({ 'a.js': 'debugger;' }, (path) => {
    const full = openSync('/dev/full', 'w');
    try {
      for (const words of [['check', path('a.js')], ['fix', path('a.js')], ['--help'], ['fix', path('none')], []]) {
        const lost = spawnSync(process.execPath, [bin('jslint'), ...words], { stdio: ['ignore', full, 'pipe'], encoding: 'utf8' });
        const unsaid = spawnSync(process.execPath, [bin('jslint'), ...words], { stdio: ['ignore', full, full] });
        assert.deepEqual([lost.status, unsaid.status], [2, 2]);
        assert.match(lost.stderr, words.length === 0 ? /^usage: / : words[1] === path('none') ? /^jslint: read failed\n$/ : /^jslint: write failed\n$/);
      }
    } finally {
      closeSync(full);
    }
  });
});

test('check takes settings, and verify a table', () => {
  withFiles({ 'a.js': 'debugger; (({})).a;', 's.toml': '[rules]\nno-debugger = false\nno-extra-parens = false\n' }, (path) => {
    for (const words of [['--settings', path('s.toml')], [`--settings=${path('s.toml')}`]])
      assert.deepEqual(ran('jslint', ['check', ...words, '--', path('a.js')]), [0, '', '']);
    const [, table] = ran('jslint', ['cost', path('a.js')]);
    writeFileSync(path('table'), table);
    assert.deepEqual(ran('jslint', ['verify', path('a.js'), path('table')]), [0, 'pairs 2 least 1\n', '']);
  });
});

test('each command takes a language, and refuses words that make no sense', () => {
  withFiles({ 'm.mjs': 'export let a = (1);\n', 'a.js': 'async () => await (1);\n' }, (path) => {
    assert.deepEqual(ran('jslint', ['fix', '--module', path('m.mjs')]), [0, 'export let a = 1;\n', '']);
    assert.deepEqual(ran('jslint', ['unwrap', path('m.mjs'), '--module', '--edition', '2022']), [0, 'export let a = 1;\n', '']);
    assert.deepEqual(ran('jslint', ['same', '--module', path('m.mjs'), path('m.mjs')]), [0, '', '']);
    for (const words of [['--edition', '2022'], ['--edition=2022']])
      assert.deepEqual(ran('jslint', ['unwrap', ...words, path('a.js')]), [0, 'async () => await 1;\n', '']);
    assert.deepEqual(ran('jslint', ['fix', '--edition', '2022', path('m.mjs')]), [2, '', 'jslint: syntax error at 1:1 (perhaps: --module)\n']);
    assert.deepEqual(ran('jslint', ['fix', path('a.js')]), [2, '', 'jslint: syntax error at 1:10 (perhaps: --edition 2022)\n']);
    for (const words of [['--edition', '2021'], ['--edition=']])
      assert.deepEqual(ran('jslint', ['fix', ...words, path('a.js')]), [2, '', 'jslint: --edition is 2020 or 2022\n']);
    assert.deepEqual(ran('jslint', ['check', '--module', '--edition=2020', path('m.mjs')]), [2, '', "jslint: --module doesn't go with --edition 2020\n"]);
  });
});

// The rows that `jslint-files --format json` is tested on too: the files of a folder, the words, the status, and the results or what is said.
const rows = JSON.parse(readFileSync(new URL('eslint-json.rows.json', import.meta.url), 'utf8'));

function putFile(path, content) {
  mkdirSync(dirname(path), { recursive: true });
  if (typeof content === 'string') writeFileSync(path, content);
  else if ('link' in content) symlinkSync(content.link, path);
  else writeFileSync(path, 'base64' in content ? Buffer.from(content.base64, 'base64') : content.text.repeat(content.times));
}

/** What a command of the package writes, in a folder of its own that has these files. */
function inFolder(files, call) {
  const folder = realpathSync(mkdtempSync(join(tmpdir(), 'jslint-npm-')));
  try {
    for (const [name, content] of Object.entries(files)) putFile(join(folder, name), content);
    return call(folder);
  } finally {
    rmSync(folder, { recursive: true });
  }
}

for (const row of rows) {
  test(`ESLint's JSON: ${row.what}`, () =>
    inFolder(row.files, (folder) => {
      const it = spawnSync(process.execPath, [bin('eslint-json'), ...row.words], { cwd: folder, encoding: 'utf8' });
      const wanted = row.results?.map((each) => ({ ...each, filePath: join(folder, each.filePath) }));
      assert.equal(it.stdout, wanted ? `${JSON.stringify(wanted)}\n` : '');
      assert.equal(it.stderr, row.said ? `jslint-with-proofs-eslint-json: ${row.said}\n` : '');
      assert.equal(it.status, row.status);
    })
  );
}

test("ESLint's JSON from standard input, for help, and where it can't be written", () => {
  const [status, out] = ran('eslint-json', ['/dev/stdin'], 'debugger;');
  assert.deepEqual([status, JSON.parse(out)[0].filePath], [1, '/dev/stdin']);
  assert.match(ran('eslint-json', ['--help'])[1], /^usage: /);
  const full = openSync('/dev/full', 'w');
  try {
    for (const [words, streams, said] of [
      [['/dev/null'], ['pipe', full, 'pipe'], 'write failed'],
      [['--help'], ['pipe', full, 'pipe'], 'write failed'],
      [['/dev/null'], ['pipe', full, full], null],
    ]) {
      const it = spawnSync(process.execPath, [bin('eslint-json'), ...words], { stdio: streams, encoding: 'utf8' });
      assert.deepEqual([it.status, it.stderr], [2, said && `jslint-with-proofs-eslint-json: ${said}\n`]);
    }
  } finally {
    closeSync(full);
  }
});

test('a form for programs: a text as a string or its bytes', () => {
  const text = "'\u{1f600}'; debugger;";
  const [message] = resultOf('a', text).messages;
  assert.deepEqual([message.line, message.column], [1, 7]);
  assert.deepEqual(resultOf('a', new TextEncoder().encode(text)), resultOf('a', text));
  assert.throws(() => resultOf('a', text, { settings: 'x' }), { code: 'settings' });
});
