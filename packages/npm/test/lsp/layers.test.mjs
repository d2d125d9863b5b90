// Settings with `[[overrides]]` and `[format]`, which `jslint-files` reads for the server: JSLINT_FILES is its path, or it is the one of this repository, and
// JSLINT is the program that it asks.
import assert from 'node:assert/strict';
import { spawnSync } from 'node:child_process';
import { chmodSync, existsSync, mkdirSync, mkdtempSync, readFileSync, rmSync, symlinkSync, writeFileSync } from 'node:fs';
import { tmpdir } from 'node:os';
import path from 'node:path';
import { fileURLToPath, pathToFileURL } from 'node:url';
import { after, test } from 'node:test';
import { commandsOf } from '../../core.mjs';
import { Jobs } from '../../lib/jobs.mjs';
import { documentOf, over, readerOf, settingsOf } from '../../lib/layers.mjs';
import { at, edited, range, withClient } from './client.mjs';

const FILES = process.env.JSLINT_FILES ?? fileURLToPath(new URL('../../../../tools/jslint-files', import.meta.url)),
  skip = existsSync(FILES) ? false : 'there is no jslint-files here';
const folder = mkdtempSync(path.join(tmpdir(), 'jslint-layers-'));
after(() => rmSync(folder, { recursive: true }));
const LITERALS = { textDocument: { codeAction: { codeActionLiteralSupport: { codeActionKind: { valueSet: ['quickfix'] } } } } };
const placeOf = (name) => path.join(folder, name),
  uriOf = (name) => pathToFileURL(placeOf(name)).href;
const put = (name, text) => {
  mkdirSync(path.dirname(placeOf(name)), { recursive: true });
  writeFileSync(placeOf(name), text);
};
const codes = (found) => found.map((it) => it.code);
const messages = (found) => found.map((it) => it.message);
const commands = commandsOf(new WebAssembly.Module(readFileSync(new URL('../../jslint.wasm', import.meta.url))));
const jobs = () => new Jobs(commands);
const READING = { jslintFiles: FILES };
// A program in the place of jslint-files, and how often it was started, by lines of a file.
const standIn = (name, lines) => {
  put(name, `#!/bin/sh\necho >>'${placeOf(name)}.starts'\n${lines}\n`);
  chmodSync(placeOf(name), 0o755);
  return placeOf(name);
};
const startsOf = (name) => (existsSync(`${placeOf(name)}.starts`) ? readFileSync(`${placeOf(name)}.starts`, 'utf8').length : 0);
const counted = (name) => standIn(name, `exec '${FILES}' "$@"`);

const OVERRIDES = 'extends = "none"\nrules.no-undef = "warn"\n\n[[overrides]]\nfiles = ["test/", "*.test.js"]\nenv = ["jest"]\n';

test('one over another: rules one by one, names added, all else in place', () => {
  for (const [before, more, wanted] of [
    [
      { extends: 'none', env: ['node'] },
      { extends: 'all', env: ['jest', 'node'] },
      { extends: 'all', env: ['node', 'jest'] },
    ],
    [{ rules: { 'no-var': 'warn', eqeqeq: 'off' } }, { rules: { eqeqeq: 2 } }, { rules: { 'no-var': 'warn', eqeqeq: 2 } }],
    [{ rules: { eqeqeq: { 'allow-null': true } } }, { rules: { eqeqeq: 'warn' } }, { rules: { eqeqeq: { 'allow-null': true, severity: 'warn' } } }],
    [{ rules: { eqeqeq: { severity: 'warn' } } }, { rules: { eqeqeq: 'off' } }, { rules: { eqeqeq: 'off' } }],
    [{ rules: { eqeqeq: 1 } }, { rules: { eqeqeq: { 'allow-null': true } } }, { rules: { eqeqeq: { severity: 1, 'allow-null': true } } }],
    [
      { only: ['no-var'], globals: [] },
      { only: [], globals: ['a'] },
      { only: [], globals: ['a'] },
    ],
    [{}, { rules: { eqeqeq: 0 }, edition: 2020 }, { rules: { eqeqeq: 0 }, edition: 2020 }],
  ]) assert.deepEqual(over(before, more), wanted);
});

test('documents: what the module gets', () => {
  const settings = {
    globals: ['"', '\x7f\\', '\u{1f600}'],
    'allow-null': true,
    edition: 2022,
    rules: { 'no-undef': { typeof: true, severity: 'warn' }, '': 1, 'a b': 2 },
    format: { width: 90 },
  };
  assert.equal(
    documentOf(settings),
    'globals = ["\\"", "\\u007f\\\\", "\u{1f600}"]\nallow-null = true\nedition = 2022\nrules = { no-undef = { typeof = true, severity = "warn" }, "" = 1, "a b" = 2 }\n'
  );
});

test('which overrides hold: patterns from the folder of the settings on, the later over the earlier', () => {
  const layers = {
    settings: { env: ['node'] },
    overrides: [
      { files: ['test/', '*.test.js'], settings: { env: ['jest'] } },
      { files: ['/top.js', 'deep/**/x.js', '!deep/no/x.js'], settings: { env: ['browser'] } },
      { files: [], settings: { env: ['mocha'] } },
      { files: ['é*.js', '\u{1f600}.js', 'a\\ b.js', '# no.js'], settings: { env: ['worker'] } },
    ],
  };
  for (const [name, wanted] of [
    ['a.js', []],
    ['a.test.js', ['jest']],
    ['deep/test/a.js', ['jest']],
    ['test/top.js', ['jest']],
    ['top.js', ['browser']],
    ['deep/top.js', []],
    ['deep/a/b/x.js', ['browser']],
    ['deep/no/x.js', []],
    ['deep/test/x.js', ['jest', 'browser']],
    ['éa.js', ['worker']],
    ['\u{1f600}.js', ['worker']],
    ['a b.js', ['worker']],
    ['# no.js', []],
    [null, []],
  ]) assert.deepEqual(settingsOf(layers, name).env, ['node', ...wanted], name ?? 'elsewhere');
});

test('where jslint-files is: the one that is named, beside the program, on the PATH, in no folder of the workspace', () => {
  const { PATH } = process.env,
    one = standIn('bin/jslint-files', ':'),
    other = standIn('other/jslint-files', ':');
  put('plain/jslint-files', '');
  mkdirSync(placeOf('odd/jslint-files'), { recursive: true });
  try {
    for (const [reading, folders, wanted] of [
      [{ jslintFiles: '/none' }, [placeOf('bin')], '/none'],
      [{ program: placeOf('bin/jslint') }, [placeOf('other')], one],
      [{ program: '/none/jslint' }, [placeOf('plain'), placeOf('odd'), placeOf('other'), placeOf('bin')], other],
      [{}, ['', '.', 'bin', path.relative('.', placeOf('bin'))], null],
      [undefined, [placeOf('none')], null],
    ]) {
      process.env.PATH = folders.join(path.delimiter);
      assert.equal(readerOf(reading), wanted);
    }
  } finally {
    process.env.PATH = PATH;
  }
});

test('jobs: settings that are read, once for each text; refused ones with their place', { skip }, () => {
  const it = jobs(),
    reading = { jslintFiles: counted('once') },
    job = { text: 'describe();', settings: OVERRIDES, settingsFile: placeOf('jslint.toml'), reading, kind: null, areRead: true };
  for (let number = 0; number < 200; number++) {
    const { reports } = it.check({ ...job, file: placeOf(`${number % 2 ? 'test' : 'src'}/${number}.js`) });
    assert.deepEqual(reports.map(({ rule, isWarning }) => [rule, isWarning]), number % 2 ? [] : [['no-undef', true]]);
  }
  assert.deepEqual(it.settings(job), { line: null });
  assert.equal(startsOf('once'), 1);
  for (const [settings, start, words] of [
    ['[[overrides]]\r\nfiles = ["a"]\r\nrules.x = 1\r\n', 30, 'bad settings (line 3): overrides.0.rules.x = 1: there is no such rule'],
    ['extends = "all"\n[[overrides]]\nenv = []\n', 16, 'bad settings (line 2): overrides.0: there is no files'],
    ['overrides = 1\n', 0, 'bad settings (line 1): overrides = 1: it takes an array'],
    ['# overrides\na = "\u{1f600}" b\n', 21, 'bad settings at 2:9'],
  ]) {
    const found = it.settings({ settings, reading: READING });
    assert.deepEqual([found.start, found.words], [start, words]);
    assert.deepEqual(it.check({ ...job, settings, reading: READING }).refusal, { code: 'settings', message: words, start: 0 });
  }
  // (a text that the module takes as it is goes there, and half a pair of surrogates nowhere)
  assert.deepEqual(it.check({ ...job, settings: '# overrides\nextends = "none"\n' }).reports, []);
  assert.equal(it.check({ ...job, settings: '[[overrides]]\n# \ud800\n' }).refusal.message, 'bad settings');
  assert.equal(startsOf('once'), 1);
});

test('jobs: `format` in any form is passed over', { skip }, () => {
  for (const settings of [
    'format.width = 90\nextends = "none"\n',
    'format = { width = 90 }\nextends = "none"\n',
    'extends = """none"""\n[format]\nwidth = 90\n',
  ]) assert.deepEqual(jobs().check({ text: 'var a;', settings, reading: READING }).reports, []);
});

test('jobs: no jslint-files, and one that fails, says something else or is another program', () => {
  const said = (lines) => {
    const reading = { jslintFiles: standIn('fails', lines) },
      it = jobs(),
      asked = () => it.check({ text: '', settings: OVERRIDES, settingsFile: placeOf('jslint.toml'), file: placeOf('a.js'), reading }).refusal.message;
    assert.equal(asked(), asked());
    return asked().replace(placeOf('fails'), 'FILES');
  };
  for (const [lines, wanted] of [
    ['echo "jslint-files: --print-layers is no option" >&2; exit 2', 'bad settings: FILES: --print-layers is no option'],
    ['exit 3', 'bad settings: FILES: status 3'],
    ['kill -9 $$', 'bad settings: FILES: status SIGKILL'],
    ['echo "{}"', 'bad settings: FILES: status 0'],
    ['echo "{"', 'bad settings: FILES: status 0'],
    ['echo \'{"settings": {}, "overrides": []}\'; exit 1', 'bad settings: FILES: status 1'],
  ]) assert.equal(said(lines), wanted);
  assert.match(jobs().check({ text: '', settings: OVERRIDES, reading: { jslintFiles: placeOf('none') } }).refusal.message, /^bad settings: .*none: ENOENT$/);
  // (as long as a failure is new it isn't asked again)
  assert.equal(startsOf('fails'), 6);
});

// ---- by the protocol

const withFiles = (work, more = {}, files = FILES) =>
  withClient(work, { capabilities: LITERALS, more: { rootUri: uriOf(''), initializationOptions: { jslintFiles: files, ...more } } });

test('overrides hold for one of two scripts, as they are typed, and in nested folders', { skip }, () =>
  withFiles(async (client) => {
    mkdirSync(placeOf('one/.git'), { recursive: true });
    put('one/jslint.toml', OVERRIDES);
    put('one/deep/er/jslint.toml', 'extends = "none"\n[[overrides]]\nfiles = ["/a.js"]\n[overrides.rules]\nno-debugger = "error"\n');
    const text = 'debugger;\r\ndescribe();\r\n',
      found = async (name) => (await client.open(uriOf(`one/${name}`), text)).map((it) => `${it.code} ${it.severity}`);
    assert.deepEqual(await found('a.js'), ['no-undef 2']);
    assert.deepEqual(await found('a.test.js'), []);
    assert.deepEqual(await found('deep/test/a.js'), []);
    assert.deepEqual(await found('deep/er/a.js'), ['no-debugger 2']);
    assert.deepEqual(await found('deep/er/test/a.js'), []);
    assert.deepEqual(await found('\u00e9 [%].test.js'), []);
    // (open, and not saved)
    const two = [
      client.diagnostics(uriOf('one/a.js'), (it) => it.diagnostics.length === 2),
      client.diagnostics(uriOf('one/a.test.js'), (it) => it.diagnostics.length === 1),
    ];
    await client.open(uriOf('one/jslint.toml'), OVERRIDES.replace('no-undef', 'no-debugger = "error"\nrules.no-undef').replaceAll('\n', '\r\n'), 1, 'toml');
    assert.deepEqual((await Promise.all(two)).map(codes), [['no-debugger', 'no-undef'], ['no-debugger']]);
    const bad = client.diagnostics(uriOf('one/jslint.toml')),
      script = client.diagnostics(uriOf('one/a.js'));
    client.change(uriOf('one/jslint.toml'), 2, { text: '[[overrides]]\r\nfiles = ["x"]\r\n  env = ["jests"]\r\n' });
    const why = 'bad settings (line 3): overrides.0.env has "jests": it takes "browser", "node", "commonjs", "worker", "es2022", "mocha" or "jest"';
    assert.deepEqual((await bad).map((it) => [it.range.start.line, it.message]), [[2, why]]);
    assert.deepEqual(messages(await script), [`not checked: ${placeOf('one/jslint.toml')}: ${why}`]);
    const good = client.diagnostics(uriOf('one/jslint.toml'), (it) => it.diagnostics.length === 0);
    client.change(uriOf('one/jslint.toml'), 3, { text: OVERRIDES });
    await good;
  })
);

test('no jslint-files: refused, with words that say what is missing', () =>
  withClient(
    async (client) => {
      mkdirSync(placeOf('lacking/.git'), { recursive: true });
      put('lacking/jslint.toml', OVERRIDES);
      const settings = client.diagnostics(uriOf('lacking/jslint.toml'));
      const why = 'bad settings: overrides and format are read by jslint-files, which isn\'t found: the editor\'s setting jslintFiles names it';
      assert.deepEqual(messages(await client.open(uriOf('lacking/a.js'), '')), [`not checked: ${placeOf('lacking/jslint.toml')}: ${why}`]);
      assert.deepEqual((await settings).map((it) => [it.range.start.line, it.message]), [[3, why]]);
      // (open, in place of what is on the disk)
      const open = client.diagnostics(uriOf('lacking/jslint.toml'));
      client.notify('textDocument/didOpen', {
        textDocument: { uri: uriOf('lacking/jslint.toml'), languageId: 'toml', version: 1, text: `${OVERRIDES}# open\n` },
      });
      assert.deepEqual(messages(await open), [why]);
      if (skip) return;
      const taken = client.diagnostics(uriOf('lacking/jslint.toml'), (it) => it.diagnostics.length === 0);
      const found = client.diagnostics(uriOf('lacking/a.js'), (it) => it.diagnostics.length === 0);
      client.notify('workspace/didChangeConfiguration', {
        settings: { jslint: { jslintFiles: standIn('later', `PATH='${process.env.PATH}' exec '${FILES}' "$@"`) } },
      });
      await Promise.all([found, taken]);
    },
    { how: { env: { ...process.env, PATH: '/nowhere' } } }
  )
);

test('all scripts of a workspace start jslint-files once for a text, links and all, and find what it finds', { skip }, async () => {
  mkdirSync(placeOf('many/.git'), { recursive: true });
  put('many/jslint.toml', `${OVERRIDES}\n[[overrides]]\nfiles = ["1*.js", "!13.js"]\nextends = "all"\nrules.no-var = 1\n`);
  put('many/test/deep/jslint.toml', 'only = ["no-var"]\n[[overrides]]\nfiles = ["1?.js"]\nonly = []\n');
  for (let number = 0; number < 120; number++) put(`many/${['', 'src/', 'test/', 'test/deep/'][number % 4]}${number}.js`, 'var a = describe;\n');
  symlinkSync('many', placeOf('link'));
  const listed = spawnSync(FILES, ['--project', '--format', 'json', '--allow-none', placeOf('many')], { encoding: 'utf8', maxBuffer: 1 << 26 });
  const wanted = JSON.parse(listed.stdout)
    .filter((it) => it.messages.length)
    .map((it) => [it.filePath, it.messages.map(({ ruleId, severity, line, column, message }) => [ruleId, severity, line, column, message].join())]);
  assert.ok(wanted.length > 60 && wanted.length < 120);
  for (const root of ['many', 'link'])
    await withClient(
      async (client) => {
        const { files } = await client.request('workspace/executeCommand', { command: 'jslint.checkWorkspace' });
        assert.equal(files, 120);
        const found = client.heard
          .filter((it) => it.method === 'textDocument/publishDiagnostics' && it.params.diagnostics.length)
          .map(({ params }) => [
            fileURLToPath(params.uri).replace(placeOf('link'), placeOf('many')),
            params.diagnostics.map((it) => [it.code, 3 - it.severity, it.range.start.line + 1, it.range.start.character + 1, it.message].join()),
          ]);
        assert.deepEqual(found.sort(), wanted.sort());
        // (two documents)
        assert.equal(startsOf(`files-${root}`), 2);
      },
      { more: { rootUri: uriOf(root), initializationOptions: { jslintFiles: counted(`files-${root}`), severity: 'error' } } }
    );
});

test('settings as actions where there are overrides', { skip }, () =>
  withFiles(async (client) => {
    mkdirSync(placeOf('act/.git'), { recursive: true });
    put('act/jslint.toml', OVERRIDES);
    for (const name of ['a.js', 'a.test.js']) await client.open(uriOf(`act/${name}`), 'describe(a);');
    const actions = async (name) => {
      const found = await client.request('textDocument/codeAction', { ...at(uriOf(`act/${name}`)), range: range(0, 9, 0, 10), context: { diagnostics: [] } });
      return Object.fromEntries(
        found.filter((it) => it.edit?.changes[uriOf('act/jslint.toml')]).map((it) => [it.title, edited(OVERRIDES, it.edit.changes[uriOf('act/jslint.toml')])])
      );
    };
    const wanted = {
      'Add a to the globals in jslint.toml': `globals = ["a"]\n${OVERRIDES}`,
      'Turn no-undef off in jslint.toml': OVERRIDES.replace('"warn"', 'false'),
    };
    assert.deepEqual([await actions('a.js'), await actions('a.test.js')], [wanted, wanted]);
  })
);

test('settings that are typed start jslint-files seldom, and one that hangs or says too much ends nothing', { skip }, () => {
  mkdirSync(placeOf('typed/.git'), { recursive: true });
  put('typed/jslint.toml', OVERRIDES);
  const uri = uriOf('typed/jslint.toml'),
    typed = counted('typing');
  return withFiles(
    async (client) => {
      await client.open(uriOf('typed/a.js'), 'describe();');
      await client.open(uri, OVERRIDES, 1, 'toml');
      const before = startsOf('typing');
      for (let number = 2; number < 40; number++) client.change(uri, number, { text: `${OVERRIDES}# ${'x'.repeat(number)}\n` });
      const last = client.diagnostics(uriOf('typed/a.js'), (it) => it.diagnostics.length === 2);
      client.change(uri, 40, { text: OVERRIDES.replace('extends = "none"\n', 'rules.no-debugger = 1\n') });
      client.change(uriOf('typed/a.js'), 2, { text: 'describe(); debugger;' });
      await last;
      assert.ok(startsOf('typing') - before <= 4, `${startsOf('typing') - before} starts`);
      for (const [name, lines, why] of [
        ['flood', 'exec cat /dev/zero', /: ENOBUFS$/],
        ['hang', 'exec sleep 100', /: no answer within 10 s$/],
      ]) {
        const found = client.diagnostics(uriOf('typed/a.js'), (it) => why.test(it.diagnostics[0]?.message));
        client.notify('workspace/didChangeConfiguration', { settings: { jslint: { jslintFiles: standIn(name, lines) } } });
        await found;
      }
    },
    { debounce: 300 },
    typed
  );
});
