// The server as editors meet it: started as a process, over its streams.
import assert from 'node:assert/strict';
import { chmodSync, mkdirSync, mkdtempSync, readFileSync, rmSync, writeFileSync } from 'node:fs';
import { tmpdir } from 'node:os';
import path from 'node:path';
import { pathToFileURL } from 'node:url';
import { after, test } from 'node:test';
import { Client, at, edited, place, range, withClient } from './client.mjs';

const LITERALS = { textDocument: { codeAction: { codeActionLiteralSupport: { codeActionKind: { valueSet: ['quickfix'] } } } } };
const folder = mkdtempSync(path.join(tmpdir(), 'jslint-lsp-'));
after(() => rmSync(folder, { recursive: true }));
mkdirSync(path.join(folder, '.git'));
const uriOf = (name) => pathToFileURL(path.join(folder, name)).href;
const put = (name, text) => {
  mkdirSync(path.dirname(path.join(folder, name)), { recursive: true });
  writeFileSync(path.join(folder, name), text);
};
const texts = JSON.parse(readFileSync(new URL('../../lib/texts.json', import.meta.url), 'utf8'));
const placed = (it) => `${it.range.start.line}:${it.range.start.character}-${it.range.end.line}:${it.range.end.character}`;
const short = (it) => `${placed(it)} ${it.code}`;
const codes = (found) => found.map((it) => it.code);
const actionsAt = (client, name, stretch, context = {}) =>
  client.request('textDocument/codeAction', { ...at(uriOf(name)), range: stretch, context: { diagnostics: [], ...context } });
const formatted = (client, name) => client.request('textDocument/formatting', { ...at(uriOf(name)), options: {} });

test('the beginning and the end', async () => {
  const client = new Client();
  await assert.rejects(client.request('textDocument/hover', {}), { code: -32002 });
  const result = await client.begin();
  assert.equal(result.capabilities.positionEncoding, 'utf-16');
  assert.equal(result.capabilities.textDocumentSync.change, 2);
  await assert.rejects(client.request('initialize', {}), { code: -32600 });
  await assert.rejects(client.request('no/such'), { code: -32601 });
  await assert.rejects(client.request('toString'), { code: -32601 });
  client.notify('no/such', {});
  client.notify('$/setTrace', { value: 'off' });
  await client.request('shutdown');
  await assert.rejects(client.request('textDocument/hover', {}), { code: -32600 });
  client.notify('exit');
  assert.equal(await client.exited, 0);
});

test('exit without shutdown, and a client that is gone', async () => {
  for (const how of [(it) => it.notify('exit'), (it) => it.child.stdin.end()]) {
    const client = new Client();
    await client.begin();
    how(client);
    assert.equal(await client.exited, 1);
  }
});

test('bytes that are no message', async () => {
  await withClient(async (client) => {
    const wrong = (code) => client.message((it) => it.error?.code === code);
    let came = wrong(-32700);
    client.raw('Content-Length: 3\r\n\r\n{a}');
    await came;
    came = wrong(-32600);
    client.raw('Content-Type: application/vscode-jsonrpc; charset=utf-8\r\ncontent-length: 2\r\n\r\n[]');
    await came;
    // (a message in single bytes, with characters of four)
    const body = Buffer.from(
      JSON.stringify({
        jsonrpc: '2.0',
        method: 'textDocument/didOpen',
        params: { textDocument: { uri: uriOf('bytes.js'), languageId: 'javascript', version: 1, text: '"😀"; (a);' } },
      })
    );
    const found = client.diagnostics(uriOf('bytes.js'));
    for (const it of Buffer.concat([Buffer.from(`Content-Length: ${body.length}\r\n\r\n`), body])) client.raw(Buffer.from([it]));
    assert.deepEqual((await found).map(short), ['0:6-0:7 no-extra-parens', '0:7-0:8 no-undef']);
  });
  const client = new Client();
  client.raw('GET / HTTP/1.1\r\n\r\n');
  assert.equal(await client.exited, 1);
});

test('places in UTF-16, UTF-8 and UTF-32', async () => {
  const text = '"é漢😀"; (a);\u2028(b);\r(c);\r\n(d);';
  for (const [encoding, column] of [
    ['utf-16', 8],
    ['utf-8', 13],
    ['utf-32', 7],
  ]) {
    await withClient(
      async (client, result) => {
        assert.equal(result.capabilities.positionEncoding, encoding);
        const pairs = (await client.open(uriOf('places.js'), text))
          .filter((it) => it.code === 'no-extra-parens')
          .map((it) => [it.range.start.line, it.range.start.character]);
        const width = { 'utf-16': 1, 'utf-8': 3, 'utf-32': 1 }[encoding];
        assert.deepEqual(pairs, [
          [0, column],
          [0, column + 4 + width],
          [1, 0],
          [2, 0],
        ]);
        // (a change behind these characters)
        const found = client.diagnostics(uriOf('places.js'));
        client.change(uriOf('places.js'), 2, { range: range(0, column, 0, column + 3), text: 'a' });
        assert.equal((await found).filter((it) => it.code === 'no-extra-parens').length, 3);
      },
      { capabilities: { general: { positionEncodings: [encoding, 'utf-16'] } } }
    );
  }
  await withClient(async (_, result) => assert.equal(result.capabilities.positionEncoding, 'utf-16'), {
    capabilities: { general: { positionEncodings: ['utf-7'] } },
  });
});

test('underlines', async () => {
  await withClient(async (client) => {
    const found = await client.open(uriOf('under.js'), 'var ab = cde == (1);\nif (x.y[z == 1] != /=/) { /* } */ }\nswitch (q) {}\na == b == c; debugger;\n');
    assert.deepEqual(found.map(short), [
      '0:0-0:3 no-var',
      '0:4-0:6 no-unused-vars',
      '0:9-0:19 eqeqeq',
      '0:9-0:12 no-undef',
      '0:16-0:17 no-extra-parens',
      '1:4-1:22 eqeqeq',
      '1:4-1:5 no-undef',
      '1:8-1:14 eqeqeq',
      '1:8-1:9 no-undef',
      '1:24-1:35 no-empty',
      '2:0-2:13 no-empty',
      '2:8-2:9 no-undef',
      '3:0-3:6 eqeqeq',
      '3:0-3:11 eqeqeq',
      '3:0-3:1 no-undef',
      '3:5-3:6 no-undef',
      '3:10-3:11 no-undef',
      '3:13-3:22 no-debugger',
    ]);
  });
});

test('refusals, with hints', async () => {
  await withClient(async (client) => {
    let number = 0;
    const told = async (text) => {
      const it = (await client.open(uriOf(`refused${number++}.js`), text))[0];
      return it && [it.severity, it.code, placed(it), it.message];
    };
    assert.deepEqual(await told('a;\n@b class C {}'), [3, 'syntax', '1:0-1:1', "not checked: syntax error\nperhaps: decorators aren't ECMAScript"]);
    assert.deepEqual(await told('x = [1 2]'), [1, 'syntax', '0:7-0:8', 'syntax error']);
    assert.deepEqual(await told('let a; let a;'), [1, 'E3', '0:11-0:12', `${texts.early[3]} (early error E3)`]);
    assert.equal((await told('"a\ud800b"'))[1], 'utf8');
    assert.equal((await told('('.repeat(2000)))[1], 'deep');
    assert.equal((await told(`${'('.repeat(1100)}a${')'.repeat(1100)};`))[1], 'no-extra-parens');
    assert.equal(await told(''), undefined);
  });
});

test('code actions: one pair, all, let to const', () =>
  withClient(
    async (client) => {
      const text = 'let a = (1), b = ((a) + 2) * b; // (c)\nnew (f().x)();\n',
        uri = uriOf('actions.js');
      await client.open(uri, text);
      const of = (found, title) => found.filter((it) => it.title === title).map((it) => edited(text, it.edit.changes[uri]));
      const found = await actionsAt(client, 'actions.js', range(0, 0, 0, 30));
      assert.deepEqual(of(found, 'Take out this pair of parentheses'), [text.replace('(1)', '1'), text.replace('(a)', 'a')]);
      assert.deepEqual(of(found, 'Change let to const (if no other script writes it)'), [text.replace('let', 'const')]);
      assert.ok(found.every((it) => it.kind === 'quickfix'));
      const second = await actionsAt(client, 'actions.js', range(1, 4, 1, 4));
      assert.deepEqual(second.map((it) => it.title), ['Take out all unnecessary parentheses']);
      client.answers['workspace/applyEdit'] = () => ({ applied: true });
      const asked = client.message((it) => it.method === 'workspace/applyEdit');
      await client.request('workspace/executeCommand', second[0].command);
      assert.equal(edited(text, (await asked).params.edit.changes[uri]), 'let a = 1, b = (a + 2) * b; // (c)\nnew (f().x)();\n');
      const onSave = await actionsAt(client, 'actions.js', range(0, 0, 9, 0), { only: ['source.fixAll'] });
      assert.deepEqual(onSave.map((it) => it.kind), ['source.fixAll.jslint']);
      const kindsOf = async (only) => (await actionsAt(client, 'actions.js', range(1, 0, 1, 9), { only })).map((it) => it.kind);
      assert.deepEqual(await kindsOf(['source']), ['source.fixAll.jslint', 'source.mend.jslint', 'source.layout.jslint']);
      const safe = await actionsAt(client, 'actions.js', range(0, 0, 9, 0), { only: ['source.mend'] });
      assert.deepEqual(of(safe, 'Make all safe changes'), [text.replace('let', 'const')]);
      assert.deepEqual(await kindsOf(['']), ['quickfix', 'quickfix', 'source.fixAll.jslint', 'source.mend.jslint', 'source.layout.jslint']);
      assert.deepEqual([await kindsOf([]), await kindsOf(['refactor'])], [['quickfix', 'quickfix'], []]);
      await client.open(uriOf('inner.js'), '{ let a = 1; a; }');
      assert.deepEqual((await actionsAt(client, 'inner.js', range(0, 6, 0, 6))).map((it) => [it.title, it.isPreferred]), [
        ['Change let to const', true],
        ['Turn prefer-const off for this line', undefined],
      ]);
    },
    { capabilities: LITERALS }
  )
);

test('code actions where the editor takes commands alone, and edits with versions', async () => {
  await withClient(async (client) => {
    await client.open(uriOf('plain.js'), '(a);');
    assert.deepEqual(await actionsAt(client, 'plain.js', range(0, 0, 0, 1)), [
      { title: 'Take out all unnecessary parentheses', command: 'jslint.unwrap', arguments: [uriOf('plain.js')] },
    ]);
  });
  await withClient(
    async (client) => {
      await client.open(uriOf('v.js'), '(a);', 7);
      const [{ edit }] = await actionsAt(client, 'v.js', range(0, 0, 0, 1));
      assert.deepEqual(edit.documentChanges.map((it) => it.textDocument), [{ uri: uriOf('v.js'), version: 7 }]);
    },
    { capabilities: { ...LITERALS, workspace: { workspaceEdit: { documentChanges: true } } } }
  );
});

test('a command that drops comments says so, and rewrites what the editor has', () =>
  withClient(
    async (client) => {
      await client.open(uriOf('drop.js'), '(a) // b');
      client.answers['workspace/applyEdit'] = () => ({ applied: true });
      const [{ title, command }] = await actionsAt(client, 'drop.js', range(0, 0, 0, 0), { only: ['source.layout'] });
      assert.match(title, /drops comments/);
      const asked = client.message((it) => it.method === 'workspace/applyEdit');
      await client.request('workspace/executeCommand', command);
      assert.equal(edited('(a) // b', (await asked).params.edit.changes[uriOf('drop.js')]), 'a;\n');
    },
    { capabilities: LITERALS }
  )
);

test('formatting: unwrap in small edits, a stretch, and the layout where nothing is lost', async () => {
  const text = 'a  =  (b); // (c)\nif ((d)) {\n  (e)\n}\n';
  await withClient(async (client) => {
    await client.open(uriOf('format.js'), text);
    const edits = await formatted(client, 'format.js');
    assert.equal(edited(text, edits), 'a  =  b; // (c)\nif (d) {\n  e\n}\n');
    assert.ok(edits.every((it) => it.newText.length <= 1));
    const some = await client.request('textDocument/rangeFormatting', { ...at(uriOf('format.js')), range: range(1, 0, 3, 0), options: {} });
    assert.equal(edited(text, some), 'a  =  (b); // (c)\nif (d) {\n  e\n}\n');
    await client.open(uriOf('bad.js'), 'import a');
    assert.equal(await formatted(client, 'bad.js'), null);
    await assert.rejects(formatted(client, 'none.js'), { code: -32602 });
    client.notify('textDocument/didOpen', { textDocument: { uri: uriOf('other.ts'), languageId: 'typescript', version: 1, text: '(a)' } });
    assert.equal(await formatted(client, 'other.ts'), null);
  });
  await withClient(
    async (client) => {
      const done = async (name, from) => {
        await client.open(uriOf(name), from);
        return edited(from, await formatted(client, name));
      };
      assert.equal(await done('l.js', 'if ((a)) b'), 'if (a) b;\n');
      assert.equal(await done('c.js', 'if ((a)) b // c'), 'if (a) b // c');
      assert.equal(await done('r.js', 'if ((a)) b\r\n'), 'if (a) b;\r\n');
    },
    { more: { initializationOptions: { format: 'layout' } } }
  );
});

test('formatting in lines: the whole text, a stretch, and with the words of a program', async () => {
  const text = 'f( (a),b ) // c\nif(a){\n    b\n}\n',
    ask = (client, name, options) => client.request('textDocument/formatting', { ...at(uriOf(name)), options });
  await withClient(
    async (client) => {
      await client.open(uriOf('lines.js'), text);
      const all = await ask(client, 'lines.js', { tabSize: 4, insertSpaces: true });
      assert.equal(edited(text, all), 'f((a), b); // c\nif (a) {\n  b;\n}\n');
      assert.ok(all.length > 4 && all.every((it) => it.newText.length < 3), JSON.stringify(all));
      const some = await client.request('textDocument/rangeFormatting', {
        ...at(uriOf('lines.js')),
        range: range(1, 0, 4, 0),
        options: { tabSize: 2, insertSpaces: true },
      });
      assert.equal(edited(text, some), 'f( (a),b ) // c\nif (a) {\n  b;\n}\n');
      await client.open(uriOf('lines.js'), edited(text, all));
      assert.deepEqual(await ask(client, 'lines.js', {}), []);
      await client.open(uriOf('lines.js'), 'a b');
      assert.equal(await ask(client, 'lines.js', {}), null);
      await client.open(uriOf('lines.mjs'), 'export{a};let a\r\n');
      assert.equal(edited('export{a};let a\r\n', await ask(client, 'lines.mjs', {})), 'export { a };\r\nlet a;\r\n');
    },
    { more: { initializationOptions: { format: 'lines' } } }
  );
  // (a program that answers its words)
  put('words', '#!/bin/sh\ncat >/dev/null\necho "\'$*\';"\n');
  put('refuses', '#!/bin/sh\necho "jslint: syntax error at 1:1" >&2\nexit 2\n');
  put('fails', '#!/bin/sh\necho "error: no such word" >&2\nexit 2\n');
  for (const it of ['words', 'refuses', 'fails']) chmodSync(path.join(folder, it), 0o755);
  const by = (program, formatWords = []) => ({ more: { initializationOptions: { format: 'lines', program: path.join(folder, program), formatWords } } });
  await withClient(async (client) => {
    const words = async (options) => edited('a', await ask(client, 'words.js', options)).slice(1, -3);
    await client.open(uriOf('words.js'), 'a');
    assert.equal(await words({ tabSize: 4, insertSpaces: true }), 'format --indent=4 --edition 2020 -- -');
    assert.equal(await words({ tabSize: 2, insertSpaces: false }), 'format --tabs --edition 2020 -- -');
    assert.equal(await words({ tabSize: 8, insertSpaces: false }), 'format --indent=8 --tabs --edition 2020 -- -');
    for (const none of [{ tabSize: 2, insertSpaces: true }, {}, { tabSize: 9 }, { tabSize: 'x' }])
      assert.equal(edited('a', await ask(client, 'words.js', none)), 'a;\n');
  }, by('words'));
  await withClient(async (client) => {
    await client.open(uriOf('words.js'), 'a');
    assert.equal(edited('a', await ask(client, 'words.js', { tabSize: 4 })), "'format --width=100 --tabs --edition 2020 -- -';\n");
  }, by('words', ['--width=100', '--tabs']));
  await withClient(async (client) => {
    await client.open(uriOf('words.js'), 'a');
    assert.equal(await ask(client, 'words.js', { tabSize: 4 }), null);
  }, by('refuses'));
  for (const [program, said] of [
    ['fails', /error: no such word/],
    ['none', /ENOENT/],
  ]) {
    await withClient(async (client) => {
      await client.open(uriOf('words.js'), 'a');
      await assert.rejects(ask(client, 'words.js', { tabSize: 4 }), said);
    }, by(program));
  }
  await withClient(
    async (client) => {
      await client.open(uriOf('words.js'), 'a');
      await assert.rejects(ask(client, 'words.js', {}), /needs the setting program/);
      // (what is no word of a layout is left out)
    },
    { more: { initializationOptions: { format: 'lines', program: 'jslint', formatWords: ['--width=100'] } } }
  );
  await withClient(
    async (client) => {
      await client.open(uriOf('words.js'), 'a');
      assert.equal(edited('a', await ask(client, 'words.js', {})), 'a;\n');
    },
    { more: { initializationOptions: { format: 'lines', formatWords: ['--check'] } } }
  );
});

test('CR LF stays, in each edit', () =>
  withClient(
    async (client) => {
      const text = 'x = (\r\n  // (c)\r\n  (a) + b\r\n);\r\nlet y = (1);\r\n';
      await client.open(uriOf('crlf.js'), text);
      assert.equal(edited(text, await formatted(client, 'crlf.js')), 'x =\r\n  // (c)\r\n  a + b;\r\nlet y = 1;\r\n');
      for (const it of await actionsAt(client, 'crlf.js', range(0, 0, 4, 0))) {
        if (it.edit) assert.ok(!/[^\r]\n|\r(?!\n)/.test(edited(text, it.edit.changes[uriOf('crlf.js')])), it.title);
      }
    },
    { capabilities: LITERALS }
  )
);

test('settings: the nearest, as they are typed, refused with a line, ignored files', async () => {
  put('jslint.toml', 'globals = ["a"]\n');
  put('sub/jslint.toml', '[rules]\nno-undef = false\n');
  put('.gitignore', 'built/\n');
  await withClient(
    async (client) => {
      assert.deepEqual(codes(await client.open(uriOf('s.js'), 'a; b;')), ['no-undef']);
      assert.deepEqual(codes(await client.open(uriOf('sub/deep/s.js'), 'a; b;')), []);
      assert.deepEqual(codes(await client.open(uriOf('built/s.js'), 'a; (b);')), []);
      // (the settings are open, and not saved)
      let script = client.diagnostics(uriOf('s.js'), (it) => it.diagnostics.length === 0);
      await client.open(uriOf('jslint.toml'), 'globals = ["a", "b"]\n', 1, 'toml');
      await script;
      const bad = client.diagnostics(uriOf('jslint.toml'));
      script = client.diagnostics(uriOf('s.js'), (it) => it.diagnostics[0]?.code === 'settings');
      client.change(uriOf('jslint.toml'), 2, { text: 'globals = [\n "a",\n]\nallow-nul = true\n[rules]\n' });
      assert.deepEqual((await bad).map(short), ['3:0-3:16 settings']);
      await script;
      const noToml = client.diagnostics(uriOf('jslint.toml'), (it) => it.diagnostics[0]?.message === 'bad settings: no TOML from here on');
      client.change(uriOf('jslint.toml'), 3, { text: 'globals = [\n "a",\n]\n\u{1f600} = true\n' });
      assert.deepEqual((await noToml).map(short), ['3:0-3:9 settings']);
      const good = client.diagnostics(uriOf('jslint.toml'), (it) => it.diagnostics.length === 0);
      client.change(uriOf('jslint.toml'), 4, { text: 'globals = ["a"]\n' });
      await good;
      const found = await actionsAt(client, 's.js', range(0, 3, 0, 4));
      const ofSettings = found.filter((it) => it.edit.changes[uriOf('jslint.toml')]);
      const made = Object.fromEntries(ofSettings.map((it) => [it.title, edited('globals = ["a"]\n', it.edit.changes[uriOf('jslint.toml')])]));
      assert.deepEqual(made, {
        'Add b to the globals in jslint.toml': 'globals = ["a", "b"]\n',
        'Turn no-undef off in jslint.toml': 'globals = ["a"]\n[rules]\nno-undef = false\n',
      });
      // (closed: what is on the disk counts again)
      script = client.diagnostics(uriOf('s.js'), (it) => it.diagnostics.length === 0);
      put('jslint.toml', 'globals = ["a", "b"]\n# more\n');
      client.notify('textDocument/didClose', at(uriOf('jslint.toml')));
      await script;
    },
    { capabilities: LITERALS }
  );
});

test('languages: a module by its name, by package.json, by the settings or by its text', async () => {
  for (const [name, text] of [
    ['package.json', '\ufeff{"type": "module"}'],
    ['none/package.json', '{"type": "commonjs"}'],
    ['open/package.json', '{"name": "open"}'],
    ['said/package.json', '{'],
    ['said/jslint.toml', 'source-type = "module"\n'],
    ['old/jslint.toml', 'source-type = "script"\n'],
    ['new/package.json', '[]'],
    ['new/jslint.toml', 'edition = 2022\n'],
  ]) put(`languages/${name}`, text);
  const module = 'export let a = (1);\n',
    ofTwo = 'export {};\nasync () => (1);\n';
  await withClient(
    async (client) => {
      const opened = async (name, text) => codes(await client.open(uriOf(`languages/${name}`), text));
      const unwrapped = async (name, text) => edited(text, await formatted(client, `languages/${name}`));
      for (const name of ['a.mjs', 'a.js', 'none/a.mjs', 'said/a.js', 'open/a.js', 'open/a', 'new/a.js', 'new/a.mjs']) {
        assert.deepEqual(await opened(name, module), ['prefer-const', 'no-extra-parens'], name);
        assert.equal(await unwrapped(name, module), 'export let a = 1;\n', name);
        const found = await actionsAt(client, `languages/${name}`, range(0, 0, 0, 19));
        const made = found
          .filter((it) => /^(Change let|Take out this)/.test(it.title))
          .map((it) => edited(module, it.edit.changes[uriOf(`languages/${name}`)]));
        assert.deepEqual(made, ['export const a = (1);\n', 'export let a = 1;\n'], name);
      }
      for (const name of ['none/a.js', 'old/a.js', 'old/a.mjs', 'a.cjs', 'open/a.cjs']) {
        assert.deepEqual(await opened(name, module), ['syntax'], name);
        assert.equal(await formatted(client, `languages/${name}`), null, name);
      }
      // (a text that is a script is one, whatever it says; of one that is neither, the refusal is shown that got further)
      const refusedAt = async (text) => placed((await client.open(uriOf('open/r.js'), text))[0]);
      assert.deepEqual(await opened('open/s.js', '"import a from b"; // export {}\nawait (1);'), ['no-undef']);
      assert.deepEqual([await refusedAt('import a from "a";\nlet b = ;'), await refusedAt('await (1);\nlet b = ;')], ['1:8-1:9', '1:8-1:9']);
      assert.deepEqual([await opened('open/t.js', 'async () => import("a");'), await opened('open/t.js', 'await import("a");')], [[], []]);
      assert.deepEqual([await refusedAt('import {a} from "a"; let a;'), await refusedAt('let a; let a;\nexport let b = ;')], ['0:25-0:26', '1:15-1:16']);
      assert.deepEqual(await opened('new/b.js', ofTwo.slice(11)), ['no-extra-parens']);
      assert.equal(await unwrapped('new/b.js', ofTwo.slice(11)), 'async () => 1;\n');
      assert.deepEqual(await opened('b.js', ofTwo), ['no-extra-parens']);
      // (the package says it from now on)
      const script = client.diagnostics(uriOf('languages/none/a.js'), (it) => it.diagnostics.length === 2);
      put('languages/none/package.json', '{"type": "module", "name": "none"}');
      client.notify('workspace/didChangeWatchedFiles', { changes: [{ uri: uriOf('languages/none/package.json'), type: 2 }] });
      await script;
    },
    { capabilities: LITERALS }
  );
  await withClient(
    async (client) => {
      await client.open(uriOf('languages/c.js'), '#!a\nif ((a)) b');
      assert.equal(edited('#!a\nif ((a)) b', await formatted(client, 'languages/c.js')), '#!a\nif (a) b');
    },
    { more: { initializationOptions: { format: 'layout' } } }
  );
});

test('a report of a rule that only warns is a warning at most, and its message has no mark', async () => {
  put('warn/jslint.toml', 'rules = { no-var = "warn", no-debugger = 1, no-undef = { severity = "\\u0077arn" } }\n');
  const text = 'var a = (1);\ndebugger;\nb;\n';
  const wanted = (asked, atMost) => [
    [atMost, 'no-var', 'use let or const instead of var'],
    [asked, 'no-unused-vars', "'a' is never read"],
    [asked, 'no-extra-parens', 'unnecessary parentheses'],
    [atMost, 'no-debugger', 'debugger statement'],
    [atMost, 'no-undef', "'b' is not defined"],
  ];
  for (const [severity, asked, atMost] of [
    ['error', 1, 2],
    ['warning', 2, 2],
    ['information', 3, 3],
    ['hint', 4, 4],
  ]) {
    await withClient(
      async (client) => {
        const found = await client.open(uriOf('warn/a.js'), text);
        assert.deepEqual(found.map((it) => [it.severity, it.code, it.message]), wanted(asked, atMost));
        assert.deepEqual((await client.open(uriOf('unwarned.js'), 'debugger;')).map((it) => it.severity), [asked]);
        // (between refused states they stay what they were)
        const stale = client.diagnostics(uriOf('warn/a.js'));
        client.change(uriOf('warn/a.js'), 2, { range: range(2, 1, 2, 2), text: ' c' });
        assert.deepEqual((await stale).filter((it) => it.data?.isStale).map((it) => [it.severity, it.code]), wanted(asked, atMost).map((it) => it.slice(0, 2)));
      },
      { more: { initializationOptions: { severity } } }
    );
  }
});

test('settings on the disk that are refused, and mended', async () => {
  put('disk/jslint.toml', 'no\n');
  await withClient(async (client) => {
    const settings = client.diagnostics(uriOf('disk/jslint.toml'));
    assert.match((await client.open(uriOf('disk/a.js'), '(a);'))[0].message, /^not checked: .*jslint\.toml: bad settings at 1:3$/);
    assert.deepEqual((await settings).map(short), ['0:0-0:2 settings']);
    put('disk/jslint.toml', '[rules]\nno-undef = false\n');
    const mended = client.diagnostics(uriOf('disk/jslint.toml')),
      script = client.diagnostics(uriOf('disk/a.js'));
    client.notify('workspace/didChangeWatchedFiles', { changes: [] });
    assert.deepEqual(await mended, []);
    assert.deepEqual(codes(await script), ['no-extra-parens']);
  });
});

test('settings that the editor names, as they are typed', () =>
  withClient(
    async (client) => {
      await client.open(uriOf('typed/a.js'), 'debugger;');
      const shown = client.diagnostics(uriOf('typed/a.js'), (it) => it.diagnostics.length === 0);
      await client.open(uriOf('typed/own.toml'), '[rules]\nno-debugger = false\n', 1, 'toml');
      await shown;
      const again = client.diagnostics(uriOf('typed/a.js'));
      client.change(uriOf('typed/own.toml'), 2, { text: '' });
      assert.deepEqual(codes(await again), ['no-debugger']);
    },
    { more: { rootUri: uriOf('typed'), initializationOptions: { settings: 'own.toml' } } }
  )
);

test('settings that the editor names', async () => {
  put('named/own.toml', '[rules]\nno-debugger = false\n');
  for (const [settings, wanted] of [
    ['own.toml', []],
    [path.join(folder, 'named/own.toml'), []],
    ['none.toml', ['settings']],
  ]) {
    await withClient(
      async (client) => {
        const found = await client.open(uriOf('named/a.js'), 'debugger;');
        assert.deepEqual(codes(found), wanted);
        if (wanted.length) assert.match(found[0].message, /none\.toml: read failed: missing$/);
      },
      { more: { rootUri: uriOf('named'), initializationOptions: { settings } } }
    );
  }
});

test('the editor\'s settings', async () => {
  const asked = { format: 'unwrap', unsupported: 'off', severity: 'hint', maxDiagnostics: 2, languages: ['javascript'], debounce: 'no number' };
  const client = new Client();
  client.answers['workspace/configuration'] = () => [asked];
  await client.begin({ workspace: { configuration: true } });
  // (the answer about the settings is here before the next text is)
  await client.request('textDocument/diagnostic', at(uriOf('none.js')));
  const again = await client.open(uriOf('e2.js'), '(c); (d);');
  assert.deepEqual(again.map((it) => [it.severity, it.code]), [
    [4, 'no-extra-parens'],
    [4, 'no-undef'],
    [3, 'more'],
  ]);
  assert.deepEqual(await client.open(uriOf('e3.js'), 'export {};'), []);
  await client.end();
});

test('what the editor is asked to watch', async () => {
  const workspace = { didChangeWatchedFiles: { dynamicRegistration: true }, didChangeConfiguration: { dynamicRegistration: true } };
  await withClient(
    async (client) => {
      await client.open(uriOf('w.js'), '1;');
      const [asked] = client.heard.filter((it) => it.method === 'client/registerCapability');
      assert.deepEqual(
        asked.params.registrations.map((it) => [it.method, it.registerOptions.section ?? it.registerOptions.watchers.map((each) => each.globPattern)]),
        [
          ['workspace/didChangeWatchedFiles', ['**/jslint.toml', '**/package.json', '**/.jslintignore', '**/.gitignore', '**/.git/info/exclude']],
          ['workspace/didChangeConfiguration', 'jslint'],
        ]
      );
      const found = client.diagnostics(uriOf('w.js'), (it) => it.diagnostics.length === 1);
      client.notify('workspace/didChangeConfiguration', { settings: { jslint: { settings: null } } });
      client.change(uriOf('w.js'), 2, { text: 'debugger;' });
      await found;
    },
    { capabilities: { workspace } }
  );
});

test('hover', async () => {
  await withClient(
    async (client) => {
      await client.open(uriOf('h.js'), 'q == 1;\n');
      const hover = await client.request('textDocument/hover', { textDocument: { uri: uriOf('h.js') }, position: place(0, 0) });
      assert.match(hover.contents.value, /\*\*eqeqeq\*\*[\s\S]*\*\*no-undef\*\*/);
      assert.equal(await client.request('textDocument/hover', { textDocument: { uri: uriOf('h.js') }, position: place(0, 7) }), null);
      await client.open(uriOf('h2.js'), 'let a; let a;');
      assert.match(
        (await client.request('textDocument/hover', { textDocument: { uri: uriOf('h2.js') }, position: place(0, 3) })).contents.value,
        /early error E3/
      );
    },
    { capabilities: { textDocument: { hover: { contentFormat: ['markdown'] } } } }
  );
});

test('pulled diagnostics', async () => {
  await withClient(
    async (client, result) => {
      assert.ok(result.capabilities.diagnosticProvider);
      client.notify('textDocument/didOpen', { textDocument: { uri: uriOf('p.js'), languageId: 'javascript', version: 1, text: 'debugger;' } });
      const found = await client.request('textDocument/diagnostic', { textDocument: { uri: uriOf('p.js') } });
      assert.deepEqual([found.kind, found.items.map((it) => it.code)], ['full', ['no-debugger']]);
      assert.ok(!client.heard.some((it) => it.method === 'textDocument/publishDiagnostics'));
      // (the text changes before the answer is there)
      client.notify('textDocument/didChange', { textDocument: { uri: uriOf('p.js'), version: 2 }, contentChanges: [{ text: 'f((a));\n'.repeat(20000) }] });
      const late = assert.rejects(client.request('textDocument/diagnostic', { textDocument: { uri: uriOf('p.js') } }), { code: -32801 });
      client.notify('textDocument/didChange', { textDocument: { uri: uriOf('p.js'), version: 3 }, contentChanges: [{ text: '1;' }] });
      await late;
      assert.deepEqual((await client.request('textDocument/diagnostic', { textDocument: { uri: uriOf('p.js') } })).items, []);
    },
    { capabilities: { textDocument: { diagnostic: {} } } }
  );
});

test('cancelling, a thread that ends, a call that hangs', async () => {
  await withClient(async (client) => {
    const hanging = client.request('$/test', { kind: 'hang' });
    const behind = client.request('textDocument/diagnostic', { textDocument: { uri: uriOf('none.js') } });
    client.notify('$/cancelRequest', { id: hanging.id });
    await assert.rejects(hanging, { code: -32800 });
    await behind;
    await assert.rejects(client.request('$/test', { kind: 'crash' }), { code: -32603 });
    await assert.rejects(client.request('$/test', { kind: 'fail' }), /as asked/);
    await assert.rejects(client.request('$/test', { kind: 'hang', mostMs: 500 }), /no answer within 0.5 s/);
    assert.deepEqual((await client.open(uriOf('after.js'), 'debugger;')).map((it) => it.code), ['no-debugger']);
  });
});

test('typing: what is old isn\'t shown, and a change comes to the right place', async () => {
  await withClient(
    async (client) => {
      const uri = uriOf('type.js');
      const text = 'debugger;\n'.repeat(2000);
      await client.open(uri, text);
      const last = client.diagnostics(uri, (it) => it.version === 61);
      for (let number = 0; number < 60; number++) {
        client.change(uri, 2 + number, { range: range(number * 7, 0, number * 7, 0), text: `(x${number});` });
      }
      const found = await last;
      assert.equal(found.filter((it) => it.code === 'no-extra-parens').length, 60);
      const published = client.heard.filter((it) => it.method === 'textDocument/publishDiagnostics' && it.params.uri === uri).map((it) => it.params.version);
      assert.ok(published.length <= 4 && published.at(-1) === 61, `${published}`);
    },
    {
      capabilities: { textDocument: { publishDiagnostics: { versionSupport: true } } },
      more: { initializationOptions: { maxDiagnostics: 100000, debounce: 1000 } },
    }
  );
});

test('the workspace: progress, and cancelled in between', async () => {
  for (let number = 0; number < 100; number++) put(`many/${number}.js`, `debugger; (${number});\n`);
  put('many/.jslintignore', '1?.js\n');
  await withClient(
    async (client) => {
      const seen = () => client.heard.filter((it) => it.method === '$/progress').map((it) => it.params.value.kind);
      const result = await client.request('workspace/executeCommand', { command: 'jslint.checkWorkspace', workDoneToken: 'mine' });
      assert.deepEqual(result, { files: 90, withReports: 90 });
      assert.deepEqual([seen()[0], seen().at(-1)], ['begin', 'end']);
      const again = client.request('workspace/executeCommand', { command: 'jslint.checkWorkspace', workDoneToken: 'other' });
      client.notify('window/workDoneProgress/cancel', { token: 'other' });
      await assert.rejects(again, { code: -32800 });
    },
    { more: { workspaceFolders: [{ uri: uriOf('many'), name: 'many' }] } }
  );
});

test('an ignored text, and a refused one: nothing is offered', async () => {
  put('left/.jslintignore', 'vendor/\n');
  put('left/.gitignore', '*.min.js\n');
  put('left/.git/x', '');
  const everything = { only: [''] },
    text = '((a)) == 1;\n';
  await withClient(
    async (client) => {
      for (const name of ['left/vendor/a.js', 'left/b.min.js', 'left/node_modules/c/c.js']) {
        assert.deepEqual(await client.open(uriOf(name), text), [], name);
        assert.equal(await formatted(client, name), null);
        assert.equal(await client.request('textDocument/rangeFormatting', { ...at(uriOf(name)), range: range(0, 0, 1, 0), options: {} }), null);
        assert.deepEqual(await actionsAt(client, name, range(0, 0, 0, 9), everything), []);
        assert.equal(await client.request('textDocument/hover', { ...at(uriOf(name)), position: place(0, 0) }), null);
        for (const command of ['jslint.unwrap', 'jslint.layout'])
          await assert.rejects(client.request('workspace/executeCommand', { command, arguments: [uriOf(name)] }), /is ignored/);
      }
      assert.deepEqual(codes(await client.open(uriOf('left/refused.js'), `${text}a b`)), ['syntax']);
      assert.deepEqual([await formatted(client, 'left/refused.js'), await actionsAt(client, 'left/refused.js', range(0, 0, 9, 0), everything)], [null, []]);
      await assert.rejects(
        client.request('workspace/executeCommand', { command: 'jslint.unwrap', arguments: [uriOf('left/refused.js')] }),
        /syntax error at 2:3/
      );
      assert.ok(!client.heard.some((it) => it.method === 'workspace/applyEdit'));
    },
    { capabilities: LITERALS }
  );
});

test('casts keep their pairs', () =>
  withClient(
    async (client) => {
      const text = 'const a = /** @type {T} */ (b), c = /** @satisfies {U} */\n  ((d)), e = (f);\n',
        uri = uriOf('casts.js');
      assert.deepEqual((await client.open(uri, text)).filter((it) => it.code === 'no-extra-parens').map(short), [
        '1:3-1:4 no-extra-parens',
        '1:13-1:14 no-extra-parens',
      ]);
      const titles = async (stretch, context) =>
        (await actionsAt(client, 'casts.js', stretch, context)).map((it) => it.title).filter((it) => /parentheses/.test(it));
      assert.deepEqual(await titles(range(0, 27, 0, 28)), []);
      assert.deepEqual(await titles(range(1, 13, 1, 13)), ['Take out this pair of parentheses', 'Take out all unnecessary parentheses, those of casts too']);
      const [one] = await actionsAt(client, 'casts.js', range(1, 3, 1, 3));
      assert.equal(edited(text, one.edit.changes[uri]), text.replace('((d))', '(d)'));
      assert.deepEqual(await titles(range(0, 0, 9, 0), { only: ['source.fixAll'] }), []);
      assert.deepEqual(await formatted(client, 'casts.js'), []);
      assert.deepEqual(await client.request('textDocument/rangeFormatting', { ...at(uri), range: range(1, 0, 2, 0), options: {} }), []);
      // (asked for, they go)
      client.answers['workspace/applyEdit'] = () => ({ applied: true });
      const asked = client.message((it) => it.method === 'workspace/applyEdit');
      await client.request('workspace/executeCommand', { command: 'jslint.unwrap', arguments: [uri] });
      assert.equal(edited(text, (await asked).params.edit.changes[uri]), 'const a = /** @type {T} */ b, c = /** @satisfies {U} */\n  d, e = f;\n');
      // (parameters of an arrow are no cast, and a comment that isn't right before a pair makes none)
      const other = 'x = /** @type {T} */ (a) => (a), y = /** @type {T} */ b + (c), z = /* @type */ (d);\n';
      assert.equal((await client.open(uriOf('none.js'), other)).filter((it) => it.code === 'no-extra-parens').length, 3);
      assert.equal(edited(other, await formatted(client, 'none.js')), 'x = /** @type {T} */ (a) => a, y = /** @type {T} */ b + c, z = /* @type */ d;\n');
    },
    { capabilities: LITERALS }
  )
);

test('comments that turn reports off', async () => {
  const text = [
    'debugger; // jslint-disable-line no-debugger -- why',
    '// jslint-disable-next-line',
    'var a = (1);',
    '`',
    '// jslint-disable-next-line no-debugger',
    '`; debugger;',
    '// jslint-disable-next-line no-such, no-extra-parens',
    '',
    '1; // jslint-disable-line no-var',
    '',
  ].join('\n');
  const wanted = ['2:8-2:9 no-extra-parens', '5:3-5:12 no-debugger', '6:0-6:52 suppression', '6:0-6:52 suppression', '8:3-8:32 suppression'];
  await withClient(
    async (client) => {
      const found = await client.open(uriOf('off.js'), text);
      assert.deepEqual(found.map(short), wanted);
      assert.deepEqual(found.slice(2).map((it) => it.message), [
        "'no-such' is no rule",
        'no-extra-parens is not turned off: fix and unwrap take the pair all the same',
        'this comment turns no report off',
      ]);
      const off = async (name, made, stretch) => {
        await client.open(uriOf(name), made);
        return (await actionsAt(client, name, stretch))
          .filter((it) => /for this line/.test(it.title))
          .map((it) => [it.title, edited(made, it.edit.changes[uriOf(name)])]);
      };
      assert.deepEqual(await off('o1.js', '{\r\n  debugger; (1);\r\n}\r\n', range(1, 2, 1, 13)), [
        ['Turn no-debugger off for this line', '{\r\n  // jslint-disable-next-line no-debugger\r\n  debugger; (1);\r\n}\r\n'],
      ]);
      assert.deepEqual(await off('o2.js', '`\n`; debugger;', range(1, 3, 1, 3)), [
        ['Turn no-debugger off for this line', '`\n`; debugger; // jslint-disable-line no-debugger'],
      ]);
      assert.deepEqual(await off('o3.js', '// jslint-disable-next-line no-debugger\ndebugger; 1 == 1;\n', range(1, 10, 1, 10)), [
        ['Turn eqeqeq off for this line', '// jslint-disable-next-line no-debugger, eqeqeq\ndebugger; 1 == 1;\n'],
      ]);
      assert.deepEqual(await off('o4.js', '`\n${1 == 1}\n`;', range(1, 3, 1, 3)), []);
      // (in a module of 2022, by settings that leave it open)
      put('off/jslint.toml', 'edition = 2022\n');
      assert.deepEqual((await client.open(uriOf('off/m.js'), 'export const a = async () => {\n  debugger; // jslint-disable-line\n};\n')).map(short), []);
      assert.deepEqual((await client.open(uriOf('off/s.js'), 'async () => {\n  debugger; // jslint-disable-line\n};\n')).map(short), []);
    },
    { capabilities: LITERALS }
  );
  await withClient(
    async (client) => {
      assert.equal((await client.open(uriOf('off.js'), text)).filter((it) => it.code === 'no-debugger').length, 2);
      assert.ok((await actionsAt(client, 'off.js', range(0, 0, 0, 1))).every((it) => !/this line/.test(it.title)));
    },
    { capabilities: LITERALS, more: { initializationOptions: { suppressions: false } } }
  );
});

test('between refused states the last reports stay, marked', () =>
  withClient(
    async (client) => {
      const uri = uriOf('stale.js');
      await client.open(uri, 'debugger;\n(1); (2);\n');
      const after = async (version, ...changes) => {
        const found = client.diagnostics(uri, (it) => it.version === version);
        client.change(uri, version, ...changes);
        return (await found).map((it) => `${short(it)} ${it.message}`);
      };
      assert.deepEqual(await after(2, { range: range(1, 0, 1, 0), text: 'x = ;\n' }), [
        '1:4-1:5 syntax syntax error',
        '0:0-0:9 no-debugger debugger statement (stale)',
        '2:0-2:1 no-extra-parens unnecessary parentheses (stale)',
        '2:5-2:6 no-extra-parens unnecessary parentheses (stale)',
      ]);
      // (what was typed over goes; a whole text is compared)
      assert.deepEqual(await after(3, { text: 'debu;\nx = ;\n(1); (2);\n' }), [
        '1:4-1:5 syntax syntax error',
        '2:0-2:1 no-extra-parens unnecessary parentheses (stale)',
        '2:5-2:6 no-extra-parens unnecessary parentheses (stale)',
      ]);
      assert.deepEqual(await actionsAt(client, 'stale.js', range(2, 0, 2, 1)), []);
      assert.deepEqual(await after(4, { text: '1;\n' }), []);
      assert.deepEqual(await after(5, { text: '1;;\n)' }), ['1:0-1:1 syntax syntax error']);
    },
    { capabilities: { ...LITERALS, textDocument: { ...LITERALS.textDocument, publishDiagnostics: { versionSupport: true } } } }
  )
);

test('reports lead to the pages of their rules', () =>
  withClient(
    async (client) => {
      const found = await client.open(uriOf('pages.js'), 'debugger; (1); // jslint-disable-line no-such\n'),
        [first] = found;
      assert.deepEqual(found.map((it) => it.codeDescription !== undefined), [true, true, false]);
      assert.match(readFileSync(new URL(first.codeDescription.href), 'utf8'), /^# no-debugger\n/);
    },
    { capabilities: { textDocument: { publishDiagnostics: { codeDescriptionSupport: true } } } }
  )
);

test('settings as actions: environments, a language, and settings where there are none', async () => {
  put('acts/jslint.toml', 'env = ["worker"]\n# c\n');
  put('bare/.git/x', '');
  const capabilities = { ...LITERALS, workspace: { workspaceEdit: { documentChanges: true, resourceOperations: ['create'] } } };
  await withClient(
    async (client) => {
      const made = async (name, text, settings, stretch = range(0, 0, 0, 1)) => {
        await client.open(uriOf(name), text);
        const found = (await actionsAt(client, name, stretch)).filter((it) => /jslint\.toml$/.test(it.title));
        return found.map((it) => [it.title, edited(settings, it.edit.documentChanges.at(-1).edits), it.edit.documentChanges.length]);
      };
      assert.deepEqual(await made('acts/a.js', 'module.b(document);', 'env = ["worker"]\n# c\n'), [
        ['Add node to the environments in jslint.toml', 'env = ["worker", "node"]\n# c\n', 1],
        ['Add commonjs to the environments in jslint.toml', 'env = ["worker", "commonjs"]\n# c\n', 1],
        ['Add module to the globals in jslint.toml', 'globals = ["module"]\nenv = ["worker"]\n# c\n', 1],
        ['Turn no-undef off in jslint.toml', 'env = ["worker"]\n# c\n[rules]\nno-undef = false\n', 1],
      ]);
      put('acts/old/jslint.toml', 'edition = 2020 # c\n');
      put('acts/scripts/jslint.toml', 'source-type = "script"\n');
      const refused = 'async function f() {}\nf();';
      assert.deepEqual(await made('acts/old/b.js', refused, 'edition = 2020 # c\n'), [
        ['Read it as a script of ES2022: edition = 2022 in jslint.toml', 'edition = 2022 # c\n', 1],
      ]);
      assert.deepEqual(await made('acts/scripts/b.js', 'export {};', 'source-type = "script"\n'), [
        ['Read it as a module: source-type = "module" in jslint.toml', 'source-type = "module"\n', 1],
      ]);
      // (what other settings wouldn't mend isn't offered)
      assert.deepEqual(await made('acts/old/c.js', `${refused} a b`, ''), []);
      // (settings where there are none)
      assert.deepEqual(await made('bare/a.js', 'describe;', ''), [
        ['Add mocha to the environments in jslint.toml', 'env = ["mocha"]\n', 2],
        ['Add jest to the environments in jslint.toml', 'env = ["jest"]\n', 2],
        ['Add describe to the globals in jslint.toml', 'globals = ["describe"]\n', 2],
        ['Turn no-undef off in jslint.toml', '[rules]\nno-undef = false\n', 2],
      ]);
      const [{ edit }] = (await actionsAt(client, 'bare/a.js', range(0, 0, 0, 0)));
      assert.deepEqual(edit.documentChanges[0], { kind: 'create', uri: uriOf('bare/jslint.toml'), options: { ignoreIfExists: true } });
    },
    { capabilities }
  );
});

test('work on a text is dropped when it changes, and reports don\'t wait for it', () =>
  withClient(
    async (client) => {
      const uri = uriOf('big.js'),
        text = 'a = ((b) + c);\n'.repeat(3000);
      await client.open(uri, text);
      let version = 1;
      const key = async () => {
        const found = client.diagnostics(uri, (it) => it.version === version),
          begun = performance.now();
        client.change(uri, ++version, { range: range(0, 0, 0, 0), text: ' ' });
        await found;
        return performance.now() - begun;
      };
      const alone = Math.min(await key(), await key()),
        asked = actionsAt(client, 'big.js', range(0, 0, 3000, 0)),
        dropped = assert.rejects(asked, { code: -32801 });
      const beside = await key();
      await dropped;
      // (on a quiet machine 1.5 times as long at most; other work may stand beside)
      assert.ok(beside <= 4 * alone + 1000, `${beside} beside an action, ${alone} alone`);
      // (a change that is judged for ever)
      const hanging = client.request('$/test', { kind: 'hang', isChange: true });
      await key();
      client.notify('$/cancelRequest', { id: hanging.id });
      await assert.rejects(hanging, { code: -32800 });
      assert.ok((await actionsAt(client, 'big.js', range(0, 0, 1, 0))).length > 1);
    },
    {
      capabilities: { ...LITERALS, textDocument: { ...LITERALS.textDocument, publishDiagnostics: { versionSupport: true } } },
      more: { initializationOptions: { debounce: 0 } },
    }
  )
);
