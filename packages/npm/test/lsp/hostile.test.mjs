// Whatever an editor, a file system or a stranger's text does, the server answers or ends, and makes nothing up.
import assert from 'node:assert/strict';
import { spawn, spawnSync } from 'node:child_process';
import { chmodSync, closeSync, cpSync, mkdirSync, mkdtempSync, openSync, readFileSync, rmSync, symlinkSync, writeFileSync } from 'node:fs';
import { tmpdir } from 'node:os';
import path from 'node:path';
import { test } from 'node:test';
import { setTimeout as pause } from 'node:timers/promises';
import { pathToFileURL } from 'node:url';
import { framed } from '../../lib/frames.mjs';
import { BIN, Client, at, place, range, withClient } from './client.mjs';

let seed = Number(process.env.SEED ?? 5);
const random = (most) => {
  seed = (seed * 1103515245 + 12345) % 2147483648;
  return (seed >> 8) % most;
};
const pick = (list) => list[random(list.length)];
const memory = (client) => Number(/VmRSS:\s+(\d+)/.exec(readFileSync(`/proc/${client.child.pid}/status`, 'latin1'))[1]) / 1024;
const codes = (found) => found.map((it) => it.code);
const workspaceOf = (folder) => ({ more: { workspaceFolders: [{ uri: pathToFileURL(folder).href, name: 'it' }] } });
const checkWorkspace = (client) => client.request('workspace/executeCommand', { command: 'jslint.checkWorkspace' });
const shownOf = (client) =>
  Object.fromEntries(client.heard.filter((it) => it.method === 'textDocument/publishDiagnostics').map((it) => [it.params.uri, it.params.diagnostics]));

/** A folder with these files, which every user may read, and which goes at the end. */
async function inFolder(files, work) {
  const folder = mkdtempSync(path.join(tmpdir(), 'jslint-lsp-')),
    uriOf = (name) => pathToFileURL(path.join(folder, name)).href;
  try {
    chmodSync(folder, 0o755);
    for (const [name, text] of Object.entries({ '.git/x': '', ...files })) {
      mkdirSync(path.dirname(path.join(folder, name)), { recursive: true });
      writeFileSync(path.join(folder, name), text);
    }
    await work(folder, uriOf);
  } finally {
    rmSync(folder, { recursive: true, force: true });
  }
}

// ---- messages

test('random messages: each request is answered, and the server works on', () =>
  withClient(
    async (client) => {
      const uris = ['file:///h/a.js', 'file:///h/jslint.toml', 'untitled:1', 'http://x/y.js', '', 'file://host/%zz.js', '%', null, 7];
      const texts = ['(a);', '\ud800', 'import x', '', 7, null];
      const values = () =>
        pick([
          null,
          0,
          -1,
          1e9,
          1.5,
          '',
          'x',
          [],
          {},
          true,
          [{ text: '(b)' }],
          [{ range: {}, text: 1 }],
          place(-1, -5),
          place(1e9, 0),
          range(0, 0, 0, 3),
          { uri: pick(uris) },
          { uri: pick(uris), version: random(9), languageId: 'javascript', text: pick(texts) },
        ]);
      const names = [
        'textDocument',
        'position',
        'range',
        'contentChanges',
        'context',
        'options',
        'command',
        'arguments',
        'workDoneToken',
        'settings',
        'event',
        'token',
        'id',
        'changes',
      ];
      const requests = [
        'textDocument/codeAction',
        'textDocument/formatting',
        'textDocument/rangeFormatting',
        'textDocument/hover',
        'textDocument/diagnostic',
        'workspace/executeCommand',
        'nope',
        'toString',
        '__proto__',
      ];
      const notifications = [
        'textDocument/didOpen',
        'textDocument/didChange',
        'textDocument/didSave',
        'textDocument/didClose',
        'workspace/didChangeConfiguration',
        'workspace/didChangeWatchedFiles',
        'workspace/didChangeWorkspaceFolders',
        'window/workDoneProgress/cancel',
        '$/cancelRequest',
        'nope',
        'constructor',
      ];
      const answers = [];
      for (let number = 0; number < 2000; number++) {
        const params = pick([undefined, null, [], 'x', ...Array(8).fill(Object.fromEntries(Array.from({ length: random(4) }, () => [pick(names), values()])))]);
        if (random(2))
          answers.push(
            client.request(pick(requests), params).then(
              () => 'answered',
              (error) => {
                assert.equal(typeof error.code, 'number');
                return 'refused';
              }
            )
          );
        else client.notify(pick(notifications), params);
      }
      assert.equal((await Promise.all(answers)).length, answers.length);
      assert.deepEqual(codes(await client.open('file:///h/after.js', 'debugger;')), ['no-debugger']);
    },
    { words: [] }
  )
);

test('random bytes: the server ends, or answers what follows', async () => {
  for (let round = 0; round < 6; round++) {
    const client = new Client([]);
    await client.begin();
    const noise = Buffer.from(Array.from({ length: 1 + random(9000) }, () => random(256)));
    client.raw(round % 2 ? noise : framed(noise.toString('latin1')));
    const rest = client.request('no/such').then(() => 'answered', () => 'answered');
    const how = await Promise.race([rest, client.exited]);
    assert.ok(how === 1 || how === 'answered', `${how}`);
    client.child.kill('SIGKILL');
  }
});

test('a client that breaks off: in a header, in a body, in a check', async () => {
  const open = (text) =>
    framed(
      JSON.stringify({
        jsonrpc: '2.0',
        method: 'textDocument/didOpen',
        params: { textDocument: { uri: 'file:///a.js', languageId: 'javascript', version: 1, text } },
      })
    );
  for (const bytes of ['Content-Le', 'Content-Length: 50\r\n\r\n{"jsonrpc"', open('f((a), b == c);\n'.repeat(30000))]) {
    const client = new Client([]);
    await client.begin();
    client.raw(bytes);
    client.child.stdin.end();
    assert.equal(await client.exited, 1, client.errors);
  }
});

test('changes that make no sense: nothing is said of that text any more', () =>
  withClient(async (client) => {
    const uri = 'file:///h/a.js';
    for (const changes of [
      [{ range: range(0, -1, 0, 2), text: 'x' }],
      [{ range: {}, text: 'x' }],
      [{ text: 7 }],
      [null],
      'x',
      undefined,
      [{ text: '(b)' }, { text: null }],
    ]) {
      await client.open(uri, '(a);');
      const cleared = client.diagnostics(uri),
        said = client.message((it) => it.method === 'window/showMessage');
      client.notify('textDocument/didChange', { textDocument: { uri, version: 2 }, contentChanges: changes });
      assert.deepEqual(await cleared, []);
      assert.match((await said).params.message, /a\.js: a change made no sense/);
      await assert.rejects(client.request('textDocument/formatting', { ...at(uri), options: {} }), { code: -32602 });
    }
  })
);

test('a text that is closed and opened again with the same version meanwhile gets no edit of the old one', () =>
  withClient(async (client) => {
    const uri = 'file:///h/b.js',
      hanging = assert.rejects(client.request('$/test', { kind: 'hang', mostMs: 500, isChange: true }), /no answer/);
    client.notify('textDocument/didOpen', { textDocument: { uri, languageId: 'javascript', version: 1, text: 'first = (a);' } });
    const edits = assert.rejects(client.request('textDocument/formatting', { ...at(uri), options: {} }), { code: -32801 });
    client.notify('textDocument/didClose', at(uri));
    client.notify('textDocument/didOpen', { textDocument: { uri, languageId: 'javascript', version: 1, text: '(second);' } });
    await hanging;
    await edits;
  })
);

// ---- texts

test('scripts at the limits of nesting', () =>
  withClient(
    async (client) => {
      const texts = [
        '('.repeat(1200) + 'a' + ')'.repeat(1200),
        '{'.repeat(590) + '}'.repeat(590),
        `x = ${'['.repeat(590)}${']'.repeat(590)}`,
        '!{a(){'.repeat(99) + '}}'.repeat(99),
        `${'a => '.repeat(590)}a`,
        '`${'.repeat(290) + 'a' + '}`'.repeat(290),
        `a${' + a'.repeat(590)}`,
      ];
      for (const [number, text] of texts.entries()) {
        const uri = `file:///deep/${number}.js`,
          found = await client.open(uri, text);
        assert.ok(found.every((it) => it.code !== 'failed'), `${number} ${JSON.stringify(found[0])}`);
        const edits = await client.request('textDocument/formatting', { ...at(uri), options: {} }).catch((error) => error.message);
        assert.ok(Array.isArray(edits), `${number} ${edits}`);
        await client.request('textDocument/codeAction', { ...at(uri), range: range(0, 0, 0, 1), context: {} });
      }
    },
    { words: [], capabilities: { textDocument: { codeAction: { codeActionLiteralSupport: {} } } } }
  )
);

test('a text of 4 MB: what needs no check answers meanwhile', (t) =>
  withClient(
    async (client) => {
      const uri = 'file:///big/a.js',
        small = 'file:///big/b.js';
      client.notify('textDocument/didOpen', { textDocument: { uri, languageId: 'javascript', version: 1, text: 'f((a), b == c);\n'.repeat(250000) } });
      await pause(600);
      const from = performance.now();
      await assert.rejects(client.request('workspace/executeCommand', { command: 'none' }));
      t.diagnostic(`an answer beside it: ${Math.round(performance.now() - from)} ms`);
      const gone = client.request('textDocument/formatting', { ...at(uri), options: {} });
      setTimeout(() => client.notify('$/cancelRequest', { id: gone.id }), 300);
      await assert.rejects(gone, { code: -32800 });
      client.notify('textDocument/didClose', at(uri));
      assert.equal((await client.open(small, 'debugger;')).length, 1);
    },
    { words: [] }
  )
);

test('a text above the limit is refused', () =>
  withClient(
    async (client) => {
      const [it] = await client.open('file:///big/c.js', ' '.repeat(16777217));
      assert.deepEqual([it.code, it.message], ['long', 'longer than 16777216 bytes']);
    },
    { words: [] }
  )
);

test('a text of 100 MB is refused, and what follows is answered', () =>
  withClient(
    async (client) => {
      const [it] = await client.open('file:///big/d.js', ' '.repeat(100_000_000));
      assert.deepEqual([it.code, it.message], ['long', 'longer than 16777216 bytes']);
      assert.deepEqual(codes(await client.open('file:///big/e.js', 'debugger;')), ['no-debugger']);
    },
    { words: [] }
  )
);

test('a slow check is told as progress, where the editor takes it', () =>
  withClient(
    async (client) => {
      const uri = 'file:///slow/a.js',
        ended = client.message((it) => it.method === '$/progress' && it.params.value.kind === 'end');
      client.notify('textDocument/didOpen', { textDocument: { uri, languageId: 'javascript', version: 1, text: 'f((a), b == c);\n'.repeat(30000) } });
      await ended;
      const told = client.heard.filter((it) => it.method === 'window/workDoneProgress/create' || it.method === '$/progress');
      assert.deepEqual(told.map((it) => it.params.value?.kind ?? 'create'), ['create', 'begin', 'end']);
    },
    { words: [], capabilities: { window: { workDoneProgress: true } } }
  )
);

test('memory: a long session, and after a large text', (t) =>
  withClient(
    async (client) => {
      const uri = 'file:///long/a.js',
        text = Array.from({ length: 1000 }, (_, number) => `let v${number} = (${number} + 1) * f(${number});\n`).join(''),
        seen = [];
      await client.open(uri, text);
      for (let number = 0; number < 200; number++) {
        const found = number % 5 === 4 ? client.diagnostics(uri) : null;
        client.change(uri, 2 + number, { range: range(number, 0, number, 0), text: '(a);' });
        if (found) await found;
        if (number % 40 === 39) seen.push(Math.round(memory(client)));
        client.heard.length = client.said.length = 0;
      }
      t.diagnostic(`MiB after each 40 changes: ${seen.join(' ')}`);
      assert.ok(seen.at(-1) < seen[0] * 1.6 + 40);
      const big = 'file:///mem/b.js';
      await client.open(big, 'f((a), b == c);\n'.repeat(100000));
      const during = memory(client);
      client.notify('textDocument/didClose', at(big));
      for (let tries = 0; tries < 100 && memory(client) > during * 0.7; tries++) await pause(200);
      t.diagnostic(`MiB with 1.6 MB, and after: ${Math.round(during)} ${Math.round(memory(client))}`);
      assert.ok(memory(client) <= during * 0.7);
      assert.equal((await client.open('file:///mem/c.js', 'debugger;')).length, 1);
    },
    { more: { initializationOptions: { debounce: 0 } } }
  )
);

// ---- streams and signals

const initialize = framed(JSON.stringify({ jsonrpc: '2.0', id: 1, method: 'initialize', params: { capabilities: {} } }));

/** The status of a server whose client can't be written to. */
async function statusWith(stdio, input) {
  const child = spawn(process.execPath, [BIN, '--stdio'], { stdio });
  child.stdin.on('error', () => {});
  child.stdin.write(input);
  const timer = setTimeout(() => child.kill('SIGKILL'), 30000),
    status = await new Promise((resolve) => child.on('exit', (code, signal) => resolve(signal ?? code)));
  clearTimeout(timer);
  return status;
}

test('words that make no sense, help, the version, and a package that is not whole', () =>
  inFolder({}, async (folder) => {
    const call = (bin, ...words) => {
      const it = spawnSync(process.execPath, [bin, ...words], { input: '', encoding: 'utf8' });
      return [it.status, it.stdout, it.stderr];
    };
    const [status, usage] = call(BIN, '--help');
    assert.ok(status === 0 && usage.startsWith('usage: jslint-lsp [--stdio]\n'));
    for (const words of [['--nope'], ['a.js'], ['--stdio', 'x'], ['--clientProcessId=x'], [''], ['--', '--stdio']])
      assert.deepEqual(call(BIN, ...words), [2, '', usage], words);
    assert.match(call(BIN, '--stdio', '--version')[1], /^jslint-lsp \d+\.\d+\.\d+\n$/);
    for (const name of ['bin', 'lib']) cpSync(path.join(path.dirname(BIN), '..', name), path.join(folder, name), { recursive: true });
    const said = 'jslint-lsp: jslint.wasm or lib/texts.json is missing: in the repository `node packages/npm/prepack.mjs` puts them here\n';
    for (const words of [['--stdio'], ['--version']]) assert.deepEqual(call(path.join(folder, 'bin/jslint-lsp.mjs'), ...words), [2, '', said]);
  })
);

test('full devices and closed streams: the server ends with status 1', async () => {
  const full = openSync('/dev/full', 'w');
  try {
    assert.equal(await statusWith(['pipe', full, 'ignore'], initialize), 1);
    // (what can't be said on standard error is left out)
    assert.equal(await statusWith(['pipe', full, full], 'no header\r\n\r\n'), 1);
    const client = new Client([], { stdio: ['pipe', 'pipe', full] });
    await client.begin();
    client.raw('no header\r\n\r\n');
    assert.equal(await client.exited, 1);
  } finally {
    closeSync(full);
  }
  const client = new Client([]);
  await client.begin();
  client.child.stdout.destroy();
  client.notify('textDocument/didOpen', { textDocument: { uri: 'file:///a.js', languageId: 'javascript', version: 1, text: '(a);' } });
  assert.equal(await client.exited, 1);
});

test('signals end the server, in a check too, and no file is left', () =>
  inFolder({ 'a.js': 'debugger;\n' }, async (folder) => {
    for (const signal of ['SIGINT', 'SIGTERM', 'SIGHUP']) {
      const client = new Client([], { cwd: folder });
      await client.begin();
      client.notify('textDocument/didOpen', {
        textDocument: { uri: 'file:///a.js', languageId: 'javascript', version: 1, text: 'f((a), b == c);\n'.repeat(250000) },
      });
      await pause(200);
      client.child.kill(signal);
      assert.equal(await client.exited, signal);
    }
    assert.equal(readFileSync(path.join(folder, 'a.js'), 'latin1'), 'debugger;\n');
  })
);

test("the editor's process ends without a word", async () => {
  const parent = spawn(process.execPath, ['-e', 'setTimeout(() => {}, 600000)']),
    client = new Client([]);
  await client.begin({}, { processId: parent.pid });
  parent.kill('SIGKILL');
  assert.equal(await client.exited, 1);
});

// ---- files

test('odd names, links in a circle, and what is no file', () =>
  inFolder(
    {
      "we ird#%41'\n.js": '(a);',
      'sub/x.js': '(a);',
      'é漢😀.js': '(a);',
      'mark.js': '\ufeffdebugger;',
      'not.js/x': '',
      'bytes.js': Buffer.from([0x28, 0x61, 0xff, 0x29]),
      'big.js': ' '.repeat(16777217),
    },
    async (folder, uriOf) => {
      for (const [link, to] of [
        ['circle.js', 'circle.js'],
        ['a', 'b'],
        ['b', 'a'],
        ['sub/up', '..'],
        ['linked.js', 'sub/x.js'],
        ['gone.js', 'none'],
      ]) symlinkSync(to, path.join(folder, link));
      writeFileSync(Buffer.concat([Buffer.from(`${folder}/latin`), Buffer.from([0xe9]), Buffer.from('.js')]), '(a);');
      // (which would be waited for)
      spawnSync('mkfifo', [path.join(folder, 'pipe.js')]);
      await withClient(async (client) => {
        const result = await checkWorkspace(client),
          shown = shownOf(client);
        assert.deepEqual(result, { files: 7, withReports: 7 });
        assert.deepEqual(codes(shown[uriOf("we ird#%41'\n.js")]), ['no-extra-parens', 'no-undef']);
        assert.deepEqual(codes(shown[uriOf('é漢😀.js')]), ['no-extra-parens', 'no-undef']);
        assert.deepEqual(shown[uriOf('mark.js')].map((it) => [it.code, it.range.start.character]), [['no-debugger', 0]]);
        assert.deepEqual(shown[uriOf('bytes.js')].map((it) => it.message), ['not checked: not UTF-8']);
        assert.deepEqual(shown[uriOf('big.js')].map((it) => it.message), ['not checked: longer than 16777216 bytes']);
        assert.deepEqual(shown[uriOf('latin\ufffd.js')].map((it) => it.message), ['not checked: read failed: missing']);
        for (const uri of ['file:///%ff.js', 'file://elsewhere/a.js', 'untitled:%', 'file:///a%2fb.js', 'a.js', 'file:'])
          assert.equal((await client.open(uri, 'debugger;')).length, 1, uri);
      }, workspaceOf(folder));
    }
  )
);

test('a workspace that is checked again: what was mended or removed is taken back', () =>
  inFolder({ 'a.js': '(a);', 'b.js': '(b);', 'c.js': '1;' }, (folder, uriOf) =>
    withClient(async (client) => {
      assert.deepEqual(await checkWorkspace(client), { files: 3, withReports: 2 });
      writeFileSync(path.join(folder, 'a.js'), '1;\n');
      rmSync(path.join(folder, 'b.js'));
      assert.deepEqual(await checkWorkspace(client), { files: 2, withReports: 0 });
      assert.deepEqual([uriOf('a.js'), uriOf('b.js')].map((it) => shownOf(client)[it]), [[], []]);
    }, workspaceOf(folder))
  )
);

test('settings that are a folder, a link in a circle, not UTF-8: no report is made up', () =>
  inFolder({ 'a/x.js': '', 'b/x.js': '', 'c/jslint.toml': Buffer.from('# \xff', 'latin1'), 'd/jslint.toml/x': '' }, async (folder, uriOf) => {
    symlinkSync('jslint.toml', path.join(folder, 'a/jslint.toml'));
    symlinkSync('none', path.join(folder, 'b/jslint.toml'));
    mkdirSync(path.join(folder, 'e'));
    symlinkSync('.git', path.join(folder, 'e/.git'));
    await withClient(async (client) => {
      for (const [name, why] of [
        ['a', 'read failed: links in a circle'],
        ['b', 'read failed: missing'],
        ['c', 'not UTF-8'],
        ['d', 'read failed: a folder'],
      ]) {
        const found = await client.open(uriOf(`${name}/y.js`), 'debugger;');
        assert.deepEqual(found.map((it) => [it.code, it.message]), [['settings', `not checked: ${path.join(folder, name, 'jslint.toml')}: ${why}`]]);
        assert.deepEqual(await client.request('textDocument/codeAction', { ...at(uriOf(`${name}/y.js`)), range: range(0, 0, 0, 9), context: {} }), []);
        assert.equal(await client.request('textDocument/hover', { ...at(uriOf(`${name}/y.js`)), position: place(0, 0) }), null);
      }
      assert.deepEqual(codes(await client.open(uriOf('e/y.js'), 'debugger;')), ['no-debugger']);
    });
  })
);

test('no permission: a script, a folder, settings', (t) =>
  inFolder({ 'a.js': '(a);', 'shut/b.js': '(b);', 'c/jslint.toml': '', 'c/c.js': '(c);' }, async (folder, uriOf) => {
    // (root may read everything, so the server runs as another user)
    const how = process.getuid() === 0 ? { uid: 65534, gid: 65534 } : {};
    if (spawnSync(process.execPath, [BIN, '--version'], how).status !== 0) {
      t.skip('nobody can run neither Node nor the server here');
      return;
    }
    for (const it of ['a.js', 'shut', 'c/jslint.toml']) chmodSync(path.join(folder, it), 0);
    await withClient(
      async (client) => {
        assert.deepEqual(await checkWorkspace(client), { files: 2, withReports: 2 });
        assert.deepEqual(shownOf(client)[uriOf('a.js')].map((it) => it.message), ['not checked: read failed: not permitted']);
        assert.deepEqual(shownOf(client)[uriOf('c/c.js')].map((it) => it.message), [`not checked: ${folder}/c/jslint.toml: read failed: not permitted`]);
        assert.match(client.errors, /shut: read failed: not permitted/);
        assert.match((await client.open(uriOf('shut/b.js'), '(b);'))[0].message, /not permitted/);
      },
      { ...workspaceOf(folder), how }
    );
    chmodSync(path.join(folder, 'shut'), 0o700);
  })
);
