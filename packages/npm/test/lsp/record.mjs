// usage: record.mjs >session.jsonl    a session with the server, a message a line, for replay.test.mjs and for readers
import { Client, at, place, range } from './client.mjs';

const client = new Client([]),
  uri = 'file:///jslint-session/a.js',
  options = { tabSize: 2, insertSpaces: true };
const changed = async (version, change) => {
  const shown = client.diagnostics(uri, (it) => it.version === version);
  client.change(uri, version, change);
  await shown;
};

await client.begin(
  {
    general: { positionEncodings: ['utf-16'] },
    textDocument: {
      publishDiagnostics: { versionSupport: true, tagSupport: { valueSet: [1, 2] } },
      codeAction: { codeActionLiteralSupport: { codeActionKind: { valueSet: ['quickfix'] } } },
      hover: { contentFormat: ['markdown'] },
    },
  },
  { processId: null }
);
client.answers['workspace/applyEdit'] = () => ({ applied: true });
await client.open(uri, "'😀'; let a = ((1)); // (one)\nif (a == (2)) {}\n");
await client.request('textDocument/hover', { ...at(uri), position: place(1, 4) });
await client.request('textDocument/codeAction', { ...at(uri), range: range(0, 14, 0, 15), context: { diagnostics: [] } });
await client.request('textDocument/formatting', { ...at(uri), options });
await changed(2, { range: range(0, 6, 0, 9), text: 'const' });
await changed(3, { range: range(1, 0, 1, 0), text: 'x = ;\n' });
await client.request('textDocument/formatting', { ...at(uri), options }).catch(() => {});
await changed(4, { range: range(1, 0, 2, 0), text: '' });
await client.request('workspace/executeCommand', { command: 'jslint.unwrap', arguments: [uri] });
const cleared = client.diagnostics(uri);
client.notify('textDocument/didClose', at(uri));
await cleared;
await client.end();
for (const it of client.said) process.stdout.write(`${JSON.stringify(it)}\n`);
