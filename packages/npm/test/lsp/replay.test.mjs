// The recorded session, played again: what the client said in its order, each message once the server has said what it had said before it.
import assert from 'node:assert/strict';
import { readFileSync } from 'node:fs';
import { test } from 'node:test';
import { Client } from './client.mjs';

/** A message of the server's without the version, and with the first line alone of what a document says. */
function stable({ message }) {
  const { serverInfo, contents } = message.result ?? {};
  if (serverInfo) serverInfo.version = 'VERSION';
  if (contents) contents.value = contents.value.split('\n')[0];
  return JSON.stringify(message);
}

test('the recorded session', async (t) => {
  const session = readFileSync(new URL('session.jsonl', import.meta.url), 'utf8')
      .trim()
      .split('\n')
      .map((it) => JSON.parse(it)),
    client = new Client([]);
  t.after(() => client.child.kill('SIGKILL'));
  // (messages are answered by the record, not by the client)
  client.take = () => {
    client.waits = client.waits.filter((it) => !it());
  };
  const fromServer = (list) => list.filter((it) => it.from === 'server');
  let due = 0;
  for (const {
    from,
    message: { jsonrpc: _jsonrpc, ...message },
  } of session) {
    if (from === 'server') {
      due++;
      continue;
    }
    const isDue = () => fromServer(client.said).length >= due;
    if (!isDue()) await new Promise((resolve) => client.waits.push(() => isDue() && (resolve(), true)));
    client.send(message);
  }
  assert.equal(await client.exited, 0);
  assert.deepEqual(fromServer(client.said).map(stable).sort(), fromServer(session).map(stable).sort());
});
