// A client for tests: starts the server and speaks with it, and keeps all that was said.
import { spawn } from 'node:child_process';
import { fileURLToPath } from 'node:url';

export const BIN = fileURLToPath(new URL('../../bin/jslint-lsp.mjs', import.meta.url));
const MOST_MS = Number(process.env.MOST_MS ?? 240000);

export class Client {
  /** `how` is handed to `spawn`. With the word `--test` the server has jobs that go wrong, and waits less long. */
  constructor(words = ['--test'], how = {}) {
    this.child = spawn(process.execPath, [BIN, '--stdio', ...words], { stdio: ['pipe', 'pipe', 'pipe'], ...how });
    Object.assign(this, { lastId: 0, asked: new Map(), heard: [], waits: [], said: [], errors: '', buffer: Buffer.alloc(0), answers: {} });
    this.child.stdout?.on('data', (it) => this.push(it));
    this.child.stderr?.on('data', (it) => {
      this.errors += it;
    });
    this.child.stdin.on('error', () => {});
    this.exited = new Promise((resolve) => this.child.on('exit', (status, signal) => resolve(signal ?? status)));
    this.exited.then((status) => this.asked.forEach(({ reject }) => reject(new Error(`the server ended with ${status}: ${this.errors}`))));
  }

  push(piece) {
    this.buffer = Buffer.concat([this.buffer, piece]);
    for (;;) {
      const end = this.buffer.indexOf('\r\n\r\n');
      if (end < 0) return;
      const length = Number(/Content-Length: (\d+)/.exec(this.buffer.toString('latin1', 0, end))[1]);
      if (this.buffer.length < end + 4 + length) return;
      const message = JSON.parse(this.buffer.toString('utf8', end + 4, end + 4 + length));
      this.buffer = this.buffer.subarray(end + 4 + length);
      this.said.push({ from: 'server', message });
      this.take(message);
    }
  }

  take(message) {
    if (message.method && message.id !== undefined) this.send({ id: message.id, result: this.answers[message.method]?.(message.params) ?? null });
    const asked = message.method ? undefined : this.asked.get(message.id);
    if (!asked) {
      this.heard.push(message);
    } else {
      this.asked.delete(message.id);
      if (message.error) asked.reject(Object.assign(new Error(message.error.message), message.error));
      else asked.resolve(message.result);
    }
    this.waits = this.waits.filter((it) => !it());
  }

  raw(bytes) {
    this.child.stdin.write(bytes);
  }

  send(message) {
    const body = JSON.stringify({ jsonrpc: '2.0', ...message });
    this.said.push({ from: 'client', message: { jsonrpc: '2.0', ...message } });
    this.raw(`Content-Length: ${Buffer.byteLength(body)}\r\n\r\n${body}`);
  }

  notify(method, params) {
    this.send({ method, params });
  }

  request(method, params) {
    const id = ++this.lastId,
      promise = new Promise((resolve, reject) => this.asked.set(id, { resolve, reject }));
    promise.id = id;
    this.send({ id, method, params });
    return promise;
  }

  /** The first message from now on that is as it should be. */
  message(test) {
    const from = this.heard.length;
    return new Promise((resolve, reject) => {
      const timer = setTimeout(() => reject(new Error(`nothing came; ${this.errors}`)), MOST_MS);
      this.waits.push(() => {
        const found = this.heard.slice(from).find(test);
        if (!found) return false;
        clearTimeout(timer);
        resolve(found);
        return true;
      });
    });
  }

  async diagnostics(uri, test = () => true) {
    const found = await this.message((it) => it.method === 'textDocument/publishDiagnostics' && it.params.uri === uri && test(it.params));
    return found.params.diagnostics;
  }

  async begin(capabilities = {}, more = {}) {
    const result = await this.request('initialize', { processId: process.pid, rootUri: null, capabilities, ...more });
    this.notify('initialized', {});
    return result;
  }

  async open(uri, text, version = 1, languageId = 'javascript') {
    const found = this.diagnostics(uri);
    this.notify('textDocument/didOpen', { textDocument: { uri, languageId, version, text } });
    return found;
  }

  change(uri, version, ...contentChanges) {
    this.notify('textDocument/didChange', { textDocument: { uri, version }, contentChanges });
  }

  async end() {
    await this.request('shutdown');
    this.notify('exit');
    return this.exited;
  }
}

export const place = (line, character) => ({ line, character });
export const range = (a, b, c, d) => ({ start: place(a, b), end: place(c, d) });
export const at = (uri) => ({ textDocument: { uri } });

/** Work with a client, which is gone at the end, and whose server has to end well. */
export async function withClient(work, { capabilities = {}, more = {}, words, how } = {}) {
  const client = new Client(words, how);
  try {
    await work(client, await client.begin(capabilities, more));
    const status = await client.end();
    if (status !== 0) throw new Error(`status ${status}: ${client.errors}`);
  } finally {
    client.child.kill('SIGKILL');
  }
}

/** What edits make of a text: places in UTF-16, lines that end at LF or CR LF. */
export function edited(text, edits) {
  const lines = text.split('\n'),
    indexOf = ({ line, character }) => lines.slice(0, line).reduce((sum, it) => sum + it.length + 1, 0) + character;
  const last = [...edits].sort((a, b) => indexOf(b.range.start) - indexOf(a.range.start));
  return last.reduce((all, it) => all.slice(0, indexOf(it.range.start)) + it.newText + all.slice(indexOf(it.range.end)), text);
}
