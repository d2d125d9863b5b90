// usage: latency.mjs SCRIPT ..    how long an editor waits, in milliseconds of the clock, and in brackets what the server computes meanwhile, in
// milliseconds of processor time: medians of some runs. What is typed has the server's 120 ms of waiting in it. Linux alone.
import { readFileSync, readdirSync } from 'node:fs';
import path from 'node:path';
import { setTimeout as pause } from 'node:timers/promises';
import { pathToFileURL } from 'node:url';
import { Client, at, place, range } from './client.mjs';

const RUNS = 9,
  CHANGES = 200;
// How long the actions of a whole text have been asked for when a key comes, in milliseconds.
const ASKED = 60;
const median = (list) => Math.round([...list].sort((a, b) => a - b)[list.length >> 1] * 10) / 10;
const told = (list) => `${median(list.map((it) => it[0]))} (${median(list.map((it) => it[1]))})`;
const begun = performance.now(),
  client = new Client([]);

/** The processor time of all threads of the server so far, in milliseconds. */
function computed() {
  const tasks = `/proc/${client.child.pid}/task`;
  const timeOf = (it) => {
    try {
      return Number(readFileSync(`${tasks}/${it}/schedstat`, 'latin1').split(' ')[0]) / 1e6;
    } catch {
      return 0;
    }
  };
  return readdirSync(tasks).reduce((sum, it) => sum + timeOf(it), 0);
}

async function timed(work) {
  const from = performance.now(),
    before = computed();
  await work();
  return [performance.now() - from, computed() - before];
}

async function repeated(work) {
  const found = [];
  for (let run = 0; run < RUNS; run++) found.push(await timed(() => work(run)));
  return told(found);
}

/** One open script: what is timed of it. */
class Timing {
  constructor(file) {
    const text = readFileSync(file, 'utf8'),
      line = Math.max(0, text.split('\n').findIndex((it, number) => number > 2000 && it.includes('(')));
    Object.assign(this, { file, text, line, uri: pathToFileURL(path.resolve(file)).href, version: 1, shown: null });
  }

  /** Puts a blank in, or takes it out again. */
  type(isIn) {
    const start = place(this.line, 0);
    client.change(this.uri, ++this.version, { range: { start, end: isIn ? start : place(this.line, 1) }, text: isIn ? ' ' : '' });
  }

  answer() {
    const { version } = this;
    return client.diagnostics(this.uri, (it) => it.version === version);
  }

  async typed(run) {
    this.version++;
    const answer = this.answer();
    this.version--;
    this.type(run % 2 === 0);
    this.shown = await answer;
  }

  /** What is typed while the actions of the whole text are asked for, which drops them. */
  async typedBeside() {
    const found = [],
      whole = range(0, 0, this.text.split('\n').length, 0);
    for (let run = 0; run < RUNS; run++) {
      const asked = client.request('textDocument/codeAction', { ...at(this.uri), range: whole, context: { diagnostics: [] } }).catch(() => {});
      await pause(ASKED);
      found.push(await timed(() => this.typed(run)));
      await asked;
    }
    return told(found);
  }

  /** Many changes, then any answer: how long a change itself takes. */
  async changes() {
    for (let run = 0; run < CHANGES; run++) this.type(run % 2 !== 0);
    await client.request('workspace/executeCommand', { command: 'none' }).catch(() => {});
  }

  actions(rule) {
    const range = this.shown.find((it) => it.code === rule)?.range;
    return range ? repeated(() => client.request('textDocument/codeAction', { ...at(this.uri), range, context: { diagnostics: [] } })) : null;
  }

  async all() {
    const found = { file: path.basename(this.file), bytes: Buffer.byteLength(this.text) };
    found.first = told([await timed(() => client.open(this.uri, this.text))]);
    found.typed = await repeated((run) => this.typed(run));
    await this.typed(1);
    found['typed beside actions'] = await this.typedBeside();
    found.change = told([(await timed(() => this.changes())).map((it) => it / CHANGES)]);
    await this.answer();
    found.formatting = await repeated(() => client.request('textDocument/formatting', { ...at(this.uri), options: {} }));
    found.pair = await this.actions('no-extra-parens');
    found['let to const'] = await this.actions('prefer-const');
    found.hover = await repeated(() => client.request('textDocument/hover', { ...at(this.uri), position: place(this.line, 0) }));
    client.notify('textDocument/didClose', at(this.uri));
    return found;
  }
}

const textDocument = { codeAction: { codeActionLiteralSupport: { codeActionKind: { valueSet: [] } } }, publishDiagnostics: { versionSupport: true } };
await client.begin({ textDocument });
console.log(`from start to the answer of initialize: ${Math.round(performance.now() - begun)} (${Math.round(computed())})`);
for (const file of process.argv.slice(2)) console.log(JSON.stringify(await new Timing(file).all()));
console.log(/VmHWM.*/.exec(readFileSync(`/proc/${client.child.pid}/status`, 'latin1'))[0].replace(/\s+/g, ' '));
await client.end();
