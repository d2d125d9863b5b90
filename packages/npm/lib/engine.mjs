// Has the proved calls done, one after the other, in a thread of their own. A job that isn't wanted any more is left out; one that runs ends before its next
// proved call. If a call goes on for long, the thread is ended with it: a new thread is slow at first, so there is none after each key.
import { readFileSync } from 'node:fs';
import { Worker } from 'node:worker_threads';
import { aborted } from './protocol.mjs';

// What scripts at the limits of nesting need, and more.
const STACK_MB = 64;
// How long a job that isn't wanted any more may go on.
const PATIENCE_MS = 1000;
const MOST_MS = 60_000;
// After a text as large as this a thread that has nothing to do for a while is ended: its memory doesn't shrink otherwise.
const LARGE = 500_000;
const IDLE_MS = 20_000;
let module = null;

/** Compiled once: all threads share it, and what the engine of JavaScript makes of it as it warms up. */
function compiled() {
  module ??= new WebAssembly.Module(readFileSync(new URL('../jslint.wasm', import.meta.url)));
  return module;
}

const sizeOf = (it) => it.job?.text?.length ?? 0;

export class Engine {
  constructor({ isTest = false, idleMs = IDLE_MS, onLog = () => {} } = {}) {
    // (the number of the last job that isn't wanted any more, which the thread sees while it works)
    const unwanted = new Int32Array(new SharedArrayBuffer(4));
    Object.assign(this, { isTest, idleMs, onLog, unwanted, isLarge: false, waiting: [], now: null, worker: null, lastId: 0, isEnded: false });
  }

  start() {
    const worker = new Worker(new URL('./thread.mjs', import.meta.url), {
      workerData: { module: compiled(), isTest: this.isTest, unwanted: this.unwanted },
      resourceLimits: { stackSizeMb: STACK_MB },
      stdout: true,
      stderr: true,
    });
    const gone = (why) => {
      if (this.worker !== worker) return;
      this.worker = null;
      this.onLog(`the thread ended: ${why}`);
      this.finish({ error: `the thread ended: ${why}` });
    };
    worker.on('message', (it) => {
      if (this.worker === worker && it.id === this.now?.id) this.finish(it);
    });
    worker.on('error', (error) => gone(error.message));
    worker.on('exit', (code) => gone(`status ${code}`));
    worker.unref();
    return worker;
  }

  /** What a job answers. Jobs with a lower rank go first. */
  run(kind, job, { signal, rank = 1, mostMs = MOST_MS } = {}) {
    return new Promise((resolve, reject) => {
      if (signal?.aborted || this.isEnded) {
        reject(aborted());
        return;
      }
      const it = { id: ++this.lastId, kind, job, rank, mostMs, resolve, reject, signal };
      it.onAbort = () => this.abort(it);
      signal?.addEventListener('abort', it.onAbort, { once: true });
      const at = this.waiting.findIndex((other) => other.rank > rank);
      this.waiting.splice(at < 0 ? this.waiting.length : at, 0, it);
      this.proceed();
    });
  }

  proceed() {
    if (this.now || !this.waiting.length || this.isEnded) return;
    const it = this.now = this.waiting.shift();
    clearTimeout(this.idle);
    this.isLarge ||= sizeOf(it) >= LARGE;
    this.timer = setTimeout(() => this.giveUp(`no answer within ${it.mostMs / 1000} s`), it.mostMs);
    try {
      this.worker ??= this.start();
      this.worker.ref();
      this.worker.postMessage({ id: it.id, kind: it.kind, job: it.job });
    } catch (error) {
      this.finish({ error: error.message });
    }
  }

  finish({ result, error }) {
    const it = this.now;
    if (!it) return;
    clearTimeout(this.timer);
    clearTimeout(this.patience);
    this.now = null;
    this.worker?.unref();
    it.signal?.removeEventListener('abort', it.onAbort);
    if (error === undefined) it.resolve(result);
    else it.reject(new Error(error));
    this.proceed();
    if (!this.now && this.isLarge) this.idle = setTimeout(() => this.letGo(), this.idleMs).unref();
  }

  /** Ends a thread that has nothing to do. */
  letGo() {
    const { worker } = this;
    Object.assign(this, { worker: null, isLarge: false });
    worker?.terminate();
  }

  /** Ends the thread, and with it the job that runs. */
  giveUp(why) {
    const { worker } = this;
    this.worker = null;
    worker?.terminate();
    this.onLog(`a job was given up: ${why}`);
    this.finish({ error: why });
  }

  abort(it) {
    it.reject(aborted());
    const at = this.waiting.indexOf(it);
    if (at >= 0) this.waiting.splice(at, 1);
    if (this.now !== it) return;
    Atomics.store(this.unwanted, 0, it.id);
    this.patience = setTimeout(() => this.giveUp('cancelled'), PATIENCE_MS).unref();
  }

  end() {
    this.isEnded = true;
    for (const it of [this.timer, this.patience, this.idle]) clearTimeout(it);
    return this.worker?.terminate();
  }
}
