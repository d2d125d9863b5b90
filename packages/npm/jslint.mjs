// jslint in Node and in browsers: the module beside this file, and the commands over it.
import { commandsOf } from './core.mjs';

async function compiled() {
  const place = new URL('./jslint.wasm', import.meta.url);
  if (place.protocol === 'file:') {
    const { readFileSync } = await import('node:fs');
    return new WebAssembly.Module(readFileSync(place));
  }
  const answer = await fetch(place);
  if (!answer.ok) throw new Error(`jslint.wasm: ${answer.status} ${answer.statusText}`);
  return WebAssembly.compile(await answer.arrayBuffer());
}

// Node alone has these: where the stack was too small, the command runs again in a thread with a greater one, which is waited for.
const threads = globalThis.process?.versions?.node ? await import('node:worker_threads') : null;
const WORKER = new URL('./worker.mjs', import.meta.url);
const STACK_MB = 64;
// How long such a thread may take to begin, and to answer. One that ended can't be heard of while it is waited for.
const BEGIN_MS = 20000,
  ANSWER_MS = 300000;
// What a thread says of itself: that it has an answer, and that it has begun.
const DONE = 0,
  BEGUN = 1;
const module = await compiled();
let deeper = null;

/** A thread with more stack, which doesn't keep the process from ending; null where there can be none. */
function startDeeper() {
  const said = new Int32Array(new SharedArrayBuffer(8)),
    { port1, port2 } = new threads.MessageChannel();
  port1.unref();
  try {
    const worker = new threads.Worker(WORKER, { workerData: { module, said, port: port2 }, transferList: [port2], resourceLimits: { stackSizeMb: STACK_MB } });
    // (one that fails is seen by its silence)
    worker.on('error', () => {});
    worker.unref();
    if (Atomics.wait(said, BEGUN, 0, BEGIN_MS) !== 'timed-out') return { said, port: port1, worker };
    worker.terminate();
  } catch {
    // (the system has no thread left)
  }
  return null;
}

/** The answer in such a thread; null where there is none. */
function runDeeper(command, text, second, language) {
  deeper ??= startDeeper();
  if (deeper === null) return null;
  const { said, port, worker } = deeper;
  Atomics.store(said, DONE, 0);
  port.postMessage({ command, text, second, language });
  if (Atomics.wait(said, DONE, 0, ANSWER_MS) === 'timed-out') {
    deeper = null;
    worker.terminate();
  }
  return threads.receiveMessageOnPort(port)?.message ?? null;
}

/** (a bundle may have left the thread's file behind) */
async function hasWorker() {
  return threads !== null && WORKER.protocol === 'file:' && (await import('node:fs')).existsSync(WORKER);
}

export const { run, check, spans, fix, unwrap, mend, format, tree, treeText, cost, verify, same } = commandsOf(
  module,
  await hasWorker() ? runDeeper : undefined
);
export { Refused, indexOf } from './core.mjs';
