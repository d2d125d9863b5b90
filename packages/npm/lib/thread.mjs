// The thread in which all proved calls run, so that the protocol goes on beside them, and a call can be given up by ending the thread.
import { parentPort, workerData } from 'node:worker_threads';
import { commandsOf } from '../core.mjs';
import { Jobs } from './jobs.mjs';

const commands = commandsOf(workerData.module),
  { unwanted } = workerData;
let now = 0;

/** Commands of which none begins any more once their job isn't wanted. */
function whileWanted(all) {
  const guarded = (call) => (...words) => {
    if (Atomics.load(unwanted, 0) === now) throw new Error('not wanted any more');
    return call(...words);
  };
  return Object.fromEntries(Object.entries(all).map(([name, call]) => [name, guarded(call)]));
}

const guarded = whileWanted(commands),
  jobs = new Jobs(guarded);
const forEver = (step) => () => {
  for (;;) step();
};
// (for the tests: what happens if a thread ends, a call takes for ever or has no end of them after it, or one fails)
const faults = workerData.isTest
  ? {
      crash: () => process.exit(3),
      hang: forEver(() => {}),
      callOn: forEver(() => guarded.check('')),
      fail: () => {
        throw new Error('as asked');
      },
    }
  : {};

function answerOf(id, kind, job) {
  now = id;
  try {
    return { result: Object.hasOwn(faults, kind) ? faults[kind]() : jobs[kind](job) };
  } catch (error) {
    return { error: String(error?.message ?? error) };
  }
}

parentPort.on('message', ({ id, kind, job }) => parentPort.postMessage({ id, ...answerOf(id, kind, job) }));
