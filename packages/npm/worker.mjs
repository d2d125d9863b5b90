// Runs commands in a thread of its own, with more stack: jslint.mjs starts it once, and waits for each answer.
import { workerData } from 'node:worker_threads';
import { commandsOf } from './core.mjs';

const { module, said, port } = workerData;
const DONE = 0,
  BEGUN = 1;
const { run } = commandsOf(module);

function answered({ command, text, second, language }) {
  try {
    return run(command, text, second, language);
  } catch {
    return null;
  }
}

port.on('message', (asked) => {
  port.postMessage(answered(asked));
  Atomics.store(said, DONE, 1);
  Atomics.notify(said, DONE);
});
Atomics.store(said, BEGUN, 1);
Atomics.notify(said, BEGUN);
