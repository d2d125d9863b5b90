// jslint in browsers, and in bundles for them: the module is fetched from beside this file. Where it lies elsewhere, `core` takes it from its caller.
import { commandsOf } from './core.mjs';

async function compiled() {
  const answer = await fetch(new URL('./jslint.wasm', import.meta.url));
  if (!answer.ok) throw new Error(`jslint.wasm: ${answer.status} ${answer.statusText}`);
  return WebAssembly.compile(await answer.arrayBuffer());
}

export const { run, check, spans, fix, unwrap, mend, format, tree, treeText, cost, verify, same } = commandsOf(await compiled());
export { Refused, indexOf } from './core.mjs';
