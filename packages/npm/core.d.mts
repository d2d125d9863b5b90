// The commands over a module that the caller has compiled: in a bundle, where the module's bytes come by a loader, or in a thread.
import type * as whole from './jslint.mjs';
export { Refused, indexOf } from './jslint.mjs';
export type { Code, Command, Language, Node, Report, Span, Text } from './jslint.mjs';

/** The calls of the package. */
export type Commands = Pick<typeof whole, 'run' | 'check' | 'spans' | 'fix' | 'unwrap' | 'mend' | 'format' | 'tree' | 'treeText' | 'cost' | 'verify' | 'same'>;

/** The calls over `jslint.wasm`, as `WebAssembly.compile` or `new WebAssembly.Module` gives it. Where the stack is too small they refuse with the code `stack`. */
export function commandsOf(module: object): Commands;
