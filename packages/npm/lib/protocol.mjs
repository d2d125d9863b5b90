// Words of the Language Server Protocol that several modules need: its errors, and what a place has to be.

export const CODES = {
  parse: -32700,
  invalid: -32600,
  noMethod: -32601,
  params: -32602,
  internal: -32603,
  notInitialized: -32002,
  cancelled: -32800,
  modified: -32801,
};

/** An answer that is an error of the protocol. */
export class ResponseError extends Error {
  constructor(code, message) {
    super(message);
    this.code = code;
  }
}

/** What a request or a job ends with that nobody wants any more. */
export const aborted = () => Object.assign(new Error('cancelled'), { name: 'AbortError' });

/** What work gives that is handed a signal, which says so as soon as one of these does. (`AbortSignal.any` is in no Node before 20) */
export async function untilAborted(signals, work) {
  const control = new AbortController(),
    stop = () => control.abort();
  for (const it of signals) {
    if (it.aborted) stop();
    it.addEventListener('abort', stop);
  }
  try {
    return await work(control.signal);
  } finally {
    for (const it of signals) it.removeEventListener('abort', stop);
  }
}

/** What a promise gives, or an AbortError as soon as the signal says so. */
export async function unlessAborted(promise, signal) {
  if (!signal) return promise;
  let stop;
  const end = new Promise((_, reject) => {
    stop = () => reject(aborted());
    if (signal.aborted) stop();
    signal.addEventListener('abort', stop);
  });
  try {
    return await Promise.race([promise, end]);
  } finally {
    signal.removeEventListener('abort', stop);
  }
}

const isCount = (it) => Number.isInteger(it) && it >= 0;

/** A place of the protocol's, or an error of the protocol where it is none. */
export function placeOf(it) {
  if (!isCount(it?.line) || !isCount(it.character)) throw new ResponseError(CODES.params, 'a place has a line and a character, each a number from 0');
  return it;
}

/** A string, or an error of the protocol. */
export function stringOf(it, name) {
  if (typeof it !== 'string') throw new ResponseError(CODES.params, `${name} is a string`);
  return it;
}
