// JSON-RPC 2.0 over a pair of streams.
import { Frames, framed } from './frames.mjs';
import { CODES, ResponseError, unlessAborted } from './protocol.mjs';

/** The function that an object has under a name of its own. */
const own = (table, name) => (Object.hasOwn(table, name) ? table[name] : null);

/**
 * One client. There is a function for each method: for requests `(params, { signal }) => result or promise`, for notifications `(params)`.
 * Notifications and the beginnings of requests run in the order in which they came. `gate` says why a method isn't allowed now, or null.
 */
export class Connection {
  constructor(input, output, { requests, notifications, gate, onEnd, onFault }) {
    Object.assign(this, { output, requests, notifications, gate, onFault, running: new Map(), asked: new Map(), lastId: 0 });
    const frames = new Frames((body) => this.receive(body));
    input.on('data', (piece) => {
      try {
        frames.push(piece);
      } catch (error) {
        onFault(error);
        onEnd('broken');
      }
    });
    for (const it of ['end', 'close', 'error']) input.on(it, () => onEnd('closed'));
    output.on('error', () => onEnd('broken'));
  }

  send(message) {
    this.output.write(framed(JSON.stringify({ jsonrpc: '2.0', ...message })));
  }

  notify(method, params) {
    this.send({ method, params });
  }

  /** Asks the client. */
  request(method, params) {
    const id = ++this.lastId;
    this.send({ id, method, params });
    return new Promise((resolve, reject) => this.asked.set(id, { resolve, reject }));
  }

  receive(body) {
    let message;
    try {
      message = JSON.parse(body);
    } catch {
      this.send({ id: null, error: { code: CODES.parse, message: 'this message is no JSON' } });
      return;
    }
    if (message === null || typeof message !== 'object' || Array.isArray(message)) {
      this.send({ id: null, error: { code: CODES.invalid, message: 'this message is no request' } });
    } else if (typeof message.method !== 'string') {
      this.answered(message);
    } else if (message.id === undefined) {
      this.notified(message);
    } else {
      this.requested(message);
    }
  }

  answered({ id, result, error }) {
    const asked = this.asked.get(id);
    if (!asked) return;
    this.asked.delete(id);
    if (error) asked.reject(new ResponseError(error.code, error.message));
    else asked.resolve(result);
  }

  notified({ method, params }) {
    if (method === '$/cancelRequest') {
      this.running.get(params?.id)?.abort();
      return;
    }
    if (this.gate(method, false)) return;
    try {
      own(this.notifications, method)?.(params ?? {});
    } catch (error) {
      this.onFault(error);
    }
  }

  async requested({ id, method, params }) {
    const control = new AbortController(),
      { signal } = control;
    this.running.set(id, control);
    try {
      const refused = this.gate(method, true);
      if (refused) throw refused;
      const handler = own(this.requests, method);
      if (!handler) throw new ResponseError(CODES.noMethod, `no method ${method}`);
      const result = await unlessAborted(handler(params ?? {}, { signal }), signal);
      this.send({ id, result: result ?? null });
    } catch (error) {
      this.send({ id, error: this.errorOf(error) });
    } finally {
      if (this.running.get(id) === control) this.running.delete(id);
    }
  }

  errorOf(error) {
    if (error?.name === 'AbortError') return { code: CODES.cancelled, message: 'cancelled' };
    if (error instanceof ResponseError) return { code: error.code, message: error.message };
    this.onFault(error);
    return { code: CODES.internal, message: `jslint-lsp: ${error?.message ?? error}` };
  }
}
