// Work that an editor is told of: by a token of its own, or by one of the server's if it takes any.

export class Progress {
  constructor(connection, can) {
    Object.assign(this, { connection, can, cancels: new Map(), lastId: 0 });
  }

  /** Begins, and gives what reports and ends. Without a token, and where the editor takes none, nothing is said. */
  begin(title, { message, token, onCancel, percentage } = {}) {
    const isGiven = token !== undefined && token !== null;
    if (!isGiven && !this.can.progress) return { report() {}, end() {} };
    const id = isGiven ? token : `jslint-${process.pid}-${++this.lastId}`,
      first = { kind: 'begin', title, message, cancellable: Boolean(onCancel), percentage };
    const tell = (value) => this.connection.notify('$/progress', { token: id, value });
    let isOpen = isGiven,
      isEnded = false;
    const open = () => {
      if (isEnded) return;
      isOpen = true;
      tell(first);
    };
    if (onCancel) this.cancels.set(id, onCancel);
    if (isOpen) tell(first);
    else this.connection.request('window/workDoneProgress/create', { token: id }).then(open, () => {});
    return {
      report: (value) => {
        if (isOpen) tell({ kind: 'report', ...value });
      },
      end: (last) => {
        this.cancels.delete(id);
        isEnded = true;
        if (isOpen) tell({ kind: 'end', message: last });
      },
    };
  }

  /** Work that the editor gave a token for, if it did. */
  async during(token, title, work) {
    if (token === undefined || token === null) return work();
    const said = this.begin(title, { token });
    try {
      return await work();
    } finally {
      said.end();
    }
  }

  cancel(token) {
    this.cancels.get(token)?.();
  }
}
