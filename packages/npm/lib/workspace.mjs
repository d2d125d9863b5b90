// Checks all scripts of the workspace that aren't open, and shows what is found.
import { setImmediate as pause } from 'node:timers/promises';
import path from 'node:path';
import { unread } from '../bin/streams.mjs';
import { readText } from './beside.mjs';
import { Document } from './document.mjs';
import { fileOf, uriOf } from './editor.mjs';
import { aborted } from './protocol.mjs';

export const CHECK_WORKSPACE = 'jslint.checkWorkspace';

export class Workspace {
  /** The engine is one of its own, so that what is typed meanwhile isn't kept waiting. */
  constructor({ editor, engine, checking, progress, shown, log }) {
    Object.assign(this, { editor, engine, checking, progress, shown, log, reported: new Set() });
  }

  /** The scripts below the workspace's folders. A folder that can't be read is said. */
  async scripts(signal) {
    const found = new Set(),
      left = this.editor.folders.map(fileOf).filter(Boolean).reverse();
    while (left.length) {
      if (signal.aborted) throw aborted();
      await pause();
      const folder = left.pop();
      try {
        const { scripts, folders } = this.editor.beside.entriesOf(folder);
        for (const it of scripts) found.add(it);
        left.push(...folders.reverse());
      } catch (error) {
        this.log(`${folder}: ${unread(error)}`);
      }
    }
    return [...found];
  }

  /** What the text of a closed file shows, or why it isn't read, as diagnostics. */
  async diagnosticsOf(file, signal) {
    const uri = uriOf(file),
      [languageId] = this.editor.options.languages,
      settings = this.editor.settingsFor(uri),
      none = new Document({ uri, text: '' });
    let read;
    try {
      read = readText(file);
    } catch (error) {
      read = { fault: unread(error) };
    }
    const fault = read.fault ?? (settings?.fault && `${settings.file}: ${settings.fault}`);
    if (fault) return this.shown.fault(none, 'failed', `not checked: ${fault}`);
    // (an editor doesn't count the byte order mark)
    const text = read.text.replace(/^\ufeff/, ''),
      document = new Document({ uri, text, languageId }, this.editor.encoding);
    const found = await this.engine.run('check', { text, ...this.editor.askedFor(uri) }, { signal });
    return this.checking.diagnosticsOf(document, found, settings);
  }

  /** Whether anything was shown of a closed file. */
  async checkFile(file, signal) {
    const uri = uriOf(file);
    if (this.editor.openOf(file)) return false;
    let diagnostics;
    try {
      diagnostics = await this.diagnosticsOf(file, signal);
    } catch (error) {
      if (error.name === 'AbortError') throw error;
      diagnostics = this.shown.fault(new Document({ uri, text: '' }), 'failed', `not checked: ${error.message}`);
    }
    // (it may have been opened meanwhile)
    if (this.editor.openOf(file)) return false;
    this.checking.publish(uri, diagnostics);
    if (diagnostics.length) this.reported.add(file);
    return diagnostics.length > 0;
  }

  /** What an earlier run showed of files that aren't there any more is taken back. */
  forget(files) {
    const here = new Set(files);
    for (const it of [...this.reported].filter((each) => !here.has(each))) {
      this.reported.delete(it);
      if (!this.editor.openOf(it)) this.checking.publish(uriOf(it), []);
    }
  }

  async check(token, signal) {
    const control = new AbortController(),
      stop = () => control.abort();
    signal.addEventListener('abort', stop, { once: true });
    const said = this.progress.begin('jslint: checking the workspace', { token, onCancel: stop, percentage: 0 });
    let done = 0,
      withReports = 0;
    try {
      const files = await this.scripts(control.signal);
      this.forget(files);
      for (const file of files) {
        if (control.signal.aborted) throw aborted();
        if (await this.checkFile(file, control.signal)) withReports++;
        done++;
        if (done % 20 === 0) said.report({ message: `${done} of ${files.length}, ${path.basename(file)}`, percentage: Math.floor(100 * done / files.length) });
      }
      return { files: done, withReports };
    } finally {
      said.end(`${done} scripts`);
    }
  }
}
