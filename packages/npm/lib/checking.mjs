// Checks open scripts as they are typed, and settings beside them.
import path from 'node:path';
import { Document } from './document.mjs';
import { fileOf } from './editor.mjs';
import { CODES, ResponseError, unlessAborted } from './protocol.mjs';

// After so long a check is told to the editor as work in progress.
const SLOW_MS = 400;

export class Checking {
  constructor({ editor, engine, connection, progress, shown, log }) {
    Object.assign(this, { editor, engine, connection, progress, shown, log, running: new Map(), published: new Set(), judged: new Map() });
  }

  /** Shows diagnostics of a text. That there are none is said only of a text that is open, or had some. */
  publish(uri, diagnostics, version) {
    if (diagnostics.length === 0 && !this.published.has(uri) && !this.editor.documents.has(uri)) return;
    if (diagnostics.length) this.published.add(uri);
    else this.published.delete(uri);
    this.connection.notify('textDocument/publishDiagnostics', { uri, ...(version !== undefined && this.editor.can.versions ? { version } : {}), diagnostics });
  }

  planAll() {
    for (const uri of this.editor.documents.keys()) this.plan(uri, 0);
    if (this.editor.can.pull && this.editor.can.refresh) this.connection.request('workspace/diagnostic/refresh').catch(() => {});
  }

  stop(uri) {
    const running = this.running.get(uri);
    if (!running) return;
    clearTimeout(running.timer);
    running.control.abort();
    this.running.delete(uri);
  }

  stopAll() {
    for (const uri of [...this.running.keys()]) this.stop(uri);
  }

  closed(uri) {
    this.stop(uri);
    this.judged.delete(uri);
    if (this.published.has(uri)) this.publish(uri, []);
  }

  /** Checks a text after a while in which nothing more is typed; of settings, the scripts that have them. */
  plan(uri, wait) {
    const { documents } = this.editor,
      document = documents.get(uri);
    if (this.editor.isSettings(uri)) {
      this.planSettings(document, wait);
      const file = fileOf(uri);
      for (const it of documents.values()) if (this.editor.isScript(it) && this.editor.settingsFor(it.uri)?.file === file) this.plan(it.uri, wait);
      return;
    }
    this.stop(uri);
    if (this.editor.can.pull || !this.editor.isScript(document)) return;
    const running = { control: new AbortController() };
    this.running.set(uri, running);
    running.timer = setTimeout(() => this.checkNow(document, running), wait);
  }

  planSettings(document, wait) {
    const { uri } = document,
      running = { control: new AbortController() };
    this.stop(uri);
    this.running.set(uri, running);
    running.timer = setTimeout(() => {
      this.running.delete(uri);
      this.checkSettings({ uri, text: document.text });
    }, wait);
  }

  async checkNow(document, running) {
    const { uri, revision, version } = document,
      message = path.basename(fileOf(uri) ?? uri);
    const slow = setTimeout(() => {
      running.said = this.progress.begin('jslint: checking', { message });
    }, SLOW_MS);
    try {
      const diagnostics = await this.diagnostics(document, running.control.signal);
      if (this.editor.isCurrent(document, revision)) this.publish(uri, diagnostics, version);
    } catch (error) {
      if (error.name !== 'AbortError') this.log(error.stack);
    } finally {
      clearTimeout(slow);
      running.said?.end();
      if (this.running.get(uri) === running) this.running.delete(uri);
    }
  }

  /** What `check` answers for a text: asked once for all who want it, until the text or what it is read by changes. */
  checked(document, signal) {
    const asked = this.editor.askedFor(document.uri),
      { revision, kept } = document,
      by = JSON.stringify(asked);
    if (kept?.revision !== revision || kept.by !== by) {
      const found = this.engine.run('check', { text: document.text, ...asked }, { signal: document.work.signal });
      document.kept = { revision, by, found };
      // (after a fault it is asked again)
      found.catch(() => {
        if (document.kept?.found === found) document.kept = null;
      });
    }
    return unlessAborted(document.kept.found, signal);
  }

  async diagnostics(document, signal) {
    if (!this.editor.isChecked(document)) return [];
    const settings = this.editor.settingsFor(document.uri),
      { revision } = document;
    if (settings?.fault) return this.shown.fault(document, 'settings', `not checked: ${settings.file}: ${settings.fault}`);
    try {
      const found = await this.checked(document, signal);
      if (found.reports && document.revision === revision) document.marks = found.reports;
      return this.diagnosticsOf(document, found, settings);
    } catch (error) {
      if (error.name === 'AbortError') throw error;
      return this.shown.fault(document, 'failed', `not checked: ${error.message}`);
    }
  }

  diagnosticsOf(document, found, settings) {
    const { refusal } = found;
    if (!refusal) {
      if (settings && this.judged.get(settings.uri)?.isRefused) this.settingsAreTaken(settings);
      return this.shown.reports(document, found);
    }
    if (refusal.code !== 'settings') return this.shown.refusal(document, refusal);
    this.checkSettings(settings);
    return this.shown.fault(document, 'settings', `not checked: ${settings.file}: ${refusal.message}`);
  }

  settingsAreTaken(settings) {
    this.judged.set(settings.uri, { text: settings.text, by: this.readBy(), isRefused: false });
    this.publish(settings.uri, []);
  }

  /** Where settings are read that the module doesn't know, as a text. */
  readBy() {
    return JSON.stringify(this.editor.reading());
  }

  /** Says in settings where they are refused. */
  async checkSettings({ uri, text }) {
    const by = this.readBy(),
      isAsked = () => this.judged.get(uri)?.text === text && this.judged.get(uri).by === by;
    if (isAsked()) return;
    this.judged.set(uri, { text, by, isRefused: false });
    try {
      const found = await this.engine.run('settings', { settings: text, reading: this.editor.reading() }, { rank: 0 });
      if (!isAsked()) return;
      this.judged.get(uri).isRefused = found.line !== null;
      this.publish(uri, this.shown.settings(new Document({ uri, text }, this.editor.encoding), found));
    } catch (error) {
      if (error.name !== 'AbortError') this.log(error.stack);
    }
  }

  async pulled({ textDocument }, { signal }) {
    const document = this.editor.documents.get(textDocument?.uri);
    return { kind: 'full', items: document ? await this.unlessChanged(signal, () => this.diagnostics(document, signal)) : [] };
  }

  async hover({ textDocument, position }, { signal }) {
    const document = this.editor.document(textDocument),
      at = document.indexAt(position),
      settings = this.editor.settingsFor(document.uri);
    if (!this.editor.isChecked(document) || settings?.fault) return null;
    return this.shown.hover(document, await this.unlessChanged(signal, () => this.checked(document, signal)), at);
  }

  /** What a request waits for; where the text changes meanwhile, and the editor didn't cancel it, that is its error. */
  async unlessChanged(signal, work) {
    try {
      return await work();
    } catch (error) {
      throw error.name === 'AbortError' && !signal.aborted ? new ResponseError(CODES.modified, 'the document has changed') : error;
    }
  }
}
