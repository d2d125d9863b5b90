// Formatting, and the commands that rewrite a text.
import { wordsOfIndentation } from './program.mjs';
import { CODES, ResponseError, untilAborted } from './protocol.mjs';

export const COMMANDS = { unwrap: 'jslint.unwrap', layout: 'jslint.layout' };
const CHANGED = 'the document has changed';

function refuse({ message, hint }) {
  throw new ResponseError(CODES.params, `jslint: ${message}${hint ? ` (perhaps: ${hint})` : ''}`);
}

export class Rewriting {
  constructor({ editor, changing, connection, progress }) {
    Object.assign(this, { editor, changing, connection, progress });
  }

  /** What work on a text gives, which is dropped as soon as the text changes; then it is the error of the protocol for that. */
  async unlessChanged(document, signal, work) {
    const { signal: changed } = document.work;
    try {
      return await untilAborted([signal, changed], work);
    } catch (error) {
      throw error.name === 'AbortError' && changed.aborted ? new ResponseError(CODES.modified, CHANGED) : error;
    }
  }

  /** The protocol's edits of a text, if it is still as it was then. */
  editsOf(document, revision, edits) {
    if (!this.editor.isCurrent(document, revision)) throw new ResponseError(CODES.modified, CHANGED);
    return edits.map((it) => ({ range: document.rangeOf(it.start, it.end), newText: it.text }));
  }

  /** Edits of a text, which may be one that isn't open or a new one, as an editor applies them. */
  workspaceEdit(uri, version, edits, isNew = false) {
    if (!this.editor.can.edits) return { changes: { [uri]: edits } };
    const made = isNew ? [{ kind: 'create', uri, options: { ignoreIfExists: true } }] : [];
    return { documentChanges: [...made, { textDocument: { uri, version: version ?? null }, edits }] };
  }

  editOf(document, revision, edits) {
    return this.workspaceEdit(document.uri, document.version, this.editsOf(document, revision, edits));
  }

  answerOf(kind, document, signal, more = {}) {
    return this.changing.run(kind, { ...this.jobOf(document), ...more }, { signal });
  }

  /** A text's job, with what its language is asked by. */
  jobOf({ uri, text }) {
    return { text, ...this.editor.askedFor(uri) };
  }

  /** The edits that unwrap a text, null where it is refused. None take casts, unless that is asked for. */
  async unwrapped(document, signal) {
    const { refusal, edits, hasCasts } = await this.answerOf('unwrap', document, signal);
    return refusal ? null : hasCasts ? [] : edits;
  }

  /** Which lines are asked for: by words of the editor's settings and by its indentation, if there is a program that takes words; else those of the module. */
  linesFor(indentation) {
    const { formatWords, program } = this.editor.options;
    if (program !== null) return { words: [...formatWords, ...wordsOfIndentation(formatWords, indentation)], program };
    if (formatWords.length) throw new ResponseError(CODES.params, 'jslint: the setting formatWords needs the setting program, the path of jslint');
    return { words: [], program: null };
  }

  /** The edits that format a text, or those of them in a stretch; null where it is refused. */
  async inLines(document, signal, indentation, stretch = null) {
    const { edits = null } = await this.answerOf('format', document, signal, { ...this.linesFor(indentation), stretch });
    return edits;
  }

  /** What formatting does: in one layout only if that is set, and no comment can go. */
  async formatted(document, signal, indentation) {
    if (this.editor.options.format === 'lines') return this.inLines(document, signal, indentation);
    if (this.editor.options.format !== 'layout') return this.unwrapped(document, signal);
    const { refusal, edits, hasComments } = await this.answerOf('fix', document, signal);
    return refusal ? null : hasComments ? this.unwrapped(document, signal) : edits;
  }

  /** Of a text that is ignored or refused, and of one in another language, nothing. */
  format({ textDocument, options, workDoneToken }, { signal }) {
    const document = this.editor.document(textDocument),
      { revision } = document;
    if (!this.editor.isChecked(document)) return null;
    return this.unlessChanged(document, signal, async (either) => {
      const edits = await this.progress.during(workDoneToken, 'jslint: formatting', () => this.formatted(document, either, options));
      return edits && this.editsOf(document, revision, edits);
    });
  }

  formatRange({ textDocument, range, options }, { signal }) {
    const document = this.editor.document(textDocument),
      { revision } = document,
      [start, end] = document.indicesOf(range);
    if (!this.editor.isChecked(document)) return null;
    return this.unlessChanged(document, signal, async (either) => {
      const isInLines = this.editor.options.format === 'lines';
      const { edits = null } = isInLines
        ? { edits: await this.inLines(document, either, options, { start, end }) }
        : await this.answerOf('unwrapWithin', document, either, { start, end });
      return edits && this.editsOf(document, revision, edits);
    });
  }

  /** Rewrites a text by a command, and has the editor apply it. A refusal is said, since it was asked for. */
  execute(command, words, workDoneToken, signal) {
    const document = this.editor.document({ uri: words?.[0] }),
      { revision } = document;
    if (!this.editor.isChecked(document)) refuse({ message: `${document.uri} is ${this.editor.isScript(document) ? 'ignored' : 'no script'}` });
    return this.unlessChanged(document, signal, async (either) => {
      const kind = command === COMMANDS.unwrap ? 'unwrap' : 'fix';
      const { refusal, edits } = await this.progress.during(workDoneToken, 'jslint: rewriting', () => this.answerOf(kind, document, either));
      if (refusal) refuse(refusal);
      if (edits.length) await this.connection.request('workspace/applyEdit', { label: 'jslint', edit: this.editOf(document, revision, edits) });
      return null;
    });
  }
}
