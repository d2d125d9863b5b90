// What the editor has told: its texts, its settings, its folders, and what it can show.
import path from 'node:path';
import { fileURLToPath, pathToFileURL } from 'node:url';
import { Beside, SETTINGS } from './beside.mjs';
import { Document } from './document.mjs';
import { isFormatWord } from './program.mjs';
import { CODES, ResponseError, stringOf } from './protocol.mjs';

export const NAME = 'jslint';
export const SEVERITIES = { error: 1, warning: 2, information: 3, hint: 4 };
const oneOf = (...words) => (it) => words.includes(it);
const isPath = (it) => it === null || (typeof it === 'string' && path.isAbsolute(it));
const number = (least, most) => (it) => Number.isInteger(it) && it >= least && it <= most;
// The editor's settings: for each what holds without it, and what it may be.
const OPTIONS = {
  settings: [null, (it) => it === null || (typeof it === 'string' && it !== '')],
  format: ['unwrap', oneOf('unwrap', 'layout', 'lines')],
  formatWords: [[], (it) => Array.isArray(it) && it.every((each) => typeof each === 'string' && isFormatWord(each))],
  program: [null, isPath],
  jslintFiles: [null, isPath],
  unsupported: ['information', oneOf(...Object.keys(SEVERITIES), 'off')],
  severity: ['warning', oneOf(...Object.keys(SEVERITIES))],
  debounce: [120, number(0, 60000)],
  maxDiagnostics: [1000, number(1, 1e6)],
  suppressions: [true, (it) => typeof it === 'boolean'],
  languages: [['javascript', 'js', 'js-mode', 'js2'], (it) => Array.isArray(it) && it.every((each) => typeof each === 'string')],
};

/** The file of an address, or null where it has none here. */
export function fileOf(uri) {
  try {
    return uri.startsWith('file:') ? fileURLToPath(uri) : null;
  } catch {
    return null;
  }
}

export const uriOf = (file) => pathToFileURL(file).href;

export class Editor {
  constructor() {
    const options = Object.fromEntries(Object.entries(OPTIONS).map(([name, [value]]) => [name, value]));
    Object.assign(this, { documents: new Map(), beside: new Beside(), options, can: {}, folders: [], encoding: 'utf-16' });
  }

  /** Takes the editor's settings; what makes no sense is left as it was. */
  take(options) {
    if (options === null || typeof options !== 'object') return;
    for (const [name, [, isWell]] of Object.entries(OPTIONS)) if (Object.hasOwn(options, name) && isWell(options[name])) this.options[name] = options[name];
  }

  open(textDocument) {
    const uri = stringOf(textDocument?.uri, 'the address of a text');
    const document = new Document(textDocument, this.encoding);
    this.documents.get(uri)?.drop();
    this.documents.set(uri, document);
    return uri;
  }

  /** An open text, or an error of the protocol. */
  document(textDocument) {
    const found = this.documents.get(textDocument?.uri);
    if (!found) throw new ResponseError(CODES.params, `${textDocument?.uri} isn't open`);
    return found;
  }

  /** Whether a text is open, and still as it was then. */
  isCurrent(document, revision) {
    return this.documents.get(document.uri) === document && document.revision === revision;
  }

  isScript(document) {
    return this.options.languages.includes(document.languageId);
  }

  /** The file of the settings for all scripts, if the editor names one. */
  namedSettings() {
    const { settings } = this.options;
    return settings === null ? null : path.resolve(fileOf(this.folders[0] ?? '') ?? '.', settings);
  }

  isSettings(uri) {
    const file = fileOf(uri);
    return file !== null && (path.basename(file) === SETTINGS || file === this.namedSettings());
  }

  /** Where settings for a script would be put: in the folder of the workspace or of the repository that has it; null where there is none. */
  newSettingsFor(uri) {
    const file = fileOf(uri),
      folder =
        this.beside.topOf(file) ??
        this.folders
          .map(fileOf)
          .filter(Boolean)
          .find((it) => file.startsWith(path.join(it, path.sep)));
    return folder ? uriOf(path.join(folder, SETTINGS)) : null;
  }

  openOf(file) {
    return [...this.documents.values()].find((it) => fileOf(it.uri) === file) ?? null;
  }

  /** The settings of a script: those that the editor names, or else the nearest: `{ file, uri, text }`, or `fault` in place of `text`, or null. */
  settingsFor(uri) {
    const file = fileOf(uri),
      named = this.namedSettings(),
      openText = (name) => this.openOf(name)?.text ?? null;
    const found =
      named === null
        ? file && this.beside.settingsFor(file, openText)
        : this.beside.settingsIn(named, openText) ?? { file: named, fault: 'read failed: missing' };
    return found ? { ...found, uri: this.openOf(found.file)?.uri ?? uriOf(found.file) } : null;
  }

  /** Where `jslint-files` may be, which reads settings that the module doesn't. */
  reading() {
    const { jslintFiles, program } = this.options;
    return { jslintFiles, program };
  }

  /** How a text is read: by which settings, from which place these and the text are, whether its name or package.json says that it is a module or a script, and
   * whether comments in it turn reports off. */
  askedFor(uri) {
    const file = fileOf(uri),
      openText = (name) => this.openOf(name)?.text ?? null,
      settings = this.settingsFor(uri);
    return {
      settings: settings?.text ?? '',
      settingsFile: settings?.file ?? null,
      file,
      reading: this.reading(),
      kind: file === null ? null : this.beside.kindOf(file, openText),
      areRead: this.options.suppressions,
    };
  }

  /** Whether a text is one for which anything is said or offered. */
  isChecked(document) {
    return this.isScript(document) && !this.isIgnored(document.uri);
  }

  isIgnored(uri) {
    const file = fileOf(uri);
    return file !== null && this.beside.isIgnored(file, this.folders.map(fileOf).filter(Boolean));
  }
}
