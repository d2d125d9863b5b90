// The files beside scripts that say how they are to be read: jslint.toml, package.json and the ignore files, looked for from the script's folder up.
import { readFileSync, readdirSync, realpathSync, statSync } from 'node:fs';
import path from 'node:path';
import { unread } from '../bin/streams.mjs';
import { commonFolder, excludesFile, isThere } from './git.mjs';
import { inBytes, isIgnored, patternsOf, verdict } from './ignore.mjs';
import { kindSaid } from './languages.mjs';

export const SETTINGS = 'jslint.toml';
// What says whether scripts are modules.
export const PACKAGE = 'package.json';
// (what the first says goes before what the second says. A repository has two more, which come last: `info/exclude`, and git's `core.excludesFile`)
const IGNORES = ['.jslintignore', '.gitignore'];
// The names of the files beside scripts that say how they are read.
export const WATCHED = [SETTINGS, PACKAGE, ...IGNORES, '.git/info/exclude'];
// The commands take no longer text.
export const MOST_BYTES = 16777216;
// How the names of scripts and modules end.
const SCRIPTS = ['.js', '.mjs', '.cjs'];
// Folders that nobody has checked.
const LEFT_OUT = new Set(['.git', 'node_modules']);

/** A file's text as `{ text }`, where it is asked for with a character for each byte, or why it isn't read as `{ fault }`. */
export function readText(file, isOfBytes = false) {
  const stat = statSync(file);
  if (!stat.isFile()) return { fault: stat.isDirectory() ? 'read failed: a folder' : 'read failed' };
  if (stat.size > MOST_BYTES) return { fault: `longer than ${MOST_BYTES} bytes` };
  const bytes = readFileSync(file);
  if (isOfBytes) return { text: bytes.toString('latin1') };
  try {
    return { text: new TextDecoder('utf-8', { fatal: true, ignoreBOM: true }).decode(bytes) };
  } catch {
    return { fault: 'not UTF-8' };
  }
}

/** Texts of files, read again only if the file has changed. */
class Texts {
  constructor() {
    this.known = new Map();
  }

  /** `{ text }` or `{ fault }` of a file; null where there is none. A file is always asked for in the same way. */
  of(file, isOfBytes = false) {
    try {
      const stat = statSync(file, { throwIfNoEntry: false }),
        state = stat && [stat.ino, stat.mtimeMs, stat.ctimeMs, stat.size].join();
      if (!stat) return isThere(file) ? { fault: 'read failed: missing' } : null;
      const known = this.known.get(file);
      if (known?.state === state) return known.found;
      const found = readText(file, isOfBytes);
      this.known.set(file, { state, found });
      return found;
    } catch (error) {
      return error.code === 'ENOTDIR' ? null : { fault: unread(error) };
    }
  }
}

export class Beside {
  constructor() {
    Object.assign(this, { texts: new Texts(), patterns: new Map(), excludes: new Map() });
  }

  /** The folders from a file's own up to that of its repository, or else to the top of the file system. */
  *foldersOf(file) {
    for (let folder = path.dirname(file);; folder = path.dirname(folder)) {
      yield folder;
      if (path.dirname(folder) === folder || isThere(path.join(folder, '.git'))) return;
    }
  }

  /** The folder of a file's repository, or null where it is in none. */
  topOf(file) {
    const top = [...this.foldersOf(file)].at(-1);
    return isThere(path.join(top, '.git')) ? top : null;
  }

  /** The nearest settings: `{ file, text }`, or `{ file, fault }` where they can't be read, or null. Open texts go first. Files are not merged. */
  settingsFor(script, openText) {
    for (const folder of this.foldersOf(script)) {
      const file = path.join(folder, SETTINGS),
        found = this.settingsIn(file, openText);
      if (found !== null) return found;
    }
    return null;
  }

  /** The settings of a file, as above. */
  settingsIn(file, openText) {
    const open = openText(file),
      found = open === null ? this.texts.of(file) : { text: open };
    return found && { file, ...found };
  }

  /** What a name, or the nearest package.json, says that a file is: 'module', 'script', or null. */
  kindOf(script, openText) {
    if (/\.[cm]js$/.test(script)) return script.endsWith('.mjs') ? 'module' : 'script';
    if (!script.endsWith('.js')) return null;
    for (const folder of this.foldersOf(script)) {
      const file = path.join(folder, PACKAGE),
        text = openText(file) ?? this.texts.of(file)?.text;
      if (text !== undefined) return kindSaid(text);
    }
    return null;
  }

  /** The ignore files that speak of what is below a folder from there on, the first of which goes before the others. */
  ignoresOf(folder) {
    const found = IGNORES.map((it) => path.join(folder, it));
    if (!isThere(path.join(folder, '.git'))) return found;
    if (!this.excludes.has(folder))
      this.excludes.set(folder, [path.join(commonFolder(folder), 'info', 'exclude'), excludesFile(folder)].filter((it) => it !== null));
    return [...found, ...this.excludes.get(folder)];
  }

  /** Has git asked again for the files that it names. */
  forget() {
    this.excludes.clear();
  }

  patternsIn(folder) {
    return this.ignoresOf(folder).flatMap((file) => {
      const text = this.texts.of(file, true)?.text;
      if (text === undefined) return [];
      const known = this.patterns.get(file);
      if (known?.text === text) return known.list;
      const list = patternsOf(text);
      this.patterns.set(file, { text, list });
      return list;
    });
  }

  /** The folder up to which ignore files of a file count, the file's name from there, and what gives the patterns of a folder from there. */
  ignoring(file) {
    const top = [...this.foldersOf(file)].at(-1),
      folderOf = (bytes) => path.join(top, Buffer.from(bytes, 'latin1').toString());
    return { top, name: path.relative(top, file).split(path.sep).join('/'), patternsAt: (bytes) => this.patternsIn(folderOf(bytes)) };
  }

  /** Whether a file is to be left alone: by its own place, or by that of the file to which it leads. `roots` are the folders of the workspace. */
  isIgnored(file, roots = []) {
    let real = file;
    try {
      real = realpathSync(file);
    } catch {
      // (it isn't saved yet)
    }
    return [...new Set([file, real])].some((it) => this.isPlaceIgnored(it, roots));
  }

  isPlaceIgnored(file, roots) {
    const { top, name, patternsAt } = this.ignoring(file),
      from = isThere(path.join(top, '.git')) ? [top] : roots;
    const isLeftOut = (root) =>
      file.startsWith(path.join(root, path.sep)) &&
      path
        .relative(root, file)
        .split(path.sep)
        .some((it) => LEFT_OUT.has(it));
    return from.some(isLeftOut) || isIgnored(name, false, patternsAt);
  }

  /** The scripts in a folder, and the folders in it, without what is ignored, both in order. Links are followed to neither. */
  entriesOf(folder) {
    const entries = readdirSync(folder, { withFileTypes: true }).sort((a, b) => (a.name < b.name ? -1 : 1)),
      found = { scripts: [], folders: [] };
    const { name, patternsAt } = this.ignoring(path.join(folder, 'any')),
      above = inBytes(name).split('/').slice(0, -1);
    for (const it of entries) {
      const isScript = it.isFile() && SCRIPTS.some((end) => it.name.endsWith(end)),
        isFolder = it.isDirectory() && !LEFT_OUT.has(it.name);
      // (the folders above were asked on the way down)
      if ((!isScript && !isFolder) || verdict([...above, inBytes(it.name)], isFolder, patternsAt)) continue;
      found[isScript ? 'scripts' : 'folders'].push(path.join(folder, it.name));
    }
    return found;
  }
}
