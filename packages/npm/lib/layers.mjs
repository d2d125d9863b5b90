// The settings of each script where they have `[[overrides]]`, or a table `[format]` that can't be passed over here. The module doesn't know these keys, and
// here is no reader of TOML: `jslint-files --print-layers` judges a document and says what it has, once for each text. Which overrides hold for a script, and
// what one makes of those before it, is decided here as jslint-files does it (tools/jslint_files/layers.py).
import { spawnSync } from 'node:child_process';
import { accessSync, constants, realpathSync, statSync } from 'node:fs';
import path from 'node:path';
import { inBytes, isIgnored, patternsOf } from './ignore.mjs';

const READER = 'jslint-files',
  WORDS = ['--print-layers'];
const MOST = 1 << 26,
  MOST_MS = 10_000;
// How many texts are kept, and after how long one that wasn't answered is asked for again.
const MOST_KEPT = 32,
  AGAIN_MS = 60_000;
// Keys that the module doesn't know, and what a text that has them has somewhere.
const OWN = new Set(['overrides', 'format']),
  MAY_HAVE_OWN = /overrides|format/,
  SEEMS_TO_HAVE_OWN = /^[ \t]*(?:\[{1,2}[ \t]*)?["']?(?:overrides|format)\b/m;
const HALF_PAIR = /\p{Surrogate}/u;
// Keys whose values are added to those that stand before.
const ADDED = new Set(['env', 'globals']);
const MISSING = `bad settings: overrides and format are read by ${READER}, which isn't found: the editor's setting jslintFiles names it`;

const isTable = (it) => typeof it === 'object' && it !== null && !Array.isArray(it);

// ---- one over another

/** A rule's value over another one: a severity leaves the options that stood there, and a table what it doesn't name. */
function ruleOver(before, value) {
  const options = isTable(before) ? before : before === undefined ? {} : { severity: before };
  if (isTable(value)) return { ...options, ...value };
  return Object.keys(options).some((it) => it !== 'severity') ? { ...options, severity: value } : value;
}

function rulesOver(before, rules) {
  return Object.entries(rules).reduce((found, [name, value]) => ({ ...found, [name]: ruleOver(found[name], value) }), before);
}

function valueOver(key, before, value) {
  if (before === undefined) return value;
  if (key === 'rules') return rulesOver(before, value);
  return ADDED.has(key) ? [...before, ...value.filter((it) => !before.includes(it))] : value;
}

/** Settings with others over them: rules one by one, names added, all else in place of what stood there. */
export function over(settings, more) {
  return Object.entries(more).reduce((found, [key, value]) => ({ ...found, [key]: valueOver(key, found[key], value) }), settings);
}

// ---- TOML

const keyInToml = (it) => (/^[\w-]+$/.test(it) ? it : inToml(it));

/** A value of settings as TOML has it. */
function inToml(it) {
  if (Array.isArray(it)) return `[${it.map(inToml).join(', ')}]`;
  if (isTable(it))
    return `{ ${Object.entries(it)
      .map(([key, value]) => `${keyInToml(key)} = ${inToml(value)}`)
      .join(', ')} }`;
  return JSON.stringify(it).replaceAll('\x7f', '\\u007f');
}

/** Settings as the module takes them. */
export const documentOf = (settings) =>
  Object.entries(settings)
    .filter(([key]) => !OWN.has(key))
    .map(([key, value]) => `${keyInToml(key)} = ${inToml(value)}\n`)
    .join('');

// ---- which overrides hold

function realOf(name) {
  try {
    return realpathSync(name);
  } catch {
    // (what isn't saved yet is where its folder is)
    const folder = path.dirname(name);
    return folder === name ? name : path.join(realOf(folder), path.basename(name));
  }
}

/** A script's path from the folder of its settings; null for one that isn't below it. */
function nameFrom(settingsFile, file) {
  if (!settingsFile || !file) return null;
  const place = path.join(realOf(path.dirname(file)), path.basename(file)),
    name = path.relative(path.dirname(realOf(settingsFile)), place);
  return name.split(path.sep)[0] === '..' || path.isAbsolute(name) ? null : name.split(path.sep).join('/');
}

/** Whether patterns, as in ignore files, name a path itself, or a folder on the way. */
const areNaming = (files, name) => {
  const patterns = patternsOf(inBytes(files.join('\n')));
  return isIgnored(name, false, (folder) => (folder === '' ? patterns : []));
};

/** The settings of one script, out of layers. */
export function settingsOf({ settings, overrides }, name) {
  const holding = name === null ? [] : overrides.filter((it) => areNaming(it.files, name));
  return holding.reduce((found, it) => over(found, it.settings), settings);
}

// ---- who reads TOML

function isProgram(file) {
  try {
    accessSync(file, constants.X_OK);
    return statSync(file).isFile();
  } catch {
    return false;
  }
}

/** The path of `jslint-files`: the one that the editor names, or else the first that stands beside the named program or in a folder of the PATH; or null. */
export function readerOf({ jslintFiles = null, program = null } = {}) {
  if (jslintFiles !== null) return jslintFiles;
  // (a folder without a beginning would be one of the workspace)
  const folders = [...(program === null ? [] : [path.dirname(program)]), ...(process.env.PATH ?? '').split(path.delimiter).filter(path.isAbsolute)];
  return folders.map((it) => path.join(it, READER)).find(isProgram) ?? null;
}

/** What `jslint-files` says of a document: its layers, why it is refused, or, as `fault`, why nothing was said. */
function asked(reader, text) {
  const it = spawnSync(reader, WORDS, { input: text, encoding: 'utf8', maxBuffer: MOST, timeout: MOST_MS, killSignal: 'SIGKILL' }),
    fault = (why) => ({ fault: `bad settings: ${reader}: ${why}` });
  if (it.error && it.error.code !== 'EPIPE') return fault(it.error.code === 'ETIMEDOUT' ? `no answer within ${MOST_MS / 1000} s` : it.error.code);
  try {
    const told = JSON.parse(it.stdout);
    if (told.refused && it.status === 2) return told;
    if (isTable(told.settings) && Array.isArray(told.overrides) && it.status === 0) return told;
  } catch {
    // (it said something else)
  }
  return fault(it.stderr.split('\n')[0].replace(/^jslint-files: /, '') || `status ${it.status ?? it.signal}`);
}

/** The settings of scripts. `isTaken` says whether the module takes a document as it is. */
export class Layers {
  constructor(isTaken) {
    Object.assign(this, { isTaken, known: new Map() });
  }

  /** What is known of a document: null where it goes to the module as it is; else its layers, why it is refused, or why it can't be read here. */
  read({ settings = '', reading }) {
    if (!MAY_HAVE_OWN.test(settings) || HALF_PAIR.test(settings) || this.isTaken(settings)) return null;
    const reader = readerOf(reading);
    if (reader === null) return SEEMS_TO_HAVE_OWN.test(settings) ? { fault: MISSING } : null;
    const key = `${reader}\n${settings}`,
      known = this.known.get(key);
    if (known && (!known.told.fault || Date.now() < known.until)) return known.told;
    const told = asked(reader, settings);
    this.known.delete(key);
    this.known.set(key, { told, until: Date.now() + AGAIN_MS });
    if (this.known.size > MOST_KEPT) this.known.delete(this.known.keys().next().value);
    return told;
  }

  /** A job with the settings of its own script, or with those that are refused as they are, and `why`. */
  resolved(job) {
    const told = this.read(job);
    if (told === null) return job;
    const why = told.fault ?? told.refused?.words;
    return why === undefined ? { ...job, settings: documentOf(settingsOf(told, nameFrom(job.settingsFile, job.file))) } : { ...job, why };
  }
}
