#!/usr/bin/env node
// What the rules find in files, as ESLint's formatter `json` writes it. Status 0 where nothing is found, 1 where there is a report, 2 where a file is
// refused, the words or the settings make no sense, or the output can't be written: as `jslint-files --format json`.
import { resolve } from 'node:path';
import { format, resultOf, unreadResult } from '../eslint-json.mjs';
import { Refused, check } from '../jslint.mjs';
import { read, shown, unread, warn, write } from './streams.mjs';

const NAME = 'jslint-with-proofs-eslint-json';
// The commands take no longer text; of a longer one a byte more than this is read, so that it is refused.
const MOST = 16 * 1024 * 1024;
const USAGE = `usage: ${NAME} [--settings SETTINGS] [--] FILE ..\n`;

/** What is wrong with the words, or why nothing can run or be written. */
class Wrong extends Error {}

/** The settings' name, if there is one, and the names of the files. */
function lineOf(words) {
  const line = { settings: undefined, names: [], isHelp: false },
    left = [...words];
  while (left.length > 0 && left[0] !== '--') {
    const word = left.shift();
    if (word === '--settings') {
      if (left.length === 0) throw new Wrong(`${word} needs a value`);
      line.settings = left.shift();
    } else if (word.startsWith('--settings=')) line.settings = word.slice('--settings='.length);
    else if (word === '--help' || word === '-h') line.isHelp = true;
    else if (word.startsWith('-')) throw new Wrong(`${shown(word)} is no option; a file of that name stands behind --`);
    else line.names.push(word);
  }
  line.names.push(...left.slice(1));
  if (line.names.length === 0 && !line.isHelp) throw new Wrong('no file is named (--help)');
  return line;
}

/** The settings' bytes, which are refused here once, and not for each file. */
function settingsOf(name) {
  try {
    const settings = read(name, MOST + 1);
    check('', { settings });
    return settings;
  } catch (error) {
    throw new Wrong(`${shown(name)}: ${error instanceof Refused ? error.message : unread(error)}`);
  }
}

function resultOfFile(name, settings, takesModules) {
  let text;
  try {
    text = read(name, MOST + 1);
  } catch (error) {
    return unreadResult(resolve(name), unread(error));
  }
  return resultOf(resolve(name), text, { settings, language: takesModules && name.endsWith('.mjs') ? 'module' : undefined });
}

/** Whether modules go with the settings. */
function takesModules(settings) {
  try {
    check('', { settings, language: 'module' });
    return true;
  } catch (error) {
    if (error instanceof Refused) return false;
    throw error;
  }
}

function say(text) {
  try {
    write(1, text);
  } catch {
    throw new Wrong('write failed');
  }
}

function main(words) {
  const line = lineOf(words);
  if (line.isHelp) {
    say(USAGE);
    return 0;
  }
  const settings = line.settings === undefined ? '' : settingsOf(line.settings),
    areModulesTaken = takesModules(settings);
  const results = [...new Set(line.names)].map((it) => resultOfFile(it, settings, areModulesTaken));
  say(`${format(results)}\n`);
  return results.some((it) => it.fatalErrorCount > 0) ? 2 : results.some((it) => it.errorCount > 0) ? 1 : 0;
}

try {
  process.exitCode = main(process.argv.slice(2));
} catch (error) {
  if (!(error instanceof Wrong)) throw error;
  warn(`${NAME}: ${error.message}\n`);
  process.exitCode = 2;
}
