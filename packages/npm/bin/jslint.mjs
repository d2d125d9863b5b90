#!/usr/bin/env node
// The program's commands over the WebAssembly module: the same words, answers and statuses.
import { run } from '../jslint.mjs';
import { read, warn, write } from './streams.mjs';

const USAGE = `usage: jslint-with-proofs check [--edition 2020|2022] [--module] [--spans] [--settings SETTINGS] FILE
       jslint-with-proofs mend [--edition 2020|2022] [--module] [--settings SETTINGS] FILE
       jslint-with-proofs fix|unwrap|format|tree|cost [--edition 2020|2022] [--module] FILE
       jslint-with-proofs verify [--edition 2020|2022] [--module] FILE TABLE
       jslint-with-proofs same [--edition 2020|2022] [--module] FILE OTHER
`;
const COMMANDS = ['check', 'fix', 'unwrap', 'mend', 'format', 'tree', 'cost', 'verify', 'same'];

/** Takes a flag, or an option with its value, out of words before `--`: whether it is there, its value, or null where that is missing. */
function taken(words, name, hasValue) {
  const marks = words.indexOf('--'),
    at = words.findIndex((it) => it === name || (hasValue && it.startsWith(`${name}=`)));
  if (at < 0 || (marks >= 0 && marks < at)) return undefined;
  const isSpaced = words[at] === name,
    [word, value = null] = words.splice(at, hasValue && isSpaced ? 2 : 1);
  return !hasValue || (isSpaced ? value : word.slice(name.length + 1));
}

/** The command, the names of its files and what is said of the language, or null where these are no words of the program. */
function lineOf(words) {
  const [command, ...rest] = words,
    isCheck = command === 'check';
  const settings = isCheck || command === 'mend' ? taken(rest, '--settings', true) : undefined,
    hasSpans = isCheck && taken(rest, '--spans');
  const edition = taken(rest, '--edition', true),
    isModule = taken(rest, '--module');
  const files = rest.filter((it) => it !== '--');
  const isWell = COMMANDS.includes(command) && files.length === (['verify', 'same'].includes(command) ? 2 : 1) && settings !== null && edition !== null;
  return isWell ? { command: hasSpans ? 'spans' : command, names: [files[0], files[1] ?? settings], edition, isModule } : null;
}

function refuse(words) {
  warn(`jslint: ${words}\n`);
  return 2;
}

/** The status that a command ends with, or 2 where its answer can't be written. */
function say(text, status) {
  try {
    write(1, text);
  } catch {
    return refuse('write failed');
  }
  return status;
}

function main(words) {
  if (words[0] === '--help') return say(USAGE, 0);
  const line = lineOf(words);
  if (line === null) {
    warn(USAGE);
    return 2;
  }
  if (![undefined, '2020', '2022'].includes(line.edition)) return refuse('--edition is 2020 or 2022');
  if (line.isModule && line.edition === '2020') return refuse("--module doesn't go with --edition 2020");
  if (line.names[0] === '-' && line.names[1] === '-') return refuse('read failed: -: both files are standard input');
  let texts;
  try {
    texts = line.names.map((it) => (it === undefined ? new Uint8Array(0) : read(it === '-' ? '/dev/stdin' : it)));
  } catch {
    return refuse('read failed');
  }
  const answer = run(line.command, ...texts, line.isModule ? 'module' : line.edition);
  if (!answer.isRefusal) return say(answer.text, answer.status);
  warn(answer.text);
  return answer.status;
}

process.exitCode = main(process.argv.slice(2));
